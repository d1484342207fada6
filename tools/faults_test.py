#!/usr/bin/env python3
"""Tries tools/faults.py on tools/fault_samples: every kind of change finds the places that the samples' comments name, and no other; and on
small repositories with a prover that says what is stored in said/: what comes of each verdict.
"""
import collections
import os
import re
import shutil
import subprocess
import sys
import tempfile
import time

sys.dont_write_bytecode = True
import faults
import fault_kinds
import shifts

TOOLS = os.path.dirname(os.path.abspath(__file__))
SAMPLES = os.path.join(TOOLS, 'fault_samples')

# `rt` as the small repositories have it. What it is asked is kept in asked.txt. On a source with a fault it says what VERDICT names; its
# check passes by CHECK and, but for a program's, takes a proved crate away
PROVER = '''#!/bin/sh
echo "$*" >>"$REPOSITORY/asked.txt"
changed=$(diff -rq crates "$REPOSITORY/crates" | wc -l)
whole=$([ "$changed" -eq 0 ] && echo yes)
[ "$changed" -lt 2 ] || echo "two faults at once" >>"$REPOSITORY/asked.txt"
case $1 in
dev) if [ "$whole" ]; then cat "$SAID/$WHOLE.txt"; else cat "$SAID/$VERDICT.txt"; fi >&2 ;;
check)
  [ "$whole" ] || [ "$2" = program ] || rm -r target/rlib/base.rlib || exit 3
  case $CHECK$whole in passes* | failsyes) echo "rt: ok, 1 crates proved" ;; *) echo "rt: FAILED: $2" && exit 1 ;; esac ;;
esac
'''


def read(*path):
    with open(os.path.join(*path), encoding='utf-8') as file:
        return file.read()


def write(text, *path):
    os.makedirs(os.path.dirname(os.path.join(*path)), exist_ok=True)
    with open(os.path.join(*path), 'w', encoding='utf-8') as file:
        file.write(text)


# ---- kinds of change

def short(text):
    return ' '.join(text.split()) or 'nothing'


def named(line):
    """The changes that the comment of a sample's line names."""
    _, *comment = re.split(' (?://|--) ', line, maxsplit=1)
    parts = [part.strip() for part in comment[0].split(' | ')] if comment else []
    return collections.Counter(part for part in parts if part.partition(':')[0] in fault_kinds.KINDS)


def uncommented(text):
    """A sample without the comments that name changes, which could stand inside of one."""
    lines = text.split('\n')
    return '\n'.join(re.split(' (?://|--) ', line)[0] if named(line) else line for line in lines)


def places_found():
    """Each line of the samples has the changes that it names, and no other; each changes the text."""
    seen, wrong = collections.Counter(), []
    for name in sorted(os.listdir(SAMPLES)):
        if name == 'said':
            continue
        marked = read(SAMPLES, name)
        text = uncommented(marked)
        language = shifts.LANGUAGES.get(os.path.splitext(name.removesuffix('.txt'))[1])
        edits = fault_kinds.edits_in_code(text, language) if language else fault_kinds.edits_in_definitions(text)
        found = collections.defaultdict(collections.Counter)
        for kind, edit in edits:
            old = text[edit.start:edit.end]
            assert old != edit.new, (name, kind, old)
            found[text.count('\n', 0, edit.start)][f'{kind}: {short(old)} -> {short(edit.new)}'] += 1
            seen[kind] += 1
        for number, line in enumerate(marked.split('\n')):
            if found[number] != named(line):
                wrong += [f'{name}:{number + 1}: found {list(found[number] - named(line))}, not found {list(named(line) - found[number])}']
    assert not wrong, '\n'.join(wrong)
    assert set(seen) == set(fault_kinds.KINDS), seen
    print(f'{sum(seen.values())} places for faults in samples found')


# ---- small repositories

class Repository:
    """A repository with the tool, a prover of its own and the files given."""

    def __init__(self, folder, files):
        self.folder = folder
        for name in ('faults.py', 'fault_kinds.py', 'shifts.py'):
            write(read(TOOLS, name), folder, 'tools', name)
        write(PROVER, folder, 'bin', 'rt')
        os.chmod(os.path.join(folder, 'bin', 'rt'), 0o755)
        for path, text in files.items():
            write(text, folder, path)
        os.mkdir(os.path.join(folder, 'temporary'))

    def run(self, *words, **said):
        """The status and the lines of the program; it leaves the repository as it was, and no copy."""
        before = self.content()
        own = dict(os.environ, REPOSITORY=self.folder, SAID=os.path.join(SAMPLES, 'said'), WHOLE='proved',
                   TMPDIR=os.path.join(self.folder, 'temporary'), PATH=os.path.join(self.folder, 'bin') + ':' + os.environ['PATH'])
        program = [sys.executable, os.path.join(self.folder, 'tools', 'faults.py'), *words]
        ended = subprocess.run(program, env=own | said, capture_output=True, text=True, check=False)
        assert self.content() == before, words
        assert not os.listdir(os.path.join(self.folder, 'temporary')), words
        return ended.returncode, ended.stdout.splitlines(), ended.stderr

    def content(self):
        paths = [os.path.join(at, name) for at, _, names in os.walk(self.folder) if '.git' not in at for name in names]
        return {path: read(path) for path in paths if not path.endswith('asked.txt')}

    def git(self, *words):
        who = ['-c', 'user.name=sample', '-c', 'user.email=sample', '-c', 'commit.gpgsign=false']
        subprocess.run(['git', *who, *words], cwd=self.folder, check=True, stdout=subprocess.DEVNULL)


def repository(files):
    """A small repository, in a folder that is removed."""
    folder = tempfile.TemporaryDirectory()
    return folder, Repository(folder.name, files)


FLAGS = 'pub fn flags(n: u8) -> bool\n    ensures { λ r. ⌜ n < 2 ⌝ }\n{\n    let a = n < 3;\n    a == true\n}\n'
STAMPS = {'target/rlib/base.rlib/own': '', 'target/stamp/base': ''}
LIBRARY = {'crates.txt': '# all\nsample: base io\nbase:\n', 'crates/sample/src/lib.rt': FLAGS, **STAMPS}


def drawing():
    """The same seed draws the same faults; every kind has its turn before one has its second; lines that didn't change have none."""
    folder, sample = repository(LIBRARY)
    with folder:
        status, lines, _ = sample.run('--list', '--seed', '1')
        assert status == 0 and len(lines) == 5, lines
        assert sample.run('--list', '--seed', '1')[1] == lines
        assert any(sample.run('--list', '--seed', str(seed))[1] != lines for seed in range(2, 9))
        assert len({line.split(': ')[1] for line in lines[:3]}) == 3, lines
        assert sample.run('--list', '--seed', '1', '--count', '2')[1] == lines[:2]
        sample.git('init', '--quiet')
        sample.git('add', 'crates')
        sample.git('commit', '--quiet', '--message', 'sample')
        assert sample.run('--list', '--since', 'HEAD')[:2] == (0, [])
        assert sample.run('--since', 'HEAD', VERDICT='proved')[0] == 0
        write('++ looks like a header\n' + FLAGS.replace('true', 'false'), sample.folder, 'crates/sample/src/lib.rt')
        changed = sorted(line.split(': ')[:2] for line in sample.run('--list', '--since', 'HEAD')[1])
        assert changed == [['crates/sample/src/lib.rt:6', 'boolean'], ['crates/sample/src/lib.rt:6', 'comparison']], changed
        write('const NEW: u8 = 1;\n', sample.folder, 'crates/sample/src/new.rt')
        assert len(sample.run('--list', '--since', 'HEAD')[1]) == 4
        assert not os.path.exists(os.path.join(sample.folder, 'asked.txt'))


def verdicts():
    """Survived, refused and not compiled are told apart; one that survives makes the status 1."""
    folder, sample = repository(LIBRARY)
    with folder:
        status, lines, _ = sample.run('--seed', '1', '--count', '2', VERDICT='proved')
        assert status == 1 and [line.split(': ')[0] for line in lines[:2]] == ['survived'] * 2, lines
        assert lines[2:] == ['0 refused, 2 survived, 0 not compiled (seed 1)'], lines
        assert sample.run('--seed', '1', VERDICT='not_proved')[:2] == (0, ['5 refused, 0 survived, 0 not compiled (seed 1)'])
        assert sample.run('--seed', '1', VERDICT='not_compiled')[:2] == (0, ['0 refused, 0 survived, 5 not compiled (seed 1)'])
        assert len(sample.run('--all', VERDICT='not_proved')[1]) == 6
        assert set(read(sample.folder, 'asked.txt').split('\n')) == {'dev sample', ''}
        for words in ['--count 0', '--crates none', '--since none', '--target none', '--unknown', '--target host --crates sample']:
            assert sample.run(*words.split(), VERDICT='not_proved')[0] == 2, words
        status, lines, said = sample.run(WHOLE='not_proved', VERDICT='not_proved')
        assert (status, lines) == (2, []) and 'as it is' in said, said
        write(FLAGS, sample.folder, 'crates/base/src/lib.rt')
        assert sample.run('--seed', '1', VERDICT='not_proved')[:2] == (0, ['10 refused, 0 survived, 0 not compiled (seed 1)'])
        assert set(read(sample.folder, 'asked.txt').split('\n')) == {'dev base', 'dev sample', ''}
        shutil.rmtree(os.path.join(sample.folder, 'target', 'rlib', 'base.rlib'))
        status, lines, said = sample.run(VERDICT='proved')
        assert (status, lines) == (2, []) and 'base.rlib' in said and 'rt check' in said, said


def checks():
    """What the prover accepts of a program, and of a constant or a definition that another crate names, is judged by `rt check`."""
    constant = {'crates.txt': 'base:\nother: base\nuser: base\n', 'crates/base/src/lib.rt': 'pub const LEAST: usize = 3;\n',
                'crates/user/src/lib.rt': 'use base::limits::LEAST;\n', 'crates/other/src/lib.rt': '', **STAMPS}
    program = {'crates.txt': 'program:\n', 'crates/program/src/main.rt': 'fn main() {\n    f(1);\n}\n', **STAMPS}
    definition = {'crates.txt': 'base:\nuser: base\n', 'crates/base/specs/part/Limits.antt': 'least = 3\n',
                  'crates/user/proofs/Own.antt': 'use Rattle·base.specs.part.Limits.{least}\n', **STAMPS}
    cases = [(constant, 'crates', 'check user', 2), (program, 'crates', 'check program', 3), (definition, 'specs', 'check user', 2)]
    for files, target, check, count in cases:
        folder, sample = repository(files)
        with folder:
            words, refused = ('--target', target, '--seed', '1'), [f'{count} refused, 0 survived, 0 not compiled (seed 1)']
            assert sample.run(*words, VERDICT='proved', CHECK='fails')[:2] == (0, refused)
            assert read(sample.folder, 'asked.txt').split('\n').count(check) == count + 1
            status, lines, _ = sample.run(*words, VERDICT='proved', CHECK='passes')
            assert status == 1 and len(lines) == count + 1, lines
            assert sample.run(*words, VERDICT='not_proved', CHECK='passes')[:2] == (0, refused)
            assert sample.run(*words, VERDICT='proved', CHECK='broken')[0] == 2


def hosts():
    """Header and wrapper are judged by the tests, where they compile."""
    wrapper = 'pub fn first(n: u32, is_new: bool) -> u32 {\n    second(n, is_new)\n}\nfn second(n: u32, _: bool) -> u32 {\n    n\n}\n'
    manifest = '[package]\nname = "sample"\nversion = "0.1.0"\nedition = "2021"\n[workspace]\n'
    files = {'README.md': '', 'include/peers.h': '#define PLACES 8\n', 'host/Cargo.toml': manifest, 'host/src/lib.rs': wrapper,
             'host/test': '#!/bin/sh\ngrep -q "PLACES [89]" include/peers.h\n', 'second/data/own': ''}
    folder, sample = repository(files)
    with folder:
        os.chmod(os.path.join(sample.folder, 'host', 'test'), 0o755)
        status, lines, said = sample.run('--target', 'host')
        assert (status, lines) == (2, []) and 'libpeers.a' in said, said
        write('', sample.folder, 'target/staticlib/libpeers.a')
        status, lines, said = sample.run('--target', 'host', '--seed', '1', '--count', '2')
        assert status == 1 and lines[-1] == '1 refused, 1 survived, 1 not compiled (seed 1)', (lines, said)
        assert lines[:-1] == ['survived: include/peers.h:1: number: 8 -> 9 in: #define PLACES 8'], lines
        write('#define PLACES 7\n', sample.folder, 'include/peers.h')
        assert sample.run('--target', 'host')[0] == 2


def limits():
    """A command ends at its time limit, which refuses the fault, and what it leaves running ends with it."""
    assert faults.Host([]).verdict(('host/test',), None, '') == faults.Crates([]).verdict(('rt', 'dev'), None, '') == faults.REFUSED
    began = time.monotonic()
    assert faults.run(['sleep', '60'], TOOLS, 0.1)[0] is None and time.monotonic() - began < 30
    with tempfile.TemporaryDirectory() as folder:
        assert faults.run(['sh', '-c', '(sleep 1; touch late) & echo said'], folder, 60) == (0, 'said\n')
        time.sleep(2)
        assert not os.listdir(folder)


def main():
    places_found()
    drawing()
    verdicts()
    checks()
    hosts()
    limits()
    print('faults are drawn, put and judged')


if __name__ == '__main__':
    main()
