#!/usr/bin/env python3
"""Puts random faults, one at a time, into a copy of the repository's code, and has each judged:

    python3 tools/faults.py [--target crates|specs|host] [--crates A,B] [--count N] [--seed N] [--since REV] [--all] [--list]

A fault is refused or survives; one that doesn't compile isn't counted. A line for each that survives, and the counts at the end. Status 1
if one survived, 2 on bad usage or where the code without a fault isn't accepted. TARGETS says which files get faults and what judges them,
tools/fault_kinds.py which kinds of change there are; they are drawn evenly over the kinds.
"""
import argparse
import collections
import glob
import itertools
import os
import random
import re
import shutil
import signal
import subprocess
import sys
import tempfile
import time

sys.dont_write_bytecode = True
import shifts
from fault_kinds import edits_in_code, edits_in_definitions

TOP = os.path.dirname(os.path.dirname(os.path.abspath(__file__)))
REFUSED, SURVIVED, NOT_COMPILED = 'refused', 'survived', 'not compiled'


class Unready(Exception):
    """Why nothing can be judged."""


class Fault(collections.namedtuple('Fault', 'path kind start end new text')):
    """What stands in the text of a file from start up to end becomes `new`."""

    def lines(self):
        """The numbers of the lines that it changes."""
        first = self.text.count('\n', 0, self.start) + 1
        return range(first, first + self.text.count('\n', self.start, self.end) + 1)

    def faulty(self):
        """The text with the fault."""
        return self.text[:self.start] + self.new + self.text[self.end:]

    def __str__(self):
        number = self.lines()[0]
        line = self.text.split('\n')[number - 1].strip()
        old, new = (' '.join(part.split()) for part in (self.text[self.start:self.end], self.new))
        return f'{self.path}:{number}: {self.kind}: {old} -> {new or "nothing"} in: {line}'


# ---- targets: which files get faults, and what judges them
#
# A target has `parts`, what of the repository the copy has; `grace`, the seconds that a command may take beside three times what it takes
# without a fault; `files`, those that get faults; `missing`, what has to be made first; `commands`, what judges a fault, one after the
# other while it survives; `verdict`, what came of one of them, by its status (none where its time was over) and what it said; `spoiled`,
# what of the copy it changes.

class Crates:
    """The code of the crates, judged by the prover. What it accepts of a program is judged by the program's run, and the value of a
    constant by the other crates that name it."""

    parts = ['crates.txt', 'crates', 'target/rlib', 'target/stamp', 'target/inc']
    grace = 1800

    def __init__(self, wanted):
        self.dependencies = dependencies()
        self.crates = wanted or list(self.dependencies)
        for crate in self.crates:
            if crate not in self.dependencies:
                raise Unready(f'crates.txt has no {crate}')

    def files(self):
        return [path for crate in self.crates for path in sources(f'crates/{crate}/src/**/*.rt')]

    def missing(self, faults):
        for crate in sorted({crate_of(fault.path) for fault in faults}):
            for needed in self.needed(crate):
                if not sources(f'target/rlib/{needed}.rlib'):
                    return f'target/rlib has no {needed}.rlib, which {crate} needs: run `rt check` first'
        return None

    def needed(self, crate):
        """The crates of the repository that a crate needs."""
        found, ahead = set(), [crate]
        while ahead:
            more = set(self.dependencies.get(ahead.pop(), [])) & set(self.dependencies) - found
            found |= more
            ahead += more
        return sorted(found)

    def commands(self, fault):
        others = self.others(fault)
        return [('rt', 'dev', crate_of(fault.path))] + [('rt', 'check', *others)] * bool(others)

    def verdict(self, command, status, said):
        if command[1] == 'check':
            return SURVIVED if status == 0 and 'rt: ok' in said else REFUSED
        if status is None or re.search('^logic=not-proved', said, re.M):
            return REFUSED
        return SURVIVED if re.search('^logic=proved', said, re.M) else NOT_COMPILED

    def spoiled(self, command, fault):
        """The check of other crates proves again what depends on the fault."""
        is_own = command[1] == 'dev' or command[2:] == (crate_of(fault.path),)
        return [] if is_own else ['target/rlib', 'target/stamp']

    def others(self, fault):
        """The crates that are checked where the prover accepts a fault: its own where that is a program, and those that name a constant
        whose value it changes."""
        crate = crate_of(fault.path)
        named = sources(f'crates/{crate}/src/main.rt')
        for found in re.finditer(r'^pub const (\w+)[^=]*=[^;]*;', fault.text, re.M):
            if found.start() <= fault.start < found.end():
                named += naming(rf'\b{crate}::(\w+::)*{found[1]}\b')
        return [other for other in self.dependencies if other in map(crate_of, named)]


class Specs(Crates):
    """The definitions of the crates, judged by the prover in their crate, and, where it accepts them, in those that name their module."""

    def files(self):
        return [path for crate in self.crates for path in sources(f'crates/{crate}/specs/**/*.antt')]

    def others(self, fault):
        module = fault.path.split('/', 3)[3].removesuffix('.antt').replace('/', '.')
        named = naming(rf'Rattle·{crate_of(fault.path)}\.specs\.{re.escape(module)}\b')
        return [other for other in self.dependencies if other in map(crate_of, named)]


class Host:
    """Header, wrapper and examples, judged by host/test where they compile. It links the archive in target/staticlib."""

    parts = ['README.md', 'include', 'host', 'second/data', 'target/staticlib']
    grace = 60

    def __init__(self, wanted):
        if wanted:
            raise Unready('--crates isn\'t for the target host')

    def files(self):
        return sources('include/peers.h') + sources('host/src/*.rs') + sources('host/examples/**/*.rs')

    def missing(self, _):
        return None if sources('target/staticlib/libpeers.a') else 'target/staticlib has no libpeers.a: run `tools/build peers` first'

    def commands(self, fault):
        if fault.path.endswith('.h'):
            flags = ['-std=c11', '-Wall', '-Wextra', '-Werror', '-fsyntax-only', '-x', 'c']
            compiled = (*os.environ.get('CC', 'cc').split(), *flags, fault.path)
        else:
            compiled = ('cargo', 'check', '--offline', '--quiet', '--lib', '--examples', '--manifest-path', 'host/Cargo.toml')
        return [compiled, ('host/test',)]

    def verdict(self, command, status, _):
        if status == 0:
            return SURVIVED
        return REFUSED if command == ('host/test',) else NOT_COMPILED

    def spoiled(self, *_):
        return []


TARGETS = {'crates': Crates, 'specs': Specs, 'host': Host}


# ---- the repository

def read(path):
    with open(os.path.join(TOP, path), encoding='utf-8') as file:
        return file.read()


def sources(pattern):
    """The files of the repository that a pattern names, from its top."""
    return sorted(os.path.relpath(path, TOP) for path in glob.glob(os.path.join(TOP, pattern), recursive=True))


def crate_of(path):
    return path.split('/')[1]


def naming(pattern):
    """The files of the crates that have this in their text."""
    paths = sources('crates/*/**/*.rt') + sources('crates/*/**/*.antt')
    return [path for path in paths if re.search(pattern, read(path))]


def dependencies():
    """The crates of crates.txt, in its order, with what each depends on."""
    lines = [line.partition('#')[0].partition(':') for line in read('crates.txt').splitlines()]
    return {name.strip(): needed.split() for name, _, needed in lines if name.strip()}


def copy_part(part, copy):
    """A file or folder in the copy; what is built in host/ isn't copied."""
    source, to = os.path.join(TOP, part), os.path.join(copy, part)
    os.makedirs(os.path.dirname(to), exist_ok=True)
    if os.path.isdir(source):
        shutil.copytree(source, to, symlinks=True, ignore=shutil.ignore_patterns('target') if part == 'host' else None)
    elif os.path.exists(source):
        shutil.copy2(source, to)


def changed_since(revision):
    """The lines of each file that changed since a revision; all of a file that git doesn't know has."""
    def git(*words):
        ended = subprocess.run(['git', '-C', TOP, '-c', 'core.quotepath=off', *words], capture_output=True, text=True, check=False)
        if ended.returncode != 0:
            raise Unready(ended.stderr.strip())
        return ended.stdout.split('\n')

    changed, path = {}, None
    lines = iter(git('diff', '--no-color', '--no-ext-diff', '--no-prefix', '--unified=0', revision, '--'))
    for line in lines:
        hunk = re.match(r'@@ -\d+(?:,(\d+))? \+(\d+)(?:,(\d+))? @@', line)
        if line.startswith('+++ '):
            path = line[4:]
        elif hunk:
            first, (old, new) = int(hunk[2]), (int(count or 1) for count in hunk.group(1, 3))
            changed.setdefault(path, set()).update(range(first, first + new))
            collections.deque(itertools.islice(lines, old + new), 0)  # its lines, which can look like a header
    for path in git('ls-files', '--others', '--exclude-standard'):
        changed[path] = range(1, sys.maxsize)
    return changed


# ---- faults

def faults_in(path):
    """All faults that can be put into a file."""
    text = read(path)
    language = shifts.LANGUAGES.get(os.path.splitext(path)[1])
    try:
        edits = edits_in_code(text, language) if language else edits_in_definitions(text)
    except shifts.Unread as unread:
        raise Unready(f'{path}:{unread}: a comment or string without an end') from None
    return [Fault(path, kind, *edit, text) for kind, edit in edits]


def drawn(faults, seed):
    """The faults in the order in which they are tried: one of each kind, then again, until all of a kind are through."""
    random_order = random.Random(seed)
    kinds = collections.defaultdict(list)
    for fault in faults:
        kinds[fault.kind].append(fault)
    for same in kinds.values():
        random_order.shuffle(same)
    rest = list(kinds.values())
    random_order.shuffle(rest)
    while rest:
        yield from [same.pop() for same in rest]
        rest = [same for same in rest if same]


# ---- judging

def run(command, folder, limit):
    """The status of a command and what it wrote; no status where the time limit is over. What it left running ends with it."""
    own = {name: value for name, value in os.environ.items() if name not in ('PEERS_LIB_DIR', 'CARGO_TARGET_DIR')}
    with tempfile.TemporaryFile() as wrote:
        try:
            streams = {'stdin': subprocess.DEVNULL, 'stdout': wrote, 'stderr': wrote}
            child = subprocess.Popen(command, cwd=folder, env=own, start_new_session=True, **streams)
        except FileNotFoundError:
            raise Unready(f'{command[0]} isn\'t here') from None
        try:
            status = child.wait(limit)
        except subprocess.TimeoutExpired:
            status = None
        finally:
            try:
                os.killpg(child.pid, signal.SIGKILL)
            except ProcessLookupError:
                pass
            child.wait()
        wrote.seek(0)
        return status, wrote.read().decode('utf-8', 'replace')


def write(copy, path, text):
    with open(os.path.join(copy, path), 'w', encoding='utf-8') as file:
        file.write(text)


class Judge:
    """What a target says of faults in a copy. Each command is first tried without a fault, which says how long it may take."""

    def __init__(self, target, copy):
        self.target, self.copy, self.limits = target, copy, {}

    def accept(self, command):
        began = time.monotonic()
        status, said = run(command, self.copy, None)
        if self.target.verdict(command, status, said) != SURVIVED:
            raise Unready(f'`{" ".join(command)}` fails as it is:\n{said}')
        self.limits[command] = self.target.grace + 3 * (time.monotonic() - began)

    def tried(self, command, fault):
        """What a command says of a fault; the copy is afterwards as it was."""
        spoiled = [os.path.join(self.copy, part) for part in self.target.spoiled(command, fault)]
        for part in spoiled:
            shutil.copytree(part, f'{part}.kept', symlinks=True)
        write(self.copy, fault.path, fault.faulty())
        status, said = run(command, self.copy, self.limits[command])
        write(self.copy, fault.path, fault.text)
        for part in spoiled:
            shutil.rmtree(part)
            os.rename(f'{part}.kept', part)
        return self.target.verdict(command, status, said)

    def verdict(self, fault):
        for command in self.target.commands(fault):
            if command not in self.limits:
                self.accept(command)
            verdict = self.tried(command, fault)
            if verdict != SURVIVED:
                return verdict
        return SURVIVED


def judged(target, faults, options):
    """Has as many faults judged as are asked for, and counts them by what came of it."""
    missing = target.missing(faults)
    if missing:
        raise Unready(missing)
    counts = collections.Counter()
    with tempfile.TemporaryDirectory(prefix='faults-') as copy:
        for part in target.parts:
            copy_part(part, copy)
        judge = Judge(target, copy)
        for fault in drawn(faults, options.seed):
            if counts[REFUSED] + counts[SURVIVED] == options.count:
                break
            verdict = judge.verdict(fault)
            counts[verdict] += 1
            if verdict == SURVIVED or options.all:
                print(f'{verdict}: {fault}', flush=True)
    return counts


# ---- the program

def asked(arguments):
    parser = argparse.ArgumentParser(description='Puts random faults into a copy of the code, and has each judged.')
    parser.add_argument('--target', choices=TARGETS, default='crates', help='what gets the faults (crates)')
    parser.add_argument('--crates', type=lambda names: names.split(','), default=[], help='only these crates, with a comma between')
    parser.add_argument('--count', type=int, default=20, help='how many faults are judged (20)')
    parser.add_argument('--seed', type=int, default=random.randrange(10000), help='the same seed draws the same faults')
    parser.add_argument('--since', metavar='REV', help='only lines that changed since a revision')
    parser.add_argument('--all', action='store_true', help='a line for each fault, not only for those that survive')
    parser.add_argument('--list', action='store_true', help='the faults that would be tried; none is')
    options = parser.parse_args(arguments)
    if options.count < 1:
        parser.error('--count is 1 or more')
    return options


def main(arguments):
    options = asked(arguments)
    target = TARGETS[options.target](options.crates)
    faults = [fault for path in target.files() for fault in faults_in(path)]
    if options.since:
        changed = changed_since(options.since)
        faults = [fault for fault in faults if not set(fault.lines()).isdisjoint(changed.get(fault.path, ()))]
    elif not faults:
        raise Unready('there is no place for a fault')
    if options.list:
        for fault, _ in zip(drawn(faults, options.seed), range(options.count)):
            print(fault)
        return 0
    counts = judged(target, faults, options) if faults else collections.Counter()
    print(f'{counts[REFUSED]} refused, {counts[SURVIVED]} survived, {counts[NOT_COMPILED]} not compiled (seed {options.seed})')
    return 1 if counts[SURVIVED] else 0


if __name__ == '__main__':
    signal.signal(signal.SIGTERM, lambda *_: sys.exit(2))  # so that the copy is removed
    try:
        sys.exit(main(sys.argv[1:]))
    except Unready as unready:
        print(f'faults.py: {unready}', file=sys.stderr)
        sys.exit(2)
