#!/usr/bin/env python3
"""Tries tools/shifts.py on tools/shift_samples: in refused/ it names each line with the comment `refused` and no other, in passed/ none.

The samples are copied first, and lose a `.txt` at their names' end: the gate takes no Rattle source that is in no crate.
"""
import os
import shutil
import subprocess
import sys
import tempfile

sys.dont_write_bytecode = True
import shifts

SAMPLES = os.path.join(os.path.dirname(os.path.abspath(__file__)), 'shift_samples')


def copied(kind, folder):
    """A copy of the samples of a kind, in a folder of its own."""
    to = os.path.join(folder, kind)
    os.mkdir(to)
    for name in os.listdir(os.path.join(SAMPLES, kind)):
        shutil.copy(os.path.join(SAMPLES, kind, name), os.path.join(to, name.removesuffix('.txt')))
    return to


def marked(path):
    """The lines whose comment says that they are refused."""
    with open(path, encoding='utf-8') as file:
        return [number for number, line in enumerate(file, 1) if line.rstrip().endswith(('// refused', '/* refused */'))]


def said(*paths):
    """The status and the lines of the program."""
    program = [sys.executable, shifts.__file__, *paths]
    ended = subprocess.run(program, stdout=subprocess.PIPE, stderr=subprocess.DEVNULL, text=True, check=False)
    return ended.returncode, ended.stdout.splitlines()


def tried(refused_in, passed_in):
    """Each refused line is named, no other is, and nothing to look at is no success."""
    refused, passed = list(shifts.sources(refused_in)), list(shifts.sources(passed_in))
    for samples in refused, passed:
        assert {os.path.splitext(path)[1] for path in samples} == set(shifts.LANGUAGES), samples
    expected = []
    for path in refused:
        lines = marked(path)
        assert lines, path
        expected += [f'{path}:{line}: shift by a computed count' for line in lines]
    status, lines = said(refused_in)
    assert (status, lines) == (1, expected), set(lines) ^ set(expected)
    status, lines = said(passed_in)
    assert status == 0 and len(lines) == 1, lines
    assert said(passed_in, refused_in)[0] == 1
    assert said(passed_in, os.path.join(passed_in, 'nowhere'))[0] == said()[0] == 1
    print(f'{len(expected)} refused shifts in samples found')


def others():
    """What has no end is no success. What was built isn't looked at."""
    with tempfile.TemporaryDirectory() as folder:
        for name, text, status in [
            ('own.rs', 'x << 3', 0),
            ('target/built.rs', 'x << n', 0),
            ('comment.rs', '/* /* */ x', 1),
            ('string.rs', 'f("x)', 1),
            ('comment.c', '/* x', 1),
        ]:
            path = os.path.join(folder, name)
            os.makedirs(os.path.dirname(path), exist_ok=True)
            with open(path, 'w', encoding='utf-8') as file:
                file.write(text)
            assert said(path if status else folder)[0] == status, name


def main():
    with tempfile.TemporaryDirectory() as folder:
        tried(copied('refused', folder), copied('passed', folder))
    others()


if __name__ == '__main__':
    main()
