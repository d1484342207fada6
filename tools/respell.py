#!/usr/bin/env python3
"""Respells the definitions and lemmas of crates/ as today's Rattle spells its own: a word that begins with a small letter and has a capital
one inside, as `soundStore` or `eqBytes-refl`, gets underscores, `sound_store`, `eq_bytes-refl`. Types, modules and constructors keep their
capitals, and the names of src/ are in that spelling already. It stops where two names would become one.

usage: tools/respell.py [FOLDER]     the checkout, this one where none is given; files are rewritten in place
"""

import collections
import os
import re
import sys

# a literal text, which stays, or a word
WORD = re.compile(r'"(?:[^"\\\n]|\\.)*"|\bb\'.\'|[A-Za-z0-9_\'\-]+')
INNER = re.compile(r"(?<=[a-z0-9'])([A-Z])")


def files(root):
    for folder, dirs, names in os.walk(os.path.join(root, "crates")):
        dirs[:] = sorted(d for d in dirs if d != "out")
        for n in sorted(names):
            if n.endswith((".antt", ".rt", ".edit")):
                yield os.path.join(folder, n)


def respelled(word):
    return INNER.sub(lambda m: "_" + m.group(1).lower(), word) if "a" <= word[0] <= "z" and not word.startswith("b'") else word


def main(root):
    made = collections.defaultdict(set)
    for path in files(root):
        with open(path, encoding="utf-8") as f:
            for w in WORD.findall(f.read()):
                if respelled(w) != w:
                    made[respelled(w)].add(w)
    twice = sorted(to for to, words in made.items() if len(words) > 1)
    if twice:
        print("respell: these would fall together: " + ", ".join(twice), file=sys.stderr)
        return 1
    for path in files(root):
        with open(path, encoding="utf-8") as f:
            old = f.read()
        new = WORD.sub(lambda m: respelled(m.group(0)), old)
        if new != old:
            with open(path, "w", encoding="utf-8") as f:
                f.write(new)
    print(f"respell: {len(made)} names")
    return 0


if __name__ == "__main__":
    raise SystemExit(main(sys.argv[1] if len(sys.argv) > 1 else "."))
