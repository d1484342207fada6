#!/usr/bin/env python3
"""Lists the places in crates/*/src that an older form of the language explains: tools/places.py [-v] [TOP].

One line for each crate and one for all, a column for each kind of place; -v lists the places. It finds by text, so a place that is right as it
stands is found too: docs/DESIGN-PASS.md says which are kept and why.

  1a  enums of two or three variants of which one is a failure, as Option and Result have
  1b  flags and numbers with a value beside them: fields of bool, or named as a kind, a number or a mark
  1c  refusals given by a number in the code
  2   functions whose bodies are the same but for names, types and numbers, counted but for one of each
  3   loops with a hand-written test: while and loop
  4a  equality, emptiness and defaults by hand: functions named same.., agree.., is_empty, no_.., empty_.., nothing_..
  4b  casts
  4c  structs copied field by field: literals with four or more fields that are `name: value.name` or `name` after `let name = value.name`
  5   pairs of parameters that three or more functions of a crate share, counted by function and pair
  6   structs with an array and its length in fields
  7   parameters of bool
"""
import collections
import os
import re
import sys

FAILURES = {"Nothing", "Missing", "NoRoom", "Malformed", "Unknown", "Short", "OutOfRange", "Failed", "Refused", "Overflow", "End", "Closed"}
FLAGS = r"held|timed|bound|updated|sent|closed|commits|full|ended|sound|equal|kind|number|phase|entry|explicit|puts_\w+|found|good|more|reading|stopped|failed|opened|running"


def without_comments(text):
    return re.sub(r"//[^\n]*", "", text)


def functions(text):
    """Yields name, parameters and body of each function."""
    for m in re.finditer(r"\bfn (\w+)\s*(<[^(]*>)?\(", text):
        depth, i = 1, m.end()
        while depth:
            depth += {"(": 1, ")": -1}.get(text[i], 0)
            i += 1
        parameters = text[m.end() : i - 1]
        # The body is the first brace at the start of a line, since clauses stand in braces of their own.
        start = re.compile(r"\n *\{\n|\{\n").search(text, i)
        if not start:
            continue
        j = text.index("{", start.start())
        depth, k = 1, j + 1
        while depth and k < len(text):
            depth += {"{": 1, "}": -1}.get(text[k], 0)
            k += 1
        yield m.group(1), parameters, text[j:k]


def shape(body):
    """The body's tokens with one word for each name, and one for each number."""
    words = re.findall(r"[A-Za-z_]\w*|\d[\w.]*|\S", body)
    keep = {"if", "else", "match", "while", "for", "in", "return", "let", "mut", "loop", "break", "as", "true", "false"}
    return tuple(w if w in keep else "n" if re.match(r"[A-Za-z_]", w) else "0" if w[0].isdigit() else w for w in words)


def places(text):
    found = collections.defaultdict(list)
    for m in re.finditer(r"enum (\w+)(?:<[^>]*>)? \{\n(.*?)\n\}", text, re.S):
        variants = re.findall(r"^    (\w+)", m.group(2), re.M)
        if len(variants) <= 3 and FAILURES & set(variants) and len(set(variants) - FAILURES) <= 1:
            found["1a"].append(m.group(1))
    for m in re.finditer(r"(#\[repr\(C\)\]\n)?(?:#\[[^\n]*\n)*(?:pub )?struct (\w+)(?:<[^>]*>)? \{\n(.*?)\n\}", text, re.S):
        fields = re.findall(r"^    (?:pub )?(\w+): ([^\n]*),", m.group(3), re.M)
        for name, kind in fields:
            if kind == "bool" or (re.fullmatch(FLAGS, name) and kind in ("u8", "u32", "usize", "Reading")):
                found["1b"].append(f"{m.group(2)}.{name}")
        arrays = [n for n, k in fields if k.startswith("[")]
        lengths = [n for n, k in fields if re.search(r"(^|_)(len|count|start)$", n)]
        if arrays and lengths:
            found["6"].append(m.group(2))
    found["1c"] += re.findall(r"(?:Refused\(\d+\)|refuse\(\w+, \d+\)|ask_refusal\(\w+, \d+\)|refused_opening\(\d+\))", text)
    found["3"] += re.findall(r"\b(?:while\b|loop \{)[^\n]*", text)
    found["4b"] += re.findall(r"\bas [ui](?:8|16|32|64|size)\b", text)
    for m in re.finditer(r"\b[A-Z]\w* \{([^{}]*)\}", text):
        copied = re.findall(r"\b(\w+): \w+\.\1\b", m.group(1))
        named = [n for n in re.findall(r"(?:^|,)\s*(\w+)\s*(?=,|$)", m.group(1)) if re.search(rf"let {n} = \w+\.{n};", text)]
        if len(copied) + len(named) >= 4:
            found["4c"].append(m.group(0).split(" ")[0])
    return found


def main():
    args = [a for a in sys.argv[1:] if a != "-v"]
    top = args[0] if args else os.path.dirname(os.path.dirname(os.path.abspath(__file__)))
    kinds = ["1a", "1b", "1c", "2", "3", "4a", "4b", "4c", "5", "6", "7"]
    total = collections.Counter()
    shapes = collections.defaultdict(list)
    print(f"{'':20}" + "".join(f"{k:>5}" for k in kinds))
    lines = {}
    for crate in sorted(os.listdir(f"{top}/crates")):
        folder = f"{top}/crates/{crate}/src"
        if not os.path.isdir(folder):
            continue
        found = collections.defaultdict(list)
        pairs = collections.defaultdict(list)
        for name in sorted(os.listdir(folder)):
            text = without_comments(open(f"{folder}/{name}").read())
            for kind, items in places(text).items():
                found[kind] += [f"{name}: {it}" for it in items]
            for fn, parameters, body in functions(text):
                if re.match(r"(same|agree|is_empty$|no_|empty_|nothing_)", fn):
                    found["4a"].append(f"{name}: {fn}")
                named = [p.strip() for p in re.split(r",\s*(?![^<]*>)", parameters) if ":" in p]
                found["7"] += [f"{name}: {fn}({p})" for p in named if p.endswith(": bool")]
                for i, a in enumerate(named):
                    for b in named[i + 1 :]:
                        pairs[(a, b)].append(fn)
                it = shape(body)
                if len(it) >= 12:
                    shapes[it].append((crate, f"{name}: {fn}"))
        for (a, b), fns in pairs.items():
            if len(fns) >= 3:
                found["5"].append(f"{a}, {b}: {' '.join(fns)}")
        lines[crate] = found
    for group in shapes.values():
        for crate, place in group[1:]:
            lines[crate]["2"].append(f"{place} as {group[0][0]} {group[0][1]}")
    for crate, found in lines.items():
        print(f"{crate:20}" + "".join(f"{len(found[k]):5}" for k in kinds))
        for k in kinds:
            total[k] += len(found[k])
            if "-v" in sys.argv:
                for it in found[k]:
                    print(f"    {k:3} {it}")
    print(f"{'all':20}" + "".join(f"{total[k]:5}" for k in kinds))


main()
