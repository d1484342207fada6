#!/usr/bin/env python3
"""Names file and line of every shift by a computed count in Rust, Rattle and C sources, and ends with status 1 if there is one:

    python3 tools/shifts.py PATH..

A count is constant if it has literals, NAMED_CONSTANTS (a path before the name, as in u8::BITS), operators and parentheses only;
a parameter of a C macro is no constant, but what a macro in capitals stands for isn't looked at. A function named like a shift or a rotation is one too, its last argument being the count.

Two `<` or `>` side by side are a shift, unless they are brackets of Rust's generics. These open behind a name in CamelCase, a name
that is being declared, a macro's `$name`, `::`, `impl` or `for`, or where no operand is; they hold only what types have, and close.
Behind any other name `<` compares. In doubt it is a shift.
"""
import os
import re
import sys
from collections import namedtuple

RUST_TOKEN = r'''(?P<skip>\s+|//[^\n]*)
    |(?P<text>[bc]?r(?P<hashes>\#*)".*?"(?P=hashes)|[bc]?"(?:\\.|[^"\\])*"|b?'(?:\\u\{[^}]*\}|\\x..|\\.|[^\\'\n])')
    |(?P<lifetime>'[^\W\d]\w*)
    |(?P<name>(?:r\#)?[^\W\d]\w*)|(?P<number>\d\w*)|(?P<sign>->|=>|::|&&|\|\||[=!]=|\.\.|.)'''
C_TOKEN = r'''(?P<skip>\s+|\\\r?\n|//(?:\\\r?\n|[^\n])*)
    |(?P<text>(?:u8|[uUL])?(?:"(?:\\.|[^"\\\n])*"|'(?:\\.|[^'\\\n])+'))
    |(?P<name>[^\W\d]\w*)|(?P<number>\d\w*)|(?P<sign>--|->|&&|\|\||[=!]=|.)'''
Language = namedtuple('Language', 'token generics nested')  # nested: comments may be
RUST = Language(re.compile(RUST_TOKEN, re.X | re.S), True, True)
C = Language(re.compile(C_TOKEN, re.X | re.S), False, False)
LANGUAGES = {'.rs': RUST, '.rt': RUST, '.c': C, '.h': C}

Token = namedtuple('Token', 'kind text at line')
END = Token('end', '', -1, 0)

CONSTANT = re.compile('_*[A-Z][A-Z0-9_]*')
CAMEL_CASE = re.compile('[A-Z][A-Za-z0-9]*[a-z][A-Za-z0-9]*')
PARAMETERS = re.compile(r'#[ \t]*define[ \t]+\w+\(([^)]*)\)')
SHIFTING = re.compile(r'(\w+_)?sh[lr](_assign|_exact)?|rotate_(left|right)')
DECLARING = {'fn', 'struct', 'enum', 'union', 'trait', 'type'}
BEFORE_OPERAND = {'as', 'break', 'dyn', 'else', 'if', 'in', 'match', 'mut', 'return', 'while'}
AFTER_TYPE = {'as', 'ensures', 'for', 'requires', 'where'}
OPERAND = {'(', '[', '-', '!', '*', '&', '<', '$'}  # what an operand may begin with
IN_TYPES = {'::', ',', '&', '&&', '*', '+', '=', ':', '?', '!', '->', '$'}
IN_COUNT = {'::', '.', '+', '-', '*', '/', '%', '!', '~'}  # what binds tighter than a shift
IN_CONSTANT = {'::', '+', '-', '*', '/', '%', '!', '~', '(', ')', '|', '&', '^', '<', '>'}


class Unread(Exception):
    """Text that has no end."""


def comment_end(text, at, nested):
    """The position behind the block comment at `at`."""
    depth = 0
    for mark in re.compile(r'/\*|\*/').finditer(text, at):
        if mark[0] == '*/':
            depth -= 1
        elif nested or depth == 0:
            depth += 1
        if depth == 0:
            return mark.end()
    raise Unread(text.count('\n', 0, at) + 1)


def tokens_of(text, language):
    """The tokens, without spaces and comments."""
    tokens, at, line = [], 0, 1
    while at < len(text):
        if text.startswith('/*', at):
            end = comment_end(text, at, language.nested)
        else:
            found = language.token.match(text, at)
            end, kind = found.end(), found.lastgroup
            if found[0] == '"':
                raise Unread(line)
            if kind != 'skip':
                tokens.append(Token(kind, found[0], at, line))
        line += text.count('\n', at, end)
        at = end
    return tokens


class Source:
    """Tokens, parameters of C macros, and brackets: `pairs` from each opening one to its end, `generics` the angle ones of generics."""

    def __init__(self, text, language):
        self.tokens = tokens_of(text, language)
        self.parameters = set(re.findall(r'\w+', ' '.join(PARAMETERS.findall(text))))
        self.pairs = {}
        self.generics = set()
        self.pair()
        if language.generics:
            for i in range(len(self.tokens)):
                if self.is_at(i, '<') and i not in self.generics:
                    self.generics |= self.generics_at(i)

    def __getitem__(self, i):
        return self.tokens[i] if 0 <= i < len(self.tokens) else END

    def is_at(self, i, sign):
        return self[i].kind == 'sign' and self[i].text == sign

    def joined(self, i, sign):
        """Whether a sign follows the sign at i without a space."""
        return self.is_at(i + 1, sign) and self[i + 1].at == self[i].at + len(self[i].text)

    def pair(self):
        opened = []
        for i, token in enumerate(self.tokens):
            if token.kind == 'sign' and token.text in '([{':
                opened.append(i)
            elif token.kind == 'sign' and token.text in ')]}' and opened:
                self.pairs[opened.pop()] = i

    # ---- generics

    def can_open(self, i):
        """What the `<` at i would open, by what stands before it: the types of an `impl`, of a function, or of a type, or a path `<T>::`;
        none where it compares."""
        before, earlier = self[i - 1], self[i - 2]
        in_macro = earlier.text == '$'
        if before.text in ('impl', 'for'):
            return 'impl'
        if before.text == '::' or self[i - 3 if in_macro else i - 2].text in DECLARING:
            return 'function'
        if before.kind == 'name' and before.text not in BEFORE_OPERAND:
            return 'type' if in_macro or CAMEL_CASE.fullmatch(before.text) else None
        return 'path'

    def matched(self, i):
        """The angle brackets from the `<` at i to its `>`, in order; none if it opens no generics."""
        kind, own, j = self.can_open(i), [i], i + 1
        while kind and j < len(self.tokens):
            if self.is_at(j, '>'):
                return own + [j] if kind != 'path' or self.is_at(j + 1, '::') else []
            if self.is_at(j, '<'):
                inner = self.matched(j)
                if not inner:
                    return []
                own += inner
                j = inner[-1]
            elif self.is_at(j, '(') or self.is_at(j, '[') or self.is_at(j, '{'):
                j = self.pairs.get(j, len(self.tokens))
            elif self[j].kind in ('sign', 'text') and self[j].text not in IN_TYPES:
                return []
            j += 1
        return []

    def generics_at(self, i):
        """As `matched`, for the outermost `<`: also by what stands behind its `>`."""
        own = self.matched(i)
        if not own:
            return set()
        end = own[-1]
        # `A < b >> c`, of which only one would close
        if self.joined(end, '>') and not self.is_at(end - 1, '>'):
            return set()
        kind, behind = self.can_open(i), self[end + 1]
        operand = behind.kind in ('name', 'number', 'text') and behind.text not in AFTER_TYPE or behind.text in OPERAND
        follows = kind == 'impl' or kind == 'function' and behind.text == '('
        return set(own) if follows or not operand else set()

    # ---- counts

    def count_from(self, i):
        """The tokens of the operand that starts at i."""
        start, whole = i, False  # whole: the operand could end here
        while True:
            token = self[i]
            if token.kind == 'name':
                if whole and token.text != 'as':
                    break
                whole = token.text != 'as'
            elif token.kind in ('number', 'text'):
                if whole:
                    break
                whole = True
            elif token.text in ('(', '[') and i in self.pairs:
                i, whole = self.pairs[i], True
            elif token.text in IN_COUNT:
                whole = False
            else:
                break
            i += 1
        return self.tokens[start:i]

    def assigned_from(self, i):
        """The tokens up to the statement's end."""
        start = i
        while i < len(self.tokens) and self[i].text not in (';', ',', ')', ']', '}'):
            i = self.pairs.get(i, i) + 1
        return self.tokens[start:i]

    def last_argument(self, i):
        """The tokens of the last argument of the call whose `(` is at i."""
        end = self.pairs.get(i, i)
        if self.is_at(end - 1, ','):
            end -= 1
        start = j = i + 1
        while j < end:
            if self.is_at(j, ','):
                start = j + 1
            j = self.pairs.get(j, j) + 1
        return self.tokens[start:end]

    # ---- shifts

    def operators(self):
        """The operators: their token, and the tokens of the count."""
        for i, token in enumerate(self.tokens):
            if token.kind != 'sign' or token.text not in '<>' or not self.joined(i, token.text):
                continue
            if i in self.generics or i + 1 in self.generics:
                continue
            if self.joined(i + 1, '='):
                yield token, self.assigned_from(i + 3)
            else:
                yield token, self.count_from(i + 2)

    def calls(self):
        """The same of functions that are named so, called or handed on."""
        for i, token in enumerate(self.tokens):
            if token.kind != 'name' or not SHIFTING.fullmatch(token.text) or self[i - 1].text == 'fn':
                continue
            if self.is_at(i + 1, '('):
                yield token, self.last_argument(i + 1)
            elif self.is_at(i - 1, '::'):
                yield token, []

    def computed(self):
        """The lines of shifts by a computed count."""
        found = list(self.operators()) + list(self.calls())
        return sorted({token.line for token, count in found if not self.is_constant(count)})

    def is_constant(self, count):
        """Whether nothing in a count is computed."""
        has_value = False
        for before, token, behind in zip([END] + count, count, count[1:] + [END]):
            if token.kind == 'number':
                has_value = True
            elif token.kind == 'name' and token.text not in self.parameters:
                if CONSTANT.fullmatch(token.text) and behind.text not in ('(', '[', '!', '.', '::'):
                    has_value = True
                elif behind.text != '::' and token.text != 'as' and before.text != 'as':
                    return False
            elif token.text not in IN_CONSTANT or token.text == '::' and behind.kind != 'name':
                return False
        return has_value


def computed_shifts(path):
    """The lines of a file's shifts by a computed count."""
    with open(path, encoding='utf-8') as file:
        text = file.read()
    return Source(text, LANGUAGES[os.path.splitext(path)[1]]).computed()


def sources(path):
    """A file, or the sources in a folder; what was built there is left out."""
    if os.path.isfile(path):
        yield path
    for folder, inner, files in os.walk(path):
        inner[:] = sorted(name for name in inner if name != 'target')
        yield from (os.path.join(folder, name) for name in sorted(files) if os.path.splitext(name)[1] in LANGUAGES)


def main(paths):
    count = found = 0
    for path in paths:
        files = list(sources(path))
        if not files:
            sys.exit(f'{path}: no sources')
        for file in files:
            try:
                lines = computed_shifts(file)
            except Unread as unread:
                sys.exit(f'{file}:{unread}: a comment or string without an end')
            for line in lines:
                print(f'{file}:{line}: shift by a computed count')
            found += len(lines)
        count += len(files)
    if found or not count:
        sys.exit(1)
    print(f'no shift by a computed count in {count} files')


if __name__ == '__main__':
    main(sys.argv[1:])
