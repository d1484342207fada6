"""The places at which a fault can be put, by kinds of change: in Rattle, Rust and C sources, and in definitions.

A fault changes what a function does or what a constant is: function bodies, the values of constants and macros, the numbers of an enum's
variants. Signatures, contracts, other declarations, types, attributes, ghost lines, tests and comments aren't changed. In definitions a
number or a word is changed, in all but comments and imports.
"""
import itertools
import re
from collections import namedtuple

from shifts import BEFORE_OPERAND, CAMEL_CASE, CONSTANT, Source

Edit = namedtuple('Edit', 'start end new')  # what stands from start up to end becomes new
Arm = namedtuple('Arm', 'start arrow result end')  # tokens: where the pattern starts, the arrow, where the result starts, and its end

CONTRACT = {'requires', 'ensures'}
# what begins no statement that could be left out, and calls nothing by a parenthesis
KEYWORDS = {
    'as', 'break', 'case', 'const', 'continue', 'default', 'do', 'else', 'fn', 'for', 'ghost', 'goto', 'if', 'impl', 'in', 'let', 'loop',
    'match', 'mod', 'move', 'return', 'sizeof', 'static', 'struct', 'switch', 'unsafe', 'use', 'while',
}
CLOSING = {')', ']', '}'}
NUMBER = re.compile(r'(0x[0-9a-fA-F_]+?|[0-9][0-9_]*)([iu](?:8|16|32|64|128|size)|[uUlL]+)?')


class Code(Source):
    """A source with what of it is code: `inside` holds the places of these tokens, `patterns` those of them that are in a pattern."""

    def __init__(self, text, language):
        super().__init__(text, language)
        self.text = text
        self.is_c = not language.generics
        self.values = list(self.enum_values())
        self.inside = set()
        for start, end in itertools.chain(self.bodies_in_c() if self.is_c else self.bodies(), *self.values):
            self.inside.update(range(start, end))
        for start, end in self.excluded():
            self.inside.difference_update(range(start, end))
        self.matches = [list(self.arms(i)) for i in self.places('match')]
        self.patterns = {place for arms in self.matches for arm in arms for place in range(arm.start, arm.arrow)}
        for i in self.places('let'):
            self.patterns.update(range(i, self.until(i, '=', ';')))

    # ---- tokens

    def until(self, i, *signs):
        """The first of these signs from i on that isn't in brackets, or the bracket that closes around it, if that is first."""
        while i < len(self.tokens) and not (self[i].kind == 'sign' and (self[i].text in signs or self[i].text in CLOSING)):
            i = self.pairs.get(i, i) + 1
        return i

    def outer(self, i, end):
        """The places from i up to end that aren't in brackets, the opening brackets included."""
        while i < end:
            yield i
            i = self.pairs.get(i, i) + 1

    def places(self, *names):
        """Where these names stand in code."""
        return [i for i in sorted(self.inside) if self[i].kind == 'name' and self[i].text in names]

    def signs(self, *signs):
        """Where these signs stand in code."""
        return [i for i in sorted(self.inside) if self[i].kind == 'sign' and self[i].text in signs]

    def has_operand(self, i):
        """Whether an operand ends before i."""
        before = self[i - 1]
        if before.kind == 'name':
            return before.text not in BEFORE_OPERAND
        return before.kind in ('number', 'text') or before.text in (')', ']', '?')

    def said(self, i, end):
        """The text of the tokens from i up to end."""
        return self.text[self[i].at:self[end - 1].at + len(self[end - 1].text)]

    def edit(self, i, end, new):
        return Edit(self[i].at, self[end - 1].at + len(self[end - 1].text), new)

    def exchange(self, first, second):
        """Two stretches of tokens, each in the place of the other."""
        between = self.text[self[first[1] - 1].at + len(self[first[1] - 1].text):self[second[0]].at]
        return self.edit(first[0], second[1], self.said(*second) + between + self.said(*first))

    # ---- what is code

    def body(self, i):
        """The body of the function whose name is at i, from its bracket up to its end; nothing where there is none."""
        generics = self.matched(i + 1) if self.is_at(i + 1, '<') else []
        at = self.until(generics[-1] if generics else i, '(')
        while True:
            at = self.until(self.pairs.get(at, at) + 1, '{', ';')
            if not self.is_at(at, '{'):
                return at, at
            if self[at - 1].text not in CONTRACT and self[at - 2].text not in CONTRACT:
                return at, self.pairs[at]

    def is_constant_at(self, i):
        """Whether a constant is declared at i, not a parameter in generics."""
        return self[i].text in ('const', 'static') and self.is_at(i + 2, ':') and self[i - 1].text not in (',', '<')

    def bodies(self):
        """Function bodies and the values of constants, in Rust."""
        for i, token in enumerate(self.tokens):
            if token.text == 'fn' and self[i + 1].kind == 'name':
                yield self.body(i + 1)
            elif self.is_constant_at(i):
                value = self.until(i, '=', ';') + 1
                yield value, self.until(value, ';')

    def bodies_in_c(self):
        """Function bodies and what macros without parameters stand for, in C."""
        for i, token in enumerate(self.tokens):
            if self.is_at(i, '{') and self.is_at(i - 1, ')'):
                yield i, self.pairs[i]
            elif token.text == 'define' and self.is_at(i - 1, '#') and self[i + 1].at + len(self[i + 1].text) != self[i + 2].at:
                end = i + 2
                while self[end].line == token.line:
                    end += 1
                yield i + 2, end

    def enum_values(self):
        """The numbers of each enum's variants."""
        for i, token in enumerate(self.tokens):
            if token.text == 'enum' and self.is_at(i + 2, '{'):
                starts = [place + 1 for place in self.outer(i + 3, self.pairs[i + 2]) if self.is_at(place, '=')]
                yield [(start, self.until(start, ',')) for start in starts]

    def excluded(self):
        """What isn't code inside of it: signatures, types, attributes and what they mark as a test, ghost lines."""
        for i, token in enumerate(self.tokens):
            if token.text == 'fn' and self[i + 1].kind == 'name':
                yield i, self.body(i + 1)[0]
            elif self.is_constant_at(i):
                yield i, self.until(i, '=', ';')
            elif self.is_at(i, '#') and self.is_at(i + 1, '['):
                end = self.pairs[i + 1]
                is_test = any(self[k].text == 'test' for k in range(i, end))
                yield i, self.item_end(end + 1) if is_test else end
            elif token.text == 'let':
                start = self.until(i, ':', '=', ';')
                yield start, self.until(start, '=', ';')
            elif token.text in ('ghost', 'use'):
                yield i, self.item_end(i)

    def item_end(self, i):
        """The end of the item or statement at i: its semicolon, or the bracket that closes its block."""
        end = self.until(i, '{', ';')
        return self.pairs.get(end, end)

    def arms(self, i):
        """The arms of the match at i."""
        opened = self.until(i, '{')
        at, end = opened + 1, self.pairs.get(opened, opened)
        while at < end:
            arrow = self.until(at, '=>')
            result = arrow + 1
            stop = self.pairs[result] + 1 if self.is_at(result, '{') else self.until(result, ',')
            if arrow < end:
                yield Arm(at, arrow, result, stop)
            at = stop + self.is_at(stop, ',')


# ---- kinds of change: each gives the edits of one kind

def comparisons(code):
    """`<` and `<=`, `>` and `>=`, `==` and `!=`: each for the other."""
    for i in code.signs('==', '!='):
        yield code.edit(i, i + 1, '!=' if code[i].text == '==' else '==')
    for i in code.signs('<', '>'):
        sign = code[i].text
        is_shift = code.joined(i, sign) or code.is_at(i - 1, sign) and code.joined(i - 1, sign)
        if i not in code.generics and not is_shift:
            is_weak = code.joined(i, '=')
            yield code.edit(i, i + 1 + is_weak, sign if is_weak else sign + '=')


def conditions(code):
    """What an `if` or a `while` asks, turned round. A single equality isn't: that is a comparison's change."""
    for i in code.places('if', 'while'):
        start, end = i + 1, code.until(i, '{', '=>')
        if code.is_c:
            start, end = i + 2, code.pairs[i + 1]
        outer = list(code.outer(start, end))
        signs = [code[k].text for k in outer if code[k].kind == 'sign']
        is_equality = len([sign for sign in signs if sign in ('==', '!=')]) == 1 and not {'&&', '||'} & set(signs)
        if is_equality or any(code[k].text == 'let' for k in outer):
            continue
        if code.is_at(start, '!') and set(signs) <= {'!', '.', '::', '(', '[', '?'}:
            yield code.edit(start, end, code.said(start + 1, end))
        else:
            yield code.edit(start, end, f'!({code.said(start, end)})')


def numbers(code):
    """A number one up, or one down, in hex where it was."""
    for i in sorted(code.inside):
        found = NUMBER.fullmatch(code[i].text) if code[i].kind == 'number' else None
        # behind a dot it is a field or a fraction; before one and a number it is no integer
        if not found or code.is_at(i - 1, '.') or code.joined(i, '.') and code[i + 2].kind == 'number':
            continue
        digits, suffix = found[1].replace('_', ''), found[2] or ''
        is_hex = digits.startswith('0x')
        value = int(digits, 16 if is_hex else 10)
        for new in (value + 1, value - 1):
            if new >= 0:
                yield code.edit(i, i + 1, (f'{new:#0{len(digits)}x}' if is_hex else str(new)) + suffix)


def arithmetic(code):
    """`+` and `-`, `*` and `/`: each for the other; `/` for `%`. Not the signs of one operand, nor C's `++`."""
    others = {'+': '-', '-': '+', '*': '/', '/': '*', '%': '/'}
    for i in code.signs(*others):
        if code.has_operand(i) and not code.joined(i, code[i].text):
            yield code.edit(i, i + 1, others[code[i].text])


def booleans(code):
    """`true` and `false`: each for the other."""
    for i in code.places('true', 'false'):
        yield code.edit(i, i + 1, 'false' if code[i].text == 'true' else 'true')


def connectives(code):
    """`&&` and `||`: each for the other."""
    for i in code.signs('&&', '||'):
        if code.has_operand(i):
            yield code.edit(i, i + 1, '||' if code[i].text == '&&' else '&&')


def ranges(code):
    """A range with its end, or without it. `..` in a pattern or before a struct's other fields is none."""
    for i in code.signs('..'):
        if code.joined(i, '='):
            yield code.edit(i, i + 2, '..')
        elif code[i - 1].text not in (',', '{') and code[i + 1].text not in (')', ']', '}', '{', ',', ';', '=>'):
            yield code.edit(i, i + 1, '..=')


def jumps(code):
    """`break` and `continue`: each for the other, where `break` gives no value."""
    for i in code.places('break', 'continue'):
        behind = code[i + 2 if code[i + 1].kind == 'lifetime' else i + 1]
        if behind.text in (';', ',', '}'):
            yield code.edit(i, i + 1, 'continue' if code[i].text == 'break' else 'break')


def arguments(code):
    """Two neighbouring arguments of a call, or elements of an array, exchanged. Where a closure is among them, none."""
    for i in code.signs('(', '['):
        before = code[i - 1]
        is_call = before.kind == 'name' and before.text not in KEYWORDS or before.text == '!' or i - 1 in code.generics
        if not (is_call if code[i].text == '(' else not code.has_operand(i)):
            continue
        given, at, end = [], i + 1, code.pairs[i]
        if any(code[k].text in ('|', '||') for k in code.outer(at, end)):
            continue
        while at < end:
            stop = code.until(at, ',')
            given.append((at, stop))
            at = stop + 1
        for first, second in zip(given, given[1:]):
            if code.said(*first) != code.said(*second):
                yield code.exchange(first, second)


def is_assignment(code, i, end):
    """Whether something is assigned from i up to end: by an `=` that is no part of `<=`, `>=` or `..=`."""
    signs = [k for k in code.outer(i, end) if code.is_at(k, '=')]
    return any(code[k - 1].text not in ('<', '>', '..') or not code.joined(k - 1, '=') for k in signs)


def dropped(code):
    """An assignment, or a call whose value isn't used, left out: as a statement, or an assignment as an arm's result."""
    for i in sorted(code.inside):
        ignored = code[i].text == 'let' and code[i + 1].text == '_' and code.is_at(i + 2, '=')
        named = code[i].kind == 'name' and code[i].text not in KEYWORDS and code[i + 1].kind != 'name'
        if code[i - 1].text not in ('{', '}', ';') or not (ignored or named or code.is_at(i, '*')):
            continue
        end = code.until(i, ';', ',', ':', '=>')
        if code.is_at(end, ';') and (code[end - 1].text in (')', '?') or is_assignment(code, i, end)):
            yield code.edit(i, end + 1, '')
    for arm in (arm for arms in code.matches for arm in arms):
        if not code.is_at(arm.result, '{') and is_assignment(code, arm.result, arm.end):
            yield code.edit(arm.result, arm.end, '{}')


def path_before(code, i):
    """The path before a name, as `a::b::`."""
    start = i
    while code.is_at(start - 1, '::') and code[start - 2].kind == 'name':
        start -= 2
    return code.said(start, i) if start < i else ''


def constants(code):
    """A named constant for another one that the file declares, imports or uses, with the same path before it."""
    names, uses = {}, []
    for i, token in enumerate(code.tokens):
        if token.kind != 'name' or len(token.text) < 2 or not CONSTANT.fullmatch(token.text):
            continue
        is_used = i in code.inside
        is_macro = code[i - 1].text == 'define' and code[i + 1].line == token.line
        is_declared = code.is_constant_at(i - 1) or is_macro or code.is_at(i - 1, '::') and code.is_at(i + 1, ';')
        if code[i + 1].text in ('(', '!', '::') or not is_used and not is_declared:
            continue
        path = path_before(code, i) if is_used else ''
        names.setdefault(path, set()).add(token.text)
        if is_used and code[i - 1].text != 'case':
            uses.append((path, i))
    for path, i in uses:
        for name in sorted(names[path] - {code[i].text}):
            yield code.edit(i, i + 1, name)


def variants(code):
    """A variant of an enum for another one that the file names, if both have fields in parentheses, or in braces, or none."""
    named, uses = {}, []
    for i in sorted(code.inside):
        if code.is_at(i - 1, '::') and CAMEL_CASE.fullmatch(code[i].text) and CAMEL_CASE.fullmatch(code[i - 2].text):
            shape = code[i + 1].text if code[i + 1].text in ('(', '{') else ''
            named.setdefault((code[i - 2].text, shape), set()).add(code[i].text)
            if i not in code.patterns:
                uses.append((code[i - 2].text, shape, i))
    for enum, shape, i in uses:
        for name in sorted(named[enum, shape] - {code[i].text}):
            yield code.edit(i, i + 1, name)


def results(code):
    """The results of two neighbouring arms of a match, or cases of a switch, exchanged, if neither has a block."""
    groups = [[(arm.result, arm.end) for arm in arms] for arms in code.matches]
    returns = [(i + 1, code.until(i, ';')) for i in code.places('return') if code.is_at(i - 1, ':')]
    groups += [[first, second] for first, second in zip(returns, returns[1:]) if code[first[1] + 1].text in ('case', 'default')]
    for group in groups:
        for first, second in zip(group, group[1:]):
            has_block = any(code.is_at(k, '{') for k in (*range(*first), *range(*second)))
            if not has_block and code.said(*first) != code.said(*second):
                yield code.exchange(first, second)


def values(code):
    """The numbers of two neighbouring variants of an enum exchanged."""
    for group in code.values:
        for first, second in zip(group, group[1:]):
            yield code.exchange(first, second)


KINDS = {
    'comparison': comparisons,
    'condition': conditions,
    'number': numbers,
    'arithmetic': arithmetic,
    'boolean': booleans,
    'connective': connectives,
    'range': ranges,
    'jump': jumps,
    'arguments': arguments,
    'dropped': dropped,
    'constant': constants,
    'variant': variants,
    'results': results,
    'values': values,
}


def edits_in_code(text, language):
    """The kind of each fault that can be put into a source, and its edit."""
    code = Code(text, language)
    return [(kind, edit) for kind, edits in KINDS.items() for edit in edits(code)]


# ---- definitions

WORDS = {
    'comparison': {'<': '≤', '≤': '<', 'ltb': 'leb', 'leb': 'ltb'},
    'arithmetic': {'+': '-', '-': '+', '*': '/', '/': '*', '%': '/'},
    'boolean': {'true': 'false', 'false': 'true'},
    'connective': {'&&': '||', '||': '&&'},
}
WORD = re.compile(r'--[^\n]*|^use\b[^\n]*|Type \d+|\{\d+\}|[^\s(){};]+', re.M)  # a level of types is no word of its own


def edits_in_definitions(text):
    """The kind of each fault that can be put into definitions, and its edit."""
    for found in WORD.finditer(text):
        word = found[0]
        if word.isdecimal():
            news = [('number', str(value)) for value in (int(word) + 1, int(word) - 1) if value >= 0]
        else:
            news = [(kind, words[word]) for kind, words in WORDS.items() if word in words]
        for kind, new in news:
            yield kind, Edit(found.start(), found.end(), new)
