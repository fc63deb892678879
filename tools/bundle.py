#!/usr/bin/env python3
"""Writes the bundle of a derivation that is given as text, as `spinebriar explain` prints it:

    tools/bundle.py NAMES < DERIVATION > BUNDLE

A line is `step N: LEFT <= RIGHT, by rule R from I, J` (`=>` for qualifiers, the premises where the rule has any),
or `{N} = TERM`, which names a term for the lines after it. Terms are in the notation of the rules, with the names of
the list NAMES, one a line, for their numbers, or `#7` for the number 7. Rows are added operands first, left first.
Nothing is checked but the form of the lines: `spinebriar check` says whether the bundle is accepted. It needs Python 3
and installs nothing.
"""
import re, sys

AXES = ['self', 'child', 'parent', 'descendant', 'ancestor', 'descendant-or-self', 'ancestor-or-self',
        'following-sibling', 'preceding-sibling', 'following', 'preceding', 'attribute']
TESTS = ['', '*', 'node()', 'text()', 'comment()', 'processing-instruction()']
STEP = re.compile(r"([a-z-]+)::(node\(\)|text\(\)|comment\(\)|processing-instruction\((?:'([^']*)')?\)"
                  r"|\*|#\d+|[A-Za-z_][A-Za-z0-9_.-]*)")
SIGN = re.compile(r'\{\d+\}|[()\[\]|/.]|[A-Za-z]+')
LINE = re.compile(r'step (\d+): (.*?) (<=|=>) (.*), by rule (\d+)(?: from (\d+))?(?:, (\d+))?$')
VOID, ROOT, AXIS_STEP, UNION, COMPOSITION, FILTER, TRUE, FALSE, NOT, AND, OR, INCLUSION = range(12)


def read_names(path):
    """The number of each name: of two equal lines the first counts. A list that `spinebriar` refuses is refused."""
    numbers = {}
    for number, line in enumerate(open(path, 'rb').read().split(b'\n'), 1):
        try:
            text = line.decode('utf-8')
        except UnicodeDecodeError:
            text = '\0'
        if (number == 1 and text.startswith('\ufeff')) or re.search('[\0-\x08\x0b-\x1f\x7f]|[ \t]$', text):
            raise SystemExit('%s: line %d has a mark, a blank at its end or bytes that no list has' % (path, number))
        if re.fullmatch(r'[A-Za-z_][A-Za-z0-9_.-]*', text):
            numbers.setdefault(text, number)
    return numbers


class Term:
    """A term read by its signs. Rows are tuples of a kind and its fields, operands being rows."""

    def __init__(self, text, names, defined):
        self.text, self.names, self.defined, self.at = text, names, defined, 0

    def fail(self):
        raise SystemExit('cannot read %r at %r' % (self.text, self.text[self.at:]))

    def skip(self):
        while self.text[self.at:self.at + 1] == ' ':
            self.at += 1

    def next(self):
        self.skip()
        match = SIGN.match(self.text, self.at)
        return match.group() if match else None

    def take(self, sign):
        if self.next() != sign:
            self.fail()
        self.at += len(sign)

    def chain(self, sign, kind, part):
        left = part()
        while self.next() == sign:
            self.take(sign)
            left = (kind, left, part())
        return left

    def disjunction(self):
        return self.chain('or', OR, self.conjunction)

    def conjunction(self):
        return self.chain('and', AND, self.negation)

    def negation(self):
        for word in ('not', 'some'):
            if self.next() == word and not STEP.match(self.text, self.at):
                self.take(word)
                return (NOT, self.negation()) if word == 'not' else (NOT, (INCLUSION, self.composition(), (VOID,)))
        left = self.union()
        if self.next() == 'in':
            self.take('in')
            return (INCLUSION, left, self.union())
        return left

    def union(self):
        return self.chain('|', UNION, self.composition)

    def composition(self):
        return self.chain('/', COMPOSITION, self.filtered)

    def filtered(self):
        path = self.simple()
        while self.next() == '[':
            self.take('[')
            path = (FILTER, path, self.disjunction())
            self.take(']')
        return path

    def number(self, name):
        if name.startswith('#'):
            return int(name[1:])
        if name not in self.names:
            raise SystemExit('the name %s is not in the list' % name)
        return self.names[name]

    def axis_step(self, match):
        self.at = match.end()
        axis, test, target = match.groups()
        if axis not in AXES:
            self.fail()
        if target is not None:
            return (AXIS_STEP, AXES.index(axis), 6, self.number(target))
        if test in TESTS:
            return (AXIS_STEP, AXES.index(axis), TESTS.index(test), 0)
        return (AXIS_STEP, AXES.index(axis), 0, self.number(test))

    def simple(self):
        self.skip()
        match = STEP.match(self.text, self.at)
        if match:
            return self.axis_step(match)
        sign = self.next()
        if sign is None:
            self.fail()
        self.take(sign)
        if sign == '(':
            inner = self.disjunction()
            self.take(')')
            return inner
        if sign in self.defined:
            return self.defined[sign]
        leaf = {'V': (VOID,), 'R': (ROOT,), '.': (AXIS_STEP, 0, 2, 0), 'true': (TRUE,), 'false': (FALSE,)}
        if sign not in leaf:
            self.fail()
        return leaf[sign]

    def whole(self):
        term = self.disjunction()
        self.skip()
        if self.at != len(self.text):
            self.fail()
        return term


class Rows:
    """The rows of terms, each once, operands first. Equal terms are one object, so that none is walked twice."""

    def __init__(self):
        self.numbers, self.known, self.lines = {}, {}, []

    def put(self, term):
        if id(term) in self.known:
            return self.known[id(term)][0]
        fields = [self.put(x) if isinstance(x, tuple) else x for x in term[1:]]
        row = tuple([term[0]] + fields + [0] * (3 - len(fields)))
        if row not in self.numbers:
            self.numbers[row] = len(self.lines)
            self.lines.append(row)
        self.known[id(term)] = (self.numbers[row], term)
        return self.numbers[row]


def main():
    if len(sys.argv) != 2:
        raise SystemExit(__doc__)
    names, defined, rows, steps = read_names(sys.argv[1]), {}, Rows(), []
    for line in sys.stdin.read().split('\n'):
        if not line or line.startswith('--'):
            continue
        name, equals, text = line.partition(' = ')
        if equals and re.fullmatch(r'\{\d+\}', name):
            defined[name] = Term(text, names, defined).whole()
            continue
        match = LINE.match(line)
        if not match or int(match.group(1)) != len(steps) + 1:
            raise SystemExit('no line of a derivation: %r' % line)
        sides = [rows.put(Term(match.group(i), names, defined).whole()) for i in (2, 4)]
        steps.append([int(match.group(5))] + sides + [int(match.group(i) or 0) for i in (6, 7)])
    print('kind a b c')
    for row in rows.lines:
        print(*row)
    print('rule left right first second')
    for step in steps:
        print(*step)


main()
