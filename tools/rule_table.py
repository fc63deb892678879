#!/usr/bin/env python3
"""Holds the rule table of docs/SPECIFICATION.md, crate `rules` and crate `matching` against each other. Run it at the
repository's root:

    python3 tools/rule_table.py
    python3 tools/rule_table.py --selftest
    python3 tools/rule_table.py --constants > crates/matching/src/tables.rt

The first reads three things apart from each other, each with a grammar of its own, and compares them form by form, in
order:
  1. the section Rules of docs/SPECIFICATION.md, a row a form, with that page's binding: a filter, `/`, `|`; `not`,
     `and`, `or`;
  2. crates/rules/specs/RuleTable.antt, with the fixities that specs/Form.antt and specs/Notation.antt declare;
  3. the forms of crates/matching/src/tables.rt, by the names of its constants.
It compares in the same way the numbers of axes and tests (crate common), the order of axes and that of tests
(Order.antt; AXIS_PAIRS, order.rt), and of rule 59, which is no pattern, its number, what it says, and the axes that
have an opposite one (Yields.antt, WayBack.antt; way_back.rt).

The second changes copies of the page, of the specifications and of the code in one place at a time, each letter, sign,
axis, test, premise and condition of the page's table among them, and fails if one of these goes unseen. The third
writes the code's constants from the specification; `rt fmt` in crates/matching lays them out.

Written out here by hand, so that a reader has to look at it: which phrase is which side condition, and the numbers of
kinds and letters. Not covered: the way back but for its axes and for what rule 59 says of it (the page's table is held
against the words below, WayBack.antt is to be read), and what the words of Notation.antt and the side conditions mean
(specs/Instance.antt).
"""
import functools, re, sys

PAGE = 'docs/SPECIFICATION.md'
RULES = 'crates/rules/specs'
COMMON = 'crates/common/specs'
TABLES, ORDER, WAY_BACK = ['crates/matching/src/%s.rt' % name for name in ('tables', 'order', 'way_back')]

AXES = ['self', 'child', 'parent', 'descendant', 'ancestor', 'descendant-or-self', 'ancestor-or-self',
        'following-sibling', 'preceding-sibling', 'following', 'preceding', 'attribute']
TESTS = {'*': 1, 'node()': 2, 'star_test': 1, 'node_test': 2}
KINDS = ['void', 'root', 'step', 'union', 'composition', 'filter', 'true', 'false', 'not', 'and', 'or', 'in']
LETTERS = ['p', 'q', 'r', 's', 'f', 'g', 'h', 'a', 'b', 'N', 'name of N', 'M', 'name of M']
CONDITIONS = ['a_below_b', 'N_below_M', 'b_from_3_to_10', 'N_a_name_or_star', 'N_not_node', 'a_not_attribute']
# the code's names of the same, of its variants and its constants
CODE_LETTERS = ['P', 'Q', 'R', 'S', 'F', 'G', 'H', 'A', 'B', 'N', 'NameOfN', 'M', 'NameOfM']
LETTER_CONSTANTS = ['P', 'Q', 'R', 'S', 'F', 'G', 'H', 'A', 'B', 'N', 'NAME_OF_N', 'M', 'NAME_OF_M']
CODE_CONDITIONS = ['ABelowB', 'NBelowM', 'BFrom3To10', 'NNameOrStar', 'NNotNode', 'ANotAttribute']
CODE_KINDS = dict(zip(['Void', 'Root', 'Step', 'Union', 'Composition', 'Filter', 'True', 'False', 'Not', 'And', 'Or',
                       'Inclusion'], KINDS))
CODE_TESTS = {'STAR': 1, 'NODE': 2}
# the last rule of the table, and rule 59, which is none of the table's
TABLE_RULES, WAY_BACK_RULE = 58, 59
# the last rules of the parts in which the code has the table
PARTS = [24, 41, TABLE_RULES]

# texts that stand for those of files
CHANGED = {}


class Wrong(Exception):
    """What is not as it must be, and where."""


def text_of(path):
    return CHANGED[path] if path in CHANGED else open(path, encoding='utf-8').read()


def some(path):
    return ('not', ('in', path, ('void',)))


# 1. The page.

WORD = re.compile(r'\s*(node\(\)|<=|=>|::|[()\[\]|/.*=]|[A-Za-z][A-Za-z-]*)')


def words(text):
    found, at = [], 0
    text = text.strip()
    while at < len(text):
        match = WORD.match(text, at)
        if not match:
            raise Wrong('cannot read %r' % text[at:])
        found.append(match.group(1))
        at = match.end()
    return found


class Sentence:
    """An expression of the page, read by its words."""

    def __init__(self, text):
        self.words, self.at = words(text), 0

    def next(self):
        return self.words[self.at] if self.at < len(self.words) else None

    def take(self, word=None):
        found = self.next()
        if found is None or word not in (None, found):
            raise Wrong('expected %r at word %d of %r' % (word, self.at, self.words))
        self.at += 1
        return found

    def chain(self, word, kind, part):
        left = part()
        while self.next() == word:
            self.take()
            left = (kind, left, part())
        return left

    def disjunction(self):
        return self.chain('or', 'or', self.conjunction)

    def conjunction(self):
        return self.chain('and', 'and', self.negation)

    def negation(self):
        if self.next() == 'not':
            self.take()
            return ('not', self.negation())
        if self.next() == 'some':
            self.take()
            return some(self.union())
        left = self.union()
        if self.next() == 'in':
            self.take()
            return ('in', left, self.union())
        return left

    def union(self):
        return self.chain('|', 'union', self.composition)

    def composition(self):
        return self.chain('/', 'composition', self.filtered)

    def filtered(self):
        path = self.simple()
        while self.next() == '[':
            self.take()
            path = ('filter', path, self.disjunction())
            self.take(']')
        return path

    def simple(self):
        word = self.take()
        if word == '(':
            inner = self.disjunction()
            self.take(')')
            return inner
        if word == '.':
            return ('step', 0, 2)
        if word in ('V', 'R', 'true', 'false'):
            return ({'V': 'void', 'R': 'root'}.get(word, word),)
        if self.next() == '::':
            self.take()
            test = self.take()
            if word not in AXES + ['a', 'b'] or test not in ('*', 'node()', 'N', 'M'):
                raise Wrong('no step: %s::%s' % (word, test))
            return ('step', AXES.index(word) if word in AXES else word, TESTS.get(test, test))
        if word not in LETTERS[:7] + ['w']:
            raise Wrong('%r is no letter' % word)
        return ('letter', word)


def expression(text):
    sentence = Sentence(text)
    found = sentence.disjunction()
    if sentence.next() is not None:
        raise Wrong('words left in %r' % text)
    return found


def is_path(term):
    return term[0] in KINDS[:6] or term[0] == 'letter' and term[1] in 'pqrsw'


# what a term has for operands
SORTS = {'union': 'pp', 'composition': 'pp', 'filter': 'pq', 'not': 'q', 'and': 'qq', 'or': 'qq', 'in': 'pp'}


def check_sorts(term):
    for sort, part in zip(SORTS.get(term[0], ''), term[1:]):
        if is_path(part) != (sort == 'p'):
            raise Wrong('%s has an operand of the other sort' % (term,))
        check_sorts(part)


def claim(text):
    """A claim, by its sign."""
    sign = '<=' if '<=' in text else '=>'
    sides = text.split(sign)
    if len(sides) != 2:
        raise Wrong('no claim: %r' % text)
    left, right = [expression(x) for x in sides]
    for side in left, right:
        check_sorts(side)
        if is_path(side) != (sign == '<='):
            raise Wrong('%s between other sorts: %r' % (sign, text))
    return (sign, left, right)


def conclusions(text):
    """The claims of a conclusion: two, where it has `=`."""
    if '<=' in text or '=>' in text:
        return [claim(text)]
    sides = text.split(' = ')
    if len(sides) != 2:
        raise Wrong('no conclusion: %r' % text)
    sign = '<=' if is_path(expression(sides[0])) else '=>'
    return [claim(sign.join(sides)), claim(sign.join(reversed(sides)))]


# the page's phrases of side conditions
PHRASES = dict(zip(['a is below b', 'N is below M', 'b is 3 to 10', 'N is a name or `*`', "N isn't `node()`",
                    "a isn't 11", 'w is the way back of r'], CONDITIONS + ['way_back']))
# rule 59's form and, to look at, what the page says of ways back
WAY_BACK_FORM = (WAY_BACK_RULE, ('<=', ('letter', 'r'), ('filter', ('letter', 'r'), some(('letter', 'w')))), [],
                 ['way_back'])
WAY_BACK_WORDS = [['`a::N`', '`self::N/b::node()`, b being the opposite axis of a'],
                  ['`p/q`', '`v/u`, u being the way back of p and v that of q'],
                  ['`p|q`', '`u|v`, with the same u and v'],
                  ['`p[f]`', '`.[f]/u`, with the same u']]


def quoted(cell):
    """The expressions of a cell, each in backticks."""
    if not re.fullmatch(r'(`[^`]+`(, `[^`]+`)*)?', cell):
        raise Wrong('no list of expressions: %r' % cell)
    return re.findall(r'`([^`]+)`', cell)


def conditions_of(cell):
    found = cell.split(', ') if cell else []
    for phrase in found:
        if phrase not in PHRASES:
            raise Wrong('no condition: %r' % phrase)
    return [PHRASES[phrase] for phrase in found]


def page_table(*cells):
    """The rows of the page's one table that is headed by these cells."""
    lines = text_of(PAGE).split('\n')
    heading = '| %s |' % ' | '.join(cells)
    at = [i for i, line in enumerate(lines) if line == heading]
    if len(at) != 1:
        raise Wrong('%d tables %r' % (len(at), heading))
    rows = []
    for line in lines[at[0] + 2:]:
        if not line.startswith('|'):
            break
        cells = re.split(r'(?<!\\)\|', line)[1:-1]
        rows.append([cell.strip().replace('\\|', '|') for cell in cells])
    return rows


def page_forms():
    """The forms of the page's table, rule 59's last, and the rules that are withdrawn."""
    forms, numbers, withdrawn = [], [], []
    for row in page_table('rule', 'conclusion', 'premises', 'conditions'):
        if len(row) != 4 or not row[0].isdigit():
            raise Wrong('no row of the rule table: %s' % row)
        rule = int(row[0])
        numbers.append(rule)
        if row[1:] == ['withdrawn', '', '']:
            withdrawn.append(rule)
            continue
        concluded, premises, conditions = quoted(row[1]), [claim(x) for x in quoted(row[2])], conditions_of(row[3])
        if len(concluded) != 1:
            raise Wrong('rule %d: %d conclusions' % (rule, len(concluded)))
        forms += [(rule, c, premises, conditions) for c in conclusions(concluded[0])]
    if sorted(set(numbers)) != list(range(1, WAY_BACK_RULE + 1)) or numbers != sorted(numbers):
        raise Wrong('rules are not 1 to %d in order' % WAY_BACK_RULE)
    if set(withdrawn) & {form[0] for form in forms}:
        raise Wrong('a rule is withdrawn and has a form: %s' % withdrawn)
    return forms, withdrawn


def page_axes():
    return [(int(n), name) for n, name in page_table('axis', 'name')]


def page_tests():
    return [(int(row[0]), row[1].strip('`')) for row in page_table('test', 'written', 'c')]


def page_axis_pairs():
    number = lambda name: AXES.index(name.strip())
    pairs = [(a, a) for a in range(len(AXES))]
    for low, high in page_table('axis', 'is below'):
        pairs += [(number(low), number(x)) for x in high.split(',')]
    return sorted(pairs)


def page_opposites():
    return [(AXES.index(a), AXES.index(b)) for a, b in page_table('axis', 'opposite')]


# the names of tests on the page and in crate common
NAMED_TESTS = {'a name': 'name', '*': 'star', 'node()': 'node', 'text()': 'text', 'comment()': 'comment',
               'processing-instruction()': 'instruction', "processing-instruction('target')": 'target'}


def page_test_pairs():
    named = lambda cell: 'any' if cell == 'any' else NAMED_TESTS[cell.strip('`')]
    return sorted([('same', 'same')] + [(named(low), named(high)) for low, high in page_table('test', 'is below')])


# 2. specs/RuleTable.antt.

LIBRARY = {'∷': (67, 'r'), '++': (65, 'l')}


def fixities(*paths):
    """The binary operators' precedences and sides; a prefix operator has the side 'p'."""
    found = dict(LIBRARY)
    for path in paths:
        for line in text_of(path).split('\n'):
            match = re.match(r'infix([lr]?) (\d+) (.*)', line)
            for name in match.group(3).split() if match else []:
                parts = [x for x in name.split('◌') if x]
                found[parts[0]] = (int(match.group(2)), match.group(1) if name.startswith('◌') else 'p')
    return found


class Antt:
    """A term of RuleTable.antt, read by the operators' precedences."""

    def __init__(self, text, operators):
        self.words, self.at, self.operators = re.findall(r'[()]|[^\s()]+', text), 0, operators

    def next(self):
        return self.words[self.at] if self.at < len(self.words) else None

    def take(self):
        self.at += 1
        return self.words[self.at - 1]

    def term(self, least):
        word = self.take()
        if word == '(':
            left = self.term(0)
            self.take()
        elif self.operators.get(word, (0, ''))[1] == 'p':
            left = (word, self.term(self.operators[word][0] + 1))
        elif word == 'some_of':
            left = (word, self.term(1000))
        else:
            left = (word,)
        while self.next() in self.operators and self.operators[self.next()][0] >= least:
            sign = self.take()
            level, side = self.operators[sign]
            if sign == '⟦':
                left = (sign, left, self.term(0))
                self.take()
            else:
                left = (sign, left, self.term(level + (0 if side == 'r' else 1)))
        return left


NAMES = {'Void': 'void', 'Root': 'root', 'True': 'true', 'False': 'false', 'Not': 'not', 'And': 'and', 'Or': 'or',
         'In': 'in', '¦': 'union', '∕': 'composition', '⟦': 'filter'}


def axis_number(name):
    """The number of an axis by its name in the specification or in the code."""
    return AXES.index(name.lower().replace('_', '-'))


def as_term(tree):
    head = tree[0]
    if head == '::':
        axis, test = tree[1][0], tree[2][0]
        return ('step', axis if axis in LETTERS else axis_number(axis), TESTS.get(test, test))
    if head == 'some_of':
        return some(as_term(tree[1]))
    if len(tree) == 1 and head in LETTERS[:7]:
        return ('letter', head)
    return (NAMES[head],) + tuple(as_term(x) for x in tree[1:])


def as_claim(tree):
    return (tree[0], as_term(tree[1]), as_term(tree[2]))


def as_list(tree):
    return [] if tree == ('[]',) else [tree[1]] + as_list(tree[2])


def as_forms(rule, tree):
    head = tree[0]
    if head == '[]':
        return []
    if head == '++':
        return as_forms(rule, tree[1]) + as_forms(rule, tree[2])
    if head == 'if':
        return [(n, c, ps, [x[0] for x in as_list(tree[2])]) for n, c, ps, _ in as_forms(rule, tree[1])]
    if head == 'from':
        return [(rule, as_claim(tree[1]), [as_claim(x) for x in as_list(tree[2])], [])]
    sign = {'≐': '<=', '⇔': '=>'}[head]
    left, right = as_term(tree[1]), as_term(tree[2])
    return [(rule, (sign, left, right), [], []), (rule, (sign, right, left), [], [])]


def specification(folder):
    operators = fixities(folder + '/Form.antt', folder + '/Notation.antt')
    text = re.sub(r'--.*', '', text_of(folder + '/RuleTable.antt').split('rules =')[1])
    forms = []
    for tree in as_list(Antt(text, operators).term(0)):
        forms += as_forms(int(tree[1][0]), tree[2])
    return forms


def specification_axes(folder, file='Order', name='axis_pairs'):
    text = text_of('%s/%s.antt' % (folder, file)).split(name + ' =')[1].split('[]')[0]
    return [(axis_number(a), axis_number(b)) for a, b in re.findall(r'\(([a-z_]+), ([a-z_]+)\)', text)]


# 3. src/tables.rt.

def value_of(path, name):
    """The text of a constant or a static."""
    text = text_of(path)
    return re.search(r'(?:const|static) %s: [^=]*= (.*?);\n' % name, text, re.S).group(1)


def pairs_of(path, name):
    """Pairs of axes by their names."""
    found = re.findall(r'\(axis::(\w+), axis::(\w+)\)', value_of(path, name))
    return [(axis_number(a), axis_number(b)) for a, b in found]


def number_of(path, name):
    return int(value_of(path, name))


class Rust:
    """A constant's value, read by its words: a name, a number, a list, or a name with what it is applied to."""

    def __init__(self, text):
        self.words, self.at = re.findall(r'\w+(?:::\w+)*|[][(){},:]', re.sub(r'//.*', '', text)), 0

    def take(self):
        self.at += 1
        return self.words[self.at - 1]

    def several(self, end):
        found = []
        while self.words[self.at] != end:
            found.append(self.value())
            if self.words[self.at] == ',':
                self.at += 1
        self.at += 1
        return found

    def fields(self):
        found = {}
        while self.words[self.at] != '}':
            name = self.take()
            self.at += 1
            found[name] = self.value()
            if self.words[self.at] == ',':
                self.at += 1
        self.at += 1
        return found

    def value(self):
        word = self.take()
        if word == '[':
            return self.several(']')
        follows = self.words[self.at] if self.at < len(self.words) else None
        if follows == '(':
            self.at += 1
            return (word, self.several(')'))
        if follows == '{':
            self.at += 1
            return (word, self.fields())
        return word


def constants(path):
    """The forms of the parts of the table, by the constants that they name."""
    text = text_of(path)
    patterns = dict(re.findall(r'const (\w+): Pattern = (.*?);\n', text, re.S))
    last = lambda name: name.split('::')[-1]

    def leaf(name, letters):
        """A letter that can stand here, or a number by its name."""
        kind, (of,) = Rust(patterns[name]).value()
        if last(kind) == 'Letter':
            letter = LETTERS[CODE_LETTERS.index(last(of))]
            if letter not in letters:
                raise Wrong('tables.rt: %s where %s can stand' % (of, letters))
            return letter
        return of

    def term(name):
        kind, (of,) = Rust(patterns[name]).value()
        if last(kind) == 'Letter':
            return ('letter', leaf(name, LETTERS[:7]))
        row, *fields = of[1]
        name = CODE_KINDS[last(row)]
        if name == 'step':
            axis, test = leaf(fields[0], LETTERS[7:9]), leaf(fields[1], 'NM')
            called = leaf(fields[2], ['name of N', 'name of M'])
            if called != ('name of ' + test if test in LETTERS else '0'):
                raise Wrong('tables.rt: a test with another name in %s' % fields)
            return (name, axis if axis in LETTERS else axis_number(last(axis)),
                    test if test in LETTERS else CODE_TESTS[last(test)])
        arity = ARITIES.get(name, 2)
        if any(leaf(x, []) != '0' for x in fields[arity:]):
            raise Wrong('tables.rt: a field too many in %s' % fields)
        return (name,) + tuple(term(x) for x in fields[:arity])

    def sides(claim):
        left, right = [term(x) for x in claim[1]]
        if is_path(left) != is_path(right):
            raise Wrong('tables.rt: two sorts in one claim')
        return ('<=' if is_path(left) else '=>', left, right)

    def form(rule, fields):
        return (rule, sides(fields['conclusion']), [sides(x) for x in fields['premises']],
                [CONDITIONS[CODE_CONDITIONS.index(last(x))] for x in fields['conditions']])

    rules = sum([Rust(value_of(path, 'RULES_TO_%d' % last)).value() for last in PARTS], [])
    return [form(rule, fields) for rule, forms in enumerate(rules) for _, fields in forms]


# 4. The constants, from the specification.

ARITIES = {'void': 0, 'root': 0, 'true': 0, 'false': 0, 'not': 1}
SIGNS = {'void': 'V', 'root': 'R', 'true': 'true', 'false': 'false', 'union': '|', 'composition': '/', 'and': ' and ',
         'or': ' or ', 'in': ' in '}


def shown(term):
    """A term in the page's signs."""
    name, parts = term[0], term[1:]
    if name == 'letter':
        return parts[0]
    if name == 'step':
        axis, test = parts
        named = {number: sign for sign, number in list(TESTS.items())[:2]}
        return '%s::%s' % (axis if isinstance(axis, str) else AXES[axis], named.get(test, test))
    if not parts:
        return SIGNS[name]
    alone = lambda part: part[0] in ('letter', 'step') or len(part) == 1
    inner = [shown(part) if alone(part) else '(%s)' % shown(part) for part in parts]
    if name == 'not':
        return 'not ' + inner[0]
    return '%s[%s]' % (inner[0], shown(parts[1])) if name == 'filter' else SIGNS[name].join(inner)


def shown_claim(claim):
    return '%s %s %s' % (shown(claim[1]), claim[0], shown(claim[2]))


class Named:
    """The constants of the patterns that are rows, numbered as they first appear."""

    def __init__(self):
        self.rows, self.lines = [], []

    def name(self, term):
        if term[0] == 'letter':
            return term[1].upper()
        if term[0] == 'step':
            axis, test = term[1:]
            fields = [axis.upper() if isinstance(axis, str) else AXES[axis].upper().replace('-', '_'),
                      test if isinstance(test, str) else {number: name for name, number in CODE_TESTS.items()}[test],
                      'NAME_OF_' + test if isinstance(test, str) else 'NONE']
        else:
            fields = [self.name(x) for x in term[1:]]
        kind = {name: code for code, name in CODE_KINDS.items()}[term[0]]
        row = 'Pattern::Row(&RowPattern(RowKind::%s, %s))' % (kind, ', '.join(fields + ['NONE'] * (3 - len(fields))))
        if row not in self.rows:
            self.rows.append(row)
            self.lines.append('// %s\nconst X%d: Pattern = %s;\n\n' % (shown(term), len(self.rows), row))
        return 'X%d' % (self.rows.index(row) + 1)

    def claim(self, claim):
        return 'Claim(%s, %s)' % tuple(self.name(x) for x in claim[1:])

    def form(self, form):
        _, conclusion, premises, conditions = form
        said = shown_claim(conclusion) + (' from ' + ', '.join(map(shown_claim, premises)) if premises else '')
        return """        // %s
        Form {
            conclusion: %s,
            premises: &[%s],
            conditions: &[%s],
        },
""" % (said, self.claim(conclusion), ', '.join(map(self.claim, premises)),
       ', '.join('Condition::' + CODE_CONDITIONS[CONDITIONS.index(x)] for x in conditions))


CONSTANTS = """// The axis order and the rule table, as tools/rule_table.py writes them from the specification.
use crate::pattern::{Claim, Condition, Form, Letter, Pattern, RowPattern};
use common::row_kind::RowKind;
use common::{axis, node_test};

// The pairs of axes whose first one is below the second.
pub const AXIS_PAIRS: [(u16, u16); %d] = [
%s];

// What a field that a kind of row doesn't use has, and the name of a test that has none.
const NONE: Pattern = Pattern::Number(0);

%s%s// The forms of each rule, by its number; there is no rule 0. In three parts: the check of a function that gives one
// static with all of them stops at its limit of 50,000,000 steps, and a static can't refer to others.
%s"""


def print_constants(specs):
    forms, pairs = specification(specs), specification_axes(specs)
    axis_name = lambda a: AXES[a].upper().replace('-', '_')
    axes = ''.join('    (axis::%s, axis::%s),\n' % (axis_name(a), axis_name(b)) for a, b in pairs)
    named = Named()
    first, parts = 0, []
    for last in PARTS:
        rules = ''
        for rule in range(first, last + 1):
            own = ''.join(named.form(form) for form in forms if form[0] == rule)
            rules += '    // %d\n    &[%s],\n' % (rule, '\n' + own + '    ' if own else '')
        parts.append('pub static RULES_TO_%d: [&[Form]; %d] = [\n%s];\n' % (last, last + 1 - first, rules))
        first = last + 1
    used = ''.join(named.lines + parts)
    is_used = lambda name: re.search(r'[(\s]%s\b(?! *::)' % name, used)
    one = lambda name, value: 'const %s: Pattern = Pattern::%s;\n\n' % (name, value) if is_used(name) else ''
    leaves = ''.join(one(const, 'Letter(Letter::%s)' % code) for const, code in zip(LETTER_CONSTANTS, CODE_LETTERS))
    leaves += ''.join(one(axis_name(a), 'Number(axis::%s)' % axis_name(a)) for a in range(len(AXES)))
    leaves += ''.join(one(name, 'Number(node_test::%s)' % name) for name in CODE_TESTS)
    print(CONSTANTS % (len(pairs), axes, leaves, ''.join(named.lines), '\n'.join(parts)), end='')


# 5. The comparison.


def numbered(file, ending=''):
    """The names of a file of numbers of crate common, without their ending, with those numbers."""
    found = re.findall(r'^([a-z_]+) = (\d+)$', text_of('%s/%s.antt' % (COMMON, file)), re.M)
    return [(int(number), re.sub(ending + '$', '', name).replace('_', '-')) for name, number in found]


def specification_test_pairs():
    """The pairs of tests that test_below of Order.antt has, clause by clause."""
    body = text_of(RULES + '/Order.antt').split('test_below t c u e =')[1]
    pairs = []
    for clause in ' '.join(body.split()).split(' || '):
        two = re.fullmatch(r'eqb t (\w+)_test && eqb u (\w+)_test', clause)
        one = re.fullmatch(r'eqb u (\w+)_test', clause)
        if clause == 'eqb t u && eqb c e':
            pairs.append(('same', 'same'))
        elif two or one:
            pairs.append(two.groups() if two else ('any', one.group(1)))
        else:
            raise Wrong('Order.antt: test_below has %r' % clause)
    return sorted(pairs)


def code_test_pairs():
    """The same of order.rt, arm by arm."""
    body = text_of(ORDER).split('fn test_below')[1].split('match ')[1]
    pairs = []
    for arm in re.findall(r'^ +(.*) => (.*),$', body, re.M):
        two = re.fullmatch(r'\((?:_|Ok\(NodeTest::(\w+)\)), Ok\(NodeTest::(\w+)\)\)', arm[0])
        if arm == ('_', 't == u && c == e'):
            pairs.append(('same', 'same'))
        elif two and arm[1] == 'true':
            pairs.append(((two.group(1) or 'any').lower(), two.group(2).lower()))
        else:
            raise Wrong('order.rt: test_below has %s' % (arm,))
    return sorted(pairs)


def said_of_ways_back():
    """What rule 59 says in Yields.antt."""
    says = re.search(r'^way_back_claim (\w) (\w) = Containment (\w) \(Filter (\w) \(some_of (\w)\)\)$',
                     text_of(RULES + '/Yields.antt'), re.M)
    if not says:
        raise Wrong('Yields.antt: no way_back_claim')
    letter = lambda name: ('letter', {says.group(1): 'r', says.group(2): 'w'}.get(name, name))
    left, filtered, back = [letter(says.group(i)) for i in (3, 4, 5)]
    return (WAY_BACK_RULE, ('<=', left, ('filter', filtered, some(back))), [], ['way_back'])


def withdrawn_in(path, empty):
    return sorted(int(n) for n in re.findall(empty, text_of(path), re.M))


def rule_numbers():
    """The number of rule 59 and of the table's last rule in the specification, and rule 59's in the code."""
    yields = text_of(RULES + '/Yields.antt')
    constant = lambda name: int(re.search(r'^%s = (\d+)$' % name, yields, re.M).group(1))
    return constant('way_back_rule'), constant('table_rules'), number_of(WAY_BACK, 'WAY_BACK_RULE')


def reads_of(*paths):
    """Reads a file again only where one of these texts has changed."""
    def wrapper(read):
        kept = {}

        @functools.wraps(read)
        def wrapped():
            key = tuple(text_of(path) for path in paths)
            if key not in kept:
                kept.clear()
                kept[key] = read()
            return kept[key]
        return wrapped
    return wrapper


@reads_of(RULES + '/RuleTable.antt', RULES + '/Form.antt', RULES + '/Notation.antt')
def specified_forms():
    return specification(RULES)


@reads_of(TABLES)
def coded_forms():
    return constants(TABLES)


def comparisons():
    """What is compared: what it is, what the page has, and what the other has."""
    forms, withdrawn = page_forms()
    table, last = forms[:-1], forms[-1]
    pairs, opposites, tests = page_axis_pairs(), page_opposites(), page_test_pairs()
    return [
        ('axes of the page and of crate common', page_axes(), numbered('Axes')),
        ('tests of the page and of crate common', [(n, NAMED_TESTS.get(name, name)) for n, name in page_tests()],
         numbered('NodeTests', '_test')),
        ('forms of the page and of RuleTable.antt', table, specified_forms()),
        ('forms of the page and of tables.rt', table, coded_forms()),
        ('withdrawn rules of the page and of RuleTable.antt', withdrawn,
         withdrawn_in(RULES + '/RuleTable.antt', r'\((\d+) ▸ \[\]\)')),
        ('withdrawn rules of the page and of tables.rt', withdrawn,
         [n for n in withdrawn_in(TABLES, r'^    // (\d+)\n    &\[\],') if n]),
        ('axis pairs of the page and of Order.antt', pairs, sorted(specification_axes(RULES))),
        ('axis pairs of the page and of tables.rt', pairs, sorted(pairs_of(TABLES, 'AXIS_PAIRS'))),
        ('test order of the page and of Order.antt', tests, specification_test_pairs()),
        ('test order of the page and of order.rt', tests, code_test_pairs()),
        ('rule 59 of the page and as it is known', [last], [WAY_BACK_FORM]),
        ('rule 59 of the page and of Yields.antt', [last], [said_of_ways_back()]),
        ('ways back of the page and as they are known', page_table('path', 'its way back'), WAY_BACK_WORDS),
        ('opposite axes of the page and of WayBack.antt', opposites, specification_axes(RULES, 'WayBack', 'opposites')),
        ('opposite axes of the page and of way_back.rt', opposites, pairs_of(WAY_BACK, 'OPPOSITES')),
        ('numbers of rule 59 and of the table\'s last rule', [WAY_BACK_RULE, TABLE_RULES, WAY_BACK_RULE],
         list(rule_numbers())),
    ]


def compare():
    """Says what was compared; whether all is the same."""
    same = True
    for what, left, right in comparisons():
        if left == right:
            print('%s: %d, the same' % (what, len(left)))
            continue
        same = False
        print('%s: DIFFERENT, %d and %d' % (what, len(left), len(right)))
        for i, (x, y) in enumerate(zip(left, right)):
            if x != y:
                print('  first at place %d:\n    %s\n    %s' % (i, x, y))
                break
    return same


# 6. The selftest.

# what may stand for a word of an expression and says something else
OTHERS = [['p', 'q', 'r', 's'], ['f', 'g', 'h'], ['u', 'v'], ['a', 'b'], ['N', 'M'], ['V', 'R'], ['true', 'false'],
          ['and', 'or'], ['node()', '*'], ['|', '/'], ['<=', '=>'], AXES]


def changed_words(row):
    """The row of a table with one word of an expression changed, in each way."""
    for match in re.finditer(r'node\(\)|<=|=>|::|[|/*]|[A-Za-z][A-Za-z-]*', row):
        if row.count('`', 0, match.start()) % 2 == 0 or row[match.start() - 1:match.start()] == '\\':
            continue
        for others in OTHERS:
            if match.group() in others:
                for other in others:
                    if other != match.group():
                        other = '\\|' if other == '|' else other
                        yield row[:match.start()] + other + row[match.end():]


def changed_cells(row):
    """The row with a premise or a condition less, two premises exchanged, a condition more or another one, another
    number, and a row that is left out or stands twice."""
    cells = [cell.strip() for cell in re.split(r'(?<!\\)\|', row)[1:-1]]
    line = lambda *cells: '| ' + ' | '.join(cells) + ' |'
    rule, concluded, premises, conditions = cells
    premise = re.findall(r'`[^`]+`', premises)
    for i in range(len(premise)):
        yield line(rule, concluded, ', '.join(premise[:i] + premise[i + 1:]), conditions)
    if len(premise) > 1:
        yield line(rule, concluded, ', '.join(reversed(premise)), conditions)
    condition = conditions.split(', ') if conditions else []
    for phrase in PHRASES:
        if phrase not in condition:
            yield line(rule, concluded, premises, ', '.join(condition + [phrase]))
        for i in range(len(condition)):
            if phrase != condition[i]:
                yield line(rule, concluded, premises, ', '.join(condition[:i] + [phrase] + condition[i + 1:]))
    for i in range(len(condition)):
        yield line(rule, concluded, premises, ', '.join(condition[:i] + condition[i + 1:]))
    yield line(str(int(rule) + 1), concluded, premises, conditions)
    if concluded != 'withdrawn':
        yield line(rule, 'withdrawn', '', '')
        yield row + '\n' + line(rule, 'withdrawn', '', '')
        yield row + '\n' + row
    yield None


def changed_pages():
    """The page, changed in one place of its tables of rules, orders and ways back."""
    text = text_of(PAGE)
    lines = text.split('\n')
    first, last = [lines.index(heading) for heading in ('### Orders', '### Steps')]
    rule_row = re.compile(r'\| \d+ \| (`|withdrawn)')
    for i in range(first, last):
        row = lines[i]
        if not row.startswith('| ') or lines[i + 1].startswith('|---'):
            continue
        if rule_row.match(row):
            changes = list(changed_words(row)) + list(changed_cells(row))
        else:
            names = [match for name in AXES for match in re.finditer(r'(?<![\w-])%s(?![\w-])' % name, row)]
            next_axis = lambda name: AXES[(AXES.index(name) + 1) % len(AXES)]
            changes = [None, row + '\n' + row] + list(changed_words(row))
            changes += [row[:m.start()] + next_axis(m.group()) + row[m.end():] for m in names]
        for change in changes:
            yield PAGE, '\n'.join(lines[:i] + ([] if change is None else [change]) + lines[i + 1:])


# changes of the specifications and of the code: the file, a text of it, and what stands for it
CHANGES = [
    (RULES + '/RuleTable.antt', '(4 ▸ p <= q ¦ r from p <= q', '(4 ▸ p <= q ¦ r from p <= r'),
    (RULES + '/RuleTable.antt', 'N_below_M ∷ N_not_node ∷ a_not_attribute', 'N_below_M ∷ N_not_node'),
    (RULES + '/RuleTable.antt', '(44 ▸', '(45 ▸'),
    (RULES + '/RuleTable.antt', '(50 ▸ [])', '(50 ▸ p <= p from [])'),
    (RULES + '/RuleTable.antt', '(28 ▸ p ≐', '(28 ▸ q ≐'),
    (RULES + '/Form.antt', 'infixl 93 ◌∕◌', 'infixl 90 ◌∕◌'),
    (RULES + '/Order.antt', '∷ (parent, ancestor)', '∷ (parent, descendant)'),
    (RULES + '/Order.antt', 'eqb t name_test && eqb u star_test', 'eqb t name_test && eqb u text_test'),
    (RULES + '/WayBack.antt', '(child, parent)', '(child, ancestor)'),
    (RULES + '/Yields.antt', '(Filter r (some_of w))', '(Filter w (some_of r))'),
    (RULES + '/Yields.antt', 'way_back_rule = 59', 'way_back_rule = 60'),
    (COMMON + '/Axes.antt', 'following = 9', 'following = 10'),
    (COMMON + '/NodeTests.antt', 'text_test = 3', 'text_test = 4'),
    (TABLES, 'conditions: &[Condition::ABelowB, Condition::NBelowM]', 'conditions: &[Condition::ABelowB]'),
    (TABLES, 'Pattern::Letter(Letter::Q)', 'Pattern::Letter(Letter::S)'),
    (TABLES, '(axis::CHILD, axis::DESCENDANT),', '(axis::CHILD, axis::ANCESTOR),'),
    (ORDER, '(Ok(NodeTest::Name), Ok(NodeTest::Star)) => true', '(Ok(NodeTest::Star), Ok(NodeTest::Name)) => true'),
    (WAY_BACK, 'WAY_BACK_RULE: u16 = 59', 'WAY_BACK_RULE: u16 = 50'),
    (WAY_BACK, '(axis::DESCENDANT, axis::ANCESTOR)', '(axis::DESCENDANT, axis::PARENT)'),
]


def is_refused(path, text):
    CHANGED[path] = text
    try:
        return any(left != right for _, left, right in comparisons())
    except (Wrong, ValueError, KeyError, IndexError, AttributeError, TypeError):
        return True
    finally:
        del CHANGED[path]


def selftest():
    if not all(left == right for _, left, right in comparisons()):
        raise SystemExit('the tables differ before any change')
    count, unseen = 0, []
    others = []
    for path, old, new in CHANGES:
        text = text_of(path)
        if old not in text:
            raise SystemExit('%s has no %r' % (path, old))
        others.append((path, text.replace(old, new, 1)))
    for path, text in list(changed_pages()) + others:
        count += 1
        if text == text_of(path) or not is_refused(path, text):
            unseen.append((path, text))
    for path, text in unseen:
        before = text_of(path).split('\n')
        print('UNSEEN: %s: %s' % (path, [line for line in text.split('\n') if line not in before]))
    print('%d changes, %d seen' % (count, count - len(unseen)))
    return not unseen


def main():
    if sys.argv[1:] == ['--constants']:
        return print_constants(RULES)
    if sys.argv[1:] not in ([], ['--selftest']):
        raise SystemExit(__doc__)
    try:
        sys.exit(0 if (selftest() if sys.argv[1:] else compare()) else 1)
    except Wrong as wrong:
        raise SystemExit('wrong: %s' % wrong)


if __name__ == '__main__':
    main()
