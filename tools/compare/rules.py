"""Terms, the rules as patterns of terms, and a book that says whether a term or step call is accepted.

The case generator needs these to make steps that are yielded, steps that nearly are, and to know the numbers of held
rows and steps. It decides acceptance alone; numbers, values and selection are the reference's work.
"""

import weakref

KINDS = "void root step union composition filter true false not and or in".split()
PATHS = set(KINDS[:6])
AXES = ("self child parent descendant ancestor descendant-or-self ancestor-or-self following-sibling "
        "preceding-sibling following preceding attribute").split()
STAR, NODE, INSTRUCTION = (1, 0), (2, 0), (5, 0)
NAMED = (0, 6)  # the tests that take a name or a target
PATH_LETTERS, QUALIFIER_LETTERS, AXIS_LETTERS, TEST_LETTERS = "pqrst", "fghi", "abc", "NMTO"
MOST_ROWS, MOST_STEPS, DEEPEST = 1024, 2048, 32
MOST_POINTS = 8
MOST_RECORDS = 256


class Term:
    """A path, a qualifier, or a pattern of one, with letters.

    There is one object for each term, so equal terms are the same object. A test is (number, name).
    In Python's notation `|` is also or, `&` is and, `~` is not, and `<=` is also implication.
    """
    __slots__ = ("kind", "args", "__weakref__")
    all = weakref.WeakValueDictionary()

    def __new__(cls, kind, *args):
        term = cls.all.get((kind, args))
        if term is None:
            term = super().__new__(cls)
            term.kind, term.args = kind, args
            cls.all[kind, args] = term
        return term

    def is_path(self):
        return self.args[0] in PATH_LETTERS if self.kind == "letter" else self.kind in PATHS

    def __or__(self, other):
        return Term("union" if self.is_path() else "or", self, other)

    def __truediv__(self, other):
        return Term("composition", self, other)

    def __getitem__(self, qualifier):
        return Term("filter", self, qualifier)

    def __and__(self, other):
        return Term("and", self, other)

    def __invert__(self):
        return Term("not", self)

    def __le__(self, other):
        return (self, other)


def step(axis, test):
    return Term("step", axis, test)


def inclusion(left, right):
    return Term("in", left, right)


def some(path):
    return ~inclusion(path, VOID)


def equal(left, right):
    return [left <= right, right <= left]


def axis(name):
    return lambda test: step(AXES.index(name), test)


VOID, ROOT, TRUE, FALSE = (Term(kind) for kind in ("void", "root", "true", "false"))


def table():
    """(rule, conclusions, premises), one line for each form or pair of directions."""
    p, q, r, s, f, g, h = (Term("letter", letter) for letter in "pqrsfgh")
    a, b, N, M, T = "abNMT"
    (self, child, parent, descendant, ancestor, descendant_or_self, ancestor_or_self, following_sibling,
     preceding_sibling, following, preceding, _) = map(axis, AXES)
    dot = self(NODE)
    return [
        (1, [VOID <= p], []),
        (2, [p <= p, f <= f], []),
        (3, [p <= r], [p <= q, q <= r]),
        (3, [f <= h], [f <= g, g <= h]),
        (4, [p <= q | r], [p <= q]),
        (5, [p <= q | r], [p <= r]),
        (6, [p | q <= r], [p <= r, q <= r]),
        (7, [p / q <= r / s], [p <= r, q <= s]),
        (8, [step(a, N) <= step(b, M)], []),
        (9, [p[f] <= r[g]], [p <= r, f <= g]),
        (10, [p / step(a, N) <= r / step(b, M)], [step(a, N) <= step(b, M), p <= r / step(b, STAR)]),
        (10, [p / step(a, N) <= r / step(b, M)], [step(a, N) <= step(b, M), p <= r / step(b, NODE)]),
        (11, [p / q <= r / s], [p[some(q)] <= r, q <= s]),
        (12, [inclusion(p, q) <= inclusion(r, s)], [r <= p, q <= s]),
        (13, [~f <= ~g], [g <= f]),
        (14, [f <= TRUE], []),
        (15, [FALSE <= f], []),
        (16, [f & g <= h], [g <= h]),
        (17, [f & g <= h], [f <= h]),
        (18, [f <= g & h], [f <= g, f <= h]),
        (19, [f <= g | h], [f <= g]),
        (20, [f <= g | h], [f <= h]),
        (21, [f | g <= h], [f <= h, g <= h]),
        (22, [inclusion(child(T), VOID) <= inclusion(descendant(N), VOID)], []),
        (23, [inclusion(parent(T), VOID) <= inclusion(ancestor(N), VOID)], []),
        (24, [p <= VOID], [TRUE <= inclusion(p, VOID)]),
        (25, [p[f & g] <= VOID], [f <= ~g]),
        (26, [p / step(a, N) <= ROOT / descendant(M)], []),
        (27, equal(p, p[TRUE]), []),
        (28, equal(p, dot / p), []),
        (29, equal(p, p / dot), []),
        (30, equal(p[FALSE], VOID), []),
        (31, equal(p[f][g], p[f & g]), []),
        (32, equal(p[f] | p[g], p[f | g]), []),
        (33, equal((p | q) / r, p / r | q / r), []),
        (34, equal(p / (q | r), p / q | p / r), []),
        (35, equal((p | q)[f], p[f] | q[f]), []),
        (36, equal((p / q) / r, p / (q / r)), []),
        (37, equal((p / q)[f], p / (q[f])), []),
        (38, equal(inclusion(p / q, VOID), inclusion(p[some(q)], VOID)), []),
        (39, equal(~(f & g), ~f | ~g), []),
        (40, equal(~(f | g), ~f & ~g), []),
        (41, equal(f & (g | h), (f & g) | (f & h)), []),
        (42, equal(f | (g & h), (f | g) & (f | h)), []),
        (43, equal(~~f, f), []),
        (44, equal(~TRUE, FALSE), []),
        (45, equal(~FALSE, TRUE), []),
        (46, equal(inclusion(p | q, r), inclusion(p, r) & inclusion(q, r)), []),
        (47, equal(f & ~f, FALSE), []),
        (48, equal(child(N)[f] / parent(M), self(M)[some(child(N)[f])]), []),
        (49, equal(descendant(N)[f] / parent(M), descendant_or_self(M)[some(child(N)[f])]), []),
        (51, [descendant(N)[f] / child(M) <= descendant(M)[some(parent(N)[f])]], []),
        (52, equal(descendant_or_self(N), descendant(N) | self(N)), []),
        (53, equal(ancestor_or_self(N), ancestor(N) | self(N)), []),
        (54, [ancestor_or_self(NODE) / following_sibling(NODE) / descendant_or_self(N) <= following(N)], []),
        (55, equal(preceding(N), ancestor_or_self(NODE) / preceding_sibling(NODE) / descendant_or_self(N)), []),
        (56, [p / ROOT <= ROOT], []),
        (57, [ROOT <= ancestor_or_self(NODE)], []),
        (58, equal(step(a, NODE) / self(N), step(a, N)), []),
    ]


FORMS = [(rule, conclusion, premises) for rule, conclusions, premises in table() for conclusion in conclusions]
WAY_BACK = 59
PREMISES = {50: 0, WAY_BACK: 0} | {rule: len(premises) for rule, _, premises in FORMS}

ATTRIBUTE = 11
AXIS_BELOW = {(a, a) for a in range(12)} | {
    (1, 3), (1, 5), (3, 5), (0, 5), (0, 6), (2, 4), (2, 6), (4, 6), (7, 9), (8, 10)}


def test_below(n, m):
    return n == m or m == NODE or (n[0] == 0 and m == STAR) or (n[0] == 6 and m == INSTRUCTION)


def below(letters):
    return (letters["a"], letters["b"]) in AXIS_BELOW and test_below(letters["N"], letters["M"])


def condition(rule, letters):
    if rule == 8:
        return below(letters)
    if rule == 10:
        return 3 <= letters["b"] <= 10
    if rule in (22, 23):
        return letters["T"] == NODE or (letters["T"] == STAR and letters["N"][0] in (0, 1))
    if rule == 26:
        return test_below(letters["N"], letters["M"]) and letters["N"] != NODE and letters["a"] != ATTRIBUTE
    if rule == 58:
        return letters["a"] != ATTRIBUTE
    return True


OPPOSITE = {0: 0, 1: 2, 3: 4, 5: 6, 7: 8, 8: 7}
# what a wrong way back may take for the axes that have none
WRONG_OPPOSITE = {2: 1, 4: 3, 6: 5, 9: 10, 10: 9, 11: 2}
MISTAKES = ("order", "union", "filter", "axis", "star", "test", "admit")


def way_back(path, mistake=None, made=None):
    """The path's way back, nothing where it has none; with a mistake, if one is asked for."""
    made = {} if made is None else made
    if path not in made:
        made[path] = way_back_new(path, mistake, made)
    return made[path]


def way_back_new(path, mistake, made):
    if path.kind == "step":
        axis, test = path.args
        back = OPPOSITE.get(axis, WRONG_OPPOSITE.get(axis) if mistake == "admit" else None)
        if back is None:
            return None
        if mistake == "axis":
            back = {2: 4, 4: 2, 6: 4, 8: 10, 7: 9}.get(back, 5)
        return step(0, NODE if mistake == "test" else test) / step(back, STAR if mistake == "star" else NODE)
    if path.kind in ("union", "composition"):
        p, q = (way_back(x, mistake, made) for x in path.args)
        if p is None or q is None:
            return None
        if path.kind == "union":
            return q | p if mistake == "union" else p | q
        return p / q if mistake == "order" else q / p
    if path.kind == "filter":
        p = way_back(path.args[0], mistake, made)
        return p if p is None or mistake == "filter" else step(0, NODE)[path.args[1]] / p
    return step(0, NODE) if mistake == "admit" else None


def match(pattern, term, letters):
    """Whether the term is an instance of the pattern; chooses values for new letters."""
    if pattern.kind == "letter":
        return pattern.is_path() == term.is_path() and letters.setdefault(pattern.args[0], term) is term
    if pattern.kind != term.kind:
        return False
    if pattern.kind == "step":
        return all(letters.setdefault(x, y) == y if isinstance(x, str) else x == y
                   for x, y in zip(pattern.args, term.args))
    return all(match(x, y, letters) for x, y in zip(pattern.args, term.args))


def match_both(statement, said, letters):
    return match(statement[0], said[0], letters) and match(statement[1], said[1], letters)


def fill(pattern, choose):
    """The pattern with choose(letter) for each letter."""
    if pattern.kind == "letter":
        return choose(pattern.args[0])
    if pattern.kind == "step":
        return step(*(choose(x) if isinstance(x, str) else x for x in pattern.args))
    return Term(pattern.kind, *(fill(x, choose) for x in pattern.args))


def positions(form):
    """The place of each part of a form's statements: which statement, which side, which operands."""
    def below(part, place):
        yield place
        if isinstance(part, Term) and part.kind != "letter":
            for n, operand in enumerate(part.args):
                yield from below(operand, (*place, n))
    statements = [form[1], *form[2]]
    return [place for n, said in enumerate(statements) for side in (0, 1) for place in below(said[side], (n, side))]


def part_at(form, place):
    part = [form[1], *form[2]][place[0]][place[1]]
    for n in place[2:]:
        part = part.args[n]
    return part


def replaced(form, place, new):
    """The form with another part at that place."""
    def put(part, place):
        if not place:
            return new
        args = list(part.args)
        args[place[0]] = put(args[place[0]], place[1:])
        return Term(part.kind, *args)
    statements = [list(form[1]), *map(list, form[2])]
    statements[place[0]][place[1]] = put(statements[place[0]][place[1]], place[2:])
    return (form[0], tuple(statements[0]), [tuple(said) for said in statements[1:]])


def letter_of(part):
    if isinstance(part, Term):
        return part.args[0] if part.kind == "letter" else None
    return part if isinstance(part, str) else None


def looser_forms(form):
    """The form with a new letter for one part, wherever that makes a difference: [(part, letter, form)]."""
    letters = [letter_of(part_at(form, place)) for place in positions(form)]
    forms = []
    for place in positions(form):
        part = part_at(form, place)
        if letter_of(part) is None or letters.count(letter_of(part)) > 1:
            if not isinstance(part, Term):
                new = letter = AXIS_LETTERS[-1] if place[-1] == 0 else TEST_LETTERS[-1]
            else:
                letter = next(x for x in (PATH_LETTERS if part.is_path() else QUALIFIER_LETTERS) if x not in letters)
                new = Term("letter", letter)
            forms.append((part, letter, replaced(form, place, new)))
    return forms


class Book:
    """Held rows and steps, with the terms they say."""

    def __init__(self):
        self.rows, self.terms, self.nestings, self.steps = [], [], [], []
        self.number_of_row, self.number_of_term = {}, {}
        self.points = []  # (name, rows held, steps held)
        self.records = []  # (series, edition, row, step)

    def says(self, step):
        return self.terms[step[1]], self.terms[step[2]]

    def is_held(self, number, path):
        return number < len(self.terms) and self.terms[number].is_path() == path

    def term(self, row):
        """Whether the term call is accepted; if so, makes it."""
        kind, a, b, c = row
        if kind > 11:
            return False
        operands = ()
        if kind == 2:
            if a > 11 or b > 6 or (c == 0) != (b not in NAMED):
                return False
            term = step(a, (b, c))
        else:
            sorts = {3: (1, 1), 4: (1, 1), 5: (1, 0), 8: (0,), 9: (0, 0), 10: (0, 0), 11: (1, 1)}.get(kind, ())
            operands, unused = row[1:1 + len(sorts)], row[1 + len(sorts):]
            if any(unused) or not all(map(self.is_held, operands, sorts)):
                return False
            term = Term(KINDS[kind], *(self.terms[n] for n in operands))
        nesting = 1 + max((self.nestings[n] for n in operands), default=0)
        if nesting > DEEPEST or row in self.number_of_row or len(self.rows) == MOST_ROWS:
            return False
        self.number_of_row[row] = self.number_of_term[term] = len(self.rows)
        self.rows.append(row)
        self.terms.append(term)
        self.nestings.append(nesting)
        return True

    def point(self, name):
        """Whether the point is set; if so, sets it."""
        if name == 0 or name in [point[0] for point in self.points] or len(self.points) == MOST_POINTS:
            return False
        self.points.append((name, len(self.rows), len(self.steps)))
        return True

    def return_to(self, name):
        """Whether there is such a point that has all rows and steps of records; if so, returns to it."""
        names = [point[0] for point in self.points]
        if name not in names:
            return False
        _, rows, steps = self.points[names.index(name)]
        if any(row >= rows or step > steps for _, _, row, step in self.records):
            return False
        del self.points[names.index(name) + 1:]
        del self.rows[rows:], self.terms[rows:], self.nestings[rows:], self.steps[steps:]
        for numbers in (self.number_of_row, self.number_of_term):
            for key in [key for key, number in numbers.items() if number >= rows]:
                del numbers[key]
        return True

    def last(self, series):
        """The record of the series' current edition."""
        return max((held for held in self.records if held[0] == series), key=lambda held: held[1], default=None)

    def record(self, record):
        """Whether the record is accepted; if so, puts it."""
        series, edition, row, step = record
        last = self.last(series)
        if edition != (last[1] if last else 0) + 1 or not self.is_held(row, True) or len(self.records) == MOST_RECORDS:
            return False
        held = self.steps[step - 1] if 1 <= step <= len(self.steps) else None
        if step != 0 if last is None else held is None or held[1:3] != (last[2], row):
            return False
        self.records.append(record)
        return True

    def step(self, step):
        """Whether the step call is accepted; if so, makes it."""
        rule, left, right, *premises = step
        if rule not in PREMISES or max(left, right) >= len(self.rows):
            return False
        if self.terms[left].is_path() != self.terms[right].is_path():
            return False
        needed = PREMISES[rule]
        if any(premises[needed:]) or not all(1 <= n <= len(self.steps) for n in premises[:needed]):
            return False
        said = [self.says(self.steps[n - 1]) for n in premises[:needed]]
        if len(self.steps) == MOST_STEPS or not yields(rule, self.says(step), said):
            return False
        self.steps.append(step)
        return True


def yields(rule, conclusion, premises):
    if rule == WAY_BACK:
        left, right = conclusion
        back = way_back(left) if left.is_path() else None
        return back is not None and right is left[some(back)]
    for number, pattern, patterns in FORMS:
        letters = {}
        if (number == rule and match_both(pattern, conclusion, letters)
                and all(match_both(x, y, letters) for x, y in zip(patterns, premises)) and condition(rule, letters)):
            return True
    return False
