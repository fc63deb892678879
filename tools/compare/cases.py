"""Random inputs for the programs replay and audit: derivations that are yielded, near misses, refused calls in between,
documents and selects, full tables, and damaged text.

    python3 tools/compare/cases.py full-bundle SEED     prints a bundle of 1,024 rows and 2,048 steps
    python3 tools/compare/cases.py longest-bundle       prints the longest bundle that is accepted

It needs Python 3 and installs nothing.
"""

import random
import re
import sys
from collections import namedtuple

from rules import (AXES, AXIS_LETTERS, DEEPEST, FORMS, KINDS, MISTAKES, MOST_POINTS, MOST_RECORDS, MOST_ROWS,
                   MOST_STEPS, NAMED, OPPOSITE, PATH_LETTERS, ROOT, TEST_LETTERS, VOID, WAY_BACK, Book, Term, below,
                   condition, fill, inclusion, looser_forms, match, match_both, some, step, way_back)
from spelling import Spelling

MOST_BYTES, MOST_NODES, MOST_NUMBERS, MOST_MARKS, MOST_LIMIT = 65536, 512, 1539, 1024, 4294967295
MOST_REPLACED, MOST_LISTED = 64, 100
NAMES = [1, 2, 3, 65535]
EDGES = [0, 1, 2, 3, 5, 6, 7, 10, 11, 12, 31, 32, 33, 58, 59, 60, 511, 512, 513, 1023, 1024, 1025, 2047, 2048, 2049,
         65534, 65535]
FORMS_WITH_PREMISES = [form for form in FORMS if form[2]]
CONDITIONED = (8, 10, 22, 23, 26, 58)
# Rule 8 has most pairs to decide.
FORMS_WITH_CONDITIONS = [form for form in FORMS for _ in range(5 if form[0] == 8 else 1) if form[0] in CONDITIONED]
LOOSER_FORMS = [looser for form in FORMS for looser in looser_forms(form)]
OTHER_KIND = {"union": "composition", "composition": "union", "and": "or", "or": "and"}
ODD_LINES = [b"", b"fresh", b"document", b"document ", b"document" + b" 0" * MOST_NUMBERS,
             b"document" + b" 0" * (MOST_NUMBERS + 1), b"select 0 0 0 1024", b"select 0 0 0 1025",
             b"select 0 0 4294967295 0", b"select 0 0 4294967296 0", b"kind a b c",
             b"rule left right first second", b"term 65535 65536 0 0",
             b"step 1 0 0 0 0 0", b"Term 0 0 0 0", b"old", b"new", b"replace", b"old ", b"old 65536", b"point",
             b"point 65536", b"point 1 1", b"return", b"return 65536", b"names", b"names ", b"names a  b",
             b"text", b"text ", b"text a", b"text a[b or .]", b"texts a", b"names" + b" a" * 2000, b"other", b"other 0",
             b"order 0 0", b"order 0", b"order 65536 0", b"bundle-order", b"bundle-order 0", b"bundle",
             b"record", b"record 7 1 0", b"record 7 1 0 0", b"record 7 1 0 0 0", b"record 65536 1 0 0",
             b"record 7 1 0 65536", b"current", b"current 7", b"current 65536", b"current 7 7", b"release",
             b"release 0", b"release 1", b"release 65536", b"records", b"records 1", b"released", b"released 0",
             b"crew-current", b"crew-current 7", b"way-back", b"way-back 0", b"way-back 0 0", b"way-back 65536",
             *(word + b" 1" * count for word in (b"old", b"new", b"replace")
               for count in (MOST_LISTED, MOST_LISTED + 1))]
# Words that are names, and lines that are none; a text's names are among the first, so some of them aren't listed.
WORDS = "log mark run and or not div true text node comment self child ancestor-or-self e_1 a.b x-y _ A9".split()
NO_NAMES = ["3d", "", "a:b", "-a", "a*", ".", "log\t"]
# Lines that may stand before the others, and how many: a list of 2,048 bytes is indexed, up to its line 10,240.
OTHER_LINES, MANY_LINES = ["", "b", "3d", "zz"], [1000, 2000, 10220, 10235, 10240, 11000]
# What makes any text one that ends too soon, and bytes that no text has.
TOO_SOON = ["/", "//", "|", "[", "[a", "[a and ", "[a or", "[not(", "[(a", "[true(", "/@", "/self::", "/text(", "/..//"]
FOREIGN = list("#!$%&;,{}\\^~?+=<>") + ["é", "\x7f", "\x00"]
# A visit takes up to as many tests as the square of the nodes. A select that may need more tests gets a smaller limit.
MANY_TESTS, FEW_VISITS = 10**8, 1000

# accepted: for each printed line whether its call is accepted, None where the generator doesn't say; or None for all.
Case = namedtuple("Case", "program input accepted")


class Session:
    """A list of random calls, as replay's lines, with the book that they lead to."""

    def __init__(self, rng):
        self.rng, self.book, self.nodes = rng, Book(), 0
        self.aside = Book()  # the session that the last `other` set aside
        self.names = []  # the lent list's lines
        self.calls = []  # (word, numbers, whether it is accepted)

    # Random terms

    def test(self):
        test = self.rng.choice([0, 0, 1, 1, 2, 2, 2, 2, 3, 4, 5, 6, 6])
        return (test, self.rng.choice(NAMES) if test in NAMED else 0)

    def path(self, depth):
        rng = self.rng
        if depth == 0 or rng.random() < 0.4:
            return rng.choice([step(rng.randrange(len(AXES)), self.test())] * 6 + [VOID, ROOT])
        left, kind = self.path(depth - 1), rng.choice(["union", "composition", "filter"])
        return Term(kind, left, self.qualifier(depth - 1) if kind == "filter" else self.path(depth - 1))

    def qualifier(self, depth):
        rng = self.rng
        if depth == 0 or rng.random() < 0.2:
            return Term(rng.choice(["true", "false"]))
        kind = rng.choice(["not", "and", "or", "in"])
        if kind == "not":
            return ~self.qualifier(depth - 1)
        if kind == "in":
            return inclusion(self.path(depth - 1), self.path(depth - 1))
        return Term(kind, self.qualifier(depth - 1), self.qualifier(depth - 1))

    def any_term(self, path):
        """A held term of this sort, or a new one."""
        for _ in range(8):
            if self.book.terms and self.rng.random() < 0.8:
                term = self.rng.choice(self.book.terms)
                if term.is_path() == path and self.book.nestings[self.book.number_of_term[term]] < 20:
                    return term
        return self.path(2) if path else self.qualifier(2)

    def altered(self, term):
        """The term with a change somewhere in it."""
        rng, args = self.rng, list(term.args)
        if term.kind == "step":
            place = rng.randrange(2)
            args[place] = [rng.randrange(len(AXES)), self.test()][place]
            return step(*args)
        if args and rng.random() < 0.7:
            place = rng.randrange(len(args))
            args[place] = self.altered(args[place])
            return Term(term.kind, *args)
        if term.kind in OTHER_KIND and rng.random() < 0.6:
            return rng.choice([Term(OTHER_KIND[term.kind], *args), Term(term.kind, *reversed(args))])
        return self.any_term(term.is_path())

    # Calls

    def call(self, word, numbers, accepted=None):
        self.calls.append((word, " ".join(map(str, numbers)), accepted))
        return accepted

    def term(self, row):
        return self.call("term", row, self.book.term(row))

    def step(self, numbers):
        return self.call("step", numbers, self.book.step(numbers))

    def point(self):
        """A point of a free name, or of 0 or one in use."""
        name = self.rng.choice([0, 1, 2, 3, 4, 5, 6, 7, 8, 9, 10, 65535])
        return self.call("point", (name,), self.book.point(name))

    def points(self):
        """As many points as there can be, and one more."""
        while len(self.book.points) < MOST_POINTS:
            self.point()
        self.point()

    def return_to(self):
        """A return, mostly to a point that is held."""
        held = [point[0] for point in self.book.points]
        name = self.rng.choice(held if held and self.rng.random() < 0.8 else [0, 1, 5, 9, 65535])
        return self.call("return", (name,), self.book.return_to(name))

    def record(self):
        """The next edition of a series by a held step, or by one that says p <= p, with a few changes."""
        rng, book = self.rng, self.book
        series = rng.choice([0, 1, 2, 7, 65535])
        last = book.last(series)
        paths = [row for row, term in enumerate(book.terms) if term.is_path()]
        edition, row, number = 1, rng.choice(paths or [0]), 0
        if last:
            edition = last[1] + 1
            found = [n for n, held in enumerate(book.steps, 1) if held[1] == last[2]]
            if not found and rng.random() < 0.7 and self.step((2, last[2], last[2], 0, 0)):
                found = [len(book.steps)]
            number = rng.choice(found or [0])
            row = book.steps[number - 1][2] if number else last[2]
        record = [series, edition, row, number]
        for _ in range(rng.choice([0, 0, 0, 0, 1, 1, 2])):
            place = rng.randrange(1, 4)
            held = (edition, len(book.rows), len(book.steps))[place - 1]
            record[place] = rng.choice([rng.randrange(held + 3), record[place] ^ 1, *EDGES[:6], 65535])
        self.call("record", record, book.record(tuple(record)))
        self.current()
        if rng.random() < 0.5:
            self.release()

    def records(self):
        """As many records as there can be, and a few more; sometimes all released."""
        paths = [row for row, term in enumerate(self.book.terms) if term.is_path()]
        for series in range(1000, 1000 + MOST_RECORDS if paths else 1000):
            record = (series, 1, self.rng.choice(paths), 0)
            self.call("record", record, self.book.record(record))
        for _ in range(8):
            self.record()
        if self.rng.random() < 0.3:
            for place in range(1, MOST_RECORDS + 2):
                self.call("release", (place,), place <= len(self.book.records))
            self.call("released", (), True)

    def current(self):
        series = self.rng.choice([0, 1, 2, 3, 7, 1000, 1250, 65535])
        self.call(self.rng.choice(["current", "crew-current"]), (series,), True)

    def release(self):
        """A release, mostly of a record, and what is then listed."""
        rng, held = self.rng, len(self.book.records)
        place = rng.choice([rng.randrange(held + 2), rng.randrange(held + 2), rng.choice(EDGES)])
        self.call("release", (place,), 1 <= place <= held)
        self.call(rng.choice(["records", "released", "released"]), (), True)

    def hold(self, term):
        """The term's row, after the calls that it takes; nothing if they are refused."""
        number_of = self.book.number_of_term
        if term not in number_of:
            if term.kind == "step":
                row = (2, term.args[0], *term.args[1])
            else:
                operands = [self.hold(x) for x in term.args]
                if None in operands:
                    return None
                row = (KINDS.index(term.kind), *operands, 0, 0, 0)[:4]
            self.term(row)
        return number_of.get(term)

    def say(self, rule, said, premises=()):
        """The step call for these two terms; whether it is accepted."""
        rows = [self.hold(term) for term in said]
        return None not in rows and self.step((rule, *rows, *premises, 0, 0)[:5])

    # Derivations

    def choose(self, letters):
        """A choice for each letter, the same one for the same letter."""
        def choice(letter):
            if letter not in letters:
                if letter in AXIS_LETTERS:
                    letters[letter] = self.rng.randrange(len(AXES))
                elif letter in TEST_LETTERS:
                    letters[letter] = self.test()
                else:
                    letters[letter] = self.any_term(letter in PATH_LETTERS)
            return letters[letter]
        return choice

    def axiom(self, statement, letters):
        """Makes a step by a rule without premises that says an instance of the statement; its number."""
        for _ in range(40):
            rule, conclusion, premises = self.rng.choice(FORMS if self.rng.random() < 0.6 else FORMS[:3])
            if premises:
                continue
            near = self.rng.randrange(2)
            trial, others = dict(letters), {}
            said = [None, None]
            said[near] = fill(statement[near], self.choose(trial))
            if match(conclusion[near], said[near], others):
                said[1 - near] = fill(conclusion[1 - near], self.choose(others))
                if condition(rule, others) and match(statement[1 - near], said[1 - near], trial):
                    letters.update(trial)
                    return len(self.book.steps) if self.say(rule, said) else None
        return None

    def premise(self, statement, letters):
        """The number of a step that says an instance of the statement: a held one, or a new one."""
        steps = self.book.steps
        if self.rng.random() < 0.7:
            for place in self.rng.sample(range(len(steps)), min(40, len(steps))):
                trial = dict(letters)
                if match_both(statement, self.book.says(steps[place]), trial):
                    letters.update(trial)
                    return place + 1
        return self.axiom(statement, letters)

    def reversible(self, depth):
        """A path that has a way back."""
        rng = self.rng
        if depth == 0 or rng.random() < 0.3:
            return step(rng.choice(list(OPPOSITE)), self.test())
        left, kind = self.reversible(depth - 1), rng.choice(["union", "composition", "composition", "filter"])
        return Term(kind, left, self.qualifier(depth - 1) if kind == "filter" else self.reversible(depth - 1))

    def derive_way_back(self, near_misses):
        """A step by the rule of the way back, or nearly one."""
        rng = self.rng
        path = self.reversible(3) if rng.random() < 0.7 else self.any_term(True)
        back = way_back(path, rng.choice(MISTAKES) if rng.random() < near_misses else None) or way_back(path, "admit")
        if rng.random() < near_misses / 2:
            back = self.altered(back)
        said = [path, path[some(back)]]
        if rng.random() < near_misses / 4:
            other = self.any_term(True)[some(back)]
            said = rng.choice([said[::-1], [path, path], [path, path[~some(back)]], [path, other]])
        self.say(WAY_BACK, said, (rng.randrange(2), 0) if rng.random() < near_misses / 8 else ())

    def derive(self, near_misses=0.35):
        """A step by a random form of a rule, or nearly one."""
        rng = self.rng
        if rng.random() < 0.08:
            return self.derive_way_back(near_misses)
        letters, part, new = {}, None, None
        if rng.random() >= near_misses:
            form = rng.choice(FORMS if rng.random() < 0.6 else FORMS_WITH_PREMISES)
            self.choose_axes_and_tests(form[0], letters, condition)
        elif rng.random() < 0.8:
            part, new, form = rng.choice(LOOSER_FORMS)
            self.choose_axes_and_tests(form[0], letters, condition)
        else:
            form = rng.choice(FORMS_WITH_CONDITIONS)
            self.choose_axes_and_tests(form[0], letters, lambda *_: True)
        rule, conclusion, premises = form
        if isinstance(part, Term) and rng.random() < 0.5:
            letters[new] = self.altered(fill(part, self.choose(letters)))
        numbers = [self.premise(statement, letters) for statement in premises]
        said = [fill(side, self.choose(letters)) for side in conclusion]
        if None not in numbers and rng.random() >= near_misses / 4:
            self.say(rule, said, numbers)
        else:
            self.altered_step((rule, *map(self.hold, said), *numbers, 0, 0)[:5])

    def choose_axes_and_tests(self, rule, letters, wanted):
        """For a rule with a condition, chooses axes and tests as wanted; for rule 10 so that rule 8 yields its first
        premise."""
        rng = self.rng
        while rule in CONDITIONED:
            letters.update({x: rng.randrange(len(AXES)) for x in "ab"}, **{x: self.test() for x in "NMT"})
            same = rng.choice(["axis", "test", None])
            if same == "axis":
                letters["b"] = letters["a"]
            elif same == "test":
                letters["M"] = letters["N"]
            if wanted(rule, letters) and (rule != 10 or below(letters)):
                break

    def altered_step(self, numbers):
        """The step call with one or two numbers changed."""
        numbers = [n or 0 for n in numbers]
        for _ in range(self.rng.choice([1, 1, 2])):
            place = self.rng.randrange(5)
            held = len(self.book.rows) if place in (1, 2) else 59 if place == 0 else len(self.book.steps)
            numbers[place] = self.rng.choice([self.rng.randrange(held + 2), self.rng.choice(EDGES), numbers[place] ^ 1])
        if self.rng.random() < 0.2:
            place = self.rng.choice([1, 3])
            numbers[place], numbers[place + 1] = numbers[place + 1], numbers[place]
        self.step(tuple(min(n, 65535) for n in numbers))

    def altered_term(self):
        """A term call with numbers at random places changed."""
        rng, held = self.rng, len(self.book.rows)
        row = list(rng.choice(self.book.rows)) if held and rng.random() < 0.7 else [rng.randrange(13), 0, 0, 0]
        for _ in range(rng.choice([0, 1, 1, 2, 3])):
            place = rng.randrange(4)
            row[place] = rng.choice([row[place] ^ 1, rng.choice(EDGES), rng.randrange(held + 2), rng.randrange(13)])
        self.term(tuple(row))

    def deep_term(self):
        """Terms nested one in the other until they are refused."""
        rng = self.rng
        number = self.hold(self.any_term(rng.random() < 0.5))
        while number is not None:
            path = self.book.terms[number].is_path()
            kind = rng.choice([3, 4, 11] if path else [8, 9, 10])
            row = (kind, number, 0 if kind == 8 else number, 0)
            is_last = self.book.nestings[number] == DEEPEST
            self.term(row)
            number = None if is_last else self.book.number_of_row.get(row)

    # Selectors as text

    def lend_names(self):
        """A list with names, some of them twice, and lines that are none; sometimes many other lines before them."""
        rng = self.rng
        lines = [rng.choice(WORDS if rng.random() < 0.9 else NO_NAMES) for _ in range(rng.choice([0, 3, 8, 16, 40]))]
        if rng.random() < 0.15:
            lines = [rng.choice(OTHER_LINES) for _ in range(rng.choice(MANY_LINES))] + lines
        self.names = lines[:-1] if lines[-1:] == [""] else lines
        self.call("names", lines)

    def number(self, name):
        return self.names.index(name) + 1 if name in self.names else 0

    def selector(self):
        """A text call: a selector, one that nests too deep, or one that isn't of the grammar."""
        rng = self.rng
        used = self.names if self.names and rng.random() < 0.8 else WORDS
        used = [name for name in used if name in WORDS] or WORDS
        spelling = Spelling(rng, used, used, self.number, (" ", " ", "\t", "\r", "  "))
        depths = [0, 1, 2, 2, 3]
        text, term = spelling.union(rng.choice(depths)) if rng.random() < 0.93 else self.long_selector(spelling)
        text = spelling.w() + text + spelling.w()
        if rng.random() < 0.75:
            return self.call("text", [text], self.hold_all(term))
        kind, place = rng.randrange(3), rng.randrange(len(text) + 1)
        if kind == 0:
            text += rng.choice(TOO_SOON)
        elif kind == 1:
            text = text[:place] + rng.choice(FOREIGN) + text[place:]
        else:
            cut = place + rng.choice([0, 1, 1, 2])
            odd = rng.choice([*"/|[]()@.*:'", "::", "//", "or", " ", "a"])
            text = text[:place] + odd + text[cut:] + rng.choice(FOREIGN)
        return self.call("text", [text], False)

    def long_selector(self, spelling):
        """A chain of some 32 steps, or some 32 levels of `not`, groups and predicates; the term is None past 32."""
        rng = self.rng
        if rng.random() < 0.5:
            pairs = [spelling.step(0) for _ in range(rng.choice([30, 31, 32, 33, 34]))]
            term = pairs[0][1]
            for _, next_term in pairs[1:]:
                term = term / next_term
            return "/".join(text for text, _ in pairs), term
        text, term = spelling.step(0)
        term, levels = some(term), 0
        most = rng.choice([27, 28, 29, 31, 32])
        while levels < most:
            levels += 1
            if rng.random() < 0.6:
                text, term = f"not({text})", ~term
            else:
                text = f"({text})"
        outer, path = spelling.test()
        return f"{outer}[{text}]", step(1, path)[term] if levels < 32 else None

    def hold_all(self, term):
        """Whether all rows of the term can be held; if so, holds them."""
        found = parts(term, {}) if term else {}
        book = self.book
        unnamed = any(x.kind == "step" and x.args[1][0] in NAMED and not x.args[1][1] for x in found)
        if not found or found[term] > DEEPEST or unnamed:
            return False
        if len(book.rows) + sum(x not in book.number_of_term for x in found) > MOST_ROWS:
            return False
        calls = len(self.calls)
        self.hold(term)
        del self.calls[calls:]
        return True

    def reverse(self):
        """The way back of a row, mostly of a path that has one; a qualifier and a row that isn't held among them."""
        book, rng = self.book, self.rng
        row = self.hold(self.reversible(rng.choice([0, 1, 2, 3]))) if rng.random() < 0.7 else None
        if row is None:
            row = min(rng.choice([rng.randrange(len(book.rows) + 2), rng.choice(EDGES)]), 65535)
        is_path = row < len(book.rows) and book.terms[row].is_path()
        return self.call("way-back", (row,), is_path and self.hold_all(way_back(book.terms[row])))

    # Documents and selects

    def document(self, damage=0.3):
        rng = self.rng
        most = MOST_NODES + rng.choice([-1, 0, 1])
        nodes = rng.choice([1, 20, 40, 100, most]) if rng.random() < 0.15 else rng.randint(2, 16)
        numbers = document(rng, nodes)
        if rng.random() < damage:
            row = rng.randrange(len(numbers) // 3)
            place, choices = rng.choice([(0, [*range(7), 5, 5, 5]), (1, range(row + 2)), (1, range(row + 2)),
                                         (2, range(2)), (2, EDGES)])
            numbers[3 * row + place] = rng.choice(choices)
            if rng.random() < 0.3:
                numbers = numbers[:rng.randrange(len(numbers) + 1)]
        self.nodes = (len(numbers) + 2) // 3
        self.call("document", numbers)

    def select(self):
        rng, terms = self.rng, self.book.terms
        paths = [number for number, term in enumerate(terms) if term.is_path()]
        row = rng.choice(paths) if paths and rng.random() < 0.9 else rng.choice([rng.randrange(len(terms) + 2), *EDGES])
        context = rng.randrange(self.nodes) if self.nodes and rng.random() < 0.9 else rng.choice([self.nodes, *EDGES])
        marks = self.nodes + rng.choice([0, 0, 0, 1, 5, -1]) if rng.random() < 0.9 else rng.choice(EDGES)
        limit = rng.choice([rng.randrange(10), rng.randrange(10), rng.randrange(100),
                            rng.randrange(many_visits(self.nodes))])
        if row >= len(terms) or is_quick(terms[row], self.nodes):
            limit = rng.choice([limit, MOST_LIMIT, MOST_LIMIT - 1])
        self.call("select", (row, context, limit, min(max(marks, 0), MOST_MARKS)))

    def replace(self):
        """The rows of some held steps, mostly of paths, replaced by those that they lead to, with a few changes."""
        rng, book = self.rng, self.book
        numbered = list(enumerate(book.steps, 1))
        paths = [(n, held) for n, held in numbered if book.terms[held[1]].is_path()]
        steps = paths if rng.random() < 0.95 else numbered
        chosen = [rng.choice(steps) for _ in range(rng.choice([0, 1, 2, 3, 5, 10, 63, 64, 64, 65]))] if steps else []
        steps, old, new = [n for n, _ in chosen], [held[1] for _, held in chosen], [held[2] for _, held in chosen]
        if rng.random() < 0.6:
            new = list(dict.fromkeys(new))
        new += [rng.choice([rng.randrange(len(book.terms) + 2), *EDGES]) for _ in range(rng.choice([0, 0, 1, 3]))]
        rng.shuffle(new)
        for _ in range(rng.choice([0, 0, 0, 1, 1, 2])):
            changed = rng.choice([steps, steps, old, new])
            place = rng.randrange(len(changed) + 1)
            number = rng.choice([0, rng.randrange(len(book.steps) + 3), rng.randrange(len(book.terms) + 2), *EDGES])
            if changed is steps and numbered and rng.random() < 0.5:
                number = rng.choice(numbered)[0]
            changed[place:place + rng.choice([0, 1, 1, 1])] = [number] * rng.choice([0, 1, 1, 1])
        self.call("old", old[:MOST_LISTED])
        self.call("new", new[:MOST_LISTED])
        self.call("replace", steps, is_covered(book, old, new[:MOST_LISTED], steps))

    def write(self):
        needed = len(bundle_text(self.book.rows, self.book.steps))
        edges = [needed, needed, needed - 1, needed + 1, MOST_BYTES, MOST_BYTES - 1, 0]
        room = self.rng.choice([*edges, self.rng.randrange(min(2 * needed, MOST_BYTES))])
        self.call("write", (room,), needed <= room)

    def other(self):
        """Sets the session aside. The new one gets some of its terms, in another order, and mostly its first steps."""
        rng = self.rng
        self.call("other", ())
        self.aside, self.book = self.book, Book()
        terms = self.aside.terms
        for term in rng.sample(terms, min(len(terms), rng.choice([0, 3, 10, 40]))):
            self.hold(term)
        for rule, left, right, *premises in self.aside.steps[:rng.choice([0, 1, 5, MOST_STEPS, MOST_STEPS])]:
            numbers = (rule, self.hold(terms[left]), self.hold(terms[right]), *premises)
            if rng.random() < 0.03:
                self.altered_step(numbers)
            elif not self.step(numbers) or rng.random() < 0.02:
                break
        self.orders()

    def orders(self):
        """Rows of the session set aside against rows of this one, mostly of terms that both hold, and the bundles."""
        rng, left, right = self.rng, self.aside.number_of_term, self.book.number_of_term
        both = [term for term in left if term in right]
        for _ in range(rng.choice([1, 3, 8])):
            rows = [rng.randrange(len(left) + 1), rng.randrange(len(right) + 1)]
            if both and rng.random() < 0.6:
                rows = [left[rng.choice(both)], right[rng.choice(both)]]
            if both and rng.random() < 0.4:
                term = rng.choice(both)
                rows = [left[term], right[term]]
            if rng.random() < 0.05:
                rows[rng.randrange(2)] = rng.choice(EDGES)
            self.call("order", rows, rows[0] < len(left) and rows[1] < len(right))
        self.call("bundle-order", (), True)

    def random_call(self):
        n = self.rng.random()
        if self.rng.random() < 0.04:
            return self.orders()
        if self.rng.random() < 0.02:
            return self.other()
        if self.rng.random() < 0.12:
            return self.record()
        if self.rng.random() < 0.002:
            return self.records()
        if self.rng.random() < 0.06:
            return self.replace()
        if self.rng.random() < 0.15:
            return self.selector()
        if self.rng.random() < 0.06:
            return self.reverse()
        if n < 0.5:
            self.derive()
        elif n < 0.6:
            self.altered_term()
        elif n < 0.65 and self.book.steps:
            self.altered_step(self.rng.choice(self.book.steps))
        elif n < 0.7:
            self.document()
        elif n < 0.775:
            self.point()
        elif n < 0.78:
            self.points()
        elif n < 0.82:
            self.return_to()
        elif n < 0.95:
            self.select()
        elif n < 0.97:
            self.write()
        elif n < 0.98:
            self.lend_names()
        else:
            self.deep_term()

    def fill_tables(self):
        """Rows and steps until the tables are full, and a few calls more."""
        name = 1000
        while len(self.book.rows) < MOST_ROWS:
            name += 1
            self.term((2, self.rng.randrange(12), 0, name))
        by_rule = {2: [(2, 0, 0, 0, 0)]}
        for held in self.book.steps:
            by_rule.setdefault(held[0], []).append(held)
        while len(self.book.steps) < MOST_STEPS:
            self.step(self.rng.choice(by_rule[self.rng.choice(list(by_rule))]))
        for _ in range(4):
            self.altered_term()
            self.altered_step(self.book.steps[-1])
            self.selector()
            self.term((2, 0, 0, self.rng.randrange(2000, 3000)))
            self.step(self.book.steps[-1])

    def text(self):
        return text_of(f"{word} {numbers}" if numbers else word for word, numbers, _ in self.calls)

    def accepted(self):
        """For each line that replay prints, whether the call is accepted, where the book says so."""
        silent = ("document", "old", "new", "names", "other")
        return [accepted for word, _, accepted in self.calls if word not in silent]

    def bundle(self, refused=False):
        """The accepted term and step calls as a bundle, with one of the refused ones in its place if so asked."""
        places = [place for place, (_, _, accepted) in enumerate(self.calls) if accepted is False]
        kept = self.rng.choice(places) if refused and places else None
        calls = [call for place, call in enumerate(self.calls) if call[2] or place == kept]
        terms, steps = ([numbers for word, numbers, _ in calls if word == wanted] for wanted in ("term", "step"))
        return text_of(["kind a b c", *terms, "rule left right first second", *steps])


def is_covered(book, old, new, steps):
    """Whether replace accepts these lists."""
    def covers(row, number):
        held = book.steps[number - 1] if 1 <= number <= len(book.steps) else None
        return held is not None and held[1] == row and book.terms[row].is_path() and held[2] in new
    if max(len(old), len(new)) > MOST_REPLACED or len(steps) != len(old):
        return False
    return all(covers(row, number) for row, number in zip(old, steps))


def parts(term, found):
    """The nesting of each part of the term."""
    if term not in found:
        operands = [x for x in term.args if isinstance(x, Term)]
        for x in operands:
            parts(x, found)
        found[term] = 1 + max((found[x] for x in operands), default=0)
    return found


def text_of(lines):
    return "".join(line + "\n" for line in lines).encode()


def bundle_text(rows, steps):
    rows, steps = ([" ".join(map(str, numbers)) for numbers in lines] for lines in (rows, steps))
    return text_of(["kind a b c", *rows, "rule left right first second", *steps])


def document(rng, nodes):
    """The numbers of a document with this many nodes."""
    rows = [(0, 0, 0)]
    deep, attributes = rng.random(), rng.choice([0, 0.3, 0.5])
    while len(rows) < nodes:
        parent = len(rows) - 1
        while parent and (rows[parent][0] != 1 or rng.random() > deep):
            parent = rows[parent][1]
        kind = rng.choice([1, 1, 1, 1, 2, 3, 4, 4])
        rows.append((kind, parent, name_for(rng, kind)))
        while kind == 1 and len(rows) < nodes and rng.random() < attributes:
            rows.append((5, owner(rows), rng.choice(NAMES)))
    return [number for row in rows for number in row]


def name_for(rng, kind):
    """An element's name, or an instruction's target, 0 for none recorded; 0 for other nodes."""
    return rng.choice({1: NAMES, 4: [0, *NAMES]}.get(kind, [0]))


def owner(rows):
    """The element that an attribute after these rows belongs to."""
    kind, parent, _ = rows[-1]
    return len(rows) - 1 if kind == 1 else parent


def many_visits(nodes):
    return FEW_VISITS + MANY_TESTS // (nodes + 1)**2


def is_quick(term, nodes):
    """Whether the term needs few enough visits on any document with so many nodes."""
    return visits_at_most(term, nodes, {}) < many_visits(nodes)


def visits_at_most(term, nodes, known):
    if term not in known:
        first, *rest = [visits_at_most(x, nodes, known) for x in term.args if isinstance(x, Term)] or [0]
        known[term] = 1 + first + sum(rest) * (nodes if term.kind in ("composition", "filter") else 1)
    return known[term]


def damaged(rng, text):
    """The text with a few bytes or lines changed."""
    text = bytearray(text)
    for _ in range(rng.choice([1, 1, 1, 2, 4])):
        place = rng.randrange(len(text) + 1)
        byte = rng.choice(b"0123456789012345678901234567899   \n\n\r\t-+.adkrst\0\xff")
        change = rng.randrange(9)
        if change == 0:
            text[place:place + 1] = [byte]
        elif change == 1:
            text[place:place] = [byte]
        elif change == 2:
            del text[place:place + rng.choice([1, 1, 2, 5])]
        elif change == 3:
            del text[place:]
        else:
            lines = bytes(text).split(b"\n")
            place = rng.randrange(len(lines))
            words = lines[place].split(b" ")
            if change == 4:
                odd = [b"65535", b"65536", b"00", b"01", b"", b"4294967296", b"0"]
                words[rng.randrange(len(words))] = rng.choice(odd)
                lines[place] = b" ".join(words)
            elif change == 5:
                lines[place] = rng.choice([lines[place] + b" 0", b" ".join(words[:-1]), lines[place] + b" ", b""])
            elif change == 6:
                del lines[place]
            elif change == 7:
                lines.insert(rng.randrange(len(lines)), rng.choice(ODD_LINES))
            else:
                lines.insert(rng.randrange(len(lines) + 1), lines[place])
            text = bytearray(b"\n".join(lines))
    return with_low_limits(bytes(text))


def with_low_limits(text):
    """The text with a low limit in each select, since the damage may have changed its path or its document."""
    def lowered(found):
        is_limit = FEW_VISITS < int(found[2]) <= MOST_LIMIT
        return found[1] + (b"%d" % FEW_VISITS if is_limit else found[2]) + found[3]
    return re.sub(rb"(?m)^(select \d+ \d+ )(\d+)( \d+)$", lowered, text)


def resized(rng, text):
    """The text made as long as the longest input, or a byte or more longer, by its last term or step over and over."""
    size = MOST_BYTES + rng.choice([0, 0, 1, 1, 2, 5000])
    others = (b"select", b"document", b"old", b"new", b"replace", b"write", b"names", b"text", b"other", b"order",
              b"bundle-order", b"record", b"current", b"release", b"crew-current", b"way-back")
    line = next((line for line in reversed(text.splitlines(True)) if not line.startswith(others)), b"\n")
    return (text + line * (size // len(line) + 1))[:size - 1] + rng.choice([b"\n", b"0"])


def replay_case(rng):
    session = Session(rng)
    if rng.random() < 0.8:
        session.document(damage=0)
    if rng.random() < 0.8:
        session.lend_names()
    for _ in range(rng.choice([1, 5, 20, 60])):
        session.random_call()
    if rng.random() < 0.01:
        session.fill_tables()
        session.select()
        session.write()
    text, kind = session.text(), rng.random()
    if kind < 0.72 and len(text) <= MOST_BYTES:
        return Case("replay", text, session.accepted())
    if kind < 0.99:
        return Case("replay", damaged(rng, text), None)
    return Case("replay", resized(rng, text), None)


def audit_case(rng):
    session = Session(rng)
    for _ in range(rng.choice([0, 2, 10, 40])):
        rng.choice([session.derive, session.derive, session.derive, session.altered_term])()
    if rng.random() < 0.03:
        session.deep_term()
    if rng.random() < 0.02:
        session.fill_tables()
    kind = rng.random()
    text = session.bundle(refused=kind < 0.3)
    if kind < 0.6:
        return Case("audit", text, [True] if kind >= 0.3 else None)
    if kind < 0.98:
        return Case("audit", damaged(rng, text), None)
    return Case("audit", resized(rng, text), None)


def random_case(rng):
    return audit_case(rng) if rng.random() < 0.35 else replay_case(rng)


def full_bundle(seed):
    """A bundle with both tables full."""
    session = Session(random.Random(seed))
    while len(session.book.rows) < MOST_ROWS - 8:
        session.derive(near_misses=0)
    session.fill_tables()
    return session.bundle()


def longest_bundle():
    """A bundle of 58,281 bytes, the most that a bundle can have that is accepted."""
    last = range(1001, 1006)
    rows = [(2, 10, 0, 10000 + number) for number in range(1001)] + [(11, 1000, 1000, 0)]
    rows += [(10, row, row, 0) for row in last[:-1]] + [(10, x, y, 0) for x in last for y in last if x != y]
    steps = [(2, 1001, 1001, 0, 0)]
    for row, premise, end in (1002, 1, 10), (1003, 10, 100), (1004, 100, 1000), (1005, 1000, MOST_STEPS):
        steps += [(21, row, 1001, premise, premise)] * (end - len(steps))
    return bundle_text(rows[:MOST_ROWS], steps)


if __name__ == "__main__":
    if sys.argv[1:] == ["longest-bundle"]:
        sys.stdout.buffer.write(longest_bundle())
    elif len(sys.argv) == 3 and sys.argv[1] == "full-bundle":
        sys.stdout.buffer.write(full_bundle(int(sys.argv[2])))
    else:
        sys.exit(__doc__)
