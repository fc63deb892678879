#!/usr/bin/env python3
"""Tests the comparison of programs: whether its cases tell wrong rules and wrong programs from right ones.

    python3 tools/compare/selftest.py [--seed N] [--count N]

It needs Python 3 and cargo, and installs nothing. First it changes the rule table of rules.py in one place at a time,
by a new letter for what stands there or one letter for two, and says which wrong rules no case tells from the right
ones. Rule 24's are never found, since no rule yields its premise. Then it changes the reference's source by one edit
at a time, and says which wrong programs pass. The exit status is 0 if there are none but those of rule 24.
"""

import contextlib
import io
import itertools
import random
import re
import shutil
import sys
import tempfile
from pathlib import Path

import cases
import rules
from programs import compare
from rules import (AXIS_LETTERS, FORMS, PATH_LETTERS, QUALIFIER_LETTERS, TEST_LETTERS, Term, letter_of, looser_forms,
                   part_at,
                   positions, replaced)
from shared import TREE, build, options

# (file, right, wrong)
EDITS = [
    ("book.rs", "row[0] > 11", "row[0] > 10"),
    ("book.rs", "b <= 6", "b <= 5"),
    ("book.rs", "b == 0 || b == 6", "b == 0"),
    ("book.rs", "b == 0 || b == 6 { c >= 1", "b == 0 || b == 6 { c >= 1 || b == 6"),
    ("book.rs", "a <= 11, b", "a <= 10, b"),
    ("book.rs", "c >= 1", "c >= 2"),
    ("book.rs", "3 | 4 | 11 => [path(a), path(b), c == 0]", "3 | 4 | 11 => [path(a), path(b), c <= 1]"),
    ("book.rs", "place as u64 + 1)\n    }\n\n    fn nesting", "(place as u64 + 1).max(2))\n    }\n\n    fn nesting"),
    ("book.rs", "8 => 1 + of(a)", "8 => of(a)"),
    ("book.rs", "of(a).max(of(b))", "of(a).min(of(b))"),
    ("book.rs", "DEEPEST: u32 = 32", "DEEPEST: u32 = 33"),
    ("book.rs", "MOST_ROWS: usize = 1024", "MOST_ROWS: usize = 1023"),
    ("book.rs", "MOST_STEPS: usize = 2048", "MOST_STEPS: usize = 2047"),
    ("book.rs", "(1..=59)", "(0..=58)"),
    ("book.rs", "(1..=59)", "(1..=60)"),
    ("book.rs", "return (5, 2)", "return (5, 1)"),
    ("book.rs", "r.is_path() != l.is_path()", "r.is_path() && !l.is_path()"),
    ("book.rs", "(1..=self.steps.len()).contains(&premise)", "(1..self.steps.len()).contains(&premise)"),
    ("book.rs", "else { premise == 0 }", "else { place == 1 || premise == 0 }"),
    ("book.rs", "context as usize >= document.len()", "context as usize > document.len()"),
    ("book.rs", "marks.len() < document.len()", "marks.len() <= document.len()"),
    ("book.rs", "visits > limit as u64", "visits >= limit as u64"),
    ("bundle.rs", "None => (16, length)", "None => (16, length - 1)"),
    ("bundle.rs", "lines.push(names(STEP_NAMES))", "lines.insert(0, names(STEP_NAMES))"),
    ("programs.rs", "number(room, MOST_BYTES as u64)", "number(room, 65535)"),
    ("document.rs", "MOST_NODES: usize = 512", "MOST_NODES: usize = 511"),
    ("document.rs", "return Err(0)", "return Err(1)"),
    ("document.rs", "numbers.chunks(3)", "numbers.chunks_exact(3)"),
    ("document.rs", "parent == n - 1 || is_ancestor(before, parent, n - 1)", "parent < n"),
    ("document.rs", "matches!(before[parent].kind, 0 | 1)", "matches!(before[parent].kind, 0..=3)"),
    ("document.rs", "name >= 1", "true"),
    ("document.rs", "_ => name == 0", "_ => kind == 3 || name == 0"),
    ("document.rs", "_ => name == 0", "_ => kind == 2 || name == 0"),
    ("document.rs", "4 => true", "4 => name == 0"),
    ("document.rs", "4 => true", "4 => name != 65535"),
    ("document.rs", "node.kind == 4 && node.name == target", "node.kind == 4 && [0, target].contains(&node.name)"),
    ("document.rs", "node.kind == 4 && node.name == target", "node.name == target"),
    ("document.rs", "(1..=5).contains(&kind)", "(0..=5).contains(&kind)"),
    ("document.rs", "before[parent].kind == 1 && before", "before"),
    ("document.rs", "node.kind == 5 && node.parent == parent)", "node.kind != 2)"),
    ("document.rs", "x == y || !is_attribute(y)", "!is_attribute(y)"),
    ("document.rs", "| Axis::Following | Axis::Preceding => !is_attribute(y)",
     "| Axis::Following | Axis::Preceding => !is_attribute(x)"),
    ("document.rs", "!is_attribute(x) && !is_attribute(y)", "!is_attribute(y)"),
    ("document.rs", "if axis == Axis::Attribute { 5 } else { 1 }", "if axis == Axis::Attribute { 1 } else { 1 }"),
    ("document.rs", "y != 0 && d[y].parent == x", "d[y].parent == x"),
    ("document.rs", "x != 0 && y != 0 && x != y", "y != 0 && x != y"),
    ("document.rs", "y > x && !is_ancestor(d, x, y)", "y > x"),
    ("document.rs", "y < x && !is_ancestor(d, y, x)", "y < x"),
    ("document.rs", "Test::AnyElement => node.kind == principal", "Test::AnyElement => node.kind <= principal"),
    ("document.rs", "node.kind == principal && node.name == name", "node.name == name && name != 65535"),
    ("selection.rs", "nodes = BTreeSet::from([0])", "nodes = BTreeSet::from_iter((x != 0).then_some(0))"),
    ("selection.rs",
     "let (holds, cost) = self.qualifier(f, y);\n                    visits = visits.saturating_add(cost);",
     "let (holds, _) = self.qualifier(f, y);"),
    ("selection.rs", "(left || right, cost.saturating_add(more))",
     "(left || right, if left { cost } else { cost + more })"),
    ("selection.rs", "(left.is_subset(&right), cost.saturating_add(more))", "(left.is_subset(&right), cost)"),
    ("selection.rs", "left.is_subset(&right)", "left == right"),
    ("rules.rs", "(Child, Descendant | DescendantOrSelf)", "(Child, Descendant)"),
    ("rules.rs", "(FollowingSibling, Following)", "(FollowingSibling, Following | Preceding)"),
    ("rules.rs", "m == Test::AnyNode\n        ||", ""),
    ("rules.rs", " | (Test::Target(_), Test::Instruction)", ""),
    ("rules.rs", "(Test::Target(_), Test::Instruction)", "(Test::Target(_), Test::Instruction | Test::Target(_))"),
    ("rules.rs", "(Test::Target(_), Test::Instruction)",
     "(Test::Target(_) | Test::Instruction, Test::Instruction | Test::Target(_))"),
    ("rules.rs", "(3..=10).contains", "(4..=10).contains"),
    ("rules.rs", "(3..=10).contains", "(0..=10).contains"),
    ("rules.rs", "matches!(l.test('N'), Test::Name(_) | Test::AnyElement)", "matches!(l.test('N'), Test::Name(_))"),
    ("rules.rs", "Test::AnyNode => true,", "Test::AnyNode => matches!(l.test('N'), Test::AnyNode),"),
    ("rules.rs", " && l.test('N') != Test::AnyNode", ""),
    ("rules.rs", " && l.axis('a') != Axis::Attribute", ""),
    ("rules.rs", "58 => l.axis('a') != Axis::Attribute", "58 => true"),
    ("rules.rs", "Descendant => Some(Ancestor)", "Descendant => Some(Parent)"),
    ("rules.rs", "SelfNode => Some(SelfNode),", "SelfNode => Some(SelfNode),\n        Following => Some(Preceding),"),
    ("rules.rs", "(Some(q), Some(p)) => then(q, p)", "(Some(q), Some(p)) => then(p, q)"),
    ("rules.rs", "Rc::new(Term::Union(p, q))", "Rc::new(Term::Union(q, p))"),
    ("rules.rs", "then(Rc::new(Term::Filter(here, f.clone())), p)", "{ let _ = (here, f); Some(p) }"),
    ("rules.rs", "step(axis, Test::AnyNode)))", "step(axis, Test::AnyElement)))"),
    ("bundle.rs", "(word.len() > 1 && word[0] == b'0')", "(word.len() > 2 && word[0] == b'0')"),
    ("bundle.rs", "number(words.next()?, 65535)?", "number(words.next()?, 65536)?"),
    ("bundle.rs", "line.strip_suffix(b\"\\n\")", "Some(line.strip_suffix(b\"\\n\").unwrap_or(line))"),
    ("bundle.rs", "_ => Err((10, count + 1))", "_ => Err((10, count))"),
    ("bundle.rs", "return Err((refusal, count))", "return Err((refusal, count - 1))"),
    ("bundle.rs", "Section::Steps => Ok(())", "Section::Steps | Section::Terms => Ok(())"),
    ("programs.rs", "MOST_BYTES: usize = 65536", "MOST_BYTES: usize = 65535"),
    ("programs.rs", "MOST_NUMBERS: usize = 1539", "MOST_NUMBERS: usize = 1538"),
    ("programs.rs", "MOST_NUMBERS: usize = 1539", "MOST_NUMBERS: usize = 1540"),
    ("programs.rs", "MOST_MARKS: u64 = 1024", "MOST_MARKS: u64 = 1023"),
    ("programs.rs", "MOST_MARKS: u64 = 1024", "MOST_MARKS: u64 = 1025"),
    ("programs.rs", "marks[y] == 1", "marks[y] != 0"),
    ("programs.rs", "u32::MAX as u64)?", "u32::MAX as u64 - 1)?"),
    ("register.rs", "MOST_RECORDS: usize = 256", "MOST_RECORDS: usize = 255"),
    ("register.rs", "(22, due)", "(22, due - 1)"),
    ("register.rs", "None => step == 0", "None => true"),
    ("register.rs", "(l, r) == (previous, row)", "(r, l) == (previous, row)"),
    ("register.rs", "(row as usize) < rows && step as usize <= steps", "(row as usize) < rows"),
    ("register.rs", "(row as usize) < rows && step as usize <= steps", "step as usize <= steps"),
    ("register.rs", "at < self.records.len()", "at <= self.records.len() && at > 0"),
    ("register.rs", "self.released.iter().map", "self.released.iter().rev().map"),
    ("register.rs", "highest(&self.crew_listing(), series)", "highest(&self.records, series)"),
]


def wrong_forms(form):
    """The form with a new letter for one part, or with one letter for two of the same sort."""
    yield from (looser for _, _, looser in looser_forms(form))
    letters = [letter_of(part_at(form, place)) for place in positions(form)]
    for sort in (PATH_LETTERS, QUALIFIER_LETTERS, AXIS_LETTERS, TEST_LETTERS):
        for one, two in itertools.combinations([x for x in sort if x in letters], 2):
            changed = form
            for place in positions(form):
                if letter_of(part_at(form, place)) == two:
                    is_term = isinstance(part_at(form, place), Term)
                    changed = replaced(changed, place, Term("letter", one) if is_term else one)
            yield changed


def questions_asked(seed, count):
    """What the cases ask of each rule: {rule: {(conclusion, premises)}}."""
    asked = {rule: set() for rule in range(1, 60)}

    def asks(rule, conclusion, premises):
        asked[rule].add((conclusion, tuple(premises)))
        return right(rule, conclusion, premises)

    right, rules.yields = rules.yields, asks
    for n in range(count):
        cases.random_case(random.Random(f"{seed} {n}"))
    rules.yields = right
    return asked


def missed_forms(asked):
    """How many wrong forms there are, and those that no question tells from the right one."""
    tried, missed = 0, []
    for place, form in enumerate(FORMS):
        questions = asked[form[0]]
        answers = [rules.yields(form[0], *question) for question in questions]
        for wrong in [None, *wrong_forms(form)]:
            tried += 1
            FORMS[place] = wrong or (0, *form[1:])
            with contextlib.suppress(KeyError):  # a condition on a letter that the wrong form doesn't have
                if answers == [rules.yields(form[0], *question) for question in questions]:
                    missed.append((form[0], wrong))
        FORMS[place] = form
    return tried, missed


def missed_conditions(asked):
    """The pairs of axes or tests, for each rule with a condition, for which no question makes them decide."""
    def letters_of(rule):
        for form in FORMS:
            for conclusion, premises in asked[rule] if form[0] == rule else ():
                letters = {}
                if rules.match_both(form[1], conclusion, letters) and all(
                        rules.match_both(x, y, letters) for x, y in zip(form[2], premises)):
                    yield letters

    def tests(letters, n, m):
        return letters[n][0], letters[m][0], letters[n] == letters[m]

    pairs = {(n, m, n == m) for n in range(7) for m in range(7)} | {(0, 0, False), (6, 6, False)}
    decided = [
        (8, {(x["a"], x["b"]) for x in letters_of(8) if rules.test_below(x["N"], x["M"])},
         set(itertools.product(range(12), repeat=2))),
        (8, {tests(x, "N", "M") for x in letters_of(8) if (x["a"], x["b"]) in rules.AXIS_BELOW}, pairs),
        (10, {x["b"] for x in letters_of(10)}, set(range(12))),
        (26, {tests(x, "N", "M") for x in letters_of(26)}, pairs),
        (26, {x["a"] for x in letters_of(26)}, set(range(12))),
        (58, {x["a"] for x in letters_of(58)}, set(range(12))),
        *((rule, {(x["T"][0], x["N"][0]) for x in letters_of(rule)}, set(itertools.product(range(7), repeat=2)))
          for rule in (22, 23)),
    ]
    missed = [(rule, x) for rule, found, every in decided for x in every - found]
    return sum(len(every) for _, _, every in decided), missed


def show(part):
    if isinstance(part, Term):
        return part.args[0] if part.kind == "letter" else f"{part.kind}({', '.join(map(show, part.args))})"
    return str(part)


def passing_edits(seed, count, reference):
    with tempfile.TemporaryDirectory() as directory:
        copy = Path(directory) / "reference"
        shutil.copytree(TREE / "tools/reference", copy, ignore=shutil.ignore_patterns("target"))
        for file, right, wrong in EDITS:
            source = copy / "src" / file
            text = source.read_text()
            if text.count(right) < 1:
                sys.exit(f"{file} has no {right!r}")
            source.write_text(text.replace(right, wrong, 1))
            program = build(copy)
            source.write_text(text)
            printed = io.StringIO()
            printed.buffer = io.BytesIO()
            with contextlib.redirect_stdout(printed):
                passes = compare(seed, count, reference, {name: [program, name] for name in ("replay", "audit")})
            found = re.search(r"at case (\d+)", printed.getvalue())
            print(f"{file}: {wrong!r} for {right!r}: {'PASSES' if passes else f'found at case {found[1]}'}", flush=True)
            if passes:
                yield file, right, wrong


def main():
    given = options(__doc__, 10000)
    asked = questions_asked(given.seed, given.count)
    tried, missed = missed_forms(asked)
    for rule, wrong in missed:
        text = [f"{show(x)} <= {show(y)}" for x, y in [wrong[1], *wrong[2]]] if wrong else "no such form"
        print(f"no case tells rule {rule} from {text}")
    print(f"{tried} wrong rules, {len(missed)} not found", flush=True)
    pairs, undecided = missed_conditions(asked)
    print(f"{pairs} pairs of axes or tests in conditions, {len(undecided)} not decided: {undecided}", flush=True)
    passing = list(passing_edits(given.seed, given.count, build()))
    print(f"{len(EDITS)} wrong programs, {len(passing)} not found")
    sys.exit(1 if passing or undecided or any(rule != 24 for rule, _ in missed) else 0)


if __name__ == "__main__":
    main()
