#!/usr/bin/env python3
"""Writes bundles of at most 65,536 bytes that are made to take long to read, each to a file of its name.

    worst.py FOLDER

Accepted ones, and beside each a refused one, NAME-refused, whose last line is refused. tools/bench/worst.sh times
them. It needs Python 3 and installs nothing."""
import os
import subprocess
import sys

ROW_NAMES = 'kind a b c'
STEP_NAMES = 'rule left right first second'
SLOTS = 8192
MOST_ROWS = 1024
MOST_STEPS = 2048
MOST_BYTES = 65536


def text(rows, steps):
    lines = [ROW_NAMES] + [' '.join(map(str, r)) for r in rows]
    lines += [STEP_NAMES] + [' '.join(map(str, s)) for s in steps]
    return '\n'.join(lines) + '\n'


def slot(row):
    """The slot of terms/src/kept.rt that a row falls in."""
    kind, a, b, c = row
    return (((kind * 37 + a) * 41 + b) * 43 + c) % SLOTS


def full_bundle(seed):
    """The rows and steps of the full bundle."""
    cases = os.path.join(os.path.dirname(__file__), '..', 'compare', 'cases.py')
    made = subprocess.run([sys.executable, cases, 'full-bundle', str(seed)], stdout=subprocess.PIPE, check=True, text=True)
    lines = made.stdout.split('\n')[:-1]
    at = lines.index(STEP_NAMES)
    numbers = [tuple(map(int, line.split())) for line in lines if line[0].isdigit()]
    return numbers[:at - 1], numbers[at - 1:]


def few_slots():
    """Steps with names in 128 slots, eight rows in each; every row after the first 128 is searched for."""
    firsts = [(2, 1 + i % 10, 0, 1 + i // 10) for i in range(128)]
    rows = [(k, a, b, c + SLOTS * turn) for turn in range(8) for k, a, b, c in firsts]
    assert len(set(map(slot, rows))) <= 128 and len(set(rows)) == MOST_ROWS
    return rows


def one_slot():
    """As many rows of one slot as are found, each of the rows before it."""
    target = slot((2, 1, 0, 1))
    rows = [(2, a, b, c) for a in range(12) for b in (0, 6) for c in range(1, 65536) if slot((2, a, b, c)) == target]
    grown = True
    while grown and len(rows) < MOST_ROWS:
        held = set(rows)
        more = [(k, a, b, 0) for k in (3, 4) for a in range(len(rows)) for b in range(len(rows))
                if slot((k, a, b, 0)) == target and (k, a, b, 0) not in held]
        rows += more[:MOST_ROWS - len(rows)]
        grown = bool(more)
    return rows


def ways_back(count):
    """child::1 to child::count, put together two by two: rows, and the pairs of each path with its way back, the whole
    path last."""
    rows, pairs = [(2, 2, 2, 0)], []

    def add(*row):
        rows.append(row)
        return len(rows) - 1

    def balanced(first, n):
        if n == 1:
            own = add(2, 0, 0, first)
            pairs.append((add(2, 1, 0, first), add(4, own, 0, 0)))
        else:
            p, q = balanced(first, n // 2), balanced(first + n // 2, n - n // 2)
            pairs.append((add(4, p[0], q[0], 0), add(4, q[1], p[1], 0)))
        return pairs[-1]

    balanced(1, count)
    return rows, pairs


def way_back_steps(rows, pairs):
    """The rows and a step by rule 59 for each pair."""
    rows, steps = rows + [(0, 0, 0, 0)], []
    void = len(rows) - 1
    for path, back in pairs:
        at = len(rows)
        rows += [(11, back, void, 0), (8, at, 0, 0), (5, path, at + 1, 0)]
        steps.append((59, path, at + 2, 0, 0))
    return rows, steps


def late_forms(rows):
    """The rows and four more; a step by rule 10 in its second form over and over: the first form fails at its last
    place."""
    step, own, right, left = range(len(rows), len(rows) + 4)
    more = [(2, 4, 2, 0), (2, 0, 2, 0), (4, own, step, 0), (4, right, step, 0)]
    premises = [(2, step, step, 0, 0), (2, right, right, 0, 0)]
    return rows + more, premises + [(10, left, right, 1, 2)] * (MOST_STEPS - 2)


def filled(rows, some):
    """The rows, and rows of few_slots after them up to the most."""
    held = set(rows)
    more = [r for r in some if r not in held]
    return rows + more[:MOST_ROWS - len(rows)]


def bundles():
    yield 'few-slots', few_slots(), []
    yield 'one-slot', one_slot(), []
    for seed in (1, 2, 3):
        rows, steps = full_bundle(seed)
        yield 'full-%d' % seed, rows, steps
    # each rule over and over, after the steps that its first use in the full bundle needs
    rows, steps = full_bundle(1)
    for rule in sorted({s[0] for s in steps}):
        first = next(i for i, s in enumerate(steps) if s[0] == rule)
        yield 'rule-%d' % rule, rows, steps[:first] + [steps[first]] * (MOST_STEPS - first)
    yield ('late-forms-few-slots',) + late_forms(few_slots()[:MOST_ROWS - 4])
    # one long path over and over, and each of many paths in turn
    for count in (64, 128, 203):
        rows, pairs = ways_back(count)
        rows, steps = way_back_steps(rows, pairs[-1:])
        yield 'way-back-%d' % count, rows, steps * MOST_STEPS
        yield 'way-back-%d-few-slots' % count, filled(rows, few_slots()), steps * MOST_STEPS
    rows, pairs = ways_back(93)
    rows, steps = way_back_steps(rows, pairs)
    yield 'ways-back-185', rows, steps * (MOST_STEPS // len(steps) + 1)
    yield 'ways-back-185-longest-first', rows, steps[::-1] * (MOST_STEPS // len(steps) + 1)


def main():
    folder = sys.argv[1]
    os.makedirs(folder, exist_ok=True)
    for name, rows, steps in bundles():
        for end, last in (('', []), ('-refused', [(0, 0, 0, 0, 0)])):
            bundle = text(rows, steps[:MOST_STEPS - len(last)] + last)
            if len(bundle) <= MOST_BYTES:
                with open(os.path.join(folder, name + end), 'w', encoding='ascii') as file:
                    file.write(bundle)


if __name__ == '__main__':
    main()
