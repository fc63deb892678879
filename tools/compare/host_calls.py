#!/usr/bin/env python3
"""Holds the calls for a host in C against the plain implementation in tools/reference, on random inputs.

    python3 tools/compare/host_calls.py [--seed N] [--count N]

It needs Python 3, cargo, a C compiler, and `rt` if the archive is to be made, and installs nothing. It stops at the
first difference and prints its input; else it says what ran.
"""

import ctypes
import random
import subprocess
from collections import Counter

from cases import MOST_BYTES, audit_case, document
from rules import AXES
from shared import TREE, build, need, options, output
from spelling import TYPES, Spelling

LIST = [f"n{number}" for number in range(1, 10)]


def library():
    """The archive as a shared library."""
    need({"cc": "gcc"})
    archive = subprocess.run(["tools/archive.sh", "spinebriar"], cwd=TREE, check=True, capture_output=True, text=True)
    shared = TREE / "target/spinebriar.so"
    whole = f"-Wl,--whole-archive,{TREE / archive.stdout.strip()},--no-whole-archive"
    subprocess.run(["cc", "-shared", "-o", shared, whole], check=True)
    return ctypes.CDLL(str(shared))


def lent(data):
    return ctypes.c_char_p(data), ctypes.c_size_t(len(data))


def claim(calls, bundle, old, new):
    """Number, value and part."""
    value, part = ctypes.c_size_t(77), ctypes.c_size_t(77)
    texts = [*lent(bundle), *lent("\n".join(LIST).encode()), *lent(old.encode()), *lent(new.encode())]
    number = calls.spinebriar_claim(*texts, ctypes.byref(value), ctypes.byref(part)) & 0xFFFF
    return number, value.value, part.value


def read_line(calls, bundle):
    value = ctypes.c_size_t(77)
    return calls.spinebriar_read_line(*lent(bundle), ctypes.byref(value)) & 0xFFFF, value.value


def select(calls, selector, numbers, context, limit, room):
    """Number, value, and the marks."""
    value, marks = ctypes.c_size_t(77), ctypes.create_string_buffer(b"\7" * 600, 600)
    rows = (ctypes.c_uint16 * max(1, len(numbers)))(*numbers)
    number = calls.spinebriar_select(
        *lent("\n".join(LIST).encode()), *lent(selector.encode()), rows, ctypes.c_size_t(len(numbers)),
        ctypes.c_uint16(context), ctypes.c_uint32(limit), marks, ctypes.c_size_t(room), ctypes.byref(value)) & 0xFFFF
    return number, value.value, marks.raw


def numbers_of(line):
    return [int(part) for part in line.split()]


def bundle_lines(bundle):
    """The numbers of the row lines and of the step lines of an accepted bundle."""
    lines = bundle.decode().split("\n")[:-1]
    middle = lines.index("rule left right first second")
    return [numbers_of(line) for line in lines[1:middle]], [numbers_of(line) for line in lines[middle + 1:]]


def replayed(reference, lines):
    return output([reference, "replay"], "".join(line + "\n" for line in lines).encode()).decode().split("\n")[:-1]


def expected_claim(reference, bundle, old, new):
    number, line, *_ = numbers_of(output([reference, "audit"], bundle).decode().split("\n")[1])
    if number:
        return number, line, 1
    rows, steps = bundle_lines(bundle)
    calls = [["term", *row] for row in rows] + [["step", *step] for step in steps]
    lines = [" ".join(map(str, call)) for call in calls]
    told = replayed(reference, [*lines, "names " + " ".join(LIST), "text " + old, "text " + new])
    (number, left), (other, right) = (numbers_of(line) for line in told[-2:])
    if number:
        return number, left, 2
    if other:
        return other, right, 3
    found = [place for place, step in enumerate(steps, 1) if step[1:3] == [left, right]]
    return (0, found[0], 0) if found else (26, 1, 0)


def expected_select(reference, selector, numbers, context, limit, room):
    lines = ["names " + " ".join(LIST), "text " + selector, " ".join(map(str, ["document", *numbers]))]
    number, value = numbers_of(replayed(reference, lines)[0])
    if number:
        return number, value, b"\7" * 600
    number, value, *nodes = numbers_of(replayed(reference, [*lines, f"select {value} {context} {limit} {room}"])[1])
    if number:
        return number, value, b"\7" * 600
    marks = bytes(node in nodes for node in range(len(numbers) // 3))
    return number, value, marks + b"\7" * (600 - len(marks))


def spelled(rows, i):
    """The selector whose term is row i, or None where this function finds none."""
    kind, a, b, c = rows[i]
    if kind == 1:
        return "/"
    if kind == 2:
        if b in (0, 6) and c > len(LIST):
            return None
        name = LIST[c - 1] if b in (0, 6) else ""
        return f"{AXES[a]}::" + {0: name, 1: "*", 6: f"{TYPES[3]}('{name}')"}.get(b, TYPES[b - 2] + "()")
    left, right = (spelled(rows, a), spelled(rows, b)) if kind in (3, 4) else (None, None)
    if left is None or right is None or rows[b][0] != 2 or kind == 4 and rows[a][0] == 3:
        return None
    return f"{left}|{right}" if kind == 3 else ("" if left == "/" else left) + "/" + right


def random_claim(rng, spelling):
    """A bundle and two selectors: often those of one of its steps, sometimes exchanged."""
    case = audit_case(rng)
    while len(case.input) > MOST_BYTES:  # audit's limit, which the call doesn't have
        case = audit_case(rng)
    texts = [spelling.union(1)[0], spelling.union(1)[0]]
    try:
        rows, steps = bundle_lines(case.input)
        said = [[spelled(rows, step[1]), spelled(rows, step[2])] for step in steps]
        said = [pair for pair in said if None not in pair]
        if said and rng.random() < 0.8:
            texts = rng.choice(said)[::rng.choice([1, 1, 1, -1])]
    except (ValueError, IndexError, RecursionError):
        pass
    if rng.random() < 0.1:
        place = rng.randrange(2)
        texts[place] = texts[place].replace("n", rng.choice(["z", "]", "n"]), 1)
    return case.input, *texts


def main():
    args = options(__doc__, 1000)
    rng, calls, reference = random.Random(args.seed), library(), build()
    spelling = Spelling(rng, [*LIST, "z"], LIST, [*LIST, "z"].index)
    ran = Counter()
    for _ in range(args.count):
        bundle, old, new = random_claim(rng, spelling)
        told, wanted = claim(calls, bundle, old, new), expected_claim(reference, bundle, old, new)
        ran["claim", *told[::2]] += 1
        held = wanted[:2] if wanted[2] == 1 else (0, len(bundle_lines(bundle)[1]))
        if told != wanted or read_line(calls, bundle) != held:
            raise SystemExit(f"claim {old} <= {new}: {told}, the reference {wanted}, of {bundle!r}"[:4000])
        numbers = document(rng, rng.choice([1, 5, 20]))
        request = (spelling.union(1)[0], numbers, rng.randrange(8), rng.choice([10, 10**6]), rng.choice([5, 20, 512]))
        told, wanted = select(calls, *request), expected_select(reference, *request)
        ran["select", told[0]] += 1
        if told != wanted:
            raise SystemExit(f"select {request}: {told}, the reference {wanted}")
    print(f"seed {args.seed}: {args.count} claims and as many selects without a difference")
    print(", ".join(f"{' '.join(map(str, key))}: {count}" for key, count in sorted(ran.items(), key=str)))


if __name__ == "__main__":
    main()
