#!/usr/bin/env python3
"""Holds the programs replay and audit against the plain implementation in tools/reference, on random inputs.

    python3 tools/compare/programs.py [--seed N] [--count N] [--replay COMMAND] [--audit COMMAND]

It needs Python 3, cargo and the two programs, target/bin/replay and target/bin/audit unless others are named, and
installs nothing. It builds the reference, stops at the first difference, saves that input and prints it, and else says
what ran.
"""

import random
import shlex
import sys
from collections import Counter

from cases import random_case
from shared import build, need_program, options, output, program_option, save


def difference(case, expected, printed):
    """Says where two outputs differ, and saves the input."""
    saved = save(f"difference.{case.program}", case.input)
    ours, theirs = expected.split(b"\n"), printed.split(b"\n")
    place = next((i for i, (x, y) in enumerate(zip(ours, theirs)) if x != y), min(len(ours), len(theirs)))
    print(f"{case.program}, output line {place + 1}: the reference prints {ours[place:place + 1]}, "
          f"the program {theirs[place:place + 1]}")
    print(f"The input is in {saved}:")
    sys.stdout.flush()
    sys.stdout.buffer.write(case.input[:4000] + (b"\n.." if len(case.input) > 4000 else b""))


# Lines for which replay prints nothing.
SILENT = ([b"document"], [b"old"], [b"new"], [b"names"], [b"other"])


def answers_of(text, printed):
    """The first word of each answer that replay prints; the lines of a bundle that a write prints are left out."""
    calls = [words for words in map(bytes.split, text.split(b"\n")) if words[:1] not in SILENT]
    numbers, at = [], 0
    while at < len(printed):
        end = printed.find(b"\n", at)
        number, value = (printed[at:end].split() + [b"0"])[:2]
        is_write = len(numbers) < len(calls) and calls[len(numbers)][:1] == [b"write"]
        numbers.append(number)
        at = end + 1 + (int(value) if is_write and number == b"0" else 0)
    return numbers


class Tally:
    """What ran: cases by program, answers by call and number, accepted steps by rule."""

    def __init__(self):
        self.cases, self.answers, self.rules = Counter(), Counter(), Counter()

    def add(self, case, printed):
        self.cases[case.program] += 1
        lines = case.input.split(b"\n")
        if case.program == "audit":
            number = int(printed.split()[5])
            self.answers["read", number] += 1
            if number == 0:
                steps = lines[lines.index(b"rule left right first second") + 1:-1]
                self.rules.update(int(line.split()[0]) for line in steps)
            return
        answers = answers_of(case.input, printed)
        if answers and answers[-1] == b"10":
            self.answers["line", int(answers.pop())] += 1
        calls = [words for words in map(bytes.split, lines) if words[:1] not in SILENT]
        for words, number in zip(calls, map(int, answers)):
            self.answers[words[0].decode(), number] += 1
            if words[0] == b"step" and number == 0:
                self.rules[int(words[1])] += 1

    def report(self, seed):
        print(f"seed {seed}: {sum(self.cases.values())} cases ran, no difference "
              f"({', '.join(f'{count} {program}' for program, count in sorted(self.cases.items()))})")
        for call in ("term", "step", "text", "way-back", "point", "return", "record", "current", "release", "records",
                     "released", "crew-current", "select", "replace", "order",
                     "bundle-order", "write", "line", "read"):
            numbers = sorted((number, count) for (word, number), count in self.answers.items() if word == call)
            print(f"  {call}: " + ", ".join(f"{count} answered {number}" for number, count in numbers))
        print("  accepted steps by rule: " + ", ".join(f"{rule}: {self.rules[rule]}" for rule in range(1, 60)))


def predicted(case, printed):
    """Whether the generator's own book accepts the same calls as the reference."""
    if case.program == "audit":
        return printed.split()[5] == b"0"
    numbers = answers_of(case.input, printed)
    return len(numbers) == len(case.accepted) and all(
        expected is None or expected == (number == b"0") for expected, number in zip(case.accepted, numbers))


def compare(seed, count, reference, programs):
    """Whether no case of the seed tells the programs from the reference."""
    tally = Tally()
    for n in range(count):
        case = random_case(random.Random(f"{seed} {n}"))
        expected = output([reference, case.program], case.input)
        if case.accepted is not None and not predicted(case, expected):
            print(f"case {n}: the generator and the reference don't accept the same calls")
            difference(case, expected, b"")
            return False
        printed = output(programs[case.program], case.input)
        if printed != expected:
            print(f"difference at case {n} of seed {seed}, after {n} without one")
            difference(case, expected, printed)
            return False
        tally.add(case, expected)
    tally.report(seed)
    return True


def main():
    names = ("replay", "audit")
    given = options(__doc__, 10000, *(program_option(name) for name in names))
    programs = {name: shlex.split(getattr(given, name)) for name in names}
    for command in programs.values():
        need_program(command)
    sys.exit(0 if compare(given.seed, given.count, build(), programs) else 1)


if __name__ == "__main__":
    main()
