#!/usr/bin/env python3
"""Holds the selections on documents of any size, by the program document_marks, against libxml2. Run it at the
repository's root:

    python3 tools/compare/documents.py [--documents N] [--largest N] [--selectors N] [--seed N] [--document_marks PROGRAM]

Each document has a random number of nodes, the sizes spread by their magnitude from 4 to the largest; each is asked by
so many random selectors of the grammar, a third of them from another node than the root. Both must print the same nodes
for each.

Left out by rule are selectors in which a known defect of libxml2 2.9 may show (tools/compare/xmllint.py has them), and
those for which it takes more than two seconds. No document is deeper than 200 elements.

It needs `tools/programs.sh document_marks`, libxml2-dev and gcc, and installs nothing.
"""

import random
import subprocess
import sys
import tempfile
from pathlib import Path

from shared import TREE, need, need_program, options, program_option
from xmllint import ATTRIBUTE_KIND, ATTRIBUTES, ELEMENTS, TARGETS, Words, libxml2_errs

NAMES = list(dict.fromkeys(ELEMENTS + ATTRIBUTES + TARGETS))
NUMBER = {name: number for number, name in enumerate(NAMES, 1)}
DEEPEST = 200


def document(rng, nodes):
    """The rows of a document that XML can say, one element under the root, and its text."""
    rows, text, open_elements = [(0, 0, 0)], [], []
    down, last = rng.choice([0.2, 0.4, 0.6, 0.9]), 0

    def element():
        name, some = rng.choice(ELEMENTS), rng.sample(ATTRIBUTES, rng.choice([0, 0, 0, 1, 2]))
        owner = len(rows)
        rows.append((1, open_elements[-1][0] if open_elements else 0, NUMBER[name]))
        rows.extend((ATTRIBUTE_KIND, owner, NUMBER[each]) for each in some)
        text.append(f"<{name}" + "".join(f' {each}=""' for each in some) + ">")
        open_elements.append((owner, name))

    def close():
        text.append(f"</{open_elements.pop()[1]}>")

    def instruction(parent):
        target = rng.choice(TARGETS)
        rows.append((4, parent, NUMBER[target]))
        text.append(f"<?{target} d?>")

    if rng.random() < 0.2:
        instruction(0)
    element()
    while len(rows) < nodes:
        kind = rng.choice([1, 1, 1, 1, 1, 2, 2, 3, 4])
        while len(open_elements) > 1 and (len(open_elements) > DEEPEST or rng.random() > down):
            close()
            last = 0
        parent = open_elements[-1][0]
        if kind == 1:
            element()
        elif kind == 2 and last != 2:
            rows.append((2, parent, 0))
            text.append("t")
        elif kind == 3:
            rows.append((3, parent, 0))
            text.append("<!--c-->")
        elif kind == 4:
            instruction(parent)
        last = kind
    while open_elements:
        close()
    return rows, "".join(text)


def lines_of(command, text):
    run = subprocess.run(command, input=text, capture_output=True, text=True)
    if run.returncode:
        sys.exit(f"FAILED: {command}: status {run.returncode}, {run.stderr[-2000:]}")
    return run.stdout.split("\n")[:-1]


def ours(program, rows, questions):
    lines = ["names " + " ".join(NAMES)]
    lines += [f"row {kind} {parent} {name}" for kind, parent, name in rows] + ["document"]
    for context, selector in questions:
        lines += [f"from {context}", f"select {selector}"]
    return lines_of([program], "\n".join(lines) + "\n")


def compare(given, rng, folder, size, counts):
    rows, text = document(rng, size)
    top = [number for number, row in enumerate(rows) if number and row[1] == 0]
    first_child_errs = len(top) > 1 and any(row[1] == top[0] for row in rows)
    words, questions = Words(rng, rows, NAMES), []
    for _ in range(given.selectors):
        context = rng.randrange(len(rows)) if rng.random() < 0.34 else 0
        selector = " | ".join(each for each, _ in words.union(0, 3))
        if libxml2_errs(selector, rows[context][0] == ATTRIBUTE_KIND, first_child_errs):
            counts["left out"] += 1
        else:
            questions.append((context, selector))
    path = Path(folder) / "document.xml"
    path.write_text(text)
    asked = "".join(f"{context} {selector}\n" for context, selector in questions)
    theirs = lines_of([f"{folder}/documents", str(path)], asked)
    marked = ours(given.document_marks, rows, questions)
    if marked[:1] != theirs[:1] or len(marked) != len(theirs):
        sys.exit(f"FAILED: {path}: {marked[:1]} and {theirs[:1]} nodes, {len(marked)} and {len(theirs)} lines")
    for question, left, right in zip(questions, marked[1:], theirs[1:]):
        if right == "late":
            counts["late"] += 1
        elif left != right:
            kept = TREE / "target/documents.xml"
            kept.write_text(text)
            sys.exit(f"FAILED: {kept}: {question}\ndocument_marks: {left[:500]}\nlibxml2: {right[:500]}")
        else:
            counts["alike"] += 1
            counts["selecting"] += left != ""
            counts["nodes"] += len(left.split())
    counts["largest"] = max(counts["largest"], len(rows))


def main():
    given = options(__doc__, None, program_option("document_marks"), ("--documents", {"type": int, "default": 60}),
                    ("--largest", {"type": int, "default": 100000}), ("--selectors", {"type": int, "default": 30}))
    need({"/usr/bin/xml2-config": "libxml2-dev", "/usr/bin/cc": "gcc"})
    need_program([given.document_marks])
    rng = random.Random(given.seed)
    counts = dict.fromkeys(["alike", "selecting", "nodes", "left out", "late", "largest"], 0)
    with tempfile.TemporaryDirectory() as folder:
        flags = subprocess.run(["xml2-config", "--cflags", "--libs"], capture_output=True, text=True, check=True).stdout
        subprocess.run(["cc", "-O2", str(TREE / "tools/compare/documents.c"), *flags.split(), "-o",
                        f"{folder}/documents"], check=True)
        for _ in range(given.documents):
            size = round(4 * (given.largest / 4) ** rng.random())
            compare(given, rng, folder, size, counts)
    print(f"libxml2 agrees on {counts['alike']} selections on {given.documents} documents of up to {counts['largest']} "
          f"nodes; {counts['selecting']} select {counts['nodes']} nodes; {counts['left out']} left out by rule, "
          f"{counts['late']} too late")
    if 4 * counts["selecting"] < counts["alike"]:
        sys.exit("FAILED: too few selectors select a node")


if __name__ == "__main__":
    main()
