#!/usr/bin/env python3
"""Holds `spinebriar select` against `xmllint --xpath`, libxml2's command, on selectors as text. Run it at the
repository's root:

    python3 tools/compare/xmllint.py [--spinebriar PROGRAM] [--selectors N] [--seed N]

N selectors, 600 without the option, all different, are made by chance over the files of tools/compare/xml and over
random ones, none with namespaces, a DTD or an empty CDATA section, which libxml2 takes for nodes; a third is asked
from another node than the root. Fewer than half of N over the stored files, or fewer than a quarter of those that
select a node, are a failure. spinebriar prints a path from the root for each selected node; xmllint counts the nodes
of the selector, of these paths, and of both together. The three numbers must be that of the lines printed, so both
select the same nodes and each path is that of its node.

Left out by rule are selectors in which a known defect of libxml2 2.9 may show:

- following from an attribute: libxml2 leaves out the children of its owner. Left out: `following` where the selector
  has the attribute axis or the context node is an attribute.
- preceding: libxml2 ends it at the document's first child, and leaves that out if it has children. Left out:
  `preceding` where the document's first child has children and is not its last one.

It needs the command, target/spinebriar unless another is named, and Debian's package libxml2-utils, and installs
nothing.
"""

import random
import re
import subprocess
import sys
import tempfile
from pathlib import Path

from rules import AXES
from shared import TREE, XmlText, need, options

ELEMENTS = ["log", "run", "mark", "zero", "box", "a.b", "_c-d"]
ATTRIBUTES = ["serial", "depth", "log"]
TARGETS = ["plotter", "run"]
ATTRIBUTE_KIND = 5


def random_document(rng):
    """An XML file of at most 500 nodes."""
    made = XmlText(rng, ELEMENTS, ATTRIBUTES, TARGETS)
    while True:
        text = made.file()
        if sum(map(text.count, "<>=")) <= 500:
            return text


# Selectors

class Words:
    """The names of a document, by what they name."""

    def __init__(self, rng, rows, names):
        self.rng = rng
        by_kind = lambda kind: sorted({names[row[2] - 1] for row in rows if row[0] == kind and row[2]})
        self.elements = by_kind(1)
        self.targets, self.attributes = by_kind(4) or self.elements, by_kind(5) or self.elements

    def test(self, axis):
        kind = self.rng.randrange(15)
        if kind < 6:
            return self.rng.choice(self.attributes if axis == "attribute" else self.elements)
        quote = self.rng.choice("'\"")
        target = self.rng.choice(["", quote + self.rng.choice(self.targets) + quote])
        others = ["*", "*", "*", "*", "node()", "node()", "text()", "comment()", f"processing-instruction({target})"]
        return others[kind - 6]

    def step(self):
        kind = self.rng.randrange(12)
        if kind < 5:
            text = self.test("child")
        elif kind == 5:
            return self.rng.choice([".", ".."])
        elif kind == 6:
            text = "@" + self.test("attribute")
        else:
            axis = self.rng.choice(AXES)
            text = f"{axis}{self.rng.choice(['::', '::', ' :: '])}{self.test(axis)}"
        return text

    def steps(self, depth):
        count = self.rng.choice([1, 1, 2, 2, 3, 4] if depth == 0 else [1, 1, 1, 1, 2, 2])
        text = ""
        for place in range(count):
            text += "" if place == 0 else self.rng.choice(["/", "/", "/", "//"])
            text += (step := self.step())
            while step not in (".", "..") and depth < 3 and self.rng.random() < 0.25:
                text += f"[{self.expression(depth + 1)}]"
        return text

    def path(self, depth):
        """A location path; whether it is absolute."""
        start = self.rng.choice(["", "", "/", "//", "//"])
        if depth == 0 and start == "/" and self.rng.random() < 0.05:  # before `and` it would be the path /and
            return "/", True
        return start + self.steps(depth), start != ""

    def union(self, depth, most):
        return [self.path(depth) for _ in range(1 if self.rng.random() < 0.8 else self.rng.randint(2, most))]

    def expression(self, depth):
        kind = self.rng.randrange(10)
        if kind < 5 or depth > 3:
            return self.rng.choice(["|", " | "]).join(text for text, _ in self.union(depth, 2))
        if kind == 5:
            return self.rng.choice(["true()", "false()"])
        if kind == 6:
            return f"not({self.expression(depth + 1)})"
        if kind == 7:
            return f"({self.expression(depth + 1)})"
        return f"{self.expression(depth + 1)} {'and' if kind == 8 else 'or'} {self.expression(depth + 1)}"


def libxml2_errs(selector, from_attribute, first_child_errs):
    """Whether a known defect may show, by the context node and by the first child of the document."""
    attribute = "@" in selector or "attribute" in selector or from_attribute
    axis = lambda name: re.search(rf"(?<!-){name} ?::", selector) is not None
    return (axis("following") and attribute) or (axis("preceding") and first_child_errs)


# The two commands

class Document:
    def __init__(self, spinebriar, path, folder):
        self.spinebriar, self.path, self.list = spinebriar, str(path), f"{folder}/names"
        Path(self.list).write_text("")
        rows = self.run("rows", self.path, "--add").split("\n")[:-1]
        self.rows = [tuple(map(int, row.split())) for row in rows]
        self.names = Path(self.list).read_text().split("\n")[:-1]

    def run(self, *words):
        done = subprocess.run([self.spinebriar, *words, "--names", self.list], capture_output=True, text=True)
        if done.returncode != 0:
            sys.exit(f"FAILED: {words}: status {done.returncode}, {done.stderr}")
        return done.stdout

    def select(self, selector, context):
        """The rows selected, in order, and their paths."""
        lines = self.run("select", selector, self.path, "--from", str(context)).split("\n")[:-1]
        parts = [re.fullmatch(r"(\d+) (\d+) (.*)", line).groups() for line in lines]
        return [int(row) for row, _, _ in parts], [path for _, _, path in parts]

    def first_child_errs(self):
        top = [number for number, row in enumerate(self.rows) if number and row[1] == 0]
        return len(top) > 1 and any(row[1] == top[0] for row in self.rows)

    def libxml2_errs(self, selector, context):
        return libxml2_errs(selector, self.rows[context][0] == ATTRIBUTE_KIND, self.first_child_errs())

    def count(self, expressions):
        """How many nodes xmllint finds for each expression."""
        asked = "concat(" + ",' ',".join(f"count({text})" for text in expressions) + ",'')"
        command = ["xmllint", "--noent", "--dtdattr", "--nocdata", "--xpath", asked, self.path]
        done = subprocess.run(command, capture_output=True, text=True)
        if done.returncode != 0:
            sys.exit(f"FAILED: {command}: {done.stderr}")
        return list(map(int, done.stdout.split()))


def compare(document, alternatives, context):
    """Asks both; the number of nodes selected."""
    selector = " | ".join(text for text, _ in alternatives)
    rows, paths = document.select(selector, context)
    at = document.select(".", context)[1][0]
    prefix = "" if at == "/" else at
    asked = "|".join(text if absolute else f"{prefix}/{text}" for text, absolute in alternatives)
    found = document.count([asked] + (["|".join(paths), asked + "|" + "|".join(paths)] if paths else []))
    if rows != sorted(set(rows)) or found != [len(rows)] * len(found):
        sys.exit(f"FAILED: {document.path}, from {at}: {selector}\nspinebriar: {rows} {paths}\nxmllint: {found} nodes")
    return len(rows)


def main():
    given = options(__doc__, None, ("--spinebriar", {"default": str(TREE / "target/spinebriar")}),
                    ("--selectors", {"type": int, "default": 600}))
    need({"xmllint": "libxml2-utils"})
    rng = random.Random(given.seed)
    stored = sorted((TREE / "tools/compare/xml").glob("*.xml"))
    seen, left_out = set(), 0
    counts = {True: [], False: []}  # of nodes selected, by whether the file is a stored one
    with tempfile.TemporaryDirectory() as folder:
        while len(seen) < given.selectors:
            for path in stored + [Path(folder) / "random.xml"] * len(stored):
                if path not in stored:
                    path.write_text(random_document(rng))
                document = Document(given.spinebriar, path, folder)
                words = Words(rng, document.rows, document.names)
                for _ in range(20 if path in stored else 10):
                    context = rng.randrange(len(document.rows)) if rng.random() < 0.34 else 0
                    alternatives = words.union(0, 3)
                    selector = " | ".join(text for text, _ in alternatives)
                    if document.libxml2_errs(selector, context):
                        left_out += 1
                    elif selector not in seen and len(seen) < given.selectors:
                        seen.add(selector)
                        counts[path in stored].append(compare(document, alternatives, context))
    told = [f"{len(found)} over {what} files, of which {sum(map(bool, found))} select {sum(found)} nodes"
            for what, found in ((f"{len(stored)} stored", counts[True]), ("random", counts[False]))]
    print(f"xmllint agrees on {len(seen)} selectors, {', and '.join(told)}; {left_out} left out by rule")
    if 2 * len(counts[True]) < given.selectors or 4 * sum(map(bool, counts[True])) < len(counts[True]):
        sys.exit("FAILED: too few selectors over the stored files")


if __name__ == "__main__":
    main()
