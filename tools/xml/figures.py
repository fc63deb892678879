#!/usr/bin/env python3
"""Times the reader of XML beside expat and libxml2: a log of a million nodes in 20 MB, and inputs that are made to hurt,
each in three sizes. It prints the least user time of five runs, in seconds, or of one where that takes long. expat's
includes the rows with their lines, as ours does, and libxml2's the tree.

    tools/xml/figures.py

It needs what tools/xml/compare.py needs.
"""
import os
import subprocess
import sys
import tempfile

sys.path.insert(0, os.path.dirname(os.path.abspath(__file__)))
from compare import build, log  # noqa: E402


def entities(size):
    """An entity of 1,000 bytes, so often that the text is `size` long, 100 times what the document is."""
    return b"<!DOCTYPE a [<!ENTITY e \"" + b"t" * 1000 + b"\"><!ENTITY f \"" + b"&e;" * 10 + b"\">]><a>" + b"&f;" * (size // 10000) + b"</a>"


def colliding(count):
    """Names that agree but in their last letters."""
    return b"<a>" + b"".join(b"<aaaaaaaaaaaaaaaaaaaa%d/>" % i for i in range(count)) + b"</a>"


def attributes(count):
    return b"<a " + b" ".join(b"b%d='%d'" % (i, i) for i in range(count)) + b"/>"


def prefixes(count):
    return b"<a>" + b"".join(b"<p%d:b xmlns:p%d='u%d'/>" % (i, i, i) for i in range(count)) + b"</a>"


def deep(count):
    return b"<a>" * count + b"</a>" * count


def one_line(size):
    return b"<a>" + b"<b c='d'>text</b>" * (size // 17) + b"</a>"


def defaults(count):
    """So many attributes by default, in as many elements as the limit allows."""
    return (b"<!DOCTYPE a [<!ATTLIST b " + b" ".join(b"c%d CDATA 'd'" % i for i in range(count)) + b">]><a>" + b"<b/>" * count + b"</a>")


INPUTS = [
    ("log of nodes", log, (250000, 500000, 1000000)),
    ("one line of bytes", one_line, (5000000, 10000000, 20000000)),
    ("names with one beginning", colliding, (100000, 200000, 400000)),
    ("attributes of one tag", attributes, (10000, 20000, 40000)),
    ("prefixes declared", prefixes, (100000, 200000, 400000)),
    ("bytes of entities", entities, (2000000, 4000000, 8000000)),
    ("elements open", deep, (25000, 50000, 100000)),
    ("defaults", defaults, (250, 500, 1000)),
]


def run(command, batch):
    """The least user time of five runs, or of one where that takes long."""
    times = []
    while len(times) < 5 and (not times or times[0] < 2):
        batch.seek(0)
        process = subprocess.Popen(command, stdin=batch, stdout=subprocess.DEVNULL)
        _, _, usage = os.wait4(process.pid, 0)
        times.append(usage.ru_utime)
    return min(times)


def main():
    commands = {name: [command[0], "counts"] for name, command in build().items()}
    print(f"{'input':28}{'size':>10}{'bytes':>10}" + "".join(f"{name:>10}" for name in commands))
    for name, make, sizes in INPUTS:
        for size in sizes:
            document = make(size)
            with tempfile.TemporaryFile() as batch:
                batch.write(b"%d\n" % len(document) + document)
                batch.flush()
                row = "".join("%10.3f" % run(command, batch) for command in commands.values())
            print(f"{name:28}{size:>10}{len(document):>10}{row}", flush=True)


if __name__ == "__main__":
    main()
