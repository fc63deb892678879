#!/usr/bin/env python3
"""Holds the program tally against the plain implementation in tools/reference, on lists and bundles that it makes.

    python3 tools/compare/tally.py [--seed N] [--count N] [--tally COMMAND]

It needs Python 3, cargo, cc, and the program, target/bin/tally unless another is named, and installs nothing. First it
runs the named cases below, with reads that fail and a pipe that must not be read among them, then random lists over
random bundles. It stops at the first difference, saves that list, and else says what ran.
"""

import os
import random
import shlex
import shutil
import subprocess
import sys
import tempfile
import time
from collections import Counter
from pathlib import Path

from cases import Session, audit_case, full_bundle
from shared import TREE, build, need, need_program, options, output, program_option, save

BUNDLES = 120  # made anew for each thousand of lists
ONE_STEP = b"kind a b c\n2 1 0 2\n2 3 1 0\nrule left right first second\n8 0 1 0 0\n"
NO_STEP = b"kind a b c\nrule left right first second\n"
# The first step is yielded and the second is not.
REFUSED = ONE_STEP + b"8 1 0 0 0\n"
# A read that gives 40 bytes at most of a file, and fails once, at the read of it that FAILING numbers.
FAILING_READ = b"""
#include <errno.h>
#include <stdlib.h>
#include <sys/syscall.h>
#include <unistd.h>
ssize_t read(int file, void *bytes, size_t length) {
    static int reads;
    if (file > 2 && ++reads == atoi(getenv("FAILING"))) {
        errno = EIO;
        return -1;
    }
    return syscall(SYS_read, file, bytes, file > 2 && length > 40 ? 40 : length);
}
"""


def padded(size):
    """A text of so many bytes that begins as a bundle."""
    return ONE_STEP + b"x" * (size - len(ONE_STEP))


def named_files(directory):
    """The files of the named cases."""
    texts = {"one": ONE_STEP, "none": NO_STEP, "refused": REFUSED, "empty": b"", "a b  c": ONE_STEP, " ": ONE_STEP,
             "x\r": ONE_STEP, "65536": padded(65536), "65537": padded(65537), "unended": ONE_STEP[:-1],
             "full": full_bundle(1), "d" * 255: ONE_STEP}
    for name, text in texts.items():
        (directory / name).write_bytes(text)
    (directory / "directory").mkdir()
    (directory / "link").symlink_to("one")
    (directory / "dangling").symlink_to("nowhere")


def path_of(name, size):
    """A path of so many bytes to the file; Linux opens none of more than 4,095."""
    return "./" * ((size - len(name)) // 2) + "/" * ((size - len(name)) % 2) + name


def held(steps):
    """The list is accepted, with so many steps of rule 8."""
    return ("held", steps)


def refused(line):
    return ("refused", line)


def list_cases():
    """Lists of up to 66 names, with missing files among them."""
    return {
        "no name": ("", held(0)),
        "one": ("one\n", held(1)),
        "one, no newline at the end": ("one", held(1)),
        "two, no newline at the end": ("one\nnone", held(1)),
        "a name twice": ("one\none\n", held(2)),
        "a bundle without steps": ("none\n", held(0)),
        "63 names": ("one\n" * 63, held(63)),
        "64 names": ("one\n" * 64, held(64)),
        "64 names, no newline at the end": ("one\n" * 63 + "one", held(64)),
        "65 names": ("one\n" * 65, refused(65)),
        "65 names, no newline at the end": ("one\n" * 64 + "one", refused(65)),
        "66 names": ("one\n" * 66, refused(65)),
        "64 names and an empty line": ("one\n" * 64 + "\n", refused(65)),
        "a missing file at the first line": ("nowhere\none\n", refused(1)),
        "a missing file at a later line": ("one\none\nnowhere\none\n", refused(3)),
        "a missing file at the last line, no newline": ("one\nnowhere", refused(2)),
        "two missing files": ("one\nnowhere\nnowhere\n", refused(2)),
        "a missing file and a 65th name": ("one\nnowhere\n" + "one\n" * 63, refused(2)),
        "a missing file at line 64 and a 65th name": ("one\n" * 63 + "nowhere\none\n", refused(64)),
        "a missing file at line 65": ("one\n" * 64 + "nowhere\n", refused(65)),
        "a missing file at line 66": ("one\n" * 65 + "nowhere\n", refused(65)),
        "a missing file after a refused bundle": ("refused\nnowhere\n", refused(2)),
    }


def file_cases():
    """Lists of files of other kinds, sizes and contents."""
    return {
        "a directory": ("one\ndirectory\none\n", held(2)),
        "an empty file": ("empty\none\n", held(1)),
        "a refused bundle": ("refused\n", held(0)),
        "a refused bundle among others": ("one\nrefused\none\n", held(2)),
        "a bundle whose last line lacks its newline": ("unended\none\n", held(1)),
        "65,536 bytes": ("65536\none\n", held(1)),
        "65,537 bytes": ("65537\none\n", held(1)),
        "a link": ("link\n", held(1)),
        "a link that leads nowhere": ("one\ndangling\n", refused(2)),
    }


def name_cases():
    """Names of other bytes and lengths."""
    return {
        "a name with spaces": ("a b  c\n \none\n", held(3)),
        "a name with a carriage return": ("x\r\n", held(1)),
        "a carriage return too many": ("one\r\n", refused(1)),
        "a space too many": ("one \n", refused(1)),
        "an empty line": ("one\n\none\n", refused(2)),
        "an empty line alone": ("\n", refused(1)),
        "an empty line at the end": ("one\n\n", refused(2)),
        "a zero byte": ("one\non\0e\n", refused(2)),
        "a zero byte after a name": ("one\0\n", refused(1)),
        "a name of 255 bytes": ("d" * 255 + "\n", held(1)),
        "a name of 256 bytes": ("d" * 256 + "\n", refused(1)),
        "a name of 4,095 bytes": (path_of("one", 4095) + "\n", held(1)),
        "a name of 4,096 bytes": (path_of("one", 4096) + "\n", refused(1)),
        "a name of 5,000 bytes": ("one\n" + "x" * 5000 + "\none\n", refused(2)),
        "a path of 5,000 bytes": ("one\n" + path_of("one", 5000) + "\n", refused(2)),
        "64 names of 4,095 bytes": ((path_of("one", 4095) + "\n") * 64, held(64)),
        "64 names of 4,095 bytes, no newline at the end": (((path_of("one", 4095) + "\n") * 64)[:-1], held(64)),
        "64 names of 4,095 bytes and one more": ((path_of("one", 4095) + "\n") * 64 + "one", refused(65)),
        "64 names of 4,095 bytes and an empty line": ((path_of("one", 4095) + "\n") * 64 + "\n", refused(65)),
        "63 names of 4,095 bytes and one of 4,096": ((path_of("one", 4095) + "\n") * 63 + path_of("one", 4096) + "\n",
                                                     refused(64)),
        "a name of a million bytes": ("x" * 1000000 + "\n", refused(1)),
        "a million names": ("one\n" * 1000000, refused(65)),
    }


def named_cases():
    """Lists, each with what it must print."""
    return list_cases() | file_cases() | name_cases()


def must_print(expected):
    kind, n = expected
    if kind == "refused":
        return f"17 {n}\n".encode()
    lines = "".join(f"{rule} {n if rule == 8 else 0}\n" for rule in range(1, 60))
    return f"rule uses\n{lines}0 {n}\n".encode()


def random_bundle(rng):
    """A bundle, valid or damaged; now and then a text of about the most bytes, or of more."""
    if rng.random() < 0.4:
        session = Session(rng)
        for _ in range(rng.randrange(1, 30)):
            session.derive(near_misses=0)
        return session.bundle()
    if rng.random() < 0.03:
        return padded(rng.choice([65535, 65536, 65537, 70000]))
    return audit_case(rng).input


def random_list(rng, names):
    """A list of names, mostly those of bundles, of any length up to some past 64."""
    count = rng.choice([rng.randrange(0, 8), rng.randrange(0, 30), rng.randrange(60, 68), 63, 64, 65])
    odd = ["nowhere", "", "directory", "a\0b", "x" * 300, "empty"] if rng.random() < 0.3 else ["directory", "empty"]
    lines = [rng.choice(odd) if rng.random() < 0.03 else rng.choice(names) for _ in range(count)]
    text = "".join(line + "\n" for line in lines)
    return text[:-1] if text and rng.random() < 0.3 else text


def differs(name, text, expected, printed):
    saved = save("difference.tally", text)
    print(f"difference: {name}: {expected[:300]} must be printed, the program prints {printed[:300]}")
    print(f"the list is in {saved}")


def read_fails(directory, program, nth):
    """The list `one` must count nothing where the nth read fails; the file takes three, of 40 bytes, 26 and none."""
    shim = directory / "failing.so"
    subprocess.run(["cc", "-shared", "-fPIC", "-o", shim, "-x", "c", "-"], input=FAILING_READ, check=True)
    command = ["env", f"LD_PRELOAD={shim}", f"FAILING={nth}"] + program
    must = must_print(held(1 if nth > 3 else 0))
    printed = output(command, b"one\n", directory)
    if printed != must:
        differs(f"read {nth} of the file fails", b"one\n", must, printed)
    return printed == must


def opened_first(directory, command):
    """A pipe without an end is opened before a missing file, and must not be read."""
    os.mkfifo(directory / "pipe")
    pipe = os.open(directory / "pipe", os.O_RDWR)
    text, must = b"pipe\nnowhere\n", must_print(refused(2))
    printed = output(command, text, directory)
    os.close(pipe)
    (directory / "pipe").unlink()
    if printed != must:
        differs(f"a pipe before a missing file, {command[0]}", text, must, printed)
    return printed == must


def full_bundles(directory, reference, program):
    text = ("full\n" * 64).encode()
    started = time.monotonic()
    printed = output(program, text, directory)
    seconds = time.monotonic() - started
    expected = output([reference, "tally"], text, directory)
    if printed != expected:
        differs("64 full bundles", text, expected, printed)
        return False
    steps = printed.split()[-1].decode()
    print(f"64 bundles of 2,048 steps ({steps} in all) took {seconds:.2f} s")
    return True


def run_named(reference, program):
    with tempfile.TemporaryDirectory() as place:
        directory = Path(place)
        named_files(directory)
        cases = named_cases()
        commands = [[reference, "tally"], program]
        for name, (text, expected) in cases.items():
            text, must = text.encode(), must_print(expected)
            for command in commands:
                printed = output(command, text, directory)
                if printed != must:
                    differs(f"{name}, {command[0]}", text, must, printed)
                    return False
        print(f"{len(cases)} named cases, no difference")
        return (all(opened_first(directory, command) for command in commands)
                and all(read_fails(directory, program, nth) for nth in range(1, 5))
                and full_bundles(directory, reference, program))


def run_random(reference, program, seed, count):
    answers, steps = Counter(), 0
    for start in range(0, count, 1000):
        rng = random.Random(f"{seed} {start}")
        with tempfile.TemporaryDirectory() as place:
            directory = Path(place)
            names = [f"bundle {n}" if n % 5 == 0 else f"bundle{n}" for n in range(BUNDLES)]
            for name in names:
                (directory / name).write_bytes(random_bundle(rng))
            (directory / "empty").write_bytes(b"")
            (directory / "directory").mkdir()
            for n in range(start, min(start + 1000, count)):
                text = random_list(rng, names).encode()
                expected, printed = output([reference, "tally"], text, directory), output(program, text, directory)
                if printed != expected:
                    shutil.copytree(directory, TREE / "target" / "difference.files", dirs_exist_ok=True)
                    differs(f"case {n} of seed {seed}, in target/difference.files", text, expected, printed)
                    return False
                refused = expected.startswith(b"17 ")
                answers["refused with 17" if refused else "tallied"] += 1
                steps += 0 if refused else int(expected.split()[-1])
    print(f"seed {seed}: {count} random lists, no difference: "
          + ", ".join(f"{n} {word}" for word, n in sorted(answers.items())) + f"; {steps} steps counted")
    return True


def main():
    given = options(__doc__, 5000, program_option("tally"))
    program = shlex.split(given.tally)
    need({"cc": "gcc"})
    need_program(program)
    reference = build()
    same = run_named(reference, program) and run_random(reference, program, given.seed, given.count)
    sys.exit(0 if same else 1)


if __name__ == "__main__":
    main()
