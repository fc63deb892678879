#!/usr/bin/env python3
"""Compares the reader of XML with expat and libxml2: what each accepts, and the rows that it makes of it.

    tools/xml/compare.py [--mutations N] [--seed S] [--no-log] [--save FOLDER]

It reads the files of tools/compare/xml, those of tools/xml/cases and examples, N mutations of them (100,000), and a
log of a million nodes. A difference is explained where a rule of RULES names it, each with the sentence of the
recommendation that settles it; the script fails where one is not explained, and saves those documents.

It needs gcc, expat and libxml2 (Debian: gcc libexpat1-dev libxml2-dev), and builds target/bin/xml_rows by
tools/programs.sh where it is missing. It installs nothing, and names what is missing.
"""
import argparse
import collections
import glob
import os
import random
import re
import subprocess
import sys

TOP = os.path.dirname(os.path.dirname(os.path.dirname(os.path.abspath(__file__))))
TARGET = os.path.join(TOP, "target", "xml")
PROGRAM = os.path.join(TOP, "target", "bin", "xml_rows")
NEEDED = {"gcc": "gcc", "/usr/include/expat.h": "libexpat1-dev", "xml2-config": "libxml2-dev"}

sys.path.append(os.path.join(TOP, "tools", "compare"))
from shared import need  # noqa: E402

EXPAT, LIBXML2 = "expat", "libxml2"

# Where one accepts: the reader, whether it is we who accept, what must stand in our reason, what in theirs, and the
# sentence. None is any.
RULES = [
    (EXPAT, True, None, "names of the fifth edition",
     "XML 1.0 fifth edition, [4] NameStartChar and [4a] NameChar; expat has the classes of the fourth"),
    (EXPAT, False, "a name is expected", "names of the fifth edition",
     "XML 1.0 fifth edition, [4] NameStartChar; expat has other classes"),
    (EXPAT, False, "the XML declaration is malformed", None,
     "[26] VersionNum ::= '1.' [0-9]+; expat takes any version"),
    (LIBXML2, False, "the XML declaration is malformed", None,
     "[26] VersionNum ::= '1.' [0-9]+; libxml2 takes a version without digits"),
    (EXPAT, False, "the colon is misplaced", None, "Namespaces 1.0, [16] doctypedecl ::= '<!DOCTYPE' S QName ..; expat looks "
     "at the names of elements and attributes alone"),
    (LIBXML2, False, "text outside the document's element", None,
     "[28] doctypedecl: the internal subset stands before the `>`; libxml2 takes one behind it"),
    (LIBXML2, True, None, "in a parameter entity",
     "5.1: a non-validating processor need not read a parameter entity; libxml2 reads internal ones"),
    (EXPAT, False, "the document ends too early", "behind a parameter entity",
     "[10] AttValue: a default is one also where declarations count no more; expat doesn't look at it there"),
    (EXPAT, False, "in an attribute's value", "behind a parameter entity",
     "[10] AttValue: a default is one also where declarations count no more; expat doesn't look at it there"),
    (None, False, "declared encoding is not that of the bytes", None,
     "4.3.3: it is a fatal error for an entity including an encoding declaration to be presented to the XML processor "
     "in an encoding other than that named in the declaration"),
    (None, False, "the encoding ", None,
     "4.3.3: if an XML processor encounters an entity with an encoding that it is unable to process, it must inform the "
     "application of this fact; which encodings are read besides UTF-8 and UTF-16 is its own"),
    (LIBXML2, False, "the bytes are no character of the encoding", None,
     "4.3.3: it is a fatal error if an XML entity is determined to be in a certain encoding but contains byte sequences "
     "that are not legal in that encoding"),
    (EXPAT, False, "the bytes are no character of the encoding", None,
     "4.3.3, the same sentence; expat takes a first surrogate of UTF-16 that no second one follows"),
    (LIBXML2, False, "the entity is not declared", None,
     "4.1, Entity Declared: with an external subset or a parameter entity this is a constraint of validity; a reference "
     "that we can't replace is refused here"),
    (LIBXML2, False, "the entity is in another file", None,
     "4.4.3: a non-validating processor may, but need not, include the entity's replacement text; one left out is "
     "refused here"),
    (None, False, "too many entities are open", None, "our limit, MAX_OPEN_ENTITIES"),
    (None, False, "the entities stand for too much", None, "our limit, FREE_EXPANSION and EXPANSION_FACTOR"),
    (LIBXML2, False, "a character that XML doesn't have", None,
     "[1] document and [2] Char: nothing but comments, instructions and spaces may follow the element; libxml2 stops at a "
     "zero byte there"),
    (LIBXML2, False, "a space is expected", None, "[28] doctypedecl ::= '<!DOCTYPE' S Name ..; libxml2 needs no space"),
    (LIBXML2, False, "the colon is misplaced", None,
     "Namespaces 1.0, 7: no entity names, processing instruction targets, or notation names contain any colons"),
    (LIBXML2, True, None, "PEReference",
     "4.1, Entity Declared: where there is a reference to a parameter entity this is a constraint of validity"),
    (EXPAT, True, None, "unknown encoding", "4.3.3: which encodings are read besides UTF-8 and UTF-16 is a processor's own"),
    (LIBXML2, True, None, "entity reference loop", "libxml2's own guard against amplification; no entity refers to itself"),
    (LIBXML2, True, None, "is not absolute", "Namespaces 1.0, 2: relative references are deprecated, and no error"),
    (LIBXML2, True, None, "is not a valid URI", "Namespaces 1.0, 2: the attribute's value is a URI reference; processors "
     "compare it as a string, and need not check it"),
]

# Where both accept: the reader, what must stand in the document, and the sentence.
ROW_RULES = [
    (LIBXML2, rb"(?s)<!DOCTYPE.*%",
     "5.1: a non-validating processor must not process declarations behind a reference to a parameter entity that it "
     "doesn't read; libxml2 reads internal ones"),
    (LIBXML2, rb"(?s)<!ENTITY.*:", "Namespaces 1.0, 6: names in an entity's text are in scope of the declarations around the "
     "reference; libxml2 leaves their namespaces out"),
]


def build():
    """The programs by their names."""
    need(NEEDED)
    os.makedirs(TARGET, exist_ok=True)
    if not os.path.exists(PROGRAM):
        subprocess.run([os.path.join(TOP, "tools", "programs.sh"), "xml_rows"], check=True)
    here = os.path.join(TOP, "tools", "xml")
    flags = subprocess.run(["xml2-config", "--cflags", "--libs"], check=True, capture_output=True, text=True)
    for name, more in ((EXPAT, ["-lexpat"]), (LIBXML2, flags.stdout.split())):
        subprocess.run(["gcc", "-O2", "-o", os.path.join(TARGET, name), os.path.join(here, name + ".c"), *more], check=True)
    return {"ours": [PROGRAM, "sums"], EXPAT: [os.path.join(TARGET, EXPAT)], LIBXML2: [os.path.join(TARGET, LIBXML2)]}


def answers(command, documents):
    """What a program says of each document."""
    batch = b"".join(b"%d\n%s" % (len(d), d) for d in documents)
    out = subprocess.run(command, input=batch, capture_output=True)
    lines = [line.split(b" ", 1)[1].decode("latin-1") for line in out.stdout.split(b"\n") if line]
    if len(lines) != len(documents):
        sys.exit(f"{command[0]}: {len(lines)} answers to {len(documents)} documents, status {out.returncode}")
    return lines


def is_refused(answer):
    return answer.startswith("refused")


def differs(ours, theirs):
    """Whether one accepts and the other doesn't, or the rows, or the lines where the other tells them, differ."""
    if is_refused(ours) or is_refused(theirs):
        return is_refused(ours) != is_refused(theirs)
    theirs = theirs.split()
    return ours.split()[: len(theirs)] != theirs


def fourth_edition(document):
    """The document with each character beyond ASCII as one that has been a letter in every edition."""
    encoding, mark = "utf-8", b""
    for start, name in ((b"\xff\xfe", "utf-16-le"), (b"\xfe\xff", "utf-16-be")):
        if document.startswith(start):
            encoding, mark = name, start
    if document.startswith(b"<\0"):
        encoding = "utf-16-le"
    elif document.startswith(b"\0<"):
        encoding = "utf-16-be"
    try:
        return mark + re.sub("[^\x00-\x7f]", "\u00e9", document[len(mark) :].decode(encoding)).encode(encoding)
    except UnicodeDecodeError:
        return None


def rule_of(reader, document, ours, theirs, commands):
    """The sentence that settles a difference, or None."""
    if not is_refused(ours) and not is_refused(theirs):
        return next((sentence for who, pattern, sentence in ROW_RULES if who == reader and re.search(pattern, document)), None)
    for who, accepted, our_reason, their_reason, sentence in RULES:
        if who not in (None, reader) or accepted == is_refused(ours):
            continue
        if our_reason is not None and our_reason not in ours:
            continue
        if their_reason == "names of the fifth edition":
            other = fourth_edition(document)
            if other is None or other == document:
                continue
            if differs(answers(commands["ours"], [other])[0], answers(commands[reader], [other])[0]):
                continue
        elif their_reason == "in a parameter entity":
            if not re.search(rb"(?s)<!ENTITY\s+%.*%[^\s;]+;", document):
                continue
        elif their_reason == "behind a parameter entity":
            if not re.search(rb"(?s)<!DOCTYPE.*%", document):
                continue
        elif their_reason is not None and their_reason not in theirs:
            continue
        return sentence
    return None


TOKENS = [b"<", b">", b"/>", b"</", b"&", b";", b"&amp;", b"&#", b"&#x41;", b"&e;", b"]]>", b"<![CDATA[", b"<!--", b"-->", b"--",
          b"<?", b"?>", b"<?p ", b"=", b"\"", b"'", b" ", b"\t", b"\n", b"\r", b"\r\n", b":", b"a", b"b:", b"xmlns", b"xmlns:b=\"u\"",
          b" a=\"1\"", b"<a>", b"</a>", b"<a/>", b"<!DOCTYPE a", b"<!ENTITY e \"x\">", b"<!ENTITY e \"<b/>\">", b"<!ATTLIST a b CDATA \"c\">",
          b"<!ELEMENT a ANY>", b"[", b"]", b"(", b")", b"|", b",", b"*", b"%", b"%p;", b"\xc3\xa9", b"\xe2\x82\xac", b"\xf0\x9f\x98\x80",
          b"\xff", b"\x00", b"\x01", b"\xef\xbf\xbe", b"<?xml version=\"1.0\"?>", b" encoding=\"UTF-8\"", b" standalone=\"yes\"", b"xml", b"1"]


SNIPPETS = [b"<b/>", b"text", b"<!--c-->", b"&amp;", b"<![CDATA[x]]>", b"<?p q?>", b"\n", b"\r\n", b"<c d=\"e\">f</c>",
            b"<x:b xmlns:x=\"u\" x:y=\"1\"/>", b"&#65;", b"<![CDATA[]]>", b"&e;", b"<b xml:lang='en'>\xc3\xa9</b>"]


def mutated(source, sources, rng):
    """A document with a few edits."""
    document = bytearray(source)
    for _ in range(rng.choice((1, 1, 1, 1, 2, 2, 3))):
        at = rng.randrange(len(document) + 1)
        kind = rng.randrange(12)
        if kind >= 6:
            places = [i + 1 for i, byte in enumerate(document) if byte == 0x3E] or [at]
            at = rng.choice(places)
            document[at:at] = rng.choice(SNIPPETS)
        elif kind == 0:
            del document[at : at + rng.choice((1, 1, 2, 4, 8))]
        elif kind == 1:
            document[at:at] = rng.choice(TOKENS)
        elif kind == 2 and at < len(document):
            document[at : at + 1] = rng.choice(TOKENS)
        elif kind == 3 and at < len(document):
            document[at] = rng.randrange(256)
        elif kind == 4:
            end = min(len(document), at + rng.randrange(1, 24))
            document[at:at] = document[at:end]
        else:
            other = rng.choice(sources)
            start = rng.randrange(len(other) + 1)
            document[at:at] = other[start : start + rng.randrange(1, 24)]
    return bytes(document)


def log(nodes):
    """A log of so many nodes, about 20 bytes each."""
    words = b"the quick brown fox jumps over the lazy dog and goes on to the next field, as it does each day "
    out = [b"<?xml version=\"1.0\"?>\n<log>\n"]
    for i in range(nodes // 10):
        out.append(b"<entry id=\"%d\" kind=\"k%d\"><time>%d</time><text lang=\"en\">%b%d</text><x/></entry>\n"
                   % (i, i % 7, 1000000 + i, words, i))
    out.append(b"</log>\n")
    return b"".join(out)


def main():
    parser = argparse.ArgumentParser()
    parser.add_argument("--mutations", type=int, default=100000)
    parser.add_argument("--seed", type=int, default=1)
    parser.add_argument("--no-log", action="store_true")
    parser.add_argument("--save", default=os.path.join(TARGET, "unexplained"))
    options = parser.parse_args()
    commands = build()
    files = sorted(glob.glob(os.path.join(TOP, "tools", "compare", "xml", "*"))
                   + glob.glob(os.path.join(TOP, "tools", "xml", "cases", "*"))
                   + glob.glob(os.path.join(TOP, "examples", "*.xml")))
    sources = [open(name, "rb").read() for name in files]
    rng = random.Random(options.seed)
    small = [s for s in sources if len(s) < 4096]
    explained = collections.Counter()
    accepted, total, unexplained = 0, 0, 0

    def compare(documents, names):
        nonlocal accepted, total, unexplained
        ours = answers(commands["ours"], documents)
        total += len(documents)
        accepted += sum(not is_refused(a) for a in ours)
        for reader in (EXPAT, LIBXML2):
            for name, document, mine, theirs in zip(names, documents, ours, answers(commands[reader], documents)):
                if not differs(mine, theirs):
                    continue
                sentence = rule_of(reader, document, mine, theirs, commands)
                if sentence is not None:
                    explained[reader, sentence] += 1
                    continue
                unexplained += 1
                os.makedirs(options.save, exist_ok=True)
                open(os.path.join(options.save, name), "wb").write(document)
                print(f"{name}: ours {mine} | {reader} {theirs}")

    compare(sources, [os.path.basename(name) for name in files])
    valid = [s for s, answer in zip(small, answers(commands["ours"], small)) if not is_refused(answer)]
    print(f"{len(files)} files, {accepted} accepted")
    for start in range(0, options.mutations, 5000):
        count = min(5000, options.mutations - start)
        compare([mutated(rng.choice(valid if rng.randrange(5) else small), small, rng) for _ in range(count)],
                [f"mutation-{options.seed}-{start + i}" for i in range(count)])
    if not options.no_log:
        compare([log(1000000)], ["log"])
    for (reader, sentence), count in sorted(explained.items()):
        print(f"{count} differ from {reader}: {sentence}")
    print(f"{total} documents, seed {options.seed}, {accepted} accepted, {unexplained} differences unexplained")
    sys.exit(unexplained != 0)


if __name__ == "__main__":
    main()
