#!/usr/bin/env python3
"""Makes the cases of the program text_cases: selectors as text, with the answers of other XPath engines to the same
text, and texts that are refused, with their places.

    python3 tools/compare/texts.py [--seed N]               writes crates/text_cases/stdin and stdout
    python3 tools/compare/texts.py --compare N [--seed N]   holds tools/reference against the engines on N selectors

It needs what engines.py needs, and installs nothing. stdin has lines as the program replay reads them: sessions,
separated by a line `fresh`, each of one `document`, `names`, and `text` calls each followed by a `select` of the row
that the text's term gets; the last session has the texts of refused.py. stdout has a line for each select, the
selected nodes in order, and `refused NUMBER PLACE` for each refused text.

The selectors are random trees of the grammar, each spelled with abbreviations and whitespace by chance. The row of a
text is that of the tree's term, which is put together here; the nodes are those that the engine selects by the text.
On documents without attributes they are Jaxen's, where Saxon takes the text and agrees; on the others they are
Saxon's, since Jaxen errs there. Of refused.py Jaxen must take LEFT_OUT for XPath 1.0, and Jaxen or libxml2 must refuse
NO_XPATH.
"""

import random
import sys
import tempfile

import shared
from cases import MOST_BYTES, MOST_LIMIT, Session, is_quick
from engines import JAXEN_COMMAND, NEEDED, SAXON_COMMAND, libxml2_command
from refused import LEFT_OUT, NO_XPATH, ONE_TOKEN, TOO_FAR
from shared import TREE, build, need, options, output, printed_lines
from spelling import Spelling

# Line 3 is no name and takes up its number, line 6 is the name of line 2 again. Targets are no element's names: Saxon's
# linked tree takes an instruction for an element of that name.
NAMES = ("log mark 3d run zero mark and or not div mod true false text node comment processing-instruction self child "
         "ancestor-or-self attribute e_1 a.b x-y _u A9 plot pen ink").split()
TARGETS = [name for name in NAMES if name in ("plot", "pen", "ink")]
ELEMENTS = [name for name in dict.fromkeys(NAMES) if name[0] != "3" and name not in TARGETS]
DOCUMENTS, ATTRIBUTED, SELECTORS, CANDIDATES = 42, 20, 8, 6


def number(name):
    return NAMES.index(name) + 1


# Documents

def document(rng, nodes, attributes, names):
    """The rows of a document that XML can say, elements and attributes of these names."""
    def name_of(kind):
        word = rng.choice(names) if kind == 1 else rng.choice([None, *TARGETS]) if kind == 4 else None
        return number(word) if word else 0

    return shared.document(rng, nodes, [0.2, 0.5, 0.8], name_of,
                           lambda: [number(name) for name in rng.sample(names, len(names))], attributes,
                           [1, 1, 1, 1, 2, 3, 4], lambda: rng.choice([[], [], [3], [4], [4, 3]]))


def xml(rows):
    def word(name):
        return NAMES[name - 1] if name else "i"

    return shared.xml(rows, word, word)


# Engines

def answers(command, groups):
    """The engine's answers to the selectors of each document, after it is seen to read the same rows."""
    lines = ["names " + " ".join(NAMES)]
    for rows, asked in groups:
        lines += ["document " + xml(rows), *(f"select {context} {text}" for text, _, context in asked)]
    printed = iter(printed_lines(command, lines)[1:])
    found = []
    for rows, asked in groups:
        if next(printed) != " ".join(str(n) for row in rows for n in row):
            sys.exit(f"{command} reads {xml(rows)} otherwise")
        found.append([next(printed) for _ in asked])
    return found


def questions(rng, documents, attributed, count):
    """Documents, each with selectors and a context node."""
    groups = []
    for place in range(documents + attributed):
        names = rng.sample(ELEMENTS, 4)
        spelling = Spelling(rng, names, TARGETS, number)
        rows = document(rng, rng.choice([4, 8, 12, 18]), rng.choice([0.3, 0.5]) if place >= documents else 0, names)
        asked = []
        while len(asked) < count:
            text, term = spelling.union(2)
            text = spelling.w() + text + spelling.w()
            if len(text) < 120 and is_quick(term, len(rows)):
                asked.append((text, term, rng.randrange(len(rows))))
        groups.append((rows, asked))
    return groups


def answered(groups, documents):
    """The questions that an engine answers, with the answer, document by document."""
    saxon, jaxen = answers(SAXON_COMMAND, groups), answers(JAXEN_COMMAND, groups[:documents])
    found, refused, alike, left_out = [], {"Jaxen": [], "Saxon": []}, 0, 0
    for place, (rows, asked) in enumerate(groups):
        pairs = []
        for n, question in enumerate(asked):
            told = {"Saxon": saxon[place][n], **({"Jaxen": jaxen[place][n]} if place < documents else {})}
            for engine, answer in told.items():
                if answer == "refused":
                    refused[engine].append(question[0])
            given = {answer for answer in told.values() if answer != "refused"}
            if len(given) > 1:
                sys.exit(f"{told} to {question[0]!r} from {question[2]} of {xml(rows)}")
            alike += list(told.values()).count("refused") == 0 and len(told) == 2
            left_out += not given
            pairs += [(question, answer) for answer in given]
        found.append((rows, pairs))
    print(f"Jaxen and Saxon give {alike} answers alike; Jaxen refused {len(refused['Jaxen'])} selectors, Saxon "
          f"{len(refused['Saxon'])}, and {left_out} were left out for it")
    for engine, texts in refused.items():
        print(f"  {engine} refused {sorted(texts, key=len)[:12]}")
    return found


def refused_texts(directory):
    """The refused texts with their places, after the engines are seen to take them as refused.py says."""
    taken = [text for texts in LEFT_OUT.values() for text in texts]
    plain = [text.replace("¦", "") for text in taken]
    told = printed_lines(JAXEN_COMMAND, ["parses " + text for text in plain])
    no = [text for text, answer in zip(plain, told) if answer != "yes"]
    if no:
        sys.exit(f"Jaxen doesn't take for XPath 1.0: {no}")
    others = [text.replace("¦", "") for text in NO_XPATH]
    jaxen = printed_lines(JAXEN_COMMAND, ["parses " + text for text in others])
    parsed = printed_lines(libxml2_command(directory), ["parses " + text for text in others])
    both = [text for text, x, y in zip(others, jaxen, parsed) if x == y == "yes"]
    if both:
        sys.exit(f"Jaxen and libxml2 take for XPath 1.0: {both}")
    print(f"Jaxen takes {len(plain)} texts that the grammar leaves out for XPath 1.0; of {len(others)} others it "
          f"refuses {jaxen.count('no')} and libxml2 {parsed.count('no')}, each at least one of them")
    return taken + NO_XPATH + ONE_TOKEN + TOO_FAR


def place_of(text):
    return len(text[:text.index("¦")].encode())


def session_lines(rng, rows, pairs):
    """The lines of a session with these selectors, in order."""
    book = Session(rng)
    lines = ["document " + " ".join(str(n) for row in rows for n in row), "names " + " ".join(NAMES)]
    for (text, term, context), _ in pairs:
        lines += ["text " + text, f"select {book.hold(term)} {context} {MOST_LIMIT} {len(rows)}"]
    return lines


def make(seed, directory):
    rng = random.Random(seed)
    groups = questions(rng, DOCUMENTS, ATTRIBUTED, SELECTORS * CANDIDATES)
    lines, printed, nothing = [], [], 0
    for rows, pairs in answered(groups, DOCUMENTS):
        chosen = []
        for n in range(SELECTORS):
            some_pairs = pairs[n::SELECTORS]
            most = max(some_pairs, key=lambda pair: len(set(pair[1].split()) - {"0"}))
            chosen.append(most if rng.random() < 0.85 else some_pairs[0])
        lines += session_lines(rng, rows, chosen) + ["fresh"]
        printed += [answer for _, answer in chosen]
    selections, nothing = len(printed), printed.count("")
    refused = refused_texts(directory)
    lines += ["names a b c d x"] + ["text " + text.replace("¦", "") for text in refused]
    printed += [f"refused 18 {place_of(text)}" for text in refused]
    text = "".join(line + "\n" for line in lines).encode()
    if len(text) > MOST_BYTES:
        sys.exit(f"{len(text)} bytes are too many")
    crate = TREE / "crates/text_cases"
    (crate / "stdin").write_bytes(text)
    (crate / "stdout").write_text("".join(line + "\n" for line in printed))
    print(f"{selections} selectors on {DOCUMENTS + ATTRIBUTED} documents, {nothing} select nothing; {len(refused)} "
          f"refused texts; {len(text)} bytes")


def compare(seed, count):
    """Holds the reference's text and select against the engines."""
    rng = random.Random(seed)
    documents = max(1, count * 2 // 3 // 40)
    groups = questions(rng, documents, max(1, documents // 2), 40)
    reference, total = build(), 0
    for rows, pairs in answered(groups, documents):
        lines = session_lines(rng, rows, pairs)
        printed = output([reference, "replay"], "".join(line + "\n" for line in lines).encode()).decode().splitlines()
        for (question, answer), told, line in zip(pairs, printed[::2], printed[1::2]):
            if told[:2] != "0 " or line[:2] != "0 " or " ".join(line.split(" ")[2:]) != answer:
                sys.exit(f"the reference gives {told}, {line}, the engine {answer}, to {question[0]!r} "
                         f"from {question[2]} of {xml(rows)}")
        total += len(pairs)
    print(f"seed {seed}: the reference gives the engines' answer to each of {total} selectors on {len(groups)} "
          f"documents")


def main():
    given = options(__doc__, None, ("--compare", {"type": int, "metavar": "N"}))
    need(NEEDED)
    if given.compare:
        return compare(given.seed, given.compare)
    with tempfile.TemporaryDirectory() as directory:
        make(given.seed, directory)


if __name__ == "__main__":
    main()
