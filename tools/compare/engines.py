#!/usr/bin/env python3
"""Makes the cases of the program engine_cases: selections on documents, with the answers of other XPath engines.

    python3 tools/compare/engines.py [--seed N]                  writes crates/engine_cases/stdin and stdout
    python3 tools/compare/engines.py --compare N [--seed N]      holds tools/reference against the engines
    python3 tools/compare/engines.py --attributes N [--seed N]   holds it against Saxon on documents with attributes

N is how many selections. It needs Python 3, Debian's packages in NEEDED and, but for the first, cargo. It installs
nothing, and names what is missing.

An instruction without a recorded target, name 0, is `<?i d?>`, one of target n `<?en d?>`. For Saxon it is `<?tn d?>`,
since its linked tree takes an instruction for an element of that name.

stdin has lines as the program replay reads them: sessions, separated by a line `fresh`, each of one `document`, `term`
calls that are all accepted, and `select` calls. stdout has a line for each select: the numbers of the selected nodes
in order, with one space between them. Rows are numbered in document order, the root node is 0.

On documents without attributes the answers are Jaxen's; Saxon and libxml2 must agree, or nothing is written. On
documents with attributes they are Saxon's alone: the others err in following and preceding there. Saxon gets the term
as it stands, in XPath 2.0's syntax. XPath 1.0, for Jaxen and libxml2, has nothing but steps on the right of `/`; there
p/(q|r) is asked as p/q | p/r, p/(q/r) as (p/q)/r, and p/(q[f]) as (p/q)[f]. Inclusion is `count(p | q) = count(q)`.
libxml2 2.9 ends the axis preceding at the document's first child and leaves that out if it has children; it isn't
asked where this may show.
"""

import itertools
import random
import subprocess
import sys
import tempfile
from collections import Counter, namedtuple
from pathlib import Path

import shared
from cases import MOST_BYTES, MOST_LIMIT, NAMES, Session, is_quick, name_for
from rules import AXES, INSTRUCTION, NAMED, NODE, ROOT, STAR, VOID, Term, axis, inclusion, some, step
from shared import TREE, build, need, options, output, printed_lines

JAXEN, SAXON = "/usr/share/java/jaxen.jar", "/usr/share/java/Saxon-HE.jar"
NEEDED = {JAXEN: "libjaxen-java", SAXON: "libsaxonhe-java", "/usr/bin/javac": "default-jdk-headless",
          "/usr/bin/xml2-config": "libxml2-dev", "/usr/bin/cc": "gcc", "/usr/include/stdio.h": "libc6-dev"}
HERE = Path(__file__).resolve().parent
JAXEN_COMMAND, SAXON_COMMAND = (["java", "-cp", f"{JAXEN}:{SAXON}", str(HERE / "Engines.java"), engine]
                                for engine in ("jaxen", "saxon"))
DOCUMENTS, SELECTIONS, CANDIDATES = 72, 7, 12
LETTER, SAXON_LETTER = "e", "t"
ATTRIBUTED = 24
PRECEDING = AXES.index("preceding")
# The log: root, log 1, mark 2, a text, zero 3, run 4, mark 2.
LOG = [(0, 0, 0), (1, 0, 1), (1, 1, 2), (2, 2, 0), (1, 1, 3), (1, 1, 4), (1, 5, 2)]
MARK, RUN = (0, 2), (0, 4)
# Row 5 is the owner of attributes 6 and 7, row 8 its first child; rows 2 and 4 are attributes too.
SERIAL = [(0, 0, 0), (1, 0, 1), (5, 1, 2), (1, 1, 1), (5, 3, 3), (1, 1, 2), (5, 5, 2), (5, 5, 3), (2, 5, 0), (1, 5, 1),
          (3, 1, 0)]

# Targets 1, 2 and 65535, instructions without one (rows 1 and 9), an element named as target 1 is.
PLOTTER = [(0, 0, 0), (4, 0, 0), (4, 0, 1), (1, 0, 1), (4, 3, 2), (2, 3, 0), (4, 3, 1), (1, 3, 2), (4, 7, 1), (4, 7, 0),
           (4, 0, 65535)]

Question = namedtuple("Question", "document term context")


# Documents

def document(rng, nodes, attributes=0):
    """The rows of a document that XML can say, with attributes at this probability."""
    def beside():
        for _ in range(rng.choice([0, 0, 0, 1, 2])):
            yield rng.choice([3, 4])

    return shared.document(rng, nodes, [0.2, 0.5, 0.8, 0.95], lambda kind: name_for(rng, kind),
                           lambda: rng.sample(NAMES, len(NAMES)) if attributes else [], attributes,
                           [1, 1, 1, 1, 2, 2, 3, 4], beside, beside)


def xml(rows, letter):
    """The document; an instruction's target begins with this letter."""
    return shared.xml(rows, lambda name: f"e{name}", lambda name: f"{letter}{name}" if name else "i")


# Expressions

def step_text(term, letter):
    number, (test, name) = term.args
    instruction = "processing-instruction"
    tests = [f"e{name}", "*", "node()", "text()", "comment()", f"{instruction}()", f"{instruction}('{letter}{name}')"]
    return AXES[number] + "::" + tests[test]


def qualifier_text(term, path_text):
    if term.kind in ("true", "false"):
        return f"{term.kind}()"
    if term.kind == "in":
        left, right = map(path_text, term.args)
        return f"count({left} | {right}) = count({right})"
    operands = [f"({qualifier_text(operand, path_text)})" for operand in term.args]
    return f"not{operands[0]}" if term.kind == "not" else f" {term.kind} ".join(operands)


def leaf_text(term, letter):
    return {"void": "(/..)", "root": "(/)"}.get(term.kind) or step_text(term, letter)


def xpath2(term):
    """The path as it stands."""
    if term.kind in ("void", "root", "step"):
        return leaf_text(term, SAXON_LETTER)
    left, right = term.args
    if term.kind == "filter":
        return f"({xpath2(left)})[{qualifier_text(right, xpath2)}]"
    return f"({xpath2(left)}{'|' if term.kind == 'union' else '/'}{xpath2(right)})"


def xpath1(term):
    """The path in XPath 1.0's syntax."""
    if term.kind in ("void", "root", "step"):
        return leaf_text(term, LETTER)
    left, right = term.args
    if term.kind == "filter":
        return f"({xpath1(left)})[{qualifier_text(right, xpath1)}]"
    return f"({xpath1(left)} | {xpath1(right)})" if term.kind == "union" else after(xpath1(left), right)


def after(left, path):
    """left/path in XPath 1.0's syntax. There void and root need a form that is a step."""
    if path.kind == "step":
        return f"({left})/{step_text(path, LETTER)}"
    if path.kind == "void":
        return f"({left})/self::node()[false()]"
    if path.kind == "root":
        return f"({left})/ancestor-or-self::node()[not(parent::node())]"
    first = after(left, path.args[0])
    if path.kind == "filter":
        return f"({first})[{qualifier_text(path.args[1], xpath1)}]"
    if path.kind == "union":
        return f"({first} | {after(left, path.args[1])})"
    return after(first, path.args[1])


# Engines

def parts(term):
    yield term
    for part in term.args:
        if isinstance(part, Term):
            yield from parts(part)


def libxml2_errs(question):
    """Whether libxml2's defect may show: the axis preceding, a first child with children, and a node after these."""
    rows = question.document
    may_miss = len(rows) > 2 and rows[2][1] == 1 and any(parent == 0 for _, parent, _ in rows[2:])
    return may_miss and any(x.kind == "step" and x.args[0] == PRECEDING for x in parts(question.term))


def ask(command, questions, path_text):
    """The engine's answers, after it is seen to read the same documents as ours."""
    lines, before, letter = [], None, SAXON_LETTER if path_text is xpath2 else LETTER
    for question in questions:
        if question.document is not before:
            before = question.document
            lines.append((f"document {xml(before, letter)}", " ".join(str(n) for row in before for n in row)))
        lines.append((f"select {question.context} {path_text(question.term)}", None))
    printed = printed_lines(command, [line for line, _ in lines])
    for (line, rows), answer in zip(lines, printed):
        if rows and rows != answer:
            sys.exit(f"{command} reads {line} as {answer}")
    return [answer for (_, rows), answer in zip(lines, printed) if not rows]


def libxml2_command(directory):
    """The program libxml2.c, compiled there."""
    flags = subprocess.run(["xml2-config", "--cflags", "--libs"], check=True, capture_output=True, text=True).stdout
    program = f"{directory}/libxml2"
    subprocess.run(["cc", "-O2", str(HERE / "libxml2.c"), *flags.split(), "-o", program], check=True)
    return [program]


def answers(questions, directory):
    """Jaxen's answers, after Saxon and libxml2 are seen to give the same."""
    right = ask(JAXEN_COMMAND, questions, xpath1)
    saxon = ask(SAXON_COMMAND, questions, xpath2)
    agree("Saxon", [(q, x, y) for q, x, y in zip(questions, right, saxon) if y != "refused"])
    asked = [place for place, question in enumerate(questions) if not libxml2_errs(question)]
    printed = ask(libxml2_command(directory), [questions[place] for place in asked], xpath1)
    agree("libxml2", [(questions[place], right[place], answer) for place, answer in zip(asked, printed)])
    print(f"Saxon refused {saxon.count('refused')}; libxml2 wasn't asked {len(questions) - len(asked)} with preceding")
    return right


def agree(name, answered):
    differences = [(question, right, answer) for question, right, answer in answered if answer != right]
    for question, right, answer in differences:
        print(f"{name} gives {answer or 'nothing'}, Jaxen {right or 'nothing'}, to {xpath1(question.term)} "
              f"from {question.context} of {xml(question.document, LETTER)}")
    if differences:
        sys.exit(f"{name} differs from Jaxen in {len(differences)} of {len(answered)} answers")
    print(f"{name} gives Jaxen's answer to each of {len(answered)} selections")


# Cases

def shapes(rng):
    """Functions that make a random path each: a step, each kind of term, and pairs of kinds, without end."""
    session = Session(rng)

    def p():
        return session.path(rng.choice([0, 0, 1, 1, 2]))

    def f():
        return session.qualifier(rng.choice([0, 1, 1, 2]))

    def plain(number, test):
        return lambda: step(number, (test, rng.choice(NAMES) if test in NAMED else 0))

    compound = [
        lambda: p() | p(),
        lambda: p() / p(),
        lambda: p()[f()],
        lambda: p()[inclusion(p(), p())],
        lambda: p()[some(p())],
        lambda: p()[~f()],
        lambda: p()[f() & f()],
        lambda: p()[f() | f()],
        lambda: p()[inclusion(p(), p()) & some(p())],
        lambda: rng.choice([VOID, VOID | p(), p() | VOID, p() / VOID, VOID / p(), p()[inclusion(p(), VOID)]]),
        lambda: rng.choice([ROOT, ROOT / p(), p() / ROOT, ROOT[f()], p()[inclusion(ROOT, p())], ROOT | p()]),
        lambda: p() / rng.choice([p() | p(), p() / p(), p()[f()]]),
    ]
    pairs = list(itertools.product(range(len(AXES)), range(7)))
    rng.shuffle(pairs)
    for pair, shape in zip(itertools.cycle(pairs), itertools.cycle(compound)):
        yield shape
        yield plain(*pair)


def questions_on(rng, rows, shape, count):
    """Selections of one shape on one document, in few visits."""
    found = []
    while len(found) < count:
        term = shape()
        if is_quick(term, len(rows)):
            found.append(Question(rows, term, rng.randrange(len(rows))))
    return found


def session_of(rng, questions):
    """The calls of one session, and nothing but accepted ones."""
    session = Session(rng)
    rows = questions[0].document
    session.call("document", [number for row in rows for number in row])
    for question in questions:
        row = session.hold(question.term)
        session.call("select", (row, question.context, MOST_LIMIT, len(rows) + rng.choice([0, 0, 1, 9])))
    return session


def log_questions():
    """The log cases."""
    (child, parent, descendant, following_sibling, following, preceding) = (
        axis(name) for name in "child parent descendant following-sibling following preceding".split())
    return [Question(LOG, term, context) for term, context in [
        (descendant(MARK), 0), (child(MARK), 0), (following(MARK), 3), (preceding(NODE), 6), (ROOT, 0),
        (following_sibling(NODE), 2), (child((0, 1)) / child(MARK), 0), (descendant(RUN) / child(MARK), 5),
        (descendant(MARK)[some(parent(RUN))], 5)]]


def attribute_questions():
    """Each axis, with node() and with `*`, from an attribute, its owner, its owner's first child and the root."""
    return [Question(SERIAL, step(number, test), context)
            for context in (6, 5, 8, 0) for number in range(len(AXES)) for test in (NODE, STAR)]


def target_questions():
    """Each axis, with a target, another one and any instruction, from an instruction, an element and the root."""
    return [Question(PLOTTER, step(number, test), context)
            for context in (6, 3, 0) for number in range(11) for test in ((6, 1), (6, 2), INSTRUCTION)]


def make(seed, directory):
    """The cases. Of a few candidates for each selection, the one that selects most beside the root is taken, mostly."""
    rng = random.Random(seed)
    shape = shapes(rng)
    groups = [[question] for question in log_questions() + target_questions()]
    for _ in range(DOCUMENTS - 2):
        rows = document(rng, rng.choice([3, 6, 9, 12, 16, 24]))
        groups += [questions_on(rng, rows, next(shape), CANDIDATES) for _ in range(SELECTIONS)]
    plain = [question for group in groups for question in group]
    attributed = [[question] for question in attribute_questions()]
    for _ in range(ATTRIBUTED - 1):
        rows = document(rng, rng.choice([3, 6, 9, 12, 16, 24]), rng.choice([0.3, 0.5, 0.7]))
        attributed += [questions_on(rng, rows, next(shape), CANDIDATES) for _ in range(SELECTIONS)]
    by_saxon = ask(SAXON_COMMAND, [question for group in attributed for question in group], xpath2)
    groups += attributed
    answered = iter([*answers(plain, directory), *by_saxon])
    chosen = []
    for group in groups:
        pairs = [(question, answer) for question in group if (answer := next(answered)) != "refused"]
        most = max(pairs, key=lambda pair: len(set(pair[1].split()) - {"0"}))
        chosen.append(most if rng.random() < 0.85 else pairs[0])
    questions, selected = zip(*chosen)
    sessions = [session_of(rng, group).text().decode() for group in by_document(questions)]
    return "fresh\n".join(sessions), selected, questions


def by_document(questions):
    return [list(group) for _, group in itertools.groupby(questions, key=lambda question: id(question.document))]


def report(text, selected, questions):
    axes, tests, kinds = Counter(), Counter(), Counter()
    for question in questions:
        found = set(parts(question.term))
        kinds.update({x.kind for x in found})
        axes.update({AXES[x.args[0]] for x in found if x.kind == "step"})
        tests.update({x.args[1][0] for x in found if x.kind == "step"})
    print(f"{text.count('document')} documents, {len(questions)} selections, {selected.count('')} select nothing, "
          f"{len(text)} bytes")
    for name, counter in (("axes", axes), ("tests", tests), ("kinds", kinds)):
        print(f"  selections with {name}: " + ", ".join(f"{key} {counter[key]}" for key in sorted(counter, key=str)))


def questions_for(seed, count, attributes):
    """Selections on documents, with these probabilities of an attribute."""
    rng = random.Random(seed)
    shape = shapes(rng)
    questions = []
    while len(questions) < count:
        rows = document(rng, rng.choice([2, 5, 10, 20, 40]), *([rng.choice(attributes)] if attributes else []))
        questions += [q for _ in range(10) for q in questions_on(rng, rows, next(shape), 2)]
    return rng, questions


def hold_reference(rng, questions, right, engine):
    """Ends where the reference's select gives another answer; what an engine refused is left out."""
    reference, printed = build(), []
    for group in by_document(questions):
        session = session_of(rng, group)
        lines = output([reference, "replay"], session.text()).decode().splitlines()
        printed += [line for line, accepted in zip(lines, session.accepted()) if accepted is None]
    for question, answer, line in zip(questions, right, printed):
        number, _, *nodes = line.split(" ")
        if answer != "refused" and (number != "0" or " ".join(nodes) != answer):
            sys.exit(f"the reference gives {line}, {engine} {answer}, to {xpath2(question.term)} "
                     f"from {question.context} of {xml(question.document, SAXON_LETTER)}")


def compare_attributes(seed, count):
    """Holds the reference's select against Saxon on documents with attributes. The other engines err there."""
    rng, questions = questions_for(seed, count, [0.3, 0.5, 0.7])
    right = ask(SAXON_COMMAND, questions, xpath2)
    hold_reference(rng, questions, right, "Saxon")
    from_attributes = sum(q.document[q.context][0] == 5 for q, answer in zip(questions, right) if answer != "refused")
    refused = right.count("refused")
    print(f"seed {seed}: the reference gives Saxon's answer to each of {len(questions) - refused} selections on "
          f"documents with attributes, {from_attributes} from attributes; {right.count('')} select nothing, "
          f"Saxon refused {refused}")


def compare(seed, count, directory):
    """Holds the reference's select against the engines."""
    rng, questions = questions_for(seed, count, [])
    right = answers(questions, directory)
    hold_reference(rng, questions, right, "the engines")
    documents = len({id(q.document) for q in questions})
    print(f"seed {seed}: the reference gives the engines' answer to each of {len(questions)} selections on "
          f"{documents} documents; {right.count('')} select nothing")


def main():
    given = options(__doc__, None, ("--compare", {"type": int, "metavar": "N"}),
                    ("--attributes", {"type": int, "metavar": "N"}))
    need(NEEDED)
    if given.attributes:
        return compare_attributes(given.seed, given.attributes)
    with tempfile.TemporaryDirectory() as directory:
        if given.compare:
            return compare(given.seed, given.compare, directory)
        text, selected, questions = make(given.seed, directory)
    if len(text) > MOST_BYTES:
        sys.exit(f"{len(text)} bytes are too many")
    crate = TREE / "crates/engine_cases"
    crate.mkdir(parents=True, exist_ok=True)
    (crate / "stdin").write_text(text)
    (crate / "stdout").write_text("".join(answer + "\n" for answer in selected))
    report(text, selected, questions)


if __name__ == "__main__":
    main()
