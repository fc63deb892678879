"""What the comparisons share: the reference, programs that are run on lent input, packages that must be there, and XML.

No script of this folder installs anything unasked: what is missing is named, with the line that installs it.
"""

import argparse
import shutil
import subprocess
import sys
from pathlib import Path

TREE = Path(__file__).resolve().parents[2]
SECONDS = 60


def need(places):
    """Ends with the line that installs what is missing, of commands or files, each with Debian's package."""
    missing = [package for place, package in places.items()
               if not (Path(place).exists() if place.startswith("/") else shutil.which(place))]
    if missing:
        sys.exit("missing: apt-get install --no-install-recommends " + " ".join(dict.fromkeys(missing)))


def need_program(command):
    """Ends where the program of a command isn't there."""
    if not shutil.which(command[0]):
        sys.exit(f"there is no program {command[0]} (tools/programs.sh makes those of target/bin)")


def options(doc, count, *more):
    """The options --seed and --count, and more, each a flag with its arguments."""
    parser = argparse.ArgumentParser(description=doc, formatter_class=argparse.RawDescriptionHelpFormatter)
    parser.add_argument("--seed", type=int, default=1)
    if count is not None:
        parser.add_argument("--count", type=int, default=count)
    for flag, arguments in more:
        parser.add_argument(flag, **arguments)
    return parser.parse_args()


def program_option(name):
    """The option of a program of target/bin, for `options`."""
    return f"--{name}", {"default": str(TREE / "target/bin" / name), "help": "the program, with arguments if any"}


def build(directory=TREE / "tools/reference"):
    """Builds a reference and gives its program."""
    need({"cargo": "cargo"})
    subprocess.run(["cargo", "build", "--release", "--quiet"], cwd=directory, check=True)
    return str(directory / "target/release/reference")


def output(command, text, directory=None):
    """What the program prints, with its exit status if that isn't 0."""
    try:
        run = subprocess.run(command, cwd=directory, input=text, capture_output=True, timeout=SECONDS)
    except subprocess.TimeoutExpired:
        return f"no answer in {SECONDS} s\n".encode()
    return run.stdout + (f"exit status {run.returncode}\n".encode() if run.returncode else b"")


def printed_lines(command, lines):
    """What a program that answers each line by a line prints."""
    run = subprocess.run(command, input="".join(line + "\n" for line in lines), capture_output=True, text=True)
    printed = run.stdout.split("\n")[:-1]
    if run.returncode or len(printed) != len(lines):
        sys.exit(f"{command} failed: {run.stderr[-2000:]}")
    return printed


def save(name, text):
    """Keeps an input that tells two programs apart."""
    saved = TREE / "target" / name
    saved.parent.mkdir(exist_ok=True)
    saved.write_bytes(text)
    return saved


# Documents

def document(rng, nodes, deep, name_of, attributes_of, attributes, kinds, before, after=lambda: ()):
    """The rows of a document that XML can say: one element under the root, no text beside it, no two texts in a row.

    `name_of` gives a node of a kind its name, `attributes_of` an element the names that it may have, of which it has a
    further one with probability `attributes`; `before` and `after` give the kinds of the nodes beside the element. Each
    value of `deep` is a probability that a node is put under the last element.
    """
    rows = [(0, 0, 0)]

    def add(kind, parent):
        rows.append((kind, parent, name_of(kind)))
        names, owner = attributes_of() if kind == 1 else [], len(rows) - 1
        while names and rng.random() < attributes:
            rows.append((5, owner, names.pop()))

    for kind in before():
        add(kind, 0)
    top, down = len(rows), rng.choice(deep)
    add(1, 0)
    while len(rows) < nodes:
        parent = len(rows) - 1
        while rows[parent][0] != 1 or (parent != top and rng.random() > down):
            parent = rows[parent][1]
        under = [kind for kind, above, _ in rows if above == parent and kind != 5]
        kind = rng.choice(kinds)
        if kind != 2 or under[-1:] != [2]:
            add(kind, parent)
    for kind in after():
        add(kind, 0)
    return rows


def xml(rows, word, target):
    """The document of these rows; a number's name is `word` of it, an instruction's `target`."""
    def text(place):
        kind, _, name = rows[place]
        under = [n for n, row in enumerate(rows) if n and row[1] == place]
        inner = "".join(text(n) for n in under if rows[n][0] != 5)
        if kind == 1:
            attributes = "".join(f' {word(rows[n][2])}=""' for n in under if rows[n][0] == 5)
            return f"<{word(name)}{attributes}>{inner}</{word(name)}>"
        return [inner, None, "t", "<!--c-->", f"<?{target(name)} d?>"][kind]
    return text(0)


class XmlText:
    """Random XML files: elements, attributes, texts in pieces, CDATA, references, comments and instructions."""

    def __init__(self, rng, elements, attributes, targets, references=("&amp;",), values=("7",), sections=("a<b", " ")):
        """The names, the references and the CDATA sections that a text may have, and the values of attributes."""
        self.rng, self.elements, self.attributes, self.targets = rng, elements, attributes, targets
        self.references, self.values, self.sections = references, values, sections

    def piece(self, depth):
        rng, kind = self.rng, self.rng.randrange(10 if depth < 6 else 7)
        if kind == 0:
            return f"<!-- {rng.choice(self.elements)} -->"
        if kind == 1:
            return f"<?{rng.choice(self.targets)} {rng.choice(['', 'x y'])}?>"
        if kind == 2:
            return f"<![CDATA[{rng.choice(self.sections)}]]>"
        if kind == 3:
            return rng.choice(self.references)
        if kind < 7:
            return rng.choice(["12.5", "\n  ", " ", "some text\n"])
        return self.element(depth + 1)

    def element(self, depth=0):
        rng, name = self.rng, self.rng.choice(self.elements)
        some = rng.sample(self.attributes, rng.choice([0, 0, 1, 2]))
        attributes = "".join(f' {x}="{rng.choice(self.values)}"' for x in some)
        inner = "".join(self.piece(depth) for _ in range(rng.randrange(7)))
        return f"<{name}{attributes}>{inner}</{name}>" if inner else f"<{name}{attributes}/>"

    def beside(self):
        """What may stand before and after the element."""
        return "".join(self.rng.choice(["\n", "<!--o-->", "<?run o?>"]) for _ in range(self.rng.randrange(3)))

    def file(self, types=""):
        """A whole file, with this DOCTYPE."""
        return self.beside().lstrip("\n") + types + self.beside() + self.element() + self.beside()
