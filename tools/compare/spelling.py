"""Random selectors as text, spelled with abbreviations and whitespace by chance, with their terms."""

from rules import AXES, FALSE, NODE, ROOT, STAR, TRUE, some, step

NAME_BYTES = "abcdefghijklmnopqrstuvwxyzABCDEFGHIJKLMNOPQRSTUVWXYZ0123456789_-."
TYPES = ["node", "text", "comment", "processing-instruction"]
EVERY_BELOW = step(AXES.index("descendant-or-self"), NODE)


class Spelling:
    """Random selectors: each function gives a text and its term."""

    def __init__(self, rng, names, targets, number, spaces=(" ", " ", "\t", "  ")):
        """The names and targets that are used, and a function that gives each its number."""
        self.rng, self.names, self.targets, self.number = rng, names, targets, number
        self.spaces = ["", "", "", "", *spaces]

    def w(self):
        return self.rng.choice(self.spaces)

    def test(self):
        rng, kind = self.rng, self.rng.choice([0, 0, 0, 0, 1, 1, 2, 2, 3, 4, 5, 6])
        if kind == 0:
            name = rng.choice(self.names)
            return name, (0, self.number(name))
        if kind == 1:
            return "*", STAR
        if kind == 6:
            name, quote = rng.choice(self.targets), rng.choice("'\"")
            return f"{TYPES[3]}{self.w()}({self.w()}{quote}{name}{quote}{self.w()})", (6, self.number(name))
        return f"{TYPES[kind - 2]}{self.w()}({self.w()})", (kind, 0)

    def step(self, depth):
        rng = self.rng
        if rng.random() < 0.12:
            return rng.choice([(".", step(0, NODE)), ("..", step(2, NODE))])
        text, test = self.test()
        way = rng.random()
        if way < 0.5:
            axis = 1
        elif way < 0.6:
            axis, text = 11, "@" + self.w() + text
        else:
            axis = rng.randrange(len(AXES))
            text = AXES[axis] + self.w() + "::" + self.w() + text
        term = step(axis, test)
        while depth and rng.random() < 0.35:
            inner, condition = self.expression(depth - 1)
            text, term = f"{text}{self.w()}[{self.w()}{inner}{self.w()}]", term[condition]
        return text, term

    def path(self, depth):
        rng, lead = self.rng, self.rng.random()
        if lead < 0.03:
            return "/", ROOT
        text, term = self.step(depth)
        if lead < 0.15:
            text, term = "/" + self.w() + text, ROOT / term
        elif lead < 0.3:
            text, term = "//" + self.w() + text, ROOT / EVERY_BELOW / term
        while rng.random() < 0.4:
            more, next_term = self.step(depth)
            slashes = rng.choice(["/", "/", "//"])
            text = f"{text}{self.w()}{slashes}{self.w()}{more}"
            term = (term / EVERY_BELOW if slashes == "//" else term) / next_term
        return text, term

    def union(self, depth):
        text, term = self.path(depth)
        while self.rng.random() < 0.15:
            more, next_term = self.path(depth)
            text, term = f"{text}{self.w()}|{self.w()}{more}", term | next_term
        return text, term

    def operand(self, depth):
        rng, kind = self.rng, self.rng.random()
        if kind < 0.12:
            return rng.choice([(f"true{self.w()}({self.w()})", TRUE), (f"false{self.w()}({self.w()})", FALSE)])
        if depth and kind < 0.4:
            text, term = self.expression(depth - 1)
            text = f"({self.w()}{text}{self.w()})"
            return rng.choice([(text, term), (f"not{self.w()}{text}", ~term)])
        text, path = self.union(depth)
        return text, some(path)

    def joined(self, word, part, join):
        text, term = part()
        # a lone `/` before the word would take it for a step
        while self.rng.random() < 0.25 and text[-1] != "/":
            more, next_term = part()
            before = self.w() if text[-1] not in NAME_BYTES or text.endswith(("::", ".")) and self.is_dot(text) else " "
            behind = self.w() or (" " if more[0] in NAME_BYTES else "")
            text, term = f"{text}{before}{word}{behind}{more}", join(term, next_term)
        return text, term

    @staticmethod
    def is_dot(text):
        """Whether the text ends in `.` or `..` and not in a name."""
        rest = text.rstrip(".")
        return len(text) - len(rest) in (1, 2) and (not rest or rest[-1] not in NAME_BYTES)

    def conjunction(self, depth):
        return self.joined("and", lambda: self.operand(depth), lambda x, y: x & y)

    def expression(self, depth):
        return self.joined("or", lambda: self.conjunction(depth), lambda x, y: x | y)
