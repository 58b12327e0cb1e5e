"""Random texts of the language of models, from a seed: as people may write them, and broken ones."""

import random

NAMES = ["x", "y", "v", "x1", "a_b", "term", "Tall"]
CONSTANTS = ["A", "f", "true1"]
NUMBERS = ["0", "1", "2", "007", "1.50", "0.0", "3.14159", "12345678901234567890"]
BLANKS = ["", "", "", " ", "  ", "\n", "\t", "\r\n", "/* x>0 */", "// no )\n", " /**/ "]
PIECES = [
    *"()[]{}<>&|=+-*/^'?;,_#!\xe4\x00", "->", "<->", "!=", ":=", "++", "==>", "~>", "._3", "._8", "true", "false", "x", "f(x)", "p(||)", "1.", ".5", "\\forall",
    "\\exists x", "@invariant(", "(|", "|)", "{|", "|}", "/*", "x'",
]


class Maker:
    """Makes texts as lists of tokens."""

    def __init__(self, seed):
        self.random = random.Random(seed)

    def one(self, *makers):
        """What one of these makes."""
        return self.random.choice(makers)()

    def name(self):
        """A name."""
        return self.random.choice(NAMES)

    def term(self, depth):
        """A term."""
        if depth <= 0 or self.random.random() < 0.2:
            return self.one(
                lambda: [self.name()], lambda: [self.random.choice(NUMBERS)], lambda: [self.name(), "'"], lambda: [self.random.choice(CONSTANTS), "(", ")"],
                lambda: ["f", "(||)"], lambda: ["g", "(|", self.name(), "|)"],
            )
        below = depth - 1
        if self.random.random() < 0.3:
            return self.one(lambda: ["(", *self.term(below), ")"], lambda: ["-", *self.term(below)], lambda: ["(", *self.term(below), ")", "'"],
                            lambda: ["g", "(", *self.listed(lambda: self.term(below), 3), ")"])
        return [*self.wrapped(self.term(below)), self.random.choice("+-*/^"), *self.wrapped(self.term(below))]

    def wrapped(self, tokens):
        """These tokens, perhaps in brackets."""
        return ["(", *tokens, ")"] if self.random.random() < 0.5 else tokens

    def listed(self, maker, most):
        """Up to so many of what is made, with commas between."""
        found = maker()
        for _ in range(self.random.randrange(most)):
            found = [*found, ",", *maker()]
        return found

    def formula(self, depth):
        """A formula."""
        if depth <= 0 or self.random.random() < 0.2:
            return self.one(
                lambda: [*self.term(1), self.random.choice(["=", "!=", ">=", ">", "<=", "<"]), *self.term(1)], lambda: ["true"], lambda: ["false"],
                lambda: ["p", "(", *self.listed(lambda: self.term(1), 2), ")"], lambda: ["q", "(", ")"], lambda: ["p", "(||)"],
            )
        below = depth - 1
        return self.one(
            lambda: ["!", *self.wrapped(self.formula(below))],
            lambda: [self.random.choice(["\\forall ", "\\exists "]), self.name(), " ", *self.wrapped(self.formula(below))],
            lambda: ["[", *self.program(below), "]", *self.wrapped(self.formula(below))],
            lambda: ["<", *self.program(below), ">", *self.wrapped(self.formula(below))],
            lambda: [*self.wrapped(self.formula(below)), self.random.choice(["&", "|", "->", "<->"]), *self.wrapped(self.formula(below))],
            lambda: [*self.wrapped(self.formula(below)), self.random.choice(["&", "|", "->", "<->"]), *self.wrapped(self.formula(below))],
            lambda: ["(", *self.formula(below), ")"],
            lambda: ["(", *self.formula(below), ")", "'"],
            lambda: ["C", "{", *self.formula(below), "}"],
        )

    def program(self, depth):
        """A program."""
        if depth <= 0 or self.random.random() < 0.2:
            return self.one(
                lambda: ["a", ";"], lambda: [self.name(), ":=", *self.term(1), ";"], lambda: [self.name(), ":=", "*", ";"],
                lambda: [self.name(), "'", ":=", "1", ";"], lambda: ["?", *self.formula(0), ";"],
            )
        below = depth - 1
        return self.one(
            lambda: ["?", *self.formula(below), ";"],
            lambda: self.group(["{", *self.program(below), "}"]),
            lambda: self.group(self.system(below)),
            lambda: [*self.program(below), "++", *self.program(below)],
            lambda: [*self.program(below), *self.program(below)],
        )

    def system(self, depth):
        """A system."""
        equation, constants = (lambda: [self.name(), "'", "=", *self.term(1)]), [lambda: ["c"], lambda: ["c", "{|", self.name(), "|}"]]
        items = self.listed(lambda: self.one(equation, *constants), 3)
        return ["{", *items, *(["&", *self.formula(depth)] if self.random.random() < 0.5 else []), "}"]

    def group(self, tokens):
        """A group, with what may stand behind it."""
        star = ["*"] if self.random.random() < 0.5 else []
        note = ["@invariant", "(", *self.listed(lambda: self.formula(1), 2), ")"] if self.random.random() < 0.3 else []
        return [*tokens, *star, *note, *([";"] if self.random.random() < 0.2 else [])]

    def spaced(self, tokens):
        """The text of these tokens, with blanks and comments between."""
        return "".join(token + (self.random.choice(BLANKS) if token.strip() else "") for token in tokens)

    def broken(self, tokens):
        """These tokens with a few changes."""
        tokens = list(tokens)
        for _ in range(self.random.choice([1, 1, 1, 2, 3])):
            at = self.random.randrange(len(tokens))
            kind = self.random.randrange(5)
            if kind == 0:
                del tokens[at]
            elif kind == 1:
                tokens.insert(at, self.random.choice(PIECES))
            elif kind == 2:
                tokens[at] = self.random.choice(PIECES)
            elif kind == 3:
                tokens.insert(at, self.random.choice(tokens))
            else:
                tokens = tokens[: at + 1]
            tokens = tokens or ["x"]
        return tokens

    def text(self):
        """A text: a formula mostly, sometimes a term or a program, and every other one broken."""
        depth = self.random.randrange(1, 5)
        tokens = self.one(*[lambda: self.formula(depth)] * 4, lambda: self.term(depth), lambda: self.program(depth))
        return self.spaced(self.broken(tokens) if self.random.random() < 0.5 else tokens)
