"""Random archives with definitions whose arguments have the names of program variables and constants, and whose bodies bind names that arguments
read; what they mean with definitions as functions; and what a model without definitions means.

Quantifiers range over a few numbers. A loop runs at most twice, where its annotation holds, and equations make at most two steps of Euler's method
within their domain: that isn't what they mean, but is as sensitive to names.
"""

import random
from fractions import Fraction
from typing import Callable, Iterator, NamedTuple

VARIABLES, EXTRA, CONSTANTS = ("x", "y", "z"), ("w",), ("A", "B")
DOMAIN = [Fraction(-1), Fraction(0), Fraction(3, 2)]
COMPARE = {"=": lambda a, b: a == b, "!=": lambda a, b: a != b, "<": lambda a, b: a < b, "<=": lambda a, b: a <= b, ">": lambda a, b: a > b,
           ">=": lambda a, b: a >= b}
NAMED = {"=": "eq", "!=": "ne", "<": "lt", "<=": "le", ">": "gt", ">=": "ge"}
BY_WORD = {NAMED[mark]: holds for mark, holds in COMPARE.items()}
BUILT_IN = {"abs": lambda values: abs(values[0]), "min": min, "max": max}
LEVEL = {"<->": 1, "->": 2, "|": 3, "&": 4, "!": 5, "all": 5, "some": 5, "box": 5, "dia": 5, "cmp": 6, "+": 1, "-": 1, "*": 2, "/": 2, "neg": 3, "^": 4}
ROUNDS, STEPS = 2, 3


class Definition(NamedTuple):
    """A definition: its kind, its name, its arguments, and the tree of its body."""

    kind: str
    name: str
    arguments: tuple
    body: tuple


class Maker:
    """Random trees: tuples with an operator first."""

    def __init__(self, rng):
        self.rng, self.known, self.arguments = rng, [], ()

    def pick(self, *weighted):
        """A word by weights."""
        return self.rng.choices([word for word, _ in weighted], [weight for _, weight in weighted])[0]

    def calls(self, kind):
        """The definitions of a kind that are there."""
        return [one for one in self.known if one.kind == kind]

    def leaf(self):
        """A number or a name."""
        names = VARIABLES + CONSTANTS + tuple(self.arguments) * 2
        if self.rng.random() < .25:
            return "num", Fraction(self.rng.choice([0, 1, 2, 5]), self.rng.choice([1, 2]))
        return "name", self.rng.choice(names)

    def term(self, depth):
        """A term."""
        calls = self.calls("Real")
        if depth <= 0 or self.rng.random() < .25:
            return self.leaf()
        kind = self.pick(("neg", 1), ("+", 2), ("-", 2), ("*", 2), ("/", .5), ("^", .5), ("built", .6), ("call", 3 if calls else 0))
        if kind == "call":
            one = self.rng.choice(calls)
            return "call", one, tuple(self.term(depth - 1) for _ in one.arguments)
        if kind == "neg":
            return "neg", self.term(depth - 1)
        if kind in "/^":
            return kind, self.term(depth - 1), ("num", Fraction(self.rng.choice([1, 2, 4]) if kind == "/" else 2))
        if kind == "built":
            name = self.rng.choice(["abs", "min", "max"])
            return "built", name, tuple(self.term(depth - 2) for _ in range(1 if name == "abs" else 2))
        return kind, self.term(depth - 1), self.term(depth - 1)

    def call(self, calls, depth):
        """A definition with arguments."""
        one = self.rng.choice(calls)
        return "call", one, tuple(self.term(depth) for _ in one.arguments)

    def formula(self, depth):
        """A formula."""
        calls = self.calls("Bool")
        if depth > 1 and self.arguments and self.rng.random() < .3:
            return self.annotated()
        if depth <= 0 or self.rng.random() < .1:
            if calls and self.rng.random() < .5:
                return self.call(calls, 1)
            return "cmp", self.rng.choice(list(COMPARE)), self.term(1), self.term(2)
        often = 2.5 if self.arguments else 1  # what binds names that arguments may read
        kind = self.pick(("cmp", 1), ("&", 2), ("|", 1.5), ("->", 1.5), ("<->", .8), ("!", 1), ("all", 1.5), ("some", 1.5), ("box", 1.5 * often),
                         ("dia", often), ("call", 3 if calls else 0))
        if kind == "call":
            return self.call(calls, 2)
        if kind == "cmp":
            return "cmp", self.rng.choice(list(COMPARE)), self.term(2), self.term(1)
        if kind == "!":
            return "!", self.formula(depth - 1)
        if kind in ("all", "some"):
            return self.quantified(kind, depth)
        if kind in ("box", "dia"):
            return kind, self.program(depth - 1), self.formula(depth - 1)
        return kind, self.formula(depth - 1), self.formula(depth - 1)

    def annotated(self):
        """A modality over a loop with an annotation that reads what is changed before it, too, or over two ways of which one changes a name."""
        name = self.rng.choice([one for one in VARIABLES if one not in self.arguments])
        body = ";", (":=", name, self.term(2)), self.program(0)
        note = "cmp", self.rng.choice(["<", "<=", ">", ">="]), ("name", name), self.term(1)
        before, behind = (":=", name, self.term(1)), ("cmp", self.rng.choice(["<", ">="]), ("name", name), ("name", self.rng.choice(self.arguments)))
        program = (";", before, ("loop", body, note)) if self.rng.random() < .6 else ("++", before, ("?", self.formula(0)))
        return self.rng.choice(["box", "dia"]), program, behind

    def quantified(self, kind, depth):
        """A formula below a quantifier, which may hide an argument."""
        name, before = self.rng.choice(VARIABLES + EXTRA), self.arguments
        self.arguments = tuple(one for one in before if one != name)
        found = kind, name, self.formula(depth - 1)
        self.arguments = before
        return found

    def program(self, depth):
        """A program."""
        calls, deep, often = self.calls("HP"), depth > 0, 3 if self.arguments else 1
        free = [name for name in VARIABLES if name not in self.arguments]
        kind = self.pick((":=", 3), (":=*", .7), ("?", 1), (";", 2.5 * deep), ("++", deep), ("if", deep), ("loop", .7 * deep * often),
                         ("ode", .8 * often), ("call", 2 if calls else 0))
        if kind == "call":
            return "call", self.rng.choice(calls), ()
        if kind in (":=", ":=*", "ode") and not free or kind == "?":
            return "?", self.formula(min(depth - 1, 1))
        if kind == ":=":
            return ":=", self.rng.choice(free), self.term(2)
        if kind == ":=*":
            return ":=*", self.rng.choice(free)
        if kind == "loop":
            return "loop", self.program(depth - 1), self.formula(0) if self.rng.random() < .6 else None
        if kind == "ode":
            chosen = self.rng.sample(free, self.rng.randint(1, min(2, len(free))))
            return "ode", tuple((name, self.term(1)) for name in chosen), self.formula(0) if self.rng.random() < .5 else None
        if kind == "if":
            return "if", self.formula(0), self.program(depth - 1), self.program(depth - 1) if self.rng.random() < .6 else None
        return kind, self.program(depth - 1), self.program(depth - 1)


class Writer:
    """Texts of random trees, with as few brackets as KeYmaera X wants, or more."""

    def __init__(self, rng):
        self.rng, self.may_bracket = rng, True

    def wrap(self, tree, least, show):
        """A text, in brackets where its operator is below a level, and sometimes else."""
        said = show(tree)
        return f"({said})" if LEVEL.get(tree[0], 9) < least or self.rng.random() < .08 else said

    def number(self, value):
        """A number."""
        if value.denominator == 1:
            return str(value.numerator)
        return f"{float(value)}" if self.rng.random() < .5 else f"({value.numerator}/{value.denominator})"

    def term(self, tree):
        """A term."""
        word = tree[0]
        if word == "num":
            return self.number(tree[1])
        if word == "name":
            return tree[1] + "()" * (tree[1] in CONSTANTS and self.may_bracket and self.rng.random() < .3)
        if word == "call":
            return self.call(tree)
        if word == "built":
            return f"{tree[1]}({', '.join(map(self.term, tree[2]))})"
        if word == "neg":
            is_power_of_number = tree[1][0] == "^" and tree[1][1][0] == "num"
            return "-" + self.wrap(tree[1], 9 if is_power_of_number else 3, self.term)
        if word == "^":
            return self.wrap(tree[1], 5, self.term) + "^" + self.term(tree[2])
        # a minus as the right side of a division would be read in two ways
        return self.wrap(tree[1], LEVEL[word], self.term) + word + self.wrap(tree[2], LEVEL[word] + 1 + (word == "/"), self.term)

    def call(self, tree):
        """A definition with its arguments."""
        one = tree[1]
        if not one.arguments:
            return one.name + "()" * (self.rng.random() < .6)
        return f"{one.name}({','.join(map(self.term, tree[2]))})"

    def formula(self, tree):
        """A formula."""
        word = tree[0]
        if word == "cmp":
            return f"{self.term(tree[2])} {tree[1]} {self.term(tree[3])}"
        if word == "call":
            return self.call(tree)
        if word == "!":
            return "!" + self.wrap(tree[1], 5, self.formula)
        if word in ("all", "some"):
            said = self.rng.choice(["\\forall", "∀"]) if word == "all" else self.rng.choice(["\\exists", "∃"])
            return f"{said} {tree[1]} {self.wrap(tree[2], 5, self.formula)}"
        if word in ("box", "dia"):
            inside = self.program(tree[1])
            return (f"[{inside}]" if word == "box" else f"<{inside}>") + self.wrap(tree[2], 5, self.formula)
        if word == "<->":
            return f"{self.wrap(tree[1], 3, self.formula)} <-> {self.wrap(tree[2], 3, self.formula)}"
        return f"{self.wrap(tree[1], LEVEL[word] + 1, self.formula)} {word} {self.wrap(tree[2], LEVEL[word], self.formula)}"

    def program(self, tree):
        """A program."""
        word = tree[0]
        if word == "call":
            return tree[1].name + ";"
        if word == ":=":
            return f"{tree[1]} := {self.term(tree[2])};"
        if word == ":=*":
            return f"{tree[1]} := *;"
        if word == "?":
            return f"?{self.formula(tree[1])};"
        if word == "loop":
            return f"{{ {self.program(tree[1])} }}*" + (f"@invariant({self.formula(tree[2])})" if tree[2] else "")
        if word == "ode":
            return "{" + ", ".join(f"{name}'={self.term(value)}" for name, value in tree[1]) + (f" & {self.formula(tree[2])}" if tree[2] else "") + "}"
        if word == "if":
            said = f"if ({self.formula(tree[1])}) {{ {self.program(tree[2])} }}"
            return said + (f" else {{ {self.program(tree[3])} }}" if tree[3] else "")
        first, second = self.program(tree[1]), self.program(tree[2])
        if word == ";":
            return ("{" + first + "}" if tree[1][0] in ("++", ";") else first) + " " + ("{" + second + "}" if tree[2][0] == "++" else second)
        return ("{" + first + "}" if tree[1][0] == "++" else first) + self.rng.choice([" ++ ", " ∪ "]) + second


# Meaning, with definitions as functions: a name is looked up among arguments, then in the state

def term_value(tree, state, local):
    """The value of a term."""
    word = tree[0]
    if word == "num":
        return tree[1]
    if word == "name":
        return local[tree[1]] if tree[1] in local else state[tree[1]]
    if word == "call":
        return term_value(tree[1].body, state, called(tree, state, local))
    if word == "built":
        return BUILT_IN[tree[1]]([term_value(one, state, local) for one in tree[2]])
    if word == "neg":
        return -term_value(tree[1], state, local)
    return computed(word, term_value(tree[1], state, local), term_value(tree[2], state, local))


def called(tree, state, local):
    """The arguments of a call with their values."""
    return dict(zip(tree[1].arguments, [term_value(one, state, local) for one in tree[2]]))


def computed(word, left, right):
    """The value of an operator over two numbers."""
    if word == "+":
        return left + right
    if word == "-":
        return left - right
    if word == "*":
        return left * right
    return left / right if word == "/" else left ** int(right)


def is_true(tree, state, local):
    """Whether a formula is true."""
    word = tree[0]
    if word == "cmp":
        return COMPARE[tree[1]](term_value(tree[2], state, local), term_value(tree[3], state, local))
    if word == "call":
        return is_true(tree[1].body, state, called(tree, state, local))
    if word == "!":
        return not is_true(tree[1], state, local)
    if word in ("all", "some"):
        inner = {name: value for name, value in local.items() if name != tree[1]}
        return (all if word == "all" else any)(is_true(tree[2], state | {tree[1]: value}, inner) for value in DOMAIN)
    if word in ("box", "dia"):
        return (all if word == "box" else any)(is_true(tree[2], end, local) for end in ends_of(tree[1], state, local))
    return connected(word, lambda: is_true(tree[1], state, local), lambda: is_true(tree[2], state, local))


def connected(word, left, right):
    """The truth of a connective."""
    if word == "&":
        return left() and right()
    if word == "|":
        return left() or right()
    return not left() or right() if word == "->" else left() == right()


def looped(state, may_run, body):
    """The states behind some rounds of a loop."""
    found = layer = [state]
    for _ in range(ROUNDS):
        layer = unique([end for one in layer if may_run(one) for end in body(one)])
        found = unique(found + layer)
    return found


def evolved(state, is_inside, slopes):
    """The states on the way of equations."""
    found = []
    for _ in range(STEPS):
        if not is_inside(state):
            break
        found.append(state)
        state = state | {name: state[name] + slope / 2 for name, slope in slopes(state)}
    return found


def ends_of(tree, state, local):
    """The states in which a program may end."""
    word = tree[0]
    if word == "call":
        return ends_of(tree[1].body, state, {})
    if word == ":=":
        return [state | {tree[1]: term_value(tree[2], state, local)}]
    if word == ":=*":
        return [state | {tree[1]: value} for value in DOMAIN]
    if word == "?":
        return [state] if is_true(tree[1], state, local) else []
    if word == "loop":
        return looped(state, lambda one: tree[2] is None or is_true(tree[2], one, local), lambda one: ends_of(tree[1], one, local))
    if word == "ode":
        return evolved(state, lambda one: tree[2] is None or is_true(tree[2], one, local),
                       lambda one: [(name, term_value(value, one, local)) for name, value in tree[1]])
    if word == "if":
        if is_true(tree[1], state, local):
            return ends_of(tree[2], state, local)
        return ends_of(tree[3], state, local) if tree[3] else [state]
    if word == ";":
        return unique([end for middle in ends_of(tree[1], state, local) for end in ends_of(tree[2], middle, local)])
    return unique(ends_of(tree[1], state, local) + ends_of(tree[2], state, local))


def unique(states):
    """States, each of them once."""
    return list({tuple(sorted(state.items())): state for state in states}.values())


# Meaning of the reader's trees: no definitions any more

MARKS = {"add": "+", "sub": "-", "mul": "*", "div": "/", "pow": "^", "and": "&", "or": "|", "imply": "->", "equiv": "<->"}


def model_value(tree, state):
    """The value of a term of a model."""
    if tree.word == "num":
        return Fraction(tree.detail)
    if tree.word == "var" or tree.word == "app" and not tree.kids:
        return state[tree.detail]
    if tree.word == "neg":
        return -model_value(tree.kids[0], state)
    return computed(MARKS[tree.word], *(model_value(kid, state) for kid in tree.kids))


def model_is_true(tree, state):
    """Whether a formula of a model is true."""
    word, kids = tree.word, tree.kids
    if word in BY_WORD:
        return BY_WORD[word](*(model_value(kid, state) for kid in kids))
    if word in ("true", "false"):
        return word == "true"
    if word == "not":
        return not model_is_true(kids[0], state)
    if word in ("forall", "exists"):
        return (all if word == "forall" else any)(model_is_true(kids[0], state | {tree.detail: value}) for value in DOMAIN)
    if word in ("box", "dia"):
        return (all if word == "box" else any)(model_is_true(kids[1], end) for end in model_ends(kids[0], state))
    return connected(MARKS[word], lambda: model_is_true(kids[0], state), lambda: model_is_true(kids[1], state))


def model_ends(tree, state):
    """The states in which a program of a model may end."""
    word, kids = tree.word, tree.kids
    if word == "assign":
        return [state | {tree.detail: model_value(kids[0], state)}]
    if word == "any":
        return [state | {tree.detail: value} for value in DOMAIN]
    if word == "test":
        return [state] if model_is_true(kids[0], state) else []
    if word == "seq":
        return unique([end for middle in model_ends(kids[0], state) for end in model_ends(kids[1], middle)])
    if word == "loop":
        return looped(state, lambda one: all(model_is_true(note, one) for note in tree.notes), lambda one: model_ends(kids[0], one))
    if word == "system":
        names = [item[:-1] for item in tree.detail.split(",")]
        return evolved(state, lambda one: model_is_true(kids[-1], one), lambda one: [(name, model_value(kid, one)) for name, kid in zip(names, kids)])
    assert word == "choice", word
    return unique(model_ends(kids[0], state) + model_ends(kids[1], state))


# Whole archives

def made(rng: random.Random) -> tuple[str, tuple]:
    """A random archive: its text, and the tree of its problem."""
    maker, writer, lines = Maker(rng), Writer(rng), []
    for number in range(rng.randint(1, 4)):
        kind = rng.choice(["Real", "Bool", "Bool", "Bool", "HP"])
        arguments = tuple(rng.sample([*VARIABLES, *EXTRA, "A", "u"], rng.randint(0, 2))) if kind != "HP" else ()
        maker.arguments = arguments
        body = {"Real": maker.term, "Bool": maker.formula, "HP": maker.program}[kind](2)
        one = Definition(kind, f"{ {'Real': 'f', 'Bool': 'p', 'HP': 'h'}[kind] }{number}", arguments, body)
        writer.may_bracket = "A" not in arguments
        has_brackets = arguments or kind != "HP" and rng.random() < .5
        head = f"{kind} {one.name}" + (f"({', '.join('Real ' + name for name in arguments)})" if has_brackets else "")
        says: dict[str, Callable[[], str]] = {"Real": lambda: f"= {writer.term(body)}", "Bool": lambda: f"<-> {writer.formula(body)}",
                                              "HP": lambda: f"::= {{ {writer.program(body)} }}"}
        lines.append(f"  {head} {says[kind]()};")
        maker.known.append(one)
    rng.shuffle(lines)
    maker.arguments, writer.may_bracket = (), True
    problem = maker.formula(3)
    said = "\n".join(lines)
    text = (f'ArchiveEntry "random"\nDefinitions\n  Real A, B;\n{said}\nEnd.\nProgramVariables\n  Real x, y; Real z; Real w;\nEnd.\n'
            f"Problem\n  {writer.formula(problem)}\nEnd.\nEnd.\n")
    return text, problem


def states(rng: random.Random) -> Iterator[dict[str, Fraction]]:
    """Some states."""
    values = [*DOMAIN, Fraction(1), Fraction(-5, 2), Fraction(2)]
    for _ in range(6):
        yield {name: rng.choice(values) for name in VARIABLES + EXTRA + CONSTANTS}
