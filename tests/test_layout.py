"""Tests of the layout of formulas, programs and sequents, on all models of this checkout and on random trees."""

import random
import unittest
from pathlib import Path

from helping import ROOT

from dlkt import reader, strategies
from dlkt.layout import comments_in, laid_out, laid_out_sequent, laid_out_strategy
from dlkt.reader import Note
from dlkt.trees import FORMULA, PROGRAM, TERM, Trees, sequent_text, text

STRATEGIES = sorted(ROOT.glob("examples/**/strategy"))
MODELS = sorted([*ROOT.glob("examples/**/model"), *(file for file in ROOT.glob("examples/models/*") if file.is_file())])
CAR = """\
  0 <= v & v <= M() & B() > 0 & ep() > 0 & v*v <= 2*B()*(S()-x)
->
  [
    {
      {
         ?2*B()*(S()-x-M()*ep()) >= M()*M(); a := *;
      ++ a := -B();
      }
      t := 0;
      {x' = v, v' = a, t' = 1 & 0 <= v & v <= M() & t <= ep()}
    }*@invariant(v*v <= 2*B()*(S()-x))
  ] x <= S()"""
LEAVES = {
    TERM: (
        ("app", "a_constant_with_a_long_name"), ("var", "x"), ("var", "speed"), ("var", "x'"), ("num", "0"), ("num", "12.5"), ("ufun", "f"),
        ("ufun", "f|y|"), ("app", "g"), ("dot", "3"),
    ),
    FORMULA: (("true", ""), ("false", ""), ("holds", "long_name_of_a_predicate"), ("upred", "p"), ("upred", "p|y|"), ("holds", "q"), ("hole", "")),
    PROGRAM: (("const", "a"), ("any", "x"), ("any", "speed")),
}
INNER = {
    TERM: ("app", "neg", "diff", "add", "sub", "mul", "div", "pow"),
    FORMULA: ("eq", "ne", "ge", "gt", "le", "lt", "quant", "holds", "not", "difff", "forall", "exists", "and", "or", "imply", "equiv", "box", "dia"),
    PROGRAM: ("assign", "test", "system", "choice", "seq", "loop", "choice", "seq"),
}


class Grown:
    """Random trees, and annotations at some of their programs, in the order in which their ends stand."""

    def __init__(self, chance: random.Random, trees: Trees, notes_wanted: float) -> None:
        self.chance, self.trees, self.wanted, self.notes = chance, trees, notes_wanted, []

    def tree(self, sort, depth):
        """A tree of a sort, at most so deep."""
        if depth == 0 or self.chance.random() < 0.15:
            found = self.trees.make(*self.chance.choice(LEAVES[sort]))
        else:
            found = self.inner(self.chance.choice(INNER[sort]), depth - 1)
        while sort == PROGRAM and self.chance.random() < self.wanted:
            formulas = tuple(self.tree(FORMULA, min(depth, 2)) for _ in range(self.chance.randint(1, 3)))
            self.notes.append(Note(found, formulas))
        return found

    def inner(self, word, depth):
        """A tree with kids."""
        detail, sorts = "", {"app": [TERM], "holds": [TERM, TERM], "neg": [TERM], "diff": [TERM], "quant": [FORMULA], "not": [FORMULA]}.get(word)
        if word in ("difff", "forall", "exists"):
            sorts = [FORMULA]
        elif word in ("box", "dia"):
            sorts = [PROGRAM, FORMULA]
        elif word in ("and", "or", "imply", "equiv"):
            sorts = [FORMULA, FORMULA]
        elif word in ("choice", "seq"):
            sorts = [PROGRAM, PROGRAM]
        elif word == "system":
            detail = self.chance.choice(["x'", "x',y'", "c,x'", "c{|z|}", "alpha',beta',gamma',c"])
            sorts = [TERM] * detail.count("'") + [FORMULA]
        sorts = sorts or {"assign": [TERM], "test": [FORMULA], "loop": [PROGRAM]}.get(word) or [TERM, TERM]
        detail = detail or {"app": "g", "holds": "q", "quant": "C", "forall": "x", "exists": "speed", "assign": "x"}.get(word, "")
        return self.trees.make(word, detail, *(self.tree(sort, depth) for sort in sorts))


def read_back(said, sort, trees):
    """The tree of a text, and its annotations."""
    again = reader.Reader(said, trees, has_dots=True)
    part = {TERM: again.term, FORMULA: again.formula, PROGRAM: again.program}[sort]
    return again.whole(part), again.notes


class Models(unittest.TestCase):
    """The models of this checkout."""

    def test_each_reads_back_the_same(self):
        self.assertGreater(len(MODELS), 60)
        for file in MODELS:
            for width in (100, 40):
                with self.subTest(file=str(file.relative_to(ROOT)), width=width):
                    trees = Trees()
                    tree, notes = reader.model(file.read_text(encoding="utf-8"), trees)
                    said = laid_out(tree, notes, width)
                    again, others = reader.model(said, trees)
                    self.assertIs(again, tree)
                    self.assertEqual(others, notes)
                    self.assertEqual(laid_out(again, others, width), said)
                    if width == 100:
                        self.assertLessEqual(max(map(len, said.split("\n"))), width)
                    self.assertFalse([line for line in said.split("\n") if line != line.rstrip()])

    def test_the_car(self):
        trees = Trees()
        tree, notes = reader.model(Path(ROOT / "examples/tutorial/car/model").read_text(encoding="utf-8"), trees)
        self.assertEqual(laid_out(tree, notes), CAR)

    def test_annotations_are_those_of_the_tree(self):
        trees = Trees()
        tree, _ = reader.model("[{x:=1;}*]x>0", trees)
        with self.assertRaises(ValueError):
            laid_out(tree, [Note(trees.make("any", "x"), (trees.make("true"),))])


class RandomTrees(unittest.TestCase):
    """Random trees, with annotations at programs of every kind."""

    def grown(self, seed, notes_wanted):
        """A tree, its annotations, and where it was made."""
        chance, trees = random.Random(seed), Trees()
        one = Grown(chance, trees, notes_wanted)
        return one.tree(chance.choice([TERM, FORMULA, FORMULA, PROGRAM]), chance.randint(1, 7)), one.notes, trees

    def test_they_read_back_the_same(self):
        for seed in range(500):
            with self.subTest(seed=seed):
                tree, _, trees = self.grown(seed, 0)
                for width in (100, 30, 1):
                    again, _ = read_back(laid_out(tree, width=width), tree.sort, trees)
                    self.assertIs(again, tree)

    def test_with_their_annotations(self):
        annotated = 0
        for seed in range(1500):
            with self.subTest(seed=seed):
                tree, notes, trees = self.grown(seed, 0.25)
                annotated += bool(notes)
                again, others = read_back(laid_out(tree, notes, width=60), tree.sort, trees)
                self.assertIs(again, tree)
                self.assertEqual(others, notes)
        self.assertGreater(annotated, 250)

    def test_a_wide_sheet_has_one_line(self):
        for seed in range(200):
            tree, _, trees = self.grown(seed, 0)
            said = laid_out(tree, width=100_000)
            if "\n" in said:  # only a choice that is long is broken on any sheet
                self.assertIn("++", said)

    def test_deep_and_large_trees(self):
        trees = Trees()
        deep = trees.make("true")
        for _ in range(990):
            deep = trees.make("not", "", deep)
        self.assertIs(read_back(laid_out(deep), FORMULA, trees)[0], deep)
        loop = trees.make("any", "x")
        for _ in range(990):
            loop = trees.make("loop", "", loop)
        self.assertIs(read_back(laid_out(loop), PROGRAM, trees)[0], loop)
        wide = trees.make("gt", "", trees.make("var", "x"), trees.make("num", "1"))
        for _ in range(900):
            wide = trees.make("and", "", trees.make("gt", "", trees.make("var", "x"), trees.make("num", "1")), wide)
        self.assertIs(read_back(laid_out(wide), FORMULA, trees)[0], wide)


class Sequents(unittest.TestCase):
    """Lines of sequents."""

    def test_formulas_stand_behind_their_places(self):
        trees = Trees()
        left, right = reader.sequent("x>=0, y>0&z=1 ==> [x:=x+1;]x>=1", trees)
        self.assertEqual(
            laid_out_sequent(left, right, indent=""),
            [" -1: x >= 0", " -2: y > 0 & z = 1", "     ==>", "  1: [x := x+1;] x >= 1"],
        )

    def test_long_formulas_go_on_below(self):
        trees = Trees()
        car, _ = reader.model(CAR, trees)
        lines = laid_out_sequent([], [car])
        self.assertEqual(lines[:4], ["         ==>", "      1:   0 <= v & v <= M() & B() > 0 & ep() > 0 & v*v <= 2*B()*(S()-x)", "         ->", "           ["])
        said = "\n".join(line[9:] for line in lines)
        self.assertIs(reader.model(said.partition("==>")[2], trees)[0], car)
        self.assertEqual(sequent_text([], [car]), f"==> {text(car)}")


def bare(node):
    """A strategy without its bytes, and without brackets round an atom."""
    if isinstance(node, strategies.Atom):
        return node.name, tuple((argument.kind, argument.text) for argument in node.arguments)
    if isinstance(node, strategies.Repeat):
        return "repeat", bare(node.body), node.times
    if isinstance(node, strategies.Sequence) and len(node.parts) == 1:
        return bare(node.parts[0])
    return (type(node).__name__, *map(bare, node.parts))


def words_of(comments):
    """The words of comments."""
    return [" ".join(comment.lines).split() for comment in comments]


class Strategies(unittest.TestCase):
    """Strategies of this checkout, and random ones."""

    def check(self, source, width=100):
        """Lays a strategy out, and reads it back."""
        node = strategies.read(source)
        said = laid_out_strategy(node, source, width)
        self.assertEqual(bare(strategies.read(said)), bare(node))
        self.assertEqual(words_of(comments_in(said)), words_of(comments_in(source)))
        self.assertEqual(laid_out_strategy(strategies.read(said), said, width), said)
        return said

    def test_each_reads_back_the_same(self):
        self.assertGreater(len(STRATEGIES), 40)
        for file in STRATEGIES:
            for width in (100, 40):
                with self.subTest(file=str(file.relative_to(ROOT)), width=width):
                    self.check(file.read_text(encoding="latin-1"), width)

    def test_that_of_the_car_is_as_it_was_written(self):
        source = Path(ROOT / "examples/tutorial/car/strategy").read_text(encoding="latin-1")
        self.assertEqual(self.check(source), source.rstrip("\n"))

    def test_comments(self):
        source = '/* a */ implyR(1); /* b */\nstep(1) /* c */;\n /* d\n    e */\n<(leaf, /* f */\n cut("x>0 /* no */") /* g */) /* h */\n'
        self.assertEqual(
            self.check(source).split("\n"),
            ["/* a */", "implyR(1); /* b */", "step(1); <(", "  /* c */", "  /* d", "     e */", "  leaf, /* f */"]
            + ['  cut("x>0 /* no */")', "  /* g */", ") /* h */"],
        )

    def grown(self, chance, depth):
        """A random strategy's text."""
        kind = chance.choice(["atom", "sequence", "choice", "repeat", "branch", "brackets"]) if depth else "atom"
        if kind == "atom":
            return chance.choice(["nil", "close", "implyR(1)", "useAt(V, 1)", "cut(\"x>=0 & y>=0\")", "andL('L)", "rename(x, y, -1.0.1)", "dW(1)"])
        inside = [self.grown(chance, depth - 1) for _ in range(chance.randint(2, 4))]
        blank = chance.choice([" ", "\n", "  /* why */ ", "/* so\n  it is */\n"])
        if kind == "sequence":
            return f";{blank}".join(f"({part})" for part in inside)
        if kind == "choice":
            return f"({f')|{blank}('.join(inside)})"
        if kind == "repeat":
            return f"({inside[0]})*3*2"
        if kind == "branch":
            return f"({inside[0]});{blank}<({f',{blank}'.join(inside[1:])}); close"
        return f"(({inside[0]}))"

    def test_random_ones_read_back_the_same(self):
        for seed in range(400):
            with self.subTest(seed=seed):
                chance = random.Random(seed)
                self.check(self.grown(chance, chance.randint(1, 5)), chance.choice([30, 100]))


if __name__ == "__main__":
    unittest.main()
