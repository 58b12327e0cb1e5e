"""Tests of `dlkt print`: what is printed is read as the same, and has the comments of what was given."""

import random
import re
import unittest

from helping import PROGRAM, ROOT, Case, needs_program

from dlkt import reader
from dlkt.commands.print import Tokens, printed, printed_model
from dlkt.program import Refused, answer
from dlkt.trees import Trees

MODELS = sorted([*ROOT.glob("examples/**/model"), *(file for file in ROOT.glob("examples/models/*") if file.is_file())])
CAR = """\
/* A car stops before an obstacle at S(). Its speed is at most M(), and it
   brakes with B(). The controller runs at least every ep() seconds. */
  0 <= v & v <= M() & B() > 0 & ep() > 0 & v*v <= 2*B()*(S()-x)  /* it can still stop */
->
  [
    {
      {
         ?2*B()*(S()-x-M()*ep()) >= M()*M(); a := *;  /* far: any a will do */
      ++ a := -B();  /* else it brakes */
      }
      t := 0;
      {x' = v, v' = a, t' = 1 & 0 <= v & v <= M() & t <= ep()}
    }*@invariant(v*v <= 2*B()*(S()-x))
  ] x <= S()
"""


def words_of(text):
    """The words of the comments of a text, in the order of their spelling: a comment may move past another one."""
    return sorted(re.sub(r"^(//|/\*)|\*/$|\s+", " ", comment).split() for _, _, comment in Tokens(text).comments)


class Models(unittest.TestCase):
    def check(self, text, width=100):
        """Prints a model, and reads it back."""
        trees = Trees()
        said = printed(text, width)
        self.assertEqual(reader.model(said, trees), reader.model(text, trees))
        self.assertEqual(words_of(said), words_of(text))
        return said

    def test_each_is_the_same_again(self):
        for file in MODELS:
            for width in (100, 50):
                with self.subTest(file=str(file.relative_to(ROOT)), width=width):
                    said = self.check(file.read_text(encoding="latin-1"), width)
                    self.assertEqual(printed(said, width), said)

    def test_comments_anywhere(self):
        for seed, file in enumerate(MODELS):
            chance, text = random.Random(seed), file.read_text(encoding="latin-1")
            parts, at = [], 0
            while at < len(text):
                here = reader.TOKEN.match(text, at)
                parts.append(here[0])
                at += len(here[0])
                if chance.random() < 0.1:
                    parts.append(chance.choice([" /* one */ ", "\n /* two\n  lines */\n", " // to the end\n", " /* behind */\n", "\n// line\n"]))
            with self.subTest(file=str(file.relative_to(ROOT))):
                self.check("".join(parts), chance.choice([100, 40]))

    def test_a_domain_that_is_left_out(self):
        said = self.check("[{x'=1 & /* all */ true} /* a */ {y'=2&true}](x>0 /* b */ & /* c */ true)")
        self.assertIn("[{x' = 1}", said)

    def test_a_program_and_a_term(self):
        self.assertEqual(printed("x:=1;{y:=2;}*@invariant(y>0)", 100), "x := 1; {y := 2;}*@invariant(y > 0)")
        self.assertEqual(printed(" (x) + (1)", 100), "x+1")
        self.assertEqual(printed_model("x:=1;++/* c */y:=2;", 5), "   x := 1;\n++ y := 2;".replace("++ y := 2;", "/* c */\n++ y := 2;"))


class Command(Case):
    def test_the_car(self):
        said = self.tool("print", ROOT / "examples/tutorial/car/model")
        self.assertEqual((said.returncode, said.stdout, said.stderr), (0, CAR, ""))
        strategy = ROOT / "examples/tutorial/car/strategy"
        self.assertEqual(self.tool("print", strategy).stdout, strategy.read_text())
        narrow = self.tool("print", "--width", "40", ROOT / "examples/tutorial/car/model").stdout
        self.assertIn("\n  0 <= v & v <= M() & B() > 0 & ep() > 0\n  /* it can still stop */\n  & v*v <= 2*B()*(S()-x)\n->", narrow)

    def test_letters_stay_as_they_are(self):
        said = self.tool("print", self.file("model", "/* \u00e4\u2265 */ x>=0"))
        self.assertEqual(said.stdout, "/* \u00e4\u2265 */\nx >= 0\n")

    def test_what_is_refused(self):
        for text, place in (("x>=0 &\n & y>0\n", "2:2"), ("implyR(1);\n<(close,, leaf)\n", "2:9"), ("", "1:1"), ("x >= 0 # y", "1:8")):
            said = self.tool("print", self.file("it", text))
            self.assertEqual((said.returncode, said.stdout), (2, ""))
            self.assertEqual(said.stderr, f"dlkt print: {self.folder}/it:{place}: this is no model and no strategy from here on\n")
        self.assertEqual(self.tool("print", "/nowhere/model").returncode, 2)
        with self.assertRaises(Refused):
            printed("x>", 100)

    @needs_program
    def test_the_program_reads_it_as_the_same(self):
        for file in MODELS:
            laid = self.file("laid", self.tool("print", file).stdout)
            self.assertEqual(answer(PROGRAM, "print", laid), answer(PROGRAM, "print", file), file)


if __name__ == "__main__":
    unittest.main()
