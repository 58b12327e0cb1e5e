"""Tests of sketches: each word, where it may stand, lemmas that are linked, and what is refused."""

import subprocess
import sys
import unittest
from pathlib import Path

from helping import ROOT, Case
from searching import SearchCase, needs_search

from dlkt import strategies
from dlkt.program import program_of
from dlkt.search.finding import Options, expand_line
from dlkt.search.sketches import arguments_fit, is_sketch, runs_once

FALL = "x>=0 & v>=0 & a>=0 -> [{x'=v,v'=a}]x>=0\n"
WORDS = {
    "auto": (FALL, "auto"),
    "auto behind words": (FALL, "implyR(1); andL('L)*2; auto"),
    "auto with formulas": (FALL, "implyR(1); auto(\"a>=0\",\"v>=0\")"),
    "auto for each part": ("x>=0 -> [x:=x+1; ++ {x'=1}]x>=0\n", "implyR(1); step(1); andR(1); <(auto, auto)"),
    "auto for goals that want different words": ("x>=0 & y=1 -> x>=0 & x+y>=1\n", "implyR(1); andL('L); andR(1); auto"),
    "freeze and dIc": ("x>=0 & a>=0 -> [{x'=a}]x>=0\n", "implyR(1); andL(-1); freeze(a,1); dC(\"a>=0\",1); <(dIc(1), dIc(1))"),
    "dIc": ("x^2+y^2=1 -> [{x'=y,y'=-x}]x^2+y^2=1\n", "implyR(1); dIc(1)"),
    "dbx": ("x>=0 -> [{x'=-2*x}]x>=0\n", "implyR(1); dbx(\"-2\",1)"),
    "dbx of a strict bound": ("x>0 -> [{x'=x^2}]x>0\n", "implyR(1); dbx(\"x\",1)"),
    "ghost": ("x>0 -> [{x'=-x}]x>0\n", "implyR(1); ghost(w,\"1/2\",\"0\",\"1\",1); dC(\"x*w*w>0\",1); <(dW(1); leaf, dIc(1))"),
    "solve": ("x=0 & v=2 & t=0 -> [{x'=v,t'=1}]x=2*t\n", "implyR(1); andL('L)*2; solve(1)"),
}


@needs_search
class Words(SearchCase):
    """Each word becomes plain ones, which are verified."""

    def test_each_word(self):
        for what, (model, sketch) in WORDS.items():
            with self.subTest(what):
                run = self.tool("auto", self.file("model", model), "--sketch", self.file("sketch", sketch))
                self.assertEqual(run.returncode, 0, run.stderr)
                self.assertFalse(is_sketch(run.stdout))
                self.assert_verified(model, run.stdout)

    def test_verify_takes_a_sketch(self):
        run = self.tool("verify", self.file("model", FALL), self.file("sketch", "implyR(1); auto\n"))
        self.assertEqual(run.returncode, 0, run.stdout + run.stderr)

    def test_what_stands_round_a_word_is_kept(self):
        run = self.tool("auto", self.file("model", FALL), "--sketch", self.file("sketch", "/* mine */ implyR(1); /* then */ auto"))
        self.assertIn("/* mine */ implyR(1); /* then */ ", run.stdout)


@needs_search
class Lemmas(SearchCase):
    """Proofs from other folders."""

    def test_a_lemma_is_linked(self):
        lemma = ROOT / "examples" / "lemmas" / "stopping"
        model = ROOT / "examples" / "lemmas" / "red_light" / "model"
        term = self.folder / "term"
        sketch = self.file("sketch", f'implyR(1); step(1)*2; lemma("{lemma}","B()~>B()")')
        run = self.tool("auto", model, "--sketch", sketch, "--term", term)
        self.assertEqual(run.returncode, 0, run.stderr)
        self.assertIn("coHideR(2)", run.stdout)
        self.assertEqual(self.tool("verify", model, term).returncode, 0)
        self.assertEqual(self.tool("verify", model, sketch).returncode, 0)

    def test_a_lemma_is_instantiated(self):
        lemma = self.folder / "lemma"
        lemma.mkdir()
        (lemma / "model").write_text("f()>0 -> [{x'=f()}]f()>0\n")
        (lemma / "strategy").write_text("implyR(1); useAt(V,1); close\n")
        model = self.file("model", "c()*2>0 -> [{x'=c()*2}]c()*2>0\n")
        sketch = self.file("sketch", 'implyR(1); lemma("lemma","f()~>c()*2")')
        run = self.tool("verify", model, sketch)
        self.assertEqual(run.returncode, 0, run.stdout + run.stderr)

    def test_a_lemma_that_is_none(self):
        for words, said in (('lemma("nowhere")', "there is no file model"), ('lemma("open")', "isn't proved"), ('lemma("good","f(~>1")', "good")):
            for name, strategy in (("open", "nil"), ("good", "implyR(1); close")):
                (self.folder / name).mkdir(exist_ok=True)
                (self.folder / name / "model").write_text("x>0 -> x>0\n")
                (self.folder / name / "strategy").write_text(strategy)
            run = self.tool("auto", self.file("model", FALL), "--sketch", self.file("sketch", words))
            self.assertEqual((run.returncode, run.stdout), (2, ""))
            self.assertIn(said, run.stderr)


@needs_search
class Refused(SearchCase):
    """What can't be turned is told in one line, with its place."""

    def refusal(self, sketch, model=FALL):
        """The line by which a sketch is refused."""
        run = self.tool("auto", self.file("model", model), "--sketch", self.file("sketch", sketch))
        self.assertEqual((run.returncode, run.stdout), (2, ""))
        return run.stderr.strip().split("\n")[-1]

    def test_lines(self):
        for sketch, said in (
            ("implyR(1); auto(", "1:17: the sketch can't be read here"),
            ("implyR(1);\n  dIc()", "2:7: the sketch can't be read here"),
            ("implyR(1); dIc(1,2)", "1:12: dIc: the word takes other arguments"),
            ("dIc(1)", "1:1: dIc: the right side is no box with a system"),
            ("implyR(1); dIc(-1)", "place 1 alone"),
            ("implyR(1); (auto)*3", "can't stand in a repeat"),
            ("implyR(1); freeze(x,1)", "an equation changes x"),
            ("implyR(1); ghost(v,\"1\",\"0\",\"1\",1)", "the name v stands in the goal already"),
            ("implyR(1); auto(\"x>=\")", "can't be read at byte"),
            ("implyL(1); auto", "fails"),
        ):
            with self.subTest(sketch):
                self.assertIn(said, self.refusal(sketch))

    def test_a_word_in_brackets_that_several_goals_meet(self):
        said = self.refusal("implyR(1); andL('L); andR(1); (auto)", "x>=0 & y=1 -> x>=0 & x+y>=1\n")
        self.assertIn("write a branch", said)


class Parts(Case):
    """How sketches are read."""

    def test_what_is_a_sketch(self):
        self.assertTrue(is_sketch("implyR(1); auto"))
        self.assertTrue(is_sketch("dC(\"x>0\",1); <(auto, dIc(1))"))
        self.assertFalse(is_sketch("implyR(1); close /* auto */"))
        self.assertFalse(is_sketch("cut(\"auto()=1\")"))
        self.assertFalse(is_sketch("auto("))

    def test_arguments(self):
        for word, fits in (("auto", True), ('auto("x>0","y>0")', True), ("auto(1)", False), ("freeze(u,w,1)", True), ("freeze(1)", False),
                           ('lemma("a")', True), ('lemma("a","b","c")', True), ("lemma(1)", False), ("solve(1)", True), ("solve", False)):
            self.assertEqual(arguments_fit(strategies.read(word)), fits, word)

    def test_where_a_word_runs_once(self):
        for sketch, once in (("close; auto", True), ("close; (leaf; auto)", False), ("auto", False), ("close; <(leaf; auto, nil)", True)):
            tree = strategies.read(sketch)
            atom = next(one for one in strategies.atoms(tree) if one.name == "auto")
            self.assertEqual(runs_once(strategies.way_to(tree, atom.begin)), once, sketch)


@needs_search
class Lines(SearchCase):
    """Lines of a prompt, for one goal."""

    def test_the_prompt_takes_the_words_of_sketches(self):
        words = [sys.executable, "-m", "dlkt", "prompt", self.file("model", FALL)]
        run = subprocess.run(words, input="implyR(1)\nauto\nquit\n", capture_output=True, text=True, check=False, env=self.environment())
        self.assertEqual(run.returncode, 0, run.stderr)
        self.assertIn("closed", run.stdout)

    def test_a_line_for_a_goal(self):
        said = expand_line("x>=0, v>=0 ==> [{x'=v,v'=1}]x>=0", "auto", Options(program=program_of(), folder=Path()))
        self.assertIn("dI(1)", said)


if __name__ == "__main__":
    unittest.main()
