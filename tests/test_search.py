"""Tests of the search: models that each method proves, false ones, bad input, and that nothing is written over or left running."""

import os
import signal
import subprocess
import time
import unittest
from fractions import Fraction

from searching import SearchCase, needs_search

from dlkt.formulas import formula, polynomial, term_of, text
from dlkt.search.conserved import bounds_of_conserved, completed, conserved, null_space
from dlkt.search.interface import ways_of
from dlkt.search.points import Points
from dlkt.search.solutions import integral
from dlkt.search.writing import branch, comment, explained, seq

CIRCLE = "x^2+y^2=1 -> [{x'=y,y'=-x}]x^2+y^2=1\n"
SAMPLED = """x <= W() & T() > 0 & V() > 0 ->
  [{ {?x + V()*T() <= W(); v := V(); ++ v := 0;} t := 0; {x' = v, t' = 1 & t <= T()} }*@invariant(x <= W())]x <= W()
"""
PROVED = {
    "a differential invariant": CIRCLE,
    "cuts": "x>=0 & v>=0 & a>=0 -> [{x'=v,v'=a}]x>=0",
    "Darboux": "x>0 -> [{x'=-x}]x>0",
    "Darboux of an equation": "x^2=y -> [{x'=x,y'=2*y}]x^2=y",
    "no run": "x<0 -> [{x'=1&x>=0}]y=3",
    "the domain at first": "y=0 -> [{x'=1,y'=x&x>=0}]y>=0",
    "freezing": "x>=0 & a>=0 -> [{x'=a+1}]x>=0",
    "a solution": "x=0 & v=1 & t=0 -> [{x'=v,v'=-2,t'=1}]x=t-t^2",
    "conserved": "x=1 & y=0 -> [{x'=y,y'=-x}]x<=1",
    "a controller that looks every T() seconds": SAMPLED,
    "a loop without an annotation": "x>=0 & y>=0 -> [{x:=x+y;}*]x>=0",
    "a diamond": "x>=0 -> <{x'=1}>x>=5",
    "a box on the left": "[{x'=1}]x<=5 -> x<=4",
    "two bounds that need each other": "x>=0 & y>=0 & a()>0 & b()>0 -> [{x'=a()*y-x,y'=b()*x-y}](x>=0&y>=0)",
    "old(x)": "v>=0 -> [{x'=v,v'=1}@invariant(v>=0,x>=old(x))]v>=0",
    "several annotations": "x=1 & y=1 -> [{x:=x*y;y:=y+1;}*@invariant(x>=1,y>=1)]x>=1",
    "names of the tool's own ghosts": "y0>0 & z0=1 & t0=2 & x0=3 -> [{y0'=-y0}]y0>0",
}
FALSE = {
    "an annotation that doesn't hold at first": ("x=0 -> [{x:=x+1;}*@invariant(x>=1)]x>=0", "doesn't hold at first"),
    "arithmetic": ("x>0 -> [x:=x-1;]x>0", "x"),
}


@needs_search
class Found(SearchCase):
    """Models for which a strategy is found."""

    def test_what_each_method_finds_is_verified(self):
        for what, model in PROVED.items():
            with self.subTest(what):
                run = self.searched(model)
                self.assertEqual(run.returncode, 0, run.stderr)
                self.assert_verified(model, run.stdout)

    def test_the_same_input_gives_the_same_output(self):
        self.assertEqual(self.searched(SAMPLED).stdout, self.searched(SAMPLED).stdout)

    def test_the_strategy_is_written_where_it_is_wanted(self):
        output = self.folder / "found"
        run = self.searched(CIRCLE, "-o", output)
        self.assertEqual((run.returncode, run.stdout), (0, ""))
        first = output.read_text()
        self.assertTrue(first.startswith("/* found by dlkt auto */\n"))
        self.assertEqual(self.searched(CIRCLE, "-o", output).returncode, 0)  # what this command wrote may be written again
        self.assertEqual(output.read_text(), first)

    def test_explain_says_what_the_strategy_does(self):
        self.assertIn("the loop keeps", self.searched(SAMPLED, "--explain").stderr)

    def test_annotations_may_be_left_out(self):
        model = "x=0 -> [{x:=x+1;}*@invariant(x>=5)]x>=0"
        self.assertEqual(self.searched(model, "--annotations", "none").returncode, 0)

    def test_verify_searches_where_no_proof_is_named(self):
        run = self.tool("verify", self.file("model", CIRCLE))
        self.assertEqual(run.returncode, 0, run.stdout)
        self.assertTrue(run.stdout.strip().split("\n")[-1].startswith("verified: "))


@needs_search
class NotFound(SearchCase):
    """False models, and what is said of them."""

    def test_a_false_model_is_told_with_values(self):
        for what, (model, said) in FALSE.items():
            with self.subTest(what):
                run = self.searched(model, "--seconds", "10")
                self.assertEqual((run.returncode, run.stdout), (1, ""))
                self.assertIn(said, run.stderr)
                self.assertRegex(run.stderr, r"x ?= ?-?\d")

    def test_verify_says_that_a_run_breaks_the_model(self):
        run = self.tool("verify", self.file("model", "x>0 -> [x:=x-1;]x>0"))
        self.assertEqual(run.returncode, 5)
        self.assertEqual(run.stdout.splitlines()[0], "the model is false, by this run:")
        self.assertEqual(run.stdout.splitlines()[-1], "refuted: a run breaks the model")

    def test_a_partial_strategy_leaves_what_is_not_found(self):
        model = "x>=0 -> [x:=x+1; ++ x:=-1;]x>=0"
        run = self.searched(model, "--partial", "--seconds", "10")
        self.assertEqual(run.returncode, 1)
        self.assertIn("nil", run.stdout)
        self.assertIn("/* left: ", run.stdout)
        verdict = self.tool("verify", self.file("model", model), self.file("strategy", run.stdout))
        self.assertEqual(verdict.returncode, 1, verdict.stdout)

    def test_explain_says_why_methods_did_not_do(self):
        run = self.searched("x=0 -> [{x'=1,y'=x}]y<=x", "--explain", "--seconds", "8")
        self.assertEqual(run.returncode, 1)
        self.assertIn("differential cuts: ", run.stderr)


@needs_search
class BadInput(SearchCase):
    """Bad input comes to one clear line; nothing is written over, nothing is left running."""

    def refusal(self, *words):
        """The one line by which the command refuses."""
        run = self.tool("auto", *words)
        self.assertEqual((run.returncode, run.stdout), (2, ""))
        self.assertEqual(len(run.stderr.strip().split("\n")), 1, run.stderr)
        return run.stderr.strip()

    def solver_hangs(self):
        """Puts a solver there that never answers, so that the first question lasts for seconds on any machine."""
        script = self.solvers / "z3"
        script.unlink()
        script.write_text("#!/bin/sh\nexec /bin/sleep 1000.123\n")
        script.chmod(0o755)

    def test_a_model_that_can_not_be_read(self):
        self.assertRegex(self.refusal(self.file("model", "x>=0 -> [x:=]x>0")), r"model:1:\d+: .*can't be read here")
        self.assertIn("no such file", self.refusal(self.folder / "none"))
        self.assertIn("standard input isn't taken", self.refusal("-"))

    def test_no_solver_is_there(self):
        (self.solvers / "z3").unlink()
        self.assertIn("apt-get install z3", self.refusal(self.file("model", CIRCLE)))

    def test_a_solver_that_dies_is_asked_again_once(self):
        (self.solvers / "z3").unlink()
        count = self.folder / "count"
        script = self.solvers / "z3"
        script.write_text(f"#!/bin/sh\necho >> {count}\nexit 1\n")
        script.chmod(0o755)
        run = self.searched("x>0 -> x*x>=x/2-1", "--seconds", "5")
        self.assertEqual((run.returncode, run.stdout), (1, ""))
        self.assertIn("unknown to the solver", run.stderr)

    def test_a_solver_that_hangs_ends_with_the_search(self):
        self.solver_hangs()
        begin = time.time()
        run = self.searched(CIRCLE, "--seconds", "3")
        self.assertEqual(run.returncode, 1)
        self.assertLess(time.time() - begin, 80)
        self.assertEqual(subprocess.run(["/usr/bin/pgrep", "-f", "sleep 1000.123"], capture_output=True, check=False).returncode, 1)

    def test_a_name_of_the_tools_own_is_used_already(self):
        model = "y0>0 & z0=1 -> [{y0'=-y0}]y0>0"
        self.assert_verified(model, self.searched(model).stdout)

    def test_a_formula_at_a_limit_of_the_kernel(self):
        many = " & ".join(f"x{number}>=0" for number in range(300))
        run = self.searched(f"{many} -> [x0:=x0+1;]({many})", "--seconds", "30")
        self.assertIn(run.returncode, (0, 1))
        deep = "!" * 1200 + "x>0"
        self.assertIn("model", self.refusal(self.file("deep", deep)))

    def test_nothing_is_written_over(self):
        model, mine = self.file("model", CIRCLE), self.file("mine", "implyR(1); auto\n")
        self.assertIn("is an input", self.refusal(model, "-o", model))
        self.assertIn("holds something else", self.refusal(model, "-o", mine))
        self.assertEqual((self.folder / "mine").read_text(), "implyR(1); auto\n")
        self.assertEqual((self.folder / "model").read_text(), CIRCLE)

    def test_control_c_prints_what_was_found(self):
        self.solver_hangs()
        with self.started("auto", self.file("model", CIRCLE)) as process:
            first = process.stderr.readline()
            process.send_signal(signal.SIGINT)
            out, complaint = process.communicate(timeout=90)
        self.assertEqual(process.returncode, 130, first + complaint)
        self.assertIn("implyR(1)", out, first + complaint)

    def test_a_line_a_second_says_what_it_is_at(self):
        self.solver_hangs()
        self.assertRegex(self.searched(CIRCLE, "--seconds", "3").stderr, r"auto: \d+ s, \d+ questions: ")


class Parts(unittest.TestCase):
    """The mathematics in the methods."""

    def test_what_an_oscillator_conserves(self):
        field = {"x": formula("y=0").kids[0], "y": formula("-x=0").kids[0]}
        self.assertEqual([text(term) for term in conserved(field)], ["x^2+y^2"])

    def test_bounds_by_the_values_at_first(self):
        field = {"x": formula("y=0").kids[0], "y": formula("-x=0").kids[0]}
        found = bounds_of_conserved(field, [formula("x=2"), formula("y=0")], {"x", "y"})
        self.assertIn("x^2+y^2=4", map(text, found))

    def test_a_lyapunov_function_is_completed(self):
        field = {"s": formula("v-c()=0").kids[0], "v": formula("-k()*s-(v-c())=0").kids[0]}
        found = completed(field, [formula("(v-c())^2<=E()^2")])
        self.assertTrue(any("k()" in text(one) for one in found), [text(one) for one in found])

    def test_the_null_space(self):
        rows = [{0: Fraction(1), 1: Fraction(2)}, {1: Fraction(1), 2: Fraction(-1)}]
        for vector in null_space(rows, 3):
            for row in rows:
                self.assertEqual(sum(row.get(place, 0) * value for place, value in vector.items()), 0)

    def test_an_integral_has_the_slope_that_was_integrated(self):
        whole = polynomial(formula("v+a()=0").kids[0])
        self.assertEqual(text(term_of(integral(integral(whole)))), "0.5*##^2*a()+0.5*##^2*v")

    def test_the_ways_through_a_program(self):
        program = formula("[{?x>0;x:=x-1;++x:=0;}y:=x;]true").kids[0]
        self.assertEqual([text(way.values["y"]) for way in ways_of(program)], ["x-1", "0"])

    def test_points_answer_questions_that_are_false_there(self):
        points = Points()
        points.add({"x": "1", "y": "-2"})
        self.assertEqual(points.against([formula("x>0")], formula("y>=0"), ["x", "y"]), {"x": "1", "y": "-2"})
        self.assertIsNone(points.against([formula("x>1")], formula("y>=0"), ["x", "y"]))
        points.add({"x": "1.41.."})  # a root isn't exact
        self.assertEqual(len(points.points), 1)


class Writing(unittest.TestCase):
    """The texts of strategies."""

    def test_parts_and_branches(self):
        self.assertEqual(seq("a", "", None, "b", "<(c, d)"), "a; b; <(c, d)")
        self.assertEqual(branch("close", "leaf"), "<(close, leaf)")
        self.assertEqual(comment("a */ b"), "/* a * / b */")

    def test_words_of_an_explanation(self):
        said = explained('loop("x>=0",1); <(leaf, /* a round keeps it */ dC("v>=0",1); <(close, leaf), close)')
        self.assertEqual(said.split("\n"), ["the loop keeps x>=0", "  a round keeps it", "  along the system holds v>=0"])


if __name__ == "__main__":
    os.environ.setdefault("PYTHONDONTWRITEBYTECODE", "1")
    unittest.main()
