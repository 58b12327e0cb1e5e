"""`dlkt refute`: runs that break models, exact ones and by numbers, and what is said where nothing is found."""

import json
import os
import random
import sys
import unittest
from fractions import Fraction
from pathlib import Path
from unittest import mock

from helping import Case, ROOT
from dlkt import reader, semantics
from dlkt.trees import Trees

TREES = Trees()
GALLERY = ROOT / "examples" / "gallery"
needs_z3 = unittest.skipUnless(semantics.is_there(), semantics.NEEDED)
needs_matplotlib = unittest.skipUnless(semantics.is_there() and __import__("importlib.util").util.find_spec("matplotlib"), "python3-matplotlib isn't there")
if semantics.is_there():
    from dlkt.semantics import exactly, numerically, refuting, runs
    from dlkt.semantics.apart import Apart
    from dlkt.semantics.paths import Clock
    from dlkt.semantics.runs import Kind, Status

BREAKS = "v<=M() & B()>0 -> [{x'=v,v'=B()}]v<=M()\n"
HOLDS = "v<=M() & B()>0 -> [{x'=v,v'=-B()}]v<=M()\n"


def model(text):
    """The tree of a model, and its annotations."""
    return reader.model(text, TREES)


def broken(name, old, new):
    """A model of the gallery with one place changed."""
    text = (GALLERY / name / "model").read_text()
    assert text.count(old) == 1, (name, old)
    return text.replace(old, new)


def found(text, seconds=30.0, rounds=3):
    """The answer of a search."""
    return refuting.refuted(model(text)[0], refuting.Settings(seconds, rounds))


@needs_z3
class Exactly(unittest.TestCase):
    """Runs whose numbers were put in."""

    def test_runs_of_broken_models(self):
        """Each is refuted exactly, in as many rounds as it needs."""
        for name, old, new, rounds in (
            ("time_stop", "(A()*ep()^2 + 2*ep()*v)", "(A()*ep()^2 + ep()*v)", 1),
            ("water_tank", "f <= (m() - x)/ep()", "f <= m() - x", 1),
            ("train", "?m >= mo;", "", 1),
            ("platoon", "v2' = a", "v2' = 2*a", 1),
            ("bouncing_ball", "v := -c()*v", "v := -2*c()*v", 2),
            ("straight_line", " & v() >= 0", "", 0),
            ("arrival", " & v() > 0", "", 0),
        ):
            answer = found(broken(name, old, new))
            self.assertEqual(answer.status, Status.REFUTED, name)
            self.assertEqual(answer.run.rounds, rounds, name)

    def test_a_run_can_be_followed(self):
        """Its numbers are fractions, each step does what its text says, and the comparison that fails does."""
        run = found(BREAKS).run
        self.assertTrue(run.is_exact)
        values = {name: amount.exact for name, amount in run.first.items()}
        self.assertLessEqual(values["v"], values["M()"])
        self.assertGreater(values["B()"], 0)
        flow = [step for step in run.steps if step.kind == Kind.FLOW][0]
        self.assertEqual(flow.values["v"].exact, values["v"] + values["B()"] * flow.duration.exact)
        self.assertGreater(flow.values["v"].exact, values["M()"])
        self.assertEqual(run.fails, "v<=M()")
        self.assertEqual(run.sides, [f"{flow.values['v'].exact} <= {values['M()']}"])

    def test_round_numbers_come_first(self):
        """1, 0, 2 and 1/2 before 7/8."""
        run = found(BREAKS).run
        numbers = [amount.exact for amount in run.first.values()] + [step.duration.exact for step in run.steps if step.duration]
        self.assertLessEqual({number.denominator for number in numbers}, {1, 2})
        self.assertLessEqual(max(map(abs, numbers)), 10)

    def test_the_shortest_run_comes_first(self):
        """A loop that breaks in the second round and in the third breaks in the second."""
        run = found("x=0 -> [{x:=x+1;}*]x<2").run
        self.assertEqual(run.rounds, 2)
        self.assertEqual([step.round for step in run.steps if step.kind == Kind.ROUND], [1, 2])

    def test_roots_are_told_as_near(self):
        """A run whose first value is no fraction."""
        run = found("x^2=2 & x>0 -> [y:=x;]y<1").run
        self.assertTrue(run.is_exact)
        self.assertIsNone(run.first["x"].exact)
        self.assertEqual(run.first["x"].text(), "~1.41421")

    def test_inner_formulas_and_choices(self):
        """What fails is told: a part of a conjunction, behind an inner assumption, below `\\forall`."""
        self.assertEqual(found("x>=0 -> [x:=x+1;](x>=1 & x>=2)").run.fails, "x>=2")
        run = found("[x:=*;](x>3 -> [y:=x;]y>4)").run
        self.assertIn(Kind.ASSUMED, [step.kind for step in run.steps])
        self.assertEqual(found("\\forall x (x>=0 -> [x:=x-1;]x>=0)").run.fails, "x>=0")
        self.assertTrue(found("x>=0 -> <{x'=1&x<=3}>x>=4").run.is_exact)

    def test_a_computed_run_is_refused_where_it_is_none(self):
        """A domain that is left for a moment between two numbers that are in it."""
        system = model("[{x'=v,v'=2&x>=0}]true")[0].kids[0]
        numbers = {"x": Fraction(1), "v": Fraction(-3)}  # 1-3t+t^2 is below 0 at 1
        with self.assertRaises(exactly.NoRun):
            exactly.flow_done(system, dict(numbers), Fraction(3))
        self.assertEqual(exactly.flow_done(system, dict(numbers), Fraction(1, 4)).values["x"].exact, Fraction(5, 16))

    def test_a_division_by_zero_is_zero(self):
        """As docs/SOUNDNESS.md has it."""
        self.assertEqual(found("[y:=1/x;]y*x=1").run.first["x"].exact, 0)


@needs_z3
class ByNumbers(unittest.TestCase):
    """Runs by simulation."""

    def test_what_isn_t_solved_is_simulated(self):
        """A circle that isn't kept: with its step width and its margin."""
        answer = found(broken("rotation", "{ x' = -y, y' = x }", "{ x' = -y, y' = 2*x }"))
        self.assertEqual(answer.status, Status.BY_NUMBERS)
        self.assertFalse(answer.run.is_exact)
        self.assertGreater(answer.run.accuracy.margin, 0)
        self.assertGreater(answer.run.accuracy.step, 0)

    def test_heavy_tails(self):
        """A barrier that breaks only where a() is above 256: such values are among the first ones, and then it is found to break."""
        rng = random.Random(1)
        drawn = [numerically.some_value(rng, False) for _ in range(400)]
        self.assertGreater(sum(value > 256 for value in drawn), 10)
        search = numerically.Numeric(model("x^3>=-1 & a()>=0 -> [{x'=(x-3)^4-a()}]x^3>=-1")[0], 0, Clock(300), 1)
        tried = search.climbed(search.shape, {"x": 0.0, "a()": 500.0}, lambda tried: True)
        self.assertGreater(tried.first["a()"], 256)
        self.assertLess(tried.simulation.end[0]["x"], -1)

    def test_what_is_verified_is_not_refuted(self):
        """Rounding, a growth to infinity, a decay, and a dropped variable break no model that is valid."""
        for text in (HOLDS, "x>0 -> [{x'=x^2}]x>0", "x>0 -> [{x'=-x}]x>0", "x>=0 -> [{x'=1,y'=-y}]x>=0", "v>=0 -> [{v'=-v^3}]v>=0",
                     "x^2+y^2=1 -> [{x'=-y,y'=x}]x^2+y^2=1", "x>0&y>0 -> [{x'=x-x*y,y'=x*y-y}](x>0&y>0)"):
            self.assertEqual(found(text, 1.5).status, Status.NOTHING, text)

    def test_an_unrolled_loop_breaks_no_diamond(self):
        """That no run of few rounds reaches a place says nothing of those of many."""
        self.assertEqual(found("x=0 -> <{x:=x+1;}*>x>=9", 2.0).status, Status.NOTHING)
        self.assertEqual(found("x=0 -> [{x:=x+1;}*]x<9", 2.0).status, Status.NOTHING)

    def test_a_search_ends_in_time(self):
        """Within a time that is a little more than was given."""
        import time
        begin = time.monotonic()
        found((GALLERY / "roundabout" / "model").read_text(), 2.0)
        self.assertLess(time.monotonic() - begin, 20)


@needs_z3
class Told(Case):
    """The command."""

    def test_the_table(self):
        """The three parts of a run: at first, rounds, what fails; the status says that it is refuted."""
        path = self.file("model", broken("time_stop", "(A()*ep()^2 + 2*ep()*v)", "(A()*ep()^2 + ep()*v)"))
        run = self.tool("refute", path, "--seconds", "90")
        self.assertEqual(run.returncode, 1, run.stderr)
        lines = run.stdout.split("\n")
        self.assertRegex(lines[0], r"^refuted, in [0-9.e+]+ s$")
        self.assertRegex(lines[1], r"^  at first v = ")
        self.assertRegex(run.stdout, r"\n  round 1  \?2\*B\(\)")
        self.assertRegex(run.stdout, r"\n  fails    x<=m\(\)   \(.* <= .*\)\n")
        self.assertRegex(run.stdout, r"\n  hint: the loop's body breaks @invariant\(v>=0&v\^2<=2\*B\(\)\*\(m\(\)-x\)\): with ")

    def test_nothing_found_says_nothing(self):
        """Status 0, and a line that says so."""
        run = self.tool("refute", self.file("model", HOLDS), "--seconds", "1")
        self.assertEqual(run.returncode, 0)
        self.assertIn("nothing found", run.stdout)
        self.assertIn("doesn't say that the model is valid", run.stdout)

    def test_by_numbers_is_another_status(self):
        """Status 3."""
        run = self.tool("refute", self.file("model", "x=1 -> [{x'=-x}]x>=1\n"))
        self.assertEqual(run.returncode, 3, run.stdout)
        self.assertRegex(run.stdout, r"^refuted by numbers, in .* s: simulated with steps of at most .*, and false by ")

    def test_json(self):
        """One object, with the run's numbers as fractions."""
        told = json.loads(self.tool("refute", self.file("model", BREAKS), "--json").stdout)
        self.assertEqual(told["status"], "refuted")
        self.assertTrue(told["run"]["exact"])
        self.assertEqual(Fraction(told["run"]["first"]["B()"]["exact"]), Fraction(told["run"]["first"]["B()"]["text"]))
        self.assertEqual(told["run"]["fails"], "v<=M()")
        self.assertTrue(told["run"]["lines"])

    def test_faults_are_one_line(self):
        """A text that is no model, no file, words that are none."""
        path = self.file("model", "x>=0 ->\n  [x:=;]x>=0\n")
        for words, says in (
            ([path], f"dlkt refute: {path}:2:7: the model doesn't go on here\n"),
            ([str(self.folder / "none")], f"dlkt refute: {self.folder / 'none'}: no such file or directory\n"),
            (["-"], "dlkt refute: standard input isn't taken: name a file\n"),
        ):
            run = self.tool("refute", *words)
            self.assertEqual((run.returncode, run.stderr), (2, says))
        for words in ([], [path, "--rounds", "x"], [path, "--seconds", "0"], [path, "--rounds", "21"]):
            self.assertEqual(self.tool("refute", *words).returncode, 2)

    def test_without_z3_one_line_says_what_is_missing(self):
        """The package is named."""
        with mock.patch.object(semantics, "is_there", lambda: False):
            run = self.tool("refute", self.file("model", HOLDS))
        self.assertEqual(run.returncode, 2)
        self.assertEqual(run.stderr, f"dlkt refute: {semantics.NEEDED}\n")

    @needs_matplotlib
    def test_a_plot(self):
        """It is drawn, drawn again over itself, and never over something else."""
        path, out = self.file("model", BREAKS), self.folder / "run.svg"
        self.assertEqual(self.tool("refute", path, "--plot", out).returncode, 1)
        first = out.read_bytes()
        self.assertTrue(first.startswith(b"<?xml"))
        self.assertEqual(self.tool("refute", path, "--plot", out).returncode, 1)
        other = Path(self.file("other.svg", "no plot\n"))
        for target, says in ((other, "holds something else than a plot"), (self.folder / "run.txt", "ends in .svg, .png or .pdf"), (path, "")):
            run = self.tool("refute", path, "--plot", target)
            self.assertEqual(run.returncode, 2)
            self.assertIn(says, run.stderr)
            self.assertEqual(run.stderr.count("\n"), 1)
        self.assertEqual(other.read_text(), "no plot\n")

    def test_the_search_apart(self):
        """A process of its own gives the same answer, and can be stopped."""
        with mock.patch.dict(os.environ, {"PYTHONPATH": str(ROOT / "src")}), Apart(self.file("model", BREAKS), 30) as search:
            told = search.answer(120)
            self.assertEqual(told["status"], "refuted")
        search = Apart(self.file("model", HOLDS), 60)
        self.assertIsNone(search.answer(0.05))
        search.stop()
        self.assertIsNotNone(search.process.returncode)
        with Apart(str(self.folder / "none"), 5) as search:
            self.assertEqual(search.answer(60)["status"], "not tried")


@needs_z3
class Invariants(unittest.TestCase):
    """Hints on annotations."""

    def hints(self, text, seconds=20.0):
        """The hints of a model."""
        return refuting.answered(*model(text), refuting.Settings(seconds)).hints

    def test_the_body_breaks_it(self):
        """From which state, and to which."""
        hints = self.hints("x>=0 -> [{x:=x+1;}*@invariant(x<=5)]x>=0")
        self.assertTrue(any(hint.startswith("the loop's body breaks @invariant(x<=5): with x = ") for hint in hints), hints)
        self.assertTrue(any("doesn't hold at first" in hint for hint in hints), hints)
        self.assertTrue(any("isn't enough for the postcondition" in hint for hint in hints), hints)

    def test_a_system_breaks_it(self):
        """An annotation of a system."""
        hints = self.hints("x>=1 -> [{x'=-1&x>=0}@invariant(x>=1)]x>=0")
        self.assertEqual([hint.split(": ")[0] for hint in hints], ["the system breaks @invariant(x>=1)"])

    def test_good_ones_have_none(self):
        """The annotations of the gallery that are decided exactly."""
        for name in ("time_stop", "platoon", "water_tank"):
            self.assertEqual(self.hints((GALLERY / name / "model").read_text(), 10.0), [], name)


@needs_z3
class Lines(unittest.TestCase):
    """The table of a run."""

    def test_amounts(self):
        """Fractions as they are where they are short, and `~` before what is rounded."""
        self.assertEqual(runs.Amount.of(Fraction(7, 8)).text(), "7/8")
        self.assertEqual(runs.Amount.of(Fraction(10**20 + 1, 3)).text(), "~3.33333e+19")
        self.assertEqual(runs.Amount(0.5).text(), "~0.5")
        self.assertEqual(runs.Amount.given(0.5).text(), "1/2")

    def test_a_round_without_steps_is_told(self):
        """A loop whose body does nothing that is told."""
        run = runs.Run(True, {}, [runs.Step(Kind.ROUND, "round 1", round=1)], "x>0", [], 1)
        self.assertEqual(runs.run_lines(run), ["  round 1", "  fails    x>0"])


if __name__ == "__main__":
    sys.setrecursionlimit(60_000)
    unittest.main()
