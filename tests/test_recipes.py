"""Tests of the strategies to copy: each recipe is verified, and says when to use it and what to replace."""

import shutil
import tempfile
import unittest
from concurrent.futures import ThreadPoolExecutor
from pathlib import Path

from helping import PROGRAM, ROOT, needs_program
from dlkt import solvers
from dlkt.commands.verify import last_line
from dlkt.program import CLOSED, Answer, printed_report
from dlkt.verdict import VERIFIED, Options, Proof, Source, verdict_on

RECIPES = sorted(model.parent for model in ROOT.glob("examples/recipes/*/model"))


def verdict(folder):
    """The verdict on a recipe."""
    model, strategy = (Source(str(folder / name), (folder / name).read_bytes()) for name in ("model", "strategy"))
    return verdict_on(model, strategy, Options(PROGRAM, jobs=2))


class Recipes(unittest.TestCase):
    def test_each_says_when_and_what(self):
        page = (ROOT / "examples" / "recipes" / "README.md").read_text()
        self.assertGreaterEqual(len(RECIPES), 5)
        for folder in RECIPES:
            head = (folder / "strategy").read_text().partition("*/")[0]
            self.assertIn("\n   When. ", head, folder)
            self.assertIn("\n   What to replace. ", head, folder)
            self.assertIn(f"| `{folder.name}` |", page)
            self.assertTrue((folder / "model").read_text().startswith("/* "), folder)

    @needs_program
    def test_each_is_verified_and_has_its_report(self):
        with ThreadPoolExecutor(4) as pool:
            for folder, found in zip(RECIPES, pool.map(verdict, RECIPES)):
                if solvers.there():
                    self.assertEqual(found.status, VERIFIED, f"{folder.name}: {last_line(found)}")
                self.assertEqual(found.hints, [], folder.name)
                self.assertGreater(len(found.leaves), 0, folder.name)
                self.assertIsInstance(found.found, Proof)
                kept = printed_report(Answer(CLOSED, (folder / "report").read_text(), ""))
                self.assertEqual(([leaf.text for leaf in found.leaves], found.found.lines), (kept.leaves, kept.lines), folder.name)


@needs_program
@unittest.skipUnless(shutil.which("z3") or shutil.which("cvc5"), "no solver is there")
class Copied(unittest.TestCase):
    """A recipe that is copied to another model, as its comment says."""

    def adapted(self, name, model, *pairs):
        """The verdict on another model by a recipe in which one text is replaced by another."""
        strategy = (ROOT / "examples" / "recipes" / name / "strategy").read_text()
        for old, new in pairs:
            self.assertIn(old, strategy)
            strategy = strategy.replace(old, new)
        with tempfile.TemporaryDirectory() as place:
            folder = Path(place)
            (folder / "model").write_text(model)
            (folder / "strategy").write_text(strategy)
            found = verdict(folder)
        self.assertEqual(found.status, VERIFIED, last_line(found))

    def test_a_ghost_for_another_decay(self):
        self.adapted("ghost_start", "h > 0 -> [{h' = -a()*h, q' = 1}]h > 0\n", ('"1/2*k()"', '"1/2*a()"'), ("(c-r())*y*y>0", "h*y*y>0"),
                     ("DEsys,1)*2", "DEsys,1)*3"), ("step(1)*2", "step(1)*3"))

    def test_a_darboux_bound_that_may_be_zero(self):
        self.adapted("darboux", "p >= 0 & f() >= 0 -> [{p' = p*q + f(), q' = -q}]p >= 0\n", ('"k()*b"', '"-q"'), ('"-1/2*k()*b"', '"1/2*q"'),
                     ("a*y>0", "p*y>=0"))

    def test_a_case_split_with_three_cases(self):
        self.adapted("case_split", (ROOT / "examples/recipes/case_split/model").read_text(),
                     ('cut("v()>=0 | v()<=0")', 'cut("v()>=0 | v()<=0 | v()=0")'),
                     ("    /* backwards */\n    dC", "    orL(-4); <(dC"),
                     ("      useAt(V,1); close\n    )\n  ),\n  hideR", "      useAt(V,1); close\n    ),"
                      ' cut("v()<=0"); <(dC("v()<=0",1); <(dI(1); <(close,'
                      " derive(1.1); useAt(DEsys,1)*2; dW(1); step(1)*2; leaf), useAt(V,1); close), hideR(1); leaf))\n  ),\n  hideR"))


if __name__ == "__main__":
    unittest.main()
