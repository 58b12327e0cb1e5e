"""Archives of KeYmaera X: what is read of them is compared with models by hand, and what can't be read is refused at its place."""

import importlib.util
import re
import subprocess
import unittest

import archive_cases
import helping
from dlkt import reader, strategies
from dlkt.trees import Trees, text

HAS_LARK = importlib.util.find_spec("lark") is not None
if HAS_LARK:
    from dlkt.archive import agreement, folders, tactics
    from dlkt.archive.models import models
    from dlkt.archive.read import SHARED
    from dlkt.archive.tree import Refused

SOUND = 'ArchiveEntry "sound"\nProgramVariables Real x; End.\nProblem x>0 -> x>0 End.\nEnd.\n'
WHOLE_FAULTS = ("no End", "an open comment", "a faulty tactic's end", "shared definitions too late")


def shape(tree, names=()):
    """A tree with numbers for quantified names, to compare it up to these."""
    count = 0

    def name(said, bound):
        bare = said.rstrip("'")
        return bound.get(bare, bare) + said[len(bare):]

    def of(tree, bound):
        nonlocal count
        if tree.word in ("forall", "exists"):
            count += 1
            return tree.word, f"#{count}", of(tree.kids[0], {**bound, tree.detail: f"#{count}"})
        detail = name(tree.detail, bound) if tree.word in ("var", "assign", "any") else tree.detail
        return (tree.word, detail, *(of(kid, bound) for kid in tree.kids))

    return of(tree, dict(names))


@unittest.skipUnless(HAS_LARK, "the package lark isn't installed")
class Models(helping.Case):
    """Archives with models by hand."""

    def compare(self, found, wanted):
        """What is read of an entry and what was written by hand: trees and annotations."""
        if wanted.strip() == "refused":
            self.assertIsNotNone(found.fault)
            return
        self.assertIsNone(found.fault, found.fault and (found.fault.place, found.fault.reason))
        trees = Trees()
        mine, my_notes = reader.model(found.model.text, trees)
        theirs, their_notes = reader.model(wanted, trees)
        self.assertEqual(shape(mine), shape(theirs), f"\nread: {text(mine)}\nhand: {text(theirs)}")
        self.assertEqual([list(map(shape, note.formulas)) for note in my_notes], [list(map(shape, note.formulas)) for note in their_notes])

    def test_they_are_read_as_by_hand(self):
        for pair in archive_cases.pairs():
            with self.subTest(pair.name):
                found = [one for one in models(pair.archive) if one.entry.kind != SHARED]
                self.assertEqual(len(found), len(pair.models))
                for one, wanted in zip(found, pair.models):
                    self.compare(one, wanted)

    @helping.needs_program
    def test_the_program_reads_what_is_written(self):
        for pair in archive_cases.pairs():
            for one in models(pair.archive):
                if one.model is None:
                    continue
                with self.subTest(pair.name):
                    name = self.file("model", folders.model_file(one.model, pair.name))
                    run = subprocess.run([helping.PROGRAM, "print", name], capture_output=True, text=True, check=False)
                    self.assertEqual((run.returncode, run.stdout.strip()), (0, text(reader.formula(one.model.text, Trees()))))

    @helping.needs_program
    def test_definitions_are_put_in_as_the_program_substitutes(self):
        same = 0
        for pair in archive_cases.pairs():
            for one in models(pair.archive):
                for compared in agreement.compared(one.model, helping.PROGRAM) if one.model else ():
                    self.assertIsNot(compared.same, False, (pair.name, compared))
                    same += compared.same is True
        self.assertGreater(same, 40)


@unittest.skipUnless(HAS_LARK, "the package lark isn't installed")
class Faults(helping.Case):
    """Faulty archives."""

    def said(self, archive):
        """What is said of the entries of an archive that aren't read."""
        try:
            return [(one.entry.name, one.fault) for one in models(archive) if one.fault]
        except Refused as fault:
            return [("", fault)]

    def test_each_is_refused_at_its_place(self):
        for fault in archive_cases.faults():
            with self.subTest(fault.name):
                found = [f"{why.place[0]}:{why.place[1]}: {(name + ': ') * (name == SHARED)}{why.reason}" for name, why in self.said(fault.archive)]
                self.assertEqual(found, [fault.said])

    def test_nothing_is_written_for_them_and_the_others_go_on(self):
        models(SOUND)  # the grammar is read once, before the processes of the command
        for fault in archive_cases.faults():
            is_whole = fault.name in WHOLE_FAULTS
            with self.subTest(fault.name):
                folder = self.folder / "made"
                name = self.file("a.kyx", fault.archive + SOUND * (not is_whole))
                run = self.tool("import", name, "-d", str(folder))
                self.assertIn(fault.said.partition(": ")[2].rpartition("SharedDefinitions: ")[2], run.stdout + run.stderr)
                made = sorted(path.name for path in folder.iterdir()) if folder.exists() else []
                self.assertEqual((run.returncode in (1, 2), made), (True, made if is_whole else ["sound"]))
                self.assertNotIn("a", made)
                subprocess.run(["rm", "-rf", str(folder)], check=True)


@unittest.skipUnless(HAS_LARK, "the package lark isn't installed")
class Tactics(helping.Case):
    """Tactics that are carried over: the goals that they leave, or that the search takes over."""

    def sketch(self, case):
        """The model and the sketch of a case."""
        archive = f'ArchiveEntry "a"\nProgramVariables Real x, y, v; End.\nProblem {case.formula} End.\nTactic "t" {case.tactic} End.\nEnd.\n'
        (found,) = models(archive)
        self.assertIsNone(found.fault)
        return found.model, tactics.sketch_of(found.model.tactics[0], found.model)[0]

    def goals(self, model, sketch):
        """The goals that a sketch without a search leaves."""
        words = self.file("model", model.text), self.file("strategy", sketch), str(self.folder / "term")
        run = subprocess.run([helping.PROGRAM, "prove", *words], capture_output=True, text=True, check=False)
        self.assertIn(run.returncode, (0, 1), f"{sketch}: {run.stdout}")
        return re.findall(r"^goal \d+ (.*)$", run.stdout, re.MULTILINE)

    @helping.needs_program
    def test_they_leave_the_goals_of_the_tactic(self):
        for case in archive_cases.translations():
            with self.subTest(case.tactic):
                model, sketch = self.sketch(case)
                if case.wanted.startswith("auto"):
                    hints = "auto(\"" in sketch
                    self.assertEqual(case.wanted, "auto" if sketch == "auto" else "auto behind hints" if hints else "auto behind", sketch)
                    self.assertFalse(folders.is_strategy(sketch))
                    continue
                found = self.goals(model, sketch)
                self.assertTrue(folders.is_strategy(sketch))
                if case.wanted != "*":
                    self.assertEqual(found, [goal.strip() for goal in case.wanted.split(";;") if goal.strip()], sketch)

    def test_a_laid_out_sketch_is_the_same(self):
        for case in archive_cases.translations():
            sketch = self.sketch(case)[1]
            self.assertEqual(*(folders.without_places(strategies.read(text)) for text in (sketch, folders.laid_out_sketch(sketch))))


if __name__ == "__main__":
    unittest.main()
