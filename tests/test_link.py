"""Tests of `link` and `trim` beside a plain reading of what they do, and of that reading."""

import json
import sys
import unittest

import helping
from dlkt import program as proving
import reference
from dlkt import terms
from helping import Case, PROGRAM, ROOT

sys.setrecursionlimit(60_000)

ROW = "x>=0 -> x>=0"
LEMMA = f"1 start ==> {ROW}\n2 apply 1 1 implyR(1)\n3 apply 2 1 close(1,1)\ndone\n"
SPLIT = f"1 start ==> ({ROW})&({ROW})\n2 apply 1 1 andR(1)\ndone\n"
LINKED = f"""1 start ==> ({ROW})&({ROW})
2 apply 1 1 andR(1)
3 start ==> {ROW}
4 apply 3 1 implyR(1)
5 apply 4 1 close(1,1)
6 merge 2 2 5
7 merge 6 1 5
done
"""
TWICE = f"""1 start ==> ({ROW})&({ROW})
2 apply 1 1 andR(1)
3 start ==> {ROW}
4 apply 3 1 implyR(1)
5 apply 4 1 close(1,1)
6 start ==> {ROW}
7 apply 6 1 implyR(1)
8 apply 7 1 close(1,1)
9 merge 2 1 5
10 merge 9 1 8
done
"""
TRIMMED = LINKED.replace("6 merge 2 2 5", "6 merge 2 1 5")
SPARE = f"""1 start ==> {ROW}
2 axiom K
3 apply 1 1 implyR(1)
4 subst 2 a;~>b;
5 apply 1 1 implyR(1)
6 apply 5 1 close(1,1)
done
"""


def steps_of(text):
    """The steps of a term."""
    return terms.read(text).steps


def full(steps):
    """The text of version 1 of steps."""
    return terms.in_version_1(terms.Term(1, steps, None))


def has(verb):
    """Whether the program has a command of this name."""
    return helping.is_built() and f" {verb} " in proving.answer(PROGRAM).complaint


class Reference(unittest.TestCase):
    def test_linked(self):
        self.assertEqual(full(reference.linked(steps_of(SPLIT), steps_of(LEMMA), [f"==> {ROW}"] * 2, f"==> {ROW}")), LINKED)

    def test_trimmed(self):
        self.assertEqual(full(reference.trimmed(steps_of(TWICE))), TRIMMED)
        self.assertEqual(full(reference.trimmed(steps_of(SPARE))), LEMMA)
        for text in (LEMMA, SPLIT, LINKED):
            self.assertEqual(full(reference.trimmed(steps_of(text))), text)

    def test_stored_terms(self):
        for path in sorted(ROOT.glob("bench/data/version_1/*/term"))[:2]:
            steps = steps_of(path.read_bytes())
            once = reference.trimmed(steps)
            self.assertLess(len(once), len(steps))
            self.assertEqual(full(reference.trimmed(once)), full(once))


@unittest.skipUnless(has("trim"), "the program has no `trim`")
class Program(Case):
    def answered(self, verb, model, *texts):
        """What a command answers to texts, and the file that it writes, or none."""
        out = self.folder / "out"
        out.unlink(missing_ok=True)
        files = [self.file(f"input{number}", text) for number, text in enumerate((model, *texts))]
        said = proving.answer(PROGRAM, verb, *files, out)
        return said.status, said.text, out.read_text(encoding="latin-1") if out.exists() else None

    def test_worked_ones(self):
        both = f"({ROW})&({ROW})"
        report = f"closed\nconclusion ==> {both}\ngoals 0\nleaves 0\nlines 7\n"
        self.assertEqual(self.answered("link", both, SPLIT, LEMMA), (0, report, reference.written(steps_of(LINKED))))
        self.assertEqual(self.answered("trim", both, TWICE), (0, report, reference.written(steps_of(TRIMMED))))
        self.assertEqual(self.answered("link", both, SPLIT, "1 start ==> x>=1\ndone\n"), (2, "refused: no-goal\n", None))

    def test_trimmed_as_read_here(self):
        for path in sorted([*ROOT.glob("bench/data/version_1/*/term"), *ROOT.glob("examples/**/term")]):
            model, wanted = path.with_name("model").read_bytes(), reference.trimmed(steps_of(path.read_bytes()))
            before = proving.answer(PROGRAM, "check", path.with_name("model"), path)
            status, text, made = self.answered("trim", model, path.read_bytes())
            self.assertEqual(made, reference.written(wanted), path)
            kept = before.text.replace(f"lines {proving.printed_report(before).lines}\n", f"lines {len(wanted)}\n")
            self.assertEqual((status, text), (before.status, kept), path)
            self.assertEqual(self.answered("trim", model, made)[2], made, path)

    def test_linked_as_read_here(self):
        lemmas = ROOT / "examples" / "lemmas"
        lemma = self.folder / "lemma"
        proving.answer(PROGRAM, "prove", lemmas / "stopping" / "model", lemmas / "stopping" / "strategy", lemma)
        conclusion = proving.report_of(PROGRAM, lemmas / "stopping" / "model", lemma)["conclusion"]
        for name in ("red_light", "reaction"):
            model, term = lemmas / name / "model", self.folder / name
            proving.answer(PROGRAM, "prove", model, lemmas / name / "strategy", term)
            goals = proving.report_of(PROGRAM, model, term)["goals"]
            wanted = reference.linked(steps_of(term.read_bytes()), steps_of(lemma.read_bytes()), goals, conclusion)
            status, text, made = self.answered("link", model.read_bytes(), term.read_bytes(), lemma.read_bytes())
            self.assertEqual((status, made), (0, reference.written(wanted)), name)
            self.assertEqual(text, proving.answer(PROGRAM, "check", model, self.file("made", made)).text)

    def test_refusals_in_their_order(self):
        bad, other = LEMMA.replace("implyR", "andR"), f"1 start ==> {ROW}\ndone\n"
        two = "1 start ==> true\n2 apply 1 1 cut(true)\ndone\n"
        for model, term, lemma, first in (
            ("x>=0 ->", SPLIT, bad, "refused: model at 7: syntax"),
            (ROW, bad, bad, "refused: line 2: WrongShape"),
            ("true", other, bad, "refused: other-conclusion 1"),
            (ROW, other, bad, "refused: lemma line 2: WrongShape"),
            (ROW, other, "dlk 2\nnode 2 true\n", "refused: lemma line 2: WrongNumber"),
            (ROW, LEMMA, LEMMA, "refused: no-goal"),
            (ROW, other, two, "refused: no-goal"),
        ):
            status, text, made = self.answered("link", model, term, lemma)
            self.assertEqual((status, text.split("\n")[0], made), (2, first, None))

    def test_a_lemma_with_goals(self):
        status, text, made = self.answered("link", ROW, f"1 start ==> {ROW}\ndone\n", f"1 start ==> {ROW}\ndone\n")
        self.assertEqual((status, text.split("\n")[0], terms.in_version_1(terms.read(made))), (
            1, "open", f"1 start ==> {ROW}\n2 start ==> {ROW}\n3 merge 1 1 2\ndone\n"))

    def test_too_many_goals(self):
        model = "&".join(["true"] * 256)
        steps = [f"start ==> {model}", *(f"apply {number} {number} andR(1)" for number in range(1, 256))]
        text = "".join(f"{number} {step}\n" for number, step in enumerate(steps, 1)) + "done\n"
        two = "1 start ==> true\n2 apply 1 1 cut(true)\n3 apply 2 2 hideR(1)\ndone\n"
        self.assertEqual(self.answered("link", model, text, two), (2, "refused: link: GoalsFull\n", None))

    def test_json_is_of_the_same_report(self):
        _, text, made = self.answered("trim", ROW, SPARE)
        told = json.loads(proving.answer(PROGRAM, "report", self.file("model", ROW), self.file("made", made)).text)
        self.assertEqual((told["lines"], text.split("\n")[0]), (3, told["status"]))


if __name__ == "__main__":
    unittest.main()
