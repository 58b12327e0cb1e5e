"""Tests of what the tools share."""

import os
import re
import unittest

import helping  # noqa: F401  (the path to the tools)
from dlkt import calculus
from dlkt import program as proving
from helping import Case, ROOT


class Positions(unittest.TestCase):
    def test_line_column_and_caret(self):
        place = proving.position(b"implyR(1);\n\tandR(1)\n", 12)
        self.assertEqual((place.line, place.column, place.source, place.caret), (2, 2, "\tandR(1)", "\t^"))

    def test_letters_count_once(self):
        place = proving.position("/* \u00fc */ foo".encode(), 9)
        self.assertEqual((place.line, place.column, place.source[place.column - 1 :]), (1, 9, "foo"))

    def test_the_end_and_behind_it(self):
        self.assertEqual(proving.position(b"(nil", 4)[2:4], (1, 5))
        self.assertEqual(proving.position(b"a\n", 99)[2:4], (2, 1))
        self.assertEqual(proving.position(b"", 0)[2:4], (1, 1))

    def test_line_ends_of_windows(self):
        self.assertEqual(proving.position(b"a;\r\nb\r\n", 4)[2:5], (2, 1, "b"))


class Sequents(unittest.TestCase):
    def test_commas_within_brackets(self):
        left, right = proving.split_sequent("f(x,y)>=0, [{x'=v,v'=1}]x>0 ==> <x:=1;>x>0, y>0")
        self.assertEqual(left, ["f(x,y)>=0", "[{x'=v,v'=1}]x>0"])
        self.assertEqual(right, ["<x:=1;>x>0", "y>0"])

    def test_empty_sides(self):
        self.assertEqual(proving.split_sequent(" ==> x>0"), ([], ["x>0"]))
        self.assertEqual(proving.split_sequent("x>0 ==>"), (["x>0"], []))
        self.assertIsNone(proving.split_sequent("x>0"))

    def test_places(self):
        self.assertEqual(proving.numbered("a>0, b>0 ==> c>0"), ([(-1, "a>0"), (-2, "b>0")], [(1, "c>0")]))
        self.assertEqual(proving.shown("a>0 ==> c>0", ""), [" -1: a>0", "     ==>", "  1: c>0"])


class Refusals(unittest.TestCase):
    def test_those_that_name_a_byte(self):
        self.assertEqual(proving.refusal_in("refused: fails at 11: NoMatch\n"), ("fails", 11, "NoMatch"))
        self.assertEqual(proving.refusal_in("refused: budget at 2\n"), ("budget", 2, ""))
        self.assertEqual(proving.refusal_in("refused: model at 7: syntax\n"), ("model", 7, "syntax"))
        self.assertIsNone(proving.refusal_in("refused: model: size 70000\n"))


class Files(Case):
    def test_one_file_by_many_names(self):
        name = self.file("model", "x>=0")
        os.symlink(name, self.folder / "link")
        os.link(name, self.folder / "hard")
        (self.folder / "folder").mkdir()
        for other in ("link", "hard", "folder/../model", "./model"):
            self.assertTrue(proving.are_same_file(name, self.folder / other), other)
        self.assertFalse(proving.are_same_file(name, self.file("other", "x>=0")))
        self.assertTrue(proving.are_same_file(self.folder / "none", self.folder / "folder" / ".." / "none"))


class Names(unittest.TestCase):
    """The names of the calculus are those of the documents."""

    def test_axioms(self):
        text = (ROOT / "docs" / "CALCULUS.md").read_text(encoding="utf-8")
        self.assertEqual(dict(re.findall(r"^\| `(\w+)` \| ([EQCRIF]) \|", text, re.MULTILINE)), calculus.AXIOMS)

    def test_rules(self):
        text = (ROOT / "docs" / "FILES.md").read_text(encoding="utf-8")
        table = text.partition("| Arguments | Rules |")[2].partition("\n\n")[0]
        self.assertEqual(set(re.findall(r"`(\w+)\(", table)), set(calculus.PREMISES))

    def test_words(self):
        text = (ROOT / "docs" / "STRATEGIES.md").read_text(encoding="utf-8")
        library = text.partition("| Name | Stands for |")[2].partition("\n\n")[0]
        self.assertEqual(set(re.findall(r"^\| `(\w+)", library, re.MULTILINE)), set(calculus.LIBRARY))
        steps = re.search(r"\| `step\(P\)` \| (.*)", library)[1]
        self.assertEqual(re.findall(r"useAt\((\w+),", steps), calculus.STEPS)
        connectives = re.search(r"\| `prop` \| (.*)", library)[1]
        self.assertEqual([word for word in re.findall(r"[a-z]\w+", connectives) if word in calculus.PREMISES], calculus.CONNECTIVES)


if __name__ == "__main__":
    unittest.main()
