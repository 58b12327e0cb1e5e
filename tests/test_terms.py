"""Tests of the reading of term files of both versions, of what is written of them, and of readable.py."""

import sys
import unittest
from pathlib import Path

import helping
from dlkt import program as proving
from dlkt import terms
from dlkt import reader as texts
from dlkt import trees
from helping import Case, PROGRAM, ROOT, needs_program

sys.setrecursionlimit(60_000)

FIRST = "1 start ==> x>=0 -> x>=0\n2 apply 1 1 implyR(1)\n3 apply 2 1 close(1,1)\ndone\n"
FIRST_BY_NODES = """dlk 2
node 1 var x
node 2 num 0
node 3 ge 1 2
node 4 imply 3 3
1 start ==> 4
2 apply 1 1 implyR(1)
3 apply 2 1 close(1,1)
done
"""
STORED = sorted([*ROOT.glob("bench/data/version_1/*/term"), *ROOT.glob("examples/**/term")])
REPORT_OF_FIRST = "closed\nconclusion ==> x>=0 -> x>=0\ngoals 0\nleaves 0\nlines 3\n"


def reads_version_2():
    """Whether the program that is tested reads files of version 2."""
    return helping.is_built() and proving.answer(PROGRAM, "convert").text != "" and "convert" in proving.answer(PROGRAM, "convert").complaint


needs_version_2 = unittest.skipUnless(reads_version_2(), "the program doesn't read files of version 2")

# The lines behind `dlk 2`, with the wrong one and why. N stands for nodes that are there before: 1 `x`, 2 `0`, 3 `x>=0`, 4 a program `a;`.
N = ["node 1 var x", "node 2 num 0", "node 3 ge 1 2", "node 4 const a"]
WRONG_NODES = (
    "node 5 true 1", "node 5 and 3", "node 5 and 3 3 3", "node 5 ge 3 3", "node 5 ge 1 5", "node 5 ge 1 0", "node 5 ge 1 01", "node 5 ge 2",
    "node 5 ge 1 2", "node 5 var true", "node 5 var x''", "node 5 var x'y", "node 5 var 1x", "node 5 dot 8", "node 5 dot 07", "node 5 dot",
    "node 5 num 1.50", "node 5 num 00", "node 5 num 1.", "node 5 num -1", "node 5 num .5", f"node 5 num {'1' * 39}", f"node 5 num 0.{'1' * 38}",
    "node 5 ufun f|", "node 5 ufun f||", "node 5 ufun f|y", "node 5 ufun f|y||", "node 5 quant C", "node 5 quant C 1", "node 5 hole 1",
    "node 5 assign x' 3", "node 5 assign x", "node 5 any x'", "node 5 any x 1", "node 5 const a;", "node 5 const a", "node 5 test 1",
    "node 5 system 3", "node 5 system  3", "node 5 system x' 3", "node 5 system x' 1", "node 5 system x',x' 1 1 3", "node 5 system c{|y| 3",
    "node 5 system c{|y|}", "node 5 system c, 3", "node 5 system x'y' 1 1 3", f"node 5 app f{' 1' * 9}", "node 5 app f 3", "node 5 holds p 4",
    "node 5 box 3 4", "node 5 box 4", "node 5 loop 3", "node 5 loop 4 ", "node 5  loop 4", " node 5 loop 4", "node 5 loop", "node 5 Loop 4",
    "node 5 nothing", "node 05 loop 4", "node 0 loop 4", "node 1000000000 loop 4", "node 5", "node 5 ", "node", "node 5 loop 4\r", "",
    "node 5 not #3", "node 5 difff 1", "node 5 diff 3", "node 5 forall x' 3", "node 5 forall 3", "node 5 not 3 # more", "node 5 exists x 1",
    "node 5 neg 3", "node 5 pow 1", "node 5 true\0", "node 5 true 3 ",
)
RIGHT_NODES = (
    "node 5 and 3 3", "node 5 app x", "node 5 app x 1", f"node 5 app f{' 1' * 8}", "node 5 holds x", "node 5 var x'", "node 5 dot 7", "node 5 num 1.05",
    f"node 5 num {'1' * 38}", f"node 5 num 0.{'1' * 37}", "node 5 ufun f", "node 5 ufun f|y|", "node 5 upred f", "node 5 quant C 3", "node 5 hole",
    "node 5 assign x' 1", "node 5 any x", "node 5 const term", "node 5 test 3", "node 5 system x' 1 3", "node 5 system c,x',d{|y|} 1 3",
    "node 5 system c,c 3", "node 5 loop 4", "node 5 box 4 3", "node 5 dia 4 3", "node 5 forall x 3", "node 5 not 3", "node 5 difff 3", "node 5 diff 1",
    "node 5 neg 2", "node 5 pow 1 2", "node 5 seq 4 4", "node 5 choice 4 4", "node 5 false", "node 5 var true_", "node 5 var node", "node 5 equiv 3 3",
)
WRONG_STEPS = (
    "1 start", "1 start ", "1 start  ==>", "1 start ==> ", "1 start 3 ==>3", "1 start 3==>", "1 start ==> 1", "1 start ==> 4", "1 start ==> 5",
    "1 start ==> 03", "1 start #3 ==>", "1 start 3 ==> , 3", "1 start x>=0 ==>", "01 start ==>", "1  start ==>", "1 Start ==>", "1 start ==>\r",
    "1 axiom", "1 axiom true", "1 axiom eqrefl ", "1 apply 1 1 cut(3)", "1 apply 1 1 cut(#03)", "1 apply 1 1 cut(#1)", "1 apply 1 1 cut(#9)",
    "1 apply 1 1 cut(#)", "1 apply 1 1 cut()", "1 apply 1 1 cut(x>=0)", "1 apply 1 1 cutL(#3)", "1 apply 1 1 cutR(1,3)", "1 apply 1 1 cutR(1, #3)",
    "1 apply 1 1 cut(#3) ", "1 apply 1 1 close(1)", "1 apply 1 1 close(1,#3)", "1 apply 1 1 implyR(#3)", "1 apply 1 1 boundR(1,true)",
    "1 apply 1 1 boundR(1,1)", "1 apply 1 1 andR(0)", "1 apply 0 1 andR(1)", "1 apply 1 1", "1 merge 1 1", "1 merge 1 1 1 ", "1 subst 1",
    "1 subst 1 f()", "1 subst 1 f()~>", "1 subst 1 f()~>1,", "1 subst 1 ,f()~>1", "1 subst 1 f()~>1, g()~>2", "1 subst 1 term f()~>1",
    "1 subst 1 f(._1)~>1", "1 subst 1 f(._0, ._1)~>1", "1 subst 1 f(x)~>1", "1 subst 1 f(._0,._1,._2,._3,._4,._5,._6,._7,._8)~>1",
    "1 subst 1 a;~>3", "1 subst 1 f()~>4", "1 subst 1 C{_}~>1", "1 subst 1 {c}~>4", "1 subst 1 {c}~>3", "1 subst 1 f()~>#1", "1 subst 1 f()~>01",
    "1 subst 1 f( )~>1", "1 subst 1 f (||)~>1", "1 rename 1 x x'", "1 rename 1 x", "1 rename 1 x y ", "1 start ==> 3\0", "done", "done ", "x",
)
RIGHT_STEPS = (
    "1 start ==>", "1 start 3 ==>", "1 start ==> 3", "1 start 3 3 ==> 3 3", "1 leaf ==> 3", "1 axiom nonsense", "1 rule CE", "1 apply 1 1 cut(#3)",
    "1 apply 1 1 cutL(1,#3)", "1 apply 9 9 cutR(1,#3)", "1 apply 1 1 close(1,1)", "1 apply 1 1 boundR(1,y)", "1 merge 1 1 1", "1 subst 1 ",
    "1 subst 1 f()~>1", "1 subst 1 f()~>3", "1 subst 1 f(._0,._1)~>1,g()~>2", "1 subst 1 f(||)~>1,p(|y|)~>3,C{_}~>3,a;~>4", "1 rename 1 x y",
    "1 subst 1 f()~>1,f()~>1", "1 start ==> 3",
)


def term_of(*lines):
    """A file of version 2 with these lines behind its head."""
    return "".join(f"{line}\n" for line in ("dlk 2", *lines))


def behind_nodes(line):
    """A whole file with this line behind the four nodes."""
    is_step = not line.startswith("node")
    return term_of(*N, line, *([] if is_step else ["1 start ==>"]), "done")


# Files with their first wrong line, and why.
WRONG_FILES = [
    *((behind_nodes(line), 6, "Malformed") for line in (*WRONG_NODES, *WRONG_STEPS)),
    (FIRST_BY_NODES.replace("1 start", "node 5 ge 1 2\n1 start"), 6, "Malformed"),
    (FIRST_BY_NODES.replace("1 start", "3 start"), 6, "WrongNumber"),
    (FIRST_BY_NODES.replace("done\n", ""), 9, "NoEnd"),
    (FIRST_BY_NODES + "\n", 10, "Malformed"),
    (FIRST_BY_NODES + "done\n", 10, "Malformed"),
    (FIRST_BY_NODES + "node 5 true\n", 10, "Malformed"),
    ("dlk 2", 2, "NoEnd"),
    ("dlk 2\n", 2, "NoEnd"),
    ("dlk 2\n\n", 2, "Malformed"),
    ("dlk 2\ndone\n", 2, "Malformed"),
    ("dlk 2\ndlk 2\n", 2, "Malformed"),
    ("dlk 2\nnode 1 true\ndone", 3, "Malformed"),
    ("dlk 2\nnode 2 true\n", 2, "WrongNumber"),
    ("dlk 2\nnode 2 nonsense\n", 2, "Malformed"),
    ("dlk 2\n2 start ==>\ndone\n", 2, "WrongNumber"),
    ("dlk 2\n1 start ==> x>=0\ndone\n", 2, "Malformed"),
    ("dlk 2 \n1 start ==>\ndone\n", 1, "Malformed"),
    ("dlk 2\r\n1 start ==>\ndone\n", 1, "Malformed"),
    ("dlk 02\n", 1, "Malformed"),
    ("DLK 2\n", 1, "Malformed"),
    ("dlk 3\n", 1, "Malformed"),
    ("dlk", 1, "Malformed"),
    ("", 1, "NoEnd"),
    ("\n", 1, "Malformed"),
    ("1 start ==> true\ndlk 2\n", 2, "Malformed"),
    ("1 start ==> 4\ndone\n", 1, "Malformed"),
]


class Trees(unittest.TestCase):
    def test_each_tree_is_made_once(self):
        known = trees.Trees()
        self.assertIs(texts.formula("x>=0 -> (x)>=00", known).kids[0], texts.formula("x >= 0", known))

    def test_canonical_texts(self):
        for text, wanted in (
            ("((x)) + (1)>=01.50->(y>0)", "x+1>=1.5 -> y>0"),
            ("-x^2*y--1=0", "-x^2*y--1=0"),
            ("(a-(b-c))*d/(e*f)^(-g)>=(-x)^2", "(a-(b-c))*d/(e*f)^-g>=(-x)^2"),
            ("(x>0 -> y>0) -> z>0 | a>0 & b>0", "(x>0 -> y>0) -> z>0|a>0&b>0"),
            ("((\\forall x x>0) & true) | !(x=0 & y=0)", "\\forall x x>0&true|!(x=0&y=0)"),
            ("[{{x:=1; ++ {y:=*; ?true;}} a;}*@invariant(x>0,y>0)]<x':=1;>f(||)>=(g(|y|))'", "[{{x:=1;++y:=*;?true;}a;}*]<x':=1;>f(||)>=(g(|y|))'"),
            ("[{x'=1,c,d{|y|}&true}]p(x,(y)') & C{_} & (q())'", "[{x'=1,c,d{|y|}}]p(x,(y)')&C{_}&(q())'"),
            ("(f(x))' = ._0 <-> (p(x))'", "(f(x))'=._0 <-> (p(x))'"),
            ("[{x'=v & v>=0 | v<=1}; x:=2.0;]x<-1", "[{x'=v&v>=0|v<=1}x:=2;]x<-1"),
        ):
            self.assertEqual(trees.text(texts.expression(text, trees.Trees())), wanted)

    def test_what_is_none(self):
        for text in ("", "x>=", "x>=0 &", "x>=0) ", "(x>=0", "x+(y>0)", "[x:=1]x>0", "f(x)+p", "x>0 > y", "\\forall x' x>0", "p(x) = q{true}", "@"):
            with self.assertRaises(texts.Wrong, msg=text):
                trees.text(texts.formula(text, trees.Trees()))

    def test_models(self):
        for path in sorted([*ROOT.glob("examples/**/model"), *(path for path in ROOT.glob("examples/models/*") if path.is_file())]):
            known = trees.Trees()
            tree = texts.expression(path.read_bytes().decode("latin-1"), known)
            self.assertIs(texts.expression(trees.text(tree), known), tree, path)

    def test_sizes(self):
        tree = texts.formula("x>=0 -> x>=0", trees.Trees())
        self.assertEqual((tree.size, tree.depth, tree.sort), (7, 3, trees.FORMULA))


class Versions(unittest.TestCase):
    def test_the_first_term(self):
        self.assertEqual(terms.in_version_2(terms.read(FIRST)), FIRST_BY_NODES)
        self.assertEqual(terms.in_version_2(terms.read(FIRST_BY_NODES)), FIRST_BY_NODES)
        self.assertEqual(terms.in_version_1(terms.read(FIRST_BY_NODES)), FIRST)
        self.assertEqual(terms.readable(FIRST), FIRST)

    def test_stored_terms_there_and_back(self):
        self.assertGreater(len(STORED), 20)
        for path in STORED:
            term = terms.read(path.read_bytes())
            one, two = terms.in_version_1(term), terms.in_version_2(term)
            again = terms.read(two)
            self.assertEqual((terms.in_version_1(again), terms.in_version_2(again)), (one, two), path)
            self.assertEqual((again.version, len(again.steps)), (2, len(term.steps)))
            if "version_1" in str(path):
                self.assertEqual(one, path.read_text(), path)

    def test_nodes_that_nothing_names_and_other_orders(self):
        odd = term_of("node 1 num 0", "node 2 var x", "node 3 true", "node 4 ge 2 1", "1 start ==> 4", "node 5 false", "done")
        self.assertEqual(terms.in_version_2(terms.read(odd)), term_of("node 1 var x", "node 2 num 0", "node 3 ge 1 2", "1 start ==> 3", "done"))

    def test_pairs_that_want_the_word(self):
        term = terms.read("1 axiom eqrefl\n2 subst 1 term f()~>(h())',p()~>h()\ndone\n")
        self.assertEqual(terms.in_version_2(term).splitlines()[1:], [
            "1 axiom eqrefl", "node 1 app h", "node 2 diff 1", "node 3 holds h", "2 subst 1 f()~>2,p()~>3", "done"])
        self.assertEqual(terms.in_version_1(terms.read(terms.in_version_2(term))), "1 axiom eqrefl\n2 subst 1 term f()~>(h())',p()~>h()\ndone\n")

    def test_wrong_lines(self):
        for data, place, why in WRONG_FILES:
            with self.assertRaises(terms.Wrong, msg=data) as fault:
                terms.read(data)
            self.assertEqual((fault.exception.place, fault.exception.why), (place, why), data)

    def test_right_lines(self):
        for line in (*RIGHT_NODES, *RIGHT_STEPS):
            terms.read(behind_nodes(line))

    def test_limits_of_nodes(self):
        doubled = ["node 1 true", *(f"node {k + 1} and {k} {k}" for k in range(1, 18))]
        with self.assertRaises(terms.Wrong) as fault:
            terms.read(term_of(*doubled, "1 start ==>", "done"))
        self.assertEqual((fault.exception.place, fault.exception.why), (18, "Malformed"))  # 131,071 nodes; the one before has 65,535
        deep = ["node 1 true", *(f"node {k + 1} not {k}" for k in range(1, 1_001))]
        with self.assertRaises(terms.Wrong) as fault:
            terms.read(term_of(*deep, "1 start ==>", "done"))
        self.assertEqual(fault.exception.place, 1_002)


@needs_program
class Program(Case):
    def test_texts_are_those_that_it_prints(self):
        for path in (path for path in sorted(ROOT.glob("examples/models/*")) if path.is_file()):
            said = proving.answer(PROGRAM, "print", path)
            self.assertEqual(trees.text(texts.expression(path.read_bytes().decode("latin-1"), trees.Trees())) + "\n", said.text, path)

    def test_what_is_readable_is_accepted(self):
        for path in STORED:
            made = self.file("readable", terms.in_version_1(terms.read(path.read_bytes())))
            model = path.with_name("model")
            self.assertEqual(proving.answer(PROGRAM, "check", model, made)[:2], proving.answer(PROGRAM, "check", model, path)[:2], path)


@needs_version_2
class ProgramOfVersion2(Case):
    """What the program says of both versions, beside what is read here."""

    def convert(self, data):
        """What `convert` answers, and what it writes."""
        out = self.folder / "out"
        out.unlink(missing_ok=True)
        said = proving.answer(PROGRAM, "convert", self.file("term", data), out)
        return said, out.read_text(encoding="latin-1") if out.exists() else None

    def test_the_first_term(self):
        for data in (FIRST, FIRST_BY_NODES):
            said, written = self.convert(data)
            self.assertEqual((said.status, said.text, written), (0, REPORT_OF_FIRST, FIRST_BY_NODES))

    def test_wrong_lines(self):
        model = self.file("model", "true")
        for data, place, why in WRONG_FILES:
            wanted = (2, f"refused: line {place}: {why}\n")
            self.assertEqual(proving.answer(PROGRAM, "check", model, self.file("term", data))[:2], wanted, data)
            said, written = self.convert(data)
            self.assertEqual((said[:2], written), (wanted, None), data)

    def test_right_lines(self):
        model = self.file("model", "true")
        for line in (*RIGHT_NODES, *RIGHT_STEPS):
            said = proving.answer(PROGRAM, "check", model, self.file("term", behind_nodes(line)))
            self.assertFalse(said.text.startswith("refused: line") and said.text.endswith(("Malformed\n", "WrongNumber\n")), (line, said.text))

    def test_both_versions_of_stored_terms(self):
        for path in STORED:
            data = path.read_bytes()
            said, written = self.convert(data)
            self.assertEqual(written, terms.in_version_2(terms.read(data)), path)
            two, model = self.file("two", written), path.with_name("model")
            self.assertEqual(self.convert(written)[1], written, path)
            back = self.tool("readable", two)
            self.assertEqual(back.stdout, terms.in_version_1(terms.read(data)), path)
            one = self.file("one", back.stdout)
            for verb in ("check", "report", "smt", "guard"):
                answers = {proving.answer(PROGRAM, verb, model, term)[:2] for term in (path, two, one)}
                self.assertEqual(len(answers), 1, (path, verb))

    def test_what_strategies_make(self):
        for strategy in sorted(ROOT.glob("examples/**/strategy")):
            model, term = strategy.with_name("model"), self.folder / "made"
            said = proving.answer(PROGRAM, "prove", model, strategy, term)
            if not proving.has_report(said):
                continue
            data = term.read_text(encoding="latin-1")
            self.assertTrue(data.startswith("dlk 2\n"), strategy)
            self.assertEqual(terms.in_version_2(terms.read(data)), data, strategy)
            back = self.tool("readable", term)
            self.assertEqual((back.returncode, back.stderr), (0, ""), strategy)
            self.assertEqual(proving.answer(PROGRAM, "check", model, self.file("back", back.stdout))[:2], said[:2], strategy)


class Readable(Case):
    def test_to_standard_output_and_to_a_file(self):
        term = self.file("term", FIRST_BY_NODES)
        self.assertEqual(self.tool("readable", term).stdout, FIRST)
        out = self.folder / "out"
        said = self.tool("readable", term, "-o", out)
        self.assertEqual((said.returncode, said.stdout, out.read_text()), (0, "", FIRST))
        self.assertEqual(self.tool("readable", self.file("spaced", "1 start  ==>  x>=0->x>=0\ndone")).stdout, "1 start ==> x>=0 -> x>=0\ndone\n")

    def test_refusals(self):
        term, notes = self.file("term", FIRST_BY_NODES), self.file("notes", "mine\n")
        for words, why in (
            ([term, "-o", term], "is an input"),
            ([term, "-o", notes], "something else than a term"),
            ([term, "-o", self.folder / "none" / "out"], "there is no such folder"),
            ([self.folder / "none"], "no such file"),
            ([self.file("bad", "dlk 2\nnode 2 true\n")], "line 2: WrongNumber"),
            ([notes], "line 1: Malformed"),
        ):
            said = self.tool("readable", *words)
            self.assertEqual((said.returncode, said.stdout, said.stderr.count("\n")), (2, "", 1), words)
            self.assertIn(why, said.stderr)
        self.assertEqual((Path(term).read_text(), Path(notes).read_text()), (FIRST_BY_NODES, "mine\n"))


if __name__ == "__main__":
    unittest.main()
