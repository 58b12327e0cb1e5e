"""Tests of the hints at what looks wrong in a model or a strategy."""

import unittest

from helping import BRAKE, CLOSES_BRAKE, Case, PROGRAM, ROOT, needs_program
from dlkt import hints, strategies, words


def said(found):
    """The hints as pairs of a byte and a text."""
    return [(hint.byte, hint.text) for hint in found]


class Texts(unittest.TestCase):
    def of(self, kind, model, strategy):
        tree = strategies.read(strategy)
        return said({"names": lambda: hints.of_names(model.encode(), tree), "axioms": lambda: hints.of_axioms(tree),
                     "words": lambda: hints.of_words(tree), "functions": lambda: hints.of_functions(model.encode(), tree)}[kind]())

    def test_axioms(self):
        self.assertEqual(self.of("axioms", "x>=0", "(useAt(asignb,1))*20"), [(7, "there is no axiom asignb; is assignb meant?")])
        self.assertEqual(self.of("axioms", "x>=0", "useBack(selfassign,1.0,\"x_~~y\"); useAt(V,1)"), [])

    def test_words(self):
        self.assertEqual(self.of("words", "x>=0", "QE"), [(0, "there is no word QE; in its place stands leaf")])
        self.assertEqual(self.of("words", "x>=0", "implyr(1)"), [(0, "there is no word implyr; is implyR meant?")])
        self.assertEqual(self.of("words", "x>=0", "prop; leaf"), [])

    def test_names(self):
        model = "v<=M() & x>=0 -> [{x'=v}]x>=0 /* K() */"
        self.assertEqual(self.of("names", model, 'dC("v<=M()&x>=0",1)'), [])
        self.assertEqual(
            self.of("names", model, 'dC("v<=M",1)'),
            [(7, "M isn't in the model, which has M(): with brackets it is a constant, without them a variable")],
        )
        self.assertEqual(
            self.of("names", model, 'loop("v()<=M()",1)'),
            [(6, "v() isn't in the model, which has v: without brackets it is a variable, with them a constant")],
        )
        self.assertEqual(self.of("names", model, 'cut("K()>=0")')[0][0], 5)

    def test_names_that_the_strategy_brings_in(self):
        model = "x>=0 -> [{x'=x}]x>=0"
        for strategy in ('dG(y,"1/2","0",1); dC("x*y*y>0",1)', 'boundR(b,1); cut("b>=0")', 'cut("\\forall z z*z>=0")', 'useAt(allinst,-2,"f()~>x+1")'):
            self.assertEqual(self.of("names", model, strategy), [], strategy)
        self.assertEqual(self.of("names", model, 'useAt(DC,1,"r(||)~>w>=0")'), [(19, "w isn't in the model")])

    def test_names_of_quantifiers(self):
        model = "\\forall x (x>=0 -> x>=0)"
        self.assertEqual(self.of("names", model, 'cut("\\exists x (x>=0)")'), [])
        self.assertEqual(set(hints.names_of(model).symbols), set())

    def test_functions(self):
        self.assertEqual(self.of("functions", "abs(x)>=0", "nil")[0][0], 0)
        self.assertEqual(self.of("functions", "x>=0", 'cut("max(x,0)>=0")')[0][0], 5)
        self.assertEqual(self.of("functions", "minimum>=0", "nil"), [])

    def test_files(self):
        found = list(hints.of_files(b"\xef\xbb\xbfx>=0", b"nil", b"1 start ==> x>=0\r\ndone\r\n"))
        self.assertEqual([(hint.file, hint.byte) for hint in found], [("model", 0), ("term", 16)])
        archive = b'ArchiveEntry "car"\nProblem\n x>=0\nEnd.\nEnd.\n'
        self.assertEqual([hint.byte for hint in hints.of_files(archive, b"nil", None)], [0])
        self.assertEqual(list(hints.of_files(b"/* Problem\n */ x>=0\n", b"nil", None)), [])

    def test_what_is_needed_constant(self):
        pairs = "{c}~>{x'=v,v'=-B()},q(||)~>true&a'=0,p(||)~>x+a<=M+B()"
        self.assertEqual(hints.needed_constant(pairs), ["M"])


@needs_program
class Models(Case):
    def test_variables_that_no_program_changes(self):
        model = self.file("model", BRAKE.replace("M()", "M"))
        tree = strategies.read(CLOSES_BRAKE)
        found = said(hints.of_constants(PROGRAM, model, BRAKE.replace("M()", "M").encode(), tree))
        self.assertEqual([byte for byte, _ in found], [5])
        self.assertEqual(said(hints.of_constants(PROGRAM, model, BRAKE.encode(), strategies.read("implyR(1)"))), [])

    def test_invariants_of_a_term(self):
        model, strategy = self.file("model", BRAKE.replace("M()", "M")), self.file("strategy", CLOSES_BRAKE)
        text, _ = words.made_by(PROGRAM, model, CLOSES_BRAKE)
        lines = words.lines_of(text)
        found = said(hints.of_invariants(lines, words.words_of_lines(words.word_runs(model, strategy, PROGRAM), len(lines))))
        self.assertEqual([byte for byte, _ in found], [CLOSES_BRAKE.index("dI")])

    def test_nothing_is_hinted_at_in_the_repository(self):
        for path in sorted([*ROOT.glob("examples/*/strategy"), *ROOT.glob("examples/gallery/*/strategy"), *ROOT.glob("examples/tutorial/*/strategy")]):
            model = path.parent / "model"
            found = hints.hints(PROGRAM, model, hints.Files(model.read_bytes(), path.read_bytes(), None), True)
            self.assertEqual(said(found), [], path)


if __name__ == "__main__":
    unittest.main()
