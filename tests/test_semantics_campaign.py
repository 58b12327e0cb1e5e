"""The parts of bench/soundness.py that can be looked at alone: that the guard's twin has teeth, and that replacing and drawing are what they should be."""

import random
import sys
import unittest

from helping import ROOT
from dlkt import reader, semantics
from dlkt.trees import text

sys.path.insert(0, str(ROOT / "bench"))

needs_z3 = unittest.skipUnless(semantics.is_there(), semantics.NEEDED)
AXIOMS = {
    "DI": "(q(||) -> [{c&q(||)}](p(||))') -> ([{c&q(||)}]p(||) <-> [?q(||);]p(||))",
    "DG": "[{c{|y_|}&q(|y_|)}]p(|y_|) <-> \\exists y_ [{c{|y_|},y_'=a(|y_|)*y_+b(|y_|)&q(|y_|)}]p(|y_|)",
    "CE": "C{p(||)} <-> C{q(||)}",
    "Dforall": "(\\forall x_ p(||))' <-> \\forall x_ (p(||))'",
}

# For each mistake of the guard an instance that it lets through, and that isn't valid.
SEEN = {
    "CONSTANT": ("DI", "q(||)~>true,p(||)~>false"),
    "RIGHT_NOT_SMOOTH": ("DI", "{c}~>{x'=1},q(||)~>true,p(||)~>1=x/x"),
    "RIGHT_NOT_EVOLVED": ("DI", "{c}~>{x'=1},q(||)~>true,p(||)~>x=z"),
    "VALUE_FOR_SLOPE": ("DI", "{c}~>{x'=1},q(||)~>z=0,p(||)~>x<=z"),
    "SLOPE_IN_INVARIANT": ("DI", "{c}~>{x'=1},q(||)~>true,p(||)~>(x'-1)*(x'-1)=0"),
    "DIFFERENTIAL_IN_INVARIANT": ("DI", "{c}~>{x'=1},q(||)~>true,p(||)~>((x)'-1)^2=0"),
    "ANY_DIVISOR": ("DI", "{c}~>{x'=1},q(||)~>true,p(||)~>x/x=1"),
    "LEAST_ZERO": ("DI", "{c}~>{x'=-1},q(||)~>x>=0,p(||)~>x/x=1"),
    "ROUGH_DIVISOR": ("DI", "{c}~>{x'=1},q(||)~>x/x+1>0,p(||)~>2/(x/x+1)=1"),
    "OTHER_NUMBER": ("DI", "{c}~>{x'=1},q(||)~>x!=1,p(||)~>x/x=1"),
    "DIVISOR_BELOW_OR": ("DI", "{c}~>{x'=1},q(||)~>x!=0|x<1,p(||)~>x/x=1"),
    "OTHER_DIVISOR": ("DI", "{c}~>{x'=1},q(||)~>z!=0,p(||)~>x/x=1"),
    "NEGATIVE_POWER": ("DI", "{c}~>{x'=1},q(||)~>true,p(||)~>x^2*x^-2=1"),
    "NOT_EVOLVED": ("DI", "{c}~>{x'=1},q(||)~>true,p(||)~>x<=z"),
    "MOVING": ("DI", "{c}~>{x'=1},q(||)~>z'=1,p(||)~>x=z"),
    "FROZEN_BELOW_OR": ("DI", "{c}~>{x'=1},q(||)~>z'=0|z=0,p(||)~>x<=z"),
    "LEAST_SLOPE": ("DI", "{c}~>{x'=1},q(||)~>z'>=0,p(||)~>x<=z"),
    "SLOPE_IN_DOMAIN": ("DI", "{c}~>{x'=1},q(||)~>x'=1,p(||)~>false"),
    "SLOPE_IN_RIGHT_SIDE": ("DI", "{c}~>{x'=x'+1},q(||)~>true,p(||)~>false"),
    "ROUGH_FACTOR": ("DG", "{c{|y_|}}~>{x'=-1},q(|y_|)~>true,p(|y_|)~>x!=0,term a(|y_|)~>2/x,term b(|y_|)~>0"),
    "ROUGH_SUMMAND": ("DG", "{c{|y_|}}~>{x'=-1},q(|y_|)~>true,p(|y_|)~>x!=0,term a(|y_|)~>0,term b(|y_|)~>1/x"),
    "OFF_ZERO_AT_THE_END": ("DG", "{c{|y_|}}~>{x'=-1},q(|y_|)~>true,p(|y_|)~>x!=0,term a(|y_|)~>0,term b(|y_|)~>1/x"),
    "BELOW_A_DIFFERENTIAL": ("CE", "p(||)~>0=0,q(||)~>0=0|x=0,C{_}~>(_)'"),
    "QUANTIFIED_DIFFERENTIAL": ("Dforall", "p(||)~>y>=0"),
}


@needs_z3
class Guards(unittest.TestCase):
    """The guard's twin, right and wrong."""

    def instance(self, name, pairs):
        """An instance of an axiom or a rule."""
        from rows import Instance, Replacing, TREES
        conclusion = Replacing(pairs).tree(reader.formula(AXIOMS[name], TREES))
        return Instance(name, (f"{'rule' if name == 'CE' else 'axiom'} {name}", f"subst 1 {pairs}"), conclusion, ())

    def test_each_mistake_lets_something_invalid_through(self):
        """The right twin refuses it, the wrong one doesn't, and the semantics has a counterexample."""
        from dlkt.semantics import deciding
        from rows import Replacing
        from twin import Mistake, Twin
        self.assertEqual(set(SEEN), {mistake.name for mistake in Mistake})
        for mistake in Mistake:
            instance = self.instance(*SEEN[mistake.name])
            self.assertNotEqual(Twin().says(instance), "", mistake)
            self.assertEqual(Twin(mistake).says(instance), "", mistake)
            conclusion = instance.conclusion
            if mistake == Mistake.CONSTANT:
                conclusion = Replacing("{c}~>{x'=x'+1}").tree(conclusion)
            self.assertEqual(deciding.decided(conclusion, 20_000).verdict, deciding.Verdict.INVALID, mistake)

    def test_what_the_guard_lets_through_is_valid(self):
        """Near to the instances above, and right."""
        from dlkt.semantics import deciding
        from twin import Twin
        for name, pairs in (
            ("DI", "{c}~>{x'=1},q(||)~>z'=0,p(||)~>x>=z"), ("DI", "{c}~>{x'=1},q(||)~>x>0,p(||)~>x/x=1"), ("DI", "{c}~>{x'=1},q(||)~>true,p(||)~>x>=0"),
            ("DG", "{c{|y_|}}~>{x'=-1},q(|y_|)~>true,p(|y_|)~>x!=0,term a(|y_|)~>x,term b(|y_|)~>1"), ("CE", "p(||)~>x>0,q(||)~>0<x,C{_}~>!_"),
        ):
            instance = self.instance(name, pairs)
            self.assertEqual(Twin().says(instance), "", pairs)
            if name != "CE":  # whose premise would come before
                self.assertEqual(deciding.decided(instance.conclusion, 20_000).verdict, deciding.Verdict.VALID, pairs)


@needs_z3
class Makes(unittest.TestCase):
    """Replacing, renaming, drawing."""

    def test_replacing_is_what_it_says(self):
        """Functions with arguments, predicationals, constants of systems, programs."""
        from rows import Replacing, TREES
        for row, pairs, wanted in (
            ("[x:=f();]p(x) <-> p(f())", "f()~>y+1,p(._0)~>._0>=z", "[x:=y+1;]x>=z <-> y+1>=z"),
            ("C{p(||)} <-> q(||)", "C{_}~>[x:=1;]_,p(||)~>x>0,q(||)~>true", "[x:=1;]x>0 <-> true"),
            ("[{c,d&q(||)}]p(||)", "{c}~>{x'=1,y'=2},{d}~>{z'=x},q(||)~>x>0,p(||)~>y>0", "[{x'=1,y'=2,z'=x&x>0}]y>0"),
            ("[a;]p(||)", "a;~>x:=1;y:=2;,p(||)~>x>0", "[x:=1;y:=2;]x>0"),
        ):
            self.assertEqual(text(Replacing(pairs).tree(reader.formula(row, TREES))), wanted)

    def test_renaming_exchanges(self):
        """Free and bound, primed too; symbols stay."""
        from rows import TREES, renamed
        row = reader.formula("\\forall x [{x'=y,c{|x|}}](x'>=x() & f(|x|)=y)", TREES)
        self.assertEqual(text(renamed(row, "x", "y")), "\\forall y [{y'=x,c{|y|}}](y'>=x()&f(|y|)=x)")

    def test_the_same_seed_draws_the_same(self):
        """And each text can be read."""
        from instances import Border, Texts
        from rows import TREES
        drawn = [[Border(random.Random(seed)).invariant() for seed in range(60)] for _ in range(2)]
        self.assertEqual(*drawn)
        for pairs in drawn[0]:
            reader.pairs(pairs, TREES)
        for seed in range(60):
            reader.formula(Texts(random.Random(seed)).formula(2), TREES)

    def test_a_changed_axiom_is_caught(self):
        """One that is wrong is, and the right one isn't."""
        from planted import caught, changes_of
        from rows import TREES
        right = reader.formula("[a;b;]p(||) <-> [a;][b;]p(||)", TREES)
        wrong = reader.formula("[a;b;]p(||) <-> [b;][a;]p(||)", TREES)
        self.assertIn(reader.formula("[a;b;]p(||) <-> <a;>[b;]p(||)", TREES), changes_of(right))
        self.assertTrue(caught("composeb", wrong, random.Random(1)))
        self.assertFalse(caught("composeb", right, random.Random(1)))


if __name__ == "__main__":
    unittest.main()
