"""A second semantics of differential dynamic logic, and the search for a run that breaks a model.

It says what formulas mean by real numbers, from the definitions of the logic and from what docs/SOUNDNESS.md says of values, and shares nothing
with the calculus of `dlk`: no axiom, no rule, no substitution. It claims nothing: it looks for mistakes in models (`dlkt refute`), and in the
calculus (`bench/soundness.py`).

    expressions  terms and formulas of real numbers in a normal form
    solver       z3, by a few typed functions
    syntax       differentials, constants and variables of trees
    values       a value as a list of cases, so that no division gets to z3
    polynomials  values along a time, as polynomials in it
    systems      systems of differential equations that polynomials in time solve
    meaning      formulas and programs as formulas of real numbers
    deciding     whether a formula is valid, with a counterexample that was tried again
    paths        the paths of a program, each one question to z3
    exactly      a run with its numbers put in, by fractions
    floats       terms and formulas by floating point, with margins
    simulation   runs by floating point
    numerically  the search for a run by simulation
    runs         what a run is, and how it is told
    invariants   hints on the annotations of a model
    refuting     the whole search: `run_that_breaks`
    apart        the same in a process of its own
    plot         a picture of a run

It needs z3's Python module (Debian's python3-z3).
"""

import importlib.util

NEEDED = "the module z3 of Python isn't there: apt-get install python3-z3, and start with /usr/bin/python3"


def is_there() -> bool:
    """Whether z3's Python module is there."""
    return importlib.util.find_spec("z3") is not None
