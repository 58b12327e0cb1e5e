"""Asks the solvers for each leaf of a proof.

    dlkt leaves MODEL TERM [--all-solvers] [-j N] [--seconds N] [--json] [--dlk PROGRAM]

The program's command `smt MODEL TERM` checks the term and prints its leaves as SMT-LIB text. Each goes to z3 and cvc5, those of them that are
on PATH, for at most N seconds; the first that knows decides. A line a leaf is printed, in their order:

    leaf 1: valid                   a solver answers that it can't be false; with --all-solvers each of them does
    leaf 2: false at x=1, v=2       it is false there (`1.41..` is cut off): an assumption is missing in the model
    leaf 3: unknown                 the solvers give up, or their time is over
    leaf 3: unknown, for z3 says valid, cvc5 says unknown       where they don't say the same
    leaf 4: valid, with ^1 for ^(2-1)       a power that differentiation leaves: the solver was asked with the exponent computed
    leaf 5: power                   it has no SMT-LIB text: a power has another exponent than 1 to 16, so multiply it out

The exit status is 0 where all leaves are valid, else 1, and 2 where none could be asked. --json prints one object instead.
"""

import argparse
import json

from dlkt.leaves import POWER, WAY_OUT, LeafAnswer, asked, each_says_so, listed, scripts_of
from dlkt.program import Refused, add_options, program_of
from dlkt.solvers import KINDS, Solvers, Word, there

HELP = "asks the solvers for each leaf of a proof"
EXAMPLE = "dlkt leaves examples/increment/model examples/increment/term"


def line_of(number: int, said: LeafAnswer) -> str:
    """The line of a leaf. Where the solvers don't say the same, it says what each says."""
    if said.word == POWER:
        return f"leaf {number}: power ({WAY_OUT})"
    where = listed(said.values)
    instead = ", ".join(f"{new} for {old}" for old, new in said.computed)
    apart = ", ".join(f"{solver} says {word}" for solver, word in said.by.items()) if len(set(said.by.values())) > 1 else ""
    parts = [f"leaf {number}: {said.word}" + (f" at {where}" if where else ""), apart and f"for {apart}", instead and f"with {instead}"]
    return ", ".join(part for part in parts if part)


def names_of_solvers(wants_all: bool) -> list[str]:
    """The solvers to ask."""
    names = there()
    if not names:
        raise Refused("no solver is there: install z3 or cvc5")
    if wants_all and len(names) < len(KINDS):
        missing = next(name for name in KINDS if name not in names)
        raise Refused(f"{missing} isn't there, and --all-solvers asks z3 and cvc5")
    return names


def add_words(parser: argparse.ArgumentParser) -> None:
    """The words of the command."""
    parser.add_argument("model")
    parser.add_argument("term")
    parser.add_argument("--all-solvers", action="store_true", help="wait for z3 and cvc5: a leaf is valid where both say so")
    add_options(parser, "-j", "--seconds", "--json", "--dlk")


def run(options: argparse.Namespace) -> int:
    """Asks, prints, and gives the exit status."""
    program, names = program_of(options.dlk), names_of_solvers(options.all_solvers)
    told = []
    with Solvers(names, options.seconds, options.all_solvers) as solvers:
        scripts = scripts_of(program, options.model, options.term)
        for number, said in enumerate(asked(scripts, solvers, options.jobs), 1):
            told.append(each_says_so(said) if options.all_solvers else said)
            if not options.json:
                print(line_of(number, told[-1]), flush=True)
    all_valid = all(said.word == Word.VALID for said in told)
    if options.json:
        print(json.dumps({"all_valid": all_valid, "leaves": [{"leaf": number, **said.as_object()} for number, said in enumerate(told, 1)]}))
    return 0 if all_valid else 1
