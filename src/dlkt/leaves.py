"""The leaves of a proof as questions for the solvers, and what they say of each.

In go the program, a model and a term, as files; out comes a script for each leaf, as the program's command `smt` writes it, and an answer for
each: `valid`, `false` with values, `unknown`, or `power` where it has no SMT-LIB text, for a power has another exponent than 1 to 16.

An exponent that is made of numbers, as differentiation leaves it, is computed here. Where a leaf has such a one, each leaf is written as one
formula, with these exponents computed, and the program's `smt` is asked for that formula's text. That the two are equal isn't proved.
"""

import re
import sys
import tempfile
from concurrent.futures import ThreadPoolExecutor
from fractions import Fraction
from pathlib import Path
from typing import Iterator, Mapping, NamedTuple, Sequence

from dlkt.formulas import NotPolynomial, polynomial
from dlkt.program import Name, Refused, answer, complaint_of, has_report, printed_report, split_sequent
from dlkt.reader import Wrong, expression
from dlkt.solvers import Answer, Solvers, Word, questions
from dlkt.trees import Trees

POWER, NOT_ASKED = "power", "not asked"
WAY_OUT = "a power has another exponent than a whole number from 1 to 16: multiply it out, as x*x*x"
NUMBERS = re.compile(r"[0-9.+\-*/() ]+")
LONG = 20  # from so many leaves on, progress is told on standard error


class Script(NamedTuple):
    """The question of a leaf, or none where it has none, and what was put for what in it."""

    text: str | None
    computed: Sequence[tuple[str, str]] = ()


class LeafAnswer(NamedTuple):
    """What is said of a leaf: a word; where it is false, the values; the exponents that were computed; and what each solver says, and at which
    values."""

    word: str
    values: Mapping[str, str] = {}
    computed: Sequence[tuple[str, str]] = ()
    by: Mapping[str, str] = {}
    values_by: Mapping[str, Mapping[str, str]] = {}

    def as_object(self) -> dict[str, object]:
        """What --json prints of it."""
        known = self._asdict()
        return {"answer": known.pop("word"), **known}


# Exponents

def computed(text: str) -> Fraction | None:
    """The value of a text of numbers, or none where it has none."""
    try:
        return polynomial(expression(text, Trees())).get((), Fraction(0))
    except (Wrong, NotPolynomial):
        return None


def end_of_brackets(text: str, at: int) -> int:
    """The place behind the brackets that open at a place."""
    depth = 0
    for place in range(at, len(text)):
        depth += {"(": 1, ")": -1}.get(text[place], 0)
        if depth == 0:
            return place + 1
    return len(text)


def folded(text: str) -> tuple[str, list[tuple[str, str]]]:
    """The text with each exponent computed that is made of numbers and comes to a whole one above 0, and what was put for what."""
    done, pairs, at = "", list[tuple[str, str]](), 0
    while (found := text.find("^(", at)) >= 0:
        end = end_of_brackets(text, found + 1)
        inside = text[found + 2 : end - 1]
        value = computed(inside) if NUMBERS.fullmatch(inside) else None
        if value is not None and value.denominator == 1 and value > 0:
            pairs.append((f"^({inside})", f"^{value}"))
            done, at = done + text[at:found] + f"^{value}", end
        else:
            done, at = done + text[at : found + 2], found + 2
    return done + text[at:], list(dict.fromkeys(pairs))


# Scripts

def implication(sequent: str) -> str:
    """A sequent as one formula."""
    left, right = split_sequent(sequent) or ([], [sequent])
    premise = "&".join(f"({it})" for it in left) or "true"
    conclusion = "|".join(f"({it})" for it in right) or "false"
    return f"({premise}) -> ({conclusion})"


def exported(program: str, model: Name, term: Name) -> list[str] | None:
    """The question of each leaf, or none where one has none."""
    said = answer(program, "smt", model, term)
    if re.fullmatch(r"refused: leaf (\d+): power\n", said.text):
        return None
    if not has_report(said):
        raise Refused(complaint_of(said))
    return questions(said.text)


def exported_alone(program: str, sequent: str) -> Script:
    """The question of a sequent by itself, with computed exponents."""
    changed, pairs = folded(sequent)
    formula = implication(changed)
    with tempfile.TemporaryDirectory() as folder:
        model, term = Path(folder) / "model", Path(folder) / "term"
        model.write_text(f"{formula}\n", encoding="latin-1")
        term.write_text(f"1 leaf ==> {formula}\ndone\n", encoding="latin-1")
        scripts = exported(program, model, term)
    if scripts is not None and len(scripts) != 1:
        raise Refused(f"the program writes {len(scripts)} texts for one leaf")
    return Script(None if scripts is None else scripts[0], pairs)


def scripts_of(program: str, model: Name, term: Name, texts: Sequence[str] | None = None) -> list[Script]:
    """The question of each leaf of a term, whose texts may be known."""
    scripts = exported(program, model, term)
    if not texts and not scripts:  # a script without a leaf may also be that of a program that isn't dlk
        texts = printed_report(answer(program, "check", model, term)).leaves
    if scripts is None:
        return [exported_alone(program, text) for text in texts or ()]
    wanted = len(scripts if texts is None else texts)
    if len(scripts) != wanted:
        raise Refused(f"the program lists {wanted} leaves, and writes {len(scripts)} for a solver")
    return [Script(script) for script in scripts]


# Answers

def answered(script: Script, said: Answer) -> LeafAnswer:
    """The answer for a leaf by the solvers' answer to its question."""
    by = {solver: str(reply.word) for solver, reply in said.by.items()}
    values_by = {solver: dict(reply.values) for solver, reply in said.by.items() if reply.values}
    return LeafAnswer(str(said.word), said.values, script.computed, by, values_by)


def each_says_so(said: LeafAnswer) -> LeafAnswer:
    """The answer where all solvers are wanted: a leaf is valid where each says so."""
    agreed = said.word != Word.VALID or all(word == Word.VALID for word in said.by.values())
    return said if agreed else said._replace(word=str(Word.UNKNOWN), values={})


def asked(scripts: Sequence[Script], solvers: Solvers, jobs: int = 1) -> Iterator[LeafAnswer]:
    """What the solvers say of each leaf, so many at a time, in the order of the leaves."""
    def ask(script: Script) -> LeafAnswer:
        return LeafAnswer(POWER) if script.text is None else answered(script, solvers.check(script.text))

    if not solvers.names:
        yield from (LeafAnswer(NOT_ASKED) for _ in scripts)
        return
    with ThreadPoolExecutor(max(1, jobs)) as pool:
        try:
            for number, said in enumerate([pool.submit(ask, script) for script in scripts], 1):
                if len(scripts) >= LONG and not said.done():
                    print(f"asking for leaf {number} of {len(scripts)}", file=sys.stderr, flush=True)
                yield said.result()
        except BaseException:
            pool.shutdown(wait=False, cancel_futures=True)
            solvers.close()
            raise


def listed(values: Mapping[str, str]) -> str:
    """Values as one reads them."""
    return ", ".join(f"{name}={value}" for name, value in values.items())
