"""One verdict on a model and its proof: proves it, asks the guard and the solvers, and says where it fails and what it rests on.

    dlkt verify FILE [PROOF] [-o TERM] [--page OUT.html] [-j N] [--all-solvers] [--seconds N] [--json] [--watch] [--dlk PROGRAM]

What it takes and prints, and its exit statuses, are told in docs/FILES.md ("One verdict"), what it does of an archive in docs/KEYMAERAX.md, and how it
searches where no PROOF is named in docs/AUTO.md. Nothing here is proved but what the program proves: that the proof is closed, and what the
guard's line says.
"""

import argparse
import json
import os
import sys
import time
from pathlib import Path
from typing import TYPE_CHECKING, Any, Callable, Sequence

from dlkt.archive import is_archive
from dlkt.leaves import NOT_ASKED, POWER, WAY_OUT, listed
from dlkt.program import TERM_BEGINS, Position, Refused, add_options, numbered, one_line, program_of, put_at, read_bytes, refuse_bad_output, say, shown
from dlkt.verdict import NOTHING_KNOWN, OPEN, REFUTED, Fault, Guard, Hint, Kind, Leaf, Maker, Options, Piece, Proof, Source, Verdict
from dlkt.verdict import counted, is_said_of, verdict_on

if TYPE_CHECKING:
    from dlkt.search.proofs import NotFound

MOST_SHOWN = 4  # goals on which a word fails
LONGEST = 160  # letters of a line that are shown
PAUSE = 0.3  # seconds between two looks at the files
SEARCH_SECONDS = 60  # for each search, of an archive's entry

WHY = {
    "NoMatch": "no axiom fits what stands at the place, or not this one",
    "NoPlace": "the place isn't there, or is on the other side, or has a path where none may be",
    "WrongShape": "another formula stands at the place than the word wants",
    "WrongCount": "the branch has another number of parts than there are goals",
    "UnknownName": "no axiom has this name",
    "NotEqual": "no formula stands on both sides",
    "NotArith": "the goal has more than arithmetic, so it can't be a leaf",
    "NotFresh": "a name that should be new stands elsewhere",
    "IllSubst": "a name is used already, or a given replacement is bad",
    "NotAdmissible": "the replacement reads what a program or a quantifier changes",
    "budget": "the run ends here, for it may run 16,000 words, those that fail included",
    "syntax": "the text doesn't go on here",
    "nesting": "too many brackets are open",
    "repeat": "a repeat's number is above 1,000",
    "unknown": "there is no such word",
    "arguments": "the word takes other arguments, or a text in quotes can't be read",
    "byte": "no text has this byte here",
    "literal": "the number has too many digits",
    "shape": "the parts don't fit together",
}
GUARD_WHY = {
    "di-constant": "its system has a constant of differential equations",
    "di-not-smooth": "its formula isn't made of comparisons of smooth terms: there is a divisor, a power, a quantifier or an x' in it",
    "di-not-evolved": "its formula has a variable that no equation changes; write a constant with brackets",
    "di-primed": "its system reads an x' of its own",
    "dg-not-smooth": "the new equation divides by what may be 0",
    "raw-fact": "it uses the axiom itself",
    "differential-context": "it rewrites below the ( )' of a formula",
    "dforall": "it uses the axiom Dforall",
}


# Printing

def at(place: Position) -> str:
    """A place as editors read it."""
    return f"{one_line(place.file)}:{place.line}:{place.column}"


def underlined(place: Position) -> list[str]:
    """The line of a place, or the part of a long one round it, and a caret below it."""
    begin = max(0, place.column - LONGEST // 2) if len(place.source) > LONGEST else 0
    return [f"    {place.source[begin : begin + LONGEST]}", f"    {place.caret[begin:]}"]


def why_refused(fault: Fault) -> str:
    """Why a model or a proof is refused."""
    if fault.parts is not None and fault.count_of_goals is not None:
        there = "there is" if fault.count_of_goals == 1 else "there are"
        return f"{fault.why}: the branch has {counted(fault.parts, 'part')}, and {there} {counted(fault.count_of_goals, 'goal')}"
    return f"{fault.why}: {WHY[fault.why]}" if fault.why in WHY else fault.why


def why_unguarded(guard: Guard) -> str:
    """What stands behind the guard's words on a line that isn't guarded."""
    said = GUARD_WHY.get((guard.why or "").split(" ")[0], "")
    return f": {said}" if said else ""


def lines_of_fault(fault: Fault) -> list[str]:
    """The lines of a refusal."""
    if fault.place is None:
        return [f"{one_line(fault.file)}: {fault.text}"]
    is_failure = fault.text.startswith("refused: fails")
    lines = [f"{at(fault.place)}: {'fails' if is_failure else 'refused'}: {why_refused(fault)}", *underlined(fault.place)]
    several = len(fault.goals) > 1
    met = "it meets" if fault.parts is not None else "it fails on"
    for number, goal in enumerate(fault.goals[: None if fault.parts else MOST_SHOWN], 1):
        lines += [f"{met} goal {number}:" if several else f"{met} the goal:", *shown(goal)]
    more = len(fault.goals) - MOST_SHOWN
    if fault.parts is None and more > 0:
        lines.append(f"and on {counted(more, 'goal')} more")
    if not fault.goals and is_failure:
        lines.append("its goals can't be told")
    return lines


def lines_of_proof(proof: Proof) -> list[str]:
    """The lines of a proof that the program takes: how it ends, the lemmas that are linked in, and the goals that are left."""
    lines = [f"{proof.outcome}, {counted(proof.lines, 'line')}"]
    for lemma in proof.lemmas:
        proved = counted(lemma.goals, "goal")
        lines.append(f"linked: lines {lemma.first} to {lemma.last} are a lemma's, which proves {proved} with {lemma.conclusion}"[:LONGEST])
    return [*lines, *(line for number, goal in enumerate(proof.goals, 1) for line in (f"goal {number}", *shown(goal)))]


def lines_of_leaf(leaf: Leaf) -> list[str]:
    """The lines of a leaf."""
    said, lines = leaf.said, [f"leaf {leaf.number}: {leaf.text}"]
    for solver, word in said.by.items():
        values = listed(said.values_by.get(solver, {}))
        lines.append(f"    {solver}: {word}" + (f" at {values}" if values else ""))
    if said.word == POWER:
        lines.append(f"    power: {WAY_OUT}")
    if said.word == NOT_ASKED:
        lines.append("    not asked: no solver is there; install z3 or cvc5")
    if said.computed:
        lines.append("    with " + ", ".join(f"{new} for {old}" for old, new in said.computed))
    return lines + [f"{at(made.place)}: leaf {leaf.number} {is_said_of(leaf)}: {made.word} made it" for made in leaf.made_by]


def lines_of_guard(guard: Guard) -> list[str]:
    """The lines of what the guard says."""
    if guard.is_guarded:
        return ["guarded"]
    lines = [guard.text + why_unguarded(guard)]
    if guard.made_by:
        place = guard.made_by.place
        return [*lines, f"{at(place)}: unguarded: {guard.made_by.word} made line {guard.line}", *underlined(place)]
    return lines


SAID: dict[type, Callable[[Any], list[str]]] = {
    Proof: lines_of_proof, Fault: lines_of_fault, Leaf: lines_of_leaf, Guard: lines_of_guard,
    Hint: lambda hint: [f"{at(hint.place)}: hint: {hint.text}"],
}


def lines_of(piece: Piece) -> list[str]:
    """The lines of what was found."""
    return SAID[type(piece)](piece)


def last_line(verdict: Verdict) -> str:
    """The last line."""
    if not verdict.is_verified:
        reasons = list(verdict.reasons[:MOST_SHOWN])
        more = len(verdict.reasons) - len(reasons)
        return "not verified: " + "; ".join([*reasons, f"and {more} more"] if more else reasons)
    leaves_said = f"{counted(len(verdict.leaves), 'leaf')} valid" if verdict.leaves else "no leaves"
    return f"verified: closed, guarded, {leaves_said}. It rests on {', '.join(verdict.rests_on)}"


# The object that --json prints

def goal_object(goal: str) -> dict[str, Any]:
    """A goal, with its formulas by their places."""
    left, right = numbered(goal)
    return {"text": goal, "formulas": [{"place": place, "formula": formula} for place, formula in [*left, *right]]}


def maker_object(made: Maker) -> dict[str, Any]:
    """A word that made something."""
    return {"word": made.word, "place": made.place._asdict()}


def fault_object(fault: Fault) -> dict[str, Any]:
    """A refusal."""
    goals = [goal_object(goal) for goal in fault.goals]
    told = {"text": fault.text, "file": fault.file, "place": fault.place and fault.place._asdict(), "why": fault.why, "goals": goals}
    return {**told, "parts": fault.parts, "count": fault.count_of_goals}


def guard_object(guard: Guard) -> dict[str, Any]:
    """What the guard says."""
    made = maker_object(guard.made_by) if guard.made_by else {"word": None, "place": None}
    return {"text": guard.text, "guarded": guard.is_guarded, "line": guard.line, "why": guard.why, **made}


def as_object(verdict: Verdict, put: str | None = None) -> dict[str, Any]:
    """A verdict as one object, with the name at which the term was put."""
    found, strategy = verdict.found, verdict.proof.name if verdict.kind is Kind.STRATEGY else None
    proof, fault = (found, None) if isinstance(found, Proof) else (None, found)
    told = [(leaf, [maker_object(made) for made in leaf.made_by]) for leaf in verdict.leaves]
    return {
        "model": verdict.model.name, "proof": verdict.proof.name, "kind": verdict.kind, "strategy": strategy, "term": put,
        "outcome": verdict.outcome, "refusal": fault_object(fault) if fault else None,
        "lines": proof.lines if proof else None,
        "goals": [goal_object(goal) for goal in proof.goals] if proof else [],
        "linked": [lemma._asdict() for lemma in proof.lemmas] if proof else [],
        "leaves": [{"leaf": leaf.number, "text": leaf.text, **leaf.said.as_object(), "made_by": makers} for leaf, makers in told],
        "solvers": verdict.solvers,
        "guard": guard_object(verdict.guard) if verdict.guard else None,
        "hints": [{"place": hint.place._asdict(), "text": hint.text} for hint in verdict.hints],
        "verified": verdict.is_verified, "reasons": verdict.reasons, "rests_on": verdict.rests_on, "status": verdict.status,
    }


# The command

def source_of(name: str) -> Source:
    """The bytes of a file."""
    if name == "-":
        raise Refused("standard input isn't taken: name a file")
    return Source(name, read_bytes(name))


def options_of(options: argparse.Namespace) -> Options:
    """How the verdict is found. Refused is a TERM that is an input, or has something else than a term in it, and so is such a page."""
    program, old = program_of(options.dlk), None
    inputs = [name for name in (options.file, options.proof, program) if name]
    if options.output is not None:
        refuse_bad_output(options.output, inputs, TERM_BEGINS, "a term")
        old = source_of(options.output) if Path(options.output).is_file() else None
    if options.page is not None:
        from dlkt.commands.tree import refuse_bad_page  # it takes a while

        refuse_bad_page(options.page, inputs)
    return Options(program, options.seconds, options.jobs, options.all_solvers, old_term=old)


def proof_of(options: argparse.Namespace) -> "Source | NotFound":
    """The proof that is judged: the named one; a sketch as a plain strategy, or as a term where lemmas are linked; or a strategy that is found. Else
    why there is none."""
    from dlkt.search.proofs import by_search, by_sketch  # they take a while

    if options.proof is None:
        return by_search(options.file, options.dlk)
    named = source_of(options.proof)
    return by_sketch(options.file, named, options.dlk)


def not_found(options: argparse.Namespace, found: "NotFound") -> int:
    """Says that no proof is found, or that a run breaks the model. The exit status."""
    status, outcome = (REFUTED, "refuted") if found.is_refuted else (OPEN, None)
    said = "a run breaks the model" if found.is_refuted else "no proof is found"
    if options.json:
        say_without_verdict(options, outcome, [said, *found.reasons], status)
    else:
        say([*found.reasons, f"{outcome or 'not verified'}: {said}"])
    return status


def say_without_verdict(options: argparse.Namespace, outcome: str | None, reasons: Sequence[str], status: int) -> None:
    """Prints the object that tells why there is no verdict."""
    told = {"model": options.file, "proof": options.proof, "verified": False, "outcome": outcome, "reasons": reasons, "status": status}
    print(json.dumps(told), flush=True)


class Saying:
    """Says each piece of a verdict as it is found. Where nobody reads any more, but a file is still to be written, the work goes on in silence."""

    def __init__(self, options: argparse.Namespace) -> None:
        self.is_silent, self.has_files = options.json, options.output is not None or options.page is not None
        self.unread: BrokenPipeError | None = None

    def __call__(self, piece: Piece) -> None:
        if self.is_silent:
            return
        try:
            say(lines_of(piece))
        except BrokenPipeError as fault:
            if not self.has_files:
                raise
            self.is_silent, self.unread = True, fault

    def end(self) -> None:
        """Tells that nobody reads, once all is written."""
        if self.unread:
            raise self.unread


def once(options: argparse.Namespace) -> int:
    """One verdict, printed. The exit status."""
    if is_archive(options.file, source_of(options.file).data):
        return on_archive(options)
    model, settings, proof = source_of(options.file), options_of(options), proof_of(options)
    if not isinstance(proof, Source):
        if options.page is not None and options.proof is None:
            from dlkt.commands.page import written_without_proof  # it takes a while

            written_without_proof(model, proof, options.page, settings.program)
        return not_found(options, proof)
    saying = Saying(options)
    verdict = verdict_on(model, proof, settings, saying)
    put = options.output if verdict.term else None
    if put is not None:
        put_at(verdict.term, put)
    if options.page is not None:
        from dlkt.commands.page import written  # it takes a while

        written(verdict, options.page, settings.program)
    saying.end()
    if options.json:
        print(json.dumps(as_object(verdict, put)), flush=True)
    else:
        say([last_line(verdict)])
    return verdict.status


def on_archive(options: argparse.Namespace) -> int:
    """The verdicts on the entries of an archive, printed. The exit status."""
    if options.proof is not None:
        raise Refused("an archive has its proofs in it: name no PROOF")
    if options.output is not None or options.page is not None:
        raise Refused("the entries of an archive have no TERM and no page: dlkt import --prove writes their strategies")
    from dlkt.archive import proving, verifying  # they need the package lark

    limits = proving.Limits(program_of(options.dlk), SEARCH_SECONDS, options.seconds)
    found = verifying.verdicts_on(options.file, options.entry, limits, (lambda lines: None) if options.json else say)
    if options.json:
        told = [(one, {"entry": one.name, "status": one.status, "said": one.line}) for one in found]
        print(json.dumps([{**object, "verdict": as_object(one.verdict, None) if one.verdict else None} for one, object in told]), flush=True)
    else:
        say([one.line for one in found])
    return verifying.worst(found)


def stamp(name: str) -> tuple[int, ...] | None:
    """What changes where a file does."""
    try:
        state = os.stat(name)
        return state.st_mtime_ns, state.st_size, state.st_ino
    except OSError:
        return None


def watch(options: argparse.Namespace) -> int:
    """A verdict at each change, until control-C."""
    seen = None
    while True:
        now = stamp(options.file), stamp(options.proof or options.file)
        if now == seen:
            time.sleep(PAUSE)
            continue
        if seen is not None and not options.json:
            print(f"\n--- {time.strftime('%H:%M:%S')}", flush=True)
        seen = now
        known(options)


def known(options: argparse.Namespace) -> int:
    """One verdict, or why nothing is known. The exit status."""
    try:
        return once(options)
    except BrokenPipeError:
        raise
    except OSError as fault:
        why = f"{fault.filename}: " if fault.filename else ""
        why += (fault.strerror or str(fault)).lower()
    except Refused as refused:
        why = str(refused)
    print(f"dlkt verify: {one_line(why)}", file=sys.stderr, flush=True)
    if options.json:
        say_without_verdict(options, None, [why], NOTHING_KNOWN)
    return NOTHING_KNOWN


HELP = "one verdict on a model and its proof"
EXAMPLE = "dlkt verify examples/tutorial/car/model examples/tutorial/car/strategy"


def add_words(parser: argparse.ArgumentParser) -> None:
    """The words of the command."""
    parser.add_argument("file", metavar="FILE", help="a model, or an archive of KeYmaera X")
    parser.add_argument("proof", metavar="PROOF", nargs="?", help="a strategy, a sketch, or a term; else one is searched for; none for an archive")
    parser.add_argument("--entry", metavar="NAME", help="of an archive, this entry alone")
    parser.add_argument("-o", "--output", metavar="TERM", help="where to put the term")
    parser.add_argument("--page", metavar="OUT.html", help="write a page to hand on, of the proof or of the run that breaks the model")
    add_options(parser, "-j")
    parser.add_argument("--all-solvers", action="store_true", help="wait for each solver, and print what it says")
    add_options(parser, "--seconds", "--json")
    parser.add_argument("--watch", action="store_true", help="again at each change of FILE or PROOF, until control-C")
    add_options(parser, "--dlk")


def run(options: argparse.Namespace) -> int:
    """One verdict, or one at each change."""
    return watch(options) if options.watch else known(options)
