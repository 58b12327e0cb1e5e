"""The one verdict on a model and its proof: whether it is closed, guarded, and each leaf valid by a solver and false by none.

In go a model and a proof as bytes with their names, and options; the proof is a strategy, or a term, a linked one, too, which its first bytes
tell. Out comes a `Verdict`, which is data: `dlkt.commands.verify` prints it. What is found is handed on as it is found, to whom it may concern:
first how the proof ended (a `Proof` or a `Fault`), then each `Leaf`, then the `Guard`, and then each `Hint`.

    verdict_on(Source("model", b"x>=0 -> x>=0"), Source("strategy", b"implyR(1); close"), Options(program_of())).status == VERIFIED

All commands of the program work on copies of these bytes, and no input is ever written. Nothing here is proved but what the program proves: that
the proof is closed, and what the guard's line says.
"""

import os
import re
import tempfile
from concurrent.futures import ThreadPoolExecutor
from enum import StrEnum
from functools import cached_property
from pathlib import Path
from typing import Callable, Iterator, Mapping, NamedTuple, Sequence, Union

from dlkt import hints, leaves
from dlkt.failing import state_at
from dlkt.program import INPUT_REFUSED, Answer, Position, Refused, answer, complaint_of, has_report, position, printed_report, refusal_in
from dlkt.solvers import Solvers, version_of
from dlkt.terms import Lemma, lemmas_in, readable
from dlkt.words import lines_of, runs_in, words_of_lines

VERIFIED, OPEN, REFUSED, NOT_VERIFIED, NOTHING_KNOWN, REFUTED = 0, 1, 2, 3, 4, 5


class Outcome(StrEnum):
    """How a proof ends."""

    CLOSED = "closed"
    OPEN = "open"
    REFUSED = "refused"


class Kind(StrEnum):
    """What a proof is."""

    STRATEGY = "strategy"
    TERM = "term"


class Source(NamedTuple):
    """A file: the name by which it is told, and its bytes."""

    name: str
    data: bytes


class Options(NamedTuple):
    """How a verdict is found: the program; seconds for each leaf; how many leaves are asked at a time; whether all solvers are waited for; what
    the proof is, where its bytes shouldn't tell; and a term that was there before, for the hints at it."""

    program: str
    seconds: float = 20
    jobs: int = os.cpu_count() or 1
    waits_for_all: bool = False
    kind: Kind | None = None
    old_term: Source | None = None


class Proof(NamedTuple):
    """A proof that the program takes: how it ends, how many lines its term has, the goals that are left, and the lemmas that are linked in."""

    outcome: Outcome
    lines: int
    goals: Sequence[str]
    lemmas: Sequence[Lemma]


class Fault(NamedTuple):
    """Why a model or a proof is refused: what the program printed, the file, why in a word, the place where one is told, the goals on which a
    word fails; and of a branch that has another number of parts than there are goals both numbers."""

    text: str
    file: str
    why: str
    place: Position | None
    goals: Sequence[str] = ()
    parts: int | None = None
    count_of_goals: int | None = None


class Maker(NamedTuple):
    """A word of a strategy that made something, and its place."""

    word: str
    place: Position


class Leaf(NamedTuple):
    """A leaf: its number, its text, what the solvers say, and where it isn't valid the words that made it."""

    number: int
    text: str
    said: leaves.LeafAnswer
    made_by: Sequence[Maker]


class Guard(NamedTuple):
    """What the guard says; of an unguarded line its number, why, and which word made it, where that is known."""

    text: str
    is_guarded: bool
    line: int | None = None
    why: str | None = None
    made_by: Maker | None = None


class Hint(NamedTuple):
    """What looks wrong, and has no influence on the verdict."""

    place: Position
    text: str


Piece = Union[Proof, Fault, Leaf, Guard, Hint]
Tell = Callable[[Piece], None]


class Verdict(NamedTuple):
    """All that is known of a model and its proof. `term` is that which was made, or given, and is empty where the proof is refused."""

    model: Source
    proof: Source
    kind: Kind
    outcome: Outcome
    found: Proof | Fault
    term: bytes
    leaves: Sequence[Leaf]
    solvers: Mapping[str, str]
    guard: Guard | None
    hints: Sequence[Hint]
    reasons: Sequence[str]
    rests_on: Sequence[str]
    status: int

    @property
    def is_verified(self) -> bool:
        """Whether it is verified."""
        return self.status == VERIFIED


def kind_of(data: bytes) -> Kind:
    """What a proof of these bytes is: no strategy begins as a term does."""
    return Kind.TERM if re.match(rb"\xef?\xbb?\xbf?(?:\d+ |dlk 2\r?\n)", data) else Kind.STRATEGY


class Work:
    """What is known of a model and its proof, as it is found out. It works on copies, so that all commands see the same bytes."""

    def __init__(self, sources: tuple[Source, Source], options: Options, folder: Path, tell: Tell) -> None:
        self.model_source, self.proof_source = sources
        self.options, self.program, self.folder, self.tell = options, options.program, folder, tell
        self.kind, self.strategy = options.kind or kind_of(self.proof_source.data), self.proof_source.data.decode("latin-1")
        self.model, self.proof, self.term = (folder / name for name in ("model", "proof", "term"))
        self.model.write_bytes(self.model_source.data)
        self.proof.write_bytes(self.proof_source.data)
        self.leaves, self.hints = list[Leaf](), list[Hint]()
        self.solvers: Mapping[str, str] = {}
        self.guard: Guard | None = None

    def prove(self) -> Proof | Fault:
        """Runs the strategy, or replays the term. Refused where the program says neither a report nor a refusal."""
        if self.kind is Kind.STRATEGY:
            said = answer(self.program, "prove", self.model, self.proof, self.term)
        else:
            self.term.write_bytes(self.proof_source.data)
            said = answer(self.program, "check", self.model, self.term)
        if said.status == INPUT_REFUSED and said.text.startswith("refused: "):
            return self.fault(said.text)
        if not has_report(said):
            raise Refused(self.without_folder(complaint_of(said)))
        self.report, found = said.text, printed_report(said)
        lemmas = lemmas_in(self.term.read_bytes()) if self.kind is Kind.TERM else []
        self.texts = found.leaves
        return Proof(Outcome.CLOSED if found.is_closed else Outcome.OPEN, found.lines, found.goals, lemmas)

    def without_folder(self, text: str) -> str:
        """A text of the program without the folder of the copies."""
        return text.replace(f"{self.folder}{os.sep}", "")

    def place(self, source: Source, byte: int) -> Position:
        """Where a byte of a file stands."""
        return position(source.data, byte, source.name)

    def fault(self, text: str) -> Fault:
        """What is known of a refusal."""
        first = self.without_folder(text.split("\n", 1)[0])
        is_model = re.match(r"refused: (too-long )?model\b", first)
        source = self.model_source if is_model else self.proof_source
        told = Fault(first, source.name, first.removeprefix("refused: "), None)
        line = re.match(r"refused: (?:line|other-conclusion) (\d+)", first)
        refusal = refusal_in(text)
        if line and self.kind is Kind.TERM:
            before = source.data.split(b"\n")[: int(line[1]) - 1]
            return told._replace(place=self.place(source, sum(len(it) + 1 for it in before)))
        if refusal is None:
            return told
        told = told._replace(place=self.place(source, refusal.byte), why=refusal.why or refusal.what)
        if refusal.what == "strategy" and refusal.why == "arguments":
            inner = hints.fault_in_quotes(self.program, self.strategy, refusal.byte)
            return told._replace(place=self.place(source, inner.byte), why=inner.text) if inner else told
        state = state_at(self.program, self.model, self.strategy, refusal) if refusal.what == "fails" else None
        if state is None:
            return told
        goals = [f"{', '.join(left)} ==> {', '.join(right)}".strip() for left, right in state.goals]
        return told._replace(goals=goals, parts=state.parts, count_of_goals=state.count)

    def ask(self) -> None:
        """Asks the guard and the solvers. Each leaf is told as it is answered."""
        with ThreadPoolExecutor(2) as pool, Solvers(seconds=self.options.seconds, waits_for_all=self.options.waits_for_all) as solvers:
            guard = pool.submit(answer, self.program, "guard", self.model, self.term)
            assumptions = pool.submit(lambda: [*hints.of_assumptions(self.program, self.model_source.data, solvers)])
            for leaf in self.asked_leaves(solvers):
                self.leaves.append(leaf)
                self.tell(leaf)
            self.guard = self.guarded(guard.result())
            self.tell(self.guard)
            for hint in assumptions.result():
                self.add(self.model_source, hint)

    def asked_leaves(self, solvers: Solvers) -> Iterator[Leaf]:
        """The leaves with the solvers' answers."""
        if not self.texts:
            return
        self.solvers = {solver: version_of(solver) for solver in solvers.names}
        scripts = leaves.scripts_of(self.program, self.model, self.term, self.texts) if solvers.names else [leaves.Script(None)] * len(self.texts)
        for number, (text, said) in enumerate(zip(self.texts, leaves.asked(scripts, solvers, self.options.jobs)), 1):
            yield Leaf(number, text, said, [] if said.word in ("valid", leaves.NOT_ASKED) else self.makers(text))

    def makers(self, text: str) -> list[Maker]:
        """The words that made a leaf of this text, each with its place."""
        made = [word for line, word in zip(self.lines, self.words) if line == ("leaf", text) and word]
        return [Maker(word, self.place(self.proof_source, byte)) for byte, word in dict.fromkeys(made)]

    def guarded(self, said: Answer) -> Guard:
        """What the guard says; of an unguarded line also which word made it."""
        if not has_report(said):
            raise Refused(complaint_of(said))
        first, _, report = said.text.partition("\n")
        found = re.fullmatch(r"unguarded line ([1-9]\d*): (.+)", first)
        lines = printed_report(Answer(said.status, report, "")).lines
        if report != self.report or not (found or first == "guarded") or (found and int(found[1]) > lines):
            raise Refused("guard doesn't print what it should: its word, and the report that was printed before")
        if not found:
            return Guard(first, True)
        made = self.words[int(found[1]) - 1]
        return Guard(first, False, int(found[1]), found[2], Maker(made[1], self.place(self.proof_source, made[0])) if made else None)

    @cached_property
    def lines(self) -> list[tuple[str, str]]:
        """The lines of the term that was made, or given, as those of version 1."""
        return lines_of(readable(self.term.read_bytes()))

    @cached_property
    def words(self) -> list[tuple[int, str] | None]:
        """For each line of the term the word that made it, or none."""
        made = runs_in(self.program, self.model, self.strategy, readable(self.term.read_bytes())) if self.kind is Kind.STRATEGY else None
        return words_of_lines(made, len(self.lines))

    def add(self, source: Source, hint: hints.Hint) -> None:
        """Adds a hint, and tells it."""
        self.hints.append(Hint(self.place(source, hint.byte), hint.text))
        self.tell(self.hints[-1])

    def look(self) -> None:
        """Looks for what seems wrong."""
        is_strategy, old, guard = self.kind is Kind.STRATEGY, self.options.old_term, self.guard
        sources = {"model": self.model_source, "strategy": self.proof_source}
        term = old if is_strategy else self.proof_source
        if term:
            sources["term"] = term
        files = hints.Files(self.model_source.data, self.proof_source.data if is_strategy else None, term.data if term else None)
        found = hints.hints(self.program, self.model, files, guard is not None and guard.is_guarded)
        if guard and not guard.is_guarded and is_strategy:
            told = (guard.made_by.place.byte if guard.made_by else None), (guard.why or "").rpartition(" ")[2]
            found += hints.of_invariants(self.lines, self.words, told)
        for hint in found:
            self.add(sources[hint.file], hint)


def verdict_on(model: Source, proof: Source, options: Options, tell: Tell = lambda piece: None) -> Verdict:
    """Finds out everything, and tells each piece as it is found. Refused where nothing can be known."""
    with tempfile.TemporaryDirectory() as folder:
        work = Work((model, proof), options, Path(folder), tell)
        found = work.prove()
        tell(found)
        if isinstance(found, Proof):
            work.ask()
        work.look()
        term = b"" if isinstance(found, Fault) else work.term.read_bytes()
    status, reasons = judged(found, work.leaves, work.guard)
    outcome = Outcome.REFUSED if isinstance(found, Fault) else found.outcome
    rests = rests_on(work.leaves, work.solvers) if status == VERIFIED else []
    return Verdict(model, proof, work.kind, outcome, found, term, work.leaves, work.solvers, work.guard, work.hints, reasons, rests, status)


# Judging

def counted(number: int, word: str) -> str:
    """A number of things."""
    several = {"leaf": "leaves"}.get(word, word + "s")
    return f"{number} {word if number == 1 else several}"


def is_said_of(leaf: Leaf) -> str:
    """What is said of a leaf that isn't valid."""
    return {leaves.POWER: "has no text for a solver", leaves.NOT_ASKED: "wasn't asked"}.get(leaf.said.word, f"is {leaf.said.word}")


def refused_in_short(fault: Fault) -> str:
    """What a refusal comes to."""
    if fault.text.startswith("refused: fails"):
        return "the strategy fails"
    if fault.text.startswith("refused: term-too-long"):
        return "the term would be too long"
    if fault.text.startswith("refused: other-conclusion"):
        return "the term proves something else than the model"
    what = re.match(r"refused: (?:too-long )?(model|strategy|term|line)\b", fault.text)
    return f"the {what[1].replace('line', 'term') if what else 'strategy'} is refused"


def judged(found: Proof | Fault, all_leaves: Sequence[Leaf], guard: Guard | None) -> tuple[int, list[str]]:
    """The exit status, and what keeps the proof from being verified."""
    if isinstance(found, Fault):
        return REFUSED, [refused_in_short(found)]
    reasons = [f"{counted(len(found.goals), 'goal')} left"] if found.goals else []
    reasons += [f"leaf {leaf.number} {is_said_of(leaf)}" for leaf in all_leaves if leaf.said.word != "valid"]
    if guard is None or not guard.is_guarded:
        reasons.append(f"line {guard.line if guard else 1} isn't guarded")
    return (OPEN if found.goals else NOT_VERIFIED if reasons else VERIFIED), reasons


def rests_on(all_leaves: Sequence[Leaf], solvers: Mapping[str, str]) -> list[str]:
    """What a verdict rests on."""
    ground = ["dlk", "docs/SOUNDNESS.md (on paper)"]
    for solver, version in solvers.items():
        valid = sum(leaf.said.by.get(solver) == "valid" for leaf in all_leaves)
        if valid:
            ground.append(f"{solver} {version}".strip() + f" ({valid} of {counted(len(all_leaves), 'leaf')})")
    if any(leaf.said.computed for leaf in all_leaves):
        ground.append("dlkt leaves (exponents)")
    return ground
