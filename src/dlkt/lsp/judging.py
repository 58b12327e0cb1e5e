"""What there is to say of a text: where it can't be read, where a strategy fails and on which goals, what isn't guarded, which leaf is false.

In comes an open text, out come findings in steps, each with a line for the top of the text and marks at their places: first what `dlk` says, then
the guard and the hints, then the solvers. So the fast part shows while a solver still works, and whoever asks drops the rest when the text has
changed. What a solver said of a leaf is kept, by the leaf's text, and so is what was found of a pair of texts.
"""

import functools
import tempfile
from pathlib import Path
from typing import Iterator, NamedTuple

from dlkt import hints, reader, strategies
from dlkt.failing import Goal, marked, new_name, state_by, up_to
from dlkt.leaves import NOT_ASKED, POWER, WAY_OUT, asked, listed, scripts_of
from dlkt.lsp.documents import Document, Documents, Kind
from dlkt.lsp.texts import Json, letter_of_byte, range_of, word_at
from dlkt.program import Answer, Refusal, Refused, answer, complaint_of, goals_in, has_report, printed_report, program_of, refusal_in
from dlkt.search.finding import Options, expand_sketch
from dlkt.search.sketches import is_sketch
from dlkt.semantics.apart import Apart
from dlkt.solvers import Solvers, Word
from dlkt.terms import readable
from dlkt.trees import Trees
from dlkt.words import lines_of, runs_in, words_of_lines

MOST_GOALS = 3  # goals that a mark tells
RUN_SECONDS, RUN_ROUNDS = 5, 3  # for a run that breaks a model
LOOK = 0.3  # seconds between two looks at whether there is one
SKETCH_SECONDS = 20.0  # for what stands in the place of `auto`


class Mark(NamedTuple):
    """Something to say at a place of a text: `error`, `warning`, `information` or `hint`."""

    uri: str
    place: Json
    severity: str
    text: str


class Found(NamedTuple):
    """What is known so far: a line for the top of the text, and the marks."""

    line: str
    marks: list[Mark]


class Proof:
    """A strategy that runs: what was printed, and the files of the model and of the term. Which word made which line is looked for when it is
    asked for, since most proofs have nothing to say of a line."""

    def __init__(self, program: str, said: Answer, folder: Path, text: str) -> None:
        self.program, self.said, self.text = program, said, text
        self.model, self.made = folder / "model", folder / "term"

    @functools.cached_property
    def lines(self) -> list[tuple[str, str]]:
        """The lines of the term, in full."""
        return lines_of(self.term)

    @functools.cached_property
    def term(self) -> str:
        """The term, as one of version 1."""
        return readable(self.made.read_bytes())

    @functools.cached_property
    def words(self) -> list[tuple[int, str] | None]:
        """For each line of the term the byte and the text of the word that made it."""
        return words_of_lines(runs_in(self.program, self.model, self.text.encode().decode("latin-1"), self.term), len(self.lines))


def shown_goal(goal: Goal) -> str:
    """A goal on one line."""
    left, right = goal
    return " ".join(part for part in (", ".join(left), "==>", ", ".join(right)) if part)


def mark_at(document: Document, byte: int, severity: str, text: str) -> Mark:
    """A mark at a byte of a text, under the word there."""
    letter = letter_of_byte(document.text, byte)
    _, end = word_at(document.text, letter)
    return Mark(document.uri, range_of(document.text, letter, max(end, min(letter + 1, len(document.text)))), severity, text)


class Judgement:
    """Judges texts; it keeps the solvers and what they said. `close` ends them."""

    def __init__(self, program: str | None, seconds: float) -> None:
        self.program = program_of(program)
        self.solvers = Solvers(seconds=seconds)
        self.answers: dict[str, tuple[str, str]] = {}
        self.formulas: dict[str, str] = {}

    def close(self) -> None:
        """Ends the solvers."""
        self.solvers.close()

    def of(self, document: Document, documents: Documents) -> Iterator[Found]:
        """What there is to say of a text, step by step."""
        if document.kind == Kind.MODEL:
            yield from self.of_model(document)
        elif document.kind == Kind.STRATEGY:
            yield from self.of_strategy(document, documents)
        elif document.kind == Kind.SCRIPT:
            yield from self.of_script(document, documents)
        else:
            yield from self.of_archive(document)

    # Models

    def of_model(self, document: Document) -> Iterator[Found]:
        """Whether a model can be read, the hints on it, and a run that breaks it, which is looked for in a process of its own. What is known stays
        the same meanwhile, and is given again and again, so that whoever asks can stop."""
        with tempfile.TemporaryDirectory() as folder:
            model = Path(folder) / "model"
            model.write_text(document.text, encoding="utf-8")
            said = answer(self.program, "print", model)
            if said.status == 0:
                found = hints.hints(self.program, model, hints.Files(model.read_bytes(), None, None), True)
                marks = [mark_at(document, it.byte, "information", it.text) for it in found if it.file == "model"]
                known = Found(self.sort_of(document.text), marks)
                yield known
                yield from self.of_run(document, model, known)
                return
        refusal = refusal_in(said.text)
        text = said.text.strip() or complaint_of(said)
        byte = refusal.byte if refusal else 0
        yield Found("this is no formula", [mark_at(document, byte, "error", f"{text}: no formula goes on like this here")])

    def of_run(self, document: Document, model: Path, known: Found) -> Iterator[Found]:
        """What is known of a model, and then the run that breaks it, where one is found."""
        with Apart(model, RUN_SECONDS, RUN_ROUNDS) as search:
            while (told := search.answer(LOOK)) is None:
                yield known
        run = told.get("run")
        if run:
            text = "\n".join([f"{told['status']}, by this run:", *run["lines"]])
            yield Found(f"{told['status']}: a run breaks it (the mark at the first line)", [*known.marks, mark_at(document, 0, "error", text)])

    def sort_of(self, text: str) -> str:
        """What a model says in short: its annotations are counted."""
        try:
            _, notes = reader.model(text, Trees())
        except reader.Wrong:
            return "a formula"
        return f"a formula, {len(notes)} annotation{'s' * (len(notes) != 1)}" if notes else "a formula"

    # Strategies

    def of_strategy(self, document: Document, documents: Documents) -> Iterator[Found]:
        """Where a strategy fails, or what its proof rests on."""
        path = documents.model_of(document)
        model = documents.text_of(path) if path else None
        if model is None:
            yield Found("no model", [mark_at(document, 0, "warning", "no model is beside this strategy: name it, as /* model: PATH */")])
            return
        if is_sketch(document.text):
            yield Found("a sketch: the action at a word as auto puts in its place what is found", [])
            return
        with tempfile.TemporaryDirectory() as name:
            folder = Path(name)
            (folder / "model").write_text(model, encoding="utf-8")
            (folder / "strategy").write_text(document.text, encoding="utf-8")
            said = answer(self.program, "prove", folder / "model", folder / "strategy", folder / "term")
            if not has_report(said):
                yield self.of_refusal(document, folder, said)
                return
            yield from self.of_proof(document, Proof(self.program, said, folder, document.text))

    def of_refusal(self, document: Document, folder: Path, said: Answer) -> Found:
        """Why a strategy doesn't run, at its place."""
        text = said.text.strip() or complaint_of(said)
        refusal = refusal_in(said.text)
        if refusal is None or refusal.what == "model":
            return Found("not verified", [mark_at(document, 0, "error", f"the model: {text}" if refusal else text)])
        told = [text.removeprefix("refused: ")]
        if refusal.what == "fails":
            told += [f"on {shown_goal(goal)}" for goal in self.goals_at(folder / "model", document.text, refusal)[:MOST_GOALS]]
        files = hints.Files((folder / "model").read_bytes(), document.text.encode(), None)
        found = hints.hints(self.program, folder / "model", files, True)
        marks = [mark_at(document, it.byte, "hint", it.text) for it in found if it.file == "strategy"]
        line = "the strategy fails" if refusal.what == "fails" else "the strategy can't be read"
        return Found(f"not verified: {line}", [mark_at(document, refusal.byte, "error", "\n".join(told)), *marks])

    def goals_at(self, model: Path, text: str, refusal: Refusal) -> list[Goal]:
        """The goals on which a strategy fails."""
        state = state_by(lambda shortened: self.made(model, shortened), text, refusal.byte, model.read_text(encoding="latin-1"))
        return state.goals if state else []

    def made(self, model: Path, strategy: str) -> tuple[str, bytes] | None:
        """What is printed of a strategy, and its term; none where it fails."""
        with tempfile.TemporaryDirectory() as name:
            folder = Path(name)
            (folder / "strategy").write_text(strategy, encoding="utf-8")
            said = answer(self.program, "prove", model, folder / "strategy", folder / "term")
            return (said.text, (folder / "term").read_bytes()) if has_report(said) else None

    def of_proof(self, document: Document, proof: Proof) -> Iterator[Found]:
        """What a proof rests on, step by step."""
        report = printed_report(proof.said)
        marks: list[Mark] = []
        for goal in report.goals[:MOST_GOALS]:
            marks.append(mark_at(document, len(document.text.rstrip().encode()) - 1, "information", f"left: {goal}"))
        goals = f"{len(report.goals)} goal{'s' * (len(report.goals) != 1)} left"
        yield Found("closed, asking guard and solvers .." if report.is_closed else goals, list(marks))
        marks += self.of_guard(document, proof)
        is_guarded = not any(it.severity == "warning" for it in marks)
        files = hints.Files(proof.model.read_bytes(), document.text.encode(), None)
        for it in hints.hints(self.program, proof.model, files, is_guarded):
            if it.file == "strategy":
                marks.append(mark_at(document, it.byte, "hint", it.text))
        yield Found("closed, asking the solvers .." if report.is_closed else goals, list(marks))
        bad = 0
        for told in self.of_leaves(document, proof, report.leaves):
            marks.append(told)
            bad += 1
            yield Found("closed, asking the solvers .." if report.is_closed else goals, list(marks))
        yield Found(self.verdict(report.is_closed, goals, is_guarded, len(report.leaves), bad), list(marks))

    def verdict(self, is_closed: bool, goals: str, is_guarded: bool, leaves: int, bad: int) -> str:
        """The line for the top of a strategy that runs."""
        reasons = [goals] if not is_closed else []
        reasons += ["a line isn't guarded"] if not is_guarded else []
        reasons += [f"{bad} of {leaves} leaves not valid"] if bad else []
        if reasons:
            return "not verified: " + "; ".join(reasons)
        return f"verified: closed, guarded, {leaves} leaves valid" if leaves else "verified: closed, guarded, no leaves"

    def of_guard(self, document: Document, proof: Proof) -> list[Mark]:
        """A mark at the word whose line isn't guarded."""
        first = answer(self.program, "guard", proof.model, proof.made).text.split("\n", 1)[0]
        if not first.startswith("unguarded line "):
            return []
        number, _, why = first.removeprefix("unguarded line ").partition(": ")
        word = proof.words[int(number) - 1] if int(number) <= len(proof.words) else None
        return [mark_at(document, word[0] if word else 0, "warning", f"unguarded: line {number} of the term, {why} (docs/SOUNDNESS.md)")]

    def of_leaves(self, document: Document, proof: Proof, leaves: list[str]) -> Iterator[Mark]:
        """A mark at the word of each leaf that no solver finds valid."""
        scripts = scripts_of(self.program, proof.model, proof.made, leaves) if any(leaf not in self.answers for leaf in leaves) else []
        for number, leaf in enumerate(leaves):
            if leaf not in self.answers:
                said = next(asked([scripts[number]], self.solvers))
                why = {POWER: WAY_OUT, NOT_ASKED: "no solver is there: install z3 or cvc5"}.get(said.word, said.word)
                self.answers[leaf] = said.word, f"false at {listed(said.values)}" if said.values else why
            word, text = self.answers[leaf]
            if word != Word.VALID:
                made = [it for line, it in zip(proof.lines, proof.words) if line == ("leaf", leaf) and it]
                severity = "error" if word == Word.FALSE else "warning"
                yield mark_at(document, made[0][0] if made else 0, severity, f"leaf {number + 1}: {leaf}: {text}")

    # Scripts and archives

    def of_script(self, document: Document, documents: Documents) -> Iterator[Found]:
        """What a session answers to a script, at the line that fails."""
        path = documents.model_of(document)
        model = documents.text_of(path) if path else None
        if model is None:
            yield Found("no model", [mark_at(document, 0, "warning", "no model is beside this script: the file `model`")])
            return
        with tempfile.TemporaryDirectory() as name:
            folder = Path(name)
            (folder / "model").write_text(model, encoding="utf-8")
            (folder / "script").write_text(document.text, encoding="utf-8")
            said = answer(self.program, "session", folder / "model", folder / "script", folder / "term")
        lines = said.text.split("\n")
        marks, at = [], 0
        for number, line in enumerate(document.text.split("\n")):
            reply = lines[number] if number < len(lines) else ""
            if reply.startswith(("fails", "budget", "no-goal", "refused")):
                marks.append(mark_at(document, at, "error", reply))
            at += len(line.encode()) + 1
        if said.text.startswith("refused: script line "):
            number = int(said.text.split()[3].rstrip(":\n"))
            at = len("\n".join(document.text.split("\n")[: number - 1]).encode()) + (number > 1)
            marks = [mark_at(document, at, "error", said.text.strip())]
        yield Found("runs" if not marks else "a line fails", marks)

    def of_archive(self, document: Document) -> Iterator[Found]:
        """Where an archive can't be read."""
        try:
            from dlkt.archive.models import models
            from dlkt.archive.tree import Refused as Unread
        except ImportError:
            yield Found("archives want Debian's python3-lark", [])
            return
        try:
            found = models(document.text)
        except Unread as why:
            yield Found("this is no archive", [self.unread(document, why.place, why.reason)])
            return
        marks = [self.unread(document, it.fault.place, it.fault.reason) for it in found if it.fault is not None]
        yield Found(f"{len(found)} entr{'y' if len(found) == 1 else 'ies'}, {len(marks)} refused", marks)

    def unread(self, document: Document, place: tuple[int, int], reason: str) -> Mark:
        """A mark at a line and a column of an archive, both from 1 on."""
        line, column = place
        letter = sum(len(it) + 1 for it in document.text.split("\n")[: line - 1]) + column - 1
        return mark_at(document, len(document.text[:letter].encode()), "error", reason)

    # Goals and axioms

    def goals_round(self, model: str, text: str, byte: int) -> tuple[list[Goal], list[Goal]] | None:
        """The goals before and behind the word at a byte of a strategy; none where nothing is known of it."""
        try:
            way = strategies.way_to(strategies.read(text), byte)
        except strategies.Wrong:
            return None
        if way is None:
            return None
        name, found = new_name(text, model), []
        with tempfile.TemporaryDirectory() as folder:
            path = Path(folder) / "model"
            path.write_text(model, encoding="utf-8")
            for last in ("{1}", "{0}; {1}"):
                made = self.made(path, up_to(text, way, f'cut("{name}()")', f"({last})"))
                found.append(marked(goals_in(made[0]), name) if made else [])
        return found[0], found[1]

    def expanded(self, model: str, sketch: str) -> str | None:
        """A sketch as a plain strategy, by the search; none where nothing is found."""
        with tempfile.TemporaryDirectory() as folder:
            path = Path(folder) / "model"
            path.write_text(model, encoding="utf-8")
            try:
                found = expand_sketch(path, sketch, Options(seconds=SKETCH_SECONDS, program=self.program))
            except Refused:
                return None
        return found.strategy if found.is_whole and not found.lemmas else None

    def axiom(self, name: str) -> str | None:
        """The formula of an axiom, as the program has it; none where it has none of this name."""
        if name not in self.formulas:
            with tempfile.TemporaryDirectory() as name_of_folder:
                folder = Path(name_of_folder)
                (folder / "model").write_text("true\n")
                (folder / "term").write_text(f"1 axiom {name}\ndone\n")
                said = answer(self.program, "check", folder / "model", folder / "term").text
            self.formulas[name] = said.split("found ==> ", 1)[1].strip() if "found ==> " in said else ""
        return self.formulas[name] or None
