"""Writes a page to hand on: one file, for a browser without a network, with all that there is to say of a proof.

    dlkt page MODEL PROOF > page.html
    dlkt page MODEL PROOF --output PAGE [--title TITLE] [--seconds N] [-j N] [--dlk PROGRAM]

PROOF is a strategy, or a term. What the page has is told in docs/INSTALL.md ("A page to hand on"). Each formula stands on it once: what is shown of
goals and leaves is made from there, by the page's script. A PAGE that is an input, or has something else than a page in it, isn't written over.

`dlkt verify --page` writes such a page, too; where it finds no proof, one on the run that breaks the model, or on what was tried.

The exit status is 0 where a page is written, also of a proof that isn't verified, 2 where there is no proof to write of, or none can be
made, in one line that says why, and 130 behind control-C. Nothing of this is proved, but what the program proves.
"""

import argparse
import hashlib
import html
import os
import tempfile
from concurrent.futures import ThreadPoolExecutor
from functools import cached_property
from pathlib import Path
from typing import TYPE_CHECKING, Mapping, NamedTuple, Sequence

from dlkt import reader, strategies
from dlkt.commands.print import printed_model
from dlkt.commands.tree import UNTOLD, Drawing, Sequent, Table, Told, filled, part, refuse_bad_page, script_data, summary, told_by, tree, trees_of, write_page
from dlkt.commands.verify import source_of, why_refused, why_unguarded
from dlkt.layout import WIDTH
from dlkt.leaves import listed
from dlkt.program import Position, Refused, add_options, answer, has_report, position, program_of, report_of
from dlkt.semantics import plot, runs
from dlkt.strategies import Branch, Choice, Part
from dlkt.terms import in_version_1
from dlkt.verdict import Fault, Guard, Kind, Leaf, Options, Proof, Source, Verdict, counted, verdict_on
from dlkt.words import Run, runs_in

if TYPE_CHECKING:
    from dlkt.search.finding import Found as Search
    from dlkt.search.proofs import NotFound

GOALS_SHOWN = 4  # of so many runs of a word the goals are shown
Section = tuple[str, str, str]  # of a page: its name for links, its heading, and what it has


class Visit(NamedTuple):
    """A word of the strategy: its first byte, its text, on how many goals it ran, and the first of these."""

    byte: int
    word: str
    runs: int
    goals: Sequence[Sequent]


# A strategy that fails

def shortened(source: str, byte: int) -> str | None:
    """The strategy up to the part that begins at a byte, which does nothing there; each byte before it keeps its place. None where that can't be
    had."""
    try:
        way = strategies.way_to(strategies.read(source), byte)
    except strategies.Wrong:
        return None
    if way is None:
        return None
    text = list(source)

    def put(begin: int, end: int, instead: str) -> None:
        """Puts this and blanks in the stead of a part."""
        text[begin:end] = instead.ljust(end - begin)

    for here, below in zip(way, way[1:]):
        later: Sequence[Part] = here.parts[here.parts.index(below) + 1 :] if isinstance(here, (Branch, Choice, strategies.Sequence)) else ()
        if isinstance(here, Branch):
            for one in later:
                put(one.begin, one.end, "nil")
        elif later:
            put(below.end, later[-1].end, "")
    put(way[-1].begin, way[-1].end, "nil")
    return "".join(text)


# What there is to say

class Found:
    """What there is to say of a proof, as far as it goes: its strategy, where it is known, its term, the words that made its lines, and its tree.
    Refused where there is none."""

    def __init__(self, verdict: Verdict, program: str, title: str) -> None:
        self.verdict, self.program, self.title = verdict, program, title
        self.strategy = verdict.proof.data if verdict.kind is Kind.STRATEGY else b""
        self.term, self.goals = verdict.term, list(verdict.found.goals)
        self.runs: list[Run] = []
        with tempfile.TemporaryDirectory() as folder:
            self.place = Path(folder)
            self.model = self.place / "model"
            self.model.write_bytes(verdict.model.data)
            self.run = self.strategy.decode("latin-1")
            if isinstance(verdict.found, Fault):
                self.prove_again(verdict.found)
            self.drawing = Drawing(self.term)
            self.table = Table(self.drawing)
            self.trees = trees_of(self.drawing.term)
            if self.strategy:
                self.runs = runs_in(program, self.model, self.run, self.text) or []
            self.visits = self.visits_of()

    def prove_again(self, fault: Fault) -> None:
        """Makes the term of the strategy up to where it fails."""
        where = f"{fault.place.file}:{fault.place.line}:{fault.place.column}: " if fault.place else ""
        run = shortened(self.run, fault.place.byte) if fault.place and fault.text.startswith(("refused: fails", "refused: budget")) else None
        if run is None:
            raise Refused(f"{where}{fault.text}")
        strategy, term = self.place / "strategy", self.place / "term"
        strategy.write_text(run, encoding="latin-1")
        if not has_report(answer(self.program, "prove", self.model, strategy, term)):
            raise Refused(f"{where}{fault.text}")
        self.run, self.term = run, term.read_bytes()

    @cached_property
    def text(self) -> str:
        """The term as one of version 1."""
        return in_version_1(self.drawing.term)

    @property
    def told(self) -> Told:
        """The words that made the lines."""
        return told_by(self.runs, self.strategy) if self.runs else UNTOLD

    def sequent(self, text: str) -> Sequent:
        """A sequent by its text."""
        left, right = reader.sequent(text, self.trees)
        return tuple(left), tuple(right)

    def visits_of(self) -> list[Visit]:
        """The words of the strategy that made lines, in the order of its text, with the goals on which they ran: as the tree has them, and where
        it doesn't know them whole as the program tells them."""
        by_byte, by_line = dict[int, list[Run]](), dict[int, Run]()
        for run in self.runs:
            by_byte.setdefault(run.byte, []).append(run)
            by_line.update(dict.fromkeys(range(run.first, run.last + 1), run))
        wanted = [run for those in by_byte.values() for run in those[:GOALS_SHOWN]]
        goals = dict[Run, Sequent]()
        for node in self.drawing.nodes:
            here = by_line.get(node.line)
            if here is not None and here not in goals and node.kind != "again" and node.sequent and None not in (*node.sequent[0], *node.sequent[1]):
                goals[here] = node.sequent
        goals |= self.goals_before([run for run in wanted if run not in goals])
        return [Visit(byte, those[0].word, len(those), [goals[run] for run in those[:GOALS_SHOWN]]) for byte, those in sorted(by_byte.items())]

    def goals_before(self, runs: Sequence[Run]) -> dict[Run, Sequent]:
        """The goals on which runs of words worked: each of the line before the first one, as the program tells it."""
        lines = self.text.split("\n")

        def goal(run: Run) -> str:
            """The text of a goal."""
            term = self.place / f"term{run.first}"
            term.write_text("\n".join([*lines[: run.first - 1], "done", ""]), encoding="latin-1")
            return str(report_of(self.program, self.model, term)["goals"][run.goal - 1])

        with ThreadPoolExecutor(os.cpu_count() or 1) as pool:
            try:
                return {run: self.sequent(said) for run, said in zip(runs, pool.map(goal, runs))}
            except BaseException:
                pool.shutdown(wait=False, cancel_futures=True)
                raise

    def shown(self, sequent: Sequent) -> str:
        """The place on the page where the script shows a sequent."""
        self.table.lay_out(sequent)
        return f'<div class="sequent" data-sequent="{self.table.sequent(sequent)}"></div>'


def title_of(model: str) -> str:
    """What a page is called: as the model's folder, where the file itself is only called a model."""
    return Path(model).resolve().parent.name if Path(model).stem == "model" else Path(model).stem


# The parts of the page

def source(data: bytes) -> str:
    """A text as it was written, which the page's script sets."""
    return f'<span class="text">{html.escape(data.decode("utf-8", "replace"))}</span>'


def code(text: str) -> str:
    """A formula, a statement or values, which the page's script sets."""
    return f'<code class="text">{html.escape(text)}</code>' if text else ""


def table(heads: Sequence[str], rows: Sequence[Sequence[str]]) -> str:
    """A table of cells."""
    first = "".join(f"<th>{head}</th>" for head in heads)
    return f"<table><tr>{first}</tr>" + "".join(f"<tr>{''.join(f'<td>{cell}</td>' for cell in row)}</tr>" for row in rows) + "</table>"


def model(data: bytes) -> Section:
    """The model, laid out."""
    return ("model", "Model", f'<pre class="source">{source(printed_model(data.decode("latin-1"), WIDTH).encode("latin-1"))}</pre>')


def resting(rows: Sequence[tuple[str, str]], path: str) -> Section:
    """What a verdict rests on: these, and the program."""
    data = Path(path).read_bytes()
    program = f'dlk, {len(data):,} bytes, sha256 <span class="hash">{hashlib.sha256(data).hexdigest()}</span>'
    return ("rests", "What it rests on", "<dl>" + "\n".join(f"<dt>{name}</dt><dd>{said}</dd>" for name, said in [*rows, ("Program", program)]) + "</dl>")


def where(place: Position) -> str:
    """A place, told to people who don't have the file's path."""
    return f"{Path(place.file).name}, line {place.line}, column {place.column}"


def goals_left(found: Found, goals: Sequence[str], what: str) -> str:
    """Goals with their numbers."""
    return "".join(f'<div class="left"><b>{what} {number}</b>{found.shown(found.sequent(goal))}</div>' for number, goal in enumerate(goals, 1))


def said_of_proof(found: Found, proof: Proof) -> str:
    """How a proof ends that the program takes."""
    lines = counted(proof.lines, "line")
    made = f"The program made a term of {lines}" if found.strategy else f"The term has {lines}, and the program replays it"
    if proof.goals:
        return f'<b class="bad">open</b>. {made}. Left are {counted(len(proof.goals), "goal")}: {goals_left(found, proof.goals, "goal")}'
    said = f"<b>{proof.outcome}</b>. {made}. That it prints <code>closed</code> only where the model is derived"
    return said + " in the written calculus from exactly the leaves below is proved."


def said_of_lemmas(proof: Proof) -> str:
    """Which lines of a linked proof are those of lemmas."""
    said = "<b>linked</b>. This proof has lemmas that were proved by themselves and put in: "
    lemmas = [(f"lines {it.first:,} to {it.last:,}", counted(it.goals, "goal"), code(it.conclusion)) for it in proof.lemmas]
    return said + "".join(f"<div>{lines}: {goals} proved with {conclusion}</div>" for lines, goals, conclusion in lemmas)


def said_of_fault(found: Found, fault: Fault) -> str:
    """Where and why a strategy fails."""
    place = f"{html.escape(where(fault.place))}: " if fault.place else ""
    lines = f'<pre class="source">{html.escape(fault.place.source)}\n<b class="bad">{html.escape(fault.place.caret)}</b></pre>' if fault.place else ""
    met = goals_left(found, fault.goals[:GOALS_SHOWN], "it meets goal" if fault.parts is not None else "it fails on goal")
    said = f'<b class="bad">the strategy fails</b>. {place}{html.escape(why_refused(fault))}. {lines}{met}'
    return said + f"<p>The proof below is that of the strategy up to there: {counted(len(found.drawing.lines) - 1, 'line')}.</p>"


def said_of_guard(guard: Guard) -> str:
    """What the guard says."""
    if guard.is_guarded:
        said = "<b>guarded</b>. No line rests on a place where the written calculus isn't sound over the reals. That this prints so only where the"
        return said + " definition of guarded holds is proved; that it is enough is argued on paper, in docs/SOUNDNESS.md."
    made = f" Made by <code>{html.escape(guard.made_by.word)}</code>, {html.escape(where(guard.made_by.place))}." if guard.made_by else ""
    return f'<b class="bad">{html.escape(guard.text)}</b>{html.escape(why_unguarded(guard))}.{made}'


def rests(found: Found) -> Section:
    """What the verdict rests on, or what is known of the parts of one that isn't."""
    verdict, rows = found.verdict, list[tuple[str, str]]()
    if isinstance(verdict.found, Fault):
        rows.append(("Proof", said_of_fault(found, verdict.found)))
    else:
        rows.append(("Proof", said_of_proof(found, verdict.found)))
        rows += [("Lemmas", said_of_lemmas(verdict.found))] if verdict.found.lemmas else []
    if verdict.guard:
        rows += [("Guard", said_of_guard(verdict.guard)), ("Leaves", leaves_in_short(verdict))]
    rows += [("Hint", f"{html.escape(where(hint.place))}: {html.escape(hint.text)}") for hint in verdict.hints]
    return resting(rows, found.program)


def by_solvers(verdict: Verdict) -> str:
    """How many leaves each solver calls valid."""
    by = [
        f"{html.escape(f'{solver} {version}'.strip())} calls {sum(leaf.said.by.get(solver) == 'valid' for leaf in verdict.leaves)} of them valid"
        for solver, version in verdict.solvers.items() if any(solver in leaf.said.by for leaf in verdict.leaves)
    ]
    return "; ".join(by) or "no solver was there to ask"


def valid_of(verdict: Verdict) -> str:
    """How many of the leaves are valid."""
    valid = sum(leaf.said.word == "valid" for leaf in verdict.leaves)
    mood = "" if valid == len(verdict.leaves) else ' class="bad"'
    return f"<b{mood}>{valid} of {len(verdict.leaves)} valid</b>"


def leaves_in_short(verdict: Verdict) -> str:
    """What is said of the leaves together."""
    if not verdict.leaves:
        return "<b>none</b>. No fact of arithmetic is assumed."
    all_of = counted(len(verdict.leaves), "fact") + " of arithmetic"
    return f"{valid_of(verdict)}. The proof assumes {all_of}: {by_solvers(verdict)}. That a solver is right isn't proved."


def answers_to(leaf: Leaf, solvers: Sequence[tuple[str, str]]) -> str:
    """What each solver says of a leaf that answered."""
    rows, said = list[str](), leaf.said
    for solver, version in solvers:
        word = said.by.get(solver) or (said.word if not said.by else "")
        if word:
            mood = {"valid": "good", "false": "bad"}.get(word, "bad" if said.word != "valid" else "quiet")
            rows.append(f'<div><span>{html.escape(f"{solver} {version}".strip())}</span><b class="{mood}">{html.escape(word)}</b></div>')
        values = listed(said.values_by.get(solver, {}))
        if values:
            rows.append(f'<div class="values">at {html.escape(values)}</div>')
    if said.computed:
        rows.append(f'<div class="quiet">with {html.escape(", ".join(f"{new} for {old}" for old, new in said.computed))}</div>')
    return "".join(rows) or f'<div class="bad">{html.escape(said.word)}</div>'


def leaves(found: Found) -> str:
    """The leaves, each with the answers to it: folded behind their number where all are valid."""
    verdict = found.verdict
    if verdict.guard is None:
        return '<p class="note">They weren\'t asked for: the strategy fails.</p>'
    if not verdict.leaves:
        return '<p class="note">There are none.</p>'
    rows = [
        f'<div class="leaf"><b>{leaf.number}</b>{found.shown(found.sequent(leaf.text))}'
        f'<div class="answers">{answers_to(leaf, list(verdict.solvers.items()))}</div></div>'
        for leaf in sorted(verdict.leaves, key=lambda leaf: (leaf.said.word == "valid", leaf.number))
    ]
    is_open = " open" if any(leaf.said.word != "valid" for leaf in verdict.leaves) else ""
    first = f"{counted(len(verdict.leaves), 'leaf')}, {valid_of(verdict)}: {by_solvers(verdict)}"
    return f"<details{is_open}><summary>{first}</summary>{''.join(rows)}</details>"


def strategy(found: Found) -> str:
    """The strategy, in which each word that made lines is a button, and beside it the goals of that word."""
    data = found.strategy.rstrip()
    if not data:
        return '<p class="note">The proof was given as a term, without the strategy that made it.</p>'
    out, end = list[str](), 0
    fault = found.verdict.found if isinstance(found.verdict.found, Fault) else None
    for number, visit in enumerate(found.visits):
        name = visit.word.partition("(")[0].strip().encode("latin-1")
        out += [source(data[end : visit.byte]), f'<button class="atom" data-word="{number}">{html.escape(name.decode("latin-1"))}</button>']
        end = visit.byte + len(name)
    rest = source(data[end:])
    if fault and fault.place and fault.place.byte >= end:
        at = fault.place.byte
        word = strategies.NAME.match(data.decode("latin-1"), at)
        behind = word.end() if word else at + 1
        rest = f'{source(data[end:at])}<mark id="fails" title="it fails here">{source(data[at:behind])}</mark>'
        rest += f'<span class="after">{source(data[behind:])}</span>'
    beside = '<div id="goals"></div>' if found.visits else '<p class="note">Which word made which line of the term isn\'t known.</p>'
    return f'<div class="beside"><pre class="source">{"".join(out)}{rest}</pre><div>{beside}</div></div>'


def visits(found: Found) -> list[list[object]]:
    """The words for the page's script, in the order of the buttons: the text, the place, on how many goals it ran, and the numbers of the first."""
    told = []
    for visit in found.visits:
        place = position(found.strategy, visit.byte)
        for goal in visit.goals:
            found.table.lay_out(goal)
        told.append([visit.word, place.line, place.column, visit.runs, [found.table.sequent(goal) for goal in visit.goals]])
    return told


def files(all_of: Mapping[str, bytes], note: str, known: Sequence[str] = ()) -> Section:
    """The files, with what is needed to check them again. The script has those that are known."""
    rows = [
        [name, f"{len(data):,}", f'<code class="hash">{hashlib.sha256(data).hexdigest()}</code>', f'<button data-file="{name}">save</button>']
        for name, data in all_of.items() if data
    ]
    texts = {name: data.decode("latin-1") for name, data in all_of.items() if data and name not in known}
    return ("files", "Files", (
        table(("File", "Bytes", "sha256", ""), rows) +
        f'<p class="note">This page was made by a script of which nothing is proved, and checks nothing itself. {note}</p>'
        f'<script type="application/json" id="texts">{script_data(texts)}</script>'
    ))


def verdict_line(verdict: Verdict) -> tuple[str, str, str]:
    """The mood, the word and the reasons of the verdict."""
    linked = " The proof is a linked one." if isinstance(verdict.found, Proof) and verdict.found.lemmas else ""
    if not verdict.is_verified:
        return "bad", "not verified", "; ".join(verdict.reasons) + (f".{linked}" if linked else "")
    said = f"{counted(len(verdict.leaves), 'leaf')} valid" if verdict.leaves else "no leaves"
    return "good", "verified", f"closed, guarded, {said}" + (f".{linked}" if linked else "")


def shell(title: str, said: tuple[str, str, str], sections: Sequence[Section], *scripts: str) -> str:
    """The text of a page: the mood, the word and the reasons of its verdict, and these sections."""
    mood, word, why = said
    parts = {
        "name": html.escape(title), "mood": mood, "word": word, "why": html.escape(why), "style": part("tree.css", "page.css"), "script": part(*scripts),
        "links": "".join(f'<a href="#{name}">{heading}</a>' for name, heading, _ in sections),
        "sections": "\n".join(f'<section id="{name}"><h2>{heading}</h2>\n{text}\n</section>' for name, heading, text in sections),
    }
    return filled(part("page.html"), **parts)


def page(found: Found) -> str:
    """The text of the page. The tree comes last, since it has the formulas of all other parts."""
    first = [model(found.verdict.model.data), rests(found), ("strategy", "Strategy", strategy(found)), ("leaves", "Leaves", leaves(found))]
    given: dict[str, object] = {"visits": visits(found)}
    given |= found.table.given(12, found.told)
    proof = ("proof", "Proof", f'<p class="note">{summary(found.drawing)}.</p>\n{tree(given)}')
    all_of = {"model": found.verdict.model.data, "strategy": found.strategy, "term": found.term}
    doubt = "Whoever doubts it saves the model and the term, and asks <code>dlk guard model term</code>: the answer depends on these two files alone."
    last = files(all_of, doubt if found.verdict.guard else "", ["term"] if found.term == found.table.text().encode("latin-1") else [])
    return shell(found.title, verdict_line(found.verdict), [*first, proof, last], "typeset.js", "page.js", "goals.js")


# Where no proof is found

def run_of(run: runs.Run) -> Section:
    """A run that breaks the model, as a table that can be followed by hand, and its picture."""
    first = [runs.Row("at first", said=runs.values_text(run.first))] if run.first else []
    rows = [*first, *runs.step_rows(run), runs.Row("fails", run.fails, said="; ".join(run.sides))]
    cells = [[row.heading, code(row.statement), html.escape(row.time), code(row.said)] for row in rows]
    note = "It can be followed by hand. A number with ~ before it is rounded."
    picture = plot.drawn(run)
    said = "Time goes across. Dashed are the sides of what fails; shaded are the systems, with their domains above."
    figure = f"<figure>{picture}<figcaption>{said}</figcaption></figure>" if picture else ""
    return ("run", "A run that breaks it", f'<p class="note">{note}</p>{table(("", "Statement", "It ran", "Values then"), cells)}{figure}')


def said_of_run(run: runs.Run) -> str:
    """How the numbers of a run were computed."""
    if not run.is_exact:
        return f'<b class="bad">by numbers</b>: {runs.accuracy_text(run.accuracy)}. It isn\'t exact: look at it.'
    return "<b>exact</b>. Each step was computed again with its numbers, by fractions, or by z3's exact arithmetic where a number is a root of a polynomial."


def tried(result: "Search") -> Section:
    """What a search tried that found nothing."""
    told = result.told or {"status": "nothing found", "tried": "there was no answer in time"}
    rows = [[step.method, html.escape(step.why), code(step.goal)] for step in result.story]
    rows.append(["a run that breaks the model", html.escape(f"{told['status']}: {told['tried']}"), ""])
    ends = "".join(f"<li>{html.escape(reason)}</li>" for reason in result.reasons)
    return ("tried", "What was tried", f"<ul>{ends}</ul>{table(('Method', 'What came of it', 'Goal'), rows)}")


def hints(those: Sequence[str]) -> Section:
    """What is said of the model's annotations."""
    note = "Each is looked at by itself, from any state in which it holds. The program may never come there: it is a hint and no more."
    return ("hints", "Annotations", f'<p class="note">{note}</p><ul>{"".join(f"<li>{html.escape(one)}</li>" for one in those)}</ul>')


def page_without_proof(model_file: Source, found: "NotFound", program: str) -> str:
    """The text of the page of a model that a run breaks, or for which no proof is found."""
    told, sections = found.result.told or {}, [model(model_file.data)]
    if found.is_refuted:
        run = runs.run_of(told["run"])
        by = "" if run.is_exact else f"by numbers: {runs.accuracy_text(run.accuracy)}. It isn't exact"
        said, ask = ("bad", "refuted", by or "a run breaks the model"), "follows the run by hand, or saves the model and asks <code>dlkt refute model</code>"
        sections += [run_of(run), resting([("Run", said_of_run(run))], program)]
    else:
        said, ask = ("bad", "not verified", "no proof is found"), "saves the model and asks <code>dlkt verify model</code>"
        sections += [tried(found.result), resting([], program)]
    sections += [hints(told["hints"])] if told.get("hints") else []
    sections.append(files({"model": model_file.data}, f"Whoever doubts it {ask}."))
    return shell(title_of(model_file.name), said, sections, "escaped.js", "typeset.js", "page.js")


def written_without_proof(model_file: Source, found: "NotFound", path: str, program: str) -> None:
    """Writes the page of a model for which no proof is found. Refused where the file is one that isn't written over."""
    refuse_bad_page(path, (model_file.name, program))
    write_page(path, page_without_proof(model_file, found, program))


def written(verdict: Verdict, path: str, program: str | None = None, title: str | None = None) -> None:
    """Writes the page of a verdict to a file, or to standard output, which is `-`. Refused where there is no proof to write of, or the file is one
    that isn't written over."""
    known = program or program_of()
    refuse_bad_page(path, (verdict.model.name, verdict.proof.name, known))
    write_page(path, page(Found(verdict, known, title or title_of(verdict.model.name))))


HELP = "writes a page of a proof, to hand on"
EXAMPLE = "dlkt page examples/tutorial/car/model examples/tutorial/car/strategy -o /tmp/car.html"


def add_words(parser: argparse.ArgumentParser) -> None:
    """The words of the command."""
    parser.add_argument("model", metavar="MODEL")
    parser.add_argument("proof", metavar="PROOF", help="a strategy, or a term")
    parser.add_argument("-o", "--output", metavar="PAGE", default="-", help="where to write it (standard output)")
    parser.add_argument("--title", help="what the page is called")
    add_options(parser, "--seconds", "-j", "--dlk")


def run(options: argparse.Namespace) -> int:
    """Writes the page."""
    program = program_of(options.dlk)
    refuse_bad_page(options.output, (options.model, options.proof, program))
    verdict = verdict_on(source_of(options.model), source_of(options.proof), Options(program, options.seconds, options.jobs))
    written(verdict, options.output, program, options.title)
    return 0
