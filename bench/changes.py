#!/usr/bin/env python3
"""What the program answers to examples that were changed at random, always in the same way.

    python3 bench/changes.py                          10,000 terms with one byte changed, for `check`, in each version
    python3 bench/changes.py --count N [--seed S] [--parts PART ..] [--beside OTHER]
                                                      N changes of strategies, models and terms of every example, or of these parts

With --count the examples are all folders of `examples/` that have a model, those of the gallery and of the tutorial too, and the models of
`examples/models`. A term that isn't there is what `prove` writes. In turn a strategy, a model or a term is changed: a byte becomes
another one, or a word or a mark becomes another one of the same text, is left out, or stands twice. A changed strategy is run on the
model; a changed model is printed, proved by the strategy, and checked with the term; a changed term is checked. Then `check` must say of each
term that `prove` writes what `prove` said. The parts may be `script` and `lemma`, too: a script of `session` runs the strategy, goes back, runs it again,
and saves, and what is saved must be a term of so many lines for `check`; a lemma is the term, which `link` puts into the place of the model's one goal, and
`check` must say of the whole what `link` said. Where a changed term of version 2 isn't in the grammar, the first wrong line must be the one that
src/dlkt/terms.py says, unless a line before it is no step of the calculus.

With --beside each run is made by another program, too, as by that of an earlier state. It must end with the same status, and print and write the
same bytes.

Each answer must be one of those that `docs/FILES.md` and `docs/STRATEGIES.md` list, with its status, and nothing may be accepted with
another conclusion than the model. Run it after `./dlk` has built the program; another one is named by DLK.
"""
import argparse
import collections
import functools
import pathlib
import random
import re
import subprocess
import tempfile
import typing

from common import PROGRAM, TOP, answer, knows
from versioned import by_nodes, terms

CHANGES = 10_000
# a run that takes longer is a fault, and its change is printed
SECONDS = 300
EVERY = range(256)
USUAL = b"0123456789 \nxv()~>=,._&|"
REASONS = """Malformed WrongNumber NoEnd NoFact NoGoal UnknownName NoPlace WrongShape NotEqual NotFresh NotArith IllSubst FreeInSubst
NotAdmissible TooBig TooDeep SideFull GoalsFull LeavesFull LinesFull""".split()
TEXT = r" at \d+: (byte|literal|nesting|syntax|shape)|: (size|depth) \d+"
LINE = re.compile(r"refused: line [1-9][0-9]*: (" + "|".join(REASONS) + r")\n")
OTHER = re.compile(r"refused: other-conclusion [1-9][0-9]*\nexpected [^\n]*\nfound [^\n]*\n")
MODEL = re.compile(rf"refused: model(?:{TEXT})\n")
FILE = re.compile(rf"refused: file(?:{TEXT})\n")
STRATEGY = re.compile(r"refused: strategy at \d+: (syntax|nesting|repeat|unknown|arguments)\n")
FAILS = re.compile(r"refused: fails at \d+: (WrongCount|NoMatch|" + "|".join(REASONS) + r")\n")
BUDGET = re.compile(r"refused: budget at \d+\n")
TOO_LONG = re.compile(r"refused: term-too-long \d+\n")
SCRIPT = re.compile(r"refused: script line [1-9]\d*\n")
LEMMA = re.compile(r"refused: lemma line [1-9]\d*: (" + "|".join(REASONS) + r")\n")
UNLINKED = re.compile(r"refused: (?:no-goal|link: (GoalsFull|LeavesFull|LinesFull))\n")
WHYS = "|".join(("WrongCount", "NoMatch", *REASONS))
REPORTED = r"open|closed|(?:goals|leaves|lines) \d+|(?:conclusion|goal \d+|leaf \d+) .*"
REPLY = re.compile(rf"ok goals \d+|fails at \d+: (?:{WHYS})|budget at \d+|no-goal|nothing|saved \d+|{REPORTED}")
PARTS = ("strategy", "model", "term")
# the commands whose last word names what they write
WRITES = ("prove", "session", "link")
PIECE = re.compile(rb"\w+|\s+|[^\w\s]")


def kind_of(status, printed, conclusion):
    """A word for the answer of `check`, or none where it is no answer."""
    line = LINE.fullmatch(printed)
    if status == 2 and line:
        return line.group(1)
    if status == 2 and OTHER.fullmatch(printed):
        return "other-conclusion"
    word = {0: "closed", 1: "open"}.get(status)
    if word and printed.startswith(f"{word}\n{conclusion}\n"):
        return word
    return None


@functools.cache
def conclusion_of(model, term):
    """The line of the report that has the conclusion."""
    return answer("check", model, term).stdout.decode().splitlines()[1]


GRAMMAR = ("Malformed", "WrongNumber", "NoEnd")
NAMED = re.compile(r"refused: line (\d+): (\w+)\n")


def differs(changed, printed):
    """What a reading of the lines says against an answer to a term of version 2, or nothing. A step that is none comes first where it stands before
    the line that isn't in the grammar."""
    try:
        terms.read(bytes(changed))
        wrong = None
    except terms.Wrong as fault:
        wrong = fault.place, fault.why
    found = NAMED.fullmatch(printed)
    said = (int(found[1]), found[2]) if found else None
    is_of_step = said is not None and said[1] not in GRAMMAR
    if said == wrong or is_of_step and (wrong is None or said[0] < wrong[0]) or wrong is None and not found:
        return ""
    return f"the first wrong line is {wrong}"


def change_terms(version):
    """Changes one byte of a term in a version, so many times, and prints how often each answer came."""
    chance = random.Random(1)
    answers = collections.Counter()
    examples = sorted(folder.parent for folder in (TOP / "examples").glob("*/term"))
    texts = {example: (example / "term").read_bytes() for example in examples}
    if version == 2:
        texts = {example: by_nodes(text.decode("latin-1"))[0].encode("latin-1") for example, text in texts.items()}
    with tempfile.TemporaryDirectory() as name:
        term = pathlib.Path(name) / "term"
        for k in range(CHANGES):
            example = examples[k % len(examples)]
            conclusion = conclusion_of(example / "model", example / "term")
            changed = bytearray(texts[example])
            place = chance.randrange(len(changed))
            changed[place] = chance.choice([byte for byte in (EVERY if k // len(examples) % 2 else USUAL) if byte != changed[place]])
            term.write_bytes(changed)
            run = answer("check", example / "model", term)
            printed = run.stdout.decode(errors="replace")
            kind = kind_of(run.returncode, printed, conclusion)
            wrong = differs(changed, printed) if terms.version_of(bytes(changed)) == 2 else ""
            if kind is None or wrong:
                raise SystemExit(f"changes.py: {example.name}, byte {place} is {changed[place]}: status {run.returncode}, {run.stdout[:200]} {wrong}")
            answers[kind] += 1
    print(f"terms of version {version}")
    tell(answers)


def tell(answers):
    """Prints how often each answer came."""
    for kind, count in answers.most_common():
        print(f"{kind}: {count}")


class Example(typing.NamedTuple):
    """An example: its name, and its texts by their names. One of `examples/models` has a model alone."""

    name: str
    texts: dict[str, bytes]


class Fault(Exception):
    """An answer that may not come."""


class Desk:
    """A folder for the files of a run, the other program that is run beside, where there is one, and how many runs were compared with its own."""

    def __init__(self, folder, beside=None):
        self.folder, self.beside, self.compared = folder, beside, 0

    def file(self, name, text):
        """A file with this text."""
        path = self.folder / name
        path.write_bytes(text)
        return path

    def run(self, *words):
        """The status and the text that a run answers."""
        status, printed = self.answer_of(PROGRAM, words)
        if self.beside:
            self.compare(words, (status, printed))
        return status, printed.decode(errors="replace")

    def answer_of(self, program, words):
        """The status and the bytes that a run of a program answers."""
        try:
            run = subprocess.run([program, *words], capture_output=True, check=False, timeout=SECONDS)
        except subprocess.TimeoutExpired as late:
            raise Fault(f"{words[0]}: no answer in {SECONDS} seconds") from late
        return run.returncode, run.stdout

    def compare(self, words, answer):
        """Has the other program do the same, with a file of its own for what it writes."""
        *inputs, last = words
        own = self.folder / "beside" if words[0] in WRITES else last
        if words[0] in WRITES:
            own.unlink(missing_ok=True)
        other = self.answer_of(self.beside, (*inputs, own))
        if other != answer:
            raise Fault(f"{words[0]}: status {answer[0]}, {answer[1][:200]!r}; the other program: status {other[0]}, {other[1][:200]!r}")
        if words[0] in WRITES and written(own) != written(last):
            raise Fault(f"{words[0]}: the other program writes another file")
        self.compared += 1

    def conclusion(self, model):
        """The line of a report that has this model as conclusion, or none where it is no model."""
        status, printed = self.run("print", self.file("model", model))
        if status == 2 and FILE.fullmatch(printed):
            return None
        if status != 0 or not printed.endswith("\n"):
            raise Fault(f"print: status {status}, {printed[:200]!r}")
        return f"conclusion ==> {printed[:-1]}"

    def report_kind(self, verb, status, printed, model):
        """A word for a report. Its conclusion must be the model."""
        word = {0: "closed", 1: "open"}[status]
        if not printed.startswith(f"{word}\n{self.conclusion(model)}\n"):
            raise Fault(f"{verb}: accepted with another conclusion: {printed[:200]!r}")
        return word

    def check(self, model, term):
        """A word for the answer of `check` to these texts."""
        status, printed = self.run("check", self.file("model", model), self.file("term", term))
        if status in (0, 1):
            return self.report_kind("check", status, printed, model)
        return refused("check", status, printed, (LINE, OTHER, MODEL))

    def prove(self, model, strategy):
        """The same of `prove`. What it wrote is checked, and must have the same report."""
        term = self.folder / "proof"
        term.unlink(missing_ok=True)
        status, printed = self.run("prove", self.file("model", model), self.file("strategy", strategy), term)
        if status not in (0, 1):
            if term.exists():
                raise Fault(f"prove: status {status}, and a term was written")
            return refused("prove", status, printed, (MODEL, STRATEGY, FAILS, BUDGET, TOO_LONG))
        checked = self.run("check", self.folder / "model", term)
        if checked != (status, printed):
            raise Fault(f"prove said {status}, {printed[:200]!r}, and check of its term {checked[0]}, {checked[1][:200]!r}")
        return self.report_kind("prove", status, printed, model)

    def session(self, model, script):
        """Whether `session` saved a term for these texts. What it saved is a term of as many lines as it said last."""
        saved = self.folder / "saved"
        saved.unlink(missing_ok=True)
        status, printed = self.run("session", self.file("model", model), self.file("script", script), saved)
        if status not in (0, 1):
            if saved.exists():
                raise Fault(f"session: status {status}, and a term was written")
            return refused("session", status, printed, (MODEL, SCRIPT, TOO_LONG))
        lines = printed.splitlines()
        wrong = [line for line in lines if not REPLY.fullmatch(line)]
        if wrong:
            raise Fault(f"session: no reply is {wrong[0][:200]!r}")
        counts = [line.split()[1] for line in lines if line.startswith("saved ")]
        if saved.exists() != bool(counts):
            raise Fault(f"session: saved {counts}, and a file {'is' if saved.exists() else 'is not'} there")
        if counts:
            status, printed = self.run("check", self.folder / "model", saved)
            if status not in (0, 1) or not printed.endswith(f"\nlines {counts[-1]}\n"):
                raise Fault(f"session saved {counts[-1]} steps, and check says {printed[:200]!r}")
            return f"saved, {self.report_kind('check', status, printed, model)}"
        return "nothing is saved"

    def link(self, model, lemma):
        """A word for the answer of `link` where the lemma is to prove the model's one goal. What it wrote is checked, and must have the same report."""
        conclusion = self.conclusion(model).removeprefix("conclusion ")
        whole = self.folder / "whole"
        whole.unlink(missing_ok=True)
        term, other = self.file("term", f"1 start {conclusion}\ndone\n".encode()), self.file("lemma", lemma)
        status, printed = self.run("link", self.file("model", model), term, other, whole)
        if status not in (0, 1):
            if whole.exists():
                raise Fault(f"link: status {status}, and a term was written")
            return refused("link", status, printed, (LEMMA, UNLINKED, TOO_LONG))
        checked = self.run("check", self.folder / "model", whole)
        if checked != (status, printed):
            raise Fault(f"link said {status}, {printed[:200]!r}, and check of its term {checked[0]}, {checked[1][:200]!r}")
        return self.report_kind("link", status, printed, model)


def written(path):
    """What a run wrote, or nothing where it wrote no file."""
    return path.read_bytes() if path.exists() else None


def refused(verb, status, printed, forms):
    """A word for a refusal, which must have one of these forms."""
    for form in forms:
        found = form.fullmatch(printed)
        if status == 2 and found:
            what = printed.split()[1].rstrip(":")
            return " ".join([what, *(word for word in found.groups() if word)])
    raise Fault(f"{verb}: status {status}, {printed[:200]!r}")


def examples_in(desk):
    """All examples with their texts. Where there is a strategy and no term, `prove` writes one; a model may stand alone."""
    for model in sorted((TOP / "examples").rglob("model")):
        folder = model.parent
        texts = {part: (folder / part).read_bytes() for part in ("model", "strategy", "term") if (folder / part).exists()}
        if len(texts) == 1:
            yield Example(str(folder.relative_to(TOP / "examples")), texts)
            continue
        if "term" not in texts:
            desk.prove(texts["model"], texts["strategy"])
            texts["term"] = (desk.folder / "proof").read_bytes()
        texts["lemma"] = texts["term"]
        if "strategy" in texts:
            run = b"apply 1 " + b" ".join(texts["strategy"].split())
            texts["script"] = b"\n".join((run, b"undo", run, b"show", b"save", b""))
        yield Example(str(folder.relative_to(TOP / "examples")), texts)
    for model in sorted((TOP / "examples" / "models").iterdir()):
        yield Example(f"models/{model.name}", {"model": model.read_bytes()})


def with_byte(chance, text, bytes_from):
    """The text with a byte that became another one, and where it stands."""
    place = chance.randrange(len(text))
    byte = chance.choice([byte for byte in bytes_from if byte != text[place]])
    return text[:place] + bytes([byte]) + text[place + 1:], f"byte {place} became {byte}"


def with_piece(chance, text):
    """The text with a word or a mark that became another one of the text, is left out, or stands twice; and what became of it."""
    pieces = [found for found in PIECE.finditer(text) if not found[0].isspace()]
    old = chance.choice(pieces)
    new = chance.choice((chance.choice(pieces)[0], b"", old[0] + b" " + old[0]))
    return text[:old.start()] + new + text[old.end():], f"{old[0]!r} at {old.start()} became {new!r}"


def changed(chance, text):
    """A changed text, and how it was changed."""
    way = chance.randrange(4)
    if way < 2:
        return with_byte(chance, text, EVERY if way else USUAL)
    return with_piece(chance, text)


def answers_to(desk, part, texts):
    """The commands that read the part of an example that was changed, and what each answers."""
    if part == "model":
        yield "print", "refused" if desk.conclusion(texts["model"]) is None else "printed"
    if part in ("model", "strategy") and "strategy" in texts:
        yield "prove", desk.prove(texts["model"], texts["strategy"])
    if part in ("model", "term") and "term" in texts:
        yield "check", desk.check(texts["model"], texts["term"])
    if part == "script":
        yield "session", desk.session(texts["model"], texts["script"])
    if part == "lemma":
        yield "link", desk.link(texts["model"], texts["lemma"])


def change_all(count, seed, parts, beside):
    """Changes a text of an example, so many times, and prints how often each command gave each answer. These parts of all examples have
    their turns, one after another. Another program may be run beside."""
    chance = random.Random(seed)
    answers = collections.Counter()
    with tempfile.TemporaryDirectory() as name:
        desk = Desk(pathlib.Path(name), beside)
        try:
            examples = list(examples_in(desk))
        except Fault as fault:
            raise SystemExit(f"changes.py: the examples as they are: {fault}") from fault
        turns = [(example, part) for part in parts for example in examples if part in example.texts]
        for k in range(count):
            example, part = turns[k % len(turns)]
            text, how = changed(chance, example.texts[part])
            try:
                for verb, kind in answers_to(desk, part, {**example.texts, part: text}):
                    answers[f"a changed {part}, {verb}: {kind}"] += 1
            except Fault as fault:
                raise SystemExit(f"changes.py: change {k}, {example.name}, {part}, {how}: {fault}") from fault
        print(f"{count} changes of {len(turns)} texts of {len(examples)} examples, seed {seed}")
        if beside:
            print(f"{desk.compared} runs beside {beside}: each with the same status, bytes and file")
    for kind, times in sorted(answers.items(), key=lambda one: (one[0].split(":")[0], -one[1])):
        print(f"{kind}: {times}")


def main():
    """Changes terms, or all that the examples have."""
    parser = argparse.ArgumentParser(description="What the program answers to examples that were changed at random.")
    parser.add_argument("--count", type=int, help="changes of strategies, models and terms of every example (none: of terms alone)")
    parser.add_argument("--seed", type=int, default=1, help="where the changes begin (1)")
    every = (*PARTS, "script", "lemma")
    parser.add_argument("--parts", nargs="+", choices=every, help="which texts are changed, with --count (strategy model term)")
    parser.add_argument("--beside", metavar="OTHER", type=pathlib.Path, help="another program that must answer alike, with --count")
    options = parser.parse_args()
    if (options.parts or options.beside) and options.count is None:
        parser.error("--parts and --beside want --count")
    if options.beside and not options.beside.is_file():
        parser.error(f"{options.beside}: no such program")
    if options.count is None:
        change_terms(1)
        if knows("convert"):
            change_terms(2)
    else:
        change_all(options.count, options.seed, options.parts or PARTS, options.beside and options.beside.resolve())


if __name__ == "__main__":
    main()
