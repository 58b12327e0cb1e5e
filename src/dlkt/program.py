"""What the tools share: finding and running the program, reading its reports, and telling places and sequents to people.

Nothing here is proved. The program is told by `--dlk`, else by the variable DLK of the environment, else it is that of this checkout.
"""

import argparse
import json
import os
import re
import shutil
import subprocess
import sys
import tempfile
from pathlib import Path
from typing import Any, Callable, Iterable, NamedTuple, Sequence

ROOT = Path(__file__).resolve().parent.parent.parent
BUILT = ROOT / "crates" / "dlk" / "out" / "dlk"

# The exit statuses of the program.
CLOSED, GOALS_LEFT, INPUT_REFUSED = 0, 1, 2
# The exit statuses of a tool that control-C ended, and of one whose output nobody reads, as a shell gives them.
INTERRUPTED, UNREAD = 130, 141
# How a term file begins, in version 1 and in version 2.
TERM_BEGINS = (b"1 ", b"dlk 2\n")

REFUSAL = re.compile(r"refused: (?P<what>fails|budget|strategy|model|file|subst) at (?P<byte>\d+)(?:: (?P<why>\w+))?")


# The name of a file, and the words of a command line.
Name = str | Path
Words = argparse.Namespace


class Refused(Exception):
    """Why a tool can't do its work, in one line."""


class Answer(NamedTuple):
    """How the program ended: its status, what it printed, and what it said on standard error."""

    status: int
    text: str
    complaint: str


class Refusal(NamedTuple):
    """A refusal that names a byte: what is refused (`fails`, `budget`, `strategy`, `model`), the byte, and why, where it is said."""

    what: str
    byte: int
    why: str


class Position(NamedTuple):
    """A place in a file: the byte, line and column from 1, the line itself, and a line with a caret below the place."""

    file: str
    byte: int
    line: int
    column: int
    source: str
    caret: str


def program_of(given: str | None = None) -> str:
    """The program to run: the given one, that of the environment, or the built one. Refused where it isn't there."""
    program = str(given or os.environ.get("DLK") or BUILT)
    found = shutil.which(program)
    if found is None:
        raise Refused(f"the program {program} isn't there: build it with ./dlk, or name it with --dlk or in DLK")
    return str(Path(found).resolve())


def answer(program: str, *words: Name) -> Answer:
    """What the program answers to these words."""
    try:
        run = subprocess.run([program, *map(str, words)], capture_output=True, check=False)
    except OSError as fault:
        raise Refused(f"{program} can't be run: {fault.strerror}") from fault
    return Answer(run.returncode, run.stdout.decode("utf-8", "replace"), run.stderr.decode("utf-8", "replace"))


def complaint_of(said: Answer) -> str:
    """The one line by which the program says why it gave no report."""
    lines = [line for line in (said.text + "\n" + said.complaint).split("\n") if line.strip()]
    return lines[0].strip() if lines else f"the program ends with status {said.status}, and says nothing"


def has_report(said: Answer) -> bool:
    """Whether the answer is that to an accepted proof: closed, or with goals left."""
    return said.status in (CLOSED, GOALS_LEFT)


def report_of(program: str, model: Name, term: Name) -> dict[str, Any]:
    """The report of an accepted term: its keys are conclusion, goals, leaves, lines and status."""
    said = answer(program, "report", model, term)
    if not has_report(said):
        raise Refused(complaint_of(said))
    told: dict[str, Any] = json.loads(said.text)
    return told


class Report(NamedTuple):
    """A printed report: whether the proof is closed, its goals and its leaves as texts, and how many lines the term has."""

    is_closed: bool
    goals: list[str]
    leaves: list[str]
    lines: int


def printed_report(said: Answer) -> Report:
    """The report that an answer prints. Refused where it is none, or says another number of goals or leaves than it lists."""
    first = said.text.split("\n", 1)[0]
    counts = dict(re.findall(r"^(goals|leaves|lines) (\d+)$", said.text, re.MULTILINE))
    goals, leaves = goals_in(said.text), leaves_in(said.text)
    listed = {"goals": str(len(goals)), "leaves": str(len(leaves)), "lines": counts.get("lines")}
    is_closed = said.status == CLOSED
    if not has_report(said) or counts != listed or first != ("closed" if is_closed else "open") or is_closed != (not goals):
        raise Refused(f"the program prints no report: {one_line(complaint_of(said))}")
    return Report(is_closed, goals, leaves, int(counts["lines"]))


def goals_in(text: str) -> list[str]:
    """The goals of a printed report."""
    return re.findall(r"^goal \d+ (.*)$", text, re.MULTILINE)


def leaves_in(text: str) -> list[str]:
    """The leaves of a printed report."""
    return re.findall(r"^leaf \d+ (.*)$", text, re.MULTILINE)


def refusal_in(text: str) -> Refusal | None:
    """The refusal that names a byte, or none."""
    found = REFUSAL.match(text)
    return Refusal(found["what"], int(found["byte"]), found["why"] or "") if found else None


def read_bytes(path: Name) -> bytes:
    """The bytes of a file. Refused in one line where they can't be read."""
    try:
        return Path(path).read_bytes()
    except OSError as fault:
        raise Refused(f"{path}: {(fault.strerror or str(fault)).lower()}") from fault
    except ValueError as fault:
        raise Refused(f"{path!r} can't be the name of a file") from fault


def one_line(text: str) -> str:
    """A text, as the name of a file, with escapes for what would end a line or change how it is shown."""
    return "".join(letter if letter.isprintable() else letter.encode("unicode_escape").decode() for letter in text)


def say(lines: Iterable[str]) -> None:
    """Prints lines at once."""
    for line in lines:
        print(line)
    sys.stdout.flush()


def whole(text: str) -> int:
    """A whole number from 1 on, of a command line."""
    if not re.fullmatch(r"[1-9]\d{0,5}", text):
        raise argparse.ArgumentTypeError(f"{text} is no number from 1 on")
    return int(text)


# Options that several commands have.
OPTIONS: dict[str, dict[str, Any]] = {
    "--dlk": {"metavar": "PROGRAM", "help": "the program (that of this checkout)"},
    "--seconds": {"type": whole, "default": 20, "metavar": "N", "help": "for each leaf and solver (20)"},
    "-j": {"dest": "jobs", "type": whole, "default": os.cpu_count() or 1, "metavar": "N", "help": "so many leaves at a time"},
    "--json": {"action": "store_true", "help": "print one object"},
}


def add_options(parser: argparse.ArgumentParser, *names: str, **other: Any) -> None:
    """Adds options that several commands have, otherwise in these points."""
    for name in names:
        parser.add_argument(name, **{**OPTIONS[name], **other})


def position(text: str | bytes, byte: int, file: str = "") -> Position:
    """Where a byte of a text stands, which is that of a file. The text is bytes, or a string of one byte a character."""
    data = text if isinstance(text, bytes) else text.encode("latin-1", "replace")
    at = min(byte, len(data))
    begin = data.rfind(b"\n", 0, at) + 1
    end = data.find(b"\n", at)
    before = data[begin:at].decode("utf-8", "replace")
    source = data[begin : end if end >= 0 else len(data)].decode("utf-8", "replace").rstrip("\r")
    blank = "".join("\t" if letter == "\t" else " " for letter in before)
    return Position(file, byte, data.count(b"\n", 0, at) + 1, len(before) + 1, source, blank + "^")


def at_top(text: str, marks: Sequence[str]) -> list[tuple[int, str]]:
    """Where each of these marks stands outside all brackets: its place and itself."""
    found: list[tuple[int, str]] = []
    depth = 0
    for at, letter in enumerate(text):
        depth += (letter in "([{") - (letter in ")]}")
        if depth == 0:
            found += [(at, mark) for mark in marks if text.startswith(mark, at)]
    return found


def split_list(text: str) -> list[str]:
    """The formulas of a list with commas between."""
    if not text.strip():
        return []
    found, begin = [], 0
    for at, _ in at_top(text, [","]):
        found.append(text[begin:at].strip())
        begin = at + 1
    return [*found, text[begin:].strip()]


def split_sequent(text: str) -> tuple[list[str], list[str]] | None:
    """The formulas on the left and those on the right of a sequent; none where it is no sequent."""
    arrows = at_top(text, ["==>"])
    if not arrows:
        return None
    at = arrows[0][0]
    return split_list(text[:at]), split_list(text[at + 3 :])


def numbered(sequent: str) -> tuple[list[tuple[int, str]], list[tuple[int, str]]]:
    """The formulas of a sequent, each with its place: -1, -2 and so on on the left, 1, 2 and so on on the right."""
    left, right = split_sequent(sequent) or ([], [sequent])
    places = [(-place, formula) for place, formula in enumerate(left, 1)]
    return places, list(enumerate(right, 1))


def shown(sequent: str, indent: str = "    ") -> list[str]:
    """The lines of a sequent, a formula each with its place, and the arrow between the sides."""
    left, right = numbered(sequent)
    lines = [f"{indent}{place:>3}: {formula}" for place, formula in left]
    return [*lines, f"{indent}     ==>", *(f"{indent}{place:>3}: {formula}" for place, formula in right)]


def are_same_file(name: Name, other_name: Name) -> bool:
    """Whether two names are those of one file: by name, by a link, or by another path."""
    one, other = Path(name), Path(other_name)
    try:
        if one.exists() and other.exists() and one.samefile(other):
            return True
        return one.resolve() == other.resolve()
    except (OSError, RuntimeError):
        return os.path.abspath(one) == os.path.abspath(other)


def refuse_bad_output(target: str, inputs: Sequence[Name], begins: Sequence[bytes], kind: str) -> None:
    """Refuses an output that is an input, can't be written, or has something else in it than what it is to hold: a file of this kind begins in
    one of these ways."""
    for name in inputs:
        if are_same_file(target, name):
            raise Refused(f"{target} is an input, the same file as {name}: it isn't written over")
    path = Path(target)
    if path.is_dir():
        raise Refused(f"{target}: is a directory")
    try:
        folder = path.resolve().parent
    except RuntimeError:
        raise Refused(f"{target}: too many levels of symbolic links") from None
    if not folder.is_dir():
        raise Refused(f"{target}: there is no such folder")
    if not os.access(path if path.exists() else folder, os.W_OK):
        raise Refused(f"{target}: permission denied")
    if path.is_file():
        with path.open("rb") as file:
            first = file.read(max(map(len, begins)))
        if first and not first.startswith(tuple(begins)):
            raise Refused(f"{target} holds something else than {kind}: it isn't written over; name another file, or remove it")


def put_at(data: bytes, target: Name) -> None:
    """Puts these bytes at their place, whole or not at all. What is no plain file is written to."""
    path = Path(target).resolve()
    if path.exists() and not path.is_file():
        path.write_bytes(data)
        return
    try:
        number, name = tempfile.mkstemp(prefix=f".{path.name}.", dir=path.parent)
    except OSError as fault:
        raise Refused(f"{target}: {(fault.strerror or str(fault)).lower()}") from fault
    try:
        with os.fdopen(number, "wb") as file:
            file.write(data)
        mask = os.umask(0)
        os.umask(mask)
        os.chmod(name, 0o666 & ~mask)
        os.replace(name, path)
    except BaseException:
        Path(name).unlink(missing_ok=True)
        raise


def ended(name: str, work: Callable[[Words], int], words: Words, refused: int = INPUT_REFUSED) -> int:
    """Does a tool's work, and gives its exit status: a refusal and control-C come to one line, with no trace."""
    open_streams()
    try:
        status = work(words)
        sys.stdout.flush()
        return status
    except Refused as why:
        print(f"{name}: {one_line(str(why))}", file=sys.stderr)
        return refused
    except KeyboardInterrupt:
        print(f"{name}: interrupted", file=sys.stderr)
        return INTERRUPTED
    except BrokenPipeError:
        os.dup2(os.open(os.devnull, os.O_WRONLY), sys.stdout.fileno())
        return UNREAD
    except OSError as fault:
        place = f"{fault.filename}: " if fault.filename else ""
        print(f"{name}: {one_line(place)}{fault.strerror or fault}", file=sys.stderr)
        try:
            sys.stdout.flush()
        except OSError:  # what waits can't be written: nothing more is to be said of it at the end
            os.dup2(os.open(os.devnull, os.O_WRONLY), sys.stdout.fileno())
        return refused


def open_streams() -> None:
    """Gives the tool an output and an error output where it was started without one, and lets both take every text: a letter that can't be
    written stands as its escape."""
    for name in ("stdout", "stderr"):
        if getattr(sys, name) is None:
            setattr(sys, name, open(os.devnull, "w", encoding="utf-8"))  # noqa: SIM115  (it stays open to the end)
        getattr(sys, name).reconfigure(errors="backslashreplace")
