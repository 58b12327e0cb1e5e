"""`dlkt verify ARCHIVE`: reads each entry, proves it, and says a verdict on each at the end. Nothing is written."""

from pathlib import Path
from typing import Callable, NamedTuple, Sequence

from dlkt.program import one_line
from dlkt.verdict import OPEN, REFUSED, VERIFIED, Verdict

from .folders import carried, model_file
from .models import Model
from .opening import Opened, line_at, lines_of_hints, lines_of_tactics, opened
from .proving import Attempt, Limits, attempts

Say = Callable[[Sequence[str]], None]


class Judged(NamedTuple):
    """What is said of an entry: its name, a line, the exit status, and the verdict of its last attempt, where there is one."""

    name: str
    line: str
    status: int
    verdict: Verdict | None


def verdicts_on(archive: str, entry: str | None, limits: Limits, say: Say) -> list[Judged]:
    """The verdicts on the entries of an archive. On the way the models are said, with hints, and the attempts that came to nothing."""
    return [judged(archive, one, limits, say) for one in opened(archive, entry)]


def judged(archive: str, one: Opened, limits: Limits, say: Say) -> Judged:
    """The verdict on one entry."""
    name, fault = one.read.entry.name, one.read.fault
    if one.read.model is None:
        assert fault is not None
        return Judged(name, line_at(archive, fault.place, f"{name}: refused: {fault.reason}"), REFUSED, None)
    return proved(archive, one.read.model, limits, say)


def proved(archive: str, model: Model, limits: Limits, say: Say) -> Judged:
    """The verdict on an entry that is read."""
    name, text, tactics = model.entry.name, model_file(model, Path(archive).name), carried(model)
    say([*text.rstrip("\n").split("\n")[1:], *lines_of_hints(archive, model), *lines_of_tactics(archive, model, tactics)])
    last: Attempt | None = None
    for attempt in attempts(f"{archive}: {name}", text, tactics, limits):
        if last is not None:
            say([line_of(name, last)])
        last = attempt
    assert last is not None
    status = VERIFIED if last.is_verified else last.verdict.status if last.verdict else OPEN
    return Judged(name, line_of(name, last), status, last.verdict)


def line_of(name: str, attempt: Attempt) -> str:
    """What came of an attempt."""
    return one_line(f"{name}: {attempt.said} [{attempt.how}, {attempt.seconds:.1f} s]")


def worst(found: list[Judged]) -> int:
    """The exit status of all: a refusal counts most, then what isn't verified."""
    statuses = [one.status for one in found]
    return REFUSED if REFUSED in statuses else max(statuses, default=VERIFIED)
