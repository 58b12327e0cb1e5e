"""Asks z3 and cvc5 whether a question of arithmetic holds. In goes a question as SMT-LIB text, out comes `valid`, `false` with values, or `unknown`.

A question is what a solver is to find no values for: declarations and assertions, as `dlk smt` writes them for a leaf. `valid` says that there
are none, `false` that there are some. The solvers are processes that stay: each question begins with `(reset)`. All that are there are asked
side by side, the first one a little ahead, since it mostly knows at once: the first `valid` decides, and the first `false` that has values.
The others are then stopped, but where each is to be waited for. What was asked is known, and isn't asked again.

Each question has its time. What isn't answered in time is `unknown`, and the process is ended, for z3 may say `sat` falsely where its own
time is over: it is given more than it is waited for. A process that dies, or that doesn't take a question, is started again and asked once
more, and then the answer is `unknown`, too. Nothing stays behind: `Solvers` is a context manager, what is still open is closed when Python
ends, and a process whose owner is killed comes to the end of its input.

    with Solvers() as solvers:
        solvers.check("(declare-const x Real) (assert (< (* x x) 0.0))").word is Word.VALID

Nothing of this is proved. It is safe to ask from several threads at once: each is given processes of its own.
"""

import atexit
import contextlib
import itertools
import os
import re
import select
import shutil
import signal
import subprocess
import threading
import time
from enum import StrEnum
from typing import Iterable, Mapping, NamedTuple, Self, Sequence

from dlkt.program import one_line

Expression = str | list["Expression"]

SECONDS = 20.0  # for a question
AHEAD = 0.1  # seconds that the first solver has before the others are asked
LOOK = 0.2  # seconds between two looks at whether all is to end
PATIENCE = 5.0  # seconds for taking a question, and for telling values
SPARE = 2.0  # seconds that a solver is given behind those that it is waited for
MOST_LEVELS = 2_000  # brackets in brackets that a value may have


class Word(StrEnum):
    """What is said of a question."""

    VALID = "valid"
    FALSE = "false"
    UNKNOWN = "unknown"


class Reply(NamedTuple):
    """What one solver says of a question: a word; where it is false the values by which it is; of an unknown one why, where that is known; and
    how many steps it took, where the solver counts them."""

    word: Word
    values: Mapping[str, str] = {}
    why: str = ""
    steps: int = 0


class Answer(NamedTuple):
    """What is said of a question: a word, the values where it is false, and what each solver said that answered."""

    word: Word
    values: Mapping[str, str]
    by: Mapping[str, Reply]


class Kind(NamedTuple):
    """How a solver is started, how it is told its time, in milliseconds, and how it is asked for the steps that it took."""

    command: tuple[str, ...]
    options: str
    measure: str = ""


KINDS = {
    "z3": Kind(("z3", "-in", "-memory:4000"), "(set-option :timeout {})\n(set-option :pp.decimal true)\n", "(get-info :rlimit)\n"),
    "cvc5": Kind(("cvc5", "--lang=smt2", "--produce-models"), "(set-option :tlimit-per {})\n"),
}


# Questions

def questions(script: str) -> list[str]:
    """The questions in what `dlk smt` prints: one for each leaf."""
    return [question(part) for part in re.split(r"^; leaf \d+\n", script, flags=re.MULTILINE)[1:]]


def question(text: str) -> str:
    """A question without the lines that belong to a script: resetting, and asking."""
    return re.sub(r"^\((?:reset|check-sat|get-model)\)\n?", "", text, flags=re.MULTILINE)


# Values

def expressions(text: str) -> list[Expression]:
    """The expressions of a text up to a bracket that closes none: each a word, or a list of expressions."""
    stack: list[list[Expression]] = [[]]
    for token in re.findall(r"\|[^|]*\||[()]|[^\s()|]+", text):
        if token == "(":
            stack.append([])
        elif token == ")":
            if len(stack) == 1:
                break
            done = stack.pop()
            stack[-1].append(done)
        else:
            stack[-1].append(token)
    return stack[0]


def shown(value: Expression, levels: int = 0) -> str:
    """A value as one reads it."""
    if isinstance(value, str):
        return value.replace("?", "..").removesuffix(".0")
    if levels == MOST_LEVELS:
        return ".."
    parts = [shown(part, levels + 1) for part in value]
    if len(parts) == 2 and parts[0] == "-":
        return "-" + parts[1]
    if len(parts) == 3 and parts[0] == "/":
        return f"{parts[1]}/{parts[2]}"
    return "(" + " ".join(parts) + ")"


def name_of(symbol: str) -> str:
    """A variable's name, or a function's with its brackets, where the program wrote the symbol; any other as it is."""
    bare = symbol.strip("|")
    if bare.startswith("f."):
        return bare.removeprefix("f.") + "()"
    return bare.removeprefix("v.")


def values_in(said: str) -> dict[str, str]:
    """What a solver's model gives to the constants of a question."""
    values = {}
    for part in expressions(said):
        for entry in part if isinstance(part, list) else []:
            if isinstance(entry, list) and len(entry) == 5 and entry[0] == "define-fun" and entry[2] == [] and isinstance(entry[1], str):
                values[one_line(name_of(entry[1]))] = one_line(shown(entry[4]))
    return values


# Processes

OPEN: "set[Process]" = set()  # those that run


@atexit.register
def close_all() -> None:
    """Ends what is still open."""
    for process in list(OPEN):
        process.stop()


class Process:
    """A process of a solver, which is started where it is needed. It is in a group of its own, so that all of it can be ended."""

    def __init__(self, name: str) -> None:
        self.kind, self.owner = KINDS[name], os.getpid()
        self.running: subprocess.Popen[bytes] | None = None

    def start(self) -> None:
        """Has the process run. That of another process, of which this one is a copy, is left alone."""
        if self.owner != os.getpid():
            self.running, self.owner = None, os.getpid()
        if self.running is not None and self.running.poll() is not None:
            self.stop()
        if self.running is None:
            self.running = subprocess.Popen(
                self.kind.command, bufsize=0, stdin=subprocess.PIPE, stdout=subprocess.PIPE, stderr=subprocess.DEVNULL, start_new_session=True
            )
            assert self.running.stdin is not None
            os.set_blocking(self.running.stdin.fileno(), False)
            OPEN.add(self)

    def stop(self) -> None:
        """Ends the process and what it started."""
        running, self.running = self.running, None
        OPEN.discard(self)
        if running is None or self.owner != os.getpid():
            return
        with contextlib.suppress(ProcessLookupError, PermissionError):
            os.killpg(running.pid, signal.SIGKILL)
        for pipe in (running.stdin, running.stdout):
            if pipe is not None:
                pipe.close()
        running.wait()


class Talk:
    """One solver's share in a question: what it is still to be sent, what it said, and how far it is. It waits for the line that ends each
    part of what it is told: that the question was taken, the answer, and, where it is false, the values."""

    numbers = itertools.count(1)

    def __init__(self, process: Process, text: str, seconds: float, begin: float) -> None:
        self.process, self.text, self.seconds, self.begin = process, text, seconds, begin
        self.tries, self.waits_for, self.deadline = 0, "", begin
        self.unsent, self.said, self.mark = b"", b"", b""
        self.reply: Reply | None = None
        self.steps = 0

    def send(self, script: str, waits_for: str, seconds: float) -> None:
        """Has this script sent, up to a mark of its own, to be answered in time."""
        number = next(Talk.numbers)
        self.mark, self.said, self.waits_for = f"end-{number}".encode(), b"", waits_for
        self.unsent += f'{script}(echo "end-{number}")\n'.encode()
        self.deadline = time.monotonic() + seconds

    def ask(self) -> None:
        """Asks the question."""
        self.tries += 1
        self.unsent = b""
        try:
            self.process.start()
        except OSError as fault:
            self.reply = Reply(Word.UNKNOWN, why=f"can't be started: {fault.strerror}")
            return
        self.send(f"(reset)\n{self.process.kind.options.format(int(1000 * (self.seconds + SPARE)))}", "taking", PATIENCE)

    def pipes(self) -> tuple[list[int], list[int]]:
        """Where something is read, and where something can be written."""
        running = self.process.running
        if self.reply is not None or running is None or running.stdin is None or running.stdout is None:
            return [], []
        return [running.stdout.fileno()], [running.stdin.fileno()] if self.unsent else []

    def write(self) -> None:
        """Sends what can be sent."""
        running = self.process.running
        assert running is not None and running.stdin is not None
        try:
            sent = os.write(running.stdin.fileno(), self.unsent)
            self.unsent = self.unsent[sent:]
        except BlockingIOError:
            pass
        except OSError:
            self.died()

    def read(self) -> None:
        """Takes what the solver says, and goes on where a part is whole."""
        running = self.process.running
        assert running is not None and running.stdout is not None
        more = os.read(running.stdout.fileno(), 1 << 16)
        if not more:
            self.died()
            return
        self.said += more
        last = self.said[self.said.rfind(b"\n", 0, -1) + 1 :]
        if last.endswith(b"\n") and last.strip(b' "\r\n') == self.mark:
            self.whole(self.said.decode("utf-8", "replace"))

    def whole(self, said: str) -> None:
        """A part was answered whole."""
        first = said.split("\n", 1)[0].strip()
        if self.waits_for == "taking":
            logic = "" if "(set-logic" in self.text else "(set-logic ALL)\n"
            self.send(f"{logic}{self.text}\n(check-sat)\n{self.process.kind.measure}", "answer", self.seconds)
        elif self.waits_for == "values":
            self.reply = Reply(Word.FALSE, values_in(said), steps=self.steps)
        else:
            counted = re.search(r"^\(:rlimit (\d+)\)$", said, re.MULTILINE)
            self.steps = int(counted[1]) if counted else 0
            self.answered(first)

    def answered(self, first: str) -> None:
        """The solver has said this of the question."""
        if first == "unsat":
            self.reply = Reply(Word.VALID, steps=self.steps)
        elif first == "sat":
            self.send("(get-model)\n", "values", PATIENCE)
        else:
            self.reply = Reply(Word.UNKNOWN, why="" if first == "unknown" else one_line(first), steps=self.steps)

    def died(self) -> None:
        """The process ended, or doesn't take the question: it is asked once more."""
        self.process.stop()
        if self.waits_for == "values":
            self.reply = Reply(Word.FALSE)
        elif self.tries == 1:
            self.ask()
        else:
            self.reply = Reply(Word.UNKNOWN, why="the solver ends, or doesn't answer")

    def late(self) -> None:
        """The time is over."""
        if self.waits_for in ("", "taking", "values"):
            self.died()
        else:
            self.process.stop()
            self.reply = Reply(Word.UNKNOWN, why="no answer in time")


# Questions to several solvers

def there() -> list[str]:
    """The solvers that are on the path, in the order in which they are asked."""
    return [name for name in KINDS if shutil.which(name)]


def decides(reply: Reply | None, text: str) -> bool:
    """Whether a solver's reply decides a question: it is valid, or false with values for what it declares."""
    if reply is None or reply.word is Word.UNKNOWN:
        return False
    return reply.word is Word.VALID or bool(reply.values) or "(declare-" not in text


def together(by: Mapping[str, Reply]) -> Answer:
    """What several replies come to: one that knows decides, that with values first, unless they contradict each other."""
    known = [reply for reply in by.values() if reply.word is not Word.UNKNOWN]
    if len({reply.word for reply in known}) != 1:
        return Answer(Word.UNKNOWN, {}, by)
    best = max(known, key=lambda reply: bool(reply.values))
    return Answer(best.word, best.values, by)


def begin_or_end(talks: Sequence[Talk]) -> None:
    """Asks those whose time has come, or who come next where no other is at work, and ends those whose time is over."""
    now = time.monotonic()
    is_idle = not any(talk.tries and talk.reply is None for talk in talks)
    for talk in talks:
        if talk.reply is None and talk.tries and talk.deadline <= now:
            talk.late()
        elif talk.reply is None and not talk.tries and (is_idle or talk.begin <= now):
            talk.ask()
            is_idle = is_idle and talk.reply is not None


def converse(talks: Sequence[Talk], waits_for_all: bool, halt: threading.Event) -> None:
    """Has these talks go on side by side until one decides, or all are at their end."""
    while not halt.is_set():
        begin_or_end(talks)
        open_ones = [talk for talk in talks if talk.reply is None]
        if not open_ones or not waits_for_all and any(decides(talk.reply, talk.text) for talk in talks):
            return
        readers = {pipe: talk for talk in open_ones for pipe in talk.pipes()[0]}
        writers = {pipe: talk for talk in open_ones for pipe in talk.pipes()[1]}
        next_time = min(talk.deadline if talk.tries else talk.begin for talk in open_ones)
        wait = max(0.0, min(next_time - time.monotonic(), LOOK))
        can_read, can_write, _ = select.select([*readers], [*writers], [], wait)
        for pipe in can_read:
            readers[pipe].read()
        for pipe in can_write:
            if pipe in writers[pipe].pipes()[1]:
                writers[pipe].write()


class Solvers:
    """The solvers that are there, or the named ones, with their processes and with what they said so far."""

    def __init__(self, names: Iterable[str] | None = None, seconds: float = SECONDS, waits_for_all: bool = False) -> None:
        self.names = tuple(there() if names is None else names)
        self.seconds, self.waits_for_all = seconds, waits_for_all
        self.known: dict[str, tuple[Answer, float]] = {}
        self.free: list[dict[str, Process]] = []
        self.lock, self.halt = threading.Lock(), threading.Event()
        self.asked = 0

    def __enter__(self) -> Self:
        return self

    def __exit__(self, *_: object) -> None:
        self.close()

    def close(self) -> None:
        """Ends the processes, those too that other threads have at work. They are started again where more is asked."""
        with self.lock:
            crews, self.free = self.free, []
            self.halt.set()
            self.halt = threading.Event()
        for process in (process for crew in crews for process in crew.values()):
            process.stop()

    def check(self, text: str, seconds: float | None = None) -> Answer:
        """What the solvers say of a question, in so many seconds."""
        text, limit = question(text).strip("\n"), self.seconds if seconds is None else seconds
        known = self.known.get(text)
        if known is not None and (known[0].word is not Word.UNKNOWN or known[1] >= limit):
            return known[0]
        with self.lock:
            self.asked, halt = self.asked + 1, self.halt
            crew = self.free.pop() if self.free else {name: Process(name) for name in self.names}
        try:
            answer = together(self.replies(crew, text, limit, halt))
        except BaseException:
            for process in crew.values():
                process.stop()
            raise
        with self.lock:
            if not halt.is_set():
                self.free.append(crew)
                self.known[text] = answer, limit
        return answer

    def replies(self, crew: Mapping[str, Process], text: str, seconds: float, halt: threading.Event) -> dict[str, Reply]:
        """What each solver says that answers before it is decided."""
        if not crew:
            return {}
        begin = time.monotonic()
        ahead = 0.0 if self.waits_for_all else AHEAD
        talks = {name: Talk(process, text, seconds, begin + (ahead if place else 0.0)) for place, (name, process) in enumerate(crew.items())}
        converse([*talks.values()], self.waits_for_all, halt)
        for talk in talks.values():
            if halt.is_set() or talk.reply is None and talk.tries:
                talk.process.stop()
        return {name: talk.reply for name, talk in talks.items() if talk.reply is not None}

    def holds(self, text: str, seconds: float | None = None) -> bool:
        """Whether a question is valid."""
        return self.check(text, seconds).word is Word.VALID


def version_of(name: str) -> str:
    """The version that a solver tells of itself."""
    try:
        run = subprocess.run([name, "--version"], capture_output=True, timeout=10, check=False, stdin=subprocess.DEVNULL)
    except (OSError, subprocess.TimeoutExpired):
        return ""
    found = re.search(r"\d+(\.\d+)+", run.stdout.decode("utf-8", "replace"))
    return found[0] if found else ""
