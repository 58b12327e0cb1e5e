"""Finds a strategy for a model, or says why there is none.

    dlkt auto MODEL [-o STRATEGY] [--sketch SKETCH] [--term TERM] [--partial] [--explain] [--seconds N] [--annotations all|loops|none] [--dlk PROGRAM]

The strategy is printed, or written to STRATEGY, which may not hold anything else than what this command wrote before. With --sketch, the words of
sketches in SKETCH (docs/AUTO.md) are turned into plain ones; TERM is where the term is put, with the terms of its lemmas in it. On standard
error a line a second says what the search is at, on a terminal always the same line; control-C ends the search, and prints what was found, with
`nil` and a comment where nothing was. --partial does that, too, where the search comes to no end. --explain says of each method that was tried why
it didn't do, and in words what the strategy does.

The exit status is 0 where a strategy was found that leaves no goals, 1 where none was, or one that leaves some, 2 where an input is refused, and
130 behind control-C.

What is found is an ordinary strategy: `dlkt verify` judges it. Nothing of the search is proved.
"""

import argparse
import contextlib
import resource
import signal
import sys
import threading
import time
from collections.abc import Iterator
from pathlib import Path

from dlkt.program import INTERRUPTED, TERM_BEGINS, Refused, add_options, one_line, program_of, put_at, read_bytes, refuse_bad_output
from dlkt.search.finding import Annotations, Finder, Found, Options, source_of
from dlkt.search.lemmas import linked
from dlkt.search.writing import explained

FOUND, NOT_FOUND = 0, 1
MARK = "/* found by dlkt auto */"
MOST_REASONS = 8
LONGEST = 100  # letters of a line that is redrawn

HELP = "a strategy for a model, found by search"
EXAMPLE = "dlkt auto examples/tutorial/car/model -o /tmp/strategy"


def add_words(parser: argparse.ArgumentParser) -> None:
    """The words of the command."""
    parser.add_argument("model", metavar="MODEL")
    parser.add_argument("-o", "--output", metavar="STRATEGY", help="where to write the strategy (standard output)")
    parser.add_argument("--sketch", metavar="SKETCH", help="a strategy whose words of sketches are turned into plain ones")
    parser.add_argument("--term", metavar="TERM", help="where to put the term, with those of lemmas in it")
    parser.add_argument("--partial", action="store_true", help="also a strategy that leaves goals")
    parser.add_argument("--explain", action="store_true", help="say why each method didn't do, and what the strategy does")
    add_options(parser, "--seconds", default=60, help="for the whole search (60)")
    parser.add_argument("--annotations", choices=[one.value for one in Annotations], default="all", help="which @invariant(..) are used (all)")
    add_options(parser, "--dlk")


class Progress:
    """A line a second on what a search is at; on a terminal always the same line."""

    def __init__(self, finder: Finder) -> None:
        self.finder, self.begin, self.ended = finder, time.time(), threading.Event()
        self.is_terminal = sys.stderr.isatty()
        self.thread = threading.Thread(target=self.run, daemon=True)

    def line(self) -> str:
        """What the search is at."""
        asked, activity = self.finder.solver.asked, one_line(self.finder.search.activity)
        return f"auto: {time.time() - self.begin:.0f} s, {asked} questions: {activity}"[:LONGEST]

    def run(self) -> None:
        """Prints until the search is over."""
        while not self.ended.wait(1.0):
            print(f"\r\x1b[K{self.line()}" if self.is_terminal else self.line(), end="" if self.is_terminal else "\n", file=sys.stderr, flush=True)

    def stop(self) -> None:
        """Ends the line."""
        self.ended.set()
        self.thread.join()
        if self.is_terminal:
            print("\r\x1b[K", end="", file=sys.stderr, flush=True)


@contextlib.contextmanager
def watched(finder: Finder) -> Iterator[None]:
    """While a search runs: its progress is told, and control-C ends it softly, and once more at once."""
    progress = Progress(finder)
    before = signal.getsignal(signal.SIGINT)

    def interrupted(*_: object) -> None:
        finder.interrupt()
        signal.signal(signal.SIGINT, before)

    signal.signal(signal.SIGINT, interrupted)
    progress.thread.start()
    try:
        yield
    finally:
        signal.signal(signal.SIGINT, before)
        progress.stop()


def refuse_bad_words(options: argparse.Namespace) -> None:
    """Refuses outputs that are inputs, or hold something else than what this command writes."""
    inputs = [name for name in (options.model, options.sketch) if name]
    if "-" in inputs:
        raise Refused("standard input isn't taken: name a file")
    if options.output:
        refuse_bad_output(options.output, inputs, (MARK.encode(),), "a strategy that this command wrote")
    if options.term:
        refuse_bad_output(options.term, [*inputs, *([options.output] if options.output else [])], TERM_BEGINS, "a term")


def told(options: argparse.Namespace, result: Found) -> None:
    """Says on standard error how the search ended."""
    used = [resource.getrusage(who) for who in (resource.RUSAGE_SELF, resource.RUSAGE_CHILDREN)]
    processor = sum(one.ru_utime + one.ru_stime for one in used)
    said = f"auto: {result.seconds:.1f} s, {processor:.1f} s of processors, {result.questions} questions, {result.calls} calls of the program"
    print(said if result.strategy else f"{said}: no strategy is found", file=sys.stderr)
    if not result.is_whole:
        for reason in [] if result.values else result.reasons[-MOST_REASONS:]:
            print(f"auto: {one_line(reason)}", file=sys.stderr)
        for line in result.values:
            print(f"auto: {one_line(line)}", file=sys.stderr)
    if options.explain:
        for step in result.story:
            print(f"auto: {step.method}: {one_line(step.why)}\n    at {one_line(step.goal)}", file=sys.stderr)
        if result.strategy:
            print(explained(result.strategy), file=sys.stderr)


def run(options: argparse.Namespace) -> int:
    """Searches, and prints or writes what was found."""
    refuse_bad_words(options)
    program = program_of(options.dlk)
    sketch = read_bytes(options.sketch).decode("latin-1") if options.sketch else None
    folder = Path(options.sketch).parent if options.sketch else Path()
    wanted = Options(options.seconds, Annotations(options.annotations), True, options.partial, program, sketch, folder)
    finder = Finder(source_of(options.model, program), wanted)
    try:
        with watched(finder):
            result = finder.found()
    finally:
        finder.stop()
    told(options, result)
    if result.strategy is not None:
        deliver(options, program, result)
    if finder.was_interrupted:
        return INTERRUPTED
    return FOUND if result.is_whole else NOT_FOUND


def deliver(options: argparse.Namespace, program: str, result: Found) -> None:
    """Prints or writes a strategy, and its term."""
    assert result.strategy is not None
    if options.output:
        put_at(f"{MARK}\n{result.strategy}\n".encode("latin-1"), options.output)
    else:
        print(result.strategy)
    if options.term:
        linked(program, options.model, result.strategy, result.lemmas, options.term)
