#!/usr/bin/env python3
"""A program like `dlk` whose `session` is done by the `prove` of the program that DLK names: all strategies so far are one strategy, anew for each line.

It is for comparison, as a plain reading of what docs/FILES.md says of sessions: it shares no code with the program, is slow, and doesn't count the atoms
of strategies that fail. All other commands are the program's own.
"""

import os
import re
import subprocess
import sys
import tempfile
from pathlib import Path

PROGRAM = os.environ["DLK"]
LINE = re.compile(rb"apply ([1-9]\d{0,8}) (.*)", re.DOTALL)
GOALS = re.compile(rb"^goals (\d+)$", re.MULTILINE)


class Session:
    """The lines that are done: for each the goal, the strategy and how many goals there were before."""

    def __init__(self, model, folder):
        self.model, self.done, self.folder = model, [], Path(folder)
        self.text, self.term = self.proved([])

    def proved(self, done):
        """What `prove` prints of these lines, and the term that it makes, or none."""
        strategy, term = self.folder / "strategy", self.folder / "term"
        strategy.write_bytes(self.strategy(done))
        term.unlink(missing_ok=True)
        run = subprocess.run([PROGRAM, "prove", self.model, strategy, term], capture_output=True, check=False)
        return run.stdout, term.read_bytes() if term.exists() else None

    @staticmethod
    def strategy(done):
        """The one strategy of these lines: in each the other goals are passed over."""
        parts = [b"<(" + b"nil," * (goal - 1) + b"(" + text + b")" + b",nil" * (count - goal) + b")" for goal, text, count in done]
        return b";".join([b"nil", *parts])

    def goals(self):
        """How many goals are left."""
        return int(GOALS.search(self.text)[1])

    def apply(self, goal, text):
        """The reply to a strategy on a goal."""
        if goal > self.goals():
            return b"no-goal"
        done = [*self.done, (goal, text, self.goals())]
        said, term = self.proved(done)
        failed = re.fullmatch(rb"refused: (fails|budget) at (\d+)(.*)\n", said)
        if failed:
            begin = len(self.strategy(done)) - len(b")" + b",nil" * (self.goals() - goal) + b")") - len(text)
            return failed[1] + b" at %d" % (int(failed[2]) - begin) + failed[3]
        self.done, self.text, self.term = done, said, term
        return b"ok goals %d" % self.goals()

    def undo(self):
        """The reply to `undo`."""
        if not self.done:
            return b"nothing"
        self.done = self.done[:-1]
        self.text, self.term = self.proved(self.done)
        return b"ok goals %d" % self.goals()


def is_strategy(text, folder):
    """Whether a text is a strategy, as the program says."""
    model, strategy = Path(folder) / "true", Path(folder) / "tried"
    model.write_bytes(b"true")
    strategy.write_bytes(text)
    run = subprocess.run([PROGRAM, "prove", model, strategy, os.devnull], capture_output=True, check=False)
    return not run.stdout.startswith(b"refused: strategy ")


def replies(session, lines):
    """The replies to lines, and the term that is saved, or none."""
    said, saved = [], None
    for line in lines:
        found = LINE.fullmatch(line)
        if found:
            said.append(session.apply(int(found[1]), found[2]))
        elif line == b"undo":
            said.append(session.undo())
        elif line == b"show":
            said.append(session.text.rstrip(b"\n"))
        else:
            saved = session.term
            steps = sum(step[:1].isdigit() for step in saved.split(b"\n"))
            said.append(b"saved %d" % steps)
    return said, saved


def session(model, script, term):
    """Answers `session MODEL SCRIPT TERM`."""
    with tempfile.TemporaryDirectory() as folder:
        state = Session(model, folder)
        if state.term is None:
            sys.stdout.buffer.write(state.text)
            return 2
        lines = Path(script).read_bytes().split(b"\n")
        lines = lines if lines[-1] else lines[:-1]
        for number, line in enumerate(lines, 1):
            found = LINE.fullmatch(line)
            if not (is_strategy(found[2], folder) if found else line in (b"undo", b"show", b"save")):
                print(f"refused: script line {number}")
                return 2
        said, saved = replies(state, lines)
        sys.stdout.buffer.write(b"".join(reply + b"\n" for reply in said))
        if saved is not None:
            Path(term).write_bytes(saved)
        return 0 if state.goals() == 0 else 1


def main():
    """Answers the words."""
    if sys.argv[1:2] == ["session"] and len(sys.argv) == 5:
        return session(*sys.argv[2:])
    return subprocess.run([PROGRAM, *sys.argv[1:]], check=False).returncode


if __name__ == "__main__":
    raise SystemExit(main())
