#!/usr/bin/env python3
"""Stands in for the program in tests of dlkt prompt: `session` and `prove` on a few goals, with the answers that docs/FILES.md has for them.

It knows what the strategies of `KNOWN` make of the goals there, a mark where one fails, and nothing else.
"""

import re
import sys
from pathlib import Path

KNOWN = {
    ("==> x>=0 -> x>=0&true", "implyR(1)"): ["x>=0 ==> x>=0&true"],
    ("x>=0 ==> x>=0&true", "andR(1)"): ["x>=0 ==> x>=0", "x>=0 ==> true"],
    ("x>=0 ==> x>=0", "close"): [],
    ("x>=0 ==> true", "closeTrue(1)"): [],
    ("x>=0 ==> x>=0&true", "andR(1); closeTrue(1)"): "fails at 9: WrongShape",
    ("x>=0 ==> true", "close"): "fails at 0: NotEqual",
    ("x>=0 ==> x>=0&true", "prop"): [],
}
REFUSED = {"andR(1)) ": "syntax", "andR(1))": "syntax", "nonsense": "unknown", "close(1": "syntax"}
MODEL = "x>=0 -> x>=0&true"


def made(goal, strategy):
    """The goals that a strategy makes of a goal, or its failure. A mark as src/dlkt/failing.py writes it stands where it fails."""
    if strategy == "nil":
        return [goal]
    known = KNOWN.get((goal, strategy))
    marked = re.search(r'cut\("(here\d+_)\(\)"\)', strategy)
    if known is not None or not marked:
        return "fails at 0: WrongShape" if known is None else known
    part = "closeTrue(1)" if "; (closeTrue" in strategy else None
    goals = KNOWN[goal, "andR(1)"] if part else [goal]
    found = []
    for one in goals:
        if KNOWN.get((one, part)) == []:
            continue
        left, _, right = one.partition(" ==> ")
        found += [f"{left}, {marked[1]}() ==> {right}", f"{left} ==> {right}, {marked[1]}()"]
    return found


def report(goals, count):
    """The report of these goals."""
    told = ["closed" if not goals else "open", f"conclusion ==> {MODEL}", f"goals {len(goals)}"]
    told += [f"goal {number} {goal}" for number, goal in enumerate(goals, 1)]
    return [*told, "leaves 0", f"lines {count}"]


def session(script, term):
    """The replies to a script."""
    states, replies, saved = [([f"==> {MODEL}"], 1)], [], None
    for number, line in enumerate(script.split("\n")[:-1], 1):
        goals, count = states[-1]
        found = re.fullmatch(r"apply ([1-9]\d*) (.+)", line)
        if line == "show":
            replies += report(goals, count)
        elif line == "save":
            saved = count
            replies.append(f"saved {count}")
        elif line == "undo":
            states = states[:-1] if len(states) > 1 else states
            replies.append(f"ok goals {len(states[-1][0])}" if count > 1 else "nothing")
        elif not found or found[2].strip() in REFUSED or not re.sub(r"/\*.*?\*/", "", found[2]).isascii():
            print(f"refused: script line {number}")
            return 2
        elif int(found[1]) > len(goals):
            replies.append("no-goal")
        else:
            at = int(found[1]) - 1
            new = made(goals[at], re.sub(r" */\*.*?\*/", "", found[2]))
            if isinstance(new, str):
                replies.append(new)
                continue
            states.append(([*goals[:at], *new, *goals[at + 1 :]], count + 1))
            replies.append(f"ok goals {len(states[-1][0])}")
    print("\n".join(replies))
    if saved:
        term.write_text("".join(f"{k} start ==> {MODEL}\n" for k in range(1, saved + 1)) + "done\n")
    return 0 if not states[-1][0] else 1


def main():
    """Answers `session MODEL SCRIPT TERM`, and refuses for `prove` what is no strategy."""
    verb, model, text, term = sys.argv[1], *map(Path, sys.argv[2:])
    if model.read_text().strip() != MODEL:
        print("refused: model at 5: syntax")
        return 2
    if verb == "session":
        return session(text.read_text(), term)
    word = REFUSED.get(text.read_text().strip()) or ("unknown" if not text.read_text().isascii() else None)
    if word:
        print(f"refused: strategy at {7 if word == 'syntax' else 0}: {word}")
        return 2
    print("open")
    return 1


if __name__ == "__main__":
    raise SystemExit(main())
