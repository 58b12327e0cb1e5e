"""A prompt over `dlk session`: a proof from the terminal, a line at a time, with undo.

    dlkt prompt MODEL [SCRIPT] [--seconds N] [--dlk PROGRAM]

A line is a strategy, which is run on goal 1, or `apply G STRATEGY` for goal G. Behind each the goals that it left are shown, a formula a line with the
place by which a strategy names it. The words of sketches (docs/AUTO.md), as `auto`, are turned into plain ones first. SCRIPT is a script of `dlk
session`, whose lines are run first. Other lines:

    undo          takes the last strategy back
    goals         shows all goals
    suggest [G]   tries what might go on at goal G (1), and lists what works, with what is new in the goals that it leaves
    leaves [G]    asks the solvers about goal G where it is arithmetic, or about all such goals and the leaves so far
    paths P [G]   shows each part of the formula at place P (1, -1, ..) of goal G (1) with its path
    history       shows what was done
    save FILE     writes the strategy so far to FILE, the script to FILE.script and the term to FILE.term
    help, quit

A line goes on where a bracket, quotes or a comment is open at its end, or where it ends in `;`, `,` or `|`; an empty line ends it in any case.

What it keeps, and what it needs at a terminal, is told in docs/FILES.md ("A prompt"). Where standard input is no terminal, lines are read from it, and
shown as a terminal would show them.
"""

import argparse
import importlib.resources
import json
import re
import sys
import tempfile
from typing import Callable, Iterable, Sequence

from dlkt.layout import laid_out_goal
from dlkt.leaves import exported_alone, listed
from dlkt.program import INTERRUPTED, Refused, add_options, program_of, say
from dlkt.search.finding import Options, expand_line
from dlkt.search.sketches import is_sketch
from dlkt.session import APPLY, Failure, Proof, as_typed, changes
from dlkt.solvers import Solvers
from dlkt.trees import text

NAMES = importlib.resources.files("dlkt") / "names.json"
COMMANDS = ("apply", "undo", "goals", "suggest", "leaves", "paths", "history", "save", "help", "quit")
GOES_ON = (";", ",", "|", "<")
PARTS = re.compile(r'"[^"]*"?|/\*.*?(?:\*/|$)|[()]', re.DOTALL)
CONTINUED = "... "
SEARCH_SECONDS = 60.0  # for the words of sketches in a line
Ask = Callable[[Proof, str], str]


# Lines that go on

def goes_on(line: str) -> bool:
    """Whether a line isn't whole: quotes, a comment or a bracket is open at its end, or it ends in what must have something behind it."""
    depth, last = 0, ""
    for part in PARTS.findall(line):
        depth += {"(": 1, ")": -1}.get(part, 0)
        last = part
    is_open = last == '"' or last.startswith('"') and not last.endswith('"') or last.startswith("/*") and not last.endswith("*/")
    bare = re.sub(r"/\*.*?\*/", " ", line, flags=re.DOTALL).rstrip()
    return is_open and line.rstrip().endswith(last.rstrip()) or depth > 0 or bare.endswith(GOES_ON)


def joined(lines: Sequence[str]) -> str:
    """Lines as one. A comment up to the end of a line would go on in it, and is refused."""
    if len(lines) > 1 and any("//" in line for line in lines):
        raise Failure(["a comment that begins with // can't stand in several lines: write /* .. */"])
    return " ".join(line.strip() for line in lines)


def whole(ask: Ask, proof: Proof) -> str:
    """The next line, with those with which it goes on."""
    count = len(proof.goals())
    lines = [ask(proof, "closed> " if proof.is_closed() else f"{count} goal{'s' * (count > 1)}> ")]
    while goes_on("\n".join(lines)):
        try:
            more = ask(proof, CONTINUED)
        except EOFError:
            break
        if not more.strip():
            break
        lines.append(more)
    return joined(lines)


# What is said

def shown_goals(proof: Proof, first: int = 1, count: int | None = None) -> list[str]:
    """So many goals from this one on, or all, a formula a line behind its place, and how many others there are; or the leaves of a closed proof."""
    goals = proof.goals()
    if proof.is_closed():
        return ["closed", *(f"  leaf {number}: {leaf}" for number, leaf in enumerate(proof.leaves(), 1))]
    if count == 0:
        first, count = 1, 1
    those = list(enumerate(goals, 1))[first - 1 :][:count]
    told = [line for number, goal in those for line in (f"goal {number} of {len(goals)}", *laid_out_goal(goal))]
    others = len(goals) - len(those)
    return [*told, f"and {others} other goal{'s' * (others > 1)}"] if others else told


def shown_paths(proof: Proof, place: int, goal: int) -> list[str]:
    """The parts of the formula at a place of a goal, each behind its path."""
    told, waiting = list[tuple[str, str]](), [(str(place), proof.formula(place, goal))]
    while waiting:
        path, tree = waiting.pop()
        told.append((path, text(tree)))
        waiting += [(f"{path}.{number}", kid) for number, kid in reversed(list(enumerate(tree.kids)))]
    width = max(len(path) for path, _ in told)
    return [f"  {path:<{width}}  {said}" for path, said in told]


def shown_suggestions(proof: Proof, number: int) -> list[str]:
    """What works on a goal, with what is new in the goals that it leaves."""
    goal, told = proof.goal(number), list[str]()
    for one in proof.suggestions(number):
        count = len(one.goals)
        leaves = f", with the leaf {one.leaves[0]}" if len(one.leaves) == 1 else f", with {len(one.leaves)} leaves" if one.leaves else ""
        told.append(f"  {one.strategy}: " + (f"leaves {count} goal{'s' * (count > 1)}" if count else "closes it") + leaves)
        for at, left in enumerate(one.goals, 1):
            front = f"    {at}) " if count > 1 else "    "
            first, *others = changes(goal, left)
            told += [front + first, *(" " * len(front) + other for other in others)]
    return told or ["nothing of what was tried works: cut, loop, dC, dG and useAt want formulas or names of your own"]


class Talk:
    """Lines of a person, and what is said to each. The solvers are those that are there."""

    def __init__(self, proof: Proof, solvers: Solvers | None = None) -> None:
        self.proof, self.solvers, self.is_over = proof, solvers or Solvers(), False

    def hear(self, line: str) -> list[str]:
        """What is said to a line."""
        words = line.split()
        if not words:
            return []
        try:
            return self.told(line.strip(), words)
        except Failure as why:
            return why.lines
        except OSError as fault:
            return [f"{fault.filename}: {fault.strerror}" if fault.filename else str(fault)]

    def told(self, line: str, words: Sequence[str]) -> list[str]:
        """The same, where a failure isn't told yet."""
        proof, verb = self.proof, words[0]
        alone: dict[str, Callable[[], list[str]]] = {
            "undo": self.told_undo, "quit": self.leave, "exit": self.leave,
            "history": lambda: [f"{number:>3}: {said}" for number, said in enumerate(as_typed(proof.so_far()), 1)] or ["nothing yet"],
            **dict.fromkeys(("goals", "show"), lambda: shown_goals(proof)),
            **dict.fromkeys(("help", "?"), lambda: (__doc__ or "").split("\n\n")[2:5]),
        }
        if verb in alone and len(words) == 1:
            return alone[verb]()
        if verb == "paths":
            return self.told_paths(words[1:])
        if verb == "suggest":
            return shown_suggestions(proof, self.number(words, 1))
        if verb == "leaves":
            return self.told_leaves(self.number(words, 0))
        if verb == "save":
            if len(words) != 2:
                raise Failure(["save FILE: the name of a file, without spaces"])
            return proof.save(words[1])
        return self.told_apply(line, verb)

    def number(self, words: Sequence[str], without: int) -> int:
        """The goal that a command names, or this number where it names none."""
        if len(words) == 1:
            return without
        if len(words) != 2 or not re.fullmatch(r"[1-9]\d{0,8}", words[1]):
            raise Failure([f"{words[0]} [G]: the number of a goal"])
        return int(words[1])

    def told_undo(self) -> list[str]:
        """What stands again where the last line is taken back."""
        last = self.proof.undo()
        return [f"undone: {as_typed([last.script()])[0]}", *shown_goals(self.proof, last.goal, 1)]

    def leave(self) -> list[str]:
        """Ends the talk."""
        self.is_over = True
        return []

    def told_paths(self, words: Sequence[str]) -> list[str]:
        """The parts of a formula."""
        if not 1 <= len(words) <= 2 or not re.fullmatch(r"-?[1-9]\d*", words[0]) or not all(word.isdigit() for word in words[1:]):
            raise Failure(["paths P [G]: a place, as 1 or -1, and a goal, where it isn't goal 1"])
        return shown_paths(self.proof, int(words[0]), int(words[1]) if len(words) == 2 else 1)

    def told_leaves(self, number: int) -> list[str]:
        """What the solvers say of a goal, or of all goals that are arithmetic and of the leaves."""
        if not self.solvers.names:
            raise Failure(["no solver is there: install z3 or cvc5"])
        if number:
            return [self.asked(f"goal {number}", self.proof.goal(number)) or f"goal {number} isn't arithmetic"]
        those = [(f"goal {at}", goal) for at, goal in enumerate(self.proof.goals(), 1)]
        those += [(f"leaf {at}", leaf) for at, leaf in enumerate(self.proof.leaves(), 1)]
        return [line for name, sequent in those for line in [self.asked(name, sequent)] if line] or ["no goal is arithmetic, and there are no leaves"]

    def asked(self, name: str, sequent: str) -> str:
        """What the solvers say of a sequent; nothing where it isn't arithmetic."""
        try:
            script = exported_alone(self.proof.program, sequent)
        except Refused:
            return ""
        if script.text is None:
            return f"{name}: a power has another exponent than a whole number from 1 to 16"
        said = self.solvers.check(script.text)
        by = ", ".join(solver for solver, reply in said.by.items() if reply.word is said.word)
        values = f" at {listed(said.values)}" if said.values else ""
        return f"{name}: {said.word}{values}" + (f" ({by})" if by else "")

    def turned(self, goal: int, sketch: str) -> str:
        """A line with words of sketches, as `auto`, as a plain one."""
        try:
            options = Options(SEARCH_SECONDS, program=self.proof.program)
            return re.sub(r"\s*\n\s*", " ", expand_line(self.proof.goal(goal), sketch, options))
        except Refused as why:
            raise Failure([str(why)]) from why

    def told_apply(self, line: str, verb: str) -> list[str]:
        """What a strategy makes."""
        found = APPLY.fullmatch(line)
        if verb == "apply" and not found:
            raise Failure(["apply G STRATEGY: the number of a goal, and a strategy"])
        goal, strategy = (int(found[1]), found[2]) if found else (1, line)
        if is_sketch(strategy):
            strategy = self.turned(goal, strategy)
        count = self.proof.apply(goal, strategy.encode("utf-8", "surrogateescape").decode("latin-1"))
        return shown_goals(self.proof, goal, count)


# The terminal

def names_of(proof: Proof) -> list[str]:
    """The names in the model and in the goals, those of constants with their brackets."""
    said = " ".join([re.sub(r"/\*.*?\*/|//[^\n]*", " ", proof.model.read_bytes().decode("latin-1"), flags=re.DOTALL), *proof.goals()])
    found = re.findall(r"(?<![\w\\@.])[A-Za-z]\w*(?:\(\))?", said)
    return sorted(set(found) - {"true", "false"})


def completions(before: str, names_in_quotes: Iterable[str] = ()) -> tuple[list[str], int]:
    """The words that may stand where this text ends, and how many of its letters they replace: in quotes names of formulas."""
    known: dict[str, list[str]] = json.loads(NAMES.read_text(encoding="utf-8"))
    begun = re.search(r"[A-Za-z]\w*$", before)
    word = begun[0] if begun else ""
    front = before[: len(before) - len(word)]
    wanted: Iterable[str]
    if before.count('"') % 2:
        wanted = (*names_in_quotes, "true", "false")
    elif re.search(r"\b(?:useAt|useBack)\(\s*$", front):
        wanted = known["axioms"]
    else:
        wanted = [*known["atoms"], *known["rules"], *known["library"], *(COMMANDS if not front.strip() else ())]
    return sorted(name for name in set(wanted) if name.startswith(word)), len(word)


def asks_terminal() -> Ask:
    """What asks for lines at a terminal; what is asked changes with the proof."""
    try:
        from prompt_toolkit import PromptSession
        from prompt_toolkit.completion import CompleteEvent, Completer, Completion
        from prompt_toolkit.document import Document
    except ImportError as fault:
        raise Refused("prompt_toolkit isn't there: Debian has it as python3-prompt-toolkit") from fault

    class Names(Completer):
        """Completes the names of atoms, axioms and commands, and in quotes those of the model."""

        def __init__(self) -> None:
            self.proof: Proof | None = None
            self.above = ""

        def get_completions(self, document: Document, complete_event: CompleteEvent) -> Iterable[Completion]:
            """The words that may stand at the cursor."""
            found, length = completions(self.above + document.text_before_cursor, names_of(self.proof) if self.proof else ())
            for name in found:
                yield Completion(name, start_position=-length)

    completer = Names()
    session: PromptSession[str] = PromptSession(completer=completer, complete_while_typing=False)

    def ask(proof: Proof, before: str) -> str:
        """Asks for a line."""
        completer.proof = proof
        if before != CONTINUED:
            completer.above = ""
        line = session.prompt(before)
        completer.above += f"{line}\n"
        return line

    return ask


def asks_file(proof: Proof, before: str) -> str:
    """The next line of standard input, which is shown as it would be at a terminal."""
    line = sys.stdin.readline()
    if not line:
        raise EOFError
    say([f"{before}{line.rstrip()}"])
    return line


def leave(proof: Proof) -> int:
    """Says at the end what isn't saved, and gives the exit status."""
    unsaved = proof.unsaved()
    if unsaved:
        say(["not saved:", *unsaved])
    return 0 if proof.is_closed() else 1


HELP = "a proof from the terminal, a line at a time, with undo"
EXAMPLE = "dlkt prompt examples/tutorial/car/model"


def add_words(parser: argparse.ArgumentParser) -> None:
    """The words of the command."""
    parser.add_argument("model", metavar="MODEL")
    parser.add_argument("script", metavar="SCRIPT", nargs="?", help="a script of `dlk session`, whose lines are run first")
    add_options(parser, "--seconds", default=10, help="for each question to the solvers (10)")
    add_options(parser, "--dlk")


def run(given: argparse.Namespace) -> int:
    """Opens the proof that the words name, and talks of it."""
    is_terminal = sys.stdin.isatty()
    ask = asks_terminal() if is_terminal else asks_file
    with tempfile.TemporaryDirectory() as folder, Solvers(seconds=given.seconds) as solvers:
        proof = Proof(folder, program_of(given.dlk), given.model, given.script)
        say(shown_goals(proof))
        return talked(ask, Talk(proof, solvers), is_terminal)


def talked(ask: Ask, talk: Talk, is_terminal: bool) -> int:
    """Hears lines until they end, and gives the exit status. At a terminal control-C clears the line, or stops what is at work."""
    while not talk.is_over:
        try:
            say(talk.hear(whole(ask, talk.proof)))
        except Failure as why:
            say(why.lines)
        except EOFError:
            break
        except KeyboardInterrupt:
            if not is_terminal:
                leave(talk.proof)
                print("dlkt prompt: interrupted", file=sys.stderr)
                return INTERRUPTED
            talk.solvers.close()
    return leave(talk.proof)
