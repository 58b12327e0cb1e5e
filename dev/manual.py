#!/usr/bin/env python3
"""Writes what lists the commands of dlkt: its man page and its completions, by the parser of the command line.

    python3 dev/manual.py             writes man/dlkt.1, completions/dlkt.bash and completions/_dlkt
    python3 dev/manual.py --check     exits 1 where they, or the table of docs/FILES.md, lack a command or an option, or have one too many

The table of docs/FILES.md has a row a command, which is written by hand.
"""

import argparse
import re
import sys
from pathlib import Path
from typing import NamedTuple

ROOT = Path(__file__).resolve().parent.parent
sys.path.insert(0, str(ROOT / "src"))

from dlkt import cli  # noqa: E402  (behind the path)

HEAD = "| Command of dlkt | What it does |"
MADE = "by dev/manual.py, from the parser of the command line"


class Option(NamedTuple):
    """An option: its spellings, the words behind it, and what it does."""

    names: list[str]
    value: str
    told: str


class Command(NamedTuple):
    """A command: its name, what it does, its words in their order, its options, and an example."""

    name: str
    told: str
    words: list[str]
    options: list[Option]
    example: str


def value_of(action: argparse.Action) -> str:
    """The word behind an option, if there is one."""
    if action.nargs == 0:
        return ""
    named = action.metavar or ("{" + ",".join(map(str, action.choices)) + "}" if action.choices else action.dest.upper())
    return named if isinstance(named, str) else " ".join(named)


def word_of(action: argparse.Action) -> str:
    """A word that isn't an option, in brackets where it may be missing."""
    word = value_of(action)
    return {"?": f"[{word}]", "*": f"[{word} ..]", "+": f"{word} .."}.get(str(action.nargs), word)


def commands() -> list[Command]:
    """The commands of dlkt, as its parser has them."""
    parser = cli.parser_with(cli.COMMANDS)
    choices = next(it.choices for it in parser._actions if isinstance(it, argparse._SubParsersAction))
    found = []
    for name, one in choices.items():
        actions = [it for it in one._actions if it.help is not argparse.SUPPRESS]
        options = [Option(list(it.option_strings), value_of(it), it.help or "") for it in actions if it.option_strings]
        words = [word_of(it) for it in actions if not it.option_strings]
        found.append(Command(name, one.description or "", words, options, (one.epilog or "").removeprefix("Example: ")))
    return found


# The man page


def escaped(text: str) -> str:
    """A text as a line of a man page."""
    text = re.sub(r"\s+", " ", text).replace("\\", "\\e").replace("-", "\\-").replace("%%", "%").replace("(default: %(default)s)", "")
    return f"\\&{text}" if text.startswith((".", "'")) else text


def manual_of(command: Command) -> list[str]:
    """The lines of a command in the man page."""
    lines = [f".Ss {' '.join([command.name, *map(escaped, command.words)])}", escaped(command.told[:1].upper() + command.told[1:]) + "."]
    shown = [it for it in command.options if "--help" not in it.names]
    if shown:
        lines.append(".Bl -tag -width Ds")
        for option in shown:
            names = " , ".join(f"Fl {name.removeprefix('-')}" for name in option.names)
            lines += [f".It {names}{f' Ar {option.value}' if option.value else ''}", escaped(option.told)]
        lines.append(".El")
    return [*lines, ".Pp", "Example:", f".Dl {escaped(command.example)}"]


def manual() -> str:
    """The man page."""
    lines = [
        f".\\\" Written {MADE}.", ".Dd December 1, 2026", ".Dt DLKT 1", ".Os", ".Sh NAME", ".Nm dlkt", ".Nd what stands round dlk, a theorem prover",
        ".Sh SYNOPSIS", ".Nm", ".Fl \\-version", ".Nm", ".Ar command", ".Op Fl \\-help", ".Op Ar word ...", ".Sh DESCRIPTION",
        "Runs dlk, asks solvers, and shows what came of it.",
        "Nothing of it is proved: a verdict rests on what dlk says of a proof, and on what solvers say of its leaves.",
        "It writes over no input.", ".Sh COMMANDS",
    ]
    for command in commands():
        lines += manual_of(command)
    lines += [
        ".Sh ENVIRONMENT", ".Bl -tag -width DLKT_PYTHON", ".It Ev DLK", "The program dlk.",
        "Without it that of the checkout is taken, or the one beside an installed dlkt, or that of", ".Ev PATH .",
        ".It Ev DLKT_PYTHON", "The Python that runs it.", "Without it, where the first one lacks a package, the system's is tried.", ".El",
        ".Sh EXIT STATUS", "0 where all is as it was asked for.", "The statuses of each command are listed in docs/FILES.md.",
        ".Sh SEE ALSO", ".Xr dlk 1",
    ]
    return "\n".join(lines) + "\n"


# The completions


def bash() -> str:
    """The completions for bash."""
    every = commands()
    cases = "".join(f"    {it.name}) options='{' '.join(name for option in it.options for name in option.names)}' ;;\n" for it in every)
    return f"""# Completes the words of dlkt in bash. Written {MADE}.

_dlkt() {{
  local word=${{COMP_WORDS[COMP_CWORD]}} options=
  COMPREPLY=()
  if [ "$COMP_CWORD" -eq 1 ]; then
    mapfile -t COMPREPLY < <(compgen -W '{' '.join(it.name for it in every)} --version --help' -- "$word")
    return
  fi
  case ${{COMP_WORDS[1]}} in
{cases}  esac
  case $word in
    -*) mapfile -t COMPREPLY < <(compgen -W "$options" -- "$word") ;;
    *)
      compopt -o filenames 2>/dev/null
      mapfile -t COMPREPLY < <(compgen -f -- "$word") ;;
  esac
}}

complete -F _dlkt dlkt
"""


def quoted(text: str) -> str:
    """A text between single quotes."""
    return "'" + text.replace("'", "'\\''") + "'"


def zsh() -> str:
    """The completions for zsh."""
    every = commands()
    listed = "".join(f"  {quoted(f'{it.name}:{it.told}')}\n" for it in every)
    cases = "".join(
        f"  {it.name}) options=({' '.join(quoted(f'{name}:{option.told}') for option in it.options for name in option.names)}) ;;\n" for it in every
    )
    return f"""#compdef dlkt
# Completes the words of dlkt in zsh. Written {MADE}.

local -a commands options
commands=(
{listed})

if (( CURRENT == 2 )); then
  _describe -t commands 'command of dlkt' commands
  return
fi

case $words[2] in
{cases}esac
if [[ $words[CURRENT] == -* ]]; then
  _describe -t options 'option' options
else
  _files
fi
"""


def files() -> dict[Path, str]:
    """The files, with what they must have."""
    return {ROOT / "man" / "dlkt.1": manual(), ROOT / "completions" / "dlkt.bash": bash(), ROOT / "completions" / "_dlkt": zsh()}


def table() -> set[str]:
    """The commands in the table of docs/FILES.md."""
    behind = (ROOT / "docs" / "FILES.md").read_text(encoding="utf-8").partition(f"\n{HEAD}\n")[2].split("\n")
    rows = behind[: next((number for number, line in enumerate(behind) if not line.startswith("|")), len(behind))]
    return {found[1] for found in (re.match(r"\| `dlkt (\w+)", row) for row in rows) if found}


def faults() -> list[str]:
    """What differs, a line each."""
    found = [f"{file.relative_to(ROOT)} isn't what dev/manual.py writes" for file, text in files().items() if not file.is_file() or file.read_text() != text]
    listed, every = table(), set(cli.COMMANDS)
    if listed != every:
        found.append(f"docs/FILES.md, the table of commands of dlkt: lacks {sorted(every - listed)}, has too many {sorted(listed - every)}")
    return found


def main() -> int:
    """Writes the files, or compares them."""
    words = argparse.ArgumentParser(description=__doc__, formatter_class=argparse.RawDescriptionHelpFormatter)
    words.add_argument("--check", action="store_true", help="write nothing, and say what differs")
    if words.parse_args().check:
        wrong = faults()
        print("\n".join(f"manual.py: {it}" for it in wrong) or f"{len(cli.COMMANDS)} commands of dlkt, each in its man page, completions and table")
        return 1 if wrong else 0
    for file, text in files().items():
        file.write_text(text, encoding="utf-8")
    return 0


if __name__ == "__main__":
    sys.exit(main())
