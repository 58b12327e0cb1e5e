"""The one place where the words of `dlkt`'s command line are read: a sub-command each for the files of `commands`.

A command's file has `HELP` (one line), `EXAMPLE` (a command line that works in a checkout), `add_words(parser)`, and `run(options)`, which
gives the exit status. The table below has each command's name and its module.
"""

import argparse
import sys
from typing import Iterable, NoReturn, Sequence

from dlkt import __version__
from dlkt.packages import imported, wanting
from dlkt.program import INPUT_REFUSED, ended

MOST_LEVELS = 60_000

COMMANDS = {
    **{name: f"dlkt.commands.{name}" for name in ("verify", "auto", "refute")},
    "import": "dlkt.commands.import_",
    **{name: f"dlkt.commands.{name}" for name in ("batch", "leaves", "page", "tree", "prompt", "print", "readable")},
    "words": "dlkt.words",
    "lsp": "dlkt.commands.lsp",
}
# The status by which a command says that its words or its inputs are refused, where it isn't the usual one.
REFUSED = {"verify": 4}


class Words(argparse.ArgumentParser):
    """A parser whose complaint is one line behind the usage, with the status of its command."""

    refused = INPUT_REFUSED

    def error(self, message: str) -> NoReturn:
        """Says what is wrong with the words."""
        self.print_usage(sys.stderr)
        self.exit(self.refused, f"{self.prog}: {message}\n")


def parser_with(names: Iterable[str]) -> Words:
    """The parser of the command line, with these commands."""
    parser = Words(prog="dlkt", description="What stands round dlk. `dlkt COMMAND --help` says more of a command.")
    parser.add_argument("--version", action="version", version=f"dlkt {__version__}")
    commands = parser.add_subparsers(dest="command", metavar="COMMAND", required=True, parser_class=Words)
    for name in names:
        module = imported(COMMANDS[name])
        one = commands.add_parser(
            name, help=module.HELP, description=module.HELP, epilog=f"Example: {module.EXAMPLE}",
            formatter_class=argparse.RawDescriptionHelpFormatter,
        )
        one.refused = REFUSED.get(name, INPUT_REFUSED)
        module.add_words(one)
        one.set_defaults(run=module.run, refused=one.refused)
    return parser


def main(words: Sequence[str]) -> int:
    """Does what the words say, and gives the exit status. A command that is named is read alone: the others would make each start slower."""
    sys.setrecursionlimit(MOST_LEVELS)
    named = words[:1] if words and words[0] in COMMANDS else []
    parser = parser_with(named or COMMANDS)
    parser.refused = REFUSED.get(named[0], INPUT_REFUSED) if named else INPUT_REFUSED
    options = parser.parse_args(words)
    return ended(f"dlkt {options.command}", wanting(options.run), options, options.refused)
