"""A language server for editors: `dlkt lsp`. It speaks on standard input and output until the editor ends it.

The exit status is 0 where the editor said that it ends, 1 where the stream ended without that, and 2 where the library isn't there.
"""

import argparse

from dlkt.program import add_options, program_of

HELP = "a language server for editors: goals, failures and leaves where the cursor is"
EXAMPLE = "dlkt lsp    (an editor starts it; docs/EDITORS.md)"


def add_words(parser: argparse.ArgumentParser) -> None:
    """The words of the command."""
    add_options(parser, "--seconds", default=10, help="for each leaf (10)")
    parser.add_argument("--stdio", action="store_true", help="as some editors say; it is so anyway")
    add_options(parser, "--dlk")


def run(options: argparse.Namespace) -> int:
    """Serves an editor."""
    program_of(options.dlk)
    from dlkt.lsp.server import serve  # it wants a package

    return serve(options.dlk, float(options.seconds))
