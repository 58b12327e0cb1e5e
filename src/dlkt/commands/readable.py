"""Writes a term so that people can read it: as a term file of version 1, in which each line has its formulas in full.

    dlkt readable TERM [-o OUT]     writes to standard output, or to OUT

TERM is a term file of either version, and - is standard input. What is written has the same steps, each in its one written form, and
`check` accepts it as it accepts TERM. Whether it is accepted isn't looked at here; a file that isn't in the grammar is refused at its first
wrong line, with status 2. OUT is written whole or not at all. An input, or a file with something else than a term, isn't written over.
"""

import argparse
import sys

from dlkt.program import TERM_BEGINS, put_at, read_bytes, refuse_bad_output
from dlkt.terms import in_version_1, read

HELP = "writes a term as one of version 1, with the formulas in full"
EXAMPLE = "dlkt readable examples/first/term"


def add_words(parser: argparse.ArgumentParser) -> None:
    """The words of the command."""
    parser.add_argument("term", metavar="TERM")
    parser.add_argument("-o", "--output", metavar="OUT", help="where to write it (standard output)")


def run(given: argparse.Namespace) -> int:
    """Writes the term that the words name."""
    data = sys.stdin.buffer.read() if given.term == "-" else read_bytes(given.term)
    if given.output:
        refuse_bad_output(given.output, [] if given.term == "-" else [given.term], TERM_BEGINS, "a term")
    text = in_version_1(read(data)).encode("latin-1")
    if given.output:
        put_at(text, given.output)
    else:
        sys.stdout.buffer.write(text)
    return 0
