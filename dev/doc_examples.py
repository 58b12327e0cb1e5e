#!/usr/bin/env python3
"""Compares the examples of README.md, docs/ and examples/ with what the program prints.

    python3 dev/doc_examples.py [DOCUMENT ...]     exits 1 where an example differs, or where the program isn't there

The program is the one that DLK names, or else the one that `./dlk` builds. Where documents are named, those alone are tried.

An example is a block between fences with lines that begin with `$ `: commands, each with what it prints behind it. The
commands of a document are run one after another. A folder of their own stands for /tmp, and for ./dlk the program that the
variable DLK of the environment names, or else the built one. What a command prints isn't compared where a tool behind a `|` isn't
there, or where it asks a solver and there is none. The values that a solver finds aren't compared, since another one finds
others, nor which solvers were asked.
"""

import argparse
import os
import re
import shlex
import shutil
import subprocess
import sys
import tempfile
from pathlib import Path
from typing import Iterator, NamedTuple

ROOT = Path(__file__).resolve().parent.parent
BUILT = ROOT / "crates" / "dlk" / "out" / "dlk"
PROGRAM = Path(shutil.which(os.environ.get("DLK") or BUILT) or BUILT).resolve()
WORD = re.compile(r"(\$PWD/)?crates/dlk/out/dlk\b|\./dlk\b")
PROMPT = "$ "
ASKING = re.compile(r"\bdlkt (?:leaves|verify|batch|auto)\b")
SOLVERS = ("z3", "cvc5")
ANSWER = re.compile(r"    (?:z3|cvc5): (\w+).*")


class Example(NamedTuple):
    """A command of a document, and the lines that it prints."""

    command: str
    lines: list[str]


def blocks(text: str) -> list[list[str]]:
    """The lines of each block between fences."""
    inside = False
    found: list[list[str]] = []
    for line in text.split("\n"):
        if line.startswith("```"):
            inside = not inside
            if inside:
                found.append([])
        elif inside:
            found[-1].append(line)
    return found


def examples(text: str) -> list[Example]:
    """Each command with the lines that it prints, in the order of the text."""
    found: list[Example] = []
    for block in blocks(text):
        if not block or not block[0].startswith(PROMPT):
            continue
        for line in block:
            if line.startswith(PROMPT):
                found.append(Example(line.removeprefix(PROMPT), []))
            else:
                found[-1].lines.append(line)
    return found


def printed_by(command: str, folder: str) -> list[str]:
    """The lines that a command prints."""
    program = shlex.quote(str(PROGRAM))
    command = WORD.sub(lambda found: program, command.replace("/tmp/", f"{folder}/"))
    environment = {**os.environ, "DLK": str(PROGRAM)}
    run = subprocess.run(["bash", "-c", command], cwd=ROOT, env=environment, capture_output=True, check=False)
    return run.stdout.decode("utf-8", "replace").replace(f"{folder}/", "/tmp/").splitlines()


def is_asking(command: str) -> bool:
    """Whether a command asks a solver."""
    return bool(ASKING.search(command))


def has_tools(command: str) -> bool:
    """Whether the tool behind each `|` is there, and a solver where one is asked. A bar between quotes pipes nothing."""
    words = shlex.split(command, posix=False)
    solved = not is_asking(command) or any(map(shutil.which, SOLVERS))
    return solved and all(shutil.which(tool) for bar, tool in zip(words, words[1:]) if bar == "|")


def compared(command: str, lines: list[str]) -> list[str]:
    """What is compared of the lines: of solvers' answers all but their names, and the values that they found."""
    if not is_asking(command):
        return lines
    found: list[str] = []
    for line in lines:
        answer = ANSWER.fullmatch(line)
        told = answer[1] if answer else line.partition(" at ")[0].partition(". It rests on ")[0]
        if not answer or found[-1:] != [told]:
            found.append(told)
    return found


def differences(document: Path) -> Iterator[Example]:
    """The commands of a document that print something else, each with what it prints."""
    with tempfile.TemporaryDirectory() as folder:
        for command, expected in examples(document.read_text(encoding="utf-8")):
            printed = printed_by(command, folder)
            if has_tools(command) and compared(command, printed) != compared(command, expected):
                yield Example(command, printed)


def pages() -> list[Path]:
    """The pages of the repository."""
    return [ROOT / "README.md", *sorted((ROOT / "docs").glob("*.md")), *sorted((ROOT / "examples").glob("**/README.md"))]


def main() -> int:
    """Prints each example that differs."""
    words = argparse.ArgumentParser(description=__doc__, formatter_class=argparse.RawDescriptionHelpFormatter)
    words.add_argument("documents", nargs="*", metavar="DOCUMENT", type=Path, help="a page (all)")
    documents = [it.resolve() for it in words.parse_args().documents] or pages()
    if not PROGRAM.is_file():
        print(f"doc_examples.py: there is no program {PROGRAM}", file=sys.stderr)
        return 1
    count, wrong = 0, 0
    for document in documents:
        count += len(examples(document.read_text(encoding="utf-8")))
        for example in differences(document):
            wrong += 1
            print(f"{document.relative_to(ROOT)}: $ {example.command}", *example.lines, sep="\n", flush=True)
    print(f"{count} examples in {len(documents)} documents, {wrong} of them printed otherwise")
    return 1 if wrong else 0


if __name__ == "__main__":
    sys.exit(main())
