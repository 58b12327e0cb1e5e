#!/usr/bin/env python3
"""Looks whether each link between the pages of the repository leads somewhere: to a file that is there, and to a heading that the page has.

    python3 dev/links.py     exits 1 where a link leads nowhere

Links to other sites aren't followed, and what stands between fences or backquotes is no link.
"""

import argparse
import functools
import re
import sys
from collections.abc import Iterator
from pathlib import Path

ROOT = Path(__file__).resolve().parent.parent
LINK = re.compile(r"\]\(([^)\s]+)\)")
CODE = re.compile(r"`[^`]*`")


def pages() -> list[Path]:
    """The pages of the repository."""
    return [*sorted(ROOT.glob("*.md")), *sorted((ROOT / "docs").glob("*.md")), *sorted((ROOT / "examples").glob("**/*.md"))]


def lines_of(page: Path) -> list[tuple[int, str]]:
    """The lines of a page that stand between no fences, each with its number."""
    inside = False
    found = []
    for number, line in enumerate(page.read_text(encoding="utf-8").split("\n"), 1):
        if line.lstrip().startswith("```"):
            inside = not inside
        elif not inside:
            found.append((number, line))
    return found


@functools.cache
def anchors(page: Path) -> set[str]:
    """The names by which links know the headings of a page: small letters, digits, and lines for blanks."""
    heads = [line.lstrip("#").strip().lower() for _, line in lines_of(page) if line.startswith("#")]
    return {re.sub(r"[^\w\- ]", "", head).replace(" ", "-") for head in heads}


def fault(page: Path, link: str) -> str:
    """What is wrong with a link of a page, or nothing."""
    name, _, anchor = link.partition("#")
    target = (page.parent / name).resolve() if name else page
    if not target.exists():
        return f"there is no {name}"
    if anchor and anchor not in anchors(target):
        return f"{target.relative_to(ROOT)} has no heading {anchor}"
    return ""


def faults() -> Iterator[str]:
    """The links that lead nowhere."""
    for page in pages():
        for number, line in lines_of(page):
            for link in LINK.findall(CODE.sub("", line)):
                wrong = "" if "://" in link else fault(page, link)
                if wrong:
                    yield f"{page.relative_to(ROOT)}:{number}: {link}: {wrong}"


def main() -> int:
    """Prints the links that lead nowhere."""
    argparse.ArgumentParser(description=__doc__, formatter_class=argparse.RawDescriptionHelpFormatter).parse_args()
    found = list(faults())
    print(*found, f"{len(pages())} pages, {len(found)} links that lead nowhere", sep="\n")
    return 1 if found else 0


if __name__ == "__main__":
    sys.exit(main())
