"""The same terms in both versions of their files, for the scripts of this folder: by src/dlkt/terms.py, and not by the program that is measured.

A row is a run with what it must answer. Behind each row that has a term of version 1 stands the same row with the same term in version 2, where a
refusal names the step's line in that file.
"""
import re
import sys

from common import TOP, knows

sys.path.insert(0, str(TOP / "src"))
sys.setrecursionlimit(60_000)
from dlkt import terms  # noqa: E402  (behind the path)

# The commands whose second text is a term, the one whose first is, and those that write a file.
REPLAYING, CONVERTING, WRITING = ("check", "report", "smt", "guard", "trim", "link"), ("convert",), ("prove", "convert", "trim", "link", "session")
# A longer text isn't brought over: that would take minutes.
LONGEST = 12_000_000
NAMED = re.compile(r"refused: (line|other-conclusion) (\d+)(.*)")


def by_nodes(text):
    """A term of version 1 in version 2, and the line on which each of its lines stands there. What begins with a wrong line is left as it is."""
    if terms.version_of(text) == 2:
        return text, {}
    lines = terms.lines_of(text)
    try:
        steps, rest = terms.read(text).steps, []
    except terms.Wrong as fault:
        first = fault.place - 1
        steps = terms.read("\n".join([*lines[:first], terms.END])).steps if first else []
        rest = lines[first:]
    made = terms.in_version_2(terms.Term(1, steps, None))
    places, place = {}, 0
    for place, line in enumerate(made.split("\n")[:-1], 1):
        if line[0].isdigit():
            places[len(places) + 1] = place
    if not rest:
        return made, places
    front = made.removesuffix(f"{terms.END}\n")
    places |= {len(steps) + 1 + number: place + number for number in range(len(rest) + 1)}
    return front + "".join(f"{line}\n" for line in rest), places


def in_version_2(row):
    """The row with its term in version 2, or none where it has none, or one that is too long."""
    at = 0 if row.verb in CONVERTING else 1 if row.verb in REPLAYING else None
    if at is None or terms.version_of(row.texts[at]) == 2 or len(row.texts[at]) > LONGEST:
        return None
    text, places = by_nodes(row.texts[at])
    first = row.first
    found = NAMED.fullmatch(first) if first else None
    if found:
        first = f"refused: {found[1]} {places.get(int(found[2]), int(found[2]))}{found[3]}"
    return row._replace(title=f"{row.title}, by nodes", texts=(*row.texts[:at], text, *row.texts[at + 1 :]), first=first)


def in_both(rows, version=None):
    """The rows, each with its like in version 2; or those of one version alone. What the program doesn't know is left out."""
    reads_nodes = knows("convert")
    for row in rows:
        if not knows(row.verb):
            continue
        is_of_2 = any(text.startswith("dlk 2\n") for text in row.texts)
        if version != 2 and not is_of_2 or is_of_2 and reads_nodes and version != 1:
            yield row
        other = in_version_2(row) if reads_nodes and version != 1 else None
        if other:
            yield other


def outputs_of(verb, folder):
    """The file that a command writes, in a list, or none."""
    return [folder / "output"] if verb in WRITING else []
