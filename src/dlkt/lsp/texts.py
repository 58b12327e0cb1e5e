"""Places in texts, as the three sides count them: the protocol by lines and UTF-16 units, Python by letters, the program by bytes.

In and out go a text and a place; nothing is kept. A place outside a text is taken for the nearest inside.
"""

from bisect import bisect_right
from typing import Any, NamedTuple

Json = dict[str, Any]


class Place(NamedTuple):
    """A place as the protocol has it: a line from 0 on, and the UTF-16 units before it in its line."""

    line: int
    character: int

    def json(self) -> Json:
        """The place as the protocol writes it."""
        return {"line": self.line, "character": self.character}


def units(text: str) -> int:
    """How many UTF-16 units a text has."""
    return len(text) + sum(letter > "\uffff" for letter in text)


def line_starts(text: str) -> list[int]:
    """The letters with which the lines of a text begin."""
    starts = [0]
    for at, letter in enumerate(text):
        if letter == "\n" or letter == "\r" and text[at + 1 : at + 2] != "\n":
            starts.append(at + 1)
    return starts


def letter_of(text: str, place: Place) -> int:
    """The letter at a place."""
    starts = line_starts(text)
    if place.line >= len(starts):
        return len(text)
    begin = starts[max(0, place.line)]
    end = starts[place.line + 1] - 1 if place.line + 1 < len(starts) else len(text)
    left, at = place.character, begin
    while at < end and left > 0:
        left -= units(text[at])
        at += 1
    return at


def place_of(text: str, letter: int) -> Place:
    """The place of a letter."""
    letter = max(0, min(letter, len(text)))
    starts = line_starts(text)
    line = bisect_right(starts, letter) - 1
    return Place(line, units(text[starts[line] : letter]))


def letter_of_byte(text: str, byte: int) -> int:
    """The letter in which a byte of the text, written as UTF-8, stands."""
    if text.isascii():
        return min(byte, len(text))
    return len(text.encode("utf-8", "surrogatepass")[:byte].decode("utf-8", "ignore"))


def byte_of_letter(text: str, letter: int) -> int:
    """The byte with which a letter of the text begins, written as UTF-8."""
    return len(text[:letter].encode("utf-8", "surrogatepass"))


def range_of(text: str, begin: int, end: int) -> Json:
    """A piece of a text, from one letter to another, as the protocol writes it."""
    return {"start": place_of(text, begin).json(), "end": place_of(text, max(begin, end)).json()}


def word_at(text: str, letter: int) -> tuple[int, int]:
    """The word at a letter or behind which it stands: its first letter and the one behind it. The two are the same where there is none."""
    begin = end = letter
    while begin > 0 and (text[begin - 1].isalnum() or text[begin - 1] == "_"):
        begin -= 1
    while end < len(text) and (text[end].isalnum() or text[end] == "_"):
        end += 1
    return begin, end


def place_from(told: Json) -> Place:
    """A place that the protocol wrote."""
    return Place(int(told["line"]), int(told["character"]))


def changed(text: str, change: Json) -> str:
    """A text behind a change of the protocol: of a piece, or of the whole."""
    piece = change.get("range")
    new = str(change["text"])
    if not piece:
        return new
    begin, end = letter_of(text, place_from(piece["start"])), letter_of(text, place_from(piece["end"]))
    return text[:begin] + new + text[max(begin, end) :]
