"""Puts the texts of strategies together, laid out as a person would write them, and says in words what a strategy does."""

import re

from dlkt.formulas import text
from dlkt.trees import Tree

WIDE = 96
SHORT = 70


def quoted(tree: Tree) -> str:
    """A formula or a term in quotes."""
    return f'"{text(tree)}"'


def seq(*parts: str | None) -> str:
    """One part after another, empty ones left out; a new line where the line would get too long."""
    out = ""
    for part in parts:
        if not part:
            continue
        if not out:
            out = part
            continue
        room = len(out.rsplit("\n", 1)[-1]) + len(part.split("\n", 1)[0]) < WIDE
        out += ("; " if part.startswith("<(") or room else ";\n") + part
    return out


def indented(part: str) -> str:
    """A text two places further in."""
    return "\n".join("  " + line for line in part.split("\n"))


def branch(*parts: str) -> str:
    """A branch with a part for each goal."""
    flat = "<(" + ", ".join(parts) + ")"
    if "\n" not in flat and len(flat) < SHORT and "<(" not in flat[1:]:
        return flat
    return "<(\n" + ",\n".join(map(indented, parts)) + "\n)"


def times(word: str, count: int) -> str:
    """A word so many times; nothing for none."""
    return word if count == 1 else f"{word}*{count}" if count else ""


def comment(said: str) -> str:
    """A text as a comment."""
    return f"/* {said.replace('*/', '* /')} */"


def remark(said: str, part: str) -> str:
    """A part below a comment."""
    return f"{comment(said)}\n{part}"


def bracketed(part: str) -> str:
    """A part that stands for one goal of several: a branch in it counts all goals that are left."""
    return f"({part})" if "<(" in part else part


TOKEN = re.compile(
    r'/\*(?P<note>.*?)\*/|(?P<word>[A-Za-z0-9]+)\((?P<text>[^()"]*"[^"]*"[^()]*)\)|(?P<open><\()|(?P<close>\))|(?P<bracket>\()|"[^"]*"', re.DOTALL)
SAID = {
    "loop": "the loop keeps {}", "dC": "along the system holds {}", "boxCut": "enough behind the program: {}",
    "cut": "it is there, or one of them holds: {}", "dG": "a new variable with the equation {}",
}


def said_of(word: str, arguments: str) -> str:
    """What a word that puts a formula in says; empty for the others."""
    if word not in SAID:
        return ""
    texts = re.findall(r'"([^"]*)"', arguments)
    name = arguments.split(",")[0]
    return SAID[word].format(f"{name}'=({texts[0]})*{name}+{texts[1]}" if word == "dG" else texts[0])


def explained(strategy: str) -> str:
    """A line for each formula that a strategy puts in and for each comment, indented as the branches are."""
    depth, lines = 0, []
    levels: list[int] = []
    for found in TOKEN.finditer(strategy):
        if found["note"]:
            lines.append("  " * depth + found["note"].strip().replace("\n", " "))
        elif found["word"]:
            said = said_of(found["word"], found["text"])
            lines += ["  " * depth + said] if said else []
        elif found["open"] or found["bracket"]:
            levels.append(1 if found["open"] else 0)
            depth += levels[-1]
        elif found["close"] and levels:
            depth -= levels.pop()
    return "\n".join(line for number, line in enumerate(lines) if not number or line != lines[number - 1])
