#!/usr/bin/env python3
"""Compares the words of the syntax files and the lists of commands with the documents and definitions.

    python3 dev/editors.py     exits 1 where they differ

The keywords, operators and brackets of models come from the table of docs/LANGUAGE.md, the words of term lines, of nodes and of scripts from
docs/FILES.md, rules from there and from the drawings of docs/CALCULUS.md, axioms and axiomatic rules from its tables, and
atoms and the names of the library from docs/STRATEGIES.md. Each set must be the same in the files for Vim and in those for editors that take TextMate
grammars. The numbers of premises, the axioms and the words of strategies that dlkt has are compared
with these, too, and its words of nodes.

The commands, each with its arguments, come from the table of their forms in crates/dlk_replies/specs/Forms.antt. They must be the same
in docs/FILES.md, in the usage that the program prints on standard error, in the man page and in the completions for bash and zsh. The exit
statuses of the man page must be those of docs/FILES.md.
"""

import argparse
import json
import re
import sys
from pathlib import Path
from typing import Any, Iterator

ROOT = Path(__file__).resolve().parent.parent
sys.path.insert(0, str(ROOT / "src"))

from dlkt import calculus, trees  # noqa: E402  (behind the path)

Sets = dict[str, set[str]]

VIM = ROOT / "editors" / "vim" / "syntax"
TEXTMATE = ROOT / "editors" / "textmate"


def text_of(*path: str) -> str:
    """The text of a file."""
    return ROOT.joinpath(*path).read_text(encoding="utf-8")


# The documents


def rows(text: str, head: str) -> list[list[str]]:
    """The cells of the rows of each table with this head. A bar behind a backslash ends no cell."""
    inside = False
    found: list[list[str]] = []
    for line in text.split("\n"):
        if line == head:
            inside = True
        elif not line.startswith("|"):
            inside = False
        elif inside and not line.startswith("|---"):
            found.append([cell.strip().replace("\\|", "|") for cell in re.split(r"(?<!\\)\|", line)[1:-1]])
    return found


def spans(cell: str) -> list[str]:
    """What stands between backquotes."""
    return re.findall(r"`([^`]*)`", cell)


def names(cell: str) -> set[str]:
    """The names with which the spans of a cell begin."""
    return {found[0] for found in map(re.compile(r"\w+").match, spans(cell)) if found}


def tokens() -> dict[str, list[str]]:
    """The spellings of the kinds of tokens."""
    return {row[0]: spans(row[1]) for row in rows(text_of("docs", "LANGUAGE.md"), "| Token | Spelling |")}


def drawings() -> dict[str, int]:
    """The names of the rules that are drawn, each with the number of its premises."""
    found = {}
    lines = text_of("docs", "CALCULUS.md").split("\n")
    for place, line in enumerate(lines):
        drawn = re.fullmatch(r" +-+ (\w+)\(.*\)", line)
        if drawn:
            above = lines[place - 1].strip()
            found[drawn.group(1)] = max(above.count("==>"), 1 if above else 0)
    return found


def documented() -> Sets:
    """Each set of words as the documents have it."""
    token, calculus = tokens(), text_of("docs", "CALCULUS.md")
    files, strategies = text_of("docs", "FILES.md"), text_of("docs", "STRATEGIES.md")
    rules = set().union(*(names(row[1]) for row in rows(files, "| Arguments | Rules |")))
    steps = {spans(row[0])[0].split(" ")[1] for row in rows(files, "| Line | What it does | Example |")}
    atoms = set().union(*(names(row[0]) for row in rows(strategies, "| Atom | What it does |") if spans(row[0])))
    atoms |= set().union(*(names(row[1]) for row in rows(strategies, "| Arguments | Atoms |")))
    return {
        "keywords": set(token["keyword"]),
        "constants": {"true", "false"} & set(token["name"]),
        "operators": {span for kind in ("logic", "comparisons", "arithmetic", "programs", "substitutions") for span in token[kind]},
        "brackets": set(token["brackets of unit symbols"]) | set(token["brackets"]),
        "steps": steps | {"done"},
        "words of nodes": set().union(*(names(row[1]) for row in rows(files, "| Sort | Words of nodes |"))),
        "words of scripts": set().union(*(names(row[0]) for row in rows(files, "| Line | What it does | Reply |"))),
        "rules": rules,
        "axioms": {spans(row[0])[0] for row in rows(calculus, "| Name | Form | Formula | It says |")},
        "axiomatic rules": {spans(row[0])[0] for row in rows(calculus, "| Name | Premise | Conclusion | It says |")},
        "atoms": atoms,
        "names of the library": set().union(*(names(row[0]) for row in rows(strategies, "| Name | Stands for |"))),
    }


# The files for editors


def spelled(pattern: str, bar: str) -> set[str]:
    """What a pattern of alternatives matches, each as it is spelled: words, and the bytes of one set behind them."""
    begin = re.search(r"(?<!\\)\[", pattern)
    at = begin.start() if begin else len(pattern)
    words = pattern[:at].replace("\\|", "\0") if bar == "|" else pattern[:at]
    found = {re.sub(r"\\(.)", r"\1", word).replace("\0", "|") for word in words.split(bar) if word}
    return found | set(pattern[at + 1:-1].replace("\\", ""))


def vim_words(file: str, *groups: str) -> set[str]:
    """The keywords of groups in a file for Vim."""
    found: set[str] = set()
    for line in (VIM / file).read_text(encoding="utf-8").split("\n"):
        words = line.split()
        if words[:2] == ["syn", "keyword"] and words[2] in groups:
            found |= {word for word in words[3:] if word not in ("contained", "skipwhite", "skipempty") and "=" not in word}
    return found


def vim_patterns(file: str, group: str) -> list[str]:
    """The patterns of a group in a file for Vim, without their marks."""
    found = re.findall(rf"^syn match {group} (.)(.*)\1(?: contained.*)?$", (VIM / file).read_text(encoding="utf-8"), re.M)
    return [pattern for _, pattern in found]


def vim() -> Sets:
    """Each set of words as the files for Vim have it."""
    done = {"done"} if "^done$" in vim_patterns("dlkterm.vim", "dlkDone") else set()
    first, second = vim_patterns("dlkmodel.vim", "dlkBracket")
    return {
        "keywords": spelled(vim_patterns("dlkmodel.vim", "dlkKeyword")[0], "\\|"),
        "constants": vim_words("dlkmodel.vim", "dlkConstant"),
        "operators": spelled(vim_patterns("dlkmodel.vim", "dlkOperator")[0], "\\|"),
        "brackets": set(first.removeprefix("[").removesuffix("]")) | spelled(second, "\\|"),
        "steps": vim_words("dlkterm.vim", "dlkStep") | done,
        "words of nodes": vim_words("dlkterm.vim", "dlkNode"),
        "words of scripts": set(re.findall(r"\w{4,}", "|".join(vim_patterns("dlkscript.vim", "dlkCommand")))),
        "rules": vim_words("dlkterm.vim", "dlkRule"),
        "axioms": vim_words("dlkterm.vim", "dlkAxiom"),
        "axiomatic rules": vim_words("dlkterm.vim", "dlkAxiomaticRule"),
        "atoms": vim_words("dlkstrategy.vim", "dlkAtom", "dlkRule"),
        "names of the library": vim_words("dlkstrategy.vim", "dlkLibrary"),
    }


def group_of(match: str, number: int) -> set[str]:
    """The words of a group of a TextMate match."""
    groups = re.findall(r"(?<!\\)\(([\w|]+)\)", match)
    return set(groups[number].split("|"))


def repository(kind: str) -> dict[str, dict[str, str]]:
    """The named patterns of a TextMate grammar."""
    found: dict[str, dict[str, str]] = json.loads((TEXTMATE / f"dlk-{kind}.tmLanguage.json").read_text(encoding="utf-8"))["repository"]
    return found


def textmate() -> Sets:
    """Each set of words as the TextMate grammars have it."""
    model, term, strategy, script = (
        {name: rule.get("match", "") for name, rule in repository(kind).items()} for kind in ("model", "term", "strategy", "script"))
    return {
        "keywords": spelled(model["keyword"], "|"),
        "constants": group_of(model["constant"], 0),
        "operators": spelled(model["operator"], "|"),
        "brackets": spelled(model["bracket"], "|"),
        "steps": set().union(*(group_of(term[name], 0) for name in ("done", "apply", "fact", "axiom", "rule", "sequent"))),
        "words of nodes": group_of(term["node"], 1),
        "words of scripts": group_of(script["apply"], 0) | group_of(script["word"], 0),
        "rules": group_of(term["apply"], 1),
        "axioms": group_of(term["axiom"], 1),
        "axiomatic rules": group_of(term["rule"], 1),
        "atoms": group_of(strategy["use"], 0) | group_of(strategy["atom"], 0) | group_of(strategy["rule"], 0),
        "names of the library": group_of(strategy["library"], 0),
    }


def second_axioms() -> list[tuple[str, set[str]]]:
    """The axioms that the files of strategies have."""
    use = repository("strategy")["use"]["match"]
    return [("vim", vim_words("dlkstrategy.vim", "dlkAxiom")), ("textmate", group_of(use, 1))]


# The commands

ARGUMENTS = {
    "Model": "MODEL", "Term": "TERM", "Lemma": "LEMMA", "File": "FILE", "Substitution": "SUBST", "Strategy": "STRATEGY", "Script": "SCRIPT",
    "Output": "TERM", "Number": "N",
}
MAN = {"substitution": "SUBST", "number": "N"}
ZSH = {"expression": "FILE", "substitution": "SUBST"}


def arguments(inputs: str, last: str) -> list[str]:
    """The arguments of a command: its inputs, and what stands last. A term that is written is OUT where one is read."""
    read = [ARGUMENTS[name] for name in re.findall(r"[A-Z]\w+", inputs)]
    behind = [ARGUMENTS[name] for name in re.findall(r"[A-Z]\w+", last) if name in ARGUMENTS]
    return read + ["OUT" if name in read else name for name in behind]


def usages() -> set[str]:
    """The usages, each a command with its arguments, by the table of the definitions."""
    text = text_of("crates", "dlk_replies", "specs", "Forms.antt")
    found = re.findall(r'^form_of \w+ = record \{ verb = codes "(\w+)"; inputs = (.*); last = (.*) \}$', text, re.M)
    return {" ".join([verb, *arguments(inputs, last)]) for verb, inputs, last in found}


def in_files(usage: str) -> tuple[str, ...]:
    """A usage with the file names that are completed: those of inputs and of the output."""
    return tuple(word for word in usage.split(" ") if word != "N")


def man_usages() -> list[set[str]]:
    """The usages of the man page's synopsis, and those of its list of commands."""
    brief, _, told = text_of("man", "dlk.1").partition(".Sh DESCRIPTION")
    synopsis = re.findall(r"^\.Cm (\w+)\n((?:\.Ar \w+\n)*)", brief, re.M)
    items = re.findall(r"^\.It Cm (\w+) Ar (.*)$", told, re.M)
    found = [(verb, re.findall(r"\.Ar (\w+)", words)) for verb, words in synopsis], [(verb, words.split()) for verb, words in items]
    return [{" ".join([verb, *(MAN.get(word, word.upper()) for word in words)]) for verb, words in usage} for usage in found]


def bash_usages() -> set[tuple[str, int]]:
    """The commands of the completions for bash, each with how many files it takes."""
    text = text_of("completions", "dlk.bash")
    files = {verb: int(count) for verbs, count in re.findall(r"^ +([\w |]+)\) files=(\d) ;;$", text, re.M) for verb in verbs.split(" | ")}
    listed = re.search(r"compgen -W '([^']*)'", text)
    return {(verb, files.get(verb, 0)) for verb in (listed[1].split() if listed else [])}


def zsh_usages() -> set[tuple[str, ...]]:
    """The commands of the completions for zsh, each with the files that it takes."""
    text = text_of("completions", "_dlk")
    cases = re.findall(r"^ +([\w |]+)\) files=\(([\w ]+)\) ;;$", text, re.M)
    files = {verb: [ZSH.get(word, word.upper()) for word in words.split()] for verbs, words in cases for verb in verbs.split(" | ")}
    return {(verb, *files.get(verb, [])) for verb in re.findall(r"^  '(\w+):", text, re.M)}


def commands() -> list[tuple[str, set[Any], set[Any]]]:
    """Each place where the commands stand, with those that it must have and those that it has."""
    wanted = usages()
    files = {in_files(usage) for usage in wanted}
    synopsis, items = man_usages()
    usage = {" ".join(words.split()) for words in re.findall(r'^ +"  dlk (.*?)  ', text_of("crates", "dlk", "src", "explain.rt"), re.M)}
    return [
        ("docs/FILES.md", wanted, {spans(row[0])[0] for row in rows(text_of("docs", "FILES.md"), "| Usage | What it does |")}),
        ("crates/dlk/src/explain.rt", wanted, usage),
        ("synopsis of man/dlk.1", wanted, synopsis),
        ("man/dlk.1", wanted, items),
        ("completions/dlk.bash", {(words[0], len(words) - 1) for words in files}, bash_usages()),
        ("completions/_dlk", files, zsh_usages()),
    ]


def statuses() -> tuple[set[str], set[str]]:
    """The exit statuses of docs/FILES.md, and those of the man page."""
    table = {row[0] for row in rows(text_of("docs", "FILES.md"), "| Status | Cause | Printed |")}
    told = text_of("man", "dlk.1").partition(".Sh EXIT STATUS")[2].partition(".Sh ")[0]
    return table, set(re.findall(r"^\.It (\d+)$", told, re.M))


def differences() -> Iterator[str]:
    """What differs, one text each."""
    words = documented()
    pairs: list[tuple[str, str, set[Any], set[Any]]]
    pairs = [(kind, name, words[kind], found[kind]) for name, found in (("vim", vim()), ("textmate", textmate())) for kind in words]
    pairs += [("axioms of strategies", name, words["axioms"], found) for name, found in second_axioms()]
    pairs += [("commands", *place) for place in commands()]
    pairs += [("exit statuses", "man/dlk.1", *statuses())]
    pairs += [("rules that are drawn", "docs/CALCULUS.md", words["rules"], set(drawings())),
              ("words of nodes", "src/dlkt/trees.py", words["words of nodes"], set(trees.ROWS)),
              ("axiomatic rules", "src/dlkt/calculus.py", words["axiomatic rules"], set(calculus.AXIOMATIC_RULES)),
              ("axioms", "src/dlkt/calculus.py", words["axioms"], set(calculus.AXIOMS)),
              ("names of the library", "src/dlkt/calculus.py", words["names of the library"], set(calculus.LIBRARY)),
              ("atoms", "src/dlkt/calculus.py", words["atoms"], {*calculus.PREMISES, *calculus.OTHER_WORDS}),
              ("numbers of premises", "src/dlkt/calculus.py", set(drawings().items()), set(calculus.PREMISES.items()))]
    for kind, name, expected, found in pairs:
        if not expected:
            yield f"{kind}: the documents have none"
        if expected != found:
            yield f"{kind}, {name}: lacks {sorted(expected - found)}, has too many {sorted(found - expected)}"
    operator = repository("model")["operator"]["match"]
    for word in words["operators"]:
        matched = re.match(operator, word)
        if not matched or matched[0] != word:
            yield f"operators, textmate: {word} is taken for another"


def main() -> int:
    """Prints what differs."""
    argparse.ArgumentParser(description=__doc__, formatter_class=argparse.RawDescriptionHelpFormatter).parse_args()
    wrong = list(differences())
    for line in wrong:
        print(f"editors.py: {line}")
    if not wrong:
        print(", ".join(f"{len(found)} {kind}" for kind, found in documented().items()) + ": as documented")
    return 1 if wrong else 0


if __name__ == "__main__":
    sys.exit(main())
