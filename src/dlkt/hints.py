"""What looks wrong in a model or a strategy, though the program may take it. A hint says where and what, and never changes a verdict."""

import difflib
import re
import tempfile
from pathlib import Path
from typing import Iterable, Iterator, NamedTuple, Sequence

from dlkt import reader, strategies
from dlkt.calculus import AXIOMS, LIBRARY, OTHER_WORDS, PREMISES, is_word
from dlkt.formulas import bound_anywhere, conjuncts, formula, free, is_arithmetic
from dlkt.leaves import exported_alone
from dlkt.program import Name, Refused, answer, at_top, position, refusal_in, split_list
from dlkt.solvers import Solvers, Word
from dlkt.strategies import Atom, Part
from dlkt.trees import Tree, text as text_of
from dlkt.words import Line

MOST_SECONDS = 2.0  # for the question whether assumptions contradict each other
LONGEST_LOOK = 1 << 18  # bytes of a model that is read for hints
MARK_OF_ORDER = b"\xef\xbb\xbf"
COMMENT = re.compile(rb"/\*.*?\*/|//[^\n]*", re.DOTALL)
TOKEN = re.compile(r"\\?[A-Za-z][A-Za-z0-9_]*")
BRACKET = re.compile(r"\s*[({]")
KEYWORDS = ("true", "false", "\\forall", "\\exists", "term", "invariant")
# Functions that other provers know, and that are symbols like any other here: how each is written out.
UNKNOWN_FUNCTIONS = {"abs": "abs(x)<=k is -k<=x&x<=k", "min": "min(x,y)>=k is x>=k&y>=k", "max": "max(x,y)<=k is x<=k&y<=k"}
ARCHIVE = re.compile(
    rb"\b(ArchiveEntry|Theorem|Lemma|Exercise|SharedDefinitions|Definitions|ProgramVariables|Problem|Tactic|Variables|Functions|End)\b\s*"
    rb"(?:\"|\.|\n|\r)"
)
# What a word of another prover is here.
OTHER_PROVERS = {
    "QE": "leaf", "unfold": "(step(1) | andR(1) | implyR(1) | skolemR(1))*20", "id": "close", "ODE": "dC, dI and dW",
    "assignb": "step", "composeb": "step", "choiceb": "step", "testb": "step", "randomb": "step", "allR": "skolemR", "existsL": "skolemL",
    "diffInvariant": "dC and dI", "GV": "useAt(V,P)", "abstractionb": "useAt(V,P)", "solve": "useAt(DS,P)",
}


class Hint(NamedTuple):
    """A hint: the file that it is of (`model`, `strategy` or `term`), the byte, and what it says."""

    file: str
    byte: int
    text: str


class Files(NamedTuple):
    """The bytes of the files that are looked at. A proof may have no strategy, and no term that was there before."""

    model: bytes
    strategy: bytes | None
    term: bytes | None


def blanked(data: bytes) -> str:
    """The text of a file with blanks for its comments, one character a byte."""
    return COMMENT.sub(lambda found: re.sub(rb"[^\n]", b" ", found[0]), data).decode("latin-1")


def near(name: str, names: Iterable[str]) -> str:
    """A hint at a name that is written nearly so."""
    found = difflib.get_close_matches(name, names, 1, 0.6)
    return f"; is {found[0]} meant?" if found else ""


class Names(NamedTuple):
    """The names of a text of the language of models, with their bytes: variables, and symbols with brackets behind them."""

    variables: dict[str, int]
    symbols: dict[str, int]


def names_of(text: str, begin: int = 0) -> Names:
    """The names of a text; each with the byte at which it stands first."""
    variables, symbols = dict[str, int](), dict[str, int]()
    for found in TOKEN.finditer(text):
        before = text[max(0, found.start() - 20) : found.start()].rstrip()
        if found[0] in KEYWORDS or before.endswith(("._", "@")):
            continue
        is_bound = before.endswith(("\\forall", "\\exists"))
        kind = symbols if BRACKET.match(text, found.end()) and not is_bound else variables
        kind.setdefault(found[0], begin + found.start())
    return Names(variables, symbols)


def of_files(model: bytes, strategy: bytes | None, term: bytes | None) -> Iterator[Hint]:
    """Hints at the bytes of the files: marks of order, line ends, and an archive."""
    for file, data in (("model", model), ("strategy", strategy or b""), ("term", term or b"")):
        if data.startswith(MARK_OF_ORDER):
            yield Hint(file, 0, "the file begins with a byte order mark, which no text of dlk has: save it as UTF-8 without one")
    if term and b"\r\n" in term:
        yield Hint("term", term.index(b"\r\n"), "the term has line ends of Windows, which check refuses: only a line feed ends a line")
    found = ARCHIVE.search(COMMENT.sub(lambda it: b" " * len(it[0]), model))
    if found:
        word = found[1].decode()
        yield Hint("model", found.start(1), f"{word} is a keyword of archives: a model of dlk is the formula of the problem alone")


def of_axioms(tree: Part) -> Iterator[Hint]:
    """Hints at names of axioms that are none: a choice or a repeat passes over their refusal."""
    for atom in strategies.atoms(tree):
        if atom.name in ("useAt", "useBack") and atom.arguments and atom.arguments[0].text not in AXIOMS:
            first = atom.arguments[0]
            yield Hint("strategy", first.begin, f"there is no axiom {first.text}{near(first.text, AXIOMS)}")


def of_words(tree: Part) -> Iterator[Hint]:
    """Hints at words that are none."""
    words = [*PREMISES, *LIBRARY, *OTHER_WORDS]
    for atom in strategies.atoms(tree):
        if not is_word(atom.name):
            if atom.name == "auto":
                yield Hint("strategy", atom.begin, "there is no word auto; the command `dlkt auto MODEL` looks for a whole proof")
                continue
            other = OTHER_PROVERS.get(atom.name)
            meant = f"; in its place stands {other}" if other else near(atom.name, words)
            axiom = f"; the axiom is used by useAt({atom.name},P)" if atom.name in AXIOMS and not other else ""
            yield Hint("strategy", atom.begin, f"there is no word {atom.name}{axiom or meant}")


def introduced(tree: Part) -> set[str]:
    """The names that a strategy brings in: those of bound variables that get another name, of ghosts, those that it is given, and those
    that axioms have."""
    names = {"x_", "y_", "t_", "s_"}
    for atom in strategies.atoms(tree):
        if atom.name in ("boundL", "boundR", "dG"):
            names |= {it.text for it in atom.arguments if it.kind == "name"}
        if atom.name in ("useAt", "useBack"):
            for it in atom.arguments[2:]:
                names |= set(re.findall(r"~~\s*(\w+)", it.text))
    return names


def texts_of(atom: Atom) -> Iterator[tuple[str, int]]:
    """The texts in quotes of an atom that are of the language of models, each with its first byte. Of a text of pairs only the right sides
    are, whose symbols are the axiom's own on the left."""
    for it in atom.arguments:
        if it.kind != "text":
            continue
        begin = it.begin + 1
        if atom.name not in ("useAt", "useBack"):
            yield it.text, begin
            continue
        marks = [0, *(at + 1 for at, _ in at_top(it.text, [","])), len(it.text) + 1]
        for start, end in zip(marks, marks[1:]):
            _, arrow, right = it.text[start : end - 1].partition("~>")
            if arrow:
                yield right, begin + end - 1 - len(right)


def bound_in(text: str) -> set[str]:
    """The names that quantifiers and programs of a text bind."""
    return set(re.findall(r"\\(?:forall|exists)\s+(\w+)", text)) | set(re.findall(r"(\w+)\s*'?\s*:?=(?!=)", text) if "[" in text else ())


def of_names(model: bytes, tree: Part) -> Iterator[Hint]:
    """Hints at names that stand in the strategy and not in the model."""
    known, brought, told = names_of(blanked(model)), introduced(tree), set[tuple[str, bool]]()
    for atom in strategies.atoms(tree):
        for text, begin in texts_of(atom):
            found = names_of(text, begin)
            for name, byte in [*found.variables.items(), *found.symbols.items()]:
                is_symbol = found.symbols.get(name) == byte
                wanted = known.symbols if is_symbol else known.variables
                if name in wanted or name in brought or name in bound_in(text) or (name, is_symbol) in told:
                    continue
                told.add((name, is_symbol))
                yield Hint("strategy", byte, f"{name}{'()' if is_symbol else ''} isn't in the model{instead(name, is_symbol, known)}")


def instead(name: str, is_symbol: bool, known: Names) -> str:
    """What the model has in place of a name."""
    if not is_symbol and name in known.symbols:
        return f", which has {name}(): with brackets it is a constant, without them a variable"
    if is_symbol and name in known.variables:
        return f", which has {name}: without brackets it is a variable, with them a constant"
    return near(name, known.symbols if is_symbol else known.variables)


def of_functions(model: bytes, tree: Part | None) -> Iterator[Hint]:
    """Hints at functions of other provers."""
    texts = [("model", blanked(model), 0), *(("strategy", *found) for atom in (strategies.atoms(tree) if tree else ()) for found in texts_of(atom))]
    for file, text, begin in texts:
        for name, byte in names_of(text, begin).symbols.items():
            if name in UNKNOWN_FUNCTIONS:
                said = f"{name} is a symbol like any other, of which nothing is known: write it out, as {UNKNOWN_FUNCTIONS[name]}"
                yield Hint(file, byte, said)


def of_constants(program: str, path: Name, model: bytes, tree: Part) -> Iterator[Hint]:
    """Hints at variables that no program of the model changes, where the strategy has a `dI`, which wants constants in brackets."""
    if not any(atom.name == "dI" or (atom.arguments and atom.arguments[0].text == "DI") for atom in strategies.atoms(tree)):
        return
    said = answer(program, "vars", path).text.split("\n")
    sets = {line.partition(": ")[0]: set(line.partition(": ")[2].split(", ")) for line in said}
    known = names_of(blanked(model)).variables
    for name in sorted(sets.get("free", set()) - sets.get("bound", set())):
        if name in known:
            text = f"no program changes {name}, and a dI of a formula with it isn't guarded: a constant is written {name}()"
            yield Hint("model", known[name], text)


def needed_constant(pairs: str) -> list[str]:
    """The variables that a use of `DI` with these pairs needs constant: those of its formula that its system doesn't evolve, and of which
    the domain doesn't say that they stand still."""
    parts = [part.partition("~>") for part in split_list(pairs)]
    replaced = {symbol: text for symbol, arrow, text in parts if arrow}
    system, domain, formula = (replaced.get(symbol, "") for symbol in ("{c}", "q(||)", "p(||)"))
    evolved = set(re.findall(r"(\w+)'\s*=", system))
    still = set(re.findall(r"(\w+)'=0(?![\d.*/^+-])", domain))
    return [name for name in names_of(formula).variables if name not in evolved | still and name not in bound_in(formula)]


def of_invariants(lines: Sequence[Line], words: Sequence[tuple[int, str] | None], *first_told: tuple[int | None, str]) -> Iterator[Hint]:
    """Hints at each `dI` of a term that needs a variable constant, but for those told, as bytes and names. `words` says which word made
    which line."""
    told: set[tuple[int | None, str]] = set(first_told)
    for number, ((word, rest), (next_word, pairs)) in enumerate(zip(lines, lines[1:]), 1):
        made = words[number - 1] if number <= len(words) else None
        if (word, rest, next_word) != ("axiom", "DI", "subst") or made is None:
            continue
        for name in needed_constant(pairs.partition(" ")[2]):
            if (made[0], name) not in told:
                told.add((made[0], name))
                yield Hint("strategy", made[0], f"{made[1]} needs {name} constant, which is a variable that its equations don't change")


# Texts that are no strategy

def of_ends(text: str) -> Iterator[Hint]:
    """Hints at a `;` behind which no part stands, and at comments of another kind, but for what stands in comments and in quotes."""
    bare = re.sub(r"/\*.*?\*/|\"[^\"]*\"", lambda found: re.sub(r"[^\n]", " ", found[0]), text, flags=re.DOTALL)
    for found in re.finditer(r";(?=\s*(?:[;,)|]|\Z))", bare):
        yield Hint("strategy", found.start(), "a `;` stands between two parts, and none follows here: leave it out")
    comment = bare.find("//")
    if comment >= 0:
        yield Hint("strategy", comment, "a strategy has no comments with //: write /* .. */")


def unmatched(text: str) -> int | None:
    """The place of the first bracket that no other one matches, or none."""
    opened: list[int] = []
    pairs = {")": "(", "]": "[", "}": "{"}
    for at, letter in enumerate(text):
        if letter in "([{":
            opened.append(at)
        elif letter in pairs and (not opened or text[opened.pop()] != pairs[letter]):
            return at
    return opened[0] if opened else None


def fault_in_quotes(program: str, text: str, byte: int) -> Hint | None:
    """The place at which a text in quotes of the atom at this byte is refused, as the program tells it; none where it isn't refused."""
    try:
        atoms = [atom for atom in strategies.atoms(strategies.read(text)) if atom.begin == byte]
    except strategies.Wrong:
        return None
    for inside, begin in (it for atom in atoms for it in texts_of(atom)):
        with tempfile.TemporaryDirectory() as folder:
            file = Path(folder) / "file"
            file.write_bytes(inside.encode("latin-1"))
            refusal = refusal_in(answer(program, "print", file).text)
        if refusal is None:
            continue
        said = f"arguments: the text in quotes doesn't go on here ({refusal.why})"
        alone = unmatched(inside)
        if alone is not None and refusal.why == "syntax":
            place = position(text, begin + alone)
            said += f"; the {inside[alone]} at {place.line}:{place.column} has no other one that matches it"
        return Hint("strategy", begin + refusal.byte, said)
    return None


# Names and assumptions of a model

def tree_of(model: bytes) -> Tree | None:
    """The tree of a model, or none where it can't be read, or is very long."""
    if len(model) > LONGEST_LOOK:
        return None
    try:
        return formula(model.decode("latin-1"))
    except (reader.Wrong, RecursionError):
        return None


def letters_of(name: str) -> str:
    """The letters of a name, by which two names look alike."""
    return name.lower().replace("_", "")


def of_twins(model: bytes, tree: Tree) -> Iterator[Hint]:
    """Hints at a variable beside a constant of the same name, and at one that is used once beside a constant of the same letters."""
    text = blanked(model)
    known, bound = names_of(text), bound_anywhere(tree)
    constants = [name for name in known.symbols if re.search(rf"\b{name}\s*\(\s*\)", text)]
    for name, byte in known.variables.items():
        if name in constants:
            later = max(byte, known.symbols[name])
            yield Hint("model", later, f"the model has {name} and {name}(): the one is a variable, the other a constant, and they needn't be equal")
            continue
        alike = [constant for constant in constants if letters_of(constant) == letters_of(name)]
        uses = re.findall(rf"(?<![A-Za-z0-9_]){name}(?![A-Za-z0-9_]|\s*[({{])", text)
        if alike and name not in bound and len(uses) == 1:
            yield Hint("model", byte, f"{name} is used once, and is a variable that nothing says anything of; is {alike[0]}() meant?")


def assumptions(tree: Tree) -> list[Tree]:
    """What stands before the arrows of a model, part by part."""
    found: list[Tree] = []
    while tree.word == "imply" or tree.word == "forall" and not found:
        found += conjuncts(tree.kids[0]) if tree.word == "imply" else []
        tree = tree.kids[-1]
    return found


def of_assumptions(program: str, model: bytes, solvers: Solvers) -> Iterator[Hint]:
    """A hint where what a model assumes contradicts itself, as a solver says."""
    tree = tree_of(model)
    parts = [part for part in assumptions(tree) if is_arithmetic(part) and not any(name.endswith("'") for name in free(part))] if tree else []
    if not parts or not solvers.names:
        return
    try:
        script = exported_alone(program, ", ".join(map(text_of, parts)) + " ==> false")
    except Refused:
        return
    said = solvers.check(script.text, min(solvers.seconds, MOST_SECONDS)) if script.text is not None else None
    if said and said.word is Word.VALID:
        byte = len(blanked(model)) - len(blanked(model).lstrip())
        by = " and ".join(solver for solver, reply in said.by.items() if reply.word is Word.VALID)
        yield Hint("model", byte, f"what the model assumes can never hold, says {by}: so it is true whatever the program does, and says nothing")


def hints(program: str, model_path: Name, files: Files, is_guarded: bool) -> list[Hint]:
    """All hints that need no proof. Of a guarded one no variable need be constant."""
    found = [*of_files(*files)]
    model = tree_of(files.model)
    twins = [*of_twins(files.model, model)] if model else []
    text = (files.strategy or b"").decode("latin-1")
    try:
        tree = strategies.read(text)
    except strategies.Wrong:
        return [*found, *twins, *of_functions(files.model, None), *of_ends(text)]
    found += [*of_axioms(tree), *of_words(tree), *of_names(files.model, tree), *twins, *of_functions(files.model, tree)]
    return found if is_guarded else [*found, *of_constants(program, model_path, files.model, tree)]
