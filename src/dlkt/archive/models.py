"""From an archive to models: the entries' sections, their declarations, the problem, its definitions expanded, cases, text."""

from typing import NamedTuple

from .cases import by_cases
from .check import Checker, bodies
from .declare import BUILT_IN, HP, IMPORTED, VARIABLE, Table
from .expand import Expander, taken_names
from .read import SHARED, TEXT, Entry, Tactic, read
from .syntax import Raw
from .tree import Node, Refused, free, uses
from .write import written_model

SYMBOLS = ("app", "holds", "const", "ufun", "upred")


class Model(NamedTuple):
    """An entry that is read: its symbols with hints, its problem as it is checked, its definitions, the problem without definitions, that without
    abs, min and max, its text, and what is said of it (a name and a text each)."""

    entry: Entry
    table: Table
    checked: Node
    bodies: dict[str, Node]
    expander: Expander
    expanded: Node
    tree: Node
    text: str
    about: tuple[tuple[str, str], ...]

    @property
    def tactics(self) -> tuple[Tactic, ...]:
        """The tactics of the entry."""
        return self.entry.tactics

    def expand(self, raw: Raw) -> Node:
        """A formula of the entry without its definitions."""
        return by_cases(self.expander.expand(Checker(self.table, note=True).formula(raw)))

    def expand_term(self, raw: Raw) -> Node:
        """A term of the entry without its definitions."""
        return self.expander.expand(Checker(self.table).term(raw))


class Read(NamedTuple):
    """An entry with its model, or why it has none."""

    entry: Entry
    model: Model | None
    fault: Refused | None


def sections(tree: Raw, rule: str) -> list[Raw]:
    """The sections of an entry of one kind."""
    return [kid for kid in tree.trees if kid.rule == rule]


def problem_of(entry: Entry, tree: Raw) -> Raw:
    """The problem of an entry."""
    found = sections(tree, "problem")
    if not found:
        raise Refused(entry.place, "the entry has no Problem")
    if len(found) > 1:
        raise Refused(found[1].place, "the entry has a second Problem")
    return found[0].trees[0]


def about(tree: Raw) -> tuple[tuple[str, str], ...]:
    """What an entry says of itself."""
    return tuple((one.words[0].text, one.words[1].text[1:-1]) for one in sections(tree, "meta"))


def model_of(entry: Entry, shared: Table) -> Model:
    """The model of an entry."""
    if entry.refused or entry.tree is None:
        raise entry.refused or Refused(entry.place, "the entry isn't read")
    table = shared.copy()
    problem = problem_of(entry, entry.tree)
    for part in sections(entry.tree, "definitions"):
        table.declare(part)
    for part in sections(entry.tree, "variables"):
        table.variables(part)
    defined = bodies(table)
    checked = Checker(table).formula(problem)
    hint_abbreviations(table, defined, checked)
    arguments = {name: table.symbols[name].dots for name in defined}
    taken = taken_names([*table.symbols, *table.unknown, *BUILT_IN, *table.imports], [*defined.values(), checked])
    expander = Expander(defined, arguments, taken, table.hint)
    expanded = expander.expand(checked)
    whole = by_cases(expanded)
    refuse_strangers(entry, table, whole)
    text = written_model(whole, entry.place)
    return Model(entry, table, checked, defined, expander, expanded, whole, text, about(entry.tree))


def needed(tree: Node, defined: dict[str, Node]) -> set[str]:
    """The definitions that a tree uses, also by others."""
    found, open_names = set[str](), uses(tree)
    while open_names:
        name = open_names.pop()
        found.add(name)
        open_names |= uses(defined[name]) - found
    return found


def hint_abbreviations(table: Table, defined: dict[str, Node], checked: Node) -> None:
    """Says which definitions with brackets read variables."""
    for name in sorted(uses(checked)):
        symbol, read_here = table.symbols[name], free(defined[name])
        if symbol.brackets and not symbol.arguments and symbol.kind != HP and read_here:
            table.hint(symbol.place, f"{name}() reads variables ({', '.join(sorted(read_here))}): it is an abbreviation, read where it stands")


def symbols_in(tree: Node) -> set[str]:
    """The names of the symbols in a tree that aren't variables."""
    found = {tree.detail.partition("|")[0]} if tree.word in SYMBOLS else set()
    if tree.word == "system":
        found |= {item for item in tree.detail.split(",") if not item.endswith("'")}
    return found.union(*map(symbols_in, tree.kids + tree.notes))


def refuse_strangers(entry: Entry, table: Table, whole: Node) -> None:
    """Refuses a model with free names that the entry hasn't."""
    declared = {name for name, symbol in table.symbols.items() if symbol.kind == VARIABLE}
    declared |= {name for name, what in table.unknown.items() if what[0] == VARIABLE}
    known = {name for name, symbol in table.symbols.items() if symbol.kind != VARIABLE and symbol.body is None}
    known |= {name for name, what in table.unknown.items() if what[0] != VARIABLE}
    known |= table.imports | (set(IMPORTED) if "*" in table.imports else set())
    strangers = {name.rstrip("'") for name in free(whole)} - declared | symbols_in(whole) - known
    if strangers:
        raise Refused(entry.place, f"a fault of this reader: {', '.join(sorted(strangers))} got free")


def models(source: str) -> list[Read]:
    """Each entry of an archive with its model, or why it has none."""
    entries, imports = read(source)
    shared, found, broken = Table(imports), list[Read](), None
    for entry in entries:
        try:
            if entry.kind == SHARED:
                declare_shared(shared, entry, found)
                continue
            if broken and entry.kind != TEXT:
                raise Refused(broken.place, f"SharedDefinitions aren't read: {broken.reason}")
            found.append(Read(entry, model_of(entry, shared), None))
        except Refused as fault:
            broken = fault if entry.kind == SHARED else broken
            found.append(Read(entry, None, fault))
    return found


def declare_shared(shared: Table, entry: Entry, before: list[Read]) -> None:
    """Declares what is of all entries."""
    if entry.refused or entry.tree is None:
        raise entry.refused or Refused(entry.place, "SharedDefinitions aren't read")
    if any(one.entry.kind not in (SHARED, TEXT) for one in before):
        raise Refused(entry.place, "SharedDefinitions stand behind an entry: put them first")
    shared.declare(entry.tree)
