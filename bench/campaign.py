"""The parts of bench/soundness.py: each makes things, has the program check them, and asks the semantics.

A thing is told as a table: its part and name, its verdict (`valid`, `invalid`, `bounded`, `unknown`, `doubt`, `unsupported`, `premise` where a premise
or a leaf isn't known to be valid, `refused` where the program doesn't make it), what the guard says, and which wrong guards it catches.
"""

from __future__ import annotations

import random
import re
from pathlib import Path
from typing import Any, Callable, Iterator, Sequence

from dlkt import calculus
from dlkt.semantics import deciding, solver, syntax
from dlkt.semantics.deciding import Verdict
from dlkt.semantics.systems import Poles
from dlkt.trees import Tree, text
from instances import Border, Pairing, RULES, Texts, VARIABLES, EQUIVALENT, with_names_swapped
from proving import Examples, changed_terms, forward_proof, library_model, sequent_of_rule
from planted import caught, changes_of
from rows import Instance, Program, Replacing, Row, TREES, accepted, is_well_made, may_capture, renamed, sequent_tree, symbols
from twin import Mistake, Twin

Kept = dict[str, Any]
PARTS = ("axioms", "border", "congruence", "rules", "proofs", "library", "changed", "planted")
AXIOMS = tuple(calculus.AXIOMS)
MILLISECONDS, PREMISE_MILLISECONDS = 60, 100
DRAWN = 6
READINGS = ("w'=w'+1", "w'=1", "x'=1,y'=-1")  # of a constant of differential equations that is left
RULE_NAMES = tuple(calculus.PREMISES)
TWIN, WRONG_TWINS = Twin(), [Twin(mistake) for mistake in Mistake]
OWN_NAMES = re.compile(r"\b([xyts]_)")


class Campaign:
    """Makes things and asks what they are."""

    known: dict[str, Row] = {}  # the axioms and rules that the program was asked for, for all processes behind that

    def __init__(self, folder: Path, seed: int, patience: float = 1.0) -> None:
        self.program, self.seed = Program(folder), seed
        self.valid: dict[Tree, bool] = {}  # whether premises are known to be valid
        solver.Pace.factor = patience

    def batch(self, part: str, number: int, count: int) -> Iterator[Kept]:
        """The things of a batch. The same seed, part, number and count make the same."""
        syntax.forget()
        solver.forget()
        rng = random.Random(f"{self.seed} {part} {number}")
        parts: dict[str, Callable[[random.Random, int, int], Iterator[Kept]]] = {
            "axioms": self.axioms, "border": self.border, "congruence": self.congruence, "rules": self.rules, "proofs": self.proofs,
            "library": self.library, "changed": self.changed, "planted": self.planted,
        }
        for kept in parts[part](rng, number, count):
            yield {"part": part, **kept}

    def fact(self, name: str) -> tuple[Tree, tuple[Tree, ...]]:
        """The conclusion and the premises of an axiom or an axiomatic rule."""
        if name not in self.known:
            found = self.program.row([f"{'rule' if name in RULES else 'axiom'} {name}"])
            if isinstance(found, str):
                raise SystemExit(f"the program has no {name}: {found}")
            self.known[name] = found
        row = self.known[name]
        return sequent_tree(row.conclusion), tuple(map(sequent_tree, row.goals))

    def ask_facts(self, with_examples: bool) -> None:
        """Asks the program for all axioms and axiomatic rules, and maybe for the terms of the examples."""
        for name in (*AXIOMS, *RULES):
            self.fact(name)
        if with_examples:
            Examples.all(self.program)

    def known_axioms(self) -> tuple[str, ...]:
        """The names of the axioms of which forward proofs are made."""
        return tuple(name for name in AXIOMS if name not in ("DI", "DG"))

    # What is asked

    def verdict(self, tree: Tree, rng: random.Random, guard: str) -> Kept:
        """What the semantics says of a conclusion."""
        try:
            return told(deciding.decided(tree, MILLISECONDS, sampling=rng))
        except syntax.Unsupported as why:
            if str(why) != "a pole":
                return {"verdict": "unsupported", "why": str(why)}
        try:
            both = [deciding.decided(tree, MILLISECONDS, how, rng).verdict for how in (Poles.PASSED, Poles.STOPPED)]
        except syntax.Unsupported as why:
            return {"verdict": "unsupported", "why": str(why)}
        if both == [Verdict.VALID, Verdict.VALID]:
            return {"verdict": "valid"}
        if guard == "guarded" and Verdict.INVALID in both:  # the guard keeps divisors off 0, so no pole should matter
            return {"verdict": "invalid", "why": "by a pole"}
        return {"verdict": "unknown", "why": "a pole"}

    def premise(self, trees: Sequence[Tree]) -> bool:
        """Whether premises are known to be valid."""
        for tree in trees:
            if tree not in self.valid:
                try:
                    self.valid[tree] = deciding.decided(tree, PREMISE_MILLISECONDS).verdict == Verdict.VALID
                except syntax.Unsupported:
                    self.valid[tree] = False
        return all(self.valid[tree] for tree in trees)

    def judged(self, instances: Sequence[Instance], rng: random.Random) -> Iterator[Kept]:
        """What comes of instances: those that the twin of the guard lets through must all be let through by the guard, the first of the others
        must be refused for the same reason, and each whose conclusion is invalid must be refused."""
        for is_guarded in (True, False):
            some = [instance for instance in instances if (TWIN.says(instance) == "") == is_guarded]
            if not some:
                continue
            left, refused, said = accepted(self.program, some)
            yield from ({"name": line.split(": ")[2], "verdict": "refused", "why": line} for line in refused)
            disagrees = bool(left) and not self.agrees(left, said)
            for instance in left:
                kept = self.judged_alone(instance, rng)
                yield {**kept, "disagrees": said} if disagrees else kept
                disagrees = False

    def agrees(self, left: Sequence[Instance], said: str) -> bool:
        """Whether the guard says of all that are merged what its twin says: it names first the lines that are refused by themselves, which stand
        before all merges, and then the first merge."""
        reasons = [TWIN.says(instance) for instance in left]
        reason = next((one for one in reasons if one in ("dforall", "differential-context")), reasons[0])
        return said == "guarded" if reason == "" else said.split(": ")[-1].split(" ")[0] == reason

    def judged_alone(self, instance: Instance, rng: random.Random) -> Kept:
        """What the semantics says of an instance, and the guard where it is invalid."""
        kept: Kept = {"name": instance.name, "guard": TWIN.says(instance) or "guarded"}
        if not self.premise(instance.goals):
            return {**kept, "verdict": "premise"}
        kept |= self.verdict(instance.conclusion, rng, kept["guard"])
        if kept["verdict"] != "valid":
            kept |= {"lines": instance.lines, "conclusion": text(instance.conclusion)}
        if kept["verdict"] == "invalid":
            self.ask_guard(kept, instance)
        return kept

    def ask_guard(self, kept: Kept, instance: Instance) -> None:
        """Asks the guard of an instance whose conclusion is invalid, and which wrong guards let it through."""
        said = self.program.guard(instance.conclusion, instance.lines)
        reason = said.split(": ")[-1].split(" ")[0]
        if said != "guarded" and reason != kept["guard"]:
            kept["disagrees"] = said
        kept["guard"] = reason
        kept["caught"] = [twin.mistake.name for twin in WRONG_TWINS if twin.mistake and twin.says(instance) == ""]

    # Axioms and axiomatic rules

    def axioms(self, rng: random.Random, number: int, count: int) -> Iterator[Kept]:
        """Instances of all of them in turn."""
        names = [*AXIOMS, *RULES]
        wanted = [names[(number * count + place) % len(names)] for place in range(count)]
        found = [self.random_instance(name, rng) for name in wanted]
        yield from self.judged([instance for instance in found if instance], rng)

    def random_instance(self, name: str, rng: random.Random) -> Instance | None:
        """An instance, mostly one that looks admissible."""
        for _ in range(8):
            instance, pairs, row = self.drawn_instance(name, rng)
            is_whole = all(map(is_well_made, [instance.conclusion, *instance.goals]))
            if is_whole and (not may_capture(row, pairs) or rng.random() < 0.1):
                return instance
        return None

    def drawn_instance(self, name: str, rng: random.Random) -> tuple[Instance, str, list[Tree]]:
        """An instance by a renaming of the axiom's own variables, maybe a first substitution that leaves symbols, and one that leaves none."""
        conclusion, goals = self.fact(name)
        lines = [f"{'rule' if name in RULES else 'axiom'} {name}"]
        own = sorted(set(OWN_NAMES.findall(text(conclusion))))
        for one in own:
            if rng.random() < 0.7 and one != "y_":
                other = rng.choice(VARIABLES)
                lines.append(f"rename {len(lines)} {one} {other}")
                conclusion, goals = renamed(conclusion, one, other), tuple(renamed(goal, one, other) for goal in goals)
        if rng.random() < 0.25 and name not in RULES:
            some = [symbol for symbol in symbols(conclusion) if rng.random() < 0.6]
            conclusion, goals = self.replaced(lines, Pairing(name, Texts(rng, has_symbols=True)).text(some), conclusion, goals)
        making = Texts(rng, [*VARIABLES, *(one for one in own if rng.random() < 0.3)])
        row = [conclusion, *goals]
        pairs = Pairing(name, making).text(symbols(*row))
        conclusion, goals = self.replaced(lines, pairs, conclusion, goals)
        return Instance(name, tuple(lines), conclusion, goals), pairs, row

    def replaced(self, lines: list[str], pairs: str, conclusion: Tree, goals: tuple[Tree, ...]) -> tuple[Tree, tuple[Tree, ...]]:
        """A row with symbols replaced, and the line that does it."""
        lines.append(f"subst {len(lines)} {pairs}")
        replacing = Replacing(pairs)
        return replacing.tree(conclusion), tuple(map(replacing.tree, goals))

    # The border of the guard

    def border(self, rng: random.Random, number: int, count: int) -> Iterator[Kept]:
        """Instances of DI and DG at the guard's border."""
        found, left = list[Instance](), list[Instance]()
        for place in range(count):
            name = "DG" if place % 4 == 3 else "DI"
            conclusion, _ = self.fact(name)
            if rng.random() < 0.02:
                left.append(Instance(name, (f"axiom {name}",), conclusion, ()))
                continue
            pairs = Border(rng).ghost() if name == "DG" else Border(rng).invariant()
            has_constant = name == "DI" and rng.random() < 0.04
            if has_constant:
                pairs = "q(||)~>true,p(||)~>" + rng.choice(["false", "x>=0", "x!=y"])
            instance = Instance(name, (f"axiom {name}", f"subst 1 {pairs}"), Replacing(pairs).tree(conclusion), ())
            (left if has_constant else found).append(instance)
        yield from self.judged([instance for instance in found if is_well_made(instance.conclusion)], rng)
        for instance in left:
            yield self.judged_by_readings(instance, rng)

    def judged_by_readings(self, instance: Instance, rng: random.Random) -> Kept:
        """What comes of a row with symbols left: it is invalid where it is so in a reading of them."""
        kept: Kept = {"name": instance.name, "guard": TWIN.says(instance) or "guarded", "verdict": "unknown"}
        row = instance.conclusion
        for reading in READINGS:
            pairs = [f"{{c}}~>{{{reading}}}"] if instance.name == "DI" else []
            left = [symbol for symbol in symbols(row) if symbol[0] != "ode" or instance.name != "DI"]
            if left:
                pairs.append(Pairing(instance.name, Texts(rng)).text(left))
            kept |= self.verdict(Replacing(",".join(pairs)).tree(row), rng, kept["guard"])
            if kept["verdict"] == "invalid":
                kept |= {"lines": instance.lines, "conclusion": text(row), "reading": pairs}
                self.ask_guard(kept, instance)
                break
        return kept

    # CE

    def congruence(self, rng: random.Random, number: int, count: int) -> Iterator[Kept]:
        """Instances of CE with `_` under, beside and round a differential."""
        conclusion, goals = self.fact("CE")
        shapes = [
            "(_)'", "(_&{f})'", "({f}|_)'", "!((_)')", "[{p}](_)'", "(_)'&{f}", "({f})'&_", "[?({f})';]_", "[{{x'=1&_}}]{f}", "(([{p}]_)&{f})'", "_->({f})'",
            "[{{x'=(x)'&_}}]{f}", "\\forall x ((_)'|{f})", "<?_;>{f}", "[?(_)';]{f}"]
        found = []
        for _ in range(count):
            making = Texts(rng)
            one, other = with_names_swapped(rng, *rng.sample(rng.choice(EQUIVALENT), 2))
            context = rng.choice(shapes).format(f=making.comparison(1), p=making.program(0))
            pairs = f"p(||)~>{one},q(||)~>{other},C{{_}}~>{context}"
            replacing = Replacing(pairs)
            found.append(Instance("CE", ("rule CE", f"subst 1 {pairs}"), replacing.tree(conclusion), tuple(map(replacing.tree, goals))))
        yield from self.judged(found, rng)

    # Proofs

    def rules(self, rng: random.Random, number: int, count: int) -> Iterator[Kept]:
        """Sequents with a rule applied."""
        for place in range(count):
            name = RULE_NAMES[(number * count + place) % len(RULE_NAMES)]
            sequent, rule = sequent_of_rule(name, Texts(rng))
            lines = (f"start {sequent}", f"apply 1 1 {rule}")
            row = self.program.row(lines)
            if isinstance(row, str):
                yield {"name": name, "verdict": "refused", "why": f"{row}: {lines}"}
                continue
            yield {"name": name, "lines": lines, **self.judged_rule(row, rng)}

    def judged_rule(self, row: Row, rng: random.Random) -> Kept:
        """What comes of a rule: in each state its premises make its conclusion true, or else it is asked whether they are valid."""
        conclusion, goals = sequent_tree(row.conclusion), [sequent_tree(goal) for goal in row.goals]
        whole = conclusion
        for goal in goals:
            whole = TREES.make("imply", "", goal, whole)
        kept = self.verdict(whole, rng, "")
        if kept["verdict"] != "valid" and goals:
            kept = self.verdict(conclusion, rng, "") if self.premise(goals) else {"verdict": "premise"}
        return {**kept, "guard": "guarded"}

    def proofs(self, rng: random.Random, number: int, count: int) -> Iterator[Kept]:
        """Forward proofs."""
        for _ in range(count):
            instance = forward_proof(self, rng)
            said = self.program.guard(instance.conclusion, instance.lines)
            if said != "guarded" and not said.startswith("unguarded"):
                yield {"name": "proof", "verdict": "refused", "why": said}
                continue
            kept: Kept = {"name": "proof", "guard": said.split(": ")[-1].split(" ")[0], "steps": len(instance.lines)}
            kept |= self.verdict(instance.conclusion, rng, kept["guard"])
            if kept["verdict"] != "valid":
                kept |= {"lines": instance.lines, "conclusion": text(instance.conclusion)}
            yield kept

    def library(self, rng: random.Random, number: int, count: int) -> Iterator[Kept]:
        """Models proved by the library, those whose leaves are valid mostly."""
        for _ in range(count):
            for _ in range(DRAWN):
                kept = self.judged_term(*library_model(self.program, rng), rng)
                if kept["verdict"] != "premise":
                    break
            yield kept

    def changed(self, rng: random.Random, number: int, count: int) -> Iterator[Kept]:
        """Terms of the examples with a line changed."""
        for name, lines in changed_terms(self.program, rng, number, count):
            yield self.judged_term(name, lines, rng)

    def judged_term(self, name: str, lines: Sequence[str], rng: random.Random) -> Kept:
        """What comes of a whole term: its conclusion must be valid where it is guarded and its leaves are valid."""
        row = self.program.row(lines) if lines else "nothing was proved"
        if isinstance(row, str) or row.goals or not row.conclusion.startswith("==> "):
            return {"name": name, "verdict": "refused", "why": str(row)[:200]}
        conclusion = sequent_tree(row.conclusion)
        said = self.program.guard(conclusion, lines)
        kept: Kept = {"name": name, "guard": said.split(": ")[-1].split(" ")[0], "conclusion": text(conclusion)}
        if not self.premise([sequent_tree(leaf) for leaf in row.leaves]):
            return {**kept, "verdict": "premise"}
        kept |= self.verdict(conclusion, rng, kept["guard"])
        if kept["verdict"] == "invalid":
            kept["lines"] = list(lines)
        return kept

    # Planted mistakes

    def planted(self, rng: random.Random, number: int, count: int) -> Iterator[Kept]:
        """Axioms with one place changed: whether an instance is invalid."""
        whole = [(name, change) for name in AXIOMS if name not in ("DI", "DG", "Dforall") for change in changes_of(self.fact(name)[0])]
        random.Random(self.seed).shuffle(whole)
        for place in range(count):
            name, changed = whole[(number * count + place) % len(whole)]
            yield {"name": name, "verdict": "invalid" if caught(name, changed, rng) else "valid", "guard": "", "changed": text(changed)}


def told(decided: deciding.Decided) -> Kept:
    """A verdict as it is kept."""
    kept: Kept = {"verdict": decided.verdict.value}
    if decided.verdict in (Verdict.INVALID, Verdict.DOUBT):
        kept["values"] = {name: str(value) for name, value in decided.values.items()}
    return kept
