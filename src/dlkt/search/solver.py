"""Asks z3 whether arithmetic follows, by `dlkt.solvers`; nothing is asked twice.

The bound of a question is z3's `rlimit`, a count of its steps, so that the answer doesn't depend on how fast the machine is; a clock bounds the
question only where the steps take many times as long as they should, and where the search as a whole is at its end. `work` adds up the steps,
and is what the search budgets.
"""

import time
from typing import NamedTuple

from dlkt.formulas import NoSmt, ZERO, free_of_all, has_quantifier, make, smt, smt_name
from dlkt.program import Refused
from dlkt.search.points import Points
from dlkt.solvers import Solvers, Word, there
from dlkt.trees import Tree

VALID, FALSE, UNKNOWN = Word.VALID, Word.FALSE, Word.UNKNOWN
SECOND = 300_000  # z3's steps in about a second
SLACK = 10  # how many times longer than that a question may take
NAME = "z3"
Facts = tuple[Tree, ...] | list[Tree]


class Verdict(NamedTuple):
    """What is said of a question, with values where it is false, and the seconds that it had."""

    answer: Word
    values: dict[str, str]
    seconds: float


class Solver:
    """z3, and what it has answered."""

    def __init__(self, seconds: float = 3.0, end: float = float("inf")) -> None:
        if NAME not in there():
            raise Refused("the search needs the solver z3, which isn't there: apt-get install z3")
        self.seconds, self.end, self.asked, self.work = seconds, end, 0, 0
        self.known: dict[tuple[frozenset[Tree], Tree], Verdict] = {}
        self.solvers, self.points = Solvers([NAME]), Points()
        self.is_silent = False

    def stop(self) -> None:
        """Ends the process."""
        self.solvers.close()

    def check(self, body: str, seconds: float, logic: str = "NRA", options: str = "") -> tuple[Word, dict[str, str]]:
        """What z3 says of declarations and assertions: valid where nothing satisfies them, else false with values."""
        left = self.end - time.time()
        if self.is_silent or left <= 0:
            return UNKNOWN, {}
        steps = int(SECOND * seconds)
        self.asked += 1
        text = f"(set-option :rlimit {steps})\n{options}(set-logic {logic})\n{body}"
        said = self.solvers.check(text, min(seconds * SLACK + 2, left + 1))
        reply = said.by.get(NAME)
        self.work += reply.steps if reply is not None and reply.steps else steps
        return said.word, dict(said.values)

    def satisfied(self, facts: list[Tree], seconds: float, more: str = "") -> tuple[Word, dict[str, str]]:
        """Whether no values satisfy these facts together, else the values; `more` are further assertions."""
        names = sorted(free_of_all(facts))
        try:
            body = "".join(f"(declare-const {smt_name(name)} Real)\n" for name in names) + "".join(f"(assert {smt(fact)})\n" for fact in facts)
        except NoSmt:
            return UNKNOWN, {}
        return self.check(body + more, seconds)

    def valid(self, left: Facts, right: Tree, seconds: float | None = None) -> Verdict:
        """Whether the right formula follows from those on the left."""
        bound = seconds or self.seconds
        key = (frozenset(left), right)
        known = self.known.get(key)
        if known is not None and (known.answer is not UNKNOWN or known.seconds >= bound):
            return known
        found = self.answered(list(left), right, bound)
        if not self.is_silent:
            self.known[key] = found
        return found

    def answered(self, left: list[Tree], right: Tree, seconds: float) -> Verdict:
        """The same, for what isn't known. What has no quantifier is enough, mostly, and is asked first."""
        if right in left:
            return Verdict(VALID, {}, seconds)
        if not has_quantifier(right) and any(map(has_quantifier, left)):
            plain = self.valid([one for one in left if not has_quantifier(one)], right, seconds)
            if plain.answer is VALID:
                return plain
            if seconds < 1.5:
                return Verdict(UNKNOWN, {}, seconds)
        names = sorted(free_of_all([*left, right]))
        known = self.points.against(left, right, names)
        if known is not None:
            return Verdict(FALSE, known, seconds)
        said, values = self.satisfied([*left, make("not", "", right)], seconds)
        if said is FALSE:
            self.points.add(values)
        return Verdict(said, values, seconds)

    def holds(self, left: Facts, right: Tree, seconds: float | None = None) -> bool:
        """Whether the right formula is known to follow."""
        return self.valid(left, right, seconds).answer is VALID

    def sign(self, left: Facts, term: Tree) -> int | None:
        """1 or -1 where a term is known to be above or below 0, else none."""
        if self.holds(left, make("gt", "", term, ZERO)):
            return 1
        if self.holds(left, make("lt", "", term, ZERO)):
            return -1
        return None
