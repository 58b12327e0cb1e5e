"""Terms and formulas of real numbers, kept in a normal form: what the semantics makes of a formula, before a solver sees it.

A term is a polynomial in constants, with fractions as coefficients. A formula is made of the signs of polynomials, of constants that are true or
false, of `and`, `or` and quantifiers; a negation goes down to the signs. Formulas are kept once, so that two that are written alike are one object,
also where their quantifiers bind other names. So most instances of axioms are seen to be valid without a solver.

What is made simpler on the way: signs of the same polynomial are joined (`x>=0` and `x<=0` are `x=0`), a formula beside its negation is true or
false, a quantifier goes down to the parts that read its constant, and is gone where an equation says what the constant is.
"""

from __future__ import annotations

import itertools
import math
from fractions import Fraction
from functools import lru_cache
from typing import Callable, Iterable, Mapping, TypeAlias

from dlkt.semantics.syntax import Unsupported

Number: TypeAlias = "int | Fraction"
Monomial: TypeAlias = tuple[tuple[str, int], ...]  # names with their powers, in their order
MOST_TERMS = 1_500
KEPT = 1 << 15
COUNTER = itertools.count(1)


# Polynomials

@lru_cache(KEPT)
def joined(one: Monomial, other: Monomial) -> Monomial:
    """The product of two monomials."""
    powers = dict(one)
    for name, power in other:
        powers[name] = powers.get(name, 0) + power
    return tuple(sorted(powers.items()))


class Term:
    """A polynomial: a coefficient that isn't 0 for each monomial. Terms are equal where their coefficients are."""

    __slots__ = ("coefficients", "key")

    def __init__(self, coefficients: dict[Monomial, Number]) -> None:
        if len(coefficients) > MOST_TERMS:
            raise Unsupported("so long a polynomial")
        self.coefficients = coefficients
        self.key: tuple[tuple[Monomial, Number], ...] | None = None

    def ordered(self) -> tuple[tuple[Monomial, Number], ...]:
        """The coefficients in the order of their monomials."""
        if self.key is None:
            self.key = tuple(sorted(self.coefficients.items()))
        return self.key

    def __eq__(self, other: object) -> bool:
        return isinstance(other, Term) and self.coefficients == other.coefficients

    def __hash__(self) -> int:
        return hash(self.ordered())

    def __repr__(self) -> str:
        return "+".join(f"{number}{''.join(f'*{name}^{power}' for name, power in monomial)}" for monomial, number in self.ordered()) or "0"

    def number(self) -> Number | None:
        """The number that it is; none of another."""
        if not self.coefficients:
            return 0
        return self.coefficients.get(()) if len(self.coefficients) == 1 else None

    def names(self) -> frozenset[str]:
        """The constants that stand in it."""
        return frozenset(name for monomial in self.coefficients for name, _ in monomial)

    def plus(self, other: Term) -> Term:
        """The sum."""
        if len(self.coefficients) < len(other.coefficients):
            self, other = other, self
        found = dict(self.coefficients)
        for monomial, number in other.coefficients.items():
            whole = found.get(monomial, 0) + number
            if whole:
                found[monomial] = whole
            else:
                del found[monomial]
        return Term(found)

    def scaled(self, factor: Number) -> Term:
        """The product with a number."""
        if factor == 1:
            return self
        return Term({monomial: number * factor for monomial, number in self.coefficients.items()} if factor else {})

    def times(self, other: Term) -> Term:
        """The product."""
        for one, two in ((self, other), (other, self)):
            known = one.number()
            if known is not None:
                return two.scaled(known)
        if len(self.coefficients) * len(other.coefficients) > 8 * MOST_TERMS:
            raise Unsupported("so long a polynomial")
        found: dict[Monomial, Number] = {}
        for first, one_number in self.coefficients.items():
            for second, other_number in other.coefficients.items():
                monomial = joined(first, second)
                found[monomial] = found.get(monomial, 0) + one_number * other_number
        return Term({monomial: number for monomial, number in found.items() if number})

    def power(self, times: int) -> Term:
        """A power."""
        found = Term({(): 1})
        for _ in range(times):
            found = found.times(self)
        return found

    def value(self, values: Mapping[str, Number]) -> Number:
        """The number that it is with these values."""
        found: Number = 0
        for monomial, number in self.coefficients.items():
            for name, power in monomial:
                number = number * values[name] ** power
            found += number
        return found

    def put(self, terms: Mapping[str, Term]) -> Term:
        """The term with constants replaced."""
        found, rest = Term({}), dict[Monomial, Number]()
        for monomial, number in self.coefficients.items():
            if not any(name in terms for name, _ in monomial):
                rest[monomial] = number
                continue
            part = Term({tuple(pair for pair in monomial if pair[0] not in terms): number})
            for name, power in monomial:
                if name in terms:
                    part = part.times(terms[name].power(power))
            found = found.plus(part)
        return found.plus(Term(rest)) if rest else found


def of_number(value: Number) -> Term:
    """The term that a number is."""
    if isinstance(value, Fraction) and value.denominator == 1:
        value = value.numerator
    return Term({(): value} if value else {})


def of_name(name: str) -> Term:
    """The term that a constant is."""
    return Term({((name, 1),): 1})


def fresh_name(name: str) -> str:
    """A name that is nowhere else. It has a `!`."""
    return f"{name}!{next(COUNTER)}"


# Formulas

BELOW, AT, ABOVE = 1, 2, 4  # the signs of a polynomial that a formula allows, added up
SIGNS = {"lt": BELOW, "eq": AT, "gt": ABOVE, "le": BELOW + AT, "ge": AT + ABOVE, "ne": BELOW + ABOVE}
ALL_SIGNS = BELOW + AT + ABOVE


class Formula:
    """A formula: its kind (`true`, `false`, `sign`, `truth`, `and`, `or`, `forall`, `exists`), what belongs to it, the constants that it reads, how
    deep its quantifiers are nested, and its negation where that was made."""

    __slots__ = ("kind", "parts", "term", "signs", "name", "names", "depth", "denied", "place")

    def __init__(self, kind: str, parts: tuple[Formula, ...] = (), term: Term | None = None, signs: int = 0, name: str = "") -> None:
        self.kind, self.parts, self.term, self.signs, self.name = kind, parts, term, signs, name
        self.names: frozenset[str] = frozenset().union(*(part.names for part in parts))
        if term is not None:
            self.names = term.names()
        elif kind == "truth":
            self.names = frozenset([f"?{name}"])
        self.depth: int = max((part.depth for part in parts), default=0)
        if kind in ("forall", "exists"):
            self.names -= {name}
            self.depth += 1
        self.denied: Formula | None = None
        self.place = next(COUNTER)

    def __repr__(self) -> str:
        if self.kind == "sign":
            return f"sign({self.term!r}, {self.signs})"
        return f"{self.kind}{self.name and ' '}{self.name}({', '.join(map(repr, self.parts))})"


TRUE, FALSE = Formula("true"), Formula("false")
TRUE.denied, FALSE.denied = FALSE, TRUE
MADE: dict[object, Formula] = {}


def forget() -> None:
    """Lets go all formulas that were made, for long runs."""
    MADE.clear()
    joined.cache_clear()


def made(key: object, making: Callable[[], Formula]) -> Formula:
    """The formula that is kept under a key."""
    found = MADE.get(key)
    if found is None:
        found = MADE[key] = making()
    return found


def has_sign(term: Term, signs: int) -> Formula:
    """That the sign of a term is one of these."""
    known = term.number()
    if known is not None:
        return TRUE if signs & (BELOW if known < 0 else ABOVE if known > 0 else AT) else FALSE
    if signs in (0, ALL_SIGNS):
        return TRUE if signs else FALSE
    term, is_turned = primitive(term)
    if is_turned:
        signs = turned(signs)
    if len(term.coefficients) == 1:
        (monomial,) = term.coefficients
        odd = tuple((name, 1 if power % 2 else 2) for name, power in monomial)
        if all(power == 2 for _, power in odd):
            signs &= AT + ABOVE
            if signs in (0, AT + ABOVE):
                return TRUE if signs else FALSE
            if len(odd) == 1:  # a square is 0 where its root is, and above 0 elsewhere
                odd, signs = ((odd[0][0], 1),), AT if signs == AT else BELOW + ABOVE
        term = Term({odd: 1})
    return made((term, signs), lambda: Formula("sign", (), term, signs))


def turned(signs: int) -> int:
    """The signs of what is turned round."""
    return (signs & AT) | (ABOVE if signs & BELOW else 0) | (BELOW if signs & ABOVE else 0)


def primitive(term: Term) -> tuple[Term, bool]:
    """A term divided by a number such that its coefficients are whole and have no common divisor, and the last one is above 0; and whether that
    number is below 0."""
    numbers = term.coefficients.values()
    common = math.lcm(*(number.denominator for number in numbers))
    divisor = math.gcd(*(int(number * common) for number in numbers))
    is_turned = term.coefficients[max(term.coefficients)] < 0
    if common == 1 and divisor == 1 and not is_turned:
        return term, False
    sign = -1 if is_turned else 1
    return Term({monomial: sign * int(number * common) // divisor for monomial, number in term.coefficients.items()}), is_turned


def of_truth(name: str) -> Formula:
    """A constant that is true or false."""
    return made(("truth", name, True), lambda: Formula("truth", (), None, ALL_SIGNS, name))


def no(formula: Formula) -> Formula:
    """That a formula doesn't hold."""
    if formula.denied is None:
        denied = negated(formula)
        formula.denied = denied
        if denied.denied is None:
            denied.denied = formula
    return formula.denied


def negated(formula: Formula) -> Formula:
    """The negation of a formula, made anew."""
    if formula.kind == "sign":
        assert formula.term is not None
        return has_sign(formula.term, ALL_SIGNS - formula.signs)
    if formula.kind == "truth":
        signs = 0 if formula.signs else ALL_SIGNS
        return made(("truth", formula.name, bool(signs)), lambda: Formula("truth", (), None, signs, formula.name))
    if formula.kind in ("and", "or"):
        return together(formula.kind == "or", map(no, formula.parts))
    return bound(formula.kind == "exists", formula.name, no(formula.parts[0]))


def together(is_all: bool, parts: Iterable[Formula]) -> Formula:
    """That all of some formulas hold, or one."""
    kind, end, nothing = ("and", FALSE, TRUE) if is_all else ("or", TRUE, FALSE)
    signs: dict[Term, int] = {}
    rest: dict[Formula, None] = {}
    waiting = list(parts)[::-1]
    while waiting:
        part = waiting.pop()
        if part is end:
            return end
        if part.kind == kind:
            waiting += part.parts[::-1]
        elif part.kind == "sign":
            assert part.term is not None
            before = signs.get(part.term, ALL_SIGNS if is_all else 0)
            now = before & part.signs if is_all else before | part.signs
            if now in (0, ALL_SIGNS):
                return end
            signs[part.term] = now
        elif part is not nothing:
            if part.denied in rest:
                return end
            rest[part] = None
    whole = [*(has_sign(term, sign) for term, sign in signs.items()), *rest]
    if len(whole) < 2:
        return whole[0] if whole else nothing
    if any(part in (TRUE, FALSE) or part.kind == kind for part in whole):
        return together(is_all, whole)
    whole = absorbed(kind, sorted(whole, key=lambda part: part.place))
    return whole[0] if len(whole) == 1 else made((kind, tuple(part.place for part in whole)), lambda: Formula(kind, tuple(whole)))


def absorbed(kind: str, parts: list[Formula]) -> list[Formula]:
    """The parts without those that another one makes needless: of `a and (a or b)` the second."""
    other = "or" if kind == "and" else "and"
    here = set(parts)
    return [part for part in parts if part.kind != other or here.isdisjoint(part.parts)]


def bound(is_for_all: bool, name: str, body: Formula) -> Formula:
    """That a formula holds for all values of a constant, or for one. The bound constant gets a name by how deep the quantifiers below are nested."""
    if name not in body.names:
        return body
    kind, inner = ("forall", "and") if is_for_all else ("exists", "or")
    if body.kind == inner:
        return together(is_for_all, [bound(is_for_all, name, part) for part in body.parts])
    if body.kind in ("and", "or"):
        apart = [part for part in body.parts if name not in part.names]
        with_it = [part for part in body.parts if name in part.names]
        if apart:
            return together(not is_for_all, [*apart, bound(is_for_all, name, together(not is_for_all, with_it))])
        told = equation(is_for_all, name, with_it)
        if told is not None:
            place, term = told
            return put(together(not is_for_all, [*with_it[:place], *with_it[place + 1:]]), {name: term})
    if body.kind == "sign" and solved_for(body.term, name) is not None:  # it takes all values
        return FALSE if is_for_all else TRUE
    own = f"!{body.depth + 1}"
    if own != name:
        body = put(body, {name: of_name(own)})
    return made((kind, own, body.place), lambda: Formula(kind, (body,), None, 0, own))


def equation(is_for_all: bool, name: str, parts: list[Formula]) -> tuple[int, Term] | None:
    """Which part says what a constant is, and what: an equation below `exists`, the negation of one below `forall`."""
    wanted = BELOW + ABOVE if is_for_all else AT
    for place, part in enumerate(parts):
        if part.kind == "sign" and part.signs == wanted:
            term = solved_for(part.term, name)
            if term is not None:
                return place, term
    return None


def solved_for(term: Term | None, name: str) -> Term | None:
    """What a constant is where a term is 0; none where the term isn't a number times it, and what doesn't read it."""
    assert term is not None
    factor = term.coefficients.get(((name, 1),))
    if factor is None or any(name == other for monomial in term.coefficients for other, power in monomial if monomial != ((name, 1),)):
        return None
    rest = {monomial: number for monomial, number in term.coefficients.items() if monomial != ((name, 1),)}
    return Term(rest).scaled(Fraction(-1) / factor)


def put(formula: Formula, terms: Mapping[str, Term]) -> Formula:
    """A formula with constants replaced by terms."""
    known: dict[Formula, Formula] = {}

    def replaced(part: Formula) -> Formula:
        if part.names.isdisjoint(terms):
            return part
        if part not in known:
            known[part] = anew(part)
        return known[part]

    def anew(part: Formula) -> Formula:
        if part.kind == "sign":
            assert part.term is not None
            return has_sign(part.term.put(terms), part.signs)
        if part.kind in ("and", "or"):
            return together(part.kind == "and", map(replaced, part.parts))
        return bound(part.kind == "forall", part.name, replaced(part.parts[0])) if part.parts else part

    return replaced(formula)


def put_truths(formula: Formula, truths: Mapping[str, bool]) -> Formula:
    """A formula with constants that are true or false set so."""
    if formula.names.isdisjoint(f"?{name}" for name in truths):
        return formula
    if formula.kind == "truth":
        return TRUE if truths[formula.name] == bool(formula.signs) else FALSE
    parts = [put_truths(part, truths) for part in formula.parts]
    if formula.kind in ("and", "or"):
        return together(formula.kind == "and", parts)
    return bound(formula.kind == "forall", formula.name, parts[0])


def parts_of(formula: Formula) -> Iterable[Formula]:
    """All parts of a formula, each once."""
    seen, waiting = set[Formula](), [formula]
    while waiting:
        part = waiting.pop()
        if part not in seen:
            seen.add(part)
            yield part
            waiting += part.parts


def truths(formula: Formula) -> frozenset[str]:
    """The constants of a formula that are true or false."""
    return frozenset(part.name for part in parts_of(formula) if part.kind == "truth")


def opened(formula: Formula) -> Formula:
    """A formula that has a solution where this one has: what `exists` binds, not below a `forall`, becomes a constant of a name with `!`."""
    if formula.depth == 0 or formula.kind == "forall":
        return formula
    if formula.kind == "exists":
        return opened(put(formula.parts[0], {formula.name: of_name(fresh_name("some"))}))
    return together(formula.kind == "and", map(opened, formula.parts))


def holds(formula: Formula, values: Mapping[str, Number], truths_there: Mapping[str, bool]) -> bool:
    """Whether a formula without quantifiers is true with these values."""
    if formula.kind == "sign":
        assert formula.term is not None
        value = formula.term.value(values)
        return bool(formula.signs & (BELOW if value < 0 else ABOVE if value > 0 else AT))
    if formula.kind in ("and", "or"):
        return (all if formula.kind == "and" else any)(holds(part, values, truths_there) for part in formula.parts)
    return truths_there[formula.name] == bool(formula.signs) if formula.kind == "truth" else formula is TRUE
