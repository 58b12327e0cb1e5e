"""What equations conserve: polynomials whose slope is 0, found by linear algebra, and bounds that are made of them.

The slope of a polynomial with unknown coefficients is linear in them, so those with the slope 0 are the null space of a matrix over the rational
numbers (Sankaranarayanan, Sipma, Manna, Non-linear loop invariant generation using Groebner bases, POPL 2004; Rodriguez-Carbonell, Tiwari,
Generating polynomial invariants for hybrid systems, HSCC 2005). A conserved quantity keeps the value that it has at first: an energy, a distance
from a circle, a mixture of a speed and a time. Where none is conserved, the quadratic terms that make the slope's mixed terms cancel are added to
a bound that is asked for, which gives the Lyapunov functions of linear controllers.
"""

from collections.abc import Iterable, Mapping
from fractions import Fraction
from itertools import combinations_with_replacement

from dlkt.formulas import (
    Field, Monomial, NotPolynomial, Polynomial, ZERO, free, make, monomial_product, polynomial, polynomial_product, polynomial_quotients, polynomial_sum,
    substituted, term_of, unique, variable,
)
from dlkt.trees import Tree

MOST_UNKNOWNS, MOST_PARTS, MOST_COMPLETED = 160, 8, 12
Row = dict[int, Fraction]


def null_space(rows: Iterable[Mapping[int, Fraction]], columns: int) -> list[Row]:
    """A basis of the vectors that all rows, maps of columns to numbers, send to 0."""
    pivots: list[tuple[int, Row]] = []
    for one in rows:
        row = dict(one)
        for column, pivot in pivots:
            row = without(row, pivot, column)
        if not row:
            continue
        lead = max(row)
        row = {key: value / row[lead] for key, value in row.items()}
        pivots = [(column, without(pivot, row, lead)) for column, pivot in pivots]
        pivots.append((lead, row))
    led = {column for column, _ in pivots}
    basis = []
    for column in range(columns):
        if column not in led:
            vector = {column: Fraction(1)}
            vector |= {lead: -pivot[column] for lead, pivot in pivots if pivot.get(column)}
            basis.append(vector)
    return basis


def without(row: Row, pivot: Row, column: int) -> Row:
    """A row less the multiple of a pivot that takes its number in this column away."""
    factor = row.get(column)
    if not factor:
        return {key: value for key, value in row.items() if value}
    out = dict(row)
    for key, value in pivot.items():
        out[key] = out.get(key, Fraction(0)) - factor * value
    return {key: value for key, value in out.items() if value}


def monomials(names: Iterable[str], degree: int) -> list[Monomial]:
    """The monomials of these names of this degree."""
    return [tuple(sorted({name: chosen.count(name) for name in chosen}.items())) for chosen in combinations_with_replacement(list(names), degree)]


def polynomial_slope(whole: Polynomial, slopes: Mapping[str, Polynomial]) -> Polynomial:
    """The slope of a polynomial, where the slopes of its variables are polynomials."""
    out: Polynomial = {}
    for key, value in whole.items():
        for name, power in key:
            if name in slopes:
                rest = tuple((other, count - (other == name)) for other, count in key if count - (other == name))
                out = polynomial_sum(out, polynomial_product({rest: value * power}, slopes[name]))
    return out


def conserved(field: Field, degree: int = 2, moving: "frozenset[str] | set[str] | None" = None) -> list[Tree]:
    """Terms whose slope along a field is 0: polynomials of its variables, with constants as factors. `moving` are the names that aren't constant."""
    try:
        slopes = {name: polynomial(term) for name, term in field.items()}
    except NotPolynomial:
        return []
    others = {name for one in slopes.values() for key in one for name, _ in key if name not in field}
    if any(not name.endswith("()") and (moving is None or name in moving) for name in others):
        return []
    constants = sorted(others)
    outer: list[Monomial] = [(), *(((name, power),) for power in (1, 2) for name in constants)]
    unknowns = [monomial_product(one, other) for count in range(1, degree + 1) for one in monomials(field, count) for other in outer]
    if len(unknowns) > MOST_UNKNOWNS:
        return []
    rows: dict[Monomial, Row] = {}
    for column, key in enumerate(unknowns):
        for above, value in polynomial_slope({key: Fraction(1)}, slopes).items():
            rows.setdefault(above, {})[column] = value
    found: list[Polynomial] = []
    for vector in null_space(rows.values(), len(unknowns)):
        whole = {unknowns[column]: value for column, value in vector.items()}
        if len(whole) <= MOST_PARTS and not any(is_multiple(whole, one) for one in found):
            found.append(whole)
    return [term_of(whole) for whole in found]


def is_multiple(one: Polynomial, other: Polynomial) -> bool:
    """Whether a polynomial is another times a monomial of constants."""
    return len(one) == len(other) and any(not rest and len(factor) == 1 for factor, rest in polynomial_quotients(one, other))


def values_at_first(facts: Iterable[Tree], names: "frozenset[str] | set[str]") -> dict[str, Tree]:
    """What the facts say that variables are: a map to terms without these variables."""
    found: dict[str, Tree] = {}
    equations = [one for one in facts if one.word == "eq"]
    for _ in range(3):
        for one in equations:
            for side, other in (one.kids, one.kids[::-1]):
                if side.word == "var" and side.detail in names and side.detail not in found:
                    value = substituted(other, found)
                    if not free(value) & names:
                        found[side.detail] = value
    return found


def as_polynomial(term: Tree) -> Tree:
    """A term multiplied out, where it is a polynomial."""
    try:
        return term_of(polynomial(term))
    except NotPolynomial:
        return term


def bounds_of_conserved(field: Field, facts: Iterable[Tree], names: "frozenset[str] | set[str]") -> list[Tree]:
    """Formulas that say of each conserved term what it is at first, and that it is no more and no less."""
    begin = values_at_first(facts, names)
    found = []
    for term in conserved(field, moving=names):
        if free(term) & names <= begin.keys():
            value = as_polynomial(substituted(term, begin))
            found += [make(word, "", term, value) for word in ("eq", "le", "ge")]
    return found


def at_the_limit(field: Field, post: Iterable[Tree], moving: "frozenset[str] | set[str]") -> list[Tree]:
    """Bounds of conserved terms by their value where the post is just true and all else is 0, as v^2+2*B()*x<=2*B()*S() of x<=S()."""
    used = {name for term in field.values() for name in free(term)}
    inner = {name: term for name, term in field.items() if not (term.word == "num" and name not in used)}
    terms = conserved(inner, moving=moving) if inner else []
    found = []
    for part in post:
        if part.word not in ("le", "lt", "ge", "gt", "eq"):
            continue
        for side, limit in (part.kids, part.kids[::-1]):
            if side.word == "var" and side.detail in inner and not free(limit) & inner.keys():
                values = {name: ZERO for name in inner} | {side.detail: limit}
                for term in terms:
                    if side.detail in free(term) and len(free(term) & inner.keys()) > 1:
                        found += [make(word, "", term, as_polynomial(substituted(term, values))) for word in ("le", "ge")]
    return unique(found)


def shifts_in(tree: Tree, field: Field) -> dict[str, Tree]:
    """Which variables stand less a constant: `v-c()` gives v: c()."""
    if tree.word == "sub" and tree.kids[0].word == "var" and tree.kids[0].detail in field and not free(tree.kids[1]) & field.keys():
        return {tree.kids[0].detail: tree.kids[1]}
    found: dict[str, Tree] = {}
    for kid in tree.kids:
        found |= shifts_in(kid, field)
    return found


def completed(field: Field, formulas: Iterable[Tree]) -> list[Tree]:
    """For p<=r, p with a quadratic added so that the mixed terms of the slope cancel, as k()*s^2+(v-c())^2<=E()^2 of (v-c())^2<=E()^2."""
    found = []
    for part in formulas:
        if part.word in ("le", "lt", "ge", "gt"):
            term, limit = part.kids if part.word in ("le", "lt") else part.kids[::-1]
            if not free(limit) & field.keys() and free(term) & field.keys():
                found += [make("lt" if part.word in ("lt", "gt") else "le", "", one, limit) for one in completions(field, term)]
    return found


def completions(field: Field, term: Tree) -> list[Tree]:
    """A term with quadratics added so that its slope has even powers alone."""
    shift = shifts_in(term, field)
    up = {name: make("add", "", variable(name), by) for name, by in shift.items()}
    down = {name: make("sub", "", variable(name), by) for name, by in shift.items()}
    try:
        slopes = {name: polynomial(substituted(one, up)) for name, one in field.items()}
        mine = polynomial(substituted(term, up))
    except NotPolynomial:
        return []
    constants = sorted({name for one in [mine, *slopes.values()] for key in one for name, _ in key if name not in field})
    if len(field) > 5 or len(constants) > 6 or any(not name.endswith("()") for name in constants):
        return []
    outer: list[Monomial] = [(), *(((name, 1),) for name in constants)]
    squares_last = sorted(monomials(field, 2), key=len, reverse=True)  # those are chosen before mixed terms
    unknowns = [key for one in squares_last for other in outer for key in [monomial_product(one, other)] if key not in mine]
    rows: dict[Monomial, Row] = {}
    for column, one in enumerate([mine, *({key: Fraction(1)} for key in unknowns)]):
        for key, value in polynomial_slope(one, slopes).items():
            if any(power % 2 for name, power in key if name in field):
                rows.setdefault(key, {})[column] = value
    found = []
    for vector in null_space(rows.values(), len(unknowns) + 1):
        if vector.get(0) == 1 and len(vector) > 1:
            whole = dict(mine)
            for column, value in vector.items():
                if column:
                    whole = polynomial_sum(whole, {unknowns[column - 1]: value})
            if whole and len(whole) <= MOST_COMPLETED:
                found.append(substituted(term_of(whole), down))
    return found
