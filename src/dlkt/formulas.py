"""Formulas as the tools round `dlk` compute with them: names, connectives, substitution, matching, slopes, polynomials, SMT-LIB text.

In go trees of `dlkt.trees`, out come trees, sets of names, polynomials and texts. All trees are made by the one `TREES`, so that equal trees are
one object: read texts with `formula`, `sequent` and `model` of this module. A name is that of a variable (`x`, `x'`) or that of a constant with
its brackets (`c()`). Nothing of this is proved; whoever uses it hands what it finds to `dlk` and to the solvers.
"""

import re
from collections.abc import Callable, Iterable, Mapping
from fractions import Fraction
from math import gcd

from dlkt import reader
from dlkt.trees import Tree, Trees, parts, text

__all__ = [
    "COMPARISONS", "FALSE", "FLIPPED", "Field", "Monomial", "NEGATED", "NoSmt", "NotPolynomial", "ONE", "Polynomial", "TREES", "TRUE", "Values", "ZERO",
    "added", "bound", "bound_anywhere", "cleared", "conjunction", "conjuncts", "differentiable", "disjunction", "disjuncts", "division", "formula",
    "fraction_of", "free", "free_of_all", "has_division", "has_quantifier", "is_arithmetic", "make", "match", "model", "monomial_product", "multiplied",
    "multiplied_out", "normal_form", "number", "polynomial", "polynomial_product", "polynomial_sum", "put_for", "sequent", "slope", "slope_formula",
    "smt", "smt_name", "subtracted", "substituted", "symbol", "term_of", "text", "unique", "variable", "variables",
]

TREES = Trees()

Values = Mapping[str, Tree]
Field = Mapping[str, Tree]
Monomial = tuple[tuple[str, int], ...]
Polynomial = dict[Monomial, Fraction]

COMPARISONS = ("eq", "ne", "ge", "gt", "le", "lt")
FLIPPED = {"eq": "eq", "ne": "ne", "ge": "le", "gt": "lt", "le": "ge", "lt": "gt"}
NEGATED = {"eq": "ne", "ne": "eq", "ge": "lt", "gt": "le", "le": "gt", "lt": "ge"}
NOT_ARITHMETIC = frozenset("box dia difff diff holds upred ufun quant hole dot system const".split())
MOST_POWER = 16


class NotPolynomial(Exception):
    """A term is none whose slope or polynomial is computed here."""


class NoSmt(Exception):
    """A formula has no SMT-LIB text."""


def make(word: str, detail: str = "", *kids: Tree) -> Tree:
    """The tree with this operator over these kids."""
    return TREES.make(word, detail, *kids)


TRUE, FALSE = make("true"), make("false")


def formula(source: str) -> Tree:
    """The formula of a text."""
    return reader.formula(source, TREES)


def sequent(source: str) -> tuple[list[Tree], list[Tree]]:
    """The formulas on the two sides of a sequent."""
    left, right = reader.sequent(source, TREES)
    return left, right


def model(source: str) -> tuple[Tree, list[reader.Note]]:
    """The formula of a model, and its annotations."""
    found, notes = reader.model(source, TREES)
    return found, notes


# Names

FREE: dict[Tree, frozenset[str]] = {}


def free(tree: Tree) -> frozenset[str]:
    """Variables and constants that a tree reads: rather too many than too few, for what a program surely writes first isn't left out."""
    if tree not in FREE:
        if tree.word == "var":
            found = frozenset([tree.detail])
        elif tree.word == "app" and not tree.kids:
            found = frozenset([tree.detail + "()"])
        else:
            found = frozenset().union(*map(free, tree.kids))
            if tree.word in ("forall", "exists"):
                found = found - {tree.detail}
            if tree.word == "system":
                found = found | frozenset(item.rstrip("'") for item in tree.detail.split(","))
        FREE[tree] = found
    return FREE[tree]


def free_of_all(trees: Iterable[Tree]) -> frozenset[str]:
    """What any of these trees reads."""
    return frozenset().union(*map(free, trees))


def bound(program: Tree) -> frozenset[str]:
    """Variables that a program may write."""
    if program.word in ("assign", "any"):
        return frozenset([program.detail])
    if program.word == "system":
        names = [item.rstrip("'") for item in program.detail.split(",")]
        return frozenset(names) | frozenset(name + "'" for name in names)
    if program.word in ("choice", "seq", "loop"):
        return frozenset().union(*map(bound, program.kids))
    return frozenset()


def bound_anywhere(tree: Tree) -> frozenset[str]:
    """All names that are bound anywhere in a tree."""
    found: set[str] = set()
    for here in parts(tree):
        if here.word in ("assign", "any", "forall", "exists"):
            found.add(here.detail)
        if here.word == "system":
            found |= bound(here)
    return frozenset(found)


def variables(names: Iterable[str]) -> list[str]:
    """Those of these names that are no constants."""
    return [name for name in names if not name.endswith("()")]


# Connectives

ARITHMETIC: dict[Tree, bool] = {}


def is_arithmetic(tree: Tree) -> bool:
    """Whether a formula or a term has no programs and no symbols but constants, so that it may stand in a leaf."""
    if tree not in ARITHMETIC:
        plain = tree.word not in NOT_ARITHMETIC and not (tree.word == "app" and tree.kids)
        ARITHMETIC[tree] = plain and all(map(is_arithmetic, tree.kids))
    return ARITHMETIC[tree]


def has_quantifier(tree: Tree) -> bool:
    """Whether there is a quantifier in a formula."""
    return tree.word in ("forall", "exists") or any(map(has_quantifier, tree.kids))


def conjuncts(tree: Tree) -> list[Tree]:
    """The parts of a conjunction, `true` left out."""
    if tree.word == "and":
        return conjuncts(tree.kids[0]) + conjuncts(tree.kids[1])
    return [tree] if tree.word != "true" else []


def disjuncts(tree: Tree) -> list[Tree]:
    """The parts of a disjunction."""
    if tree.word == "or":
        return disjuncts(tree.kids[0]) + disjuncts(tree.kids[1])
    return [tree]


def grouped(word: str, parts: Iterable[Tree], empty: Tree) -> Tree:
    """Parts with a connective between, which groups to the right."""
    whole = list(parts)
    if not whole:
        return empty
    found = whole[-1]
    for one in reversed(whole[:-1]):
        found = make(word, "", one, found)
    return found


def conjunction(parts: Iterable[Tree]) -> Tree:
    """The conjunction of formulas."""
    return grouped("and", parts, TRUE)


def disjunction(parts: Iterable[Tree]) -> Tree:
    """The disjunction of formulas."""
    return grouped("or", parts, FALSE)


def unique(items: Iterable[Tree]) -> list[Tree]:
    """Each of these once, in their order."""
    return list(dict.fromkeys(items))


def normal_form(tree: Tree, flip: bool = False) -> Tree:
    """The negation normal form of an arithmetic formula, or of its negation."""
    word = tree.word
    if word == "not":
        return normal_form(tree.kids[0], not flip)
    if word in ("and", "or"):
        other = {"and": "or", "or": "and"}[word] if flip else word
        return make(other, "", *(normal_form(kid, flip) for kid in tree.kids))
    if word == "imply":
        return normal_form(make("or", "", make("not", "", tree.kids[0]), tree.kids[1]), flip)
    if word == "equiv":
        one, other_one = tree.kids
        return normal_form(make("and", "", make("imply", "", one, other_one), make("imply", "", other_one, one)), flip)
    if not flip:
        return tree
    if word in COMPARISONS:
        return make(NEGATED[word], "", *tree.kids)
    if word in ("true", "false"):
        return FALSE if word == "true" else TRUE
    return make("not", "", tree)


# Substitution and matching

def substituted(tree: Tree, values: Values) -> Tree:
    """A tree with terms for variables and constants; a system evolves a variable in place of the one that it stands for. It doesn't look at what
    programs and quantifiers bind: hand it names that nothing here binds."""
    if tree.word == "var" and tree.detail in values:
        return values[tree.detail]
    if tree.word == "app" and not tree.kids and tree.detail + "()" in values:
        return values[tree.detail + "()"]
    if not tree.kids:
        return tree
    detail = tree.detail
    if tree.word == "system":
        def renamed(item: str) -> str:
            new = values.get(item[:-1])
            return new.detail + "'" if item.endswith("'") and new is not None and new.word == "var" else item
        detail = ",".join(map(renamed, detail.split(",")))
    return make(tree.word, detail, *(substituted(kid, values) for kid in tree.kids))


def put_for(tree: Tree, old: Tree, new: Tree) -> Tree:
    """A tree with one term for another."""
    if tree is old:
        return new
    return make(tree.word, tree.detail, *(put_for(kid, old, new) for kid in tree.kids)) if tree.kids else tree


def match(pattern: Tree, tree: Tree, values: dict[str, Tree]) -> bool:
    """Whether a tree is a pattern with terms for its variables, which are put into `values`."""
    if pattern.word == "var":
        return values.setdefault(pattern.detail, tree) is tree
    if pattern.word != tree.word or len(pattern.kids) != len(tree.kids):
        return False
    if pattern.word == "system":
        mine, other = pattern.detail.split(","), tree.detail.split(",")
        pairs = list(zip(mine, other)) if len(mine) == len(other) else []
        if not pairs or not all(match(variable(a.rstrip("'")), variable(b.rstrip("'")), values) for a, b in pairs):
            return False
    elif pattern.word in ("assign", "any"):
        if not match(variable(pattern.detail), variable(tree.detail), values):
            return False
    elif pattern.detail != tree.detail:
        return False
    return all(match(a, b, values) for a, b in zip(pattern.kids, tree.kids))


# Terms

def variable(name: str) -> Tree:
    """A variable."""
    return make("var", name)


def symbol(name: str) -> Tree:
    """The variable or the constant of a name."""
    return make("app", name[:-2]) if name.endswith("()") else make("var", name)


def number(value: Fraction | int | str) -> Tree:
    """The term of a number: as a decimal where it is one, else as a quotient."""
    exact = Fraction(value)
    if exact < 0:
        return make("neg", "", number(-exact))
    if exact.denominator == 1:
        return make("num", str(exact.numerator))
    rest, digits = exact.denominator, 0
    while rest % 10 == 0:
        rest, digits = rest // 10, digits + 1
    while rest % 2 == 0 or rest % 5 == 0:
        rest, digits = rest // (2 if rest % 2 == 0 else 5), digits + 1
    if rest == 1 and digits <= 15:
        scaled = str(exact.numerator * 10 ** digits // exact.denominator).rjust(digits + 1, "0")
        return make("num", f"{scaled[:-digits]}.{scaled[-digits:]}".rstrip("0"))
    return make("div", "", number(exact.numerator), number(exact.denominator))


ZERO, ONE = number(0), number(1)


def added(one: Tree, other: Tree) -> Tree:
    """A sum, without a 0."""
    return other if one is ZERO else one if other is ZERO else make("add", "", one, other)


def subtracted(one: Tree, other: Tree) -> Tree:
    """A difference, without a 0."""
    return one if other is ZERO else make("neg", "", other) if one is ZERO else make("sub", "", one, other)


def multiplied(one: Tree, other: Tree) -> Tree:
    """A product, without a 1."""
    if one is ZERO or other is ZERO:
        return ZERO
    return other if one is ONE else one if other is ONE else make("mul", "", one, other)


def division(one: Tree, other: Tree) -> Tree:
    """A quotient, without a 1 below."""
    return one if other is ONE else make("div", "", one, other)


# Slopes: Lie derivatives along a field, which is a map of variables to the right sides of their equations

def slope(tree: Tree, field: Field) -> Tree:
    """The slope of a term along a field; what no equation changes has the slope 0."""
    word, kids = tree.word, tree.kids
    if word == "var":
        return field.get(tree.detail, ZERO)
    if not free(tree) & field.keys():
        return ZERO
    if word == "neg":
        return make("neg", "", slope(kids[0], field))
    if word == "add":
        return added(slope(kids[0], field), slope(kids[1], field))
    if word == "sub":
        return subtracted(slope(kids[0], field), slope(kids[1], field))
    if word == "mul":
        return added(multiplied(slope(kids[0], field), kids[1]), multiplied(kids[0], slope(kids[1], field)))
    if word == "pow" and kids[1].word == "num" and re.fullmatch(r"[1-9]\d*", kids[1].detail):
        power = int(kids[1].detail)
        lower = ONE if power == 1 else kids[0] if power == 2 else make("pow", "", kids[0], number(power - 1))
        return multiplied(multiplied(number(power), lower), slope(kids[0], field))
    raise NotPolynomial


def slope_formula(tree: Tree, field: Field) -> Tree:
    """What a differential invariant asks of the slopes of a formula's terms."""
    word = tree.word
    if word in ("and", "or"):
        return make("and", "", *(slope_formula(kid, field) for kid in tree.kids))
    if word in COMPARISONS:
        weak = {"ne": "eq", "gt": "ge", "lt": "le"}.get(word, word)
        return make(weak, "", *(slope(kid, field) for kid in tree.kids))
    raise NotPolynomial


def differentiable(tree: Tree) -> bool:
    """Whether the word `derive` differentiates a formula or a term."""
    word = tree.word
    if word in ("and", "or", "add", "sub", "mul", "neg", *COMPARISONS):
        return all(map(differentiable, tree.kids))
    if word == "pow":
        return differentiable(tree.kids[0]) and tree.kids[1].word == "num" and bool(re.fullmatch(r"[2-9]|1[0-6]", tree.kids[1].detail))
    if word == "app":
        return not tree.kids
    return word == "num" or (word == "var" and not tree.detail.endswith("'"))


# Polynomials: maps of monomials, which are sorted pairs of a name and its power, to numbers

def polynomial_sum(one: Mapping[Monomial, Fraction], other: Mapping[Monomial, Fraction], factor: Fraction | int = 1) -> Polynomial:
    """A polynomial and a multiple of another."""
    out = dict(one)
    for key, value in other.items():
        out[key] = out.get(key, Fraction(0)) + factor * value
        if out[key] == 0:
            del out[key]
    return out


def monomial_product(one: Monomial, other: Monomial) -> Monomial:
    """The product of monomials."""
    out = dict(one)
    for name, power in other:
        out[name] = out.get(name, 0) + power
    return tuple(sorted((name, power) for name, power in out.items() if power))


def polynomial_product(one: Mapping[Monomial, Fraction], other: Mapping[Monomial, Fraction]) -> Polynomial:
    """The product of polynomials."""
    out: Polynomial = {}
    for key, value in one.items():
        for more, factor in other.items():
            whole = monomial_product(key, more)
            out[whole] = out.get(whole, Fraction(0)) + value * factor
            if out[whole] == 0:
                del out[whole]
    return out


def polynomial(tree: Tree, units: frozenset[str] = frozenset()) -> Polynomial:
    """The polynomial of a term. Constants, and the variables of `units`, may have negative powers."""
    word, kids = tree.word, tree.kids
    if word == "num":
        value = Fraction(tree.detail)
        return {(): value} if value else {}
    if word == "var":
        return {((tree.detail, 1),): Fraction(1)}
    if word == "app" and not kids:
        return {((tree.detail + "()", 1),): Fraction(1)}
    if word == "neg":
        return polynomial_sum({}, polynomial(kids[0], units), -1)
    if word in ("add", "sub"):
        return polynomial_sum(polynomial(kids[0], units), polynomial(kids[1], units), 1 if word == "add" else -1)
    if word == "mul":
        return polynomial_product(polynomial(kids[0], units), polynomial(kids[1], units))
    if word == "div":
        return polynomial_product(polynomial(kids[0], units), inverse(polynomial(kids[1], units), units))
    if word == "pow" and kids[1].word == "num" and re.fullmatch(r"\d{1,2}", kids[1].detail):
        out: Polynomial = {(): Fraction(1)}
        base = polynomial(kids[0], units)
        for _ in range(int(kids[1].detail)):
            out = polynomial_product(out, base)
        return out
    raise NotPolynomial


def inverse(below: Polynomial, units: frozenset[str]) -> Polynomial:
    """1 divided by a number, or by a product of constants, whose powers are negative then."""
    if len(below) == 1:
        (key, value), = below.items()
        if all(name.endswith("()") or name in units for name, _ in key):
            return {tuple((name, -power) for name, power in key): 1 / value}
    raise NotPolynomial


def product_term(key: Monomial, size: Fraction) -> Tree:
    """The term of a monomial times a positive number."""
    def power_of(name: str, power: int) -> Tree:
        return symbol(name) if power == 1 else make("pow", "", symbol(name), number(power))

    factors = [power_of(name, power) for name, power in key if power > 0]
    out = None if size == 1 and factors else number(size)
    for one in factors:
        out = one if out is None else make("mul", "", out, one)
    assert out is not None
    for name, power in key:
        if power < 0:
            out = make("div", "", out, power_of(name, -power))
    return out


def negative_term(key: Monomial, size: Fraction) -> Tree:
    """The term of a monomial times a negative number, as it stands in front: `-2*x`, not `-(2*x)`."""
    whole = product_term(key, size)
    factors, here = [], whole
    if any(power < 0 for _, power in key):
        return make("neg", "", whole)
    while here.word == "mul":
        factors.append(here.kids[1])
        here = here.kids[0]
    out = make("neg", "", here)
    for one in reversed(factors):
        out = make("mul", "", out, one)
    return out


def term_of(whole: Mapping[Monomial, Fraction]) -> Tree:
    """A term of a polynomial, the highest powers first."""
    out: Tree | None = None
    for key, value in sorted(whole.items(), key=lambda item: (-sum(power for _, power in item[0]), item[0])):
        if out is None:
            out = product_term(key, value) if value > 0 else negative_term(key, -value)
        else:
            out = make("add" if value > 0 else "sub", "", out, product_term(key, abs(value)))
    return out or ZERO


def divided_by(whole: Polynomial, lead: Monomial, below: Polynomial) -> tuple[Polynomial, Polynomial] | None:
    """Quotient and rest of polynomials where this monomial of the divisor leads; none where it doesn't come to an end."""
    quotient: Polynomial = {}
    work, need = dict(whole), dict(lead)
    for _ in range(200):
        key = next((key for key in work if all(dict(key).get(name, 0) >= power for name, power in need.items())), None)
        if key is None:
            return quotient, work
        factor = tuple(sorted((name, power - need.get(name, 0)) for name, power in key if power != need.get(name, 0)))
        value = work[key] / below[lead]
        quotient = polynomial_sum(quotient, {factor: value})
        work = polynomial_sum(work, polynomial_product({factor: value}, below), -1)
    return None


def polynomial_quotients(whole: Polynomial, below: Polynomial) -> list[tuple[Polynomial, Polynomial]]:
    """Quotient and rest of polynomials, for each choice of a leading monomial of the divisor."""
    found: list[tuple[Polynomial, Polynomial]] = []
    for lead in below:
        pair = divided_by(whole, lead, below) if lead else None
        if pair is not None and pair not in found:
            found.append(pair)
    return found


# Clearing divisions

def has_division(tree: Tree) -> bool:
    """Whether something is divided in a formula or a term."""
    return tree.word == "div" or any(map(has_division, tree.kids))


def fraction_of(tree: Tree) -> tuple[Tree, Tree]:
    """A term as a numerator and a denominator without divisions."""
    word = tree.word
    if not has_division(tree):
        return tree, ONE
    if word == "neg":
        above, below = fraction_of(tree.kids[0])
        return make("neg", "", above), below
    if word == "pow" and tree.kids[1].word == "num":
        above, below = fraction_of(tree.kids[0])
        return make("pow", "", above, tree.kids[1]), make("pow", "", below, tree.kids[1])
    if word not in ("add", "sub", "mul", "div"):
        raise NotPolynomial
    (above, below), (other, under) = map(fraction_of, tree.kids)
    if word == "div":
        return multiplied(above, under), multiplied(below, other)
    if word == "mul":
        if below is other:
            return above, under
        if above is under:
            return other, below
        return multiplied(above, other), multiplied(below, under)
    join = added if word == "add" else subtracted
    if below is under:
        return join(above, other), below
    return join(multiplied(above, under), multiplied(other, below)), multiplied(below, under)


Sign = Callable[[Tree], int | None]


def cleared(tree: Tree, sign: Sign) -> Tree | None:
    """A formula without divisions, by the signs of denominators (1, -1, or none where it isn't known); none where a sign isn't known."""
    if not has_division(tree):
        return tree
    if tree.word in ("and", "or", "imply"):
        kids = [cleared(kid, sign) for kid in tree.kids]
        whole = [kid for kid in kids if kid is not None]
        return make(tree.word, "", *whole) if len(whole) == len(kids) else None
    if tree.word not in COMPARISONS:
        return None
    short = multiplied_out(tree, sign)
    if short is not None:
        return short
    try:
        (above, below), (other, under) = map(fraction_of, tree.kids)
    except NotPolynomial:
        return None
    same = below is under
    flip = 1
    for part in (below,) if same else (below, under):
        if part is not ONE:
            known = sign(part)
            if known is None:
                return None
            flip *= known
    sides = (above, other) if same else (multiplied(above, under), multiplied(other, below))
    return make(tree.word if flip > 0 else FLIPPED[tree.word], "", *sides)


def multiplied_out(tree: Tree, sign: Sign, most: int = 16) -> Tree | None:
    """A comparison times the least product of constants and variables that leaves no division, with what is added on both sides. None where a
    sign isn't known, or where it gets long."""
    try:
        whole = polynomial(make("sub", "", *tree.kids), free(tree))
    except NotPolynomial:
        return None
    below: dict[str, int] = {}
    for key in whole:
        for name, power in key:
            below[name] = min(below.get(name, 0), power)
    factor, flip = {}, 1
    for name, power in below.items():
        if power < 0:
            known = sign(symbol(name))
            if known is None:
                return None
            factor[name], flip = -power, flip * known ** -power
    scale = 1
    for value in whole.values():
        scale = scale * value.denominator // gcd(scale, value.denominator)
    whole = polynomial_product(whole, {tuple(sorted(factor.items())): Fraction(scale)})
    if len(whole) > most:
        return None
    left = {key: value for key, value in whole.items() if value > 0}
    right = {key: -value for key, value in whole.items() if value < 0}
    return make(tree.word if flip > 0 else FLIPPED[tree.word], "", term_of(left), term_of(right))


# SMT-LIB

SMT_WORDS = {
    "neg": "-", "add": "+", "sub": "-", "mul": "*", "div": "/", "eq": "=", "ge": ">=", "gt": ">", "le": "<=", "lt": "<", "and": "and", "or": "or",
    "imply": "=>", "equiv": "=", "not": "not",
}


def smt_name(name: str) -> str:
    """The SMT-LIB symbol of a name."""
    return f"|f.{name[:-2]}|" if name.endswith("()") else f"|v.{name}|"


def smt(tree: Tree) -> str:
    """The SMT-LIB text of an arithmetic formula or term."""
    word, kids = tree.word, tree.kids
    if word == "var" or (word == "app" and not kids):
        return smt_name(tree.detail + ("()" if word == "app" else ""))
    if word == "num":
        return tree.detail if "." in tree.detail else tree.detail + ".0"
    if word == "pow":
        return smt_power(tree)
    if word in SMT_WORDS:
        return f"({SMT_WORDS[word]} {' '.join(map(smt, kids))})"
    if word == "ne":
        return f"(not (= {smt(kids[0])} {smt(kids[1])}))"
    if word in ("true", "false"):
        return word
    if word in ("forall", "exists"):
        return f"({word} (({smt_name(tree.detail)} Real)) {smt(kids[0])})"
    raise NoSmt


def smt_power(tree: Tree) -> str:
    """The SMT-LIB text of a power with a fixed whole exponent: a product."""
    try:
        exponent = polynomial(tree.kids[1])
    except NotPolynomial:
        raise NoSmt from None
    power = exponent.get((), Fraction(0))
    if set(exponent) - {()} or power.denominator != 1 or not 0 < power <= MOST_POWER:
        raise NoSmt
    base = smt(tree.kids[0])
    return base if power == 1 else f"(let ((|e| {base})) (* {' '.join(['|e|'] * int(power))}))"
