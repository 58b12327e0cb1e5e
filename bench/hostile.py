#!/usr/bin/env python3
"""What inputs that are made to hurt cost: each against `check` of a smallest term, and against an honest file of its length.

    python3 bench/hostile.py [--part N] [--seconds S] [--megabytes M] [--only WORD] [--version 1|2]

Each row is a run with the status and the first line that it must end with. Printed are the bytes of its files, its processor time and
its peak of memory, how often the smallest `check` and how often the honest file goes into both. An honest file is a term of real proofs, a
formula of comparisons, or a strategy of cuts, for the same command. A row that takes more than ten times what the honest file takes is
marked, and so is one that is cut off: a run may take so many seconds of processor time and so much memory (300 and 4096; a number of
megabytes of 0 is no limit). The marked rows stand in docs/PERFORMANCE.md with their reasons. With --part sizes are so many times smaller, and
--only takes the rows whose titles have the word. A row with a term is tried with the same term in both versions of its file, or with --version in one.

More such inputs stand in limits.py (long and nested texts), texts.py (how reading grows), subst.py (results that double) and changes.py.
Run it after `./dlk` has built the program; another one is named by DLK. It needs a C compiler. The exit status is 1 where an answer
isn't as it must be.
"""
import argparse
import functools
import pathlib
import resource
import signal
import tempfile
import typing

import check
from common import PROGRAM, knows, measured, measurer
from limits import MOST_BYTES
from versioned import in_both, outputs_of

MOST_LINES = 400_000
MOST_NODES = 65_536
MOST_ATOMS = 16_000
GOALS = SIDE = 256
LEAVES = 1_024
TIMES = 10
# the processor time below which a run is not told from the start of the program
LEAST_SECONDS = 0.02
STARVED = 6


class Row(typing.NamedTuple):
    """A run: what it is, the command with the texts of its inputs, the status and the first line that it must end with. Where memory
    may run out, status 6 will do."""

    title: str
    verb: str
    texts: tuple[str, ...]
    status: int
    first: str | None
    may_starve: bool = False


class Cost(typing.NamedTuple):
    """Processor time in seconds, and memory in bytes."""

    seconds: float
    peak: int


# texts


def lined(steps):
    """A term of these steps, each of which has `{}` for the number of the line before it."""
    return "".join(f"{number} {step.format(number - 1)}\n" for number, step in enumerate(steps, 1)) + "done\n"


def conjuncts(parts, size=128):
    """The parts with `&` between them, in groups of so many, so that none is deep."""
    groups = ["&".join(parts[i:i + size]) for i in range(0, len(parts), size)]
    return groups[0] if len(groups) == 1 else "&".join(f"({group})" for group in groups)


def application(count):
    """A predicate over so many symbols, about: `p` of functions of functions, with eight arguments each at most, all of them unlike."""
    level = [f"c{k}()" for k in range(count * 7 // 8)]
    number = 0
    while len(level) > 8:
        groups = [level[i:i + 8] for i in range(0, len(level), 8)]
        level = [f"f{number + k}({','.join(group)})" for k, group in enumerate(groups)]
        number += len(groups)
    return f"p({','.join(level)})"


def distinct(count, ending):
    """So many pairs with commas between them, each of another symbol."""
    return ",".join(f"a{k:x}{ending}" for k in range(count))


def multiplied(a, b):
    """The upper half of a product of two words and its lower half, one over the other."""
    product = a * b
    return (product ^ product >> 64) % 2**64


def alike_numbers(count):
    """So many numbers of 38 digits that all have one hash in the store's table of operators. The table's hasher has a fixed seed: the word
    that stands for a number's operator is mixed in first, and where the lower word of the digits is what came of that, a product with 0
    forgets the upper one."""
    first = multiplied(0x243F_6A88_85A3_08D3 ^ 1, 0x9E37_79B9_7F4A_7C15 ^ 16)
    upper = 10**38 // 2**64
    return [str((upper - 1 - k) * 2**64 + (first + 16) % 2**64) for k in range(count)]


def summed(parts, size=200):
    """The parts as a sum of sums of so many."""
    return "+".join(f"({'+'.join(parts[i:i + size])})" for i in range(0, len(parts), size))


# honest files


def honest_term(length):
    """A model and a term of real proofs of about so many bytes, with a longer name where the lines don't suffice."""
    count = min(length // 31, MOST_LINES - 10)
    letters = 1 + max(0, round((length / max(count, 1) - 31.5) / 0.908))
    return "x>=0 -> x>=0", check.term(count, "x" * letters)[0]


def honest_formula(length):
    """A formula of comparisons, within the limits, of about so many bytes; and pairs that change each of them."""
    length = min(length, MOST_BYTES)
    count = min(max(1, length // 40), MOST_NODES // 4 - 1)
    letters = max(1, length // count - 7)
    return conjuncts([f"{'abcdef'[k % 6]}{'x' * (letters - 1)}>=f()" for k in range(count)]), "f()~>1"


def honest_strategy(length):
    """A model and a strategy of cuts of about so many bytes."""
    length = min(length, MOST_BYTES)
    count = min(max(1, length // 60), MOST_ATOMS // 3 - 1)
    letters = max(1, length // count - 32)
    return "x>=0", "; ".join([f'(cutR("{"x" * letters}>=0",1); <(nil, leaf))'] * count)


def honest_texts(verb, length):
    """The inputs of an honest run of a command."""
    if verb == "prove":
        return honest_strategy(length)
    if verb in ("check", "report", "smt", "guard", "trim"):
        return honest_term(length)
    if verb == "convert":
        return honest_term(length)[1:]
    formula, pairs = honest_formula(length)
    return (formula, pairs) if verb == "subst" else (formula,)


# rows


def wide_facts(part):
    """Facts of 256 goals with 256 formulas a side, copied line by line."""
    right = ["false"] * (SIDE - 1) + ["&".join(["true"] * GOALS)]
    steps = [f"start {', '.join(['true'] * SIDE)} ==> {', '.join(right)}"]
    steps += [f"apply {{}} {goal} andR({SIDE})" for goal in range(1, GOALS)]
    lines = MOST_LINES // part
    steps += ["apply {} 1 exchangeR(1,1)"] * (lines - len(steps))
    yield Row(f"{lines} lines on facts of 256 goals with 256 formulas a side", "check", ("true", lined(steps)), 2, f"refused: other-conclusion {lines}", True)
    fewer = 4_000 // part + GOALS
    yield Row(f"{fewer} lines on such facts", "check", ("true", lined(steps[:fewer])), 2, f"refused: other-conclusion {fewer}", True)


DOUBLE = ["start ==> true", "apply {} 1 cut(true)", "apply {} 1 hideL(1)", "apply {} 2 hideR(2)"]


def merges(part):
    """Merges that double the goals of a fact with two, up to the limit and past it, and merges at the limit in each line."""
    doubling = ["merge {0} 1 {0}"] * 8
    yield Row("merges that double goals, past 256", "check", ("true", lined(DOUBLE + doubling)), 2, "refused: line 12: GoalsFull")
    yield Row("merges that double goals, up to 129", "check", ("true", lined(DOUBLE + doubling[:7])), 1, "open")
    lines = MOST_LINES // part
    many = DOUBLE + doubling[:7] + ["merge 11 1 10"] * (lines - 11)
    yield Row(f"{lines} lines, a merge to 193 goals each", "check", ("true", lined(many)), 1, "open", True)


def proof_of(numbers, steps):
    """Appends the steps that prove the first goal, these comparisons of `x` with numbers, by leaves; and answers its formula."""
    if len(numbers) == 1:
        formula = f"x>={numbers[0]}"
        steps += [f"leaf ==> {formula}", f"merge {len(steps)} 1 {{}}"]
        return formula
    middle = len(numbers) // 2
    steps.append("apply {} 1 andR(1)")
    return f"({proof_of(numbers[:middle], steps)})&({proof_of(numbers[middle:], steps)})"


def leaves(part):
    """A fact with 1,024 leaves, each of them copied from row to row, and one with a leaf more."""
    for count, status in ((LEAVES // part, 0), (LEAVES + 1, 2)):
        if count > LEAVES and part > 1:
            continue
        steps = ["start"]
        model = proof_of(range(count), steps)
        steps[0] = f"start ==> {model}"
        first = "closed" if status == 0 else f"refused: line {len(steps)}: LeavesFull"
        yield Row(f"{count} leaves", "check", (model, lined(steps)), status, first)


def sharing(part):
    """Substitutions whose results are small by their nodes, and past each limit as trees."""
    levels = 900
    double, context = "f(._0)~>._0+._0", "C{_}~>_&_"
    nested, contexts = "f(" * levels + "x" + ")" * levels, "C{" * levels + "true" + "}" * levels
    yield Row("a result that doubles 900 times", "subst", (f"{nested}>=0", double), 2, "refused: result-too-big")
    yield Row("a formula that doubles 900 times", "subst", (contexts, context), 2, "refused: result-too-big")
    yield Row("one that is dropped in the end", "subst", (f"g({nested})>=0", f"{double},g(._0)~>1"), 0, "1>=0")
    yield Row("one that a quantifier may capture", "subst", (f"p({nested})", f"{double},p(._0)~>\\exists z z>._0"), 2, "refused: result-too-big")
    yield Row("900 signs for each of 360 functions", "subst", ("f(" * 360 + "x" + ")" * 360 + ">=0", f"f(._0)~>{'-' * 900}._0"), 2, "refused: result-too-big")
    lines = 4_000 // part
    repeated = f"1 start ==> {nested}>=0\n" + "".join(f"{k} subst 1 h()~>{k}\n" for k in range(2, lines + 1))
    yield Row(f"{lines} substitutions and then one that doubles 900 times", "check",
              ("true", f"{repeated}{lines + 1} subst 1 {double}\ndone\n"), 2, f"refused: line {lines + 1}: TooBig")


def big_formula(nodes=MOST_NODES):
    """A formula of about so many nodes, of which no two comparisons are the same, in which `x` is free."""
    return conjuncts([f"x>={k}" for k in range(nodes // 4 - 1)])


def many_substitutions(part):
    """A formula with as many nodes as may be, and a substitution or an exchange of names of it in each line."""
    formula, lines = big_formula(), 400 // part
    for title, step in (("substitutions", "subst 1 h()~>{}"), ("exchanges of names", "rename 1 x y{}")):
        steps = [f"start ==> {formula}"] + [step.replace("{}", str(k)) for k in range(lines)]
        refused = f"refused: other-conclusion {lines + 1}"
        yield Row(f"{lines} {title} of 65,000 nodes", "check", ("true", lined(steps)), 2, refused, True)


def shared_reports(part):
    """Reports and refusals that are longer than their terms, since what is shared is written out."""
    formula = big_formula(MOST_NODES // 4).replace("x", "1")
    side = ", ".join(["p()"] * SIDE)
    term = f"1 start {side} ==> {side}\n2 subst 1 p()~>{formula}\ndone\n"
    yield Row("a refusal with 512 formulas of 16,000 nodes", "check", ("true", term), 2, "refused: other-conclusion 2", True)
    cuts = (SIDE - 1) // part
    steps = ["start ==> true"] + ["apply {} 1 cut(p())"] * cuts + [f"subst {{}} p()~>{formula}"]
    title = f"a report of {cuts + 1} goals with up to {cuts} formulas of 16,000 nodes each"
    yield Row(title, "check", ("true", lined(steps)), 1, "open", True)


def long_names(part):
    """Names of a megabyte."""
    name = "a" * ((MOST_BYTES - 2) // part)
    yield Row("print of a name of a megabyte", "print", (f"{name}>0",), 0, f"{name}>0")
    yield Row("vars of a name of a megabyte", "vars", (f"{name}>0",), 0, f"free: {name}")
    half = name[:len(name) // 2 - 8]
    yield Row("subst of names of half a megabyte", "subst", (f"[{half}:=f();]p({half})", "f()~>1"), 0, f"[{half}:=1;]p({half})")
    cuts = 60
    steps = ["start ==> true"] + [f"apply {{}} 1 cut({name}{k}>0)" for k in range(cuts)] + ["apply 0 1 closeTrue(1)"]
    yield Row("60 cuts with names of a megabyte", "check", ("true", lined(steps)), 2, f"refused: line {cuts + 2}: Malformed")
    steps = [f"start ==> {name}>0"] + [f"rename {{}} {name} {name}b", f"rename {{}} {name}b {name}"] * 10
    yield Row("20 exchanges of names of a megabyte", "check", ("true", lined(steps)), 2, "refused: other-conclusion 21")


def many_pairs(part):
    """As many pairs as a file has room for, and a million in a line of a term."""
    equal, unlike = MOST_BYTES // 7, 90_000 // part
    yield Row("equal pairs up to the limit", "subst", ("x", ",".join(["a;~>b;"] * equal)), 2, "refused: subst pair 2: twice")
    yield Row(f"{unlike} unlike pairs", "subst", ("x", distinct(unlike, ";~>b;")), 0, "x")
    million = 1_000_000 // part
    axiom = "1 axiom eqrefl\n2 subst 1 {}\ndone\n"
    yield Row(f"{million} equal pairs in a term", "check", ("f()=f()", axiom.format(",".join(["a;~>b;"] * million))), 2, "refused: line 2: IllSubst")
    yield Row(f"{million} unlike pairs in a term", "check", ("f()=f()", axiom.format(distinct(million, ";~>b;"))), 0, "closed")
    given = 10_000 // part
    yield Row(f"useAt with {given} given pairs", "prove", ("[x:=1;]x>0", f'useAt(assignb,1,"{distinct(given, ";~>b;")}"); leaf'), 0, "closed")
    used = 2_000 // part
    yield Row(f"{used} pairs on 60,000 nodes", "subst", (big_formula(60_000).replace("x>=", "g()>="), distinct(used, "()~>1")), 0, None)


def nesting(_):
    """Loops within loops, and quantifiers over one name."""
    loops = "{" * 500 + "a;" + "}*" * 500
    yield Row("500 loops, print", "print", (loops,), 0, loops)
    yield Row("500 loops, vars", "vars", (loops,), 0, "free: all")
    yield Row("500 loops, subst", "subst", (loops, "a;~>x:=x+1;"), 0, loops.replace("a;", "x:=x+1;"))
    yield Row("500 loops, prove", "prove", (f"[{loops}]x>=0", "useAt(iterateb,1)*3"), 1, "open")
    yield Row("1,000 quantifiers, print", "print", ("\\forall x " * 1_000 + "x>=0",), 2, "refused: file: depth 1002")
    quantified = "\\forall x " * 998 + "x>=0"
    yield Row("998 quantifiers, print", "print", (quantified,), 0, quantified)
    yield Row("998 quantifiers, vars", "vars", (quantified,), 0, "free: none")
    yield Row("998 quantifiers, subst", "subst", (quantified.replace("x>=0", "x>=f()"), "f()~>1"), 0, quantified.replace("x>=0", "x>=1"))
    yield Row("998 quantifiers, prove", "prove", (quantified, "skolemR(1)*1000; leaf"), 0, "closed")


def many_symbols(part):
    """A signature of 60,000 symbols, and 32,000 variables."""
    formula = application(60_000 // part)
    yield Row("60,000 symbols, print", "print", (formula,), 0, formula)
    yield Row("60,000 symbols, vars", "vars", (formula,), 0, "free: none")
    yield Row("60,000 symbols, subst", "subst", (formula, "c0()~>1,c1()~>2,c2()~>3"), 0, None)
    lines = 100 // min(part, 10)
    steps = [f"start ==> \\forall y0 {formula}"] + [f"apply {{}} 1 boundR(1,y{k})" for k in range(1, lines)]
    yield Row(f"60,000 symbols, {lines} bound renamings", "check", ("true", lined(steps)), 2, f"refused: other-conclusion {lines}")
    names = [f"x{k}" for k in range(32_000 // part)]
    yield Row("32,000 variables, vars", "vars", (summed(names),), 0, None)


def one_hash(part):
    """Numbers that all have one hash, in a formula and in the lines of a term."""
    count = 25_000 // part
    yield Row(f"{count} numbers of one hash", "print", (summed(alike_numbers(count)),), 0, None)
    count, size = 100_000 // part, 2_000
    numbers = alike_numbers(count)
    steps = [f"start ==> {summed(numbers[i:i + size])}>=0" for i in range(0, count, size)]
    yield Row(f"{count} numbers of one hash in a term", "check", ("true", lined(steps)), 2, f"refused: other-conclusion {len(steps)}")


def megabytes(part):
    """Strategies of a megabyte of one kind of part."""
    room = MOST_BYTES // part
    # a part of the text is an atom of 4 bytes, or 8 atoms of 8 bytes
    is_spent = room // 4 > MOST_ATOMS
    for title, unit, first, status in (
        ("alternatives", "nil|", "open", 1),
        ("parts of a sequence", "nil;", f"refused: budget at {4 * MOST_ATOMS}" if is_spent else "open", 2 if is_spent else 1),
        ("comments", "/**/", "open", 1),
        ("choices of names of the library", "prop|", "closed", 0),
        ("names of the library one after another", "prop;", "closed", 0),
        ("choices of steps of the library", "step(1)|", f"refused: budget at {MOST_ATOMS}" if is_spent else "open", 2 if is_spent else 1),
        ("strings", 'cut("x>=0")|', "open", 1),
        ("repeats that count no run", "nil*0;", "open", 1),
    ):
        count = room // len(unit) - 1
        yield Row(f"a megabyte of {title}, {count} times `{unit}`", "prove", ("true", unit * count + "nil"), status, first)
    yield Row("a megabyte of (", "prove", ("true", "(" * room), 2, f"refused: strategy at {room}: syntax")
    yield Row("a megabyte of brackets", "prove", ("true", "(" * (room // 2 - 2) + "nil" + ")" * (room // 2 - 2)), 2, "refused: strategy at 64: nesting")
    for title, before, behind in (("sequences", "(nil;", ")"), ("choices", "(nil|", ")"), ("branches", "nil;<(", ")"), ("repeats", "(", ")*2")):
        levels = room // len(before + behind) - 1
        first = f"refused: strategy at {64 * len(before) + before.index('<(' if '<' in before else '(')}: nesting"
        yield Row(f"{levels} nested {title}", "prove", ("true", before * levels + "nil" + behind * levels), 2, first)
    yield Row("a comment of a megabyte", "prove", ("true", f"/*{'*' * (room - 7)}*/nil"), 1, "open")
    yield Row("a string of a megabyte", "prove", ("true", f'cut("{"a" * (room - 10)}>0")'), 1, "open")
    yield Row("a branch of a megabyte", "prove", ("true", f"nil; <({'nil,' * (room // 4 - 3)}nil)"), 2, "refused: fails at 5: WrongCount")


def repeats(_):
    """Repeats that count no run, nested as deep as may be, and those that use up the budget."""
    nested = "nil*0"
    for _ in range(64):
        nested = f"({nested}" + "*1000" * 7 + ")*1000"
    yield Row("64 levels of 8 repeats that count no run", "prove", ("true", nested), 1, "open")
    counting = nested.replace("nil*0", "nil*1")
    yield Row("64 levels of 8 repeats that count one", "prove", ("true", counting), 2, "refused: budget at 64")


def failing_tries(part):
    """As many atoms as may run, each of which fails, on a formula with as many nodes as may be."""
    count = (MOST_ATOMS - 1) // part
    formula = big_formula(MOST_NODES - 8)
    for title, atom, model in (
        ("rules", "implyR(1)", formula),
        ("axioms that don't match", "useAt(DW,1)", f"[{{x'=1}}]({formula})"),
        ("names that aren't fresh", "boundR(x,1)", f"\\forall z ({formula})"),
        ("axioms whose substitution captures", "useAt(assignb,1)", f"[x:=y;]\\forall y ({formula})"),
    ):
        yield Row(f"{count} failing tries on 65,000 nodes: {title}", "prove", (model, f"{atom}|" * count + "nil"), 1, "open")


def long_terms(part):
    """A term that would be too long, with a long name in every second line."""
    letters = 300_000 // part
    name = "a" * letters
    strategy = f"(boundR({name},1);boundR(x,1))*255"
    first = "refused: term-too-long 76513894" if part == 1 and knows("convert") else None
    yield Row(f"510 renamings to a name of {letters} letters and back", "prove", ("\\forall x x>=0", strategy), 2 if part == 1 else 1, first)


def costly_runs(part):
    """Short strategies whose runs keep much, or whose terms would be long."""
    wide = "true->" * (SIDE - 1) + "(" * (SIDE - 1) + "(" + "&".join(["true"] * GOALS) + ")" + "|false)" * (SIDE - 1)
    turns = 50 // min(part, 50)
    strategy = f"implyR(1)*{SIDE - 1}; orR(1)*{SIDE - 1}; andR(1)*{GOALS - 1}; exchangeR(1,1)*{turns}"
    yield Row(f"{turns * GOALS} atoms on 256 goals with 256 formulas a side", "prove", (wide, strategy), 1, "open", True)
    turns = 4_000 // part
    strategy = "; ".join(["(useAt(composeb,1); useBack(composeb,1))*1000"] * (turns // 1000) or [f"(useAt(composeb,1); useBack(composeb,1))*{turns}"])
    # an instance of the axiom has the formula twice; only in version 1 does the term say it again and again, and would be too long
    half = big_formula(MOST_NODES // 2 - 16)
    is_too_long = part == 1 and not knows("convert")
    yield Row(f"{2 * turns} uses of an axiom on 32,000 nodes", "prove", (f"[a;b;]({half})", strategy), 2 if is_too_long else 1, None)


def by_numbers(*nodes, steps=("start ==>",), first_number=1):
    """A term of version 2 of these nodes and then of these steps, numbered from 1 on."""
    lines = ["dlk 2", *(f"node {number} {node}" for number, node in enumerate(nodes, first_number))]
    return "\n".join([*lines, *(f"{number} {step}" for number, step in enumerate(steps, 1)), "done", ""])


def doubled(count):
    """Nodes of which each is twice the one before it, as a tree."""
    return ["true", *(f"and {number} {number}" for number in range(1, count))]


def nodes(part):
    """Files of version 2 that are made to hurt: nodes that double, that are many, deep, alike, or numbered in another order."""
    yield Row("nodes that double, past the limit", "check", ("true", by_numbers(*doubled(40))), 2, "refused: line 18: Malformed")
    last = doubled(16)
    yield Row("nodes that double, up to the limit", "check", ("true", by_numbers(*last)), 2, "refused: other-conclusion 18")
    named = by_numbers(*last, steps=[f"start {'16 ' * SIDE}==>{' 16' * SIDE}"])
    yield Row("a refusal with 512 formulas of 65,535 nodes", "check", ("true", named), 2, "refused: other-conclusion 18", True)
    lines = MOST_LINES // part
    starts = by_numbers(*last, steps=[f"start{' 16' * 8} ==>"] * (lines // 10))
    yield Row(f"{lines // 10} sequents of 8 formulas of 65,535 nodes each", "check", ("true", starts), 2, f"refused: other-conclusion {lines // 10 + 17}")
    axioms = by_numbers(steps=["axiom eqrefl"] * (MOST_LINES + 1))
    yield Row("400,001 lines of one axiom, by nodes", "check", ("true", axioms), 2, "refused: line 400002: LinesFull")
    many = 1_000_000 // part
    numbers = [f"num {number}" for number in range(many)]
    yield Row(f"{many} nodes, each a number", "check", ("true", by_numbers(*numbers)), 2, f"refused: other-conclusion {many + 2}")
    yield Row(f"{many} nodes, of which no step names one, convert", "convert", (by_numbers(*numbers),), 1, "open")
    yield Row(f"{many} nodes, and the first once more", "check", ("true", by_numbers(*numbers, "num 0")), 2, f"refused: line {many + 2}: Malformed")
    yield Row(f"{many} nodes, and then a wrong number", "check", ("true", by_numbers(*numbers).replace("\n1 start", f"\nnode {many + 2} true\n1 start")), 2,
              f"refused: line {many + 2}: WrongNumber")
    yield Row(f"{many} nodes, numbered from 2", "check", ("true", by_numbers(*numbers, first_number=2)), 2, "refused: line 2: WrongNumber")
    yield Row("a kid that isn't there", "check", ("true", by_numbers("true", "and 1 999999999")), 2, "refused: line 3: Malformed")
    count = 100_000 // part
    alike = by_numbers(*(f"num {number}" for number in alike_numbers(count)))
    yield Row(f"{count} nodes of one hash", "check", ("true", alike), 2, f"refused: other-conclusion {count + 2}")
    deep = ["true", *(f"not {number}" for number in range(1, 1_001))]
    yield Row("nodes 1,000 deep", "convert", (by_numbers(*deep[:1_000], steps=["start ==> 1000"]),), 1, "open")
    yield Row("nodes 1,001 deep", "check", ("true", by_numbers(*deep, steps=["start ==>"])), 2, "refused: line 1002: Malformed")
    name = "a" * ((MOST_BYTES - 2) // part)
    names = [f"var {name}{number}" for number in range(30)]
    yield Row("30 nodes with names of a megabyte", "check", ("true", by_numbers(*names)), 2, "refused: other-conclusion 32")
    items = ",".join(f"x{number}'" for number in range(64))
    systems = ["num 0", "true", *(f"system {items},c{number} {'1 ' * 64}2" for number in range(100))]
    yield Row("a system of 65 items", "check", ("true", by_numbers(*systems)), 2, "refused: line 4: Malformed")
    kids = ["true", *(f"and 1 {number}" for number in range(1, 900)), *(f"or {a} {b}" for a in range(1, 900) for b in range(1, 1_000 // part))]
    few = min(len(kids), 800_000 // part)
    yield Row(f"{few} nodes over others", "check", ("true", by_numbers(*kids[:few])), 2, f"refused: other-conclusion {few + 2}")


ROWS = (
    wide_facts, merges, leaves, sharing, many_substitutions, shared_reports, long_names, many_pairs, nesting, many_symbols, one_hash, nodes, megabytes,
    repeats, failing_tries, long_terms, costly_runs,
)


# runs


class Bench:
    """A folder with the files of a run, the small program that measures, and the limits."""

    def __init__(self, folder, seconds, megabytes_of_memory):
        self.folder = folder
        self.measurer = measurer(folder)
        self.limits = [(resource.RLIMIT_CPU, seconds)]
        if megabytes_of_memory:
            self.limits.append((resource.RLIMIT_AS, megabytes_of_memory << 20))

    def run(self, verb, texts):
        """A run of a command on these texts."""
        files = [self.folder / f"input{k}" for k in range(len(texts))]
        for file, text in zip(files, texts):
            file.write_text(text)
        return measured(self.measurer, [PROGRAM, verb, *files, *outputs_of(verb, self.folder)], self.limits)

    @functools.cache
    def honest(self, verb, length):
        """What an honest run of this length costs."""
        run = self.run(verb, honest_texts(verb, length))
        if run.status != 0 and not (verb == "prove" and run.status == 1):
            raise SystemExit(f"hostile.py: an honest {verb} of {length} bytes: status {run.status}, {run.printed[:200]!r}")
        return Cost(run.seconds, run.peak)

    def smallest(self):
        """What `check` of a smallest term costs: the least of some runs."""
        runs = [self.run("check", honest_term(1)) for _ in range(9)]
        return Cost(min(run.seconds for run in runs), min(run.peak for run in runs))


def is_as_wanted(row, run):
    """Whether the answer is the one of the row."""
    if row.may_starve and run.status == STARVED and run.printed.startswith(b"dlk: "):
        return True
    first = run.printed.split(b"\n", 1)[0].decode(errors="replace")
    return run.status == row.status and row.first in (None, first)


def is_cut_off(run):
    """Whether the limit of time ended the run."""
    return run.status in (-signal.SIGXCPU, -signal.SIGKILL)


def marks_of(row, run, honest):
    """What is to be said of a row: a wrong answer, an end by the limit, or more than ten times what is honest."""
    if is_cut_off(run):
        return ["CUT OFF"]
    marks = [] if is_as_wanted(row, run) else [f"WRONG: status {run.status}, {run.printed[:160]!r}"]
    if row.may_starve and run.status == STARVED:
        marks.append("MEMORY RAN OUT")
    if run.seconds > TIMES * max(honest.seconds, LEAST_SECONDS):
        marks.append("TIME")
    if run.peak > TIMES * honest.peak:
        marks.append("MEMORY")
    return marks


def tell(row, run, smallest, honest, marks):
    """Prints a row."""
    length = sum(map(len, row.texts))
    print(
        f"{row.title}: {length} bytes, status {run.status}, {run.seconds:.2f} s, {run.peak / 1e6:.0f} MB;"
        f" of the smallest {run.seconds / smallest.seconds:.0f} and {run.peak / smallest.peak:.1f} times,"
        f" of an honest file {run.seconds / max(honest.seconds, 1e-3):.1f} and {run.peak / honest.peak:.1f} times"
        + "".join(f" -- {mark}" for mark in marks),
        flush=True,
    )


def main():
    """Prints a line for each row, and how many are marked."""
    parser = argparse.ArgumentParser(description="What inputs that are made to hurt cost.")
    parser.add_argument("--part", type=int, default=1, help="how many times smaller the sizes are (1)")
    parser.add_argument("--seconds", type=int, default=300, help="processor time that a run may take (300)")
    parser.add_argument("--megabytes", type=int, default=4096, help="memory that a run may take, 0 for no limit (4096)")
    parser.add_argument("--only", default="", help="rows whose titles have this word (all)")
    parser.add_argument("--version", type=int, choices=(1, 2), help="terms of this version alone (both)")
    options = parser.parse_args()
    wrong = marked = count = 0
    with tempfile.TemporaryDirectory() as name:
        bench = Bench(pathlib.Path(name), options.seconds, options.megabytes)
        smallest = bench.smallest()
        print(f"check of a smallest term: {smallest.seconds:.3f} s, {smallest.peak / 1e6:.1f} MB", flush=True)
        wanted = (row for rows in ROWS for row in rows(options.part) if options.only in row.title)
        for row in in_both(wanted, options.version):
            run = bench.run(row.verb, row.texts)
            honest = bench.honest(row.verb, sum(map(len, row.texts)))
            marks = marks_of(row, run, honest)
            tell(row, run, smallest, honest, marks)
            count += 1
            marked += bool(marks)
            wrong += any(mark.startswith("WRONG") for mark in marks)
    print(f"{count} rows, {marked} marked, {wrong} not as wanted")
    return 1 if wrong else 0


if __name__ == "__main__":
    raise SystemExit(main())
