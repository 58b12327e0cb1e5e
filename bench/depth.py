#!/usr/bin/env python3
"""Whether a stack of one megabyte suffices for the deepest inputs within the limits.

    python3 bench/depth.py [--stack KILOBYTES] [--seconds S] [--only WORD] [--version 1|2]

A formula of depth 1,000 in each operator that nests, 1,200 brackets, strategies nested 64 with 8 repeats each, terms with deep and with
wide sequents, systems of 64 items, and substitutions at depth: each is given to the commands that walk it, under `ulimit -s` (1,024).
Each run with a term is tried with the same term in both versions of its file, or with --version in one. Each run must end with its status, and with
its first line where that is short, and not by a signal. The recursions that this tries stand
in docs/ARCHITECTURE.md. Run it after `./dlk` has built the program; another one is named by DLK. It needs a C compiler. The exit status
is 1 where an answer isn't as it must be.
"""
import argparse
import pathlib
import resource
import tempfile
import typing

from common import PROGRAM, measured, measurer
from limits import nested
from versioned import in_both, outputs_of

DEEPEST = 1_000
BRACKETS = 1_200
SIDE = 256
ITEMS = 64
LEVELS = 64
REPEATS = 8


class Row(typing.NamedTuple):
    """A run: what it is, the command with the texts of its inputs, and the status and the first line that it must end with."""

    title: str
    verb: str
    texts: tuple[str, ...]
    status: int
    first: str | None = None


def wrapped(count, before, inside, behind=""):
    """A text that stands so many times between these."""
    return before * count + inside + behind * count


def formulas(depth=DEEPEST):
    """Formulas that are so deep, one for each operator that nests; their names, and whether they are arithmetic."""
    deep = depth - 1
    yield "!", wrapped(deep, "!", "true"), True
    yield "\\forall", wrapped(deep, "\\forall x ", "true"), True
    yield "\\exists", wrapped(deep, "\\exists x ", "true"), True
    yield "a box", wrapped(deep, "[a;]", "true"), False
    yield "a diamond", wrapped(deep, "<a;>", "true"), False
    yield "a differential of a formula", wrapped(deep, "(", "true", ")'"), False
    yield "a predicational", wrapped(deep, "C{", "true", "}"), False
    for mark in ("&", "|", " -> ", " <-> "):
        yield f"{mark.strip()} to the right", wrapped(deep, f"true{mark}", "true"), True
        yield f"{mark.strip()} to the left", wrapped(deep, "(", "true", f"){mark}true"), True
    deep -= 1
    yield "a sign", wrapped(deep, "-", "x") + ">=0", True
    for mark in "+-*/":
        yield f"{mark} to the left", "x" + f"{mark}x" * deep + ">=0", True
        yield f"{mark} to the right", wrapped(deep, f"x{mark}(", "x", ")") + ">=0", True
    yield "^ to the right", wrapped(deep, "x^", "2") + ">=0", False
    yield "^ to the left", wrapped(deep, "(", "x", ")^2") + ">=0", True
    yield "a function", wrapped(deep, "f(", "x", ")") + ">=0", False
    yield "a function of eight", wrapped(deep, "f(x,x,x,x,x,x,x,", "x", ")") + ">=0", False
    yield "a differential of a term", wrapped(deep, "(", "x", ")'") + ">=0", False
    yield "a sequence", f"[{'x:=1;' * deep}]true", False
    yield "a sequence to the left", f"[{wrapped(deep - 1, '{', 'x:=1;', '}x:=1;')}]true", False
    yield "a choice", f"[{wrapped(deep, 'a;++', 'a;')}]true", False
    yield "a choice to the left", f"[{wrapped(deep, '{', 'a;', '}++a;')}]true", False
    yield "a loop", f"[{wrapped(deep, '{', 'a;', '}*')}]true", False
    yield "a test", wrapped((depth - 2) // 2, "[?", "!" * (depth % 2 == 0) + "true", ";]true"), False
    yield "a system's domain", wrapped((depth - 2) // 2, "[{x'=1&", "x>=0", "}]true"), False
    yield "a system's terms", "[{x'=" + wrapped(depth - 3, "f(", "x", ")") + "}]true", False


def reading():
    """Each of the formulas, and what is one deeper, by the commands that read one."""
    for name, text, _ in formulas():
        yield Row(f"print, {name}", "print", (text,), 0)
        yield Row(f"vars, {name}", "vars", (text,), 0)
        yield Row(f"subst, {name}", "subst", (text, "a;~>b;,f(._0)~>f(._0),C{_}~>C{_}"), 0)
        yield Row(f"print, one deeper, {name}", "print", (f"!({text})",), 2)
    yield Row("brackets round a formula", "print", (nested(BRACKETS, "x>=0"),), 0, "x>=0")
    yield Row("brackets round a term", "print", (nested(BRACKETS, "x") + ">=0",), 0, "x>=0")
    yield Row("brackets round a program", "print", (wrapped(BRACKETS, "{", "a;", "}"),), 0, "a;")
    yield Row("brackets, one more", "print", (nested(BRACKETS + 1, "x>=0"),), 2, f"refused: file at {BRACKETS}: nesting")


def replaying():
    """Terms with deep sequents, with wide ones, and with both."""
    for name, text, is_arithmetic in formulas():
        lines = [f"start ==> {text}", "rename 1 x z", "subst 2 f(._0)~>f(._0),C{_}~>C{_}", "rename 3 z x", "apply 4 1 cut(false)", "apply 5 1 closeFalse(1)"]
        term = "".join(f"{k} {line}\n" for k, line in enumerate(lines, 1)) + "done\n"
        yield Row(f"check, {name}", "check", (text, term), 1, "open")
        yield Row(f"report, {name}", "report", (text, term), 1)
        yield Row(f"convert, {name}", "convert", (term,), 1, "open")
        yield Row(f"trim, {name}", "trim", (text, term), 1, "open")
        leaf = f"1 leaf ==> {text}\ndone\n"
        yield Row(f"a leaf, {name}", "smt", (text, leaf), 0 if is_arithmetic else 2)
    for name, text, _ in formulas(DEEPEST - 3):
        yield Row(f"prove, {name}", "prove", (f"[y:=1;]({text})", "useAt(assignb,1) | useAt(assigneq,1)"), 1, "open")
    wide = ", ".join(f"{wrapped(DEEPEST - 3, '-', 'x')}>={k}" for k in range(60))
    narrow = ", ".join(["x>=0"] * (SIDE - 60))
    sequent = f"{wide}, {narrow} ==> {wide}, {narrow}"
    yield Row("check of a leaf that is wide and deep", "check", ("true", f"1 leaf {sequent}\ndone\n"), 2, "refused: other-conclusion 1")
    term = "1 start ==> true\n2 apply 1 1 cut(x>=0)\n3 apply 2 1 closeTrue(1)\n4 apply 3 1 closeTrue(1)\ndone\n"
    yield Row("smt without leaves", "smt", ("true", term), 0)


def wide_leaf():
    """A closed proof with a leaf of 256 formulas on the left, the last of which is deep."""
    deep, flat = f"{'-' * (DEEPEST - 4)}x>=0", ["x>=0"] * (SIDE - 1)
    model = f"{'&'.join([deep, *flat])} -> true"
    lines = [f"start ==> {model}", "apply {} 1 implyR(1)"] + [f"apply {{}} 1 andL({place})" for place in range(1, SIDE)]
    lines += [f"apply {{}} 1 exchangeL(1,{SIDE})", f"leaf {', '.join([*flat, deep])} ==> true", f"merge {SIDE + 2} 1 {{}}"]
    term = "".join(f"{k} {line.format(k - 1)}\n" for k, line in enumerate(lines, 1)) + "done\n"
    for verb in ("check", "report", "smt"):
        yield Row(f"{verb} of a leaf of 256 formulas with a deep one", verb, (model, term), 0)


def systems():
    """Systems of 64 items, and substitutions that make them."""
    items = ",".join(f"x{k}'={wrapped(DEEPEST - 3, '-', 'x')}" for k in range(ITEMS))
    yield Row("64 items with deep terms", "print", (f"{{{items}}}",), 0)
    yield Row("vars of 64 items with deep terms", "vars", (f"{{{items}}}",), 0)
    constants = "{" + ",".join(f"c{k}" for k in range(ITEMS)) + "}"
    pairs = ",".join(f"{{c{k}}}~>{{x{k}'=1}}" for k in range(ITEMS))
    yield Row("64 constants, each replaced", "subst", (constants, pairs), 0)
    yield Row("64 constants and one that becomes two", "subst", (constants, "{c0}~>{x'=1,y'=1}"), 2, "refused: not-admissible")
    yield Row("65 items", "print", ("{" + ",".join(f"c{k}" for k in range(ITEMS + 1)) + "}",), 2, "refused: file at 0: shape")


def substitutions():
    """Substitutions whose files, whose replacements and whose results are deep."""
    deep = DEEPEST - 2
    functions = wrapped(deep, "f(", "x", ")") + ">=0"
    contexts = wrapped(DEEPEST - 1, "C{", "true", "}")
    minus = wrapped(DEEPEST - 1, "-", "._0")
    nots = wrapped(DEEPEST - 1, "!", "_")
    few = wrapped(60, "f(", "x", ")") + ">=0"
    for title, file, pairs, first in (
        ("functions by deep terms", functions, f"f(._0)~>{minus}", "result-too-big"),
        ("60 functions by deep terms", few, f"f(._0)~>{minus}", "result-too-deep"),
        ("contexts by deep formulas", contexts, f"C{{_}}~>{nots}", "result-too-big"),
        ("60 contexts by deep formulas", wrapped(60, "C{", "true", "}"), f"C{{_}}~>{nots}", "result-too-deep"),
        ("contexts of contexts", contexts, "C{_}~>C{C{_}}", "result-too-deep"),
        ("a predicate of a result that is deep", f"p({few[:-3]})", f"f(._0)~>{minus},p(._0)~>\\exists z z>._0", "result-too-deep"),
    ):
        yield Row(f"subst, {title}", "subst", (file, pairs), 2, f"refused: {first}")
        reason = {"result-too-big": "TooBig", "result-too-deep": "TooDeep"}[first]
        yield Row(f"check, {title}", "check", ("true", f"1 start ==> {file}\n2 subst 1 {pairs}\ndone\n"), 2, f"refused: line 2: {reason}")
    replaced = f"f(._0)~>{wrapped(DEEPEST - 3, '-', '._0')}"
    yield Row("a function by a term that is as deep as may be", "subst", ("f(x)>=0", replaced), 0)
    dropped = f"g({few[:-3]})>=0"
    yield Row("a deep result that is dropped", "subst", (dropped, f"f(._0)~>{minus},g(._0)~>1"), 0, "1>=0")


def guarding():
    """Instances of `DI` and of a context with deep formulas, terms and domains, by `guard`."""
    deep = DEEPEST - 4
    for title, domain, formula, first in (
        ("a deep formula", "true", wrapped(deep - 2, "!", "x>=0"), "guarded"),
        ("a deep term", "true", wrapped(deep - 2, "-", "x") + ">=0", "guarded"),
        ("deep divisors without variables", "true", wrapped(deep - 2, "1/(", "1", ")") + ">=0", "guarded"),
        ("a deep term that isn't smooth", "true", wrapped(deep - 3, "-", "f(x)") + ">=0", "unguarded line 2: di-not-smooth"),
        ("a deep domain", wrapped(deep - 2, "(", "x>=0", ")&x>=0"), "x>=0", "guarded"),
    ):
        model = f"(({domain}) -> [{{x'=1&{domain}}}]({formula})') -> ([{{x'=1&{domain}}}]({formula}) <-> [?{domain};]({formula}))"
        term = f"1 axiom DI\n2 subst 1 {{c}}~>{{x'=1}},q(||)~>{domain},p(||)~>{formula}\ndone\n"
        yield Row(f"guard, {title}", "guard", (model, term), 0, first)
    context = wrapped(deep - 1, "!", "(_)'")
    model = context.replace("_", "true") + " <-> " + context.replace("_", "false")
    term = f"1 rule CE\n2 subst 1 p(||)~>true,q(||)~>false,C{{_}}~>{context}\ndone\n"
    yield Row("guard, a deep context", "guard", (model, term), 1, "unguarded line 2: differential-context")


def one_level(inside):
    """A level of a strategy: a choice of a sequence with eight repeats, and of nothing."""
    return f"(nil; {inside}{'*1' * REPEATS} | nil)"


def strategies():
    """Strategies nested 64 with 8 repeats each, atoms at the end of long ways, and uses of axioms at depth."""
    for title, inner, model, status, first in (
        ("nil", "nil", "true", 1, "open"),
        ("closeTrue", "closeTrue(1)", "true", 0, "closed"),
        ("a failing rule", "andR(1)", "true", 1, "open"),
        ("prop", "prop", "true", 0, "closed"),
        ("loop", 'loop("true",1)', "[{a;}*]true", 1, "open"),
        ("dI", "dI(1)", "[{x'=1}]x>=0", 1, "open"),
    ):
        text = inner
        for _ in range(LEVELS):
            text = one_level(text)
        yield Row(f"64 levels round {title}", "prove", (model, f"{text}{'*1' * REPEATS}"), status, first)
    last = "nil"
    for _ in range(LEVELS):
        last = f"(andR(1) | nil; {last}{'*1' * REPEATS})"
    yield Row("64 levels, in the last alternatives", "prove", ("true", last), 1, "open")
    branches = "nil"
    for _ in range(LEVELS // 2):
        branches = f"(nil; <({branches}{'*1' * REPEATS}) | nil)"
    yield Row("32 levels of branches", "prove", ("true", branches), 1, "open")
    yield Row("65 levels", "prove", ("true", wrapped(LEVELS + 1, "(", "nil", ")")), 2, "refused: strategy at 64: nesting")
    path = ".0" * (DEEPEST - 5)
    yield Row("useAt at the end of a long path", "prove", (f"{wrapped(DEEPEST - 5, '!', '[?true;]true')}", f"useAt(testb,1{path})"), 1, "open")
    yield Row("useAt of a context that is deep", "prove", (f"[x:=1;]{wrapped(DEEPEST - 4, '!', 'x>=0')}", "useAt(assignb,1)"), 1, "open")
    yield Row("useAt in a term", "prove", (f"{'-' * (DEEPEST - 6)}(y)'>=0", f"useAt(Dvar,1.0{path[:-2]})"), 1, "open")
    yield Row("boundR at depth", "prove", (f"\\forall x {wrapped(DEEPEST - 4, '!', 'x>=0')}", "boundR(y,1); skolemR(1)"), 1, "open")
    yield Row("a quoted formula that is deep", "prove", ("true", f'cut("{wrapped(DEEPEST - 1, "!", "true")}")'), 1, "open")
    yield Row("a path that is longer than the text is deep", "prove", ("true", f"useAt(testb,1{'.0' * 400_000})"), 2, "refused: fails at 0: NoPlace")


ROWS = (reading, replaying, wide_leaf, systems, substitutions, guarding, strategies)


def wrong(row, run):
    """What is wrong with a run, or nothing."""
    first = run.printed.split(b"\n", 1)[0].decode(errors="replace")
    if run.status < 0:
        return f"ended by signal {-run.status} after {run.seconds:.0f} seconds"
    if run.status != row.status:
        return f"status {run.status} and not {row.status}: {first[:120]}"
    if row.first not in (None, first):
        return f"prints {first[:120]} and not {row.first}"
    return ""


def main():
    """Runs each row, prints those that are wrong, and how many there are."""
    parser = argparse.ArgumentParser(description="Whether a stack of a megabyte suffices for the deepest inputs.")
    parser.add_argument("--stack", type=int, default=1024, help="kilobytes of stack (1024)")
    parser.add_argument("--seconds", type=int, default=120, help="processor time that a run may take (120)")
    parser.add_argument("--only", default="", help="rows whose titles have this word (all)")
    parser.add_argument("--version", type=int, choices=(1, 2), help="terms of this version alone (both)")
    options = parser.parse_args()
    count = faults = 0
    with tempfile.TemporaryDirectory() as name:
        folder = pathlib.Path(name)
        helper = measurer(folder)
        limits = [(resource.RLIMIT_STACK, options.stack * 1024), (resource.RLIMIT_CPU, options.seconds)]
        wanted = (row for rows in ROWS for row in rows() if options.only in row.title)
        for row in in_both(wanted, options.version):
            files = [folder / f"input{k}" for k in range(len(row.texts))]
            for file, text in zip(files, row.texts):
                file.write_text(text)
            run = measured(helper, [PROGRAM, row.verb, *files, *outputs_of(row.verb, folder)], limits)
            fault = wrong(row, run)
            count += 1
            faults += bool(fault)
            if fault:
                print(f"{row.title}: {fault}", flush=True)
    print(f"{count} runs with a stack of {options.stack} kilobytes, {faults} not as wanted")
    return 1 if faults else 0


if __name__ == "__main__":
    raise SystemExit(main())
