#!/usr/bin/env python3
"""Looks whether the program says of the examples what stands beside them.

    python3 dev/examples.py terms                            each term: both reports, and what its strategy writes
    python3 dev/examples.py models [--show]                  each model of `examples/models`, printed and read again
    python3 dev/examples.py gallery [--leaves] [--write] [NAME ..]
    python3 dev/examples.py recipes [--write] [NAME ..]
    python3 dev/examples.py guarded                          what `guard` says of every term and of every strategy

Of `terms` each must be closed, and `report` must say the same as `check`. Where a strategy stands beside it, `prove` must print the same report, but
for the number of lines, and what it writes must be accepted with the report that was printed. The tests of the crates must have the same terms, but
for those of `unsound` and `constants`, which stand in no test. Those of `unsound` must be closed, too, and their models must be `false`: that is what
they show. Where z3 or cvc5 is there, the leaves of each are given to it, and a line says what it answers.

Of `models` each is printed, and what was printed must be printed the same again. With --show the printed texts are written out.

Of `gallery` and `recipes` what `prove` prints must be the folder's `report`, byte for byte, and so must what `check` prints of the term. Where a
strategy `by_hand` stands there, too, which writes out what `derive` does, all this must hold of it as well. Some models of the gallery stand in the
tests of `dlk_tests_commands`; each that does must stand there as it does here. With --leaves a solver is asked for the leaves of the gallery, and each
must be valid. `dlkt verify` must say of each recipe that it is verified. With --write each report is written anew.

Of `guarded` each derivation of `false` must be unguarded, at the line and for the reason that the table below has, and that docs/SOUNDNESS.md says.
The table was written by reading the terms. Each other term must be guarded, and so must what `prove` writes from the strategies of the examples, of
the gallery and of the tutorial. Behind its first line `guard` must print what `check` does, with the same status.

A line says what is wrong, and the last one how many are as they should be; the exit status is 1 where not all are. The program is the one that DLK
names, or else `./dlk`, which builds it where it isn't there.
"""

import argparse
import json
import os
import shutil
import subprocess
import sys
import tempfile
from pathlib import Path
from typing import Any, Iterator

ROOT = Path(__file__).resolve().parent.parent
EXAMPLES = ROOT / "examples"
GALLERY = EXAMPLES / "gallery"
RECIPES = EXAMPLES / "recipes"
PAGE = ROOT / "docs" / "SOUNDNESS.md"
GALLERY_TESTS = ROOT / "crates" / "dlk_tests_commands" / "src" / "tests" / "prove" / "gallery.rt"
MODEL_TESTS = ROOT / "crates" / "dlk_tests_commands" / "src" / "tests" / "text" / "examples.rt"
PROGRAM = shutil.which(os.environ.get("DLK", ROOT / "dlk")) or ""
SOLVERS = ("z3", "cvc5")
UNSOUND = {
    # its pair C{_}~>(_)'
    "ce_under_differential": "unguarded line 3: differential-context",
    # axiom Dforall, the first of two
    "dforall": "unguarded line 13: dforall",
    # merges line 10, which has 2/x for a
    "dg_division": "unguarded line 13: dg-not-smooth",
    # merges line 27, which has 1/(x*x) in p, and no domain
    "di_division": "unguarded line 39: di-not-smooth",
    # merges line 51, which has x<=B for p, and evolves x alone
    "di_not_evolved": "unguarded line 63: di-not-evolved B",
    # merges line 46, which evolves x_ in the domain x_'=1
    "di_primed_domain": "unguarded line 47: di-primed x_'",
}


class Wrong(Exception):
    """What is wrong with an example, in a line."""


def answer(*words: str | Path) -> tuple[int, str]:
    """The status with which the program ends, and what it prints."""
    run = subprocess.run([PROGRAM, *words], capture_output=True, check=False)
    return run.returncode, run.stdout.decode()


def dlkt(*words: str | Path) -> subprocess.CompletedProcess[str]:
    """A run of dlkt with the program that is looked at."""
    environment = {**os.environ, "PYTHONPATH": str(ROOT / "src"), "DLK": PROGRAM}
    return subprocess.run([sys.executable, "-m", "dlkt", *words], env=environment, capture_output=True, text=True, check=False)


def first_line(text: str) -> str:
    """The first line of a text."""
    return text.partition("\n")[0]


def is_valid(name: Path | str, model: Path, term: Path) -> bool:
    """Prints in a line what a solver says of the leaves of a term, where there are any. Whether each of them is valid."""
    run = dlkt("leaves", "--json", model, term)
    leaves = json.loads(run.stdout)["leaves"] if run.stdout else []
    answers = [leaf["answer"] for leaf in leaves]
    if not run.stdout:
        print(f"{name}: {run.stderr.strip()}", flush=True)
    if answers:
        counts = ", ".join(f"{answers.count(word)} {word}" for word in dict.fromkeys(answers))
        solvers = sorted({solver for leaf in leaves for solver in leaf["by"]})
        print(f"{name}: leaves by {' and '.join(solvers) or 'no solver'}: {counts}", flush=True)
    return run.returncode == 0


# The terms


def printed(verb: str, example: Path) -> str:
    """What a command prints of an example."""
    status, text = answer(verb, example / "model", example / "term")
    if status != 0:
        raise Wrong(f"status {status}, {text.strip()}")
    return text


def as_text(report: dict[str, Any]) -> str:
    """The report as JSON in the lines of the report as text."""
    lines = [report["status"], f"conclusion {report['conclusion']}"]
    for name, word in (("goals", "goal"), ("leaves", "leaf")):
        lines.append(f"{name} {len(report[name])}")
        lines += [f"{word} {number} {text}" for number, text in enumerate(report[name], 1)]
    lines.append(f"lines {report['lines']}")
    return "\n".join(lines) + "\n"


def but_lines(text: str) -> str:
    """A report without its number of lines."""
    return text[: text.rindex("lines ")]


def prove_again(example: Path, text: str) -> None:
    """Proves an example by its strategy: the report must be this one but for the number of lines, and what is written must be accepted with the
    same report."""
    with tempfile.TemporaryDirectory() as folder:
        term = Path(folder) / "term"
        reports = []
        runs: list[tuple[str | Path, ...]] = [("prove", example / "model", example / "strategy", term), ("check", example / "model", term)]
        for words in runs:
            status, said = answer(*words)
            if status != 0 or but_lines(said) != but_lines(text):
                raise Wrong(f"{words[0]}: status {status}, {said.strip()}")
            reports.append(said)
        if reports[0] != reports[1]:
            raise Wrong("the written term has another report")


def checked(example: Path) -> dict[str, Any]:
    """The report of an example, which must be closed, and the same in both layouts."""
    text = printed("check", example)
    if not text.startswith("closed\n"):
        raise Wrong("it isn't closed")
    report: dict[str, Any] = json.loads(printed("report", example))
    if as_text(report) != text:
        raise Wrong("the two reports differ")
    if (example / "strategy").exists():
        prove_again(example, text)
    return report


def check_term(example: Path, tested: str) -> None:
    """Checks the term of a folder. One of `unsound` must prove `false`, and those of examples by themselves must stand in the tests."""
    report, kind = checked(example), example.parent.name
    if kind == "unsound" and report["conclusion"] != "==> false":
        raise Wrong("it proves something else than false")
    if kind == EXAMPLES.name:
        for name in ("model", "term"):
            if (example / name).read_text().replace("\\", "\\\\").replace("\n", "\\n") not in tested:
                raise Wrong(f"the tests have another {name}")


def terms(_: argparse.Namespace) -> bool:
    """Checks each term of the examples."""
    tested = "".join(file.read_text() for file in (ROOT / "crates").glob("dlk_tests*/src/**/*.rt"))
    examples = sorted(term.parent for pattern in ("*/term", "constants/*/term", "unsound/*/term") for term in EXAMPLES.glob(pattern))
    right = []
    for example in examples:
        name = example.relative_to(EXAMPLES)
        try:
            check_term(example, tested)
        except Wrong as why:
            print(f"{name}: {why}", flush=True)
            continue
        right.append(example)
        if any(map(shutil.which, SOLVERS)):
            is_valid(name, example / "model", example / "term")
    unsound = sum(it.parent.name == "unsound" for it in right)
    print(f"{len(right) - unsound} terms, each closed; and {unsound} of false, which are closed too; {len(right)} of {len(examples)}")
    return len(right) == len(examples)


# The models


def print_of(name: Path | str, text: bytes | None = None) -> bytes:
    """What `print` prints of a file, or of a text on standard input."""
    run = subprocess.run([PROGRAM, "print", name], input=text, capture_output=True, check=False)
    if run.returncode != 0:
        raise Wrong(f"status {run.returncode}, {run.stdout.decode().strip()}")
    return run.stdout


def models(given: argparse.Namespace) -> bool:
    """Prints each model of `examples/models` twice."""
    every, right, tested = sorted((EXAMPLES / "models").iterdir()), 0, MODEL_TESTS.read_text()
    for model in every:
        try:
            if model.read_text().replace("\\", "\\\\") not in tested:
                raise Wrong("the tests have another text of it")
            once = print_of(model)
            if print_of("-", once) != once:
                raise Wrong("its text is printed otherwise")
        except Wrong as why:
            print(f"{model.name}: {why}", flush=True)
            continue
        right += 1
        if given.show:
            print(f"{model.name}: {once.decode()}", end="")
    print(f"{right} models, each printed the same again; {right} of {len(every)}")
    return right == len(every)


# The gallery and the recipes


def report_fault(folder: Path, term: Path, is_written: bool) -> str:
    """What is wrong with a folder's proof, in a line, or nothing. The term is written to a file; the report, too, where it is to be written."""
    report = folder / "report"
    for strategy in filter(Path.exists, (folder / "strategy", folder / "by_hand")):
        runs: list[tuple[str | Path, ...]] = [("prove", folder / "model", strategy, term), ("check", folder / "model", term)]
        for words in runs:
            status, said = answer(*words)
            if status != 0:
                return f"{words[0]} by {strategy.name} ends with status {status}: {first_line(said)}"
            if is_written and strategy.name == "strategy" and words[0] == "prove":
                report.write_text(said)
            if not report.exists() or report.read_bytes().decode() != said:
                return f"{words[0]} by {strategy.name} prints another report"
    return ""


def counts(report: str) -> str:
    """What a report counts, in a line."""
    return ", ".join(line for line in report.split("\n") if line.startswith(("leaves ", "lines ")))


def is_tested(folder: Path, tests: str) -> bool:
    """Whether the tests have the folder's texts, if they name it."""
    texts = [(folder / name).read_text().replace("\\", "\\\\").replace('"', '\\"') for name in ("model", "strategy", "report")]
    if f"`examples/gallery/{folder.name}/model`" not in tests or all(f'"{text}";' in tests for text in texts):
        return True
    print(f"{folder.name}: the tests have another text")
    return False


def is_in_order(folder: Path, given: argparse.Namespace) -> bool:
    """Whether all is as it should be with a folder of the gallery; a line says so."""
    with tempfile.TemporaryDirectory() as place:
        term = Path(place) / "term"
        wrong = report_fault(folder, term, given.write)
        if wrong:
            print(f"{folder.name}: {wrong}", flush=True)
            return False
        print(f"{folder.name}: closed, {counts((folder / 'report').read_text())}", flush=True)
        return not given.leaves or is_valid(folder.name, folder / "model", term)


def folders_of(place: Path, names: list[str]) -> list[Path]:
    """The named folders, or all with a model."""
    return [place / name for name in names] or sorted(model.parent for model in place.glob("*/model"))


def gallery(given: argparse.Namespace) -> bool:
    """Looks at each folder of the gallery."""
    folders, tests = folders_of(GALLERY, given.names), GALLERY_TESTS.read_text()
    right = [folder for folder in folders if is_tested(folder, tests) and is_in_order(folder, given)]
    print(f"{len(right)} of {len(folders)}")
    return len(right) == len(folders)


def is_verified(folder: Path, is_written: bool) -> bool:
    """Whether all is as it should be with a recipe; a line says so, with the last one of its verdict."""
    with tempfile.TemporaryDirectory() as place:
        wrong = report_fault(folder, Path(place) / "term", is_written)
    if wrong:
        print(f"{folder.name}: {wrong}", flush=True)
        return False
    run = dlkt("verify", folder / "model", folder / "strategy")
    said = (run.stdout or run.stderr).rstrip("\n").rpartition("\n")[2]
    print(f"{folder.name}: {counts((folder / 'report').read_text())}, {said}", flush=True)
    return run.returncode == 0


def recipes(given: argparse.Namespace) -> bool:
    """Looks at each recipe."""
    folders = folders_of(RECIPES, given.names)
    right = [folder for folder in folders if is_verified(folder, given.write)]
    print(f"{len(right)} of {len(folders)}")
    return len(right) == len(folders)


# The guard


def guard_fault(model: Path, term: Path, line: str) -> str:
    """What is wrong with what `guard` says of a term, or nothing. Its first line must be this one."""
    status, report = answer("check", model, term)
    if status > 1:
        return f"check ends with status {status}: {first_line(report)}"
    found, said = answer("guard", model, term)
    first, _, behind = said.partition("\n")
    if first != line:
        return f"{first}, and not {line}"
    return "" if (found, behind) == (status, report) else "behind its first line guard prints something else than check"


def proof_fault(folder: Path) -> str:
    """The same of the term that `prove` writes of a folder's model by its strategy, which must be guarded."""
    with tempfile.TemporaryDirectory() as place:
        term = Path(place) / "term"
        status, said = answer("prove", folder / "model", folder / "strategy", term)
        return guard_fault(folder / "model", term, "guarded") if status <= 1 else f"prove ends with status {status}: {first_line(said)}"


def page_fault(line: str) -> str:
    """What is wrong with the page: it must say this line."""
    return "" if f"`{line}`" in PAGE.read_text(encoding="utf-8") else f"docs/SOUNDNESS.md doesn't say {line}"


def guard_faults() -> Iterator[tuple[str, str]]:
    """What is wrong with each term, or nothing, by its name."""
    for term in sorted([*EXAMPLES.glob("*/term"), *EXAMPLES.glob("constants/*/term")]):
        yield str(term.parent.relative_to(EXAMPLES)), guard_fault(term.with_name("model"), term, "guarded")
    for strategy in sorted(EXAMPLES.glob("**/strategy")):
        yield f"{strategy.parent.relative_to(EXAMPLES)} by its strategy", proof_fault(strategy.parent)
    for term in sorted(EXAMPLES.glob("unsound/*/term")):
        line = UNSOUND.get(term.parent.name, "a line of the table")
        yield str(term.parent.relative_to(EXAMPLES)), guard_fault(term.with_name("model"), term, line) or page_fault(line)


def guarded(_: argparse.Namespace) -> bool:
    """Looks at what `guard` says of each term."""
    found = list(guard_faults())
    wrong = [(name, why) for name, why in found if why]
    for name, why in wrong:
        print(f"{name}: {why}")
    print(f"{len(found) - len(wrong)} of {len(found)}")
    return not wrong


def words() -> argparse.ArgumentParser:
    """The parser of the command line."""
    parser = argparse.ArgumentParser(description=__doc__, formatter_class=argparse.RawDescriptionHelpFormatter)
    kinds = parser.add_subparsers(dest="kind", metavar="KIND", required=True)
    for work in (terms, models, gallery, recipes, guarded):
        kind = kinds.add_parser(work.__name__, description=work.__doc__)
        kind.set_defaults(work=work)
        if work in (gallery, recipes):
            kind.add_argument("names", nargs="*", metavar="NAME", help="a folder (all)")
            kind.add_argument("--write", action="store_true", help="write the reports")
    kinds.choices["gallery"].add_argument("--leaves", action="store_true", help="ask a solver for the leaves")
    kinds.choices["models"].add_argument("--show", action="store_true", help="print the printed texts")
    return parser


def main() -> int:
    """Looks at the examples that are named."""
    given = words().parse_args()
    if not PROGRAM:
        print("examples.py: there is no program that DLK names", file=sys.stderr)
        return 1
    return 0 if given.work(given) else 1


if __name__ == "__main__":
    sys.exit(main())
