"""Says of many models and proofs which are verified.

    dlkt batch FOLDER.. [-j N] [--no-search] [--dask ADDRESS] [--against TABLE] [--seconds N] [--json] [--dlk PROGRAM]

A proof is a folder with a `model` and a `strategy` in it, or with a `model` and a `term`; each one below the named folders is looked at, also behind a
link. What is looked at, the table, --against, --dask and the exit statuses are told in docs/INSTALL.md ("Strategies in one table"). Where a name has what
ends a line, an escape stands for it. Behind control-C, or where the process is ended, all ends that it started. Nothing of this is proved, but what the
program proves.
"""

import argparse
import contextlib
import importlib
import json
import logging
import os
import signal
import subprocess
import sys
import time
from concurrent.futures import ThreadPoolExecutor
from pathlib import Path
from typing import Any, Callable, Iterable, Iterator, Mapping, NamedTuple, Sequence

from dlkt.commands.verify import at
from dlkt.program import TERM_BEGINS, Refused, add_options, one_line, program_of, read_bytes
from dlkt.solvers import there
from dlkt.verdict import Fault, Kind, Options, Source, Verdict, verdict_on

LINE = "{:<13} {:<9} {:<11} {:<6} {:>5}  {:>7}  {}"
HEAD = ("verdict", "proof", "guard", "leaves", "lines", "seconds", "folder")
WORD, OTHER_WORD, NONE = "verified", "not-verified", "-"
PATIENCE = 10  # seconds in which a scheduler must answer
MOST_TRIES = 10  # how often a proof whose worker was lost, or whose task failed, is looked at again


class Row(NamedTuple):
    """What is said of a proof: the columns of the table, each one word but the folder; and why it isn't verified."""

    verdict: str
    proof: str
    guard: str
    leaves: str
    lines: str
    seconds: str
    folder: str
    why: str = ""


# A proof that is looked at: its name, and its folder.
Named = tuple[str, Path]


# One proof

def files_of(folder: Path) -> dict[str, bytes]:
    """The bytes of the files of a proof: its model, and its strategy, or else its term."""
    names = ("model", "strategy" if os.path.lexists(folder / "strategy") else "term")
    return {name: read_bytes(folder / name) for name in names}


def refusal_in_short(fault: Fault) -> str:
    """Why an input is refused, and where."""
    if fault.place is None or fault.text.startswith(("refused: line", "refused: other-conclusion")):
        return fault.text
    return f"{at(fault.place)}: {fault.why}"


def row_of(name: str, verdict: Verdict, took: str) -> Row:
    """The line of a proof."""
    found, guard = verdict.found, verdict.guard
    if isinstance(found, Fault) or guard is None:
        why = refusal_in_short(found) if isinstance(found, Fault) else "its guard wasn't asked"
        return Row(OTHER_WORD, "refused", NONE, NONE, NONE, took, name, why)
    valid = sum(leaf.said.word == "valid" for leaf in verdict.leaves)
    # Of the reasons the last is that a line isn't guarded, where one isn't: the guard's own words say more.
    reasons = verdict.reasons if guard.is_guarded else [*verdict.reasons[:-1], guard.text]
    return Row(
        WORD if verdict.is_verified else OTHER_WORD, verdict.outcome, "guarded" if guard.is_guarded else "unguarded",
        f"{valid}/{len(verdict.leaves)}", str(found.lines), took, name, "; ".join(reasons),
    )


def looked_at(name: str, program: Callable[[], str], find: Callable[[], Mapping[str, bytes]], limit: int) -> Row:
    """The line of a proof, also where nothing can be said of it. Its leaves are asked one at a time: other proofs are looked at, too."""
    try:
        files = find()
        begin, kind = time.monotonic(), Kind.STRATEGY if "strategy" in files else Kind.TERM
        options = Options(program(), limit, 1, kind=kind)
        verdict = verdict_on(Source("model", files["model"]), Source(str(kind), files[kind]), options)
        return row_of(name, verdict, f"{time.monotonic() - begin:.1f}")
    except Refused as why:
        return unknown(name, str(why))


def unknown(name: str, why: str) -> Row:
    """The line of a proof of which nothing can be said."""
    return Row(OTHER_WORD, "unknown", NONE, NONE, NONE, NONE, name, one_line(why))


# Many proofs, each in a process of its own

def is_proof(folder: Path, searches: bool = False) -> bool:
    """Whether a folder has a model, and a strategy or a term, where none is searched for. A link that leads nowhere counts, too: its row says so."""
    return os.path.lexists(folder / "model") and (searches or any(os.path.lexists(folder / name) for name in ("strategy", "term")))


def folders_below(root: Path) -> Iterator[Path]:
    """A folder and all those below it, those behind links, too, but for a link to a folder above itself. Refused where one can't be read."""
    def refuse(fault: OSError) -> None:
        raise Refused(f"{fault.filename}: {(fault.strerror or str(fault)).lower()}")

    for place, below, _ in os.walk(root, onerror=refuse, followlinks=True):
        here = Path(place)
        above = {here.resolve(), *here.resolve().parents}
        below[:] = [name for name in below if not (here / name).is_symlink() or (here / name).resolve() not in above]
        yield here


def proofs_below(names: Sequence[str], searches: bool = False) -> list[Named]:
    """The folders with a proof, or with a model where one is searched for, each with its name: below one named folder that is none as it is from
    there, else as it is from here. The one in which one stands has its own name, where no other is called so."""
    found: list[Named] = []
    for name in names:
        root = Path(name)
        if not root.is_dir():
            raise Refused(f"{name}: {'not a folder' if root.exists() else 'no such folder'}")
        is_above = len(names) == 1 and not is_proof(root, searches)
        found += [(str(it.relative_to(root) if is_above else it), it) for it in folders_below(root) if is_proof(it, searches)]
    if not found:
        raise Refused(f"no folder below {', '.join(names)} has a model{'' if searches else ', and a strategy or a term'}")
    own = Path().resolve().name
    taken = {name for name, _ in found}
    return sorted({(one_line(own if name == "." and own not in taken else name), folder) for name, folder in found})


class Crew:
    """The processes that are at work, each in a group of its own with what it starts, so that control-C ends all of them."""

    def __init__(self, options: argparse.Namespace) -> None:
        self.options, self.is_over = options, False
        self.running: set[subprocess.Popen[bytes]] = set()

    def row(self, proof: Named) -> Row:
        """The line of one proof."""
        name, folder = proof
        options = [f"--one={name}", f"--seconds={self.options.seconds}", f"--dlk={self.options.dlk}"]
        options += [] if self.options.search else ["--no-search"]
        words = [sys.executable, "-m", "dlkt", "batch", *options, "--", str(folder)]
        pipes: dict[str, Any] = {"stdin": subprocess.DEVNULL, "stdout": subprocess.PIPE, "stderr": subprocess.PIPE}
        with subprocess.Popen(words, start_new_session=True, **pipes) as process:
            self.running.add(process)
            if self.is_over:
                interrupt(process)
            out, complaint = process.communicate()
            self.running.discard(process)
        if process.returncode == 0:
            return Row(*json.loads(out))
        last = (complaint.decode("utf-8", "replace").strip() or f"it ended with status {process.returncode}").rpartition("\n")[2]
        return unknown(name, last)

    def end(self) -> None:
        """Ends all that is at work."""
        self.is_over = True
        for process in list(self.running):
            interrupt(process)

    def rows(self, proofs: Sequence[Named]) -> Iterator[Row]:
        """The lines of all proofs, in their order, as they come."""
        with ThreadPoolExecutor(self.options.jobs) as pool:
            try:
                yield from pool.map(self.row, proofs)
            except BaseException:
                pool.shutdown(wait=False, cancel_futures=True)
                self.end()
                raise


def interrupt(process: "subprocess.Popen[bytes]") -> None:
    """Ends a process that was started here, with those that it started itself: all but solvers, which it ends, are in its group."""
    with contextlib.suppress(ProcessLookupError):
        os.killpg(process.pid, signal.SIGINT)


def with_search(folder: Path, program: str) -> Mapping[str, bytes]:
    """The files of a proof, with a strategy that is found where there is none, and a plain one for a sketch. Refused where none is found."""
    from dlkt.search.proofs import by_search, by_sketch
    model = str(folder / "model")
    if not any(os.path.lexists(folder / name) for name in ("strategy", "term")):
        found = by_search(model, program)
    else:
        files = files_of(folder)
        if "strategy" not in files:
            return files
        found = by_sketch(model, Source(str(folder / "strategy"), files["strategy"]), program)
    if not isinstance(found, Source):
        word = "refuted" if found.is_refuted else "no proof is found"
        raise Refused(f"{word}: {'; '.join(' '.join(line.split()) for line in found.reasons)}".replace(":; ", ": "))
    kind = Kind.TERM if found.data.startswith(TERM_BEGINS) else Kind.STRATEGY
    return {"model": read_bytes(model), str(kind): found.data}


# Many proofs, each a task of a Dask scheduler

def task(name: str, files: Mapping[str, bytes], program: str, limit: int) -> Row:
    """The line of a proof, on a worker: the program is that of the worker, or that of the same path there."""
    return looked_at(name, lambda: program_of(os.environ.get("DLK") or program), lambda: files, limit)


def client_of(address: str) -> Any:
    """What speaks with a scheduler. It comes before anything is printed: where the package is missing, the command may begin anew."""
    distributed = importlib.import_module("distributed")
    for name in ("distributed", "distributed.client"):  # that a worker is lost, and its tasks are done again, is no complaint
        logging.getLogger(name).setLevel(logging.ERROR)
    try:
        return distributed.Client(address, timeout=f"{PATIENCE}s", set_as_default=False)
    except (OSError, ValueError) as fault:
        raise Refused(f"no Dask scheduler answers at {address}") from fault


def rows_by_dask(client: Any, proofs: Sequence[Named], options: argparse.Namespace) -> Iterator[Row]:
    """The lines of all proofs, in their order, as the workers of a scheduler find them. What a worker had that is lost is done again."""
    with client:
        tasks = []
        for name, folder in proofs:
            try:
                work = client.submit(task, name, files_of(folder), options.dlk, options.seconds, pure=False, retries=MOST_TRIES)
                tasks.append((name, work))
            except Refused as why:
                tasks.append((name, unknown(name, str(why))))
        try:
            for name, work in tasks:
                yield work if isinstance(work, Row) else row_by_worker(name, work)
        except BaseException:
            client.cancel([work for _, work in tasks if not isinstance(work, Row)])
            raise


def row_by_worker(name: str, work: Any) -> Row:
    """The line that a task has, or why it has none."""
    try:
        return Row(*work.result())
    except Exception as fault:  # noqa: BLE001  (whatever a worker raises comes here)
        return unknown(name, f"its task failed: {fault}")


# The table

def rows_in(name: str) -> list[Row]:
    """The rows of a table that was printed before."""
    lines = [line for line in read_bytes(name).decode("utf-8", "replace").split("\n") if line.strip() and not line.startswith("#")]
    if not lines or tuple(lines[0].split()) != HEAD:
        raise Refused(f"{name} holds no table of dlkt batch")
    cells = [line.split(None, len(HEAD) - 1) for line in lines[1:]]
    return [Row(*those) for those in cells if len(those) == len(HEAD) and those[0] in (WORD, OTHER_WORD)]


def changes(before: Sequence[Row], now: Sequence[Row]) -> list[str]:
    """What changed from one table to another, a line each, but for the times."""
    old, new = ({row.folder: row for row in rows} for rows in (before, now))
    found = [f"gone: {folder}" for folder in sorted(old.keys() - new.keys())]
    found += [f"new: {folder}: {new[folder].verdict}" for folder in sorted(new.keys() - old.keys())]
    for folder in sorted(old.keys() & new.keys()):
        pairs = zip(HEAD[:-1], old[folder], new[folder])
        columns = [f"{head} {one} -> {other}" for head, one, other in pairs if one != other and head != "seconds"]
        if columns:
            found.append(f"changed: {folder}: {', '.join(columns)}")
    return found


def object_of(row: Row) -> dict[str, Any]:
    """A row as --json prints it: numbers as numbers, and nothing where nothing is known."""
    known = {head: None if cell == NONE else cell for head, cell in zip(Row._fields, row)}
    valid, _, leaves = (known["leaves"] or "").partition("/")
    numbers = {
        "lines": int(known["lines"]) if known["lines"] else None,
        "seconds": float(known["seconds"]) if known["seconds"] else None,
        "leaves": int(leaves) if leaves else None,
        "valid": int(valid) if valid else None,
    }
    return {**known, **numbers, "verified": row.verdict == WORD}


def print_table(rows: Iterable[Row]) -> list[Row]:
    """Prints the table, a line as it comes, and gives its rows."""
    print(LINE.format(*HEAD), flush=True)
    told = []
    for row in rows:
        told.append(row)
        print(LINE.format(*row), *([f"# {row.folder}: {row.why}"] if row.why else []), sep="\n", flush=True)
    print(f"{sum(row.verdict == WORD for row in told)} of {len(told)} verified")
    return told


HELP = "says of many proofs which are verified"
EXAMPLE = "dlkt batch examples/gallery -j 2"


def add_words(parser: argparse.ArgumentParser) -> None:
    """The words of the command."""
    parser.add_argument("folders", nargs="+", metavar="FOLDER")
    add_options(parser, "-j", help="so many at a time")
    parser.add_argument("--no-search", dest="search", action="store_false", help="leave out the folders that have a model alone")
    parser.add_argument("--dask", metavar="ADDRESS", help="hand the proofs to the workers of this Dask scheduler")
    parser.add_argument("--against", metavar="TABLE", help="say what changed since this table was printed")
    add_options(parser, "--seconds", "--json", "--dlk")
    parser.add_argument("--one", metavar="NAME", help=argparse.SUPPRESS)


def run(options: argparse.Namespace) -> int:
    """Looks at all proofs, or at one, as a process of the crew."""
    signal.signal(signal.SIGTERM, signal.default_int_handler)
    options.dlk = program_of(options.dlk)
    if options.one is not None:
        # Where the whole runs behind a shell's `&`, SIGINT is ignored, by which the crew is ended.
        signal.signal(signal.SIGINT, signal.default_int_handler)
        folder = Path(options.folders[0])
        find = (lambda: with_search(folder, options.dlk)) if options.search else lambda: files_of(folder)
        print(json.dumps(looked_at(options.one, lambda: str(options.dlk), find, options.seconds)))
        return 0
    options.search = options.search and not options.dask
    before = rows_in(options.against) if options.against else None
    proofs = proofs_below(options.folders, options.search)
    if not options.dask and not there():
        print("dlkt batch: no solver is there, so no leaf is asked: install z3 or cvc5", file=sys.stderr)
    rows = rows_by_dask(client_of(options.dask), proofs, options) if options.dask else Crew(options).rows(proofs)
    told = list(rows) if options.json else print_table(rows)
    changed = changes(before, told) if before is not None else []
    if options.json:
        print(json.dumps({"proofs": [object_of(row) for row in told], "changes": changed}))
    elif before is not None:
        print("\n".join([f"since {options.against}:", *changed] if changed else [f"nothing changed since {options.against}"]))
    return 0 if all(row.verdict == WORD for row in told) else 1
