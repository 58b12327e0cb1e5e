#!/usr/bin/env python3
"""What the built program does at its edge, where no contract reaches: real files, devices, pipes, words, statuses and messages.

Each row is a run, with the status and the bytes that it must end with, those on standard error among them. The program is that of `./dlk`, or
the one that DLK names.

With `--bugs` it is tried itself. Each file of `bench/edges/` makes the code wrong where no contract speaks, as in the calls of the host's desk,
in `main` and in `explain`; a program is built of it without proof, and some row must not come out as wanted. The exit status is 0 where each
is seen. Names of bugs behind `--bugs` are tried alone.
"""
import argparse
import fcntl
import os
import pathlib
import resource
import shutil
import signal
import subprocess
import sys
import tempfile
import termios
import time
from concurrent.futures import ThreadPoolExecutor

from common import PROGRAM

TOP = pathlib.Path(__file__).resolve().parent.parent
sys.path.append(str(TOP / "dev"))
import consistent  # noqa: E402  (behind the path)

DLK = os.path.abspath(os.environ.get("DLK", PROGRAM))
SECONDS = 600
MODEL = b"x>=0 -> x>=0\n"
IN_FULL = b"1 start ==> x>=0 -> x>=0\n2 apply 1 1 implyR(1)\n3 apply 2 1 close(1,1)\ndone\n"
NODES = b"dlk 2\nnode 1 var x\nnode 2 num 0\nnode 3 ge 1 2\nnode 4 imply 3 3\n"
BY_NODES = NODES + b"1 start ==> 4\n2 apply 1 1 implyR(1)\n3 apply 2 1 close(1,1)\ndone\n"
LINKED = NODES + b"1 start ==> 4\n2 start ==> 4\n3 apply 2 1 implyR(1)\n4 apply 3 1 close(1,1)\n5 merge 1 1 4\ndone\n"
REPORT = b"closed\nconclusion ==> x>=0 -> x>=0\ngoals 0\nleaves 0\nlines 3\n"
OPEN_TERM = b"1 start ==> x>=0 -> x>=0\ndone\n"
OPEN_REPORT = b"open\nconclusion ==> x>=0 -> x>=0\ngoals 1\ngoal 1 ==> x>=0 -> x>=0\nleaves 0\nlines 1\n"
JSON = b'{"conclusion":"==> x>=0 -> x>=0","goals":[],"leaves":[],"lines":3,"status":"closed"}\n'
# an axiom that the guard refuses
UNSOUND = b"(\\forall x_ p(||))' <-> \\forall x_ (p(||))'"
WORDS = b"refused: words\n"
USAGES = b"""dlk 1.0.0: usage, in which - is standard input:
  dlk check MODEL TERM             checks a proof term, and prints its report
  dlk report MODEL TERM            checks a proof term, and prints its report as JSON
  dlk smt MODEL TERM               checks a proof term, and prints its leaves for a solver
  dlk guard MODEL TERM             checks a proof term, and prints whether it is guarded, and its report
  dlk prove MODEL STRATEGY TERM    runs a strategy, writes the term that it makes, and prints its report
  dlk session MODEL SCRIPT TERM    runs the lines of a script, goal by goal, and writes the term that they save
  dlk convert TERM OUT             writes a term in the newest version, and prints its report
  dlk link MODEL TERM LEMMA OUT    proves goals of a term by another term, writes the whole, and prints its report
  dlk trim MODEL TERM OUT          leaves out the lines that a term doesn't need, writes the rest, and prints its report
  dlk print FILE                   prints the canonical text of an expression
  dlk vars FILE                    prints the free, bound and must-bound variables of an expression, and its symbols
  dlk subst FILE SUBST             prints what a substitution makes of an expression
  dlk gen N                        proves a generated model of N assignments, from 1 to 500, and checks the term
"""
# how many of the words behind a command name inputs
INPUTS = {"print": 1, "vars": 1, "convert": 1, "link": 3, "gen": 0}
CUT = b"dlk: the answer could not be written whole, to standard output\n"
WRITES = ("prove", "session", "convert", "link", "trim")
# a conjunction of comparisons of these names to 0 is longer than three pieces of those in which a file is read
NAMES = [f"{'a' * 270}{i:03}" for i in range(100)]

faults = []


def said(name, wanted, found):
    """Prints whether a row came out as it must."""
    right = wanted == found
    print(f"{name}: {'as wanted' if right else f'wanted {wanted!r}, found {found!r}'}", flush=True)
    if not right:
        faults.append(name)


def is_readable(path):
    """Whether something of a file can be read."""
    try:
        with open(path, "rb") as file:
            file.read(1)
    except OSError:
        return False
    return True


def cut(words):
    """What must stand on standard error where an answer wasn't written whole."""
    if words[0] not in WRITES:
        return CUT
    return b"dlk: the answer could not be written whole, to " + os.fsencode(words[-1]) + b" or standard output\n"


def told(status, words, cwd="."):
    """What must stand on standard error: a message with a status that comes without an answer, and nothing beside an answer."""
    if status == 4:
        names = [os.fsencode(it) for it in words[1:1 + INPUTS.get(words[0], 2)]]
        missed = next(it for it in names if it == b"-" or not is_readable(os.path.join(os.fsencode(cwd), it)))
        return b"dlk: an input could not be read: " + missed + b"\n"
    if status == 5:
        return cut(words)
    return {3: USAGES, 6: b"dlk: memory ran out\n"}.get(status, b"")


def run(words, given=b"", **options):
    """Status, printed bytes and standard error of a run."""
    how = {"input": given, "stdout": subprocess.PIPE, "stderr": subprocess.PIPE, "check": False, "timeout": SECONDS, **options}
    try:
        ended = subprocess.run([DLK, *words], **how)
    except subprocess.TimeoutExpired:
        return f"no end within {SECONDS} seconds", b"", b""
    return ended.returncode, ended.stdout, ended.stderr


def row(name, words, status, printed=b"", **options):
    """A row of a run that must end with this status, print these bytes, and say on standard error what belongs to the status."""
    said(name, (status, printed, told(status, words, options.get("cwd", "."))), run(words, **options))


def held(path):
    """The bytes of a file, if it is there."""
    return path.read_bytes() if path.is_file() else None


def fed(words, pieces):
    """What comes of a run where standard input is a pipe that gives a few bytes at a time."""
    program = subprocess.Popen([DLK, *words], stdin=subprocess.PIPE, stdout=subprocess.PIPE, stderr=subprocess.PIPE)
    for piece in pieces:
        program.stdin.write(piece)
        program.stdin.flush()
    program.stdin.close()
    printed, errors = program.stdout.read(), program.stderr.read()
    return program.wait(), printed, errors


def printing_to(words, out):
    """Status and standard error of a run that prints to this file."""
    status, _, errors = run(words, stdout=out)
    return status, errors


def by_shell(words, streams):
    """Status, printed bytes and standard error of a run whose streams a shell has closed or led elsewhere."""
    ended = subprocess.run(["sh", "-c", f'"$@" {streams}', "sh", DLK, *words], capture_output=True, check=False, timeout=SECONDS)
    return ended.returncode, ended.stdout, ended.stderr


def inputs(at):
    """Standard input in each place, folders, names, and what can't be read."""
    term = at / "term"
    row("two files", ["check", at / "model", term], 0, REPORT)
    row("a term whose goals are left", ["check", at / "model", at / "open"], 1, OPEN_REPORT)
    row("- first", ["check", "-", term], 0, REPORT, given=MODEL)
    row("- second", ["check", at / "model", "-"], 0, REPORT, given=IN_FULL)
    row("- second, by nodes", ["check", at / "model", "-"], 0, REPORT, given=BY_NODES)
    row("- twice", ["check", "-", "-"], 2, b"refused: line 1: NoEnd\n", given=MODEL)
    row("./- is a file", ["check", "./-", term], 4, cwd=at)
    row("--", ["print", "--"], 4)
    for title, text in (("", IN_FULL), (", by nodes", BY_NODES)):
        said(f"a pipe of single bytes{title}", (0, REPORT, b""), fed(["check", at / "model", "-"], [text[i:i + 1] for i in range(len(text))]))
    said("a pipe that ends at once", (2, b"refused: model at 0: syntax\n", b""), fed(["check", "-", term], []))
    row("a folder", ["check", at, term], 4)
    row("a file that isn't there", ["check", at / "none", term], 4)
    row("the second file isn't there", ["report", at / "model", at / "none"], 4)
    row("a lemma that isn't there", ["link", at / "model", at / "open", at / "none", at / "out"], 4)
    row("a strategy that isn't there", ["prove", at / "model", at / "none", at / "out"], 4)
    said("writes no file", False, (at / "out").exists())
    row("an empty name", ["print", ""], 4)
    row("a device without end", ["print", "zero"], 2, b"refused: too-long zero\n", cwd=at)
    said("standard input that is closed", (4, b"", told(4, ["print", "-"])), by_shell(["print", "-"], "<&-"))
    (at / "m").write_bytes(MODEL)
    (at / "t").write_bytes(IN_FULL)
    row("names of one letter", ["check", "m", "t"], 0, REPORT, cwd=at)
    row("an output with a name of one letter", ["convert", "t", "o"], 0, REPORT, cwd=at)
    said("is written", BY_NODES, held(at / "o"))
    row("an output that is the input", ["convert", "t", "t"], 0, REPORT, cwd=at)
    said("is written anew", BY_NODES, held(at / "t"))
    name = at / ("n" * 200)
    name.write_bytes(MODEL)
    row("a name of 200 bytes", ["check", name, term], 0, REPORT)
    if os.geteuid() != 0:
        (at / "locked").write_bytes(MODEL)
        (at / "locked").chmod(0)
        row("a file without leave", ["print", at / "locked"], 4)


def commands(at):
    """Each command once: what it prints, and that no file changes but the one that it writes."""
    out = at / "new"
    for file, text in {
        "script": b"apply 1 implyR(1)\r\napply 1 close\nsave\nundo",
        "split": b"1 start ==> x>=0 -> x>=0\n2 axiom K\n3 apply 1 1 implyR(1)\n4 apply 3 1 close(1,1)\ndone\n",
        "unsound": UNSOUND, "dforall": b"1 axiom Dforall\ndone\n", "le": b"x>=0", "leaf": b"1 leaf ==> x>=0\ndone\n",
        "atom": b"p(x)", "pairs": b"p(._0)~>._0>=1",
    }.items():
        (at / file).write_bytes(text)
    script = b"; leaf 1\n(set-logic NRA)\n(declare-const |v.x| Real)\n(assert (not (>= |v.x| 0.0)))\n(check-sat)\n"
    unguarded = b"unguarded line 1: dforall\nclosed\nconclusion ==> " + UNSOUND + b"\ngoals 0\nleaves 0\nlines 1\n"
    for name, words, status, printed, written in (
        ("check", ["check", "model", "term"], 0, REPORT, None),
        ("report", ["report", "model", "term"], 0, JSON, None),
        ("smt", ["smt", "le", "leaf"], 0, script, None),
        ("guard", ["guard", "model", "term"], 0, b"guarded\n" + REPORT, None),
        ("guard of goals that are left", ["guard", "model", "open"], 1, b"guarded\n" + OPEN_REPORT, None),
        ("guard of an unguarded term", ["guard", "unsound", "dforall"], 0, unguarded, None),
        ("prove", ["prove", "model", "strategy", out], 0, REPORT, BY_NODES),
        ("session", ["session", "model", "script", out], 1, b"ok goals 1\nok goals 0\nsaved 3\nok goals 1\n", BY_NODES),
        ("convert", ["convert", "term", out], 0, REPORT, BY_NODES),
        ("link", ["link", "model", "open", "term", out], 0, REPORT.replace(b"lines 3", b"lines 5"), LINKED),
        ("trim", ["trim", "model", "split", out], 0, REPORT, BY_NODES),
        ("print", ["print", "model"], 0, MODEL, None),
        ("vars", ["vars", "model"], 0, b"free: x\nbound: none\nmust: none\nsymbols: none\n", None),
        ("subst", ["subst", "atom", "pairs"], 0, b"x>=1\n", None),
        ("gen", ["gen", "1"], 0, b"generated 1\nlines 15\nleaves 1\nclosed\n", None),
    ):
        out.unlink(missing_ok=True)
        before = files(at)
        row(name, words, status, printed, cwd=at)
        after = files(at)
        said(f"{name} writes", written, after.pop(out.name, None))
        said(f"{name} changes nothing else", [], sorted(it for it in before.keys() | after if before.get(it) != after.get(it)))
        row(f"{name} with a word more", [*words, "more"], 3, WORDS, cwd=at)
        if written:
            writes(at, name, words[:-1], status, printed, written)


def files(at):
    """The files of a folder, with their bytes."""
    return {it.name: it.read_bytes() for it in at.iterdir() if it.is_file()}


def writes(at, verb, words, status, printed, written):
    """Where a command writes, and where it doesn't; `written` is what it must write."""
    out = at / "other"
    row(f"{verb} to a name of 200 bytes", [*words, "w" * 200], status, printed, cwd=at)
    said(f"{verb} writes it", written, held(at / ("w" * 200)))
    out.write_bytes(b"an older and longer text\n" * 1000)
    row(f"{verb} to an older file", [*words, out], status, printed, cwd=at)
    said(f"{verb} replaces it", written, held(out))
    row(f"{verb} to a full device", [*words, at / "full"], 5, cwd=at)
    row(f"{verb} to a folder", [*words, at], 5, cwd=at)
    row(f"{verb} to -", [*words, "-"], 5, cwd=at)
    row(f"{verb} to no such folder", [*words, at / "none" / "out"], 5, cwd=at)
    row(f"{verb} without its last word", words, 3, WORDS, cwd=at)
    row(f"{verb}, and an input isn't there", [verb, "none", *words[2:], out], 4, cwd=at)
    said(f"{verb} leaves the older file", written, held(out))
    out.unlink(missing_ok=True)
    with open("/dev/full", "wb") as full:
        status, _, errors = run([*words, out], cwd=at, stdout=full)
        said(f"{verb} on a full standard output", (5, cut([verb, out])), (status, errors))
    said(f"but what {verb} writes is whole", written, held(out))


def outputs(at):
    """Full devices, a closed standard output, and standard error."""
    out, check = at / "out", ["check", at / "model", at / "term"]
    with open("/dev/full", "wb") as full:
        said("a full standard output", (5, CUT), printing_to(check, full))
        said("a refusal on a full standard output", (5, CUT), printing_to(["nonsense"], full))
        status, printed, _ = run(["nonsense"], stderr=full)
        said("a full standard error", (3, WORDS), (status, printed))
    said("a standard output that is closed", (5, b"", CUT), by_shell(["print", at / "model"], ">&-"))
    said("a standard error that is closed", (3, WORDS, b""), by_shell(["nonsense"], "2>&-"))
    ours, theirs = os.pipe()
    os.close(ours)
    said("a pipe that nobody reads", (5, CUT), printing_to(check, theirs))
    os.close(theirs)
    (at / "bad").write_bytes(b"andR(1)\n")
    row("a refused strategy", ["prove", at / "model", at / "bad", out], 2, b"refused: fails at 0: WrongShape\n")
    said("writes no file", False, out.exists())
    refused(at, out)
    small(at)


def closed(at):
    """Streams that are closed before the program starts. The system gives their places to what is opened next, and no file may be taken for a stream."""
    out = at / "closed-out"
    for streams, ended in {
        "<&-": (0, REPORT, b""),
        ">&-": (5, b"", cut(["prove", out])),
        "2>&-": (0, REPORT, b""),
        ">&- 2>&-": (5, b"", b""),
        "<&- >&- 2>&-": (5, b"", b""),
        ">/dev/full 2>&-": (5, b"", b""),
    }.items():
        out.unlink(missing_ok=True)
        said(f"prove with {streams}", ended, by_shell(["prove", at / "model", at / "strategy", out], streams))
        said("but what it writes is whole", BY_NODES, held(out))
    row("a term that was written so", ["check", at / "model", out], 0, REPORT)


def small(at):
    """A file system that is full in the middle of the term, where one can be had."""
    disk = at / "disk"
    disk.mkdir()
    if subprocess.run(["mount", "-t", "tmpfs", "-o", "size=4k", "tmpfs", disk], stderr=subprocess.DEVNULL, check=False).returncode != 0:
        print("a file system that is full: not tried, there is no leave to make one")
        return
    try:
        (at / "long").write_bytes(b"nil;" * 10 + b'cut("' + b"a" * 8000 + b'>=0")')
        row("a file system that is full", ["prove", at / "model", at / "long", disk / "out"], 5)
        wrote = held(disk / "out") or b""
        said("a front is written", True, 0 < len(wrote) <= 4096 and wrote.startswith(b"dlk 2\n"))
    finally:
        subprocess.run(["umount", disk], check=False)


def refused(at, out):
    """What writes no file."""
    (at / "cut").write_bytes(BY_NODES[:-5])
    (at / "undone").write_bytes(b"apply 1 implyR(1)\nundo\nundo\nshow\n")
    (at / "none").write_bytes(b"aply 1 nil\n")
    for verb, words, status, printed in (
        ("convert", ["convert", at / "cut"], 2, b"refused: line 9: NoEnd\n"),
        ("trim", ["trim", at / "model", at / "cut"], 2, b"refused: line 9: NoEnd\n"),
        ("link", ["link", at / "model", at / "open", at / "cut"], 2, b"refused: lemma line 9: NoEnd\n"),
        ("link", ["link", at / "model", at / "term", at / "term"], 2, b"refused: no-goal\n"),
        ("session", ["session", at / "model", at / "none"], 2, b"refused: script line 1\n"),
        ("session", ["session", at / "model", at / "undone"], 1, b"ok goals 1\nok goals 1\nnothing\n" + OPEN_REPORT),
    ):
        row(f"{verb}, {printed.splitlines()[0].decode()}", [*words, out], status, printed)
        said("writes no file", False, out.exists())


def pieces(at):
    """Texts that are longer than what is read or printed in one call, and streams that take a part of them."""
    text = "&".join(f"{it}>=0" for it in NAMES)
    (at / "long").write_text(text)
    (at / "long-term").write_text(f"1 leaf ==> {text}\ndone\n")
    comparisons = [f"(>= |v.{it}| 0.0)" for it in NAMES]
    conjunction = "".join(f"(and {it} " for it in comparisons[:-1]) + comparisons[-1] + ")" * (len(NAMES) - 1)
    constants = "".join(f"(declare-const |v.{it}| Real)\n" for it in NAMES)
    script = f"; leaf 1\n(set-logic NRA)\n{constants}(assert (not {conjunction}))\n(check-sat)\n"
    words = [at / "long", at / "long-term"]
    row("a long text", ["print", at / "long"], 0, f"{text}\n".encode())
    row("a long text by standard input", ["print", "-"], 0, f"{text}\n".encode(), given=text.encode())
    row("a long script", ["smt", *words], 0, script.encode())
    row("a long report", ["check", *words], 0, f"closed\nconclusion ==> {text}\ngoals 0\nleaves 1\nleaf 1 ==> {text}\nlines 1\n".encode())
    json = f'{{"conclusion":"==> {text}","goals":[],"leaves":["==> {text}"],"lines":1,"status":"closed"}}\n'.encode()
    row("a long report as JSON", ["report", *words], 0, json)
    status, _, errors = run(["convert", at / "long-term", at / "long-out"])
    said("a long term", (0, b"", by_nodes()), (status, errors, held(at / "long-out")))
    said("a pipe that is full", True, full_pipe(["report", *words], json))
    said("a pipe that takes a part first", (0, json, b""), stopped(["report", *words]))
    size = 5000
    how = {"restore_signals": False, "preexec_fn": lambda: resource.setrlimit(resource.RLIMIT_FSIZE, (size, size))}
    with open(at / "printed", "wb") as printed:
        status, _, errors = run(["report", *words], stdout=printed, **how)
    said("a standard output that may be no longer", (5, CUT, json[:size]), (status, errors, held(at / "printed")))
    row("an output that may be no longer", ["convert", at / "long-term", at / "long-out"], 5, **how)
    said("an output that may be no longer has a front", by_nodes()[:size], held(at / "long-out"))


def by_nodes():
    """The long term in version 2."""
    last = len(NAMES) - 1
    lines = ["dlk 2", f"node 1 var {NAMES[0]}", "node 2 num 0", "node 3 ge 1 2"]
    for i, name in enumerate(NAMES[1:], start=2):
        lines += [f"node {2 * i} var {name}", f"node {2 * i + 1} ge {2 * i} 2"]
    whole = 2 * last + 3
    for i in range(last, 0, -1):
        lines.append(f"node {whole + 1} and {2 * i + 1} {whole}")
        whole += 1
    return "\n".join([*lines, f"1 leaf ==> {whole}", "done", ""]).encode()


def short_pipe():
    """Both ends of a pipe that holds as little as there may be, and how much that is."""
    ours, theirs = os.pipe()
    return ours, theirs, fcntl.fcntl(theirs, fcntl.F_SETPIPE_SZ, 1)


def full_pipe(words, printed):
    """Whether a pipe that doesn't wait gets as much of what must be printed as it holds, and the run ends as one that couldn't print all."""
    ours, theirs, size = short_pipe()
    os.set_blocking(theirs, False)
    status, _, errors = run(words, stdout=theirs)
    os.close(theirs)
    with open(ours, "rb") as pipe:
        return size < len(printed) and (status, errors, pipe.read()) == (5, CUT, printed[:size])


def stopped(words):
    """What comes of a run that prints more than its pipe holds, and that is stopped and goes on once the pipe is full. The system ends the
    call in which it waits with what was taken so far."""
    ours, theirs, size = short_pipe()
    program = subprocess.Popen([DLK, *words], stdin=subprocess.DEVNULL, stdout=theirs, stderr=subprocess.PIPE)
    os.close(theirs)
    with open(ours, "rb") as pipe:
        while int.from_bytes(fcntl.ioctl(pipe, termios.FIONREAD, bytes(4)), sys.byteorder) < size and program.poll() is None:
            time.sleep(0.01)
        if program.poll() is None:
            program.send_signal(signal.SIGSTOP)
            os.waitpid(program.pid, os.WUNTRACED)
            program.send_signal(signal.SIGCONT)
        printed = pipe.read()
    errors = program.stderr.read()
    return program.wait(), printed, errors


def scarce(at):
    """Runs where memory is scarce. A program that was built without proof has a sanitizer, which takes the addresses of all memory: there it is told
    to refuse what is large."""
    with open(at / "zeros", "wb") as zeros:
        zeros.truncate(60_000_000)
    how = {"preexec_fn": lambda: resource.setrlimit(resource.RLIMIT_AS, (48 << 20, 48 << 20))}
    if b"ASAN_OPTIONS" in pathlib.Path(DLK).read_bytes():
        options = f"max_allocation_size_mb=8:allocator_may_return_null=1:log_path={at / 'sanitizer'}"
        how = {"env": {**os.environ, "ASAN_OPTIONS": options}}
    row("a short term where memory is scarce", ["check", at / "model", at / "term"], 0, REPORT, **how)
    row("a long term there", ["check", at / "model", at / "zeros"], 6, **how)


def words(at):
    """Words of no form."""
    for name, given in {
        "no words": [],
        "an empty word": [""],
        "a word more": ["print", at / "model", "more"],
        "a verb in capitals": ["PRINT", at / "model"],
        "-- before the verb": ["--", "print", at / "model"],
        "gen 0": ["gen", "0"],
        "gen 501": ["gen", "501"],
        "gen 01": ["gen", "01"],
    }.items():
        row(name, given, 3, WORDS)
    row("a word that isn't UTF-8", ["print", b"\xff"], 3, WORDS)


def seen(bug):
    """What came of a bug: the first row that doesn't come out as wanted, if there is one."""
    with tempfile.TemporaryDirectory() as name:
        room = pathlib.Path(name)
        shutil.copytree(TOP, room / "copy", ignore=shutil.ignore_patterns("out", ".git", "__pycache__"))
        try:
            for file, text in consistent.changed(room / "copy", bug).items():
                (room / "copy" / file).write_text(text)
            consistent.build(room / "copy", room / "program", room / "rooms")
        except consistent.Broken as why:
            return f"bad: {why}"
        # such a program may write where it mustn't
        how = {"cwd": room, "env": {**os.environ, "DLK": str(room / "program")}}
        ran = subprocess.run([sys.executable, pathlib.Path(__file__).resolve()], capture_output=True, text=True, check=False, **how)
        wrong = next((line for line in ran.stdout.splitlines() if ": wanted " in line), "")
        return f"seen by {wrong.partition(': wanted ')[0]}" if wrong else "NOT SEEN" if ran.returncode == 0 else "bad: the rows can't be run"


def try_bugs(names, jobs=2):
    """Prints what came of these bugs, or of each, two at a time, since each build takes much memory."""
    bugs = [it for it in sorted((TOP / "bench" / "edges").glob("*.edit")) if it.stem in names or not names]
    with ThreadPoolExecutor(jobs) as lanes:
        found = list(zip(bugs, lanes.map(seen, bugs)))
    for bug, come in found:
        print(f"{bug.stem}: {come}", flush=True)
    return 0 if all(come.startswith("seen by ") for _, come in found) else 1


def main():
    """Prints a line for each row."""
    parser = argparse.ArgumentParser(description=__doc__, formatter_class=argparse.RawDescriptionHelpFormatter)
    parser.add_argument("--bugs", nargs="*", metavar="NAME", help="try the files of bench/edges, or those named")
    given = parser.parse_args()
    if given.bugs is not None:
        return try_bugs(given.bugs)
    with tempfile.TemporaryDirectory() as name:
        at = pathlib.Path(name)
        for file, text in {"model": MODEL, "term": IN_FULL, "open": OPEN_TERM, "strategy": b"implyR(1); close\n"}.items():
            (at / file).write_bytes(text)
        # by links, since a bug that removes what it reads is to remove no device
        for device in ("zero", "full"):
            (at / device).symlink_to(f"/dev/{device}")
        commands(at)
        inputs(at)
        outputs(at)
        closed(at)
        pieces(at)
        scarce(at)
        words(at)
    print(f"{len(faults)} not as wanted")
    return 1 if faults else 0


if __name__ == "__main__":
    raise SystemExit(main())
