#!/usr/bin/env python3
"""What `dlk print` answers to long, deep and nested files, with the time of each run against that of a short file; and what the commands that write a
term answer just within a limit and just past it, where that takes too long for a test.

Run it after `./dlk` has built the program. The first answer that isn't what it must be ends it, with status 1.
"""
import pathlib
import tempfile
import time
import typing

from common import answer, words_of

MOST_BYTES = 1_048_576
MOST_BYTES_OF_A_TERM = 67_108_864
MOST_LINES = 400_000


class Written(typing.NamedTuple):
    """A run of a command that writes the file `out`: its words and files, its status, how what it prints begins or ends, and how many bytes it
    writes, where that is said: 0 where it writes no file."""

    title: str
    words: list[str]
    files: dict[str, bytes]
    status: int
    begins: str
    ends: str
    written: int | None


def nested(levels, inside):
    """The text in so many brackets."""
    return "(" * levels + inside + ")" * levels


def sums(depth):
    """A term of 2 to the power of the depth leaves."""
    if depth == 0:
        return "x"
    half = sums(depth - 1)
    return f"({half}+{half})"


def cases():
    """A title, a file, the status, and what is printed, where it is short."""
    yield "a short file", "x>=0", 0, "x>=0\n"
    yield "spaces up to the limit", "x>=0".ljust(MOST_BYTES), 0, "x>=0\n"
    yield "one byte more", "x>=0".ljust(MOST_BYTES + 1), 2, None
    yield "a comment up to the limit", "x>=0/*" + "*" * (MOST_BYTES - 8) + "*/", 0, "x>=0\n"
    yield "an open comment up to the limit", "/*".ljust(MOST_BYTES), 2, "refused: file at 0: byte\n"
    yield "1,200 brackets round a formula", nested(1200, "x>=0"), 0, "x>=0\n"
    yield "1,200 brackets round a term", nested(1200, "x") + ">=0", 0, "x>=0\n"
    yield "1,201 brackets", nested(1201, "x>=0"), 2, "refused: file at 1200: nesting\n"
    yield "brackets up to the limit", "(" * MOST_BYTES, 2, "refused: file at 1200: nesting\n"
    yield "400,000 times <?", "<?" * 400_000, 2, "refused: file at 800000: syntax\n"
    yield "500,000 times !", "!" * 500_000, 2, "refused: file at 500000: syntax\n"
    yield "1,000,000 times ! before true", "!" * 1_000_000 + "true", 2, "refused: file: size 1000001\n"
    yield "65,535 times ! before true", "!" * 65_535 + "true", 2, "refused: file: depth 65536\n"
    yield "65,536 times ! before true", "!" * 65_536 + "true", 2, "refused: file: size 65537\n"
    yield "implications up to the limit", "true" + "->true" * 170_000, 2, "refused: file: size 340001\n"
    yield "sums up to the limit", "x" + "+x" * 524_000, 2, "refused: file: size 1048001\n"
    yield "powers up to the limit", "x" + "^x" * 524_000, 2, "refused: file: size 1048001\n"
    yield "65,535 nodes", sums(15), 0, None
    yield "assignments up to the limit", "x:=1;" * 200_000, 2, "refused: file: size 599999\n"
    yield "a literal up to the limit", "1" * MOST_BYTES, 2, "refused: file at 0: literal\n"
    yield "bytes that begin nothing", "#" * MOST_BYTES, 2, "refused: file at 0: byte\n"
    yield "arguments up to the limit", "f(" + "x," * 500_000 + "x)", 2, "refused: file at 0: shape\n"
    yield "items up to the limit", "{" + "c," * 500_000 + "c}", 2, "refused: file at 0: shape\n"
    evolved = ",".join(f"x{k}'=1" for k in range(100_000))
    yield "distinct items up to the limit", "{" + evolved + "}", 2, "refused: file at 0: shape\n"


def long_terms():
    """Commands that write the longest term that may be, and those whose term would have one byte more. A name takes most of them. In version 2, in
    which they are written, terms take some bytes more than in version 1."""
    model, term = b"f()=f()", b"1 start ==> f()=f()\ndone\n"
    refused = f"refused: term-too-long {MOST_BYTES_OF_A_TERM + 1}\n"
    for verb, words, letters in (
        ("convert", ["long"], 67_108_824),
        ("trim", ["model", "long"], 67_108_824),
        ("link", ["model", "term", "long"], 67_108_769),
    ):
        for more, status, begins, written in ((0, 0, "closed\n", MOST_BYTES_OF_A_TERM), (1, 2, refused, 0)):
            long = b"1 axiom eqrefl\n2 rename 1 x " + b"a" * (letters + more) + b"\ndone\n"
            title = f"{verb} of a term of {len(long)} bytes"
            files = {"model": model, "term": term, "long": long}
            yield Written(title, [verb, *words, "out"], files, status, begins, "", written)
    for letters, status, begins, written in ((29_943, 1, "ok goals 1\nok goals 1\nsaved 512\n", MOST_BYTES_OF_A_TERM), (29_944, 2, refused, 0)):
        script = b"apply 1 (boundR(" + b"a" * 263_000 + b",1);boundR(x,1))*255\napply 1 boundR(" + b"b" * letters + b",1)\nsave\n"
        title = f"session by a script of {len(script)} bytes"
        files = {"model": rb"\forall x x>=0", "script": script}
        yield Written(title, ["session", "model", "script", "out"], files, status, begins, "", written)


def many_lines():
    """A term and a lemma of one line, which one line more merges: as many lines as there may be, and one more."""
    for lines, status, ends, written in ((MOST_LINES - 2, 1, f"\nlines {MOST_LINES}\n", None), (MOST_LINES - 1, 2, "refused: link: LinesFull\n", 0)):
        term = "".join(f"{number} axiom eqrefl\n" for number in range(1, lines)) + f"{lines} start ==> true\ndone\n"
        files = {"model": b"true", "term": term.encode(), "lemma": b"1 start ==> true\ndone\n"}
        yield Written(f"link of a term of {lines} lines", ["link", "model", "term", "lemma", "out"], files, status, "", ends, written)


def try_written(case, folder):
    """Runs a command in a folder, and prints a line. Another answer than the one that it must be ends the script."""
    out = folder / "out"
    out.unlink(missing_ok=True)
    for name, content in case.files.items():
        (folder / name).write_bytes(content)
    begin = time.perf_counter()
    run = answer(case.words[0], *(folder / word for word in case.words[1:]))
    spent = time.perf_counter() - begin
    printed = run.stdout.decode()
    written = out.stat().st_size if out.exists() else 0
    fits = printed.startswith(case.begins) and printed.endswith(case.ends) and case.written in (None, written)
    if run.returncode != case.status or not fits:
        raise SystemExit(f"limits.py: {case.title}: status {run.returncode}, {written} bytes written, {printed[:80]!r} .. {printed[-80:]!r}")
    print(f"{case.title}: {written} bytes written, {spent:.1f} s")


def main():
    """Prints a line for each run."""
    words_of(__doc__)
    base = None
    with tempfile.TemporaryDirectory() as name:
        for case in (*long_terms(), *many_lines()):
            try_written(case, pathlib.Path(name))
        file = pathlib.Path(name) / "file"
        for title, text, status, printed in cases():
            file.write_text(text)
            begin = time.perf_counter()
            run = answer("print", file)
            spent = time.perf_counter() - begin
            base = base or spent
            if run.returncode != status or (printed is not None and run.stdout.decode() != printed):
                raise SystemExit(f"limits.py: {title}: status {run.returncode}, {run.stdout[:80]}")
            print(f"{title}: {len(text)} bytes, {spent / base:.1f} times a short file")


if __name__ == "__main__":
    main()
