#!/usr/bin/env python3
"""What the program answers where one allocation fails: each in turn, and from each on all.

A small library in front of the C library's refuses the allocation of a number. Each run must end with the whole answer, or with nothing
printed, no file and status 6, or 4 where the memory was wanted by the desk for an input, or 7 where it was for the words; or with status 5
and a front of the answer where the desk wanted it for what goes out. Run it after `./dlk` has built the program; another one is named by
DLK. It needs a C compiler.
"""
import collections
import os
import pathlib
import subprocess
import tempfile
import typing

from common import PROGRAM, TOP, knows, words_of
from versioned import by_nodes, outputs_of

LIBRARY = r"""
#define _GNU_SOURCE
#include <dlfcn.h>
#include <errno.h>
#include <stdlib.h>
#include <unistd.h>
static long calls, first, last;
static int refused(void) {
  if (!first) {
    const char *from = getenv("REFUSE_FROM"), *to = getenv("REFUSE_TO");
    first = from ? atol(from) : -1;
    last = to ? atol(to) : -1;
  }
  calls++;
  if (calls < first || calls > last) return 0;
  if (write(2, "refused\n", 8) < 0) abort();
  errno = ENOMEM;
  return 1;
}
void *malloc(size_t n) {
  static void *(*real)(size_t);
  if (!real) real = dlsym(RTLD_NEXT, "malloc");
  return refused() ? 0 : real(n);
}
void *realloc(void *p, size_t n) {
  static void *(*real)(void *, size_t);
  if (!real) real = dlsym(RTLD_NEXT, "realloc");
  return refused() ? 0 : real(p, n);
}
void *aligned_alloc(size_t a, size_t n) {
  static void *(*real)(size_t, size_t);
  if (!real) real = dlsym(RTLD_NEXT, "aligned_alloc");
  return refused() ? 0 : real(a, n);
}
int posix_memalign(void **p, size_t a, size_t n) {
  static int (*real)(void **, size_t, size_t);
  if (!real) real = dlsym(RTLD_NEXT, "posix_memalign");
  return refused() ? ENOMEM : real(p, a, n);
}
"""
INCREMENT = TOP / "examples/increment"
LOOP = (
    "v>=0 & A>0 -> [{{a:=A;++a:=0;}{x'=v,v'=a&v>=0}}*@invariant(v>=0)]v>=0\n",
    'implyR(1); loop("v>=0",1); <(leaf,\n'
    "  useAt(composeb,1); useAt(choiceb,1); andR(1); useAt(assignb,1); dW(1); leaf,\n  leaf)\n",
)
# `f` forty times round `x`, which is a term of 2^40 nodes where `f` doubles
DOUBLED = "f(" * 40 + "x" + ")" * 40
CASES = (
    ("closed", "check", ("x>=0 -> x>=0\n", "1 start ==> x>=0 -> x>=0\n2 apply 1 1 implyR(1)\n3 apply 2 1 close(1,1)\ndone\n")),
    ("another conclusion", "check", ("x>=1\n", "1 start ==> x>=0\ndone\n")),
    ("JSON", "report", ((INCREMENT / "model").read_text(), (INCREMENT / "term").read_text())),
    ("a differential invariant", "check", ((TOP / "examples/invariant/model").read_text(), (TOP / "examples/invariant/term").read_text())),
    ("a strategy", "prove", ((INCREMENT / "model").read_text(), (INCREMENT / "strategy").read_text())),
    ("a strategy with a loop", "prove", LOOP),
    ("a result that is too big", "subst", (f"{DOUBLED}>=0\n", "f(._0)~>._0+._0\n")),
    ("a big argument that is dropped", "subst", (f"g({DOUBLED})>=0\n", "f(._0)~>._0+._0, g(._0)~>1\n")),
    ("a big argument below a quantifier", "subst", (f"p({DOUBLED})\n", "f(._0)~>._0+._0, p(._0)~>\\exists z z>._0\n")),
)
IN_FULL = "1 start ==> x>=0 -> x>=0\n2 apply 1 1 implyR(1)\n3 apply 2 1 close(1,1)\ndone\n"
SPLIT = "1 start ==> (x>=0 -> x>=0)&(x>=0 -> x>=0)\n2 apply 1 1 andR(1)\ndone\n"
TWICE = "(x>=0 -> x>=0)&(x>=0 -> x>=0)\n"


def newer_cases():
    """Terms of version 2, and the commands that make terms of terms, where the program has them."""
    if not knows("convert"):
        return
    for title, verb, (model, term) in CASES:
        if verb in ("check", "report"):
            yield f"{title}, by nodes", verb, (model, by_nodes(term)[0])
    yield "a term of version 1", "convert", (IN_FULL,)
    yield "a differential invariant", "convert", ((TOP / "examples/invariant/term").read_text(),)
    if knows("link"):
        yield "a lemma for both goals", "link", (TWICE, SPLIT, by_nodes(IN_FULL)[0])
        yield "no goal for the lemma", "link", (TWICE, SPLIT, "1 start ==> x>=1\ndone\n")
        yield "a term with lines that nothing needs", "trim", ("x>=0 -> x>=0\n", IN_FULL.replace("3 apply", "3 axiom K\n4 apply"))
    if knows("session"):
        lines = ("apply 1 implyR(1)", "apply 1 andR(1)", "apply 2 nil", "apply 1 close", "undo", "show", "apply 1 close", "save", "")
        yield "a session", "session", ("x>=0 -> x>=0\n", "\n".join(lines))


SILENT = (4, 6, 7)
# the tests of the program as a program, where `rt test` in crates/dlk has built it; and one that says of each run over a desk in memory
# whether it keeps its word
TESTS = pathlib.Path(os.environ.get("DLK_TESTS", PROGRAM.with_name("dlk_tests")))
TEST = "tests::starving::answers_whole_or_nothing"


class Ended(typing.NamedTuple):
    """A run: its status, what it printed, and the bytes of the file that it wrote, or none."""

    status: int
    printed: bytes
    written: bytes | None


def ended(words, output, refused=None):
    """A run with these words, in which the allocations that are named are refused."""
    output.unlink(missing_ok=True)
    run = subprocess.run(words, capture_output=True, check=False, env={**os.environ, **(refused or {})})
    return Ended(run.returncode, run.stdout, output.read_bytes() if output.exists() else None)


def kind_of(run, whole):
    """A word for how the run ended, or none where it may not end so: with the whole answer, with nothing at all, or with status 5 and a
    front of the answer, the file first."""
    if run == whole:
        return "the whole answer"
    if run.status in SILENT and run.printed == b"" and run.written is None:
        return f"status {run.status}"
    wanted = whole.written or b""
    is_front = wanted.startswith(run.written or b"") and whole.printed.startswith(run.printed)
    if run.status == 5 and is_front and (run.printed == b"" or run.written == whole.written):
        return "status 5"
    return None


def refuse_each(title, words, output, library):
    """Refuses each allocation of a run in turn, then all from each on, until 50 in a row aren't noticed, and prints how often each end came."""
    whole = ended(words, output)
    answers = collections.Counter()
    for single in (True, False):
        number = unnoticed = 0
        while unnoticed < 50:
            number += 1
            last = number if single else 1 << 40
            run = ended(words, output, {"REFUSE_FROM": str(number), "REFUSE_TO": str(last), "LD_PRELOAD": str(library)})
            kind = kind_of(run, whole)
            if kind is None:
                raise SystemExit(f"starved.py: {title}, allocation {number}: status {run.status}, {run.printed[:200]}")
            unnoticed = unnoticed + 1 if run == whole else 0
            answers[kind] += 1
    print(f"{title}: " + ", ".join(f"{answer} {count} times" for answer, count in sorted(answers.items())), flush=True)


def refuse_each_of_test(library):
    """Refuses each allocation of the test in turn. It must pass, or want memory itself, before or behind a run of the program."""
    answers = collections.Counter()
    number, is_refused = 0, True
    while is_refused:
        number += 1
        limits = {"REFUSE_FROM": str(number), "REFUSE_TO": str(number), "LD_PRELOAD": str(library)}
        run = subprocess.run([TESTS, TEST], capture_output=True, check=False, env={**os.environ, **limits})
        is_refused = b"refused" in run.stderr
        if run.returncode == 0:
            answers["each run keeps its word"] += 1
        elif b"error: AllocError" in run.stderr:
            answers["the test itself wants memory"] += 1
        else:
            raise SystemExit(f"starved.py: the test, allocation {number}: {(run.stdout + run.stderr)[:200]}")
    print("a desk in memory: " + ", ".join(f"{answer} {count} times" for answer, count in sorted(answers.items())), flush=True)


def main():
    """Prints for each case how often each status came."""
    words_of(__doc__)
    with tempfile.TemporaryDirectory() as name:
        folder = pathlib.Path(name)
        (folder / "refuse.c").write_text(LIBRARY)
        library = folder / "refuse.so"
        subprocess.run(["cc", "-shared", "-fPIC", "-o", library, folder / "refuse.c", "-ldl"], check=True)
        for title, verb, texts in (*CASES, *newer_cases()):
            inputs = [folder / str(k) for k in range(len(texts))]
            for path, text in zip(inputs, texts):
                path.write_text(text)
            output = folder / "output"
            refuse_each(title, [PROGRAM, verb, *inputs, *outputs_of(verb, output.parent)], output, library)
        if TESTS.exists():
            refuse_each_of_test(library)


if __name__ == "__main__":
    main()
