"""What the scripts of this folder share: where the program is, and how a run is timed and measured.

The program is that of `./dlk`, or the one that DLK names.
"""
import argparse
import functools
import os
import pathlib
import resource
import subprocess
import time
import typing

TOP = pathlib.Path(__file__).resolve().parent.parent
PROGRAM = pathlib.Path(os.environ.get("DLK", TOP / "crates" / "dlk" / "out" / "dlk"))
# a small program that runs another one, since a process that Python starts counts Python's memory as its own
MEASURER = r"""
#define _DEFAULT_SOURCE
#include <stdio.h>
#include <sys/resource.h>
#include <sys/wait.h>
#include <unistd.h>
static double of(struct timeval t) { return t.tv_sec + t.tv_usec / 1e6; }
int main(int count, char **words) {
  pid_t child = fork();
  if (child == 0) {
    execvp(words[2], words + 2);
    _exit(127);
  }
  int status;
  struct rusage used;
  FILE *to = fopen(words[1], "w");
  if (child < 0 || !to || wait4(child, &status, 0, &used) != child) return 1;
  fprintf(to, "%d %f %ld", status, of(used.ru_utime) + of(used.ru_stime), used.ru_maxrss);
  return fclose(to) != 0;
}
"""


class Measured(typing.NamedTuple):
    """A run: its status, below 0 for a signal, what it printed, its processor time and its peak of memory in bytes."""

    status: int
    printed: bytes
    seconds: float
    peak: int


def words_of(told, behind=""):
    """The words of a script's command line, which are none where it takes none. `--help` prints what the script tells of itself, and does nothing
    else."""
    parser = argparse.ArgumentParser(description=told, formatter_class=argparse.RawDescriptionHelpFormatter)
    if behind:
        parser.add_argument("words", nargs="*", metavar=behind)
    return getattr(parser.parse_args(), "words", [])


def answer(*words, program=PROGRAM):
    """What the program answers to these words: the run, with its status and what it printed."""
    return subprocess.run([program, *words], capture_output=True, check=False)


@functools.cache
def knows(verb, program=PROGRAM):
    """Whether the program has a command of this name: it tells its usages where the words are wrong."""
    return f"  dlk {verb} " in answer(program=program).stderr.decode(errors="replace")


def converted(term, out, program=PROGRAM):
    """A term file in version 2, made by the program: the path of `out`."""
    run = answer("convert", term, out, program=program)
    if run.returncode not in (0, 1):
        raise SystemExit(f"convert {term}: status {run.returncode}, {run.stdout[:200]!r}")
    return out


def steps_of(path):
    """How many steps a term file of either version has."""
    return sum(line[:1].isdigit() for line in path.read_bytes().split(b"\n"))


def spent_by_children():
    """The processor time of all programs that were run."""
    usage = resource.getrusage(resource.RUSAGE_CHILDREN)
    return usage.ru_utime + usage.ru_stime


def least(clock, runs, words, accepts, program=PROGRAM):
    """The least time of some runs by a clock. Each answer must be accepted."""
    best = float("inf")
    for _ in range(runs):
        begin = clock()
        run = answer(*words, program=program)
        best = min(best, clock() - begin)
        if not accepts(run):
            raise SystemExit(f"{words}: status {run.returncode}, {run.stdout[:200]!r}")
    return best


def least_processor_time(runs, words, accepts, program=PROGRAM):
    """The least processor time of some runs."""
    return least(spent_by_children, runs, words, accepts, program)


def least_time(runs, words, accepts):
    """The least time of some runs."""
    return least(time.perf_counter, runs, words, accepts)


def measurer(folder):
    """The small program that runs another one, and writes what it took to a file. It needs a C compiler."""
    (folder / "measurer.c").write_text(MEASURER)
    program = folder / "measurer"
    subprocess.run(["cc", "-o", program, folder / "measurer.c"], check=True)
    return program


def measured(program, words, limits=()):
    """A run of these words by the small program, under limits of the system: pairs of a limit of `resource` and its number."""

    def limit():
        for which, most in limits:
            resource.setrlimit(which, (most, most))

    used = program.parent / "used"
    run = subprocess.run([program, used, *words], stdout=subprocess.PIPE, stderr=subprocess.STDOUT, check=True, preexec_fn=limit)
    status, seconds, kilobytes = used.read_text().split()
    return Measured(os.waitstatus_to_exitcode(int(status)), run.stdout, float(seconds), int(kilobytes) * 1024)
