"""What the tests of the tools share: the program, files of a test, and solvers that say what a test wants."""

import contextlib
import os
import signal
import subprocess
import sys
import tempfile
import traceback
import unittest
import warnings
from pathlib import Path

ROOT = Path(__file__).resolve().parent.parent
sys.path[:0] = [str(ROOT / "src"), str(ROOT / "dev")]
sys.setrecursionlimit(60_000)

from dlkt import cli, program  # noqa: E402  (behind the path)

# The tools need the standard library alone, and begin faster without the rest.
PYTHON = [sys.executable, "-S"]
PROGRAM = os.environ.get("DLK") or str(program.BUILT)


def is_built():
    """Whether the program is there."""
    return os.access(PROGRAM, os.X_OK)


needs_program = unittest.skipUnless(is_built(), "the program isn't built")

CHOICE = "0<=v & v<=M() -> [?v+1<=M(); v:=v+1; ++ v:=0;]v<=M()\n"
CLOSES_CHOICE = "implyR(1); step(1); andR(1); <(step(1)*2; implyR(1); step(1); close, step(1); leaf)\n"
BRAKE = "v <= M() & B() > 0 -> [{ x' = v, v' = -B() }]v <= M()\n"
CLOSES_BRAKE = "implyR(1); andL(-1);\ndI(1); <(\n  close,\n  derive(1.1); useAt(DEsys,1)*2; step(1.1)*2; useAt(V,1); leaf\n)\n"
INCREMENT = "x>=0 -> [x:=x+1;]x>=1\n"
CLOSES_INCREMENT = "implyR(1); step(1); leaf\n"


def run_and_exit(words, out, complaint):
    """Runs a tool in this process, which ends with it."""
    signal.alarm(100)
    status = 1
    try:
        warnings.simplefilter("ignore")  # those that unittest asks for
        for number, file in enumerate((os.open(os.devnull, os.O_RDONLY), out.fileno(), complaint.fileno())):
            os.dup2(file, number)
        sys.stdout, sys.stderr = (open(number, "w", encoding="utf-8", closefd=False) for number in (1, 2))
        status = cli.main(words)
    except SystemExit as end:
        status = end.code or 0
    except BaseException:
        traceback.print_exc()
    finally:
        sys.stdout.flush()
        sys.stderr.flush()
        os._exit(status)


class Case(unittest.TestCase):
    """A test with a folder of its own."""

    def setUp(self):
        folder = tempfile.TemporaryDirectory()
        self.addCleanup(folder.cleanup)
        self.folder = Path(folder.name)
        self.solvers = None

    def file(self, name, text):
        """A file of this text; its name."""
        path = self.folder / name
        path.write_bytes(text if isinstance(text, bytes) else text.encode())
        return str(path)

    def solver(self, name, *lines, version="1.2.3"):
        """A solver that gives these lines as its answer and, behind the first one, its values, whatever it is asked."""
        said = [*lines, ""]
        model = "\n".join(f"echo '{line}'" for line in said[1:] if line) or ":"
        self.script_of_solver(name, f"""if [ "$1" = --version ]; then echo "version {version}"; exit; fi
while read -r line; do
  case $line in
    "(check-sat)") echo '{said[0]}';;
    "(get-model)") {model};;
    "(echo "*) line=${{line#*\\"}}; echo "${{line%%\\"*}}";;
  esac
done
""")

    def script_of_solver(self, name, text):
        """A solver that is this script of the shell."""
        if self.solvers is None:
            self.solvers = self.folder / "solvers"
            self.solvers.mkdir()
        script = self.solvers / name
        script.write_text(f"#!/bin/sh\n{text}")
        script.chmod(0o755)

    def environment(self):
        """That of a tool: the solvers are those of the test, and the program is the one that is tested."""
        return {**os.environ, "PATH": str(self.solvers or "/nowhere"), "DLK": PROGRAM, "PYTHONPATH": str(ROOT / "src")}

    def tool(self, name, *words):
        """How a tool ends: its status and what it printed. It may never show a trace. It runs in a process of its own, which is a copy of this
        one, so that it begins with what it imports."""
        with tempfile.TemporaryFile() as out, tempfile.TemporaryFile() as complaint:
            child = os.fork()
            if child == 0:
                os.chdir(self.folder)
                os.environ.clear()
                os.environ.update(self.environment())
                run_and_exit([name, *map(str, words)], out, complaint)
            status = os.waitstatus_to_exitcode(os.waitpid(child, 0)[1])
            texts = []
            for file in (out, complaint):
                file.seek(0)
                texts.append(file.read().decode())
        self.assertNotIn("Traceback", texts[1])
        return subprocess.CompletedProcess([name, *words], status, *texts)

    @contextlib.contextmanager
    def started(self, name, *words):
        """A tool that runs while the test goes on. Control-C ends it also where the tests run behind a shell's `&`, which ignores it."""
        process = subprocess.Popen(
            [*PYTHON, "-m", "dlkt", name, *map(str, words)],
            stdout=subprocess.PIPE, stderr=subprocess.PIPE, text=True, env=self.environment(), cwd=self.folder,
            preexec_fn=lambda: signal.signal(signal.SIGINT, signal.SIG_DFL),
        )
        try:
            yield process
        finally:
            process.kill()
            process.communicate()
