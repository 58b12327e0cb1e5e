"""Tests of the launchers ./dlk and ./dlkt, with a toolchain that only says what the toolchain says."""

import os
import re
import shutil
import signal
import subprocess
import sys
import time
import unittest
from pathlib import Path

from helping import ROOT, Case

import dlkt
from dlkt import packages, program

# what rt ci prints, and processes that are begun and wait
RT = """#!/bin/bash
if [ "$1" != ci ]; then exit; fi
echo "rt: low is kept: it was proved before"
(echo $BASHPID >> {mark}; sleep 100; true) >/dev/null 2>&1 &
setsid bash -c 'echo $$ >> {mark}; sleep 100; true' >/dev/null 2>&1 &
echo "rt: middle proved"
echo "rt: middle: its tests are proved"
rm -rf {mark}.copy; cp -R crates {mark}.copy
{end}
"""
WAITING = "wait"
BUILDING = 'echo "rt: dlk proved"; mkdir -p crates/dlk/out; printf "#!/bin/sh\\necho built \\$*\\n" > crates/dlk/out/dlk; chmod +x crates/dlk/out/dlk'
FAILING = 'echo "rt: dlk NOT PROVED"; wait'


def is_running(process: int) -> bool:
    """Whether a process runs."""
    try:
        return Path(f"/proc/{process}/stat").read_text().rpartition(")")[2].split()[0] != "Z"
    except OSError:
        return False


class Launcher(Case):
    """A checkout of three crates with the launcher of this one, and a toolchain."""

    def setUp(self) -> None:
        super().setUp()
        self.top, self.mark = self.folder / "top", self.folder / "mark"
        for name in ("low", "middle", "dlk", "aside"):
            for part in ("src", "specs"):
                (self.top / "crates" / name / part).mkdir(parents=True)
            (self.top / "crates" / name / "src" / "lib.rt").write_text("fn it() {}\n" * 100)
            (self.top / "crates" / name / "src" / "tests.rt").write_text("fn it() {}\n")
        (self.top / "crates" / "dlk" / "src" / "main.rt").write_text("mod call;\n\nfn main() {}\n\n#[cfg(test)]\nmod tests;\n")
        (self.top / "crates.txt").write_text("# crates\nlow:\nmiddle: low\naside: low\ndlk: middle\n")
        (self.top / "HANDLES").write_text("Handles allowed: none.\n")
        for name in ("dlk", "dlkt", "src", "man/dlk.1", "man/dlkt.1", "completions", "dev/zipped.py"):
            (self.top / name).parent.mkdir(parents=True, exist_ok=True)
            copy = shutil.copytree if (ROOT / name).is_dir() else shutil.copy2
            copy(ROOT / name, self.top / name)

    def tearDown(self) -> None:
        for process in self.begun():
            if is_running(process):
                os.kill(process, signal.SIGKILL)

    def begun(self) -> list[int]:
        """The processes that the toolchain began."""
        return [int(it) for it in self.mark.read_text().split()] if self.mark.is_file() else []

    def start(self, end: str, *words: str) -> "subprocess.Popen[str]":
        """The launcher, with a toolchain that ends so."""
        (self.folder / "bin").mkdir(exist_ok=True)
        rt = self.folder / "bin" / "rt"
        rt.write_text(RT.format(mark=self.mark, end=end))
        rt.chmod(0o755)
        environment = {**os.environ, "PATH": f"{rt.parent}:{os.environ['PATH']}", "TMPDIR": str(self.folder)}
        return subprocess.Popen(
            [self.top / "dlk", *words], env=environment, stdin=subprocess.DEVNULL, stdout=subprocess.PIPE, stderr=subprocess.PIPE, text=True,
            start_new_session=True, preexec_fn=lambda: signal.signal(signal.SIGINT, signal.SIG_DFL),
        )

    def build(self) -> None:
        """Puts a program there that is newer than its sources."""
        out = self.top / "crates" / "dlk" / "out"
        out.mkdir()
        (out / "crates").write_text("low\nmiddle\ndlk\n")
        (out / "dlk").write_text("#!/bin/sh\necho program $*\n")
        (out / "dlk").chmod(0o755)
        os.utime(out / "dlk", (time.time() + 60, time.time() + 60))


class Building(Launcher):
    """`./dlk` proves and builds the program where it isn't there."""

    def test_says_how_far_it_is_and_runs_the_program(self) -> None:
        with self.start(BUILDING, "print", "file") as run:
            out, said = run.communicate(timeout=60)
        lines = said.splitlines()
        self.assertEqual((run.returncode, out), (0, "built print file\n"))
        self.assertIn("to see it unproved in three minutes: (cd ", lines[0])
        self.assertRegex(lines[1], r"^dlk: 3 crates to prove, about \d+ minutes left; where the toolchain kept some, less \(0:0\d\)$")
        self.assertRegex(lines[2], r"^dlk: proved 1 of 3 crates, low last, 2 left, .* left \(")
        self.assertRegex(lines[3], r"^dlk: proved 2 of 3 crates, middle last, 1 left, .* left \(")
        self.assertRegex(lines[4], r"^dlk: proved 3 of 3 crates, dlk last, 0 left, less than a minute left \(")
        self.assertRegex(lines[5], r"^dlk: built \(")

    def test_the_program_is_proved_without_its_own_tests(self) -> None:
        with self.start(BUILDING, "print", "file") as run:
            run.communicate(timeout=60)
        copied = Path(f"{self.mark}.copy")
        self.assertEqual((copied / "dlk/src/main.rt").read_text(), "mod call;\n\nfn main() {}\n")
        self.assertEqual([it.name for it in sorted((copied / "dlk/src").iterdir())], ["lib.rt", "main.rt"])
        self.assertEqual([it.name for it in sorted((copied / "low/src").iterdir())], ["lib.rt", "tests.rt"])

    def test_an_interrupt_ends_it_with_all_that_it_started(self) -> None:
        for number in (signal.SIGINT, signal.SIGTERM, signal.SIGHUP):
            with self.subTest(number.name):
                self.mark.unlink(missing_ok=True)
                with self.start(WAITING) as run:
                    assert run.stderr
                    line = ""
                    while "middle last" not in line:
                        line = run.stderr.readline()
                    while len(self.begun()) < 2:
                        time.sleep(0.01)
                    began = time.monotonic()
                    run.send_signal(number)
                    said = run.stderr.read()
                    run.wait(30)
                    took = time.monotonic() - began
                self.assertEqual(run.returncode, 130)
                self.assertIn("dlk: interrupted", said)
                self.assertLess(took, 3)  # a second, on a machine that has nothing else to do
                self.assertEqual([it for it in self.begun() if is_running(it)], [])
                self.assertFalse((self.top / "crates" / "dlk" / "out").exists())

    def test_a_crate_that_is_not_proved_ends_it(self) -> None:
        with self.start(FAILING) as run:
            _, said = run.communicate(timeout=60)
        self.assertEqual(run.returncode, 100)
        self.assertIn("dlk: dlk NOT PROVED; the log is ", said)
        self.assertEqual([it for it in self.begun() if is_running(it)], [])


class Words(Launcher):
    """What is the launchers' own."""

    def run_it(self, *words: str, **environment: str) -> "subprocess.CompletedProcess[str]":
        """A launcher of this checkout, or another program."""
        return subprocess.run(words, env={**os.environ, **environment}, capture_output=True, text=True, timeout=60, check=False)

    def test_version_is_that_of_the_package(self) -> None:
        for name in ("dlk", "dlkt"):
            run = self.run_it(str(self.top / name), "--version")
            self.assertEqual((run.returncode, run.stdout, run.stderr), (0, f"{name} {dlkt.__version__}\n", ""))
        self.assertTrue(re.fullmatch(r"\d+\.\d+\.\d+", dlkt.__version__))

    def test_installs_dlkt_as_one_file_that_finds_dlk(self) -> None:
        self.build()
        prefix = self.folder / "prefix"
        run = self.run_it(str(self.top / "dlk"), "--install", str(prefix))
        self.assertEqual((run.returncode, run.stderr), (0, ""))
        files = [str(it.relative_to(prefix)) for it in sorted(prefix.rglob("*")) if it.is_file()]
        self.assertEqual(run.stdout.split(), [str(prefix / it) for it in sorted(files, key=run.stdout.index)])
        self.assertEqual(len(files), 8)
        shutil.rmtree(self.top)
        installed = str(prefix / "bin" / "dlkt")
        term = ROOT / "examples" / "first" / "term"
        self.assertEqual(self.run_it(installed, "--version").stdout, f"dlkt {dlkt.__version__}\n")
        self.assertEqual(self.run_it(installed, "readable", str(term)).stdout, term.read_text())
        run = self.run_it(sys.executable, "-c", f"import sys; sys.argv[0] = {installed!r}; sys.path[0] = {installed!r};"
                          "import runpy, os; os.environ.pop('DLK', None);\ntry: runpy.run_path(sys.argv[0])\nexcept SystemExit: print(os.environ['DLK'])")
        self.assertEqual(run.stdout.split()[-1:], [str(prefix / "bin" / "dlk")], run.stderr)

    def test_no_python_is_said(self) -> None:
        run = self.run_it(str(self.top / "dlkt"), "--version", DLKT_PYTHON="/nowhere/python3")
        self.assertNotIn("Traceback", run.stderr)


class Packages(unittest.TestCase):
    """A package that is missing."""

    def setUp(self) -> None:
        before = os.environ.get("DLKT_PYTHON")
        os.environ["DLKT_PYTHON"] = sys.executable
        self.addCleanup(os.environ.update if before else lambda _: os.environ.pop("DLKT_PYTHON", None), {"DLKT_PYTHON": before or ""})

    def test_is_named_as_debian_names_it(self) -> None:
        def work(_: None) -> int:
            raise ModuleNotFoundError("No module named 'lark'", name="lark.visitors")

        with self.assertRaises(program.Refused) as told:
            packages.wanting(work)(None)
        self.assertEqual(str(told.exception), "Python's package lark is missing: apt-get install python3-lark, or name a Python that has it in DLKT_PYTHON")

    def test_another_fault_stays_one(self) -> None:
        def work(_: None) -> int:
            raise ModuleNotFoundError("No module named 'dlkt.nothing'", name="dlkt.nothing")

        with self.assertRaises(ModuleNotFoundError):
            packages.wanting(work)(None)


if __name__ == "__main__":
    unittest.main()
