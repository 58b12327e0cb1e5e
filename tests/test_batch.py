"""Tests of the table of many proofs."""

import contextlib
import importlib.util
import io
import json
import os
import signal
import subprocess
import sys
import time
import unittest
import warnings
from types import SimpleNamespace
from unittest import mock

import helping
from dlkt.commands import batch
from dlkt.program import Refused
from helping import CLOSES_INCREMENT, INCREMENT, Case, needs_program

TRIVIAL, CLOSES_TRIVIAL = "x>=0 -> x>=0\n", "implyR(1); close\n"
KEPT = "1 start ==> x>=0 -> x>=0\n2 apply 1 1 implyR(1)\n3 apply 2 1 close(1,1)\ndone\n"


class Batch(Case):
    """A folder with proofs, and a solver that calls each leaf valid."""

    def setUp(self):
        super().setUp()
        self.proofs = self.folder / "proofs"
        self.solver("z3", "unsat")

    def proof(self, name, model, strategy=None, term=None):
        """A folder with a proof."""
        place = self.proofs / name
        place.mkdir(parents=True)
        for file, text in (("model", model), ("strategy", strategy), ("term", term)):
            if text is not None:
                (place / file).write_text(text)

    def several(self):
        """Proofs of each kind."""
        self.proof("kept", TRIVIAL, term=KEPT)
        self.proof("deep/proved", INCREMENT, CLOSES_INCREMENT)
        self.proof("left", TRIVIAL, "implyR(1)\n")
        self.proof("refused", TRIVIAL, "implyR(1);\n  andR(1)\n")
        self.proof("wrong term", TRIVIAL, term=KEPT.replace("close(1,1)", "close(2,1)"))
        (self.proofs / "none").mkdir()
        (self.proofs / "none" / "model").write_text(TRIVIAL)

    def rows(self, printed):
        """The rows of a printed table, without their times."""
        return {row.folder: row._replace(seconds="") for row in batch.rows_in(self.file("printed", printed))}


@needs_program
class Table(Batch):
    def test_each_kind_of_proof(self):
        self.several()
        run = self.tool("batch", self.proofs)
        rows = self.rows(run.stdout)
        self.assertEqual(run.returncode, 1)
        self.assertEqual(list(rows), ["deep/proved", "kept", "left", "none", "refused", "wrong term"])
        self.assertEqual(rows["none"][:4], ("verified", "closed", "guarded", "0/0"))
        self.assertEqual(rows["deep/proved"][:5], ("verified", "closed", "guarded", "1/1", "15"))
        self.assertEqual(rows["kept"][:5], ("verified", "closed", "guarded", "0/0", "3"))
        self.assertEqual(rows["left"][:5], ("not-verified", "open", "guarded", "0/0", "2"))
        self.assertEqual(rows["refused"][:5], ("not-verified", "refused", "-", "-", "-"))
        self.assertEqual(rows["wrong term"][:5], ("not-verified", "refused", "-", "-", "-"))
        for line in ("# left: 1 goal left", "# refused: strategy:2:3: WrongShape", "# wrong term: refused: line 3: NoPlace"):
            self.assertIn(f"\n{line}\n", run.stdout)
        self.assertEqual(run.stdout.splitlines()[-1], "3 of 6 verified")
        self.assertEqual(list(self.rows(self.tool("batch", self.proofs, "--no-search").stdout)), [name for name in rows if name != "none"])

    def test_all_verified_and_what_changed(self):
        self.proof("one", TRIVIAL, CLOSES_TRIVIAL)
        self.proof("two", TRIVIAL, term=KEPT)
        first = self.tool("batch", self.proofs, "-j", 2)
        self.assertEqual(first.returncode, 0)
        table = self.file("table", first.stdout)
        again = self.tool("batch", self.proofs, "--against", table)
        self.assertEqual((again.returncode, again.stdout.splitlines()[-1]), (0, f"nothing changed since {table}"))
        (self.proofs / "one" / "strategy").write_text("implyR(1)\n")
        (self.proofs / "two" / "model").unlink()
        self.proof("new", TRIVIAL, CLOSES_TRIVIAL)
        changed = self.tool("batch", self.proofs, "--against", table)
        self.assertEqual(changed.returncode, 1)
        behind = changed.stdout.partition(f"since {table}:\n")[2].splitlines()
        self.assertEqual(behind, ["gone: two", "new: new: verified",
                                  "changed: one: verdict verified -> not-verified, proof closed -> open, lines 3 -> 2"])

    def test_json(self):
        self.proof("one", INCREMENT, CLOSES_INCREMENT)
        self.proof("two", TRIVIAL, "close\n")
        told = json.loads(self.tool("batch", self.proofs, "--json").stdout)
        one, two = told["proofs"]
        self.assertEqual((one["verified"], one["valid"], one["leaves"], one["lines"]), (True, 1, 1, 15))
        self.assertEqual((two["verified"], two["leaves"], two["why"]), (False, None, "strategy:1:1: NotEqual"))
        self.assertEqual(told["changes"], [])

    def test_a_leaf_that_is_not_valid(self):
        self.solver("z3", "unknown")
        self.proof("one", INCREMENT, CLOSES_INCREMENT)
        run = self.tool("batch", self.proofs)
        self.assertEqual((run.returncode, self.rows(run.stdout)["one"].leaves), (1, "0/1"))

    def test_an_unguarded_proof_is_not_verified(self):
        unsound = helping.ROOT / "examples" / "unsound" / "ce_under_differential"
        self.proof("one", (unsound / "model").read_text(), term=(unsound / "term").read_text())
        run = self.tool("batch", self.proofs)
        self.assertEqual((run.returncode, self.rows(run.stdout)["one"].guard), (1, "unguarded"))
        self.assertIn("# one: unguarded line 3: differential-context\n", run.stdout)

    def test_nothing_is_written(self):
        self.several()
        before = {path: path.read_bytes() for path in self.proofs.rglob("*") if path.is_file()}
        self.tool("batch", self.proofs)
        self.assertEqual({path: path.read_bytes() for path in self.proofs.rglob("*") if path.is_file()}, before)

    def test_a_folder_that_is_a_proof_itself_and_two_folders(self):
        self.proof("one", TRIVIAL, CLOSES_TRIVIAL)
        self.proof("two", TRIVIAL, term=KEPT)
        self.assertEqual(list(self.rows(self.tool("batch", "proofs/one").stdout)), ["proofs/one"])
        run = self.tool("batch", "proofs/one", "proofs/two")
        self.assertEqual(list(self.rows(run.stdout)), ["proofs/one", "proofs/two"])

    def test_no_proof_is_lost(self):
        names = ("one", "one/one", "one/-x", "one/a\nverified", "real")
        for name in names:
            self.proof(name, TRIVIAL, term=KEPT)
        (self.proofs / "one" / "link").symlink_to("../real")
        (self.proofs / "one" / "up").symlink_to("..")
        (self.proofs / "one" / "dangling").mkdir()
        (self.proofs / "one" / "dangling" / "model").write_text(TRIVIAL)
        (self.proofs / "one" / "dangling" / "strategy").symlink_to("nowhere")
        below = ["-x", "a\\nverified", "dangling", "link", "one"]
        for root, wanted in (("one", [f"one/{name}" for name in below]), (".", below)):
            with contextlib.chdir(self.proofs / ("one" if root == "." else ".")):
                found = [name for name, _ in batch.proofs_below([root])]
            self.assertEqual(sorted(found), sorted([root, *wanted]))
        run = self.tool("batch", self.proofs)
        self.assertEqual(run.stdout.splitlines()[-1], "6 of 7 verified")
        self.assertIn("# one/dangling: ", run.stdout)

    def test_control_c_ends_all(self):
        self.solver("z3", "unsat")
        asked = self.folder / "asked"
        self.script_of_solver("z3", f"[ \"$1\" = --version ] && echo 1.0 && exit\necho $$ >> {asked}; exec /bin/sleep 60\n")
        for name in ("one", "two", "three"):
            self.proof(name, INCREMENT, CLOSES_INCREMENT)
        for number in (signal.SIGINT, signal.SIGTERM):
            with self.started("batch", self.proofs, "-j", "2") as process:
                for _ in range(900):
                    if asked.exists() and asked.read_text().count("\n") >= 2:
                        break
                    time.sleep(0.1)
                process.send_signal(number)
                _, complaint = process.communicate(timeout=15)
            self.assertEqual((process.returncode, complaint), (130, "dlkt batch: interrupted\n"))
            for solver in map(int, asked.read_text().split()):
                self.assertRaises(ProcessLookupError, os.kill, solver, 0)
            asked.unlink()


@unittest.skipIf(importlib.util.find_spec("distributed") is None, "python3-distributed isn't installed")
@needs_program
class Dask(Batch):
    """A scheduler and workers in this process. dev/dask_trial.py tries those of other processes, and kills one."""

    def setUp(self):
        super().setUp()
        warnings.simplefilter("ignore")
        self.enterContext(mock.patch.dict(os.environ, self.environment()))
        self.options = SimpleNamespace(dlk=helping.PROGRAM, seconds=20, jobs=2, search=False)

    def test_the_same_rows_in_order(self):
        import distributed
        self.several()
        (self.proofs / "dangling").mkdir()
        (self.proofs / "dangling" / "model").write_text(TRIVIAL)
        (self.proofs / "dangling" / "strategy").symlink_to("nowhere")
        proofs = batch.proofs_below([str(self.proofs)])
        with distributed.LocalCluster(n_workers=2, threads_per_worker=1, processes=False, dashboard_address=None) as cluster:
            rows = list(batch.rows_by_dask(batch.client_of(cluster.scheduler_address), proofs, self.options))
        alone = list(batch.Crew(self.options).rows(proofs))
        self.assertEqual([row._replace(seconds="") for row in rows], [row._replace(seconds="") for row in alone])
        self.assertEqual([row.verdict for row in rows].count("verified"), 2)

    def test_no_scheduler(self):
        with mock.patch.object(batch, "PATIENCE", 1), self.assertRaises(Refused) as fault:
            batch.client_of("tcp://127.0.0.1:9")
        self.assertEqual(str(fault.exception), "no Dask scheduler answers at tcp://127.0.0.1:9")


class Refusals(Batch):
    def refusal(self, *words):
        """The one line by which nothing could be looked at."""
        run = subprocess.run([sys.executable, "-m", "dlkt", "batch", "--dlk", "/bin/true", *map(str, words)],
                             capture_output=True, text=True, check=False, env=self.environment())
        self.assertEqual((run.returncode, run.stdout, run.stderr.count("\n")), (2, "", 1))
        return run.stderr.strip()

    def test_what_is_not_there(self):
        self.proof("one", TRIVIAL, CLOSES_TRIVIAL)
        self.assertEqual(self.refusal("/nowhere/at/all"), "dlkt batch: /nowhere/at/all: no such folder")
        self.assertEqual(self.refusal(self.proofs / "one" / "model"), f"dlkt batch: {self.proofs / 'one' / 'model'}: not a folder")
        self.assertIn(f"no folder below {self.solvers} has a model", self.refusal(self.solvers))
        self.assertIn("has a model, and a strategy or a term", self.refusal(self.solvers, "--no-search"))
        self.assertIn("holds no table of dlkt batch", self.refusal(self.proofs, "--against", self.proofs / "one" / "model"))
        self.assertIn("no such file", self.refusal(self.proofs, "--against", "/nowhere/at/all"))
        self.assertIn("isn't there", self.refusal(self.proofs, "--dlk", "/nowhere/dlk"))


class Changes(Case):
    def test_a_table_is_read_as_it_was_printed(self):
        rows = [batch.Row("verified", "closed", "guarded", "1200/1200", "12345678", "1234567.5", "a folder/with a blank"),
                batch.Row("not-verified", "refused", "-", "-", "-", "0.1", "b", "strategy:1:1: NoMatch")]
        with contextlib.redirect_stdout(io.StringIO()) as said:
            batch.print_table(rows)
        text = said.getvalue()
        self.assertEqual(batch.rows_in(self.file("table", text)), [row._replace(why="") for row in rows])
        self.assertEqual(batch.rows_in(self.file("joined", text + text.replace("a folder", "other"))), [
            row._replace(why="", folder=folder) for folder, row in zip(("a folder/with a blank", "b", "other/with a blank", "b"), rows * 2)])
        self.assertEqual(batch.changes(rows, [row._replace(seconds="9") for row in rows]), [])


if __name__ == "__main__":
    unittest.main()
