"""Tests of what can fail the gate besides the proofs: dev/checks.py and dev/tried.py."""

import re
import subprocess
import sys
import tempfile
import time
import unittest
from pathlib import Path

import helping  # noqa: F401  (puts dev/ on the path)

import checks
import tried

SOURCE = Path(checks.__file__)


class Checks(unittest.TestCase):
    """What comes of a check."""

    def setUp(self) -> None:
        folder = tempfile.TemporaryDirectory()
        self.addCleanup(folder.cleanup)
        self.runs = checks.Runs(Path(folder.name))

    def come(self, code: str, needs: tuple[str, ...] = (), seconds: int = 60) -> checks.Come:
        """What comes of a check that runs this code."""
        return self.runs.come_of(checks.Check("it", (checks.PYTHON, "-c", code), needs, seconds))

    def test_passes_with_status_0(self) -> None:
        come = self.come("print('one\\ntwo')")
        self.assertEqual((come.kind, come.why.partition(", ")[2]), ("passed", "two"))

    def test_another_status_fails_it(self) -> None:
        come = self.come("print('one'); raise SystemExit(3)")
        self.assertEqual((come.kind, come.why.partition(", ")[2]), ("FAILED", "status 3, one"))

    def test_no_end_in_time_fails_it_with_all_that_it_started(self) -> None:
        began = time.monotonic()
        come = self.come("import subprocess; subprocess.run(['sleep', '100'])", seconds=1)
        self.assertEqual((come.kind, come.why), ("FAILED", "no end within 1 seconds"))
        self.assertLess(time.monotonic() - began, 20)

    def test_what_is_not_installed_skips_it(self) -> None:
        self.assertEqual(self.come("", ("no_such_program|another",))[1:3], ("skipped", "there is no no_such_program or another"))
        self.assertEqual(self.come("", ("import no_such_package",))[1:3], ("skipped", "there is no no_such_package"))
        self.assertEqual(self.come("", ("no_such_program|sh", "import json")).kind, "passed")

    def test_skipped_tests_are_counted(self) -> None:
        self.assertEqual(self.come("print('Ran 7 tests in 1 s\\n\\nOK (skipped=5)')").skipped, 5)
        self.assertEqual(self.come("print('OK')").skipped, 0)

    def test_the_script_ends_with_1_where_one_fails(self) -> None:
        table = "import checks, sys; checks.CHECKS = [checks.Check('a', ('true',)), checks.Check('b', ('false',))]; checks.tests = list;"
        for name, status, last in (("a", 0, "2 passed, 0 failed"), ("b", 1, "1 passed, 1 failed")):
            code = f"{table} sys.argv = ['checks.py', '--before', '1', '{name}']; sys.exit(checks.main())"
            run = subprocess.run([sys.executable, "-c", code], cwd=SOURCE.parent, capture_output=True, text=True, check=False)
            self.assertEqual((run.returncode, run.stdout.splitlines()[-1]), (status, last), run.stderr)

    def test_each_script_of_the_table_is_there(self) -> None:
        for check in checks.CHECKS:
            if check.command[0] == checks.PYTHON and check.command[1] != "-m":
                self.assertTrue((checks.ROOT / check.command[1]).is_file(), check.name)
        self.assertLessEqual(sum(it.seconds for it in checks.CHECKS) / 4, 1200)


class Version(unittest.TestCase):
    """The version stands in the package, and is told by the program's usage and the man page."""

    def test_it_is_the_same_everywhere(self) -> None:
        top = checks.ROOT
        found = re.search(r'__version__ = "([0-9.]+)"', (top / "src" / "dlkt" / "__init__.py").read_text(encoding="utf-8"))
        assert found
        self.assertIn(f'"dlk {found[1]}: usage', (top / "crates" / "dlk" / "src" / "explain.rt").read_text(encoding="utf-8"))
        self.assertIn(f'.Os "dlk {found[1]}"', (top / "man" / "dlk.1").read_text(encoding="utf-8"))


class Tried(unittest.TestCase):
    """Which crates changed since their wrong bodies were tried."""

    def setUp(self) -> None:
        folder = tempfile.TemporaryDirectory()
        self.addCleanup(folder.cleanup)
        self.top = Path(folder.name)
        self.crate = self.top / "crates" / "it"
        for name in ("src/lib.rt", "src/tests.rt", "specs/It.antt", "proofs/Its.antt", "must-fail/one.edit", "edits/two.edit"):
            self.write(name, name)
        (self.top / "crates" / "other").mkdir()
        self.file = self.top / "tried.txt"
        row = tried.row_of(self.crate)
        self.assertEqual(row.bodies, 2)
        self.file.write_text(f"{tried.HEAD}\n{' '.join(map(str, row))}\n")

    def write(self, name: str, text: str) -> None:
        """Writes a file of the crate."""
        file = self.crate / name
        file.parent.mkdir(parents=True, exist_ok=True)
        file.write_text(text)

    def changed(self) -> list[str]:
        """The crates that changed, without why."""
        return [it.partition(":")[0] for it in tried.changed(self.top, self.file)]

    def test_one_that_is_as_it_was(self) -> None:
        self.assertEqual(self.changed(), [])

    def test_one_of_which_something_changed(self) -> None:
        for name in ("src/lib.rt", "specs/It.antt", "proofs/Its.antt", "must-fail/one.edit", "edits/two.edit"):
            with self.subTest(name):
                self.write(name, "another")
                self.assertEqual(self.changed(), ["it"])
                self.write(name, name)
                self.assertEqual(self.changed(), [])

    def test_one_that_got_another_wrong_body(self) -> None:
        self.write("edits/three.edit", "three")
        self.assertEqual(self.changed(), ["it"])

    def test_tests_and_where_a_wrong_body_stands_change_nothing(self) -> None:
        self.write("src/tests.rt", "another")
        (self.crate / "must-fail/one.edit").rename(self.crate / "edits/one.edit")
        self.assertEqual(self.changed(), [])

    def test_comments_breaks_of_lines_and_the_order_of_imports_change_nothing(self) -> None:
        self.write("src/lib.rt", "use a::{b, c};\n\n/// Says.\nfn it() -> u8 { f(b'\"', 1, \"a // b\") }\n")
        known = tried.sum_of(self.crate)
        self.write("src/lib.rt", "use a::{c};\nuse a::{b};\n// Another.\nfn it() -> u8 { f(b'\"', // why\n    1,\n \"a // b\") }\n")
        self.assertEqual(tried.sum_of(self.crate), known)
        for text in (
            "use a::{b, d};\nfn it() -> u8 { f(b'\"', 1, \"a // b\") }",
            "use a::{b, c};\nfn it() -> u8 { f(b'\"', 2, \"a // b\") }",
            "use a::{b, c};\nfn it() -> u8 { f(b'\"', 1, \"a // c\") }",
            "use a::{b, c};\nfn it() -> u8 { f(b'\"', 1, \"a  // b\") }",
        ):
            with self.subTest(text):
                self.write("src/lib.rt", text)
                self.assertNotEqual(tried.sum_of(self.crate), known)

    def test_a_name_may_have_a_dash(self) -> None:
        self.write("specs/It.antt", "-- why\nbe-that a = b")
        known = tried.sum_of(self.crate)
        self.write("specs/It.antt", "-- another\nbe-that a\n    = b")
        self.assertEqual(tried.sum_of(self.crate), known)
        self.write("specs/It.antt", "-- another\nbe-this a = b")
        self.assertNotEqual(tried.sum_of(self.crate), known)

    def test_one_that_was_never_tried(self) -> None:
        self.file.unlink()
        self.assertEqual(tried.changed(self.top, self.file), ["it: its wrong bodies were never tried"])


if __name__ == "__main__":
    unittest.main()
