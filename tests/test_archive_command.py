"""`dlkt import` and `dlkt verify` of archives: what is written and what isn't, and the verdicts."""

import importlib.util
import json
import os
import shutil
import sys
import unittest
from pathlib import Path
from unittest import mock

import archive_cases
import helping
from dlkt import reader
from dlkt.archive import is_archive
from dlkt.trees import Trees

HAS_LARK = importlib.util.find_spec("lark") is not None
PATH = os.environ["PATH"]
HAS_SOLVER = shutil.which("z3") is not None
if HAS_LARK:
    from dlkt.archive.folders import is_own

CRUISE = helping.ROOT / "examples" / "keymaerax" / "cruise" / "archive"
SIMPLE = 'ArchiveEntry "One"\nDefinitions Real A; Bool p(Real x) <-> x>A; End.\nProgramVariables Real x; End.\nProblem p(x) -> x>=A End.\nEnd.\n'
FALSE = 'ArchiveEntry "False"\nProgramVariables Real x; End.\nProblem x>0 -> [x:=x-1;]x>0 End.\nTactic "t" implyR(1); QE End.\nEnd.\n'
GAP = 'Exercise "Gap"\nProgramVariables Real x; End.\nProblem x>0 -> [{x:=x+1;}*@invariant(____)]x>0 End.\nEnd.\n'


def tree(text):
    """The tree of a model, and how many annotations it has."""
    found, notes = reader.model(text, Trees())
    return found.word, len(notes)


@unittest.skipUnless(HAS_LARK, "the package lark isn't installed")
class Import(helping.Case):
    """What `dlkt import` writes."""

    @property
    def without_others(self):
        """The environment in which no other Python is tried."""
        return {**helping.Case.environment(self), "DLKT_PYTHON": sys.executable}

    def imported(self, archive, *words):
        """How the command ends on an archive of this text, in a folder of its own."""
        name = self.file("archive.kyx", archive)
        return self.tool("import", name, "-d", str(self.folder / "made"), *words)

    def files(self, entry):
        """The files of an entry."""
        folder = self.folder / "made" / entry
        return {path.name: path.read_text("utf-8") for path in folder.iterdir()} if folder.is_dir() else {}

    def test_the_cruise_control_is_written(self):
        run = self.imported(CRUISE.read_text())
        files = self.files("cruise")
        self.assertEqual((run.returncode, sorted(files)), (0, ["README", "model", "sketch"]))
        trees = Trees()
        by_hand = reader.formula((CRUISE.parent / "model").read_text(), trees)
        found, notes = reader.model(files["model"], trees)
        self.assertIs(found, by_hand)
        self.assertEqual(len(notes), 1)
        for said in ("`A` is `A()`", "`ok(v)` <-> `0<=v&v<=M()`, put in 3 times", "`ctrl;` ::=", "`if` is a choice"):
            self.assertIn(said, files["README"])

    def test_a_tactic_becomes_a_strategy_or_a_sketch(self):
        for tactic, name in (("implyR(1); QE", "strategy"), ("implyR(1); auto", "sketch"), ("nonsense((", None)):
            with self.subTest(tactic):
                shutil.rmtree(self.folder / "made", ignore_errors=True)
                run = self.imported(SIMPLE.replace("End.\nEnd.\n", f'End.\nTactic "t" {tactic} End.\nEnd.\n'))
                self.assertEqual((run.returncode, sorted(self.files("one"))), (0, sorted(filter(None, ["README", "model", name]))))
                self.assertEqual("not carried over" in run.stdout, name is None)

    def test_a_file_is_written_over_only_where_it_is_as_it_was_written(self):
        self.imported(SIMPLE)
        self.assertEqual(self.imported(SIMPLE.replace("x>=A", "x>A")).returncode, 0)
        self.assertIn("x > A() -> x > A()", self.files("one")["model"])
        for name in ("model", "README"):
            with self.subTest(name):
                path = self.folder / "made" / "one" / name
                was = {one: text for one, text in self.files("one").items()}
                path.write_text(was[name] + "/* by hand */\n")
                run = self.imported(SIMPLE)
                self.assertEqual(run.returncode, 2)
                self.assertIn(f"{name} isn't as dlkt import has written it", run.stderr)
                self.assertEqual(self.files("one"), was | {name: was[name] + "/* by hand */\n"})
                path.write_text(was[name])

    def test_an_input_is_not_written_over(self):
        folder = self.folder / "made" / "one"
        folder.mkdir(parents=True)
        path = folder / "model"
        path.write_text(SIMPLE)
        run = self.tool("import", str(path), "-d", str(self.folder / "made"))
        self.assertEqual((run.returncode, path.read_text(), sorted(one.name for one in folder.iterdir())), (2, SIMPLE, ["model"]))
        self.assertIn("is an input", run.stderr)

    def test_a_folder_that_is_a_file_is_refused(self):
        (self.folder / "made").mkdir()
        (self.folder / "made" / "one").write_text("mine")
        run = self.imported(SIMPLE)
        self.assertEqual((run.returncode, (self.folder / "made" / "one").read_text()), (2, "mine"))

    def test_print_writes_nothing(self):
        run = self.imported(SIMPLE, "--print")
        self.assertEqual((run.returncode, (self.folder / "made").exists()), (0, False))
        self.assertEqual(tree(run.stdout), ("imply", 0))

    def test_one_entry_is_chosen_by_its_name(self):
        other = SIMPLE.replace('"One"', '"Two"')
        self.assertEqual(self.imported(SIMPLE + other, "--entry", "Two").returncode, 0)
        self.assertEqual(sorted(path.name for path in (self.folder / "made").iterdir()), ["two"])
        run = self.imported(SIMPLE + other, "--entry", "Three")
        self.assertEqual((run.returncode, run.stderr.count("\n")), (2, 1))
        self.assertIn("its entries are One, Two", run.stderr)

    def test_names_are_those_of_folders_within_the_folder(self):
        names = ("../../up", "/etc/passwd", "One", "one", "...", "a\tb/c", "über")
        run = self.imported("".join(SIMPLE.replace('"One"', f'"{name}"') for name in names))
        made = sorted(path.name for path in (self.folder / "made").iterdir())
        self.assertEqual((run.returncode, made), (0, sorted(["up", "etc_passwd", "one", "one_2", "entry", "a_b_c", "ber"])))
        self.assertEqual(sorted(path.name for path in self.folder.iterdir()), ["archive.kyx", "made"])

    def test_what_an_entry_says_of_itself_ends_no_comment(self):
        text = "a */ x<0 & /* b \n */ // */"
        self.imported(SIMPLE.replace("Definitions", f'Description "{text}".\nTitle "*/ true /*".\nDefinitions', 1).replace('"One"', '"One */ x=1 /*"'))
        (folder,) = (self.folder / "made").iterdir()
        trees = Trees()
        self.assertIs(reader.formula((folder / "model").read_text(), trees), reader.formula("x>A() -> x>=A()", trees))
        self.assertTrue(is_own(folder / "model"))

    def test_a_refused_entry_leaves_no_folder_and_the_others_go_on(self):
        run = self.imported(GAP + SIMPLE)
        self.assertEqual((run.returncode, [path.name for path in (self.folder / "made").iterdir()]), (1, ["one"]))
        self.assertIn("archive.kyx:3:38: Gap: refused: a blank of an exercise: fill it in", run.stdout)

    def test_what_is_there_from_before_is_told(self):
        self.imported(GAP.replace("____", "x>0"))
        self.assertIn("was there before", self.imported(GAP).stdout)

    def test_archives_that_cannot_be_read_at_all(self):
        for text, said in ((b"", "no entry stands here"), (b"x>0 -> x>0\n", "no entry stands here"), (b'ArchiveEntry "a" /* ', "comment isn't closed"),
                           (b'ArchiveEntry "a\n', "string isn't closed"), (b'ArchiveEntry "a"\rEnd.\n', "carriage return")):
            with self.subTest(said):
                run = self.imported(text)
                self.assertEqual((run.returncode, run.stdout, run.stderr.count("\n")), (2, "", 1))
                self.assertIn(said, run.stderr)
        self.assertEqual(self.tool("import", str(self.folder / "nothing.kyx")).returncode, 2)

    def test_other_encodings_and_line_ends(self):
        archive = SIMPLE.replace('"One"', '"Où"')
        for data in (archive.encode("latin-1"), archive.encode("utf-8-sig"), archive.replace("\n", "\r\n").encode()):
            run = self.imported(data, "--print")
            self.assertEqual((run.returncode, tree(run.stdout)), (0, ("imply", 0)))

    def test_without_lark_it_is_said_what_is_wanted(self):
        loaded = [name for name in sys.modules if name.startswith("dlkt.archive.")]
        with mock.patch.dict(sys.modules, {"lark": None}), mock.patch.object(self, "environment", lambda: self.without_others):
            for name in loaded:
                del sys.modules[name]
            run = self.imported(SIMPLE)
        self.assertEqual((run.returncode, run.stderr.count("\n")), (2, 1))
        self.assertIn("python3-lark", run.stderr)

    @helping.needs_program
    def test_definitions_are_compared(self):
        run = self.imported(CRUISE.read_text(), "--check")
        self.assertEqual(run.returncode, 0)
        self.assertIn("Cruise: check: 2 of 2 definitions are put in as dlk subst does it", run.stdout)

    @helping.needs_program
    def test_a_definition_that_is_put_in_wrongly_is_found(self):
        from dlkt.archive.expand import Expander
        put = Expander.put

        def mixed_up(self, tree, given, place):
            """The first argument for all."""
            return put(self, tree, dict.fromkeys(given, next(iter(given.values()), None)), place)

        archive = SIMPLE.replace("Bool p(Real x) <-> x>A", "Bool p(Real x, Real y) <-> x>y+A").replace("p(x)", "p(x, 2)")
        with mock.patch.object(Expander, "put", mixed_up):
            run = self.imported(archive, "--check")
        self.assertEqual((run.returncode, self.files("one")), (1, {}))
        self.assertIn("p in the problem is another thing by dlk subst", run.stdout)


class Kinds(unittest.TestCase):
    """What is taken for an archive."""

    def test_it_is_known_by_its_ending_or_its_begin(self):
        for name, text, wanted in (("a.kyx", "", True), ("archive", CRUISE.read_text(), True), ("model", "x>0 -> x>0", False),
                                   ("model", "/* ArchiveEntry \"no\" */ x>0", False), ("a", "// c\n/* d */ Lemma \"x\"", True),
                                   ("a", "Functions.\n R a(). End.", True), ("a", "Problem>0 -> Problem>=0", False), ("a", "Problem. x>0 End.", True),
                                   ("a", "Lemma=1 -> Lemma>0", False), ("a", "import kyx.math.exp;\nTheorem \"t\"", True)):
            self.assertEqual(is_archive(name, text.encode()), wanted, (name, text))

    def test_all_archives_of_the_tests(self):
        for pair in archive_cases.pairs():
            self.assertTrue(is_archive("archive", pair.archive.encode()), pair.name)


@unittest.skipUnless(HAS_LARK and HAS_SOLVER, "the package lark or z3 isn't installed")
@helping.needs_program
class Verify(helping.Case):
    """Archives that are proved."""

    def environment(self):
        """With the solvers that are installed."""
        return {**super().environment(), "PATH": PATH}

    def test_the_cruise_control_is_verified(self):
        run = self.tool("verify", str(CRUISE))
        self.assertEqual(run.returncode, 0, run.stdout + run.stderr)
        self.assertRegex(run.stdout.splitlines()[-1], r"^Cruise: verified: closed, guarded, \d+ leaves valid\. .*dlkt import \(the model\)")
        self.assertEqual(list(self.folder.iterdir()), [])

    def test_each_entry_has_its_verdict(self):
        run = self.tool("verify", self.file("a.kyx", FALSE + GAP + SIMPLE))
        self.assertEqual(run.returncode, 2)
        false, gap, simple = run.stdout.splitlines()[-3:]
        self.assertRegex(false, "^False: not verified: ")
        self.assertRegex(gap, "a.kyx:8:38: Gap: refused: ")
        self.assertRegex(simple, "^One: verified: ")

    def test_a_false_model_is_never_verified(self):
        run = self.tool("verify", self.file("a.kyx", FALSE))
        self.assertIn(run.returncode, (1, 3))
        self.assertNotIn(": verified", run.stdout)

    def test_the_search_takes_over_where_the_tactic_fails(self):
        archive = SIMPLE.replace("End.\nEnd.\n", 'End.\nTactic "t" orL(-1); andR(1); id End.\nEnd.\n')
        run = self.tool("verify", self.file("a.kyx", archive), "--entry", "One")
        self.assertEqual(run.returncode, 0, run.stdout)
        self.assertRegex(run.stdout.splitlines()[-2], "^One: not verified: .*tactic 't'")
        self.assertRegex(run.stdout.splitlines()[-1], r"^One: verified: .*\[search")

    def test_one_object_for_all_entries(self):
        run = self.tool("verify", self.file("a.kyx", GAP + SIMPLE), "--json")
        gap, simple = json.loads(run.stdout)
        self.assertEqual((gap["status"], gap["verdict"], simple["status"], simple["verdict"]["verified"]), (2, None, 0, True))

    def test_what_proves_an_entry_is_written(self):
        name = self.file("a.kyx", SIMPLE)
        run = self.tool("import", name, "-d", str(self.folder / "made"), "--prove")
        folder = Path(self.folder / "made" / "one")
        self.assertEqual((run.returncode, sorted(path.name for path in folder.iterdir())), (0, ["README", "model", "strategy"]))
        again = self.tool("verify", str(folder / "model"), str(folder / "strategy"))
        self.assertEqual(again.returncode, 0, again.stdout)

    def test_no_term_of_an_archive(self):
        self.assertEqual(self.tool("verify", self.file("a.kyx", SIMPLE), "-o", "term").returncode, 4)


if __name__ == "__main__":
    unittest.main()
