"""Tests of the prompt, without a terminal: on a stand-in program, on `session` done by `prove`, and on the program's own where it has one."""

import contextlib
import fcntl
import importlib.util
import json
import os
import pty
import re
import select
import signal
import struct
import subprocess
import sys
import tempfile
import termios
import time
import unittest
import unittest.mock
from pathlib import Path

import helping
from dlkt.commands import prompt
from dlkt import program as proving
from dlkt import session
from dlkt import strategies as strategytext
from dlkt.solvers import Solvers
from helping import Case, PROGRAM, ROOT

STAND_IN, BY_PROVE = (str(Path(__file__).with_name(name)) for name in ("stand_in.py", "by_prove.py"))
MODEL = "x>=0 -> x>=0&true\n"
CAR_LINES = (
    "implyR(1)", 'loop("B()>0 & 0<=v & v<=M() & v*v<=2*B()*(S()-x)", 1)', "leaf", "apply 2 leaf", "(step(1) | andR(1) | implyR(1) | skolemR(1))*20",
    'apply 2 dC("B()>0", 1)', "apply 3 useAt(V,1); prop",
)
CAR_SAVED = """\
implyR(1);
loop("B()>0 & 0<=v & v<=M() & v*v<=2*B()*(S()-x)", 1); <(
  leaf,
  (step(1) | andR(1) | implyR(1) | skolemR(1))*20; <(
    nil,
    dC("B()>0", 1); <(nil, useAt(V,1); prop)
  ),
  leaf
)
"""
AT_FIRST = ["goal 1 of 1", "         ==>", "      1: x >= 0 -> x >= 0 & true"]


def knows_session():
    """Whether the program that is tested knows sessions."""
    return helping.is_built() and "session" in proving.answer(PROGRAM).complaint


class Prompt(Case):
    program = STAND_IN
    as_saved = "(implyR(1));\n(andR(1));\n<(nil, (closeTrue(1)))\n"  # whose `prove` knows no strategy that is laid out

    def setUp(self):
        super().setUp()
        self.model = self.file("model", MODEL)
        self.talk = prompt.Talk(self.proof(self.model))

    def proof(self, *files):
        """The proof of a model, behind the lines of a script."""
        return prompt.Proof(tempfile.mkdtemp(dir=self.folder), self.program, *files)

    def hear(self, *lines):
        """What is said to the last of these lines."""
        return [self.talk.hear(line) for line in lines][-1]

    def test_goals_at_first(self):
        self.assertEqual(self.hear("goals"), AT_FIRST)
        self.assertEqual(self.hear("history"), ["nothing yet"])
        self.assertEqual(self.hear(""), [])

    def test_a_proof(self):
        self.assertEqual(self.hear("implyR(1)"), ["goal 1 of 1", "     -1: x >= 0", "         ==>", "      1: x >= 0 & true"])
        self.assertEqual(self.hear("apply 1 andR(1)")[4:], ["goal 2 of 2", "     -1: x >= 0", "         ==>", "      1: true"])
        self.assertEqual(self.hear("apply 2 closeTrue(1)")[0], "goal 1 of 1")
        self.assertEqual(self.hear("close"), ["closed"])
        self.assertEqual(self.hear("history")[2], "  3: apply 2 closeTrue(1)")
        self.assertTrue(self.talk.proof.is_closed())

    def test_a_failure_shows_its_place_and_the_goals_there(self):
        said = self.hear("implyR(1)", "andR(1); closeTrue(1)")
        self.assertEqual(said[:3], ["  andR(1); closeTrue(1)", "           ^", "column 10: fails: WrongShape"])
        self.assertEqual(said[3:], ["it fails on", "     -1: x >= 0", "         ==>", "      1: x >= 0"])
        self.assertEqual(self.hear("history"), ["  1: apply 1 implyR(1)"])

    def test_what_is_no_strategy(self):
        self.assertEqual(self.hear("andR(1))"), ["  andR(1))", "         ^", "column 8: refused: syntax"])
        self.assertEqual(self.hear("nonsense")[-1], "column 1: refused: unknown")
        self.assertEqual(self.hear("apply 0 nil")[0][:7], "apply G")
        self.assertEqual(self.hear("apply 2 nil"), ["there is no goal 2"])
        self.assertEqual(self.hear("\u2265 nonsense")[0], "  \u2265 nonsense")
        self.assertEqual(self.hear("implyR(1) /* \u2265 */", "history"), ["  1: apply 1 implyR(1) /* \u2265 */"])

    def test_undo(self):
        self.assertEqual(self.hear("undo"), ["nothing to undo"])
        self.assertEqual(self.hear("implyR(1)", "undo"), ["undone: apply 1 implyR(1)", *AT_FIRST])

    def test_paths(self):
        self.assertEqual([line.split(None, 1) for line in self.hear("paths 1")][:5], [
            ["1", "x>=0 -> x>=0&true"], ["1.0", "x>=0"], ["1.0.0", "x"], ["1.0.1", "0"], ["1.1", "x>=0&true"]])
        self.assertEqual([line.split(None, 1) for line in self.hear("implyR(1)", "paths -1")], [["-1", "x>=0"], ["-1.0", "x"], ["-1.1", "0"]])
        self.assertEqual(self.hear("paths 2"), ["there is no formula at place 2 of goal 1"])
        self.assertEqual(self.hear("paths 1 2"), ["there is no goal 2"])
        self.assertEqual(self.hear("paths x")[0][:5], "paths")

    def test_save(self):
        self.hear("implyR(1)", "andR(1)", "apply 2 closeTrue(1)")
        self.assertEqual(self.talk.proof.unsaved(), ["apply 1 implyR(1)", "apply 1 andR(1)", "apply 2 closeTrue(1)"])
        name = str(self.folder / "proof")
        said = self.hear(f"save {name}")
        self.assertEqual(len(said), 3)
        self.assertEqual(Path(name).read_text(), self.as_saved)
        self.assertEqual(Path(f"{name}.script").read_text(), "apply 1 implyR(1)\napply 1 andR(1)\napply 2 closeTrue(1)\nsave\n")
        self.assertTrue(Path(f"{name}.term").read_text().endswith("done\n"))
        self.assertEqual(self.talk.proof.unsaved(), [])
        strategytext.read(Path(name).read_text())
        self.hear("close", f"save {name}")  # what it wrote itself may be written again
        self.assertEqual(Path(f"{name}.script").read_text().count("\n"), 5)
        again = prompt.Talk(self.proof(self.model, f"{name}.script"))
        self.assertEqual(again.hear("goals"), ["closed"])
        self.saved_as, self.told_of_save = name, said

    def test_what_is_not_written_over(self):
        notes = self.file("notes.term", "mine")
        self.assertIn("is an input", self.hear(f"save {self.model}")[0])
        self.assertIn("is there already", self.hear(f"save {notes}")[0])
        self.assertIn("is there already", self.hear(f"save {self.folder / 'notes'}")[0])
        self.assertIn("no such folder", self.hear(f"save {self.folder / 'none' / 'proof'}")[0])
        self.assertEqual(self.hear("save")[0][:9], "save FILE")
        self.assertEqual((Path(self.model).read_text(), Path(notes).read_text()), (MODEL, "mine"))

    def test_a_script_at_first(self):
        script = self.file("script", "apply 1 implyR(1)\nshow\napply 1 nil\nundo\napply 1 andR(1); closeTrue(1)\nundo\nsave\nundo\napply 1 implyR(1)")
        talk = prompt.Talk(self.proof(self.model, script))
        self.assertEqual(talk.hear("history"), ["  1: apply 1 implyR(1)"])
        for text in ("aply 1 nil\n", "apply 1 nil\n\nsave\n"):
            with self.assertRaises(proving.Refused) as why:
                self.proof(self.model, self.file("bad", text))
            self.assertIn("script line", str(why.exception))

    def test_a_model_that_is_refused(self):
        with self.assertRaises(proving.Refused) as why:
            self.proof(self.file("other", "x>=0 x"))
        self.assertIn("other:1:6: refused: model at 5: syntax", str(why.exception))

    def test_lines_of_standard_input(self):
        script = f"implyR(1)\n\nandR(1)\nclose\nundo\nclose\ncloseTrue(1)\nsave {self.folder / 'out'}\n"
        said = self.piped(script)
        self.assertEqual((said.returncode, said.stderr), (0, ""))
        self.assertEqual(said.stdout.splitlines().count("closed"), 1)
        self.assertIn("undone: apply 1 close", said.stdout)
        said = self.piped("implyR(1)\nquit\nandR(1)\n")
        self.assertEqual((said.returncode, said.stdout.splitlines()[-2:]), (1, ["not saved:", "apply 1 implyR(1)"]))

    def piped(self, text):
        """How the tool ends on these lines."""
        words = [*helping.PYTHON, "-m", "dlkt", "prompt", self.model, "--dlk", self.program]
        return subprocess.run(words, input=text, capture_output=True, text=True, check=False, cwd=self.folder,
                              env=self.with_path())

    def with_path(self):
        """The environment, in which the stand-ins find their Python."""
        return {**self.environment(), "PATH": os.environ["PATH"]}

    def test_interrupted(self):
        words = [*helping.PYTHON, "-m", "dlkt", "prompt", self.model, "--dlk", self.program]
        process = subprocess.Popen(words, stdin=subprocess.PIPE, stdout=subprocess.PIPE, stderr=subprocess.PIPE, text=True, cwd=self.folder,
                                   env=self.with_path(),
                                   preexec_fn=lambda: signal.signal(signal.SIGINT, signal.SIG_DFL))
        for _ in AT_FIRST:
            process.stdout.readline()
        process.stdin.write("implyR(1)\n")
        process.stdin.flush()
        for _ in range(4):
            process.stdout.readline()
        process.send_signal(signal.SIGINT)
        out, complaint = process.communicate()
        self.assertEqual((process.returncode, out, complaint), (130, "not saved:\napply 1 implyR(1)\n", "dlkt prompt: interrupted\n"))


@helping.needs_program
class PromptByProve(Prompt):
    """The same on sessions that `prove` does."""

    program = BY_PROVE
    as_saved = "implyR(1); andR(1); <(nil, closeTrue(1))\n"

    def setUp(self):
        os.environ.setdefault("DLK", PROGRAM)  # of which by_prove.py is made
        super().setUp()

    def test_save(self):
        super().test_save()
        name = self.saved_as
        self.assertIn("`prove` makes the same term of it", self.told_of_save[0])
        said = proving.answer(PROGRAM, "prove", self.model, name, self.folder / "again")
        self.assertEqual(said, proving.answer(PROGRAM, "check", self.model, f"{name}.term"))
        self.assertEqual(said.status, 0)
        said = proving.answer(self.program, "session", self.model, f"{name}.script", self.folder / "replayed")
        self.assertEqual((said.status, (self.folder / "replayed").read_bytes()), (0, Path(f"{name}.term").read_bytes()))

    def test_a_branch_of_the_wrong_length(self):
        said = self.hear("implyR(1)", "andR(1); <(close)")
        self.assertEqual(said[2:4], ["column 10: fails: WrongCount", "the branch has 1 parts, and there are 2 goals"])


@unittest.skipUnless(knows_session(), "the program knows no sessions")
class PromptOfProgram(PromptByProve):
    """The same on the program itself."""

    program = PROGRAM

    def test_lines_that_go_on(self):
        said = self.piped("implyR(1\n)\nandR(1);\n closeTrue(1)\nnonsense (\n\napply 1 andR(1\n")
        self.assertEqual((said.returncode, said.stderr), (1, ""))
        self.assertIn("1 goal> implyR(1\n... )\ngoal 1 of 1\n     -1: x >= 0", said.stdout)
        self.assertIn("  andR(1); closeTrue(1)\n           ^\ncolumn 10: fails: WrongShape", said.stdout)
        self.assertIn("1 goal> nonsense (\n... \n", said.stdout)
        self.assertIn("not saved:\napply 1 implyR(1 )", said.stdout)

    def test_suggestions(self):
        self.assertEqual(self.hear("suggest"), [
            "  prop: closes it", "  leaf: closes it, with the leaf ==> x>=0 -> x>=0&true",
            "  implyR(1): leaves 1 goal", "    -1: x >= 0", "    1: x >= 0 & true",
        ])
        self.assertIn("  closeTrue(1): closes it", self.hear("implyR(1)", "andR(1)", "suggest 2"))
        self.assertEqual(self.hear("suggest 3"), ["there is no goal 3"])
        self.assertEqual(self.hear("suggest x"), ["suggest [G]: the number of a goal"])
        self.assertEqual(self.hear("history"), ["  1: apply 1 implyR(1)", "  2: apply 1 andR(1)"])

    def test_suggestions_by_annotations(self):
        model = self.file("loop", "x>=0 -> [{x:=x+1;}*@invariant(x>=0)]x>=0\n")
        talk = prompt.Talk(self.proof(model))
        talk.hear("implyR(1)")
        said = talk.hear("suggest")
        self.assertEqual(said[said.index('  loop("x>=0", 1): leaves 3 goals') :][1], "    1) 1: x >= 0")
        self.assertEqual(prompt.Talk(self.proof(self.file("quantified", "z=0 -> \\forall z z=z"), self.file("s", "apply 1 implyR(1)\n"))).hear("suggest")[-2:],
                         ["  boundR(y,1); skolemR(1): leaves 1 goal", "    1: y = y"])

    def test_leaves(self):
        self.solver("z3", "unsat")
        with unittest.mock.patch.dict(os.environ, {"PATH": str(self.solvers)}):
            talk = prompt.Talk(self.proof(self.file("sum", "x>=0 -> [x:=x+1;]x>=1\n")))
            self.addCleanup(talk.solvers.close)
            self.assertEqual(talk.hear("leaves"), ["no goal is arithmetic, and there are no leaves"])
            self.assertEqual(talk.hear("leaves 1"), ["goal 1 isn't arithmetic"])
            talk.hear("implyR(1); step(1)")
            self.assertEqual(talk.hear("leaves"), ["goal 1: valid (z3)"])
            talk.hear("leaf")
            self.assertEqual(talk.hear("leaves"), ["leaf 1: valid (z3)"])
        self.assertEqual(prompt.Talk(self.proof(self.model), Solvers([])).hear("leaves"), ["no solver is there: install z3 or cvc5"])

    def test_a_long_proof_is_saved_as_a_person_would_write_it(self):
        model = self.file("car", (ROOT / "examples/tutorial/car/model").read_text())
        talk = prompt.Talk(self.proof(model))
        for line in CAR_LINES:
            self.assertNotIn("refused", " ".join(talk.hear(line)))
        name = str(self.folder / "out")
        self.assertIn("`prove` makes the same proof of it, with its lines in another order", talk.hear(f"save {name}")[0])
        self.assertEqual(Path(name).read_text(), CAR_SAVED)


@unittest.skipUnless(knows_session() and importlib.util.find_spec("prompt_toolkit"), "the program knows no sessions, or prompt_toolkit isn't there")
class Terminal(Case):
    """The prompt at a terminal."""

    def setUp(self):
        super().setUp()
        model = self.file("model", MODEL)
        self.child, self.terminal = pty.fork()
        if self.child == 0:
            fcntl.ioctl(0, termios.TIOCSWINSZ, struct.pack("HHHH", 50, 200, 0, 0))
            environment = {**self.environment(), "TERM": "xterm", "PROMPT_TOOLKIT_NO_CPR": "1"}
            os.execve(sys.executable, [sys.executable, "-m", "dlkt", "prompt", model], environment)
        self.addCleanup(self.end)

    def end(self):
        """Ends the prompt where it still runs."""
        with contextlib.suppress(ProcessLookupError, ChildProcessError):
            os.kill(self.child, signal.SIGKILL)
            os.waitpid(self.child, 0)

    def until(self, *wanted):
        """Reads until these texts came, one behind the other: what comes in one piece with the first would else be lost."""
        said, end = "", time.monotonic() + 100
        while not re.search(".*".join(map(re.escape, wanted)), said, re.DOTALL):
            self.assertLess(time.monotonic(), end, said)
            if select.select([self.terminal], [], [], 0.2)[0]:
                said += re.sub(r"\x1b\[[0-9;?]*[A-Za-z]", "", os.read(self.terminal, 4096).decode()).replace("\r", "")
        return said

    def write(self, text):
        """Types a text."""
        os.write(self.terminal, text.encode())

    def test_control_c_clears_the_line(self):
        self.until("1 goal>")
        self.write("nonsense")
        self.until("nonsense")
        self.write("\x03")
        self.until("1 goal>")
        self.write("implyR(\r")
        self.until("...")
        self.write("\x03")
        self.until("1 goal>")
        self.write("implyR(1)\r")
        self.until("1: x >= 0 & true", "1 goal>")
        self.write('cut("tr\t')
        self.until('cut("true')
        self.write('")\r')
        self.until("2 goals>")
        self.write("\x04")
        self.until('not saved:\napply 1 implyR(1)\napply 1 cut("true")')
        _, status = os.waitpid(self.child, 0)
        self.assertEqual(os.waitstatus_to_exitcode(status), 1)


SCRIPTS = (
    "", "undo", "undo\nshow\n", "aply 1 nil\n", "apply 1 nil\n\n", "undo \n", "undo\r\n", "apply 0 nil", "apply 01 nil", "apply 1", "apply 1 ",
    "apply 1  nil", "apply 1 nil\r\n", "apply 1234567890 nil", "apply 123456789 nil", "apply 1 nil; ; nil", "save", "show\nshow\n",
    "apply 1 implyR(1)\napply 1 andR(1)\nsave\nundo\nsave\napply 1 andR(1)\napply 2 closeTrue(1)\n", "apply 1 implyR(1)\nundo\nundo\nsave\nshow",
    "apply 1 nil\nundo\nundo\n", "apply 1 implyR(1); andR(1); <(close, nil)\nshow\nundo\nshow\n", "apply 1 implyR(1); andR(1); <(nil)\nshow\n",
    "apply 1 implyR(1)\napply 1 andR(1)\napply 2 close\napply 2 prop\napply 1 prop\nundo\nshow\nsave", "apply 1 (nil*1000)*20\nshow\n",
    "apply 1 implyR(1)\nsave\napply 1 prop\nshow\nundo\n", "apply 2 nil\napply 1 prop\napply 1 nil\nsave\nsave\nundo\nsave\n", "\n",
)


@unittest.skipUnless(knows_session(), "the program knows no sessions")
class Sessions(Case):
    """What the program's `session` answers, beside what `prove` says of the same strategies."""

    def test_the_same_answers(self):
        os.environ.setdefault("DLK", PROGRAM)
        model, term = self.file("model", MODEL), self.folder / "term"
        for text in SCRIPTS:
            script, answers = self.file("script", text), []
            for program in (BY_PROVE, PROGRAM):
                term.unlink(missing_ok=True)
                said = proving.answer(program, "session", model, script, term)
                answers.append((said.status, said.text, term.read_bytes() if term.exists() else None))
            self.assertEqual(answers[0], answers[1], text)

    def test_what_a_budget_keeps(self):
        model = self.file("model", MODEL)
        script = self.file("script", "apply 1 (nil*1000)*15\nundo\napply 1 (nil*999)\napply 1 nil\napply 1 nil\napply 1 notL('L)\nundo\n")
        said = proving.answer(PROGRAM, "session", model, script, self.folder / "term")
        self.assertEqual(said.text.splitlines(), [
            "ok goals 1", "ok goals 1", "ok goals 1", "ok goals 1", "budget at 0", "fails at 0: NoPlace", "ok goals 1"])


class Lines(unittest.TestCase):
    def test_which_go_on(self):
        for line in ("step(1);", "step(1); ", "a; <(", "(close", 'cut("x>=0', 'cut("x>=0 -> (y', "close /* so", "a |", "dC(\"x>0\"", "a; /* b */"):
            self.assertTrue(prompt.goes_on(line), line)
        for line in ("step(1)", "close)", 'cut("x>=0 & (y")', "goals", "", 'cut("a(") /* ( */', "a /* \" */", "undo", "<(close)", "a; b /* ; */"):
            self.assertFalse(prompt.goes_on(line), line)

    def test_joined(self):
        self.assertEqual(prompt.joined(["a;", "  b\n"]), "a; b")
        self.assertEqual(prompt.joined(["a // b"]), "a // b")
        with self.assertRaises(session.Failure):
            prompt.joined(["cut(\"x // y", "\")"])

    def test_a_proof_with_its_goals_out_of_order(self):
        lines = [session.Line(1, "andR(1)", 1, 2), session.Line(2, "close | nil", 2, 1), session.Line(2, "prop", 2, 0), session.Line(1, "leaf", 1, 0)]
        self.assertEqual(session.strategy_of(lines), "andR(1); <(leaf, (close | nil); prop)")
        self.assertEqual(session.strategy_of(lines[:1]), "andR(1)")
        self.assertEqual(session.strategy_of([]), "nil")
        deep = [session.Line(number, "andR(1)", number, 2) for number in range(1, 80)]
        self.assertIn("<(nil, nil, (andR(1)))", session.strategy_of(deep))


class Names(unittest.TestCase):
    """The names that are completed are those of the documents."""

    def test_as_documented(self):
        spec = importlib.util.spec_from_file_location("check", ROOT / "dev" / "editors.py")
        check = importlib.util.module_from_spec(spec)
        spec.loader.exec_module(check)
        documented = check.documented()
        wanted = {
            "atoms": documented["atoms"] - documented["rules"],
            "rules": documented["rules"],
            "axioms": documented["axioms"],
            "library": documented["names of the library"],
        }
        found = json.loads(prompt.NAMES.read_text())
        self.assertEqual({kind: sorted(those) for kind, those in wanted.items()}, found)

    def test_completions(self):
        self.assertEqual(prompt.completions("imply"), (["implyL", "implyR"], 5))
        self.assertEqual(prompt.completions("implyR(1); useAt(Dpl"), (["Dplus"], 3))
        self.assertIn("undo", prompt.completions("")[0])
        self.assertNotIn("undo", prompt.completions("nil; un")[0])
        self.assertNotIn("implyR", prompt.completions("useBack(")[0])

    def test_completions_in_quotes(self):
        self.assertEqual(prompt.completions('cut("sp', ["speed", "B()", "x"]), (["speed"], 2))
        self.assertEqual(prompt.completions('cut("x>0"); imply', ["implied"]), (["implyL", "implyR"], 5))
        self.assertNotIn("implyR", prompt.completions('loop("', ["x"])[0])


if __name__ == "__main__":
    unittest.main()
