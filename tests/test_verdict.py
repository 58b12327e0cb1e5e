"""Tests of dlkt verify on the built program, with solvers that say what the test wants."""

import json
import os
import shutil
import signal
import subprocess
import sys
import time
import unittest
from pathlib import Path

from helping import BRAKE, CHOICE, CLOSES_BRAKE, CLOSES_CHOICE, CLOSES_INCREMENT, Case, INCREMENT, PROGRAM, ROOT, needs_program
from dlkt.terms import lemmas_in, readable


class Verdict(Case):
    """A verdict on a model and a strategy of these texts."""

    def on(self, model, strategy, *words):
        return self.tool("verify", self.file("model", model), self.file("strategy", strategy), *words)

    def told(self, model, strategy, *words):
        return json.loads(self.on(model, strategy, "--json", *words).stdout)

    def last(self, run):
        return run.stdout.rstrip("\n").split("\n")[-1]


@needs_program
class Closed(Verdict):
    def test_verified(self):
        self.solver("z3", "unsat")
        self.solver("cvc5", "unknown", version="9.9")
        run = self.on("[x:=1;]x>=1\n", "step(1); leaf")
        self.assertEqual(run.returncode, 0)
        self.assertEqual(
            run.stdout,
            "closed, 14 lines\nleaf 1: ==> 1>=1\n    z3: valid\nguarded\n"
            "verified: closed, guarded, 1 leaf valid. It rests on dlk, docs/SOUNDNESS.md (on paper), z3 1.2.3 (1 of 1 leaf)\n",
        )

    def test_all_solvers(self):
        self.solver("z3", "unsat")
        self.solver("cvc5", "unknown", version="9.9")
        run = self.on(INCREMENT, CLOSES_INCREMENT, "--all-solvers")
        self.assertEqual((run.returncode, self.last(run)[-48:]), (0, "docs/SOUNDNESS.md (on paper), z3 1.2.3 (1 of 1 leaf)"[-48:]))
        self.assertIn("leaf 1: x>=0 ==> x+1>=1\n    z3: valid\n    cvc5: unknown\n", run.stdout)

    def test_one_that_knows_is_enough(self):
        self.solver("z3", "unsat")
        self.script_of_solver("cvc5", '[ "$1" = --version ] && echo 1.0 && exit\n/bin/sleep 60\n')
        begin = time.monotonic()
        self.assertEqual(self.on(INCREMENT, CLOSES_INCREMENT, "-j", "2").returncode, 0)
        self.assertLess(time.monotonic() - begin, 15)

    def test_no_leaves_need_no_solver(self):
        run = self.on("x>=0 -> x>=0\n", "implyR(1); close")
        self.assertEqual((run.returncode, self.last(run)[:9]), (0, "verified:"))

    def test_unknown_is_not_valid(self):
        self.solver("z3", "unknown")
        run = self.on(INCREMENT, CLOSES_INCREMENT)
        self.assertEqual((run.returncode, self.last(run)), (3, "not verified: leaf 1 is unknown"))

    def test_a_solver_that_fails(self):
        self.solver("z3", "segmentation fault")
        self.assertEqual(self.on(INCREMENT, CLOSES_INCREMENT).returncode, 3)

    def test_solvers_that_contradict_each_other(self):
        self.solver("z3", "unsat")
        self.solver("cvc5", "sat")
        run = self.on(INCREMENT, CLOSES_INCREMENT, "--all-solvers")
        self.assertEqual((run.returncode, self.last(run)), (3, "not verified: leaf 1 is unknown"))
        self.assertIn("    z3: valid\n    cvc5: false\n", run.stdout)

    def test_a_false_leaf_has_values(self):
        self.solver("z3", "sat", "((define-fun |v.x| () Real (/ 1.0 2.0)))")
        run = self.on(INCREMENT, CLOSES_INCREMENT)
        self.assertEqual((run.returncode, self.last(run)), (3, "not verified: leaf 1 is false"))
        self.assertIn("    z3: false at x=1/2\n", run.stdout)
        self.solver("cvc5", "sat", "((define-fun |v.x| () Real 0.25))")
        self.assertIn("    z3: false at x=1/2\n    cvc5: false at x=0.25\n", self.on(INCREMENT, CLOSES_INCREMENT, "--all-solvers").stdout)

    def test_without_a_solver(self):
        run = self.on(INCREMENT, CLOSES_INCREMENT)
        self.assertEqual((run.returncode, self.last(run)), (3, "not verified: leaf 1 wasn't asked"))

    def test_unguarded_names_the_word(self):
        self.solver("z3", "unsat")
        run = self.on(BRAKE.replace("M()", "M"), CLOSES_BRAKE)
        self.assertEqual((run.returncode, self.last(run)), (3, "not verified: line 17 isn't guarded"))
        self.assertIn("unguarded line 17: di-not-evolved M: ", run.stdout)
        self.assertIn("strategy:2:1: unguarded: dI(1) made line 17\n    dI(1); <(\n    ^\n", run.stdout)
        self.assertIn("model:1:6: hint: no program changes M", run.stdout)
        told = self.told(BRAKE.replace("M()", "M"), CLOSES_BRAKE)
        self.assertEqual((told["guard"]["place"]["byte"], told["guard"]["word"], told["verified"]), (21, "dI(1)", False))

    def test_exponents(self):
        self.solver("z3", "unsat")
        model = "x^2+y^2=r()^2 -> [{x'=-y,y'=x}]x^2+y^2=r()^2\n"
        run = self.on(model, "implyR(1); dI(1); <(close, derive(1.1); useAt(DEsys,1)*2; dW(1); step(1)*2; leaf)")
        self.assertEqual(run.returncode, 0)
        self.assertIn("    with ^1 for ^(2-1)\n", run.stdout)
        self.assertIn("dlkt leaves (exponents)", self.last(run))


@needs_program
class Open(Verdict):
    def test_goals_have_places(self):
        run = self.on(CHOICE, "implyR(1); step(1); andR(1); <(step(1)*2, nil)")
        self.assertEqual((run.returncode, self.last(run)), (1, "not verified: 2 goals left"))
        self.assertIn("goal 2\n     -1: 0<=v&v<=M()\n         ==>\n      1: [v:=0;]v<=M()\n", run.stdout)

    def test_an_axiom_that_is_none(self):
        run = self.on(INCREMENT, "implyR(1); (useAt(asignb,1))*20")
        self.assertEqual(run.returncode, 1)
        self.assertIn("strategy:1:19: hint: there is no axiom asignb; is assignb meant?\n", run.stdout)

    def test_json(self):
        told = self.told(INCREMENT, "implyR(1)")
        self.assertEqual((told["outcome"], told["status"], told["reasons"]), ("open", 1, ["1 goal left"]))
        self.assertEqual(told["goals"][0]["formulas"], [{"place": -1, "formula": "x>=0"}, {"place": 1, "formula": "[x:=x+1;]x>=1"}])


@needs_program
class Failing(Verdict):
    def test_an_atom(self):
        run = self.on(INCREMENT, "implyR(1);\n  andR(1)\n")
        self.assertEqual(run.returncode, 2)
        self.assertIn(
            "strategy:2:3: fails: WrongShape: another formula stands at the place than the word wants\n      andR(1)\n      ^\n"
            "it fails on the goal:\n     -1: x>=0\n         ==>\n      1: [x:=x+1;]x>=1\nnot verified: the strategy fails\n",
            run.stdout,
        )

    def test_the_goals_on_which_it_fails(self):
        told = self.told("(x>=0 -> y>0)&(y>=0&(z>=0 -> z>=0))\n", "andR(1); (andR(1) | nil); implyR(1)")
        self.assertEqual([goal["text"] for goal in told["refusal"]["goals"]], ["==> y>=0"])

    def test_in_the_last_part_of_a_choice(self):
        told = self.told(CHOICE, "implyR(1); step(1); andR(1); ((step(1); close) | (nil; andR(1)))")
        self.assertEqual([goal["text"] for goal in told["refusal"]["goals"]], ["0<=v&v<=M() ==> [?v+1<=M();v:=v+1;]v<=M()", "0<=v&v<=M() ==> [v:=0;]v<=M()"])

    def test_in_a_branch_behind_others(self):
        text = CLOSES_CHOICE.replace("close, step(1); leaf", "close, step(1); close")
        told = self.told(CHOICE, text)
        self.assertEqual(told["refusal"]["place"]["byte"], text.rindex("close"))
        self.assertEqual([goal["text"] for goal in told["refusal"]["goals"]], ["0<=v&v<=M() ==> 0<=M()"])

    def test_a_branch_with_too_few_parts(self):
        told = self.told(CHOICE, "implyR(1); step(1); andR(1); <(nil)")
        self.assertEqual((told["refusal"]["why"], told["refusal"]["parts"], told["refusal"]["count"]), ("WrongCount", 1, 2))
        self.assertEqual(len(told["refusal"]["goals"]), 2)

    def test_a_branch_on_the_second_of_two_goals(self):
        told = self.told("(x>=0&y>=0)&(x>=0&(y>=0&z>=0))\n", "andR(1); (andR(1)*2; <(nil, nil))")
        self.assertEqual((told["refusal"]["parts"], told["refusal"]["count"]), (2, 3))
        self.assertEqual([goal["text"] for goal in told["refusal"]["goals"]], ["==> x>=0", "==> y>=0", "==> z>=0"])

    def test_names_like_the_mark(self):
        told = self.told("here0_()>=0 -> x>=0\n", "implyR(1); andR(1)")
        self.assertEqual([goal["text"] for goal in told["refusal"]["goals"]], ["here0_()>=0 ==> x>=0"])

    def test_no_strategy_and_no_model(self):
        run = self.on(INCREMENT, "implyR(1); QE")
        self.assertEqual(run.returncode, 2)
        self.assertIn("strategy:1:12: refused: unknown: there is no such word\n", run.stdout)
        self.assertIn("hint: there is no word QE; in its place stands leaf\n", run.stdout)
        run = self.on("x>=0\n  & -> y>0\n", "nil")
        self.assertEqual((run.returncode, self.last(run)), (2, "not verified: the model is refused"))
        self.assertIn("model:2:5: refused: syntax: the text doesn't go on here\n      & -> y>0\n        ^\n", run.stdout)
        run = self.on("x>=0&" * 250_000 + "x>=0", "nil")
        self.assertEqual((run.returncode, self.last(run)), (2, "not verified: the model is refused"))
        self.assertRegex(run.stdout, "model: refused: too-long model\n")
        self.assertEqual(self.on(b"x>=0 & \xff", "nil").returncode, 2)
        self.assertEqual(self.on(INCREMENT, b"implyR(1); \xff").returncode, 2)
        self.assertEqual(self.on(b"\xef\xbb\xbfx>=0", "nil").stdout.count("byte order mark"), 1)


@needs_program
class Given(Verdict):
    """A term in place of a strategy."""

    def term(self, model, strategy):
        """The term that a strategy makes."""
        names = [self.file("model", model), self.file("made_by", strategy), self.folder / "made"]
        subprocess.run([PROGRAM, "prove", *names], capture_output=True, check=False)
        return (self.folder / "made").read_bytes()

    def test_a_term_of_either_version(self):
        self.solver("z3", "unsat")
        term = self.term(INCREMENT, CLOSES_INCREMENT)
        for data in (term, readable(term)):
            run = self.on(INCREMENT, data)
            self.assertEqual((run.returncode, run.stdout.split("\n")[0]), (0, "closed, 15 lines"))
            told = self.told(INCREMENT, data)
            self.assertEqual((told["kind"], told["strategy"], told["verified"], told["linked"]), ("term", None, True, []))

    def test_a_leaf_of_a_term_that_is_false(self):
        self.solver("z3", "sat", "((define-fun |v.x| () Real 0.5))")
        run = self.on(INCREMENT, self.term(INCREMENT, CLOSES_INCREMENT))
        self.assertEqual((run.returncode, self.last(run)), (3, "not verified: leaf 1 is false"))
        self.assertNotIn("made it", run.stdout)

    def test_a_term_that_is_not_guarded(self):
        self.solver("z3", "unsat")
        run = self.on(BRAKE.replace("M()", "M"), self.term(BRAKE.replace("M()", "M"), CLOSES_BRAKE))
        self.assertEqual((run.returncode, self.last(run)), (3, "not verified: line 17 isn't guarded"))

    def test_a_wrong_line(self):
        run = self.on("x>=0 -> x>=0\n", "1 start ==> x>=0 -> x>=0\n2 apply 1 1 implyL(1)\ndone\n")
        self.assertEqual((run.returncode, self.last(run)), (2, "not verified: the term is refused"))
        self.assertIn("strategy:2:1: refused: line 2: NoPlace\n    2 apply 1 1 implyL(1)\n    ^\n", run.stdout)

    def test_another_conclusion(self):
        run = self.on("x>=1 -> x>=1\n", "1 start ==> x>=0 -> x>=0\n2 apply 1 1 implyR(1)\n3 apply 2 1 close(1,1)\ndone\n")
        self.assertEqual((run.returncode, self.last(run)), (2, "not verified: the term proves something else than the model"))

    def test_line_ends_of_windows(self):
        run = self.on("x>=0 -> x>=0\n", b"dlk 2\r\nnode 1 var x\r\n")
        self.assertEqual((run.returncode, self.last(run)), (2, "not verified: the term is refused"))
        self.assertIn("hint: the term has line ends of Windows", run.stdout)

    def test_a_linked_term(self):
        self.solver("z3", "unsat")
        model, goal = "(x>=0 -> x>=0)&(x>=0 -> x>=0)\n", "x>=0 -> x>=0\n"
        lemma = self.file("lemma", self.term(goal, "implyR(1); close"))
        term = self.file("term", self.term(model, "andR(1)"))
        subprocess.run([PROGRAM, "link", self.file("model", model), term, lemma, self.folder / "linked"], capture_output=True, check=False)
        linked = (self.folder / "linked").read_bytes()
        for data in (linked, readable(linked)):
            run = self.on(model, data)
            self.assertEqual(run.returncode, 0)
            self.assertIn("linked: lines 3 to 5 are a lemma's, which proves 2 goals with ==> x>=0 -> x>=0\n", run.stdout)
        self.assertEqual(self.told(model, linked)["linked"], [{"first": 3, "last": 5, "conclusion": "==> x>=0 -> x>=0", "goals": 2}])

    def test_nothing_is_linked_in_the_terms_of_strategies(self):
        for strategy in sorted(ROOT.glob("examples/*/strategy")):
            self.assertEqual(lemmas_in(self.term((strategy.parent / "model").read_text(), strategy.read_text())), [], strategy)

    def test_no_proof(self):
        run = self.tool("verify", self.file("model", INCREMENT))
        self.assertEqual((run.returncode, run.stderr), (4, "dlkt verify: the search needs the solver z3, which isn't there: apt-get install z3\n"))


@needs_program
class Mended(Verdict):
    """What looks wrong, and what isn't taken, at its own place."""

    def said(self, model, strategy):
        """What is printed behind the name of the folder."""
        return self.on(model, strategy).stdout.replace(f"{self.folder}/", "")

    def test_assumptions_that_contradict_each_other(self):
        if shutil.which("z3") is None:
            self.skipTest("z3 isn't installed")
        self.solvers = Path(shutil.which("z3")).parent
        run = self.on("/* */ v>=0&v<0&[x:=1;]x>0 -> [x:=v;]x>=0\n", "implyR(1)")
        self.assertIn("model:1:7: hint: what the model assumes can never hold", self.said("/* */ v>=0&v<0 -> [x:=v;]x>=0\n", "implyR(1); step(1); leaf"))
        self.assertNotIn("can never hold", self.said("v>=0 -> \\forall v (v<0 -> v<=0)\n", "implyR(1)"))
        self.assertNotIn("can never hold", self.said(INCREMENT, CLOSES_INCREMENT))
        self.assertIn("can never hold", run.stdout)

    def test_a_bracket_in_quotes(self):
        said = self.said(INCREMENT, 'implyR(1);\n  cut("(x>=0 & x>1"); close')
        self.assertIn("strategy:2:19: refused: arguments: the text in quotes doesn't go on here (syntax); the ( at 2:8 has no other one", said)
        said = self.said(INCREMENT, 'useAt(DC,1,"r(||)~>x>=0)&x>1")')
        self.assertIn("strategy:1:24: refused: arguments: the text in quotes doesn't go on here (syntax); the ) at 1:24 has no other one", said)
        self.assertIn("strategy:1:1: refused: arguments: the word takes other arguments", self.said(INCREMENT, "implyR(x)"))

    def test_what_people_write(self):
        self.assertIn("strategy:1:17: hint: a `;` stands between two parts", self.said(INCREMENT, "implyR(1); close; "))
        self.assertIn("strategy:1:12: hint: a strategy has no comments with //", self.said(INCREMENT, "implyR(1); // close\nclose"))
        self.assertNotIn("hint", self.said(INCREMENT, 'implyR(1); cut("x>=0 /* ; ) */"); <(nil, nil)'))

    def test_the_word_auto_makes_a_sketch(self):
        run = self.tool("verify", self.file("model", INCREMENT), self.file("strategy", "auto"))
        self.assertEqual((run.returncode, run.stderr), (4, "dlkt verify: the search needs the solver z3, which isn't there: apt-get install z3\n"))

    def test_a_variable_beside_a_constant(self):
        said = self.said("M>0&M()>0&Amax>0&amax()>0 -> [x:=M;]x>=0\n", "implyR(1)")
        self.assertIn("model:1:5: hint: the model has M and M(): the one is a variable, the other a constant", said)
        self.assertIn("model:1:11: hint: Amax is used once, and is a variable that nothing says anything of; is amax() meant?", said)
        self.assertNotIn("hint", self.said("A>0&A>1&a()>0 -> [x:=a();]x>=0\n", "implyR(1)"))


@needs_program
class Terms(Verdict):
    def test_the_term_is_put_where_it_is_wanted(self):
        run = self.on("x>=0 -> x>=0\n", "implyR(1); close", "-o", "term")
        self.assertEqual(run.returncode, 0)
        term = readable((self.folder / "term").read_bytes())
        self.assertEqual(term, "1 start ==> x>=0 -> x>=0\n2 apply 1 1 implyR(1)\n3 apply 2 1 close(1,1)\ndone\n")
        self.assertEqual(sorted(path.name for path in self.folder.iterdir()), ["model", "strategy", "term"])

    def test_a_failure_leaves_the_term_that_is_there(self):
        self.file("term", "1 start ==> x>=0\ndone\n")
        self.assertEqual(self.on(INCREMENT, "andR(1)", "-o", "term").returncode, 2)
        self.assertEqual((self.folder / "term").read_text(), "1 start ==> x>=0\ndone\n")

    def test_no_input_is_written(self):
        model, strategy = self.file("model", "x>=0 -> x>=0\n"), self.file("strategy", "implyR(1); close")
        os.symlink(strategy, self.folder / "link")
        os.link(strategy, self.folder / "hard")
        (self.folder / "folder").mkdir()
        for name in ("model", "strategy", "./strategy", "folder/../strategy", "link", "hard"):
            run = self.tool("verify", model, strategy, "-o", name)
            self.assertEqual((run.returncode, run.stdout), (4, ""), name)
            self.assertRegex(run.stderr, r"^dlkt verify: .* is an input, the same file as .*\n$")
        self.assertEqual((self.folder / "strategy").read_text(), "implyR(1); close")
        self.assertEqual((self.folder / "model").read_text(), "x>=0 -> x>=0\n")

    def test_nothing_but_a_term_is_written_over(self):
        self.file("other", "implyR(1); andR(1)\n")
        self.assertEqual(self.on("x>=0 -> x>=0\n", "implyR(1); close", "-o", "other").returncode, 4)
        self.assertEqual((self.folder / "other").read_text(), "implyR(1); andR(1)\n")
        self.file("empty", "")
        self.assertEqual(self.on("x>=0 -> x>=0\n", "implyR(1); close", "-o", "empty").returncode, 0)

    def test_line_ends_of_windows(self):
        self.file("term", b"1 start ==> x>=0\r\ndone\r\n")
        self.assertIn("term:1:17: hint: the term has line ends of Windows", self.on("x>=0 -> x>=0\n", "implyR(1); close", "-o", "term").stdout)

    def test_a_device(self):
        self.assertEqual(self.on("x>=0 -> x>=0\n", "implyR(1); close", "-o", "/dev/null").returncode, 0)
        self.assertFalse(os.path.isfile("/dev/null"))


@needs_program
class Errors(Verdict):
    def test_the_term_is_put_where_nobody_reads(self):
        model, strategy = self.file("model", "x>=0 -> x>=0\n"), self.file("strategy", "implyR(1); close")
        with self.started("verify", model, strategy, "-o", "term") as process:
            process.stdout.close()
            self.assertEqual(process.wait(), 141)
        self.assertTrue((self.folder / "term").read_bytes().startswith(b"dlk 2\n"))

    def test_one_line_each(self):
        model, strategy = self.file("model", INCREMENT), self.file("strategy", CLOSES_INCREMENT)
        (self.folder / "folder").mkdir()
        for words in (("nope", strategy), (model, "nope"), ("folder", strategy), (model, "folder"), (model, strategy, "-o", "folder"),
                      (model, strategy, "-o", "nope/term"), (model,), ("-", strategy), (model, strategy, "--dlk", "/nope"), (model, strategy, "--dlk", model)):
            run = self.tool("verify", *words)
            self.assertEqual((run.returncode, run.stdout, run.stderr.count("\n")), (4, "", 1), words)

    def test_wrong_words(self):
        for words in ((), ("a", "b", "c"), ("a", "b", "--seconds", "0"), ("a", "b", "--seconds", "x"), ("a", "b", "-j", "0"), ("a", "b", "--nope")):
            self.assertEqual(self.tool("verify", *words).returncode, 4)

    @unittest.skipIf(os.geteuid() == 0, "root may read and write everything")
    def test_no_permission(self):
        strategy = self.file("strategy", CLOSES_INCREMENT)
        os.chmod(strategy, 0)
        self.assertEqual(self.tool("verify", self.file("model", INCREMENT), strategy).returncode, 4)

    def test_refusals_as_json(self):
        told = self.told(INCREMENT, "andR(1)")
        self.assertEqual((told["outcome"], told["status"], told["refusal"]["place"]["line"]), ("refused", 2, 1))
        told = json.loads(self.tool("verify", "nope", "nope", "--json").stdout)
        self.assertEqual((told["verified"], told["status"], told["reasons"]), (False, 4, ["nope: no such file or directory"]))

    def test_a_program_that_fails(self):
        script = self.file("program", "#!/bin/sh\nexit 6\n")
        os.chmod(script, 0o755)
        run = self.on(INCREMENT, CLOSES_INCREMENT, "--dlk", script)
        self.assertEqual((run.returncode, run.stderr), (4, "dlkt verify: the program ends with status 6, and says nothing\n"))

    def program(self, *cases):
        """A program that answers so to commands: pairs of a command and what it prints, as /bin/sh's printf takes it."""
        said = "".join(f"{command}) printf '{text}';;\n" for command, text in cases)
        script = self.file("program", f'#!/bin/sh\n[ "$1" = prove ] && : > "$4"\ncase $1 in\n{said}esac\n')
        os.chmod(script, 0o755)
        return script

    def test_a_program_that_prints_nonsense(self):
        self.solver("z3", "unsat")
        closed = "closed\\nconclusion ==> true\\ngoals 0\\nleaves 0\\nlines 1\\n"
        one_leaf = closed.replace("leaves 0", "leaves 1\\nleaf 1 ==> true")
        open_ = closed.replace("closed", "open").replace("goals 0", "goals 1\\ngoal 1 ==> true")
        for cases in (
            [("prove", "")], [("prove", "closed 5\\n")], [("prove", open_)], [("prove", closed), ("guard", "nonsense\\n")],
            [("prove", closed), ("guard", "guarded\\n")], [("prove", closed), ("guard", f"guarded\\n{open_}")],
            [("prove", closed), ("guard", f"unguarded line 9: raw-fact\\n{closed}")],
            [("prove", closed.replace("leaves 0", "leaves 2")), ("guard", f"guarded\\n{closed}")],
            [("prove", one_leaf), ("guard", f"guarded\\n{one_leaf}"), ("smt", "")],
        ):
            run = self.on(INCREMENT, CLOSES_INCREMENT, "--dlk", self.program(*cases))
            self.assertEqual((run.returncode, run.stderr.count("\n")), (4, 1), cases)
            self.assertNotIn("verified", run.stdout)
        right = [("prove", closed), ("guard", f"guarded\\n{closed}")]
        self.assertEqual(self.on(INCREMENT, CLOSES_INCREMENT, "--dlk", self.program(*right)).returncode, 0)

    def test_a_term_that_is_a_link_to_itself(self):
        os.symlink("loop", self.folder / "loop")
        self.assertEqual(self.on(INCREMENT, CLOSES_INCREMENT, "-o", "loop").returncode, 4)

    def test_names_that_are_no_text(self):
        model = self.file("model", INCREMENT)
        strategy = os.path.join(os.fsencode(self.folder), b"s\xff\nverified: all")
        with open(strategy, "wb") as file:
            file.write("/* \u00fc */ andR(1)".encode())
        run = self.tool("verify", model, os.fsdecode(strategy))
        self.assertEqual((run.returncode, self.last(run)), (2, "not verified: the strategy fails"))
        self.assertFalse(any(line.startswith("verified") for line in run.stdout.split("\n")))

    def test_outputs_that_cannot_be_written(self):
        words = f"'{sys.executable}' -m dlkt verify '{self.file('model', 'x>=0 -> x>=0')}' '{self.file('strategy', 'implyR(1); close')}'"
        for behind, status in ((">/dev/full", 4), ("--json >/dev/full", 4), (">&-", 0), (">&- 2>&-", 0)):
            run = subprocess.run(["/bin/sh", "-c", f"{words} {behind}"], env=self.environment(), capture_output=True, text=True, check=False)
            self.assertEqual(run.returncode, status, behind)
            self.assertNotIn("Traceback", run.stderr)

    def test_a_long_line_is_cut(self):
        run = self.on(INCREMENT, "nil;" * 300 + "andR(1)" + ";nil" * 300)
        lines = run.stdout.split("\n")
        self.assertEqual(lines[0].partition(" ")[0], f"{self.folder}/strategy:1:1201:")
        self.assertEqual(lines[1][lines[2].index("^") :][:7], "andR(1)")
        self.assertLess(max(map(len, lines)), 200)


@needs_program
class Watching(Verdict):
    def test_again_at_each_change_until_control_c(self):
        model, strategy = self.file("model", "x>=0 -> x>=0\n"), self.file("strategy", "implyR(1)")
        with self.started("verify", model, strategy, "--watch", "--json") as process:
            self.assertEqual(json.loads(process.stdout.readline())["outcome"], "open")
            self.file("strategy", "implyR(1); andR(1)")
            self.assertEqual(json.loads(process.stdout.readline())["outcome"], "refused")
            os.unlink(strategy)
            self.assertEqual(json.loads(process.stdout.readline())["status"], 4)
            self.file("strategy", "implyR(1); close")
            self.assertEqual(json.loads(process.stdout.readline())["verified"], True)
            time.sleep(0.1)
            process.send_signal(signal.SIGINT)
            _, said = process.communicate(timeout=20)
            self.assertEqual((process.returncode, said.rstrip("\n").split("\n")[-1]), (130, "dlkt verify: interrupted"))


@needs_program
class Interrupted(Verdict):
    def test_control_c_ends_the_solvers_too(self):
        asked = self.folder / "asked"
        self.script_of_solver("z3", f"[ \"$1\" = --version ] && echo 1.0 && exit\necho $$ >> {asked}; exec /bin/sleep 60\n")
        model, strategy = self.file("model", INCREMENT), self.file("strategy", CLOSES_INCREMENT)
        with self.started("verify", model, strategy) as process:
            for _ in range(600):
                if asked.exists() and asked.read_text().endswith("\n"):
                    break
                time.sleep(0.1)
            process.send_signal(signal.SIGINT)
            _, said = process.communicate(timeout=20)
        self.assertEqual((process.returncode, said), (130, "dlkt verify: interrupted\n"))
        for solver in map(int, asked.read_text().split()):
            self.assertRaises(ProcessLookupError, os.kill, solver, 0)


if __name__ == "__main__":
    unittest.main()
