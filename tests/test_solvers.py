"""Tests of the solvers' processes: with scripts that answer as a test wants, and with those that are installed."""

import os
import shutil
import subprocess
import sys
import threading
import time
import unittest
from unittest import mock

from helping import Case
from dlkt.solvers import Answer, Solvers, Word, question, questions, there

LOOP = 'while read -r line; do case $line in %s "(echo "*) line=${line#*\\"}; echo "${line%%%%\\"*}";; esac; done\n'
TRUE_QUESTION = "(declare-const |v.x| Real)\n(assert (< (* |v.x| |v.x|) 0.0))\n"
FALSE_QUESTION = "(declare-const |v.x| Real)\n(declare-const |f.g| Real)\n(assert (= (* 2.0 |v.x|) |f.g| (- 3.0)))\n"


def is_running(number):
    """Whether a process of this number runs."""
    try:
        os.kill(number, 0)
    except ProcessLookupError:
        return False
    return True


class Scripts(Case):
    """Solvers of the test on the path."""

    def asked(self, text=TRUE_QUESTION, times=1, **given):
        """The last answer, how many seconds it took, and the solvers, which are closed."""
        begin = time.monotonic()
        with mock.patch.dict(os.environ, {"PATH": f"{self.solvers}:/bin:/usr/bin"}), Solvers(["z3", "cvc5"], **given) as solvers:
            answers = [solvers.check(text.replace("0.0", f"{number}.0")) for number in range(times)]
        return answers[-1], time.monotonic() - begin

    def test_the_first_valid_decides(self):
        self.solver("z3", "unsat")
        self.script_of_solver("cvc5", "/bin/sleep 60\n")
        answer, took = self.asked()
        self.assertEqual((answer.word, [*answer.by]), (Word.VALID, ["z3"]))
        self.assertLess(took, 5)

    def test_the_second_one_is_asked_where_the_first_does_not_know(self):
        self.solver("z3", "unknown")
        self.solver("cvc5", "sat", "((define-fun |v.x| () Real (/ 1.0 2.0)))")
        answer, took = self.asked()
        self.assertEqual((answer.word, answer.values, answer.by["z3"].word), (Word.FALSE, {"x": "1/2"}, Word.UNKNOWN))
        self.assertLess(took, 5)

    def test_a_slow_one_does_not_keep_the_other_from_deciding(self):
        self.script_of_solver("z3", LOOP % '"(check-sat)") /bin/sleep 60;;')
        self.solver("cvc5", "unsat")
        answer, took = self.asked()
        self.assertEqual((answer.word, [*answer.by]), (Word.VALID, ["cvc5"]))
        self.assertLess(took, 5)

    def test_false_without_values_waits_for_the_other(self):
        self.solver("z3", "sat")
        self.solver("cvc5", "sat", "((define-fun |v.x| () Real 3.0))")
        self.assertEqual(self.asked()[0].values, {"x": "3"})
        self.assertEqual(self.asked("(assert true)\n")[0].by.keys(), {"z3"})

    def test_all_are_waited_for_and_may_contradict(self):
        self.solver("z3", "unsat")
        self.solver("cvc5", "sat", "((define-fun |v.x| () Real 3.0))")
        answer, _ = self.asked(waits_for_all=True)
        self.assertEqual((answer.word, answer.by["cvc5"].word), (Word.UNKNOWN, Word.FALSE))

    def test_a_solver_that_dies_is_asked_once_more(self):
        self.script_of_solver("z3", f'[ -e "{self.folder}/once" ] || {{ : >"{self.folder}/once"; exit 1; }}\n' + LOOP % '"(check-sat)") echo unsat;;')
        self.solver("cvc5", "unknown")
        self.assertEqual(self.asked()[0].word, Word.VALID)

    def test_one_that_dies_twice_is_unknown(self):
        self.script_of_solver("z3", f'echo started >>"{self.folder}/count"\nexit 1\n')
        self.solver("cvc5", "unknown")
        answer, _ = self.asked()
        self.assertEqual((answer.word, answer.by["z3"].why), (Word.UNKNOWN, "the solver ends, or doesn't answer"))
        self.assertEqual((self.folder / "count").read_text().count("started"), 2)

    def test_one_that_hangs_is_asked_once_more(self):
        first = f'[ -e "{self.folder}/once" ] || {{ : >"{self.folder}/once"; exec /bin/sleep 60; }}\n'
        self.script_of_solver("z3", first + LOOP % '"(check-sat)") echo unsat;;')
        self.solver("cvc5", "unknown")
        with mock.patch("dlkt.solvers.PATIENCE", 0.3):
            self.assertEqual(self.asked()[0].word, Word.VALID)

    def test_a_late_answer_counts_for_nothing(self):
        self.script_of_solver("z3", LOOP % '"(check-sat)") /bin/sleep 1; echo sat;; "(get-model)") echo "((define-fun |v.x| () Real 1.0))";;')
        self.solver("cvc5", "unknown")
        answer, _ = self.asked(seconds=0.4)
        self.assertEqual((answer.word, answer.by["z3"].why), (Word.UNKNOWN, "no answer in time"))

    def test_one_that_cannot_be_started(self):
        self.script_of_solver("z3", "")
        (self.solvers / "z3").chmod(0o644)
        self.solver("cvc5", "unsat")
        with mock.patch.dict(os.environ, {"PATH": str(self.solvers)}), Solvers(["z3", "cvc5"]) as solvers:
            answer = solvers.check(TRUE_QUESTION)
        self.assertEqual((answer.word, answer.by["z3"].why), (Word.VALID, "can't be started: Permission denied"))

    def test_a_question_is_asked_once(self):
        self.script_of_solver("z3", LOOP % f'"(check-sat)") echo asked >>"{self.folder}/count"; echo unsat;;')
        self.solver("cvc5", "unknown")
        with mock.patch.dict(os.environ, {"PATH": str(self.solvers)}), Solvers(["z3"]) as solvers:
            for text in (TRUE_QUESTION, TRUE_QUESTION + "(check-sat)\n", "(reset)\n" + TRUE_QUESTION):
                self.assertEqual(solvers.check(text).word, Word.VALID)
            self.assertEqual(solvers.asked, 1)
        self.assertEqual((self.folder / "count").read_text(), "asked\n")

    def test_an_unknown_question_is_asked_again_with_more_time(self):
        self.solver("z3", "unknown")
        with mock.patch.dict(os.environ, {"PATH": str(self.solvers)}), Solvers(["z3"]) as solvers:
            for seconds, asked in ((1, 1), (1, 1), (0.5, 1), (2, 2)):
                solvers.check(TRUE_QUESTION, seconds)
                self.assertEqual(solvers.asked, asked)

    def test_nothing_stays_behind(self):
        self.script_of_solver("z3", f'echo $$ >"{self.folder}/number"\n' + LOOP % '"(check-sat)") /bin/sleep 60;;')
        with mock.patch.dict(os.environ, {"PATH": str(self.solvers)}):
            solvers = Solvers(["z3"])
            answers = []
            thread = threading.Thread(target=lambda: answers.append(solvers.check(TRUE_QUESTION)))
            thread.start()
            while not (self.folder / "number").is_file() or not (self.folder / "number").read_text().endswith("\n"):
                time.sleep(0.01)
            solvers.close()
            thread.join(5)
        self.assertFalse(thread.is_alive())
        self.assertEqual(answers[0].word, Word.UNKNOWN)
        self.assertFalse(is_running(int((self.folder / "number").read_text())))

    def test_nothing_stays_behind_where_python_ends(self):
        self.script_of_solver("z3", f'echo $$ >"{self.folder}/number"\n' + LOOP % '"(check-sat)") echo unsat;;')
        text = f"from dlkt.solvers import Solvers\nprint(Solvers(['z3']).check({TRUE_QUESTION!r}).word)\n"
        told = subprocess.run([sys.executable, "-c", text], env=self.environment(), capture_output=True, text=True, check=False)
        self.assertEqual((told.stdout, told.stderr), ("valid\n", ""))
        time.sleep(0.05)
        self.assertFalse(is_running(int((self.folder / "number").read_text())))

    def test_without_solvers(self):
        with Solvers([]) as solvers:
            self.assertEqual(solvers.check(TRUE_QUESTION), Answer(Word.UNKNOWN, {}, {}))


class Questions(unittest.TestCase):
    def test_those_of_the_program(self):
        script = "; leaf 1\n(set-logic NRA)\n(assert true)\n(check-sat)\n; leaf 2\n(reset)\n(set-logic NRA)\n(check-sat)\n"
        self.assertEqual(questions(script), ["(set-logic NRA)\n(assert true)\n", "(set-logic NRA)\n"])
        self.assertEqual(questions(""), [])
        self.assertEqual(question("(assert (or (reset) false))\n"), "(assert (or (reset) false))\n")


class Installed(unittest.TestCase):
    """The solvers that are installed, each by itself."""

    def each(self):
        for name in ("z3", "cvc5"):
            with self.subTest(name):
                if shutil.which(name) is None:
                    self.skipTest(f"{name} isn't installed")
                with Solvers([name], seconds=20) as solvers:
                    yield solvers

    def test_answers_one_after_another(self):
        for solvers in self.each():
            for _ in range(3):
                solvers.known.clear()
                self.assertTrue(solvers.holds(TRUE_QUESTION))
                answer = solvers.check(FALSE_QUESTION)
                self.assertEqual((answer.word, answer.values["g()"]), (Word.FALSE, "-3"))
                self.assertIn(answer.values["x"], ("-1.5", "-3/2"))

    def test_a_wrong_question_is_unknown(self):
        for solvers in self.each():
            self.assertEqual(solvers.check("(assert nothing)\n").word, Word.UNKNOWN)
            self.assertTrue(solvers.holds(TRUE_QUESTION))

    def test_a_long_question(self):
        many = "".join(f"(declare-const |v.x{number}| Real)\n(assert (> |v.x{number}| 0.0))\n" for number in range(20_000))
        for solvers in self.each():
            self.assertTrue(solvers.holds(many + "(assert (< |v.x7| 0.0))\n"))

    def test_several_threads(self):
        if not there():
            self.skipTest("no solver is installed")
        with Solvers() as solvers:
            texts = [TRUE_QUESTION.replace("0.0", f"(- {number}.0)") for number in range(12)]
            threads = [threading.Thread(target=lambda text=text: solvers.check(text)) for text in texts]
            for thread in threads:
                thread.start()
            for thread in threads:
                thread.join()
            self.assertEqual({solvers.check(text).word for text in texts}, {Word.VALID})
            self.assertEqual(solvers.asked, len(texts))


if __name__ == "__main__":
    unittest.main()
