"""Wrong bodies that are tried together: which may stand in a crate at the same time, and what the prover's words say of each."""
import tempfile
import unittest
from pathlib import Path

import helping  # noqa: F401  (puts dev/ on the path)
import rounds

SOURCE = """/// One more.
fn one_more(n: u32) -> u32
    ensures { result ≡ n + 1 }
{
    n + 1
}

impl Counter {
    /// Twice.
    pub fn twice(&self) -> u32 {
        one_more(self.n) + self.n
    }

    pub fn none(&self) -> u32 {
        0
    }
}
"""
EDITS = {
    "adds_nothing": "file: src/count.rt\nold:     n + 1\nnew:     n\n",
    "once": "file: src/count.rt\nold:         one_more(self.n) + self.n\nnew:         one_more(self.n)\n",
    "some": "file: src/count.rt\nold:         0\nnew:         1\n",
}
SAID = """./proofs/count/Counter/none/Answers.antt:7:5: error: `returns-clause-zero`: as printed, the two types differ
note: src/count.rt:5:5: it is not proved that what the function ensures holds when it returns (`returns`); `search` gave up at one of its limits
fn it::count::one_more: no proof: expected answers in ./proofs/count/one_more/Answers.antt; `search` did not prove `returns`
fn it::count::Counter::twice: no proof: it calls `it::count::one_more`, which is not proved
fn it::count::Counter::none: not proved
logic=not-proved
"""


class Rounds(unittest.TestCase):
    """A crate of one file, with its wrong bodies."""

    def setUp(self):
        self.folder = Path(self.enterContext(tempfile.TemporaryDirectory()))
        (self.folder / "src").mkdir()
        (self.folder / "src" / "count.rt").write_text(SOURCE)

    def body(self, name):
        """A wrong body of this name."""
        edit = self.folder / f"{name}.edit"
        edit.write_text(EDITS[name])
        return rounds.body_of(self.folder, name, edit)

    def test_tells_the_function_of_a_change(self):
        self.assertEqual(self.body("adds_nothing").functions, {("src/count.rt", "one_more")})
        self.assertEqual(self.body("once").functions, {("src/count.rt", "twice")})
        self.assertEqual(rounds.function_at(SOURCE, SOURCE.index("impl")), ("", range(0)))

    def test_keeps_apart_what_names_the_other(self):
        chosen = rounds.next_round(self.folder, [self.body("adds_nothing"), self.body("once"), self.body("some")], 24)
        self.assertEqual([it.name for it in chosen], ["adds_nothing", "some"])

    def test_tells_what_the_prover_says_of_each(self):
        come = rounds.own_failure(SAID, self.body("adds_nothing"))
        self.assertEqual((come.kind, come.why), ("refused", " at src/count.rt:5, returns, where the search gave up"))
        come = rounds.own_failure(SAID, self.body("some"))
        self.assertEqual((come.kind, come.why), ("refused", " at proofs/count/Counter/none, zero"))
        self.assertIsNone(rounds.own_failure(SAID, self.body("once")))

    def test_tells_what_came_of_one_alone(self):
        self.assertEqual(rounds.come_alone("logic=proved functions=3").kind, "NOT REFUSED")
        self.assertEqual(rounds.come_alone(SAID).kind, "refused")


if __name__ == "__main__":
    unittest.main()
