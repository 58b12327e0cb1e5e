"""Tests of what `dev/copies.py` lists."""

import subprocess
import sys
import tempfile
import unittest
from pathlib import Path

TOOLS = Path(__file__).resolve().parent.parent / "dev"

ONE = """-- a comment
use Rattle.std.specs.Prelude.{◌≡◌}

-- the first
pub same : (a b : Bool) → a ≡ b
same true b = refl
same false b =
    refl

other : ℕ
other = 0
"""
TWO = """same : (a b : Bool) → a ≡ b
same true b = refl
same false b =
    refl

other : ℕ
other = 1
"""

INNER = """module _ (b : Bool) where
  pub twice : Bool → Bool
  twice true = b
  twice false = false

  row : Bool
"""
BEHIND = """all : Bool → Bool
all a = twice a
  where
    twice : Bool → Bool
    twice true = b
    twice false = false
"""


def listed(files, *words):
    """What is listed of a checkout with these files."""
    with tempfile.TemporaryDirectory() as folder:
        for name, text in files.items():
            file = Path(folder, "crates", name)
            file.parent.mkdir(parents=True, exist_ok=True)
            file.write_text(text)
        run = subprocess.run([sys.executable, TOOLS / "copies.py", folder, *words], capture_output=True, text=True, check=True)
        return run.stdout.splitlines()


class Copies(unittest.TestCase):
    def test_a_lemma_in_two_crates(self):
        said = listed({"a/proofs/One.antt": ONE, "b/specs/Two.antt": TWO})
        self.assertEqual(said[0], "4 of 4: same : (a b : Bool) → a ≡ b")
        self.assertEqual(sorted(said[1:3]), ["    crates/a/proofs/One.antt pub", "    crates/b/specs/Two.antt"])
        self.assertEqual(said[3:], ["1 copies in 1 groups, 4 lines"])

    def test_a_lemma_in_a_module_and_behind_where(self):
        said = listed({"a/proofs/One.antt": INNER, "b/proofs/Two.antt": BEHIND})
        self.assertEqual(said[:3], ["3 of 3: twice : Bool → Bool", "    crates/a/proofs/One.antt pub", "    crates/b/proofs/Two.antt"])
        self.assertEqual(said[3:], ["1 copies in 1 groups, 3 lines"])

    def test_what_is_part_of_a_longer_copy_is_left_out(self):
        said = listed({"a/proofs/One.antt": BEHIND, "b/proofs/Two.antt": BEHIND})
        self.assertEqual(said[0], "6 of 6: all : Bool → Bool")
        self.assertEqual(said[3:], ["1 copies in 1 groups, 6 lines"])

    def test_what_is_short_is_left_out(self):
        self.assertEqual(listed({"a/proofs/One.antt": ONE, "b/proofs/Two.antt": TWO}, "--least", "5"), ["0 copies in 0 groups, 0 lines"])

    def test_what_code_declares_is_not_looked_at(self):
        self.assertEqual(listed({"a/specs/declared/One.antt": ONE, "b/proofs/Two.antt": TWO}), ["0 copies in 0 groups, 0 lines"])


if __name__ == "__main__":
    unittest.main()
