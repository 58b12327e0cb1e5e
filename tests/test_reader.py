"""Compares the reader of texts with the program: what it reads prints as `dlk print` prints it, and it refuses what `dlk` refuses."""

import subprocess
import sys
import unittest
from concurrent.futures import ThreadPoolExecutor

from helping import Case, PROGRAM, ROOT, needs_program
from texts import Maker
from dlkt import reader
from dlkt.program import refusal_in
from dlkt.trees import Trees, text

HOW_MANY = 2_000
SYSTEM = ",".join(f"x{number}'=1" for number in range(64))
# Texts at the limits, and one past each.
LIMITS = [
    "!" * 999 + "true", "!" * 1000 + "true", "(" * 1200 + "x>=0" + ")" * 1200, "(" * 1201 + "x>=0" + ")" * 1201, ")(" * 1201,
    "x>=" + "1" * 38, "x>=" + "1" * 39, "x>=0." + "1" * 37, "x>=0." + "1" * 38, "x>=0." + "0" * 38, ")" + "1" * 39,
    "(" * 1201 + "1" * 39, "(" * 1201 + "#", "f(" + "x," * 7 + "x)>0", "f(" + "x," * 8 + "x)>0", "p(" + "x," * 8 + "x)", "f(f(" + "x," * 8 + "x))>0",
    f"[{{{SYSTEM}}}]true", f"[{{{SYSTEM},c}}]true", f"[{{{SYSTEM},c,c}}]x>", "[{x'=1,x'=2}]x>0", "[{x'=1,c,c}]x>0",
    "[{x:=1;}*@invariant([{x'=1,x'=2}]x>0)]x>0", "+".join(["x"] * 999) + ">0", "+".join(["x"] * 1000) + ">0", "(" * 500 + "x" + "+x)" * 500 + ">0",
    "&".join(["x>0"] * 999), "&".join(["x>0"] * 1001), "x>=0/*", "x>=0 // no end", "/* * /", "x>=0 \x0b", "", " ", "(", "._8>0", "x>=0 /* \xe4 */",
    "\xef\xbb\xbfx>=0",
]


def wide(depth):
    """A sum of 2 to the power of the depth variables."""
    return "x" if depth == 0 else f"({wide(depth - 1)}+{wide(depth - 1)})"


@needs_program
class Compared(Case):
    """What the reader says of a text, and what the program says."""

    def setUp(self):
        super().setUp()
        limit = sys.getrecursionlimit()
        self.addCleanup(sys.setrecursionlimit, limit)
        sys.setrecursionlimit(max(limit, 60_000))

    def printed(self, numbered):
        """What the program prints of a text."""
        number, data = numbered
        path = self.folder / f"text{number}"
        path.write_bytes(data)
        return subprocess.run([PROGRAM, "print", path], capture_output=True, check=False).stdout.decode("latin-1")

    def told(self, texts):
        """Pairs of a text and of what the program prints of it."""
        with ThreadPoolExecutor(2) as pool:
            return list(zip(texts, pool.map(self.printed, enumerate(it.encode("latin-1") for it in texts))))

    def compare(self, told):
        """Compares the two. How many texts are refused, and of how many at the same byte."""
        refused, same = 0, 0
        for source, printed in told:
            try:
                read = text(reader.expression(source, Trees())) + "\n"
            except reader.Wrong as wrong:
                self.assertTrue(printed.startswith("refused: "), f"{source!r}: {wrong}, but the program prints {printed!r}")
                said = refusal_in(printed)
                self.assertEqual(wrong.why, said.why if said else printed.split(" ")[2], f"{source[:200]!r}: {printed!r}")
                refused += 1
                same += said is None or said.byte == wrong.byte
                self.assertTrue(wrong.why == "syntax" or said is None or said.byte == wrong.byte, f"{source[:200]!r}: {wrong}, {printed!r}")
            else:
                self.assertEqual(read, printed, repr(source))
        return refused, same

    def test_examples(self):
        paths = [*ROOT.glob("examples/**/model"), *(path for path in ROOT.glob("examples/models/*") if path.is_file())]
        self.assertGreater(len(paths), 20)
        self.compare(self.told([path.read_text(encoding="latin-1") for path in sorted(paths)]))
        for path in paths:
            reader.model(path.read_text(encoding="latin-1"), Trees())

    def test_random_texts(self):
        maker = Maker(1)
        told = self.told([maker.text() for _ in range(HOW_MANY)])
        refused, same = self.compare(told)
        self.assertGreater(refused, HOW_MANY // 4)
        self.assertGreater(HOW_MANY - refused, HOW_MANY // 4)
        self.assertGreater(same, refused * 9 // 10)

    def test_limits(self):
        self.compare(self.told([*LIMITS, f"{wide(14)}>0", f"{wide(15)}>0", f"{wide(15)}+x>0"]))

    def test_models_have_no_dots(self):
        maker, strategy = Maker(2), self.file("strategy", "nil")
        for number, source in enumerate(["_", "._0>0", "[{x:=1;}*@invariant(_)]x>0", *(maker.text() for _ in range(60))]):
            name = self.file(f"model{number}", source.encode("latin-1"))
            run = subprocess.run([PROGRAM, "prove", name, strategy, self.folder / "term"], capture_output=True, check=False)
            with self.subTest(source):
                printed = run.stdout.decode("latin-1")
                try:
                    read = text(reader.model(source, Trees())[0])
                except reader.Wrong:
                    self.assertTrue(printed.startswith("refused: model"), printed)
                else:
                    self.assertIn(f"\nconclusion ==> {read}\n", printed)


class Notes(unittest.TestCase):
    def test_annotations(self):
        tree, notes = reader.model("[{{x'=1}@invariant(x>0)}*@invariant(x>=0, y>0)]x>=0", Trees())
        self.assertEqual([(text(note.program), [*map(text, note.formulas)]) for note in notes], [("{x'=1}", ["x>0"]), ("{{x'=1}}*", ["x>=0", "y>0"])])
        self.assertEqual(text(tree), "[{{x'=1}}*]x>=0")


if __name__ == "__main__":
    unittest.main()
