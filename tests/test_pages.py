"""What is looked at in the pages: the tables of crates that a script makes, and links that lead nowhere."""
import contextlib
import io
import tempfile
import unittest
from pathlib import Path
from unittest import mock

import helping  # noqa: F401  (puts dev/ on the path)
import layers
import links

CRATES = """# name: what it stands on
one: outside
two: one
three: one two
dlk_tests_three: one two three
"""
PAGE = f"# Crates\n\n{layers.FIRST}\n\nold\n\n{layers.LAST}\n\nBehind.\n"


class Checkout(unittest.TestCase):
    """A checkout of four crates and two pages."""

    def setUp(self):
        self.folder = Path(self.enterContext(tempfile.TemporaryDirectory())).resolve()
        self.enterContext(mock.patch.object(layers, "ROOT", self.folder))
        self.enterContext(mock.patch.object(layers, "PAGE", self.folder / "docs" / "ARCHITECTURE.md"))
        self.enterContext(mock.patch.object(links, "ROOT", self.folder))
        links.anchors.cache_clear()
        self.file("crates.txt", CRATES)
        for name in ("one", "two", "three", "dlk_tests_three"):
            self.file(f"crates/{name}/src/lib.rt", f"//! What {name} is,\n//! in two lines. More of it.\n\nmod it;\n")
        self.file("docs/ARCHITECTURE.md", PAGE)

    def file(self, name, text):
        """A file of the checkout."""
        path = self.folder / name
        path.parent.mkdir(parents=True, exist_ok=True)
        path.write_text(text)

    def run_of(self, script, *words):
        """The status with which a script ends, and what it prints."""
        said = io.StringIO()
        with mock.patch("sys.argv", [script.__name__, *words]), contextlib.redirect_stdout(said), contextlib.redirect_stderr(said):
            try:
                status = script.main()
            except SystemExit as end:
                status = end.code
        return status, said.getvalue()


class Layers(Checkout):
    def test_next_below_are_those_from_which_the_others_follow(self):
        used = layers.uses()
        self.assertEqual({name: layers.nearest(name, used) for name in used}, {"one": [], "two": ["one"], "three": ["two"], "dlk_tests_three": ["three"]})
        self.assertEqual([layers.layer(name, used) for name in used], [1, 2, 3, 4])

    def test_a_crate_is_what_its_first_sentence_says(self):
        self.assertEqual(layers.told("one"), "What one is, in two lines")

    def test_tables_are_written_and_compared(self):
        self.assertEqual(self.run_of(layers, "--check")[0], 1)
        self.assertEqual(self.run_of(layers, "--write")[0], 0)
        self.assertEqual(self.run_of(layers, "--check"), (0, "4 crates stand in docs/ARCHITECTURE.md as they are\n"))
        text = (self.folder / "docs" / "ARCHITECTURE.md").read_text()
        self.assertIn("| 3 | `three` | What three is, in two lines | `two` |\n", text)
        self.assertTrue(text.startswith("# Crates\n") and text.endswith("\n\nBehind.\n"))
        self.file("crates/two/src/lib.rt", "//! Another thing.\n")
        status, said = self.run_of(layers, "--check")
        self.assertEqual((status, "`two` | Another thing | `one`" in said), (1, True))

    def test_what_is_missing_is_told(self):
        self.file("crates/two/src/lib.rt", "mod it;\n")
        self.assertEqual(self.run_of(layers), (1, "layers.py: crates/two/src/lib.rt doesn't begin by saying what it is\n"))
        self.file("docs/ARCHITECTURE.md", "# Crates\n")
        self.file("crates/two/src/lib.rt", "//! Two.\n")
        self.assertEqual(self.run_of(layers, "--write"), (1, f"layers.py: docs/ARCHITECTURE.md lacks a line of comment: {layers.FIRST}\n"))


class Links(Checkout):
    def test_links_that_lead_somewhere(self):
        self.file("README.md", "# One\n\n[a](docs/ARCHITECTURE.md#crates) [b](#one) [c](crates) [d](https://example.org/#x) `[e](none)`\n```\n[f](none)\n```\n")
        self.assertEqual(self.run_of(links), (0, "2 pages, 0 links that lead nowhere\n"))

    def test_links_that_lead_nowhere(self):
        self.file("README.md", "# What `closed` doesn't say\n[a](#what-closed-doesnt-say)\n[b](docs/NONE.md)\n[c](docs/ARCHITECTURE.md#one)\n")
        status, said = self.run_of(links)
        self.assertEqual(status, 1)
        self.assertEqual(said.splitlines(), [
            "README.md:3: docs/NONE.md: there is no docs/NONE.md",
            "README.md:4: docs/ARCHITECTURE.md#one: docs/ARCHITECTURE.md has no heading one",
            "2 pages, 2 links that lead nowhere",
        ])


if __name__ == "__main__":
    unittest.main()
