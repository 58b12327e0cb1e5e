"""What the tests of the search share: a case whose tools have the solvers of this machine."""

import shutil
import unittest

from helping import Case, is_built

Z3 = shutil.which("z3")
needs_search = unittest.skipUnless(is_built() and Z3, "the search needs the built program and z3")


class SearchCase(Case):
    """A test whose tools find z3 and cvc5, where they are installed."""

    def setUp(self):
        super().setUp()
        self.solvers = self.folder / "solvers"
        self.solvers.mkdir()
        for name in ("z3", "cvc5"):
            found = shutil.which(name)
            if found:
                (self.solvers / name).symlink_to(found)

    def searched(self, model, *words):
        """What `dlkt auto` does with the text of a model."""
        return self.tool("auto", self.file("model", model), *words)

    def assert_verified(self, model, strategy):
        """That a strategy is verified for a model."""
        run = self.tool("verify", self.file("model", model), self.file("strategy", strategy))
        self.assertEqual(run.returncode, 0, run.stdout + run.stderr)
