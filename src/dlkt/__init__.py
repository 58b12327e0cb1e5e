"""What stands round dlk, the theorem prover: one verdict, solvers, pages, search, archives. It claims nothing; the program does."""

__version__ = "1.0.0"
