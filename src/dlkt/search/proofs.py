"""Proofs for `dlkt verify`: a sketch as a plain strategy, or a strategy that is found where none is named.

What comes out is what is judged, with a name that says where it is from.
"""

import tempfile
from pathlib import Path
from typing import NamedTuple, Sequence

from dlkt.program import TERM_BEGINS, program_of, read_bytes
from dlkt.search.finding import Found, Options, found
from dlkt.search.lemmas import linked
from dlkt.search.sketches import is_sketch
from dlkt.verdict import Source

MOST_REASONS = 8


class NotFound(NamedTuple):
    """Why there is no proof, a line each; whether it is a run that breaks the model; and all that came of the search."""

    reasons: Sequence[str]
    is_refuted: bool
    result: Found


def reasons_of(result: Found) -> NotFound:
    """Why there is no strategy."""
    return NotFound([*(result.values or result.reasons[-MOST_REASONS:])] or ["nothing is found"], result.is_refuted, result)


def by_search(model: str, program: str | None) -> Source | NotFound:
    """A strategy that is found for a model, or why none is."""
    result = found(model, Options(program=program_of(program)))
    if result.strategy is None or not result.is_whole:
        return reasons_of(result)
    return Source("the strategy that is found", result.strategy.encode("latin-1"))


def by_sketch(model: str, proof: Source, program: str | None) -> Source | NotFound:
    """A proof as it is; a sketch as a plain strategy, or as a term where it uses lemmas, or why it can't be turned."""
    text = proof.data.decode("latin-1")
    if proof.data.startswith(TERM_BEGINS) or not is_sketch(text):
        return proof
    result = found(model, Options(program=program_of(program), sketch=text, folder=Path(proof.name).parent))
    if result.strategy is None:
        return reasons_of(result)
    if not result.lemmas:
        return Source(f"{proof.name} as a plain strategy", result.strategy.encode("latin-1"))
    with tempfile.TemporaryDirectory() as folder:
        term = Path(folder) / "term"
        linked(program_of(program), model, result.strategy, result.lemmas, term)
        return Source(f"{proof.name} as a term", read_bytes(term))
