"""The search for strategies above the kernel: `found` gives a strategy for a model, `expand_sketch` the plain strategy of a sketch.

Nothing here is trusted. A search writes ordinary strategies: `dlk prove` runs them, `dlk guard` looks at each line of their terms, and the solvers
at each leaf. So a mistake here costs time, and never makes a wrong formula `verified`.

    finding     a search as a whole              shapes      by the shape of the goal: which method is next
    context     budgets, annotations, reasons    kernel      the program as an oracle        solver    z3, with what it has said
    loops       invariants, Houdini              interface   cuts behind controllers of many ways
    plans       a system: methods in order       pool        candidates for cuts             systems   facts along a system
    darboux     cofactors                        cuts        the texts of cuts               freezing  u'=0
    conserved   linear algebra                   splits      cases by signs                  coupled   Perron vectors
    solutions   by the solution                  barriers    templates                       oldvalues names for old values
    runs        diamonds by a run                leftboxes   boxes on the left               witnesses quantifiers
    sketches    words that the tool turns        lemmas      proofs from other folders       writing   texts laid out
"""

from dlkt.search.finding import Annotations, Found, Options, expand_line, expand_sketch, found

__all__ = ["Annotations", "Found", "Options", "expand_line", "expand_sketch", "found"]
