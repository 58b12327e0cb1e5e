"""The one table of the calculus, as docs/CALCULUS.md and docs/STRATEGIES.md list it: axioms with their forms, rules with how many premises they
have, axiomatic rules, words of strategies. The table of operators is that of `dlkt.trees`. tests/test_calculus.py compares both with the documents.
"""

# The form of each axiom: E equivalence, Q equation, C conditional equivalence, R conditional equation, I implication, F fact.
AXIOMS = {
    **dict.fromkeys(
        "diamond assignb assigneq selfassign dassignb randomb testb choiceb composeb iterateb DWeq DE DEsys ODEswap DG DS Deq Dne Dge"
        " Dgt Dle Dlt Dand Dor Dimply Dforall existsdual".split(),
        "E",
    ),
    **dict.fromkeys("Dconst Dvar Dplus Dminus Dneg Dtimes Dquot".split(), "Q"),
    **dict.fromkeys("DC DI eqcongr".split(), "C"),
    **dict.fromkeys("Dpow".split(), "R"),
    **dict.fromkeys("K I V allinst alldist allvac".split(), "I"),
    **dict.fromkeys("DW eqrefl".split(), "F"),
}

# How many premises each rule has.
PREMISES = {
    **dict.fromkeys("close closeTrue closeFalse".split(), 0),
    **dict.fromkeys(
        "notL notR andL orR implyR equivL hideL hideR coHideR exchangeL exchangeR skolemL skolemR boundL boundR equivifyR commuteEquivL"
        " commuteEquivR".split(),
        1,
    ),
    **dict.fromkeys("andR orL implyL equivR cut cutL cutR".split(), 2),
}

# The premise and the conclusion of each axiomatic rule.
AXIOMATIC_RULES = {
    "G": ("p(||)", "[a;]p(||)"),
    "allgen": ("p(||)", "\\forall x_ p(||)"),
    "mon": ("p(||) -> q(||)", "<a;>p(||) -> <a;>q(||)"),
    "CT": ("f(||)=g(||)", "h(f(||))=h(g(||))"),
    "CQ": ("f(||)=g(||)", "p(f(||)) <-> p(g(||))"),
    "CE": ("p(||) <-> q(||)", "C{p(||)} <-> C{q(||)}"),
}

# How many `( )'` each axiom of differentials leaves, of those that `derive` uses.
DERIVES = {
    "Dvar": 0, "Dconst": 0, "Dneg": 1, "Dpow": 1, "Dforall": 1, "Dplus": 2, "Dminus": 2, "Dtimes": 2, "Deq": 2, "Dne": 2, "Dge": 2,
    "Dgt": 2, "Dle": 2, "Dlt": 2, "Dand": 2, "Dor": 2,
}

LIBRARY = ("loop", "dW", "dC", "dI", "dG", "step", "prop")
OTHER_WORDS = ("nil", "leaf", "useAt", "useBack", "G", "boxCut", "derive")

# The words by which `prop` takes a goal apart, in its order, and the axioms that `step` tries, in its order.
CONNECTIVES = "close closeTrue closeFalse notL notR andL orR implyR equivL andR orL implyL equivR".split()
STEPS = "assignb dassignb assigneq testb choiceb composeb randomb diamond".split()


def is_word(name: str) -> bool:
    """Whether a strategy may have an atom of this name."""
    return name in PREMISES or name in LIBRARY or name in OTHER_WORDS
