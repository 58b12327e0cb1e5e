"""The words of Bellerophon and their counterparts in strategies of dlk."""

AUTO = "auto"
LEFT_RULES = {
    "notL": "notL", "andL": "andL", "orL": "orL", "implyL": "implyL", "equivL": "equivL", "hideL": "hideL", "existsL": "skolemL",
    "commuteEquivL": "commuteEquivL", "closeF": "closeFalse", "closeFalse": "closeFalse", "skolemL": "skolemL",
}
RIGHT_RULES = {
    "notR": "notR", "andR": "andR", "orR": "orR", "implyR": "implyR", "equivR": "equivR", "hideR": "hideR", "allR": "skolemR", "cohideR": "coHideR",
    "commuteEquivR": "commuteEquivR", "equivifyR": "equivifyR", "closeT": "closeTrue", "closeTrue": "closeTrue", "skolemR": "skolemR",
}
AXIOMS = {
    "composeb": "composeb", "choiceb": "choiceb", "testb": "testb", "randomb": "randomb", "iterateb": "iterateb", "diamondd": "diamond",
    "diamond": "diamond", "GV": "V", "V": "V", "vacuousb": "V",
}
BY_TITLE = {
    "[:=] assign": "assignb", "[:=] assign equality": "assigneq", "[;] compose": "composeb", "[++] choice": "choiceb", "[?] test": "testb",
    "[:*] assign nondet": "randomb", "[*] iterate": "iterateb", "<> diamond": "diamond", "V vacuous": "V", "[':=] differential assign": "dassignb",
}
ONE_STEP = ("assignb", "dassignb", "composed", "choiced", "testd", "randomd", "assignd")
PLAIN = {"prop": "prop", "propClose": "prop", "id": "close", "close": "close", "nil": "nil", "skip": "nil", "todo": "nil", "pending": "nil", "step": "step(1)"}
LEAVES = ("QE", "smartQE", "rcf", "qe")
NOTHING = ("expand", "expandAllDefs", "expandAll", "print", "printIndexed", "label", "done")
PASSED = ("hideFactsAbout", "exhaustiveEqL2R", "exhaustiveEqR2L", "allL2R", "allR2L", "eqL2R", "eqR2L", "applyEqualities", "simplify", "transformEquality")
SEARCHES = (
    "auto", "master", "autoClose", "ODE", "odeInvC", "solve", "dI", "diffInvariant", "dbx", "barrier", "dgDbx", "dgBarrier", "odeInv", "solveEnd",
    "dRI", "bifurcation", "explore", "dIX", "dRi",
)
UNFOLDS = ("unfold", "normalize", "unfoldProgramNormalize")
# For the goals of an atom: which of dlk's goals a label of KeYmaera X names.
LABELS = {
    "loop": {"init": 0, "step": 1, "body": 1, "post": 2, "use": 2},
    "dC": {"use": 0, "show": 1},
    "cut": {"use": 0, "show": 1},
    "dIRule": {"di init": 0, "init": 0, "di step": 1, "step": 1},
    "MR": {"show [a]q": 0, "show": 0, "use q->p": 1, "use": 1},
}
GOALS = {"loop": 3}  # and two for the other atoms with labels
POSITIONAL = {"loop": (0, 2, 1)}  # KeYmaera X leaves init, use, step; dlk init, step, use
MOST_REPEATS, USUAL_REPEATS = 1000, 100
