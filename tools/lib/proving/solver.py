"""Asks the solver cadical whether clauses imply others in a graph, and cvc5 for a second opinion."""

import shutil
import subprocess

from ..scenarios.bundles import Refused

SOLVER = "cadical"
INSTALL = "apt install cadical (Debian and Ubuntu) installs it"
SATISFIABLE, UNSATISFIABLE = 10, 20
# The seconds that one query may take, and that one second opinion may take.
MOST_SECONDS = 600
SECOND, SECOND_SECONDS = "cvc5", 60


def solver_at():
    """The path of the solver."""
    found = shutil.which(SOLVER)
    if found is None:
        raise Refused(f"{SOLVER} is not installed: {INSTALL}")
    return found


def number(literal):
    """A literal of a graph as a number of the form DIMACS. The node of false is a variable too."""
    variable = (literal >> 1) + 1
    return -variable if literal & 1 else variable


def formula(graph, given, wanted):
    """The clauses, as text, that can be satisfied if some given clauses do not imply the wanted ones in a graph."""
    lines = []

    def add(*literals):
        lines.append(" ".join(str(number(it)) for it in literals) + " 0")

    # Node 0 is false.
    add(1)
    for node, one, two in graph.gates:
        add(2 * node + 1, one)
        add(2 * node + 1, two)
        add(2 * node, one ^ 1, two ^ 1)
    for clause in given:
        add(*clause)
    # One of the wanted clauses is false: a variable for each selects it.
    selectors = [2 * (graph.count + at) for at in range(len(wanted))]
    for clause, selector in zip(wanted, selectors):
        for literal in clause:
            add(selector ^ 1, literal ^ 1)
    add(*selectors)
    return f"p cnf {graph.count + len(wanted)} {len(lines)}\n" + "\n".join(lines) + "\n"


def in_smt(text):
    """A formula of the form DIMACS in SMT-LIB."""
    head, *clauses = text.splitlines()
    lines = ["(set-logic QF_UF)", *(f"(declare-const v{at} Bool)" for at in range(1, int(head.split()[2]) + 1))]
    for clause in clauses:
        words = " ".join(f"(not v{it[1:]})" if it[0] == "-" else f"v{it}" for it in clause.split()[:-1])
        lines.append(f"(assert (or false {words}))")
    return "\n".join([*lines, "(check-sat)"]) + "\n"


class SecondOpinion:
    """Asks cvc5 whether formulas that cadical calls unsatisfiable are so."""

    def __init__(self):
        self.path, self.asked, self.confirmed = shutil.which(SECOND), 0, 0
        if self.path is None:
            raise Refused(f"{SECOND} is not installed: apt install {SECOND} (Debian and Ubuntu) installs it")

    def take(self, text):
        """Takes a formula. One that cvc5 satisfies is a fault of one of the two."""
        self.asked += 1
        ran = subprocess.run([self.path, "--lang=smt2", f"--tlimit={SECOND_SECONDS * 1000}", "-"], check=False,
                             input=in_smt(text).encode(), stdout=subprocess.PIPE, stderr=subprocess.DEVNULL)
        if ran.stdout.startswith(b"sat"):
            raise Refused(f"{SOLVER} and {SECOND} differ: one of them has a fault")
        self.confirmed += ran.stdout.startswith(b"unsat")

    def words(self):
        """Which solvers have checked all formulas."""
        if self.asked == self.confirmed:
            return f"{SOLVER} and {SECOND}"
        return f"{SOLVER} ({SECOND} confirms {self.confirmed} of {self.asked} queries)"


def implied(graph, given, wanted, second=None):
    """Whether some clauses imply others in a graph. Literals belong to the graph."""
    if not wanted:
        return True
    text = formula(graph, given, wanted)
    try:
        ran = subprocess.run([solver_at(), "-q"], input=text.encode(),
                             stdout=subprocess.DEVNULL, stderr=subprocess.DEVNULL, timeout=MOST_SECONDS, check=False)
    except subprocess.TimeoutExpired as why:
        raise Refused(f"{SOLVER} found no answer in {MOST_SECONDS} s") from why
    if ran.returncode not in (SATISFIABLE, UNSATISFIABLE):
        raise Refused(f"{SOLVER} ended with {ran.returncode}")
    if second and ran.returncode == UNSATISFIABLE:
        second.take(text)
    return ran.returncode == UNSATISFIABLE
