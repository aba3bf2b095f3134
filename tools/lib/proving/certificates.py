"""Certificates: invariants as clauses, with the data that another solver needs to check them.

A certificate is a JSON object: the design and its root, the values of the inputs, the ranges and strides of variables,
and the steps of the proof. A step has a formula (the first one has none: it is that no round leaves ranges and
strides), the components that it includes, the lemmas (properties of earlier steps) and the clauses. A clause is a list
of literals `NAME:BIT` or `-NAME:BIT`; one of them holds before each round.
"""

import json
import os

from ..scenarios.bundles import Refused
from .circuit import Facts
from .engine import Job, first_of
from .solver import implied

FORM = "pals-certificate 1"


def invariant(circuit, seconds):
    """The clauses of an invariant of a circuit: lists of (name, bit, value). The engine reads the graph as it is."""
    path = f"{circuit.stem}.pla"
    job = Job(circuit, "inv", f"pdr -d -I {path} -T {max(1, round(seconds))}", seconds)
    if first_of([job]).verdict != "proved" or not os.path.exists(path):
        raise Refused("the engine found no invariant of the graph as it is: give it more --seconds")
    with open(path, "r", encoding="ascii") as file:
        return clauses_in(file.read(), circuit)


def clauses_in(text, circuit):
    """The clauses of the engine's file: a line with a cube of latches that no round reaches is a clause negated."""
    names, found = [], []
    for line in text.split("\n"):
        if line.startswith(".ilb"):
            names = [circuit.graph.latches[int(word[2:])][1] for word in line.split()[1:]]
        elif line and line[0] in "01-":
            firsts = {name: circuit.first_bit(*name) for name in names}
            found.append([(*name, int(value) ^ 1 ^ firsts[name]) for name, value in zip(names, line.split()[0])
                          if value != "-"])
    return found


def text_of(clause):
    """A clause as a certificate has it."""
    return [f"{'' if value else '-'}{name}:{bit}" for name, bit, value in clause]


class Certificate:
    """A certificate that grows by a step for each proved property."""

    def __init__(self, opened, words, questions, seconds):
        self.questions, self.seconds = questions, seconds
        terms, facts = questions.terms, questions.facts
        self.data = {
            "form": FORM, "root": opened.root, "design": opened.design.decode(), "inputs": words,
            "ranges": {terms.name(it): list(found) for it, found in facts.ranges.items() if it not in questions.inputs},
            "strides": {terms.name(it): list(found) for it, found in facts.strides.items()}, "steps": []}
        if self.data["ranges"] or self.data["strides"]:
            self.add(None, questions.facts_query(facts), questions.all_paths(), [])

    def add_answer(self, name, answer):
        """Adds the step of a proved property."""
        query = self.questions.query(name, answer.paths, answer.lemmas)
        self.add(name, query, answer.paths, answer.lemmas)

    def add(self, name, query, paths, lemmas):
        """Adds a step with an invariant of its own."""
        clauses = invariant(self.questions.circuit(query), self.seconds)
        self.data["steps"].append({"property": name, "formula": self.questions.forms.get(name),
                                   "components": sorted(paths), "lemmas": lemmas,
                                   "clauses": list(map(text_of, clauses))})

    def write(self, path):
        """Writes the certificate."""
        with open(path, "w", encoding="utf-8") as file:
            json.dump(self.data, file, indent=1)
            file.write("\n")


def read_certificate(data):
    """The object of a certificate."""
    try:
        found = json.loads(data.decode("utf-8"))
        if found["form"] != FORM:
            raise Refused(f"the form of the certificate is not {FORM}")
        texts = (found["root"], found["design"], *found["inputs"])
        if not all(isinstance(it, str) for it in texts) or not isinstance(found["steps"], list):
            raise Refused("a part of the certificate has another kind")
    except (ValueError, TypeError, KeyError, AttributeError, UnicodeDecodeError, RecursionError) as why:
        raise Refused("this is not a certificate") from why
    return found


def forms_in(data):
    """The formulas of the steps of a certificate, by the names of properties."""
    try:
        return {it["property"]: it["formula"] for it in data["steps"] if it["property"] is not None}
    except (KeyError, TypeError) as why:
        raise Refused("a step of the certificate has no property") from why


def facts_in(questions, data):
    """The ranges and strides of a certificate. The first value of each variable has to keep them."""
    names = {questions.terms.name(it): it for it in questions.machine.next}
    ranges = {names[name]: (int(low), int(high)) for name, (low, high) in data["ranges"].items()}
    strides = {names[name]: (int(divisor), int(rest)) for name, (divisor, rest) in data["strides"].items()}
    facts = Facts({**questions.inputs, **ranges}, strides)
    if any(low > high for low, high in ranges.values()) or any(divisor < 2 for divisor, _ in strides.values()):
        raise Refused("a range or a stride of the certificate has no meaning")
    questions.take_facts(facts)
    return facts


def check_certificate(questions, data, tell=lambda text: None, second=None):
    """Checks the steps of a certificate; gives the names of the properties that they show."""
    try:
        return check_steps(questions, data, tell, second)
    except (KeyError, TypeError, ValueError, AttributeError) as why:
        raise Refused(f"the certificate has a part that has no meaning: {str(why)[:60]}") from why


def check_steps(questions, data, tell, second):
    """The same, for a certificate whose parts have a meaning."""
    shown = []
    facts = facts_in(questions, data)
    if (data["ranges"] or data["strides"]) and (not data["steps"] or data["steps"][0]["property"] is not None):
        raise Refused("the certificate has ranges, and no step that shows them")
    for number, step in enumerate(data["steps"]):
        name, lemmas = step["property"], step["lemmas"]
        tell(f"step {number + 1} of {len(data['steps'])}")
        if name is None and not number:
            query = questions.facts_query(facts)
        elif name in questions.properties and set(lemmas) <= set(shown):
            query = questions.query(name, set(step["components"]), lemmas)
        else:
            raise Refused(f"step {number + 1} of the certificate depends on a property that no earlier step shows")
        check_invariant(questions.circuit(query), step["clauses"], f"step {number + 1} ({name or 'ranges'})",
                        second)
        shown += [] if name is None else [name]
    return shown


def check_invariant(circuit, texts, what, second=None):
    """Shows by three queries that clauses hold at first, that a round keeps them, and that they give the property."""
    variables = {name: node for node, name in circuit.graph.latches}
    clauses = []
    for clause in texts:
        literals = []
        for text in clause:
            name, _, bit = text.lstrip("-").rpartition(":")
            key = (name, int(bit)) if bit.isdigit() else None
            if key not in variables:
                raise Refused(f"{what}: there is no bit {text.lstrip('-')}")
            literals.append(2 * variables[key] + (text.startswith("-") ^ circuit.first_bit(*key)))
        clauses.append(literals)
    after = dict(zip((node for node, _ in circuit.graph.latches), circuit.nexts))
    kept = [[after[it >> 1] ^ it & 1 for it in clause] for clause in clauses]
    zero = [[2 * node + 1] for node, _ in circuit.graph.latches]
    queries = {"does not hold at first": (zero, clauses), "is not kept by a round": (clauses, kept),
               "does not give the property": (clauses, [[it ^ 1] for it in circuit.outputs])}
    for fault, (given, wanted) in queries.items():
        if not implied(circuit.graph, given, wanted, second):
            raise Refused(f"{what}: the invariant {fault}")
