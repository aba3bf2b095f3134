"""The order in which the queries on a property are put: ranges first, then few components, then all of them."""

import os
import time

from .circuit import Circuit, Facts, Query
from .engine import bounded, first_of, first_proved, induction, one_step
from .interval_arithmetic import EITHER, WIDEST
from .intervals import Intervals
from .properties import Formulas, paths_in
from .strides import aligned, strides_of

# The part of a property's seconds for a query on some components, and for each try of ranges and strides.
PART = 0.2


class Fault(Exception):
    """A tool of the project is wrong: its answer is not confirmed."""


class Answer:
    """The answer to a property: the result, the paths of the components in the circuit, the names of the lemmas, and
    the seconds that it took."""

    def __init__(self, result, paths, lemmas, seconds):
        self.result, self.paths, self.lemmas, self.seconds = result, paths, lemmas, seconds


def ranges_of_inputs(machine, values):
    """The ranges of the Integer inputs: a port that is not named has the range of its type. An absent value is 0."""
    found = {}
    for port, given in values.items():
        ends = [0]
        for part in given.parts:
            ends += [part.first, part.last] if hasattr(part, "first") else []
        if machine.inputs[port][0] == "Integer":
            found[machine.inputs[port][2]] = (max(min(ends), WIDEST[0]), min(max(ends), WIDEST[1]))
    return found


class Questions:
    """The properties of a machine with the values of its inputs, and the lemmas that are proved so far."""

    def __init__(self, machine, properties, values, folder):
        self.machine, self.terms, self.folder, self.numbers = machine, machine.terms, folder, 0
        formulas = Formulas(machine)
        self.forms = properties
        self.properties = {name: formulas.term(form, name) for name, form in properties.items()}
        self.allowed = machine.allowed(values)
        self.inputs = ranges_of_inputs(machine, values)
        self.facts, self.lemmas = Facts(self.inputs), []
        # Sentences on ranges and strides that were found and could not be shown in time.
        self.unshown = []

    def all_paths(self):
        """The paths of all components."""
        return {it.path for it in self.machine.design.components}

    def circuit(self, query):
        """The circuit of a query, with its graph in a file."""
        self.numbers += 1
        made = Circuit(self.machine, query, os.path.join(self.folder, f"query{self.numbers}"))
        made.write()
        return made

    def find_facts(self, seconds, tell=lambda: None):
        """Guesses ranges and strides of the state and shows that no round leaves them; gives how many there are."""
        limit = max(PART * seconds, 1)
        guess, strides = Intervals(self.machine, self.inputs, PART * seconds).ranges, strides_of(self.machine)
        ranges = {it: found for it, found in guess.items()
                  if it in self.machine.next and found != (WIDEST if self.terms.sort(it) == "I" else EITHER)}
        exact = {it: aligned(found, strides[it]) if it in strides else found for it, found in ranges.items()}
        tries = [Facts({**self.inputs, **exact}, strides)]
        for facts in tries + [Facts({**self.inputs, **ranges})] * bool(strides):
            result = first_of([one_step(self.circuit(self.facts_query(facts)), limit)], tell)
            if result.verdict == "false":
                raise Fault("a round leaves a range or a stride that the tool has found")
            if result.verdict == "proved":
                self.take_facts(facts)
                return len(ranges) + len(facts.strides)
            kind = "strides" if facts.strides else "ranges"
            self.unshown.append(f"the {kind} of variables were not shown in {limit:.0f} s and are not used; a larger "
                                "--seconds gives them more")
        return 0

    def facts_query(self, facts):
        """The query whether a round leaves some ranges or strides."""
        return Query([], [self.allowed], facts, leaves=True)

    def take_facts(self, facts):
        """Assumes ranges and strides from now on. The first value of each variable has to keep them."""
        if not all(facts.hold(it, int(self.terms.constant(first))) for it, first in self.machine.first.items()):
            raise Fault("a first value lies outside its range")
        self.facts = facts

    def query(self, name, paths, lemmas):
        """The query whether a property can be false, with the components of some paths."""
        assumed = [self.allowed, *(self.properties[it] for it in lemmas)]
        kept = None if paths == self.all_paths() else paths
        return Query([self.terms.no(self.properties[name])], assumed, self.facts, kept)

    def levels(self, name):
        """The sets of components to try: the components of the property, then their sources too, then all."""
        paths, design = paths_in(self.forms[name]), self.machine.design
        found = []
        while paths != self.all_paths() and paths not in found:
            found.append(paths)
            paths = paths | {design.components[link.source[0]].path for link in design.links
                             if design.components[link.target[0]].path in paths}
        return found

    def answer(self, name, seconds, tell=lambda text: None):
        """The answer to a property: a proof with some components, or an answer with all of them."""
        begun = time.monotonic()

        def spent():
            return time.monotonic() - begun

        search = bounded(self.circuit(self.query(name, self.all_paths(), [])), seconds)
        try:
            for paths in self.levels(name):
                lemmas = [it for it in self.lemmas if paths_in(self.forms[it]) <= paths]
                part = induction(self.circuit(self.query(name, paths, lemmas)), max(PART * (seconds - spent()), 1))
                result = first_proved(part, search, lambda: tell(spent()))
                if result is not None:
                    break
            else:
                paths, lemmas = self.all_paths(), list(self.lemmas)
                whole = self.circuit(self.query(name, paths, lemmas))
                result = first_of([induction(whole, max(seconds - spent(), 1)), search], lambda: tell(spent()))
        finally:
            search.stop()
        if result.verdict == "proved":
            self.lemmas.append(name)
        return Answer(result, paths, lemmas, spent())
