"""Shared parts of the tests of properties for all inputs: machines of designs, and their rounds by `sync`."""

import random
import shutil

from lib.language.listing import read_listing
from lib.proving.circuit import Circuit, Facts, Query
from lib.proving.evaluate import Run
from lib.proving.machine import Machine
from lib.running.random_behaviours import INTEGER, Behaviour, Transition
from lib.running.random_designs import RATES, Component, DesignMaker, design_text, scenario
from lib.running.rows import Report
from tests.common import Skipped, Wrong
from tests.nodes import listing_of, pals


def needed(*engines):
    """Skips a test if a program of the system is missing."""
    missing = [name for name in engines if shutil.which(name) is None]
    if missing:
        raise Skipped(f"{' and '.join(missing)} not installed")


class Maker(DesignMaker):
    """Makes designs of which some have rates up to 64."""

    def __init__(self, chance):
        super().__init__(chance)
        if chance.random() < 0.1:
            self.rates = (1, 64)


class Averager(DesignMaker):
    """Makes designs of several rates whose links to lower rates take averages of values that some steps send."""

    def __init__(self, chance):
        super().__init__(chance)
        self.rates = chance.choice([it for it in RATES if len(it) > 1])

    def component(self, number):
        """A component that adds numbers up, in states that it enters in turn; it sends the sum in some of them."""
        turns, sum_of = self.random.randint(2, 5), [("name", "i"), ("number", self.random.randint(1, 9))]
        transitions = []
        for at in range(turns):
            acts = [("set", "v", ("-" if at % 2 else "+", ("name", "v"), self.random.choice(sum_of)))]
            acts += [("send", "o", ("name", "v"))] if self.random.random() < 0.6 else []
            transitions.append(Transition(f"s{at}", "dispatch", f"s{(at + 1) % turns}", acts))
        states = [(it.source, True) for it in transitions]
        behaviour = Behaviour([("i", INTEGER)], [("o", INTEGER)], [("v", INTEGER, 0)], states, transitions)
        return Component(f"t{number}", self.random.choice(self.rates), behaviour)

    def adaptor(self, source, target, kind):
        """An adaptor between two rates, or None."""
        return "average" if source > target and kind == INTEGER else super().adaptor(source, target, kind)


def made(seed, rounds, maker=Maker):
    """The text of a design made at random, and inputs for it."""
    chance = random.Random(f"prove {seed}")
    design = maker(chance).made()
    inputs = scenario(chance, {name: kind for name, kind, *_ in design.inputs}, rounds)["inputs"]
    return design_text(design), inputs


def sync_rows(text, inputs, rounds):
    """What `sync` has of each round: of each component whether it is halted, its state unless it is, its values; and of
    each output the values of its steps."""
    status, answer = pals(["sync", "Top.impl"], text, {"rounds": rounds, "inputs": inputs})
    if status:
        raise Wrong(f"sync ends with {status}: {answer}")
    return [{**{it.path: row_of(it.state.startswith("halted("), it.state, it.values) for it in row.components},
             **dict(row.outs)} for row in Report(answer).rows]


def row_of(halted, state, values):
    """A component's row; a halted one has no state."""
    return (None if halted else state), values


def shown(kind, value):
    """A value as `sync` writes it."""
    return str(value).lower() if kind == "Boolean" else str(int(value))


def run_rows(machine, inputs, rounds):
    """The same by the terms of a machine."""
    design = machine.design
    outs = [(it.name, *it.source) for it in design.outputs]
    run, found = Run(machine, inputs, sent_terms(machine)), []
    names = {machine.terms.name(it): it for it in machine.next}
    for _ in range(rounds):
        values, row = run.step(), {}
        for it in design.components:
            state = it.states[run.state[names[f"{it.path} state"]]].name
            row[it.path] = row_of(run.state[names[f"{it.path} halted"]], state, {
                var.name: shown(var.kind, run.state[names[f"{it.path}.{var.name}"]]) for var in it.variables})
        for name, number, port in outs:
            kind, sends = design.components[number].outs[port].kind, machine.sends[design.components[number].path]
            row[name] = [shown(kind, values[step[port][1]]) if values[step[port][0]] else "_" for step in sends]
        found.append(row)
    return found


def sent_terms(machine):
    """The terms of the values of all out ports in a round."""
    return [term for steps in machine.sends.values() for step in steps for pair in step for term in pair]


def first_difference(wanted, found):
    """The first round, and the component or output in it, that differ; or None."""
    for number, (one, two) in enumerate(zip(wanted, found)):
        for name, row in one.items():
            if row != two[name]:
                return number, name, row, two[name]
    return None


def machine_of(text):
    """The machine of a design's text."""
    return Machine(read_listing(listing_of(text)))


def graph_difference(machine, inputs, rounds):
    """The first term that the graph of a machine gives another value than its meaning, in some round; or None."""
    terms = machine.terms
    roots = [it for it in (*machine.next.values(), *sent_terms(machine)) if terms.constant(it) is None]
    bad = [it if terms.sort(it) == "B" else terms.compare("eq", it, terms.number(0)) for it in roots]
    circuit = Circuit(machine, Query(bad, [], Facts({})))
    graph, run = circuit.graph, Run(machine, inputs, roots)
    latches = {node: 0 for node, _ in graph.latches}
    for number in range(rounds):
        given = run.step()
        bits = {node: int(given[term]) >> bit & 1 for node, (term, bit) in graph.inputs}
        vectors = [[circuit.bits[it]] if terms.sort(it) == "B" else circuit.bits[it] for it in roots]
        values = iter(graph.simulate([bit for vector in vectors for bit in vector] + circuit.nexts, bits, latches))
        for root, vector in zip(roots, vectors):
            found = [next(values) for _ in vector]
            value = sum(bit << at for at, bit in enumerate(found))
            value -= found[-1] << len(found) if terms.sort(root) == "I" else 0
            if value != int(given[root]):
                return number, terms.nodes[root], value, given[root]
        latches = dict(zip(latches, values))
    return None
