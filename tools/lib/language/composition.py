"""The rounds of a design, computed from its trees, to find the places at which components trap."""

import re
from collections import namedtuple

from ..commands.ranges import is_number
from .interpreter import Machine
from .model import ports_of
from .tree import behaviour_of

# A component that halts: its path, the round and the step, each from 0, the trap with its operator, and the names of
# the in ports to which a value has come.
Halt = namedtuple("Halt", "path round step trap arrived")
# A component: its thread, its rate, how many steps it sends, its machine, and the source of each in port.
Node = namedtuple("Node", "thread rate sent machine sources")
# How many steps are computed at most.
MOST_STEPS = 200_000


class Composition:
    """The synchronous composition below a root, with the inputs of a scenario. Raises KeyError if the design is not
    one that `check` accepts."""

    def __init__(self, model, scenario):
        self.model, self.round, self.nodes, self.halts = model, 0, {}, []
        given = scenario.get("inputs") if isinstance(scenario, dict) else None
        given = given if isinstance(given, dict) else {}
        self.given = {name.lower(): values for name, values in given.items() if isinstance(values, list)}
        for key, thread in model.by_path.items():
            rate, behaviour = model.rate(thread), behaviour_of(thread.impl) if thread.impl else None
            if not rate or behaviour is None:
                raise KeyError(thread.path)
            ins, outs = ([port.name.text for port in ports_of(thread, way)] for way in ("in", "out"))
            sources = [model.came_from(f"{thread.path}.{name}") for name in ins]
            self.nodes[key] = Node(thread, rate, model.steps_sent(rate) or rate, Machine(behaviour, ins, outs), sources)
        # What each out port has sent in the last round: whole, and as the messages carry it.
        self.whole = {(key, name): [None] * node.rate for key, node in self.nodes.items() for name in node.machine.outs}
        self.messages = self.whole

    @property
    def steps(self):
        """How many steps a round has."""
        return sum(node.rate for node in self.nodes.values())

    def advance(self):
        """One round; collects the components that halt in it."""
        whole, cut = {}, {}
        for key, node in self.nodes.items():
            inputs = self.inputs_of(key)
            tuples = [[] for _ in node.machine.outs]
            for step in range(node.rate):
                halted = node.machine.trap is not None
                for places, value in zip(tuples, node.machine.step([places[step] for places in inputs])):
                    places.append(value)
                if node.machine.trap is not None and not halted:
                    self.halts.append(Halt(node.thread.path, self.round, step, node.machine.trap,
                                           frozenset(node.machine.arrived)))
            absent = [None] * (node.rate - node.sent)
            for name, places in zip(node.machine.outs, tuples):
                whole[key, name], cut[key, name] = places, places[: node.sent] + absent
        self.whole, self.messages = whole, cut
        self.round += 1

    def inputs_of(self, key):
        """What comes into each in port of a component in the steps of this round."""
        node = self.nodes[key]
        return [self.tuple_of(source, node.rate) for source in node.sources]

    def tuple_of(self, source, rate):
        """What comes into a port in the steps of this round."""
        if source is None:
            return [None] * rate
        if source.thread is None:
            values = self.given.get(source.port.lower(), [])
            value = values[self.round] if self.round < len(values) else None
            return adapted(source.adaptor, [int(value) if is_number(value) or isinstance(value, bool) else None], rate)
        return adapted(source.adaptor, self.messages[source.thread.path.lower(), source.port.lower()], rate)


def adapted(adaptor, places, rate):
    """A tuple as a component of a rate reads it."""
    if len(places) == rate:
        return places
    at = int(re.sub(r"\D", "", adaptor or "") or 1)
    if len(places) < rate:
        m = rate // len(places)
        return [it for value in places for it in spread(adaptor, at, m, value)]
    m = len(places) // rate
    return [joined(adaptor, at, places[first : first + m]) for first in range(0, rate * m, m)]


def spread(adaptor, at, m, value):
    """One value in m places."""
    if adaptor == "repeat":
        return [value] * m
    place = {"first": 0, "last": m - 1}.get(adaptor, at - 1)
    return [value if it == place else None for it in range(m)]


def joined(adaptor, at, group):
    """One place of a group."""
    present = [value for value in group if value is not None]
    if adaptor in ("latest", "max", "min", "average"):
        return of_present(adaptor, present) if present else None
    return group[{"first": 0, "last": len(group) - 1}.get(adaptor, min(at, len(group)) - 1)]


def of_present(adaptor, present):
    """The value that an adaptor makes of present ones."""
    if adaptor == "average":
        total = sum(present)
        return abs(total) // len(present) * (-1 if total < 0 else 1)
    return {"latest": lambda values: values[-1], "max": max, "min": min}[adaptor](present)


def halts_of(model, scenario, rounds):
    """The components that halt in so many rounds, and how many rounds were computed."""
    composition = Composition(model, scenario)
    count = min(rounds, MOST_STEPS // max(composition.steps, 1) + 1)
    for _ in range(count):
        composition.advance()
    return composition.halts, count
