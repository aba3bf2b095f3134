"""Designs that are made at random and are accepted, with scenarios: what tests run on nodes and by the program."""

from collections import namedtuple

from .random_behaviours import BOOLEAN, EDGES, INTEGER, BehaviourMaker, behaviour_text

# A design: its components, links and inputs by names, and its times in nanoseconds. A link is (source, port, target,
# port, adaptor), an input (name, kind, target, port, adaptor), an output (source, port, name).
Design = namedtuple("Design", "period skew execution network components links inputs outputs")
Component = namedtuple("Component", "name rate behaviour")
RATES = ((1,), (1, 2), (1, 2, 4), (1, 3, 6), (1, 2, 8))


def adaptor_of(random, source, target, kind):
    """An adaptor between two rates, or None if they are equal."""
    if source == target:
        return None
    if source < target:
        names = ["repeat", "first", "last", f"at {random.randint(1, target // source)}"]
    else:
        names = ["first", "last", "latest", f"at {random.randint(1, source // target)}"]
        names += ["max", "min", "average", "average"] if kind == INTEGER else []
    return random.choice(names)


def period_of(random, rates, skew, execution, network):
    """A period that is long enough (docs/bound.md), and that each rate divides."""
    backoff = max(0, 2 * skew - network[0])
    least = max(network[1] + 2 * skew + max(backoff, execution[1]), max(rates) * execution[1], 1)
    step = max(rates)
    return (least + random.choice((0, 0, 1, random.randint(0, least))) + step - 1) // step * step


class DesignMaker:
    """Makes one design by a source of random numbers."""

    def __init__(self, random):
        self.random, self.rates = random, random.choice(RATES)
        self.unit = random.choice((1, 1, 1000, 1_000_000))

    def times(self):
        """The skew, and the ranges of executions and of the network."""
        spans = [sorted(self.random.randint(0, 6) * self.unit for _ in range(2)) for _ in range(2)]
        return (self.random.randint(1, 4) * self.unit, *map(tuple, spans))

    def ports(self, letter, most):
        """Some ports."""
        return [(f"{letter}{at}", INTEGER if self.random.random() < 0.7 else BOOLEAN)
                for at in range(self.random.randint(0, most))]

    def made(self):
        """The design. Each in port has a link or an input if one fits, and otherwise nothing."""
        skew, execution, network = self.times()
        components = [self.component(at) for at in range(self.random.randint(1, 4))]
        period = period_of(self.random, self.rates, skew, execution, network)
        links, inputs = [], []
        for component in components:
            for port, kind in component.behaviour.ins:
                self.connect(components, component, port, kind, links, inputs)
        outputs = [(it.name, port, f"{it.name}_{port}") for it in components for port, _ in it.behaviour.outs
                   if self.random.random() < 0.5]
        return Design(period, skew, execution, network, components, links, inputs, outputs)

    def component(self, number):
        """A component."""
        ins, outs = self.ports("i", 3), self.ports("o", 2)
        return Component(f"t{number}", self.random.choice(self.rates), BehaviourMaker(self.random, ins, outs).made())

    def adaptor(self, source, target, kind):
        """An adaptor between two rates, or None."""
        return adaptor_of(self.random, source, target, kind)

    def connect(self, components, component, port, kind, links, inputs):
        """Lets something come into an in port."""
        sources = [(it, out) for it in components for out, of in it.behaviour.outs if of == kind]
        chance = self.random.random()
        if sources and chance < 0.8:
            source, out = self.random.choice(sources)
            adaptor = self.adaptor(source.rate, component.rate, kind)
            links.append((source.name, out, component.name, port, adaptor))
        elif chance < 0.95:
            adaptor = self.adaptor(1, component.rate, kind)
            inputs.append((f"in{len(inputs)}", kind, component.name, port, adaptor))


def value(random, kind):
    """A value of an input in JSON; None for an absent one."""
    if random.random() < 0.2:
        return None
    if kind == BOOLEAN:
        return random.random() < 0.5
    return random.choice((-1, 1)) * random.choice(EDGES) if random.random() < 0.05 else random.randint(-5, 9)


def scenario(random, kinds, rounds):
    """A scenario without delays, by the kinds of the root's in ports."""
    inputs = {name: [value(random, kind) for _ in range(random.randint(0, rounds))] for name, kind in kinds.items()}
    return {"rounds": rounds, "inputs": inputs}


def properties(adaptor, delayed):
    """The properties of a connection."""
    found = ["Timing => Delayed;"] * delayed + [f'PALS_Profile::Input_Adaptor => "{adaptor}";'] * bool(adaptor)
    return f" {{{' '.join(found)}}}" if found else ""


def ports_text(ports):
    """The features of a type."""
    lines = [f" {name}: {way} data port Base_Types::{kind};" for way, named in ports for name, kind in named]
    return ["features", *lines] if lines else []


def threads_text(design):
    """The thread types with their implementations."""
    for it in design.components:
        kind = f"K{it.name}"
        ports = ports_text([("in", it.behaviour.ins), ("out", it.behaviour.outs)])
        yield "\n".join([f"thread {kind}", *ports, "properties Dispatch_Protocol => Periodic;", f"end {kind};",
                         f"thread implementation {kind}.impl", behaviour_text(it.behaviour), f"end {kind}.impl;"])


def design_text(design):
    """The text of a design; its root is Top.impl."""
    kinds = {(it.name, port): kind for it in design.components for port, kind in it.behaviour.outs}
    ins = [(name, kind) for name, kind, *_ in design.inputs]
    outs = [(name, kinds[source, port]) for source, port, name in design.outputs]
    features = ports_text([("in", ins), ("out", outs)])
    inner = [f" l{at}: port {source}.{out} -> {target}.{port}{properties(adaptor, True)};"
             for at, (source, out, target, port, adaptor) in enumerate(design.links)]
    inner += [f" f_{name}: port {name} -> {target}.{port};" for name, _, target, port, _ in design.inputs]
    inner += [f" g_{name}: port {source}.{port} -> {name};" for source, port, name in design.outputs]
    outer = [f" f_{name}: port {name} -> p.{name}{properties(adaptor, False)};"
             for name, _, _, _, adaptor in design.inputs]
    outer += [f" g_{name}: port p.{name} -> {name};" for _, _, name in design.outputs]
    threads = [f" {it.name}: thread K{it.name}.impl {{Period => {design.period // it.rate} ns;}};"
               for it in design.components]
    return "\n".join([
        "package Made public", "with Base_Types, PALS_Profile, Data_Model;", *threads_text(design), "process P",
        *features, "end P;", "process implementation P.impl", "subcomponents", *threads,
        *(["connections", *inner] if inner else []), "end P.impl;", "system Top", *features, "end Top;",
        "system implementation Top.impl", "subcomponents p: process P.impl;",
        *(["connections", *outer] if outer else []), "properties", f" Period => {design.period} ns;",
        f" PALS_Profile::Skew => {design.skew} ns;",
        f" PALS_Profile::Execution => {design.execution[0]} ns .. {design.execution[1]} ns;",
        f" PALS_Profile::Network => {design.network[0]} ns .. {design.network[1]} ns;", "end Top.impl;", "end Made;",
        ""])
