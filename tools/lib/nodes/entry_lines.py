"""What the nodes of a copied design do in the rounds of its entry that no node has recorded: each acts at the readings
of its alarms, and each message arrives for the start that reads it."""

from ..language.model import ports_of
from ..language.tree import behaviour_of
from .copied_thread import is_boolean
from .records import line_of


class Entry:
    """The entry of a copy: the lines of its nodes, and its rows."""

    def __init__(self, copied, model, nodes):
        self.copied, self.model, self.nodes = copied, model, nodes
        self.start, self.bounds = copied.start, model.bounds
        # The source of each root out port of the copy, as a thread and its port.
        self.outputs = {}
        for port in model.root_ports("out"):
            source = model.came_from(port.name.text)
            if source:
                self.outputs[port.name.text] = (source.thread.path.lower(), source.port.lower())
        self.outputs.update((name, port) for port, name in copied.shown.items())

    def outputs_of(self, path):
        """The root out ports of the copy that show a node."""
        return [name for name, (thread, _) in self.outputs.items() if thread == path.lower()]

    def entered(self, path, record, rounds):
        """The record of a node after the first rounds of the entry, with these rounds before it."""
        rows = {number: self.row(path, number) for number in range(rounds)}
        outs = {(number, name): self.out(name, self.start.sent[number]) for number in range(rounds)
                for name in self.outputs_of(path)}
        return record._replace(lines=[*self.lines(path, rounds), *record.lines], rows={**rows, **record.rows},
                               outs={**outs, **record.outs})

    def lines(self, path, rounds):
        """The lines of a node in the first rounds of the entry, with the arrivals of their messages."""
        links = [link for link, (_, target) in self.nodes.links.items() if target == path]
        for number in range(rounds):
            yield from (line_of(text) for text in self.round_texts(path, number))
            arrival = (number + 2) * self.nodes.period
            yield from (line_of(f"arrive {link} {number} {arrival} kept") for link in links)

    def round_texts(self, path, number):
        """The lines of one round of a node: its steps at their alarms, and its send at the release."""
        rate, sent, alarm = self.nodes.rates[path], self.nodes.sent[path], (number + 1) * self.nodes.period
        step_period = self.nodes.period // rate
        release = max(2 * self.bounds.skew - self.bounds.fastest, (sent - 1) * step_period, 0)
        send = f"send {path} {number} {alarm + release}"
        for step in range(rate):
            if send and step >= sent and step * step_period >= release:
                yield send
                send = None
            reading = alarm + step * step_period
            yield f"step {path} {number} {step} {reading}" if step else f"start {path} {number} {reading}"
            yield f"finish {path} {number}"
        if send:
            yield send

    def row(self, path, number):
        """What a row shows of a component after a round of the entry."""
        thread = self.model.by_path[path.lower()]
        state, steps = self.start.states[path.lower()], (number + 1) * self.nodes.rates[path]
        name = f"{self.copied.prefix}_{steps}"
        if number == len(self.start.sent) - 1:
            name = f"halted({state.trap})" if state.trap else state.state
        values = (f" {it.name.text}={shown(state.variables[it.name.text.lower()], it.ref.text)}"
                  for it in behaviour_of(thread.impl).variables)
        return f"{path} {name}{''.join(values)}"

    def out(self, name, sent):
        """What a root out port shows of values that were sent, by thread and port."""
        thread, port = self.outputs[name]
        node = self.model.by_path[thread]
        kind = next(it.ref.text for it in ports_of(node, "out") if it.name.text.lower() == port)
        places = sent.get((thread, port)) or [None] * self.model.rate(node)
        return f"out {name} ({','.join('_' if value is None else shown(value, kind) for value in places)})"


def shown(value, kind):
    """A value as rows show it."""
    return str(bool(value)).lower() if is_boolean(kind) else str(value)
