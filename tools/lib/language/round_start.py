"""What a round of a design begins with, computed from its trees: the state of each component, and what was sent before.

An audit shows whether this is right: a window's rows have it, and the program compares them with the composition."""

from collections import namedtuple

from .composition import Composition

# The state of a component: its state, its variables by their names in lower case, and its trap (None if it has none).
State = namedtuple("State", "state variables trap")
# What a round begins with: its number; the state of each component; the rounds before it, the last one at the end, with
# what each out port sent in them and the values of the inputs. They are the fewest after which every in port holds
# what it holds at the beginning of the round.
RoundStart = namedtuple("RoundStart", "round states sent inputs")


class Course(Composition):
    """A composition that notes the last round in which a value has come into each in port."""

    def __init__(self, model, scenario):
        super().__init__(model, scenario)
        # By component and in port: the round in which the value was sent, or in which the root read it.
        self.came = {}
        # What was sent in the rounds that `came` names and in the last one, by round.
        self.past = {}

    def inputs_of(self, key):
        """What comes into the in ports, which is noted."""
        found = super().inputs_of(key)
        for at, (source, places) in enumerate(zip(self.nodes[key].sources, found)):
            if source is not None and any(value is not None for value in places):
                self.came[key, at] = self.round - (source.thread is not None)
        return found

    def advance(self):
        """One round."""
        super().advance()
        used = {*self.came.values()}
        self.past = {number: sent for number, sent in self.past.items() if number in used}
        self.past[self.round - 1] = self.whole

    def start(self, continues=True):
        """The values with which the next round begins. If the run does not continue with its own inputs, they do not
        count as read."""
        states = {key: State(node.machine.spelled[node.machine.state], dict(node.machine.variables),
                             node.machine.trap.kind if node.machine.trap else None)
                  for key, node in self.nodes.items()}
        sent, read = self.replayed(continues)
        count = max([1, *(len(rounds) for rounds in (*sent.values(), *read.values()))]) if self.round else 0
        sents, inputs = [{} for _ in range(count)], [{} for _ in range(count)]
        for port, rounds in sent.items():
            for place, number in zip(range(count - len(rounds), count), rounds):
                sents[place][port] = self.past[number][port]
        for name, rounds in read.items():
            for place, number in zip(range(count - len(rounds), count), rounds):
                inputs[place][name] = self.given[name][number] if number < len(self.given[name]) else None
        return RoundStart(self.round, states, sents, inputs)

    def replayed(self, continues):
        """The rounds whose values each out port has to send again: the last one, and before it those of which an in
        port holds a value and does not read a later one at once. For each in port of the root, such rounds."""
        sent = {port: {self.round - 1} for port in self.whole if self.round}
        read = {name: set() for name in self.given}
        for (key, at), number in self.came.items():
            source = self.nodes[key].sources[at]
            known = continues or source.thread is not None
            if self.nodes[key].machine.trap is not None or (known and self.reads_at_once(key, at)):
                continue
            if source.thread is None:
                read[source.port.lower()].add(number)
            else:
                sent[source.thread.path.lower(), source.port.lower()].add(number)
        return tuple({name: sorted(rounds) for name, rounds in found.items()} for found in (sent, read))

    def reads_at_once(self, key, at):
        """Whether a value comes into an in port in the first step of the next round."""
        return self.tuple_of(self.nodes[key].sources[at], self.nodes[key].rate)[0] is not None
