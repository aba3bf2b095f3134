"""How long a value takes from an input or a component to an output, by rates, adaptors, sent steps and bounds.

A chain is a way along links, each component on it once. It is assumed that each step of a component on the chain sends,
and that the values that it sends come from the newest ones that it has read. Times are in nanoseconds.

The nominal time of step j of round n is A(n) + j P. A step of the last component shows a sample of the first one; their
nominal times differ by a number that follows from rates, adaptors and sent steps. The real times differ from that by
less than the skew at each end; a step then takes its execution time."""

from collections import namedtuple

from ..scenarios.bundles import Refused

MOST_CHAINS = 10_000
# A chain: the name of its first end (an input or a component), the numbers of its components, the name of its output.
Chain = namedtuple("Chain", "source components output")
# What a chain takes: the smallest and the largest number of rounds, age when a step of the last component ends, and
# reaction.
Times = namedtuple("Times", "rounds age reaction")


def chains_of(design):
    """The chains from each input, and from each component, to each output."""
    outputs, targets, found = {}, {}, []
    for it in design.outputs:
        outputs.setdefault(it.source[0], []).append(it.name)
    for link in design.links:
        targets.setdefault(link.source[0], set()).add(link.target[0])
    starts = [(it.name, it.target[0]) for it in design.inputs]
    starts += [(it.path, number) for number, it in enumerate(design.components)]
    todo = [(source, (first,)) for source, first in reversed(starts)]
    while todo:
        source, way = todo.pop()
        found += [Chain(source, way, name) for name in outputs.get(way[-1], ())]
        if len(found) > MOST_CHAINS:
            raise Refused(f"the design has more than {MOST_CHAINS:,} chains")
        todo += [(source, way + (number,)) for number in sorted(targets.get(way[-1], ())) if number not in way]
    return found


class Flow:
    """The samples that each step of a component reads: for each step the nominal time from its round's alarm back to
    the sample, at least and at most; None before the first sample of all."""

    def __init__(self, design, chain):
        self.design, self.chain, self.period = design, chain, design.period
        first = design.components[chain.components[0]]
        inputs = [it for it in design.inputs if it.name == chain.source and it.target[0] == chain.components[0]]
        if inputs:
            steps = self.read([(0, 0)], first, [it.adaptor for it in inputs])
        else:
            steps = [(-at * self.step(first), -at * self.step(first)) for at in range(first.rate)]
        for source, target in zip(chain.components, chain.components[1:]):
            links = [it for it in design.links if (it.source[0], it.target[0]) == (source, target)]
            sender = design.components[source]
            places = [(low + self.period, high + self.period) for low, high in steps[: sender.sent]]
            places += [None] * (sender.rate - sender.sent)
            steps = self.read(places, design.components[target], [it.adaptor for it in links])
            if steps is None:
                break
        self.steps = steps

    def step(self, component):
        """The step period of a component."""
        return self.period // component.rate

    def read(self, places, component, adaptors):
        """What the steps of a component have read, of all links between two components: the widest of them."""
        found = [adapted(places, component.rate, adaptor) for adaptor in adaptors]
        fresh = [[one for one in several if one is not None] for several in zip(*found)]
        steps = [(min(low for low, _ in it), max(high for _, high in it)) if it else None for it in fresh]
        return self.held(steps)

    def held(self, steps):
        """The same, with the held value of a step that reads nothing new: the last value, perhaps of the round
        before."""
        last = next((it for it in reversed(steps) if it is not None), None)
        if last is None:
            return None
        value, found = (last[0] + self.period, last[1] + self.period), []
        for it in steps:
            value = it or value
            found.append(value)
        return found

    def times(self):
        """The times of the chain; None if no value can get through."""
        if self.steps is None:
            return None
        step = self.step(self.design.components[self.chain.components[-1]])
        alone = len(self.chain.components) == 1
        nominal = [(low + at * step, high + at * step) for at, (low, high) in enumerate(self.steps)]
        ages = [self.real(low, high, step, alone) for low, high in nominal]
        rounds = (-(-min(low for low, _ in self.steps) // self.period),
                  -(-max(high for _, high in self.steps) // self.period))
        age = min(low for low, _ in ages), max(high for _, high in ages)
        return Times(rounds, age, (age[0], self.real(0, self.wait(nominal, step), step, False)[1]))

    def wait(self, nominal, step):
        """The longest nominal time from a sample that a change has just missed to the first step that shows a newer
        one."""
        shown = [(number * self.period + at * step, number * self.period + at * step - high)
                 for number in range(3) for at, (_, high) in enumerate(nominal)]
        found, newest = 0, shown[0][1]
        for time, sample in shown:
            if sample > newest:
                found, newest = max(found, time - newest), sample
        return found

    def real(self, low, high, step, alone):
        """The least and the most time from the start of a step that samples to the end of one that shows the sample."""
        shortest, longest = self.design.execution
        apart = 2 * (self.design.skew - 1)
        least, most = low - apart, high + apart
        if alone:
            least, most = max(least, low // step * shortest), most if high else 0
        return max(least, 0) + shortest, most + longest


def adapted(places, rate, adaptor):
    """What the places of a message give to the steps of a component: a range of samples, or None."""
    count = len(places)
    if adaptor is None:
        return places
    size = max(count, rate) // min(count, rate)
    at = {"first": 0, "last": size - 1}.get(adaptor, int(adaptor[3:]) - 1 if adaptor.startswith("at ") else None)
    if count < rate:
        return [it if adaptor == "repeat" or place == at else None for it in places for place in range(size)]
    groups = [places[first * size : (first + 1) * size] for first in range(rate)]
    return [group[at] if at is not None else together(group, adaptor) for group in groups]


def together(group, adaptor):
    """The range of the samples of a group: `latest` takes the last place that is sent, others may take any."""
    there = [it for it in group if it is not None]
    there = there[-1:] if adaptor == "latest" else there
    return (min(low for low, _ in there), max(high for _, high in there)) if there else None
