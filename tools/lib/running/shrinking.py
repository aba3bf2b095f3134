"""Reduces a false scenario: fewer rounds and simpler values, while the same property stays false."""

from ..commands.ranges import same
from ..proving.copies import OtherRows
from .campaign import judge


class Enough(Exception):
    """The tries are used up."""


class Shrink:
    """A false scenario that is reduced in at most so many tries. `tell` is called after each try."""

    def __init__(self, plan, inputs, found, most, tell=lambda shrink: None):
        self.plan, self.name, self.tries, self.most, self.tell = plan, found.name, 0, most, tell
        self.rounds = found.round + 1
        self.inputs = {name: list(values)[: self.rounds] for name, values in inputs.items()}

    def reduce(self):
        """Reduces the scenario until no change does, or the tries are used up; returns whether none does."""
        try:
            while self.fewer_rounds() or self.simpler_values():
                pass
        except Enough:
            return False
        return True

    def smallest(self):
        """The inputs of the scenario as it is now, without absent values at their ends."""
        inputs = {}
        for name, values in self.inputs.items():
            while values and values[-1] is None:
                values = values[:-1]
            inputs[name] = values
        return inputs

    def take(self, inputs, rounds):
        """Takes a scenario if it is false too, up to its first false round; returns whether it is."""
        if self.tries == self.most:
            raise Enough
        self.tries += 1
        cut = {name: values[:rounds] for name, values in inputs.items()}
        try:
            found = judge(self.plan, cut, rounds).false if rounds else None
        except OtherRows:
            found = None
        taken = found is not None and found.name == self.name
        if taken:
            self.rounds = found.round + 1
            self.inputs = {name: values[: self.rounds] for name, values in cut.items()}
        self.tell(self)
        return taken

    def fewer_rounds(self):
        """Removes rounds: half of them, a quarter, and so on down to one."""
        size, smaller = self.rounds // 2, False
        while size:
            first = 0
            while first + size <= self.rounds and self.rounds > size:
                rest = {name: values[:first] + values[first + size :] for name, values in self.inputs.items()}
                if self.take(rest, self.rounds - size):
                    smaller = True
                else:
                    first += size
            size //= 2
        return smaller

    def simpler_values(self):
        """Puts simpler values in the place of others, port by port."""
        before = {name: list(values) for name, values in self.inputs.items()}
        for name in self.plan.ports:
            self.simplify(name, 0, self.rounds)
        return any(not same_values(before[name][: self.rounds], values) for name, values in self.inputs.items())

    def simplify(self, name, first, last):
        """Simplifies the values of a port in some rounds: all at once, or else each half; a single one by bisection."""
        last = min(last, self.rounds)
        if first >= last or not any(self.plan.ports[name].rank(it) for it in self.inputs[name][first:last]):
            return
        if any(self.replace(name, first, last, rank) for rank in range(len(self.plan.ports[name].simplest()))):
            return
        if last - first == 1:
            self.bisect(name, first)
            return
        middle = (first + last) // 2
        self.simplify(name, first, middle)
        self.simplify(name, middle, last)

    def replace(self, name, first, last, rank):
        """Puts the simplest value of a rank in the place of each value that comes after it, in some rounds."""
        ranges, values = self.plan.ports[name], self.inputs[name]
        simple = ranges.simplest()[rank]
        changed = [simple if ranges.rank(it) > rank else it for it in values[first:last]]
        return not same_values(changed, values[first:last]) and self.put(name, first, changed)

    def bisect(self, name, at):
        """Brings one number as near to the simplest one as it can be, by bisection."""
        high, ranges = self.inputs[name][at], self.plan.ports[name]
        low = ranges.nearest(high)
        while low is not None and abs(high - low) > 1:
            middle = (low + high) // 2
            if ranges.has(middle) and self.put(name, at, [middle]):
                high = middle
                if at >= self.rounds:
                    return
            else:
                low = middle

    def put(self, name, at, values):
        """Tries the scenario with some values of a port replaced, from one round on."""
        there = self.inputs[name]
        return self.take({**self.inputs, name: there[:at] + values + there[at + len(values) :]}, self.rounds)


def same_values(one, two):
    """Whether two lists have the same values."""
    return len(one) == len(two) and all(map(same, one, two))
