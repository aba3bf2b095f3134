"""The delays of the messages of a joined trace: the minimum of the network if the trace is right with it, and else the
nearest delay with which it is."""

from ..commands.times import in_ms
from ..scenarios.bundles import Refused
from .records import started_round

# The maximum delay that an audit takes.
MOST_DELAY = 3_600_000_000_000


class NotShown(Exception):
    """Why an audit cannot be shown more than the first `rounds` rounds of a run."""

    def __init__(self, rounds, why):
        super().__init__(why)
        self.rounds, self.why = rounds, why


class Looks:
    """When each node looked for messages: at its starts, and at a stop that missed a message."""

    def __init__(self, nodes, journal, last):
        self.starts = {(line.what, line.round): (at, line.reading) for at, line in enumerate(journal)
                       if line.kind == "start"}
        self.stop, self.end = (last[-1] if last else None), len(journal)
        self.stopped = nodes.links[self.stop.what][1] if last else None

    def of(self, path, number):
        """The place and the reading at which a node looked for the messages of the round before, or None."""
        stop = self.stop if path == self.stopped and self.stop.end == "missed" else None
        if stop and started_round(stop) == number:
            return self.end, stop.reading
        return self.starts.get((path, number))


class Delays:
    """Chooses the delays of all messages of a trace."""

    def __init__(self, joined):
        self.joined, self.nodes = joined, joined.nodes
        self.looks = Looks(self.nodes, joined.journal, joined.last)
        self.places = {(line.what, line.round): at for at, line in enumerate(joined.journal) if line.kind == "send"}

    def chosen(self):
        """The delays of each link that needs others than the minimum of the network."""
        delays = {}
        for link, (source, _) in self.nodes.links.items():
            rounds = sorted(number for path, number in self.places if path == source)
            if rounds != list(range(len(rounds))):
                raise Refused(f"{source}: its sends are not of all rounds from 0 on")
            found = [self.delay(link, number) for number in rounds]
            while found and found[-1] == self.nodes.bounds.fastest:
                found.pop()
            if found:
                delays[link] = [*found, self.nodes.bounds.fastest]
        return delays

    def delay(self, link, number):
        """The delay of one message."""
        source, target = self.nodes.links[link]
        sent, place = self.joined.sends[source, number], self.places[source, number]
        low, high = 0, None
        taken = (link, number) in self.joined.taken
        for look_round in {number, number + 1} | (set() if taken else {self.stop_round(target)}):
            look = self.looks.of(target, look_round)
            if look is None:
                continue
            if taken and look_round == number + 1:
                high = look[1] - sent
            elif look[0] > place:
                low = max(low, look[1] + 1 - sent)
        stop = self.looks.stop
        if stop and stop.end == "early" and (stop.what, stop.round) == (link, number):
            high = stop.reading - sent
        self.check(link, number, low, high)
        chosen = max(low, self.nodes.bounds.fastest)
        return chosen if high is None else min(chosen, high)

    def stop_round(self, path):
        """The round that a node did not start, since it stopped; -1 if it did not."""
        return started_round(self.looks.stop) if path == self.looks.stopped else -1

    def check(self, link, number, low, high):
        """Cuts the trace before a message that no delay explains."""
        source, target = self.nodes.links[link]
        if high is not None and high < 0:
            raise NotShown(self.cut(link, number, number + 1),
                           f"{target} read the message of round {number} to {link} {in_ms(-high)} before its send by "
                           f"the two clocks: the clock of {source} is ahead, or that of {target} is behind")
        if low > MOST_DELAY or (high is not None and high < low):
            raise NotShown(self.cut(link, number, number),
                           f"the message of round {number} to {link} would be under way for {in_ms(low)} by the two "
                           f"clocks, which no trace can show")

    def cut(self, link, number, rounds):
        """The number of rounds before a look that no delay explains: `rounds`, or all whole ones if it is the stop."""
        target, whole = self.nodes.links[link][1], self.joined.whole()[1]
        if target == self.looks.stopped and self.stop_round(target) <= number + 1:
            return whole
        return min(whole, rounds)
