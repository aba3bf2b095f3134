"""Which clock is likely at fault if messages do not fit the bounds, and how clocks drift against each other.

A message from A to B that is sent at the reading p and arrives at the reading r took r - p by the two clocks. If its
time was within the network's bounds, the clock of B is ahead of the clock of A by r - p less this time. Messages in
both directions give an interval for each pair of nodes."""

from collections import namedtuple

from ..commands.times import in_ms

# A message: its source and target, its round, the time that it took by the two clocks, and whether this is known from
# above too: an arrival that was found at a start may have been earlier.
Message = namedtuple("Message", "source target round took exact")
# The rounds of a run are divided into at most so many windows, of at least so many rounds each.
MOST_WINDOWS, LEAST_ROUNDS = 10, 5
# Of so many nodes each is tried as the one whose clock is at fault.
MOST_TRIED = 40


def messages_of(lines, at_starts, nodes):
    """The messages of a run, from its lines with their places."""
    sends = {(line.what, line.round): line.reading for _, line in lines if line.kind == "send"}
    for place, line in lines:
        if line.kind == "arrive" and line.end != "ignored" and line.what in nodes.links:
            source, target = nodes.links[line.what]
            if (source, line.round) in sends and source != target:
                yield Message(source, target, line.round, line.reading - sends[source, line.round],
                              place not in at_starts)


class Clocks:
    """The offsets of the clocks of a run against each other, as the network's bounds give them."""

    def __init__(self, nodes, messages):
        self.nodes, self.bounds, self.most = nodes, nodes.bounds, nodes.bounds.skew - 1
        messages = list(messages)
        rounds = max((it.round for it in messages), default=0) + 1
        self.length = -(-rounds // max(1, min(MOST_WINDOWS, rounds // LEAST_ROUNDS)))
        windows = {}
        for message in messages:
            windows.setdefault(message.round // self.length, []).append(message)
        self.windows = {number: self.highest(found) for number, found in sorted(windows.items())}
        self.all = self.highest(messages)

    def highest(self, messages):
        """For each pair (A, B) the most by which the clock of B may be ahead of that of A."""
        found = {}
        for it in messages:
            there, back = (it.source, it.target), (it.target, it.source)
            found[there] = min(found.get(there, it.took - self.bounds.fastest), it.took - self.bounds.fastest)
            if it.exact:
                found[back] = min(found.get(back, self.bounds.slowest - it.took), self.bounds.slowest - it.took)
        return found

    def fits(self, highest, free=None):
        """Whether offsets within the skew explain all messages; that of the node `free` may be any."""
        paths = list(self.nodes.paths)
        offset = dict.fromkeys(paths, 0)
        edges = [(None, path, self.most) for path in paths if path != free]
        edges += [(path, None, self.most) for path in paths if path != free]
        edges += [(source, target, most) for (source, target), most in highest.items()]
        offset[None] = 0
        for _ in range(len(offset) + 1):
            changed = False
            for source, target, most in edges:
                if offset[source] + most < offset[target]:
                    offset[target], changed = offset[source] + most, True
            if not changed:
                return True
        return False

    def suspects(self):
        """The nodes of which each by its clock explains all messages, if no clocks within the skew do; else None."""
        if all(map(self.fits, self.windows.values())):
            return None
        return [path for path in self.candidates() if all(self.fits(it, path) for it in self.windows.values())]

    def candidates(self):
        """The nodes that are tried as suspects: of many nodes those with a pair whose clocks are too far apart."""
        if len(self.nodes.paths) <= MOST_TRIED:
            return self.nodes.paths
        apart = [pair for pair in self.pairs() if self.interval(*pair, self.all)[0] > 2 * self.most or
                 self.interval(*pair, self.all)[1] < -2 * self.most]
        return [path for path in self.nodes.paths if any(path in pair for pair in apart)]

    def interval(self, one, other, highest):
        """The least and the most by which the clock of `other` is ahead of that of `one`; None if messages in one of
        the directions are missing."""
        if (one, other) not in highest or (other, one) not in highest:
            return None
        return -highest[other, one], highest[one, other]

    def pairs(self):
        """The pairs of nodes with messages in both directions or with exact arrivals."""
        paths = self.nodes.paths
        return [(one, other) for at, one in enumerate(paths) for other in paths[at + 1 :]
                if self.interval(one, other, self.all)]

    def drift(self, one, other):
        """By how many nanoseconds in a second the clock of `other` gains on that of `one`: a least and a most, from
        the first window and the last one. None for a single window."""
        found = [(number, self.interval(one, other, it)) for number, it in self.windows.items()]
        found = [(number, it) for number, it in found if it and it[0] <= it[1]]
        if len(found) < 2:
            return None
        (first, early), (last, late) = found[0], found[-1]
        time = (last - first) * self.length * self.nodes.period
        return (late[0] - early[1]) * 10**9 // time, (late[1] - early[0]) * 10**9 // time


def fault_sentences(clocks):
    """Sentences on the clocks of a run that is outside of the bounds."""
    suspects = clocks.suspects()
    if suspects is None:
        return
    skew, network = in_ms(2 * clocks.bounds.skew), "if the network kept its bounds"
    for one, other in clocks.pairs():
        low, high = clocks.interval(one, other, clocks.all)
        if low > high:
            continue
        if low > 2 * clocks.most:
            yield f"the clock of {other} is ahead of that of {one} by at least {in_ms(low)} {network}; allowed is " \
                  f"less than {skew}"
        elif high < -2 * clocks.most:
            yield f"the clock of {one} is ahead of that of {other} by at least {in_ms(-high)} {network}; allowed is " \
                  f"less than {skew}"
    yield suspicion(clocks, suspects)


def suspicion(clocks, suspects):
    """Which clock is at fault, as a sentence."""
    if not suspects:
        return "no single clock explains this: look at the network, at nodes that were late, or at several clocks"
    if len(suspects) > 1:
        return f"likely at fault: the clock of {' or that of '.join(suspects)}; their messages do not distinguish them"
    return f"likely at fault: the clock of {suspects[0]}, which is {direction(clocks, suspects[0])}"


def direction(clocks, path):
    """Whether the clock of a node is ahead of the others or behind them, and by how much at least."""
    ahead, behind = 0, 0
    for highest in clocks.windows.values():
        for other in clocks.nodes.paths:
            if (path, other) in highest:
                ahead = max(ahead, -highest[path, other] - clocks.most)
            if (other, path) in highest:
                behind = max(behind, -highest[other, path] - clocks.most)
    if ahead > 0 and behind > 0:
        return "now ahead of the time and now behind it"
    return f"{'ahead of' if ahead >= behind else 'behind'} the time by at least {in_ms(max(ahead, behind))}"


def clock_sentences(clocks):
    """The difference and the drift of the clocks of each pair."""
    for one, other in clocks.pairs():
        low, high = clocks.interval(one, other, clocks.all)
        drift = clocks.drift(one, other)
        known = f", gains {drift[0]:,} to {drift[1]:,} ns a second on it" if drift else ""
        if low > high:
            yield f"{one} and {other}: the clocks moved against each other by at least {in_ms(low - high)}{known}"
        else:
            yield f"{one} and {other}: the clock of {other} is ahead by {in_ms(low)} to {in_ms(high)}{known}"
