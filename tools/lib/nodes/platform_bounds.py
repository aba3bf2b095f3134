"""Whether a trace can be one of a platform that kept the bounds of its design: what an audit does not look at.

Each line happened at an unknown time. The reading of its node differs from that time by less than the skew; a node's
lines are in the order of their times; an arrival follows its send by at least the minimum time of the network. So
each line has an earliest time. Its reading and the last time at which it may happen (docs/nodes.md) give a latest one.
"""

from collections import namedtuple

from ..commands.times import in_ms
from ..scenarios.bundles import Refused
from .raw_arrivals import arrivals_in, merged, with_raw_arrivals
from .records import line_of, owner

# What was found: the place of the line (its index in the trace, or NODE:LINE of a record), the rule, and a sentence.
Outside = namedtuple("Outside", "index rule sentence")
# A send or a step with the latest time at which it can have happened, the earliest one, and its reading.
Moment = namedtuple("Moment", "earliest latest reading")


class Bounds:
    """The findings, the first one by its line; and how many arrivals were found only at a start."""

    def __init__(self, nodes, lines):
        self.nodes, self.bounds = nodes, nodes.bounds
        self.sends, self.steps, self.begun = {}, {}, {}
        self.earliest = dict.fromkeys(nodes.paths, 0)
        self.found_at_starts = 0
        self.lines = list(lines)
        self.at_starts = self.taken_at_starts()
        self.outside = next(filter(None, (self.take(index, line) for index, line in self.lines)), None)

    def taken_at_starts(self):
        """The lines of arrivals that have the reading of the start or the missed stop for which they were taken."""
        found, waiting = set(), {path: [] for path in self.nodes.paths}
        for index, line in self.lines:
            path = self.path_of(line)
            if line.kind == "arrive":
                waiting[path].append((index, line.reading))
            elif line.kind in ("start", "stop"):
                found.update(at for at, reading in waiting.pop(path) if reading == line.reading)
                waiting[path] = []
        return found

    def path_of(self, line):
        """The node of a line."""
        path = owner(line, self.nodes)
        if path not in self.nodes.rates:
            raise Refused(f"the trace names {line.what}, which is not in the design; pals audit reports the position")
        return path

    def take(self, index, line):
        """One line: its finding, or None."""
        path, spread = self.path_of(line), self.bounds.skew - 1
        if line.kind == "finish":
            self.earliest[path] = max(self.earliest[path], self.begun.get(path, 0) + self.bounds.shortest)
            return None
        sent = self.sends.get((line.what, line.round)) if line.kind == "arrive" else None
        own = max(self.earliest[path], line.reading - spread)
        self.earliest[path] = max(own, sent.earliest + self.bounds.fastest) if sent else own
        if self.earliest[path] > line.reading + spread:
            return Outside(index, "fast", self.took(line, sent)) if sent and own <= line.reading + spread else \
                Outside(index, "clock", f"the clock of {path} is behind the other clocks by twice the skew or more, "
                        f"{in_ms(2 * self.bounds.skew)}")
        return self.check(index, line, path, sent)

    def check(self, index, line, path, sent):
        """Whether a line can have happened in time."""
        if line.kind == "arrive":
            self.found_at_starts += index in self.at_starts
            late = sent and index not in self.at_starts and self.earliest[path] > sent.latest + self.bounds.slowest
            return Outside(index, "slow", self.took(line, sent)) if late else None
        if line.kind == "stop":
            return self.check_stop(index, line, path)
        last = self.last_time(line, path)
        if self.earliest[path] > last:
            return Outside(index, "late", f"{path} is late by its clock: no clock within {in_ms(self.bounds.skew)} "
                           f"reads {in_ms(line.reading)} when this has to have happened")
        moment = Moment(self.earliest[path], min(last, line.reading + self.bounds.skew - 1), line.reading)
        if line.kind == "send":
            self.sends.update({(link, line.round): moment for link, (source, _) in self.nodes.links.items()
                               if source == path})
        else:
            self.steps[path, line.round, step_of(line)] = moment
            self.begun[path] = moment.earliest
        return None

    def check_stop(self, index, line, path):
        """A stop: whether its message is slow, or the node late. At an early one the node had not started the round."""
        sent = self.sends.get((line.what, line.round))
        if line.end == "early":
            late = self.earliest[path] > self.alarm(line.round) + self.bounds.skew - 1
            return Outside(index, "late", f"{path} had not started round {line.round} when a message of this round "
                           f"arrived") if late else None
        if sent and self.earliest[path] > sent.latest + self.bounds.slowest:
            return Outside(index, "slow", f"the message of round {line.round} to {line.what} has not arrived "
                           f"{in_ms(line.reading - sent.reading)} after its send by the two clocks: {self.declared()}")
        if self.earliest[path] > self.alarm(line.round + 1) + self.bounds.skew - 1:
            return Outside(index, "late", f"{path} looks late for the message of round {line.round}")
        return None

    def alarm(self, number):
        """The alarm of a round."""
        return (number + 1) * self.nodes.period

    def last_time(self, line, path):
        """The last time at which a start, a step or a send may happen."""
        rate, spread = self.nodes.rates[path], self.bounds.skew - 1
        step_period, alarm = self.nodes.period // rate, self.alarm(line.round)
        if line.kind != "send":
            return alarm + step_of(line) * step_period + spread
        count = self.nodes.sent[path]
        done = self.steps.get((path, line.round, count - 1))
        release = max(2 * self.bounds.skew - self.bounds.fastest, (count - 1) * step_period, 0)
        return max(alarm + release + spread, done.latest + self.bounds.longest if done else 0)

    def took(self, line, sent):
        """How long a message took."""
        return (f"the message of round {line.round} to {line.what} took {in_ms(line.reading - sent.reading)} by the "
                f"two clocks: {self.declared()}")

    def declared(self):
        """What the design declares of messages."""
        return (f"the network declares {in_ms(self.bounds.fastest)} to {in_ms(self.bounds.slowest)}, and two clocks "
                f"add or take less than {in_ms(2 * self.bounds.skew)}")


def step_of(line):
    """The number of the step of a start or of a step."""
    return int(line.words[3]) if line.kind == "step" else 0


def journal_of(trace):
    """The lines of a trace's journal, with their indices."""
    begun = False
    for index, text in enumerate(trace):
        line = line_of(text)
        begun = begun or line is not None
        if line:
            yield index, line
        elif begun:
            raise Refused(f"line {index} of the trace is not a journal line; pals audit reports the reason")


def lines_of_trace(trace, design, nodes):
    """The lines of a trace with their indices; arrivals are where their nodes recorded them, if the comments of the
    design have their readings."""
    lines, arrivals = list(journal_of(trace)), arrivals_in(design)
    return with_raw_arrivals(lines, arrivals, nodes) if arrivals else lines


def lines_of_records(records, nodes):
    """The lines of records in one order, each with the node and the number of its line."""
    return merged({path: [(f"{path}:{line.at}", line) for line in record.lines] for path, record in records.items()},
                  nodes)
