"""A timed list of events, as `world` takes it: what nodes do by their clocks, executions and the delays of messages."""

import heapq
from collections import defaultdict, namedtuple

from ..language.names import choice
from ..scenarios.bundles import Refused
from .clocks import Clock

# What a world goes by: the clock of each node, how long each step takes, by its path, round and step, and how long each
# message takes, by its link and round. In nanoseconds.
Times = namedtuple("Times", "clock execution delay")
# A violated bound: its name, its subject, and the round.
Broken = namedtuple("Broken", "name what round")

# The bounds that can be violated, with their subjects and the output of `world` then.
BREAKS = {
    "skew": ("node", "ClockApart"), "long": ("node", "PastDeadline"), "short": ("node", "TooSoon"),
    "early-start": ("node", "NotDue"), "late-start": ("node", "PastDeadline"), "early-send": ("node", "NotDue"),
    "slow": ("link", "PastDeadline"), "fast": ("link", "TooSoon"),
}
# At one time a step finishes before messages arrive, nodes send after that, and start last.
ORDER = {"finish": 0, "arrive": 1, "send": 2, "step": 3, "start": 3}


class World:
    """The nodes of a design that run by given times."""

    def __init__(self, model, rounds, times, broken=None):
        self.model, self.rounds, self.times, self.broken = model, rounds, times, broken
        self.bounds, self.period = model.bounds, model.period
        if self.bounds is None or not self.period:
            raise Refused("the root has no period or not all of its bounds; ./pals check reports them")
        self.nodes = model.threads
        self.rate = {path: model.rate(thread) for path, thread in zip(self.nodes, model.by_path.values())}
        if not all(self.rate.values()):
            raise Refused("a component has no rate; ./pals check reports it")
        self.sent = {path: model.steps_sent(rate) for path, rate in self.rate.items()}
        self.clocks = {path: self.clock_of(path) for path in self.nodes}
        self.links = defaultdict(list)
        for link in sorted(model.links()):
            self.links[model.source(link)].append(link)
        self.due, self.order, self.finished = [], 0, defaultdict(int)

    def events(self):
        """The list: passes of time, and what happens at each time."""
        for path in self.nodes:
            self.add(self.start_of(path, 0), "start", path, 0)
        found, now = [], None
        while self.due:
            at, _, _, kind, what, number, step = heapq.heappop(self.due)
            if at != now:
                found.append(["pass", at, [self.clocks[path].reading(at) for path in self.nodes]])
                now = at
            found.append([kind, what, number] if kind == "arrive" else [kind, what])
            self.happen(at, kind, what, number, step)
        return found

    def add(self, at, kind, what, number, step=0):
        """Something is to happen."""
        self.order += 1
        heapq.heappush(self.due, (max(at, 0), ORDER[kind], self.order, kind, what, number, step))

    def breaks(self, name, what, number):
        """By how much a bound is broken here: a nanosecond, or nothing."""
        return int(self.broken == Broken(name, what, number))

    def clock_of(self, path):
        """The clock of a node; one that breaks its bound is ahead by the skew."""
        broken = self.broken is not None and self.broken[:2] == ("skew", path)
        return Clock(self.bounds.skew, 0, self.bounds.skew + 1) if broken else self.times.clock(path)

    def alarm(self, path, number, step=0):
        """The first time at which the clock of a node reads the alarm of a step."""
        return self.clocks[path].first((number + 1) * self.period + step * (self.period // self.rate[path]))

    def start_of(self, path, number):
        """When a node starts a round."""
        if self.breaks("late-start", path, number):
            return (number + 1) * self.period + self.bounds.skew
        return self.alarm(path, number) - self.breaks("early-start", path, number)

    def happen(self, at, kind, what, number, step):
        """What follows from something that happens."""
        if kind in ("start", "step"):
            took = self.times.execution(what, number, step)
            if self.breaks("long", what, number):
                took = self.bounds.longest + 1
            if self.breaks("early-send", what, number):
                took = self.bounds.shortest
            if self.breaks("short", what, number):
                took = self.bounds.shortest - 1
            self.add(at + took, "finish", what, number, step)
        elif kind == "finish":
            self.finish(at, what, number, step)
        elif kind == "send":
            for link in self.links[what]:
                took = self.times.delay(link, number)
                if self.breaks("slow", link, number):
                    took = self.bounds.slowest + 1
                if self.breaks("fast", link, number):
                    took = self.bounds.fastest - 1
                self.add(at + took, "arrive", link, number)

    def finish(self, at, path, number, step):
        """The step after a finished one, the next round, and the sending of this one."""
        rate = self.rate[path]
        if step + 1 == self.sent[path]:
            self.add(max(self.release(path, number), at), "send", path, number)
        if step + 1 < rate:
            self.add(max(self.alarm(path, number, step + 1), at), "step", path, number, step + 1)
        elif number + 1 < self.rounds:
            self.add(max(self.start_of(path, number + 1), at), "start", path, number + 1)

    def release(self, path, number):
        """The first time at which the clock of a node reads the release of a round."""
        backoff = max(2 * self.bounds.skew - self.bounds.fastest, 0)
        offset = max(backoff, (self.sent[path] - 1) * (self.period // self.rate[path]))
        target = (number + 1) * self.period + offset
        return self.clocks[path].first(target) - self.breaks("early-send", path, number)


def broken_of(word, model):
    """The bound that `NAME:WHAT[:ROUND]` breaks."""
    name, _, rest = word.partition(":")
    what, _, number = rest.partition(":")
    if name not in BREAKS or (number and not (number.isascii() and number.isdigit() and len(number) < 7)):
        raise Refused(f"{word} breaks nothing: use NAME:WHAT or NAME:WHAT:ROUND, NAME being {choice(BREAKS)}")
    kind = BREAKS[name][0]
    known = model.threads if kind == "node" else sorted(model.links())
    if what not in known:
        raise Refused(f"there is no {kind} {what}; there is {choice(known[:8])}")
    if not room(model, name, what):
        why = "the lower end of the bound is 0, or a send waits for its steps"
        raise Refused(f"{name}:{what} has nothing to break: {why}")
    return Broken(name, what, int(number or 0))


def room(model, name, what):
    """How many nanoseconds there are below the lower end of a bound; of the others one."""
    bounds = model.bounds
    if name == "early-send":
        rate = model.rate(model.by_path[what.lower()])
        backoff = 2 * bounds.skew - bounds.fastest
        return max(backoff - (model.steps_sent(rate) - 1) * (model.period // rate) - bounds.shortest, 0) if rate else 0
    return {"fast": bounds.fastest, "short": bounds.shortest}.get(name, 1)
