"""Reports read back: rows of rounds, messages that were sent, watched properties, and timetables."""

import contextlib
import gc
import re
from collections import namedtuple

from ..nodes.journal import parsed
from ..scenarios.bundles import Refused
from .answers import NUMBER, STOP, WATCHED

# A round with its number, its components (path, state, values by name), and its outputs (name, places).
Row = namedtuple("Row", "number components outs")
Component = namedtuple("Component", "path state values")
Sent = namedtuple("Sent", "link round places")
Slot = namedtuple("Slot", "processor path step begin done")

VALUE = rf"(?:-?{NUMBER}|true|false)"
PLACES = rf"\(((?:{VALUE}|_)(?:,(?:{VALUE}|_))*)\)"
ROUND = re.compile(rf"round ({NUMBER})")
COMPONENT = re.compile(rf"([^\s=]+\.[^\s=]+) (halted\((?:overflow|zero-divisor)\)|\w+)((?: \w+={VALUE})*)")
ASSIGNED = re.compile(r"(\w+)=(\S+)")
OUT = re.compile(rf"out (\w+) {PLACES}")
SENT = re.compile(rf"sent (\S+) ({NUMBER}) {PLACES}")
VERDICT = re.compile(r"(\w+) (true|false)")
PROCESSOR = re.compile(rf"processor (\w+) sum {NUMBER} of {NUMBER} (?:fits|over)")
SLOT = re.compile(rf"slot (\S+) ({NUMBER}) ({NUMBER}) ({NUMBER})")


def rounds_in(text):
    """The lines of each round of a text that has only rows, from round 0 on."""
    found = []
    for line in filter(None, text.split("\n")):
        match = ROUND.fullmatch(line)
        if match and int(match[1]) == len(found):
            found.append([])
        elif match or not found or not (COMPONENT.fullmatch(line) or OUT.fullmatch(line)):
            raise Refused(f"this line belongs to no row, or to another round: {line[:60]}")
        else:
            found[-1].append(line)
    return found


@contextlib.contextmanager
def uncollected():
    """Keeps Python from looking for circles among many new objects, none of which is in one."""
    enabled = gc.isenabled()
    gc.disable()
    try:
        yield
    finally:
        if enabled:
            gc.enable()


class Report:
    """What an answer has: rows, messages, verdicts by round, and slots."""

    def __init__(self, text):
        self.rows, self.sent, self.verdicts, self.slots = [], [], [], []
        self.processor = ""
        takers = {"round": (ROUND, self.take_round), "out": (OUT, self.take_out), "sent": (SENT, self.take_sent),
                  "processor": (PROCESSOR, self.take_processor), "slot": (SLOT, self.take_slot)}
        with uncollected():
            for line in filter(None, text.split("\n")):
                match = COMPONENT.fullmatch(line)
                if match:
                    self.take_component(*match.groups())
                    continue
                # A property may have the name of another line: a line that has not that form is a verdict.
                shape, take = takers.get(line.partition(" ")[0], (VERDICT, self.take_verdict))
                match = shape.fullmatch(line)
                if match:
                    take(*match.groups())
                elif VERDICT.fullmatch(line):
                    self.take_verdict(*VERDICT.fullmatch(line).groups())
                elif not (parsed(line) or STOP.fullmatch(line) or WATCHED.fullmatch(line)):
                    raise Refused(f"this line belongs to no report: {line[:60]}")

    def take_round(self, number):
        """The first line of a round."""
        self.rows.append(Row(int(number), [], []))
        self.verdicts.append({})

    def row(self):
        """The round that is read."""
        if not self.rows:
            raise Refused("a line of a round precedes the first round")
        return self.rows[-1]

    def take_component(self, path, state, values):
        """A component's line."""
        self.row().components.append(Component(path, state, dict(ASSIGNED.findall(values))))

    def take_out(self, name, places):
        """A root out port's line."""
        self.row().outs.append((name, places.split(",")))

    def take_verdict(self, name, verdict):
        """A property's line."""
        self.row()
        self.verdicts[-1][name] = verdict

    def take_sent(self, link, number, places):
        """A message's line."""
        self.sent.append(Sent(link, int(number), places.split(",")))

    def take_processor(self, name):
        """A processor's line."""
        self.processor = name

    def take_slot(self, path, step, begin, done):
        """A line of a timetable."""
        self.slots.append(Slot(self.processor, path, int(step), int(begin), int(done)))

    @property
    def watched(self):
        """Whether it is a report of watched properties."""
        return any(self.verdicts)
