"""Runs of nodes, from a journal or from the events of a scenario."""

import json
import re
from collections import defaultdict, namedtuple

from ..explaining import sentences
from ..running.answers import NUMBER, STOP
from ..scenarios.bundles import Refused

# An event: its kind, its path or link, its round, its step, its position on the axis (`at`), the result of an arrival,
# and text on it.
Event = namedtuple("Event", "kind what round step at result note")
# What ended a run: where on the axis, the lane or link, its round, what to say, and whether a message is missing there.
End = namedtuple("End", "at what round text missing")

READING, ROUND = rf"(?P<reading>{NUMBER}|_)", rf"(?P<round>{NUMBER})"
LINES = [
    re.compile(rf"(?P<kind>arrive) (?P<what>\S+) {ROUND} {READING} (?P<result>kept|ignored|early)"),
    re.compile(rf"(?P<kind>step) (?P<what>\S+) {ROUND} (?P<step>{NUMBER}) {READING}"),
    re.compile(rf"(?P<kind>start|send) (?P<what>\S+) {ROUND} {READING}"),
    re.compile(rf"(?P<kind>finish|drop|repeat) (?P<what>\S+) {ROUND}"),
]

# The words after the first word of an event.
FORMS = {
    **dict.fromkeys(("start", "step", "finish", "send"), (str,)),
    **dict.fromkeys(("arrive", "drop", "repeat"), (str, int)),
    "pass": (int, list),
}


class Run:
    """A run: its lanes, its events, its end, and what the axis counts: events, readings or time."""

    def __init__(self, axis):
        self.axis, self.events, self.end = axis, [], None
        self.lanes, self.period = [], None
        # All links, and the source of each, if a design is known.
        self.links, self.source = set(), lambda link: None
        # The components that traps have halted.
        self.halts = []


def node_of(link):
    """The node that a link goes to."""
    return link.rpartition(".")[0]


def parsed(line):
    """The parts of a journal line, or None."""
    for shape in LINES:
        match = shape.fullmatch(line)
        if match:
            return match.groupdict()
    return None


def from_journal(lines):
    """The run of an answer with a journal."""
    journal = [(line, found) for line, found in zip(lines, map(parsed, lines)) if found or STOP.fullmatch(line)]
    timed = any(found.get("reading", "_") != "_" for _, found in journal if found)
    run, reading, steps = Run("readings" if timed else "events"), 0, defaultdict(int)
    for index, (line, found) in enumerate(journal):
        if found is None:
            run.end = stop_of(line, index + 1, reading, timed)
            break
        reading = max(reading, int(found["reading"])) if found.get("reading", "_") not in ("_", None) else reading
        at = reading_or(found, reading) if timed else index + 1
        if found["kind"] in ("start", "step"):
            steps[found["what"]] = int(found.get("step") or 0)
        step = steps[found["what"]]
        run.events.append(Event(found["kind"], found["what"], int(found["round"]), step, at, found.get("result"), line))
    run.lanes = lanes_of(lines, run.events)
    return run


def from_trace(scenario, verdict):
    """The run that the trace of a scenario records, up to the line that a verdict names."""
    lines = lines_of(scenario)
    words = verdict.split()
    index = int(words[1]) if words[0] == "wrong" else len(lines)
    run = from_journal(lines[:index])
    if not run.events:
        raise Refused("nothing has happened before the line that is wrong")
    if words[0] == "wrong":
        found = parsed(lines[index]) if index < len(lines) else None
        text = f"line {index} is wrong: {sentences.TRACE_RULES.get(words[2], words[2])}"
        latest = max(event.at for event in run.events)
        at = reading_or(found, latest) if found and run.axis == "readings" else latest + 1
        run.end = End(at, found and found["what"], found and int(found["round"]), text, False)
        run.lanes = list(dict.fromkeys([*run.lanes, *lanes_of([], ends_lane(found))]))
    return run


def lines_of(scenario):
    """The lines of a scenario's trace."""
    try:
        found = json.loads(scenario.decode("utf-8")).get("trace")
    except (ValueError, AttributeError) as error:
        raise Refused("the scenario of the bundle cannot be read") from error
    if not isinstance(found, list) or not all(isinstance(line, str) for line in found):
        raise Refused("the scenario of the bundle has no trace")
    return found


def ends_lane(found):
    """A line as an event, for the lane that it is of."""
    return [Event(found["kind"], found["what"], 0, 0, 0, None, "")] if found else []


def reading_or(found, latest):
    """The reading of a line, or the latest one before it."""
    own = found.get("reading", "_")
    return latest if own in ("_", None) else int(own)


def stop_of(line, index, reading, timed):
    """The end that a line on a stop records."""
    words = line.split(" ")
    cause = words[1] if words[1] == "early" else words[5]
    at = index if not timed else (int(words[4]) if words[4] != "_" else reading)
    text = sentences.sentence(sentences.STOPS[cause], words[2:4])
    return End(at, words[2], int(words[3]), f"stop: {text}", cause != "early")


def lanes_of(lines, events):
    """The paths of a run, in the order of its rows, followed by the paths without a row."""
    lanes = []
    for line in lines:
        words = line.split(" ")
        if words[0] not in ("round", "out", "sent") and not parsed(line) and "." in words[0]:
            lanes.append(words[0])
    for event in events:
        lanes.append(event.what if event.kind in ("start", "step", "finish", "send") else node_of(event.what))
    return list(dict.fromkeys(lanes))


def from_events(scenario, answer):
    """The run of a scenario's events, up to the one that an answer refuses."""
    events = events_of(scenario)
    words = answer.split()
    refused = words if words[:1] == ["event"] else None
    timed = any(event[0] == "pass" for event in events)
    replay = Replay("time" if timed else "events")
    try:
        for index, event in enumerate(events[: int(refused[1])] if refused else events):
            replay.take(index, event)
        if refused:
            replay.refuse(events[int(refused[1])], refused)
    except (ValueError, IndexError) as error:
        raise Refused("the answer does not belong to this bundle") from error
    replay.run.lanes = lanes_of(answer.split("\n") if not refused else [], replay.run.events)
    return replay.run


def events_of(scenario):
    """The events of a scenario."""
    try:
        found = json.loads(scenario.decode("utf-8")).get("events")
    except (ValueError, AttributeError) as error:
        raise Refused("the scenario of the bundle cannot be read") from error
    if not found:
        raise Refused("neither the answer nor the scenario has events to draw")
    if not isinstance(found, list) or not all(map(is_event, found)):
        raise Refused("the events of the scenario have no form")
    return found


def is_event(event):
    """Whether a value has the form of an event."""
    if not isinstance(event, list) or len(event) < 2 or event[0] not in FORMS:
        return False
    return all(isinstance(value, kind) for value, kind in zip(event[1:], FORMS[event[0]]))


class Replay:
    """Counts rounds and steps along a list of events."""

    def __init__(self, axis):
        self.run, self.now = Run(axis), 0
        self.started, self.steps, self.sent = defaultdict(int), defaultdict(int), defaultdict(int)
        self.kept = set()

    def take(self, index, event):
        """One event more."""
        kind, what = event[0], event[1]
        if kind == "pass":
            self.now = what
            return
        at = self.now if self.run.axis == "time" else index + 1
        number, result = self.round_of(event), None
        if kind == "arrive":
            result = self.arrive(what, number)
        note = " ".join(str(it) for it in event) + (f" {result}" if result else "")
        step = self.steps[what] if kind in ("start", "step", "finish") else 0
        self.run.events.append(Event(kind, what, number, step, at, result, note))

    def round_of(self, event):
        """The round that an event is of, counting it."""
        kind, what = event[0], event[1]
        if kind == "start":
            self.steps[what] = 0
            self.started[what] += 1
            self.kept = {it for it in self.kept if node_of(it) != what}
        elif kind == "step":
            self.steps[what] += 1
        elif kind == "send":
            self.sent[what] += 1
            return self.sent[what] - 1
        return event[2] if len(event) > 2 else self.started[what] - 1

    def arrive(self, link, number):
        """What becomes of a message that arrives."""
        started = self.started[node_of(link)]
        if number >= started:
            return "early"
        if number < started - 1 or link in self.kept:
            return "ignored"
        self.kept.add(link)
        return "kept"

    def refuse(self, event, words):
        """Ends the run at an event that is refused."""
        form, details = sentences.EVENT_FAULTS.get(words[2], "the event is rejected"), words[3:]
        form = form[len(details) == 3] if isinstance(form, tuple) else form
        about_link = words[2] in ("PastDeadline", "TooSoon") and len(details) == 3
        number = int(details[1]) if about_link else None
        at = self.now if self.run.axis == "time" else int(words[1]) + 1
        at = int(details[-1]) if words[2] == "PastDeadline" else at
        what = None if words[2] == "TimeBack" or not details else details[0]
        text = f"event {words[1]} ({event[0]}) is rejected: {sentences.sentence(form, details)}"
        self.run.end = End(at, what, number, text, about_link)
