"""The run of an output, with the additions of its bundle."""

import re

from ..language.model import model_of
from ..nodes.journal import from_events, from_journal, from_trace, parsed
from ..running.answers import STOP
from ..scenarios.bundles import Refused

AXES = {"events": "one event after the other", "readings": "by the readings of the clocks", "time": "by the time"}


def run_of(text, bundle):
    """The run of an output."""
    lines = text.split("\n")
    if any(parsed(line) or STOP.fullmatch(line) for line in lines):
        found = from_journal(lines)
    elif bundle is None:
        raise Refused("the answer has no journal; with its bundle the events of the scenario can be drawn")
    elif re.fullmatch(r"sound rounds \d+ stop (none|\S+ \d+)\n?|wrong \d+ \w+\n?", text):
        found = from_trace(bundle.scenario, text)
    elif re.match(r"(text|flat|scenario|clock|code|accepted|processor|ring|usage:|\d+:\d+) ?", text):
        raise Refused("the answer does not belong to a run")
    else:
        found = from_events(bundle.scenario, text)
    if bundle is not None:
        add_design(found, bundle)
    return found


def add_design(drawn, bundle):
    """Adds the facts of the design: the order of its nodes, the sources of links, and the period."""
    model = model_of(bundle.design, drawn.lanes)
    if model is None:
        return
    shown = set(drawn.lanes) | {model.source(event.what) for event in drawn.events if event.kind == "arrive"}
    drawn.lanes = [path for path in model.threads if path in shown]
    drawn.links, drawn.source, drawn.period = model.links(), model.source, model.period


def cut(drawn, rounds):
    """Keeps only the events of some rounds."""
    first, final = rounds
    there = {event.round for event in drawn.events}
    drawn.events = [event for event in drawn.events if first <= event.round <= final]
    if not drawn.events:
        most = f"0 to {max(there)}" if there else "none"
        raise Refused(f"nothing happened in the rounds {first} to {final}: the run has {most}")
    end = drawn.end
    if end and end.round is not None and not first <= end.round <= final:
        drawn.end = None
