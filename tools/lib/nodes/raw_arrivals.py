"""The readings at which messages arrived. A joined trace has each arrival at the start that reads it; the bundle keeps
the recorded readings as comments of the design: `-- arrived LINK ROUND READING ..`, with one reading for each round
from ROUND on, and `_` for a message without an arrival."""

import re

from ..running.answers import NUMBER
from .records import Line, owner, started_round

FORM = re.compile(rf"-- arrived (?P<link>\S+) (?P<round>{NUMBER})(?P<readings>(?: (?:{NUMBER}|_))+)")
# The number of readings in a comment.
IN_A_LINE = 8


def comments_of(arrivals):
    """The comments for readings of arrivals, by link and round."""
    by_link = {}
    for (link, number), reading in arrivals.items():
        by_link.setdefault(link, {})[number] = reading
    for link, readings in by_link.items():
        for first in range(0, max(readings) + 1, IN_A_LINE):
            some = [str(readings.get(number, "_")) for number in range(first, first + IN_A_LINE)]
            while some and some[-1] == "_":
                some.pop()
            if some:
                yield f"-- arrived {link} {first} {' '.join(some)}"


def arrivals_in(design):
    """The readings of arrivals in the comments of a design, by link and round."""
    found = {}
    for text in design.decode("utf-8", "replace").split("\n"):
        match = FORM.fullmatch(text)
        if match:
            for at, reading in enumerate(match["readings"].split()):
                if reading != "_":
                    found[match["link"], int(match["round"]) + at] = int(reading)
    return found


def with_raw_arrivals(lines, arrivals, nodes):
    """The lines of a trace with each arrival where its node recorded it. Lines are pairs of an index and a line. An
    arrival has the index of its line in the trace, or else that of the line that follows it."""
    own, indices = {path: [] for path in nodes.paths}, {}
    for index, line in lines:
        if line.kind == "arrive" and line.end == "kept" and (line.what, line.round) in arrivals:
            indices[line.what, line.round] = index
        else:
            own.setdefault(owner(line, nodes), []).append((index, line))
    waiting = {path: [] for path in own}
    for (link, number), reading in arrivals.items():
        if link in nodes.links:
            words = ["arrive", link, str(number), str(reading), "kept"]
            waiting[nodes.links[link][1]].append(Line("arrive", link, number, reading, "kept", words))
    return merged({path: placed(own[path], waiting[path], indices) for path in own}, nodes)


def placed(lines, arrivals, indices):
    """The lines of a node with its arrivals: each is after the last line whose reading is not above its own, and before
    the start that reads it."""
    left = sorted(arrivals, key=lambda it: (it.reading, it.round), reverse=True)
    timed = [at for at, (_, line) in enumerate(lines) if line.reading is not None]
    made, begun = [], 0
    for at in [*timed, None]:
        while left and (at is None or precedes(left[-1], lines[at][1])):
            arrival = left.pop()
            following = lines[min(begun, len(lines) - 1)][0] if lines else 0
            made.append((indices.get((arrival.what, arrival.round), following), arrival))
        made += lines[begun:] if at is None else lines[begun : at + 1]
        begun = begun if at is None else at + 1
    return made


def precedes(arrival, line):
    """Whether an arrival has happened before a line with a reading."""
    reads = (line.kind == "start" and line.round > arrival.round) or \
            (line.kind == "stop" and started_round(line) > arrival.round)
    return reads or arrival.reading < line.reading


def merged(own, nodes):
    """The lines of all nodes in one order: each node's own order, and each arrival and each stop after the send of its
    message if that is there."""
    left = {path: list(reversed(lines)) for path, lines in own.items()}
    sends = {(line.what, line.round) for lines in own.values() for _, line in lines if line.kind == "send"}
    order, sent = [], set()

    def may_go(line):
        of_message = line.kind in ("arrive", "stop") and line.what in nodes.links
        key = (nodes.links[line.what][0], line.round) if of_message else None
        return key is None or key in sent or key not in sends

    while any(left.values()):
        count = len(order)
        for lines in left.values():
            while lines and may_go(lines[-1][1]):
                order.append(lines.pop())
                if order[-1][1].kind == "send":
                    sent.add((order[-1][1].what, order[-1][1].round))
        if len(order) == count:
            # Records that no order explains: an arrival is taken without its send.
            order.append(next(lines for lines in left.values() if lines).pop())
    return order
