"""A run as a trace that Perfetto and Chrome open: a track for each node, slices for steps, arrows for messages.

Times are microseconds of readings or of time, or else one for each event.
"""

import json

from ..nodes.journal import node_of

NO_READING = "a finish has no reading: the slice ends at the latest reading before it"


def chrome_of(run):
    """The text of the trace."""
    lanes = {lane: number for number, lane in enumerate(run.lanes)}
    scale = 1 if run.axis == "events" else 1000
    events = [{"ph": "M", "name": "thread_name", "pid": 0, "tid": number, "args": {"name": lane}}
              for lane, number in lanes.items()]

    def add(kind, name, lane, at, **more):
        """Adds an event on the track of a node."""
        events.append({"ph": kind, "name": name, "pid": 0, "tid": lanes.get(lane, 0), "ts": at / scale, **more})

    add_steps(run, add, scale)
    add_messages(run, add)
    for halt in run.halts:
        at = next((it.at for it in run.events if it.kind in ("start", "step") and it.what == halt.path
                   and (it.round, it.step) >= (halt.round, halt.step or 0)), None)
        if at is not None:
            add("i", f"halted: {halt.kind}", halt.path, at, s="t", args={"round": halt.round})
    if run.end:
        lane = run.end.what if run.end.what in lanes else node_of(run.end.what or "")
        add("i", run.end.text, lane, run.end.at, s="p")
    return json.dumps({"traceEvents": events, "displayTimeUnit": "ns", "otherData": {"axis": run.axis}}) + "\n"


def add_steps(run, add, scale):
    """A slice for each step, from its start to its finish."""
    running, last = {}, max((it.at for it in run.events), default=0)

    def close(event, until, finished):
        """Adds the slice of a step."""
        more = {"finish": NO_READING} if finished and run.axis == "readings" else {}
        more = more if finished else {"finish": "not finished"}
        add("X", f"round {event.round}, step {event.step}", event.what, event.at, cat="step",
            dur=max(until - event.at, 0) / scale, args={"round": event.round, "step": event.step, **more})

    for event in run.events:
        if event.kind in ("start", "step"):
            running[event.what] = event
        elif event.kind == "finish" and event.what in running:
            close(running.pop(event.what), event.at, True)
    for event in running.values():
        close(event, last, False)


def add_messages(run, add):
    """A moment for each send, arrival and lost copy, with an arrow from the send to the arrival."""
    sends = {(it.what, it.round): it for it in run.events if it.kind == "send"}
    for event in run.events:
        lane = event.what if event.kind == "send" else node_of(event.what)
        if event.kind not in ("send", "arrive", "drop", "repeat"):
            continue
        name = f"{event.kind} {'' if event.kind == 'send' else event.what + ' '}{event.round}"
        add("i", name, lane, event.at, s="t", args={"round": event.round, "result": event.result or ""})
        send = sends.get((run.source(event.what), event.round)) if event.kind == "arrive" else None
        if send:
            flow = {"cat": "message", "id": f"{event.what} {event.round}"}
            add("s", "message", send.what, send.at, **flow)
            add("f", "message", lane, event.at, bp="e", **flow)
