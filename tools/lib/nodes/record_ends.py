"""How the records of nodes end, and where the reading of one jumps, as sentences."""

from ..commands.times import in_ms
from .records import started_round, whole_rounds


def endings(records, nodes):
    """A sentence on the end of each record, and on the node that stopped last."""
    stops = {}
    for path, record in records.items():
        last = record.lines[-1] if record.lines else None
        if last is None:
            yield f"the record of {path} is empty"
        elif last.kind == "stop":
            stops[path] = (started_round(last), last.reading)
            why = "came early" if last.end == "early" else "was not there"
            yield (f"{path} stopped in round {started_round(last)}: the message of round {last.round} to {last.what} "
                   f"{why}")
        else:
            rounds = whole_rounds(record, nodes.rates[path])
            yield f"the record of {path} ends after {rounds} whole rounds without a stop, at `{' '.join(last.words)}`"
    if len(stops) > 1:
        last = max(stops, key=lambda path: (*stops[path], path))
        yield f"the last node to stop was {last}, in round {stops[last][0]}"


def other_designs(records):
    """A sentence for each node that ran another design than the first one."""
    sums = {path: record.design for path, record in records.items() if record.design is not None}
    first = next(iter(sums), None)
    for path, found in sums.items():
        if found != sums[first]:
            yield f"{path} ran the design {found}, and {first} ran {sums[first]}"


def jumps(records, nodes):
    """A sentence for each reading that is more than a period after the time at which its line was due."""
    for path, record in records.items():
        step_period = nodes.period // nodes.rates[path]
        before = None
        for line in record.lines:
            if line.kind not in ("start", "step"):
                continue
            due = (line.round + 1) * nodes.period + (int(line.words[3]) * step_period if line.kind == "step" else 0)
            if line.reading - due > nodes.period and (before is None or line.reading - before > nodes.period):
                yield (f"the reading of {path} jumps by {in_ms(line.reading - due)} in round {line.round}, at "
                       f"`{' '.join(line.words)}`: its clock was set, or the node did not run for this time")
            before = line.reading
