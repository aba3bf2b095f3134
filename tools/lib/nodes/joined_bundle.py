"""The bundle of a joined trace, with as many rounds as a bundle can hold."""

import json

from ..scenarios.bundles import DIVIDER, MOST_BYTES, Refused
from .joining import Joined
from .raw_arrivals import comments_of

# The limits of a scenario.
MOST_LINES, MOST_ROUNDS = 1_000_000, 100_000


def joined_bundle(bundle, scenario, nodes, records, rounds):
    """The bundle of a trace of records, sentences on the rest, and whether the ends of the records are of interest."""
    asked = asked_rounds(scenario, rounds)
    limit, notes = asked, []
    while True:
        joined = Joined(nodes, records, limit)
        text, lines = bundle_text(bundle, scenario, joined, asked)
        if len(text) <= MOST_BYTES and lines <= MOST_LINES:
            break
        whole = joined.whole()[1]
        share = min(MOST_BYTES / len(text), MOST_LINES / lines)
        limit = min(whole - 1, int(whole * share * 0.99))
        if limit < 1:
            raise Refused("not even one round fits into a bundle")
        notes = notes or [f"{whole:,} rounds are too long for a bundle, which holds {MOST_BYTES:,} bytes"]
    return text, notes_on(joined, notes, asked), has_ended(joined)


def asked_rounds(scenario, rounds, most=MOST_ROUNDS):
    """The number of rounds that the nodes were to execute, or None."""
    asked = rounds if rounds is not None else scenario.get("rounds")
    return asked if isinstance(asked, int) and 0 < asked <= most else None


def notes_on(joined, more, asked):
    """Sentences on what a trace does not show."""
    notes = [*joined.notes, *more]
    whole = joined.rounds if joined.rounds is not None else asked
    if notes and not joined.last and whole is not None:
        notes.append(f"the trace has the first {whole:,} rounds")
    if joined.left_out:
        notes.append(f"{joined.left_out} second copies of messages are omitted: a trace has no line for them")
    return notes


def has_ended(joined):
    """Whether a run has ended before its last round."""
    return bool(joined.notes) or any(it.lines and it.lines[-1].kind == "stop" for it in joined.given.values())


def from_round(scenario, first):
    """A scenario whose rounds begin with a later one."""
    if not first:
        return scenario
    rounds, inputs = scenario.get("rounds"), scenario.get("inputs")
    made = {"rounds": rounds - first} if isinstance(rounds, int) and rounds > first else {}
    if isinstance(inputs, dict):
        made["inputs"] = {name: values[first:] if isinstance(values, list) else values
                          for name, values in inputs.items()}
    return made


def bundle_text(bundle, scenario, joined, asked):
    """The bytes of a bundle, and the number of lines of its trace."""
    rounds = joined.rounds if joined.rounds is not None and not joined.last else asked
    made = {name: scenario[name] for name in ("rounds", "inputs") if name in scenario}
    if rounds:
        made["rounds"] = rounds
        if isinstance(made.get("inputs"), dict):
            made["inputs"] = {name: values[:rounds] if isinstance(values, list) else values
                              for name, values in made["inputs"].items()}
    lines = joined.lines()
    made.update({"delays": joined.delays} if joined.delays else {}, trace=lines)
    text = json.dumps(made, indent=0, ensure_ascii=False).encode()
    design = bundle.design if bundle.design.endswith(b"\n") else bundle.design + b"\n"
    comments = "".join(f"{line}\n" for line in comments_of(joined.raw_arrivals())).encode()
    return design + comments + DIVIDER + b"\n" + text + b"\n", len(lines)
