"""Descriptions of the names in a text that is being edited."""

from ..commands.times import in_ms
from ..language.adaptor_choices import ADAPTORS
from ..language.properties import PLACES
from ..language.tokens import word_of


def described(edited, offset):
    """Sentences on the name at a byte; none if nothing is known of it."""
    entry = edited.resolve(offset)
    if entry:
        return [entry.words, *rates(edited, entry), *root_words(edited, entry)]
    return [*property_words(edited, offset), *period_words(edited, offset)]


def rates(edited, entry):
    """The rate of the thread that an entry names, and the steps that it sends."""
    model = edited.model() if entry.kind == "part" and not edited.faults else None
    found = []
    for thread in model.by_path.values() if model else ():
        if thread.part.name.offset == entry.name.offset:
            rate = model.rate(thread)
            sent = model.steps_sent(rate) if rate else None
            found.append(f"{thread.path}: rate {rate}, sends {sent} of its steps" if sent else f"{thread.path}")
    return found


def root_words(edited, entry):
    """The minimum period of the design, if an entry is its root."""
    model = edited.model() if entry.kind == "implementation" and not edited.faults else None
    return least_words(model) if model and model.root.name.offset == entry.name.offset else []


def period_words(edited, offset):
    """The minimum period of the design, if the period of its root is at a place."""
    model = edited.model() if not edited.faults else None
    levels = [model.root, model.declared.type_of(model.root)] if model else []
    at = [it.name.offset for level in levels if level for it in level.props if it.name.text.lower() == "period"]
    return least_words(model) if any(it <= offset <= it + len("Period") for it in at) else []


def least_words(model):
    """The minimum period of a design, if it is known."""
    if model.least_periods is None:
        return []
    least, shortest = model.least_periods
    more = "" if shortest == least else f"; the shortest one that every rate divides: {in_ms(shortest)}"
    return [f"minimum period by the bound: {in_ms(least)}{more}"]


def property_words(edited, offset):
    """What a property or an adaptor at a place means."""
    number = edited.token_at(offset)
    word = word_of(edited.tokens[number]).lower() if number is not None else ""
    names = [name for name in PLACES if name.lower().rpartition("::")[2] == word]
    if names:
        return [f"{names[0]}: a property of {PLACES[names[0]]}"]
    text = next((word_of(it)[1:-1] for it in edited.tokens if it.kind == "string"
                 and it.offset <= offset <= it.offset + len(it.text)), "")
    return [f'"{text}": {ADAPTORS[text]}'] if text in ADAPTORS else []
