"""The adaptors that a connection may have, by the rates of the threads that it joins."""

import re

from ..editing.edited import Edited

ADAPTORS = {"repeat": "to a higher rate: the value in each step", "first": "the first place of a group",
            "last": "the last place of a group", "latest": "to a lower rate: the last value that is present",
            "max": "to a lower rate: the maximum", "min": "to a lower rate: the minimum",
            "average": "to a lower rate: the sum divided by the number, towards zero"}
CONNECTION = re.compile(rb"[A-Za-z][A-Za-z0-9_]*\s*:\s*port\b")
TO_HIGHER, TO_LOWER, OF_NUMBERS = ("repeat", "first", "last"), ("first", "last", "latest"), ("max", "min", "average")


def allowed(source, target, is_number):
    """The adaptors between two rates, each with its meaning: none if they are equal or neither divides the other."""
    high, low = max(source, target), min(source, target)
    if high == low or high % low:
        return {}
    names = TO_HIGHER if source < target else TO_LOWER + (OF_NUMBERS if is_number else ())
    size = high // low
    return {**{name: ADAPTORS[name] for name in names},
            **{f"at {place}": f"place {place} of a group of {size}" for place in range(1, size + 1)}}


def rates_of(model, offset):
    """For each link that the connection at a byte carries: the rates of its source and of its target, and whether its
    values are numbers. None if a rate is unknown."""
    found = []
    for thread, port in model.in_ports():
        came = model.came_from(f"{thread.path}.{port.name.text}")
        if came and came.carrier.name.offset == offset:
            source, target = model.rate(came.thread) if came.thread else 1, model.rate(thread)
            if not source or not target:
                return None
            found.append((source, target, bool(port.ref) and port.ref.text.lower().endswith("integer")))
    return found


def completed(data, offset):
    """Texts in which the string at a byte has an end: as the line continues, or with the end of its connection."""
    line = data.rfind(b"\n", 0, offset) + 1
    end = data.find(b"\n", offset)
    rest = data[offset : end if end >= 0 else len(data)]
    yield data if b'"' in rest else data[:offset] + b'"' + data[offset:]
    braces = data[line:offset].count(b"{") - data[line:offset].count(b"}")
    yield data[:offset] + b'";' + b"}" * braces + b";" + data[offset + len(rest) :]


def choices(data, offset):
    """The adaptors that are allowed in the string at a byte, each with its meaning. If the rates are unknown these are
    all adaptors."""
    names = [it.start() for it in CONNECTION.finditer(data, 0, offset)]
    for text in completed(data, offset) if names else ():
        model = Edited(text.decode("utf-8", "replace")).model()
        links = rates_of(model, names[-1]) if model else None
        if links:
            sets = [allowed(*link) for link in links]
            return {name: words for name, words in sets[0].items() if all(name in it for it in sets)}
    return ADAPTORS
