"""The positions in a bundle of the values that a rejection of a scenario names, as inputs/goal/2 or events/3."""

import json
import re

from .json_places import Broken, places


def text_and_start(bundle):
    """The scenario as text, and a function that gives the place in the bundle of one of its characters."""
    text = bundle.scenario.decode("utf-8", "surrogateescape")
    return text, lambda at: bundle.scenario_start + len(text[:at].encode("utf-8", "surrogateescape"))


def place_of(bundle, name):
    """The position in the bundle of the value that NAME names: the nearest existing one."""
    text, start = text_and_start(bundle)
    try:
        value = places(text)
    except Broken:
        return bundle.scenario_start
    at, rest = value.offset, name
    while rest and rest != "scenario":
        found = part_of(value, rest)
        if found is None:
            break
        at, value, rest = found
    return start(at)


def value_of(bundle, name):
    """The value in a scenario that NAME names, or None."""
    text, _ = text_and_start(bundle)
    try:
        value = places(text)
    except Broken:
        return None
    rest = name
    while rest:
        found = part_of(value, rest)
        if found is None:
            return None
        _, value, rest = found
    return value


def offset_of(bundle, at):
    """The place in the bundle of a character of the scenario."""
    return text_and_start(bundle)[1](at)


def part_of(value, name):
    """The part of a value that a name begins with: its position, its value, and the rest of the name."""
    if value.kind == "list":
        index, _, rest = name.partition("/")
        at = int(index) if re.fullmatch(r"[0-9]{1,9}", index) else len(value.parts)
        return (value.parts[at].offset, value.parts[at], rest) if at < len(value.parts) else None
    if value.kind != "object":
        return None
    for quoted, at, part in reversed(value.parts):
        spelled = unquoted(quoted)
        if name == spelled or name.startswith(spelled + "/"):
            return at, part, name[len(spelled) + 1 :]
    return None


def unquoted(quoted):
    """The name that a JSON string spells."""
    try:
        return json.loads(quoted, strict=False)
    except ValueError:
        return quoted
