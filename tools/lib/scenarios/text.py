"""Writes scenarios as people read them: a line for each field, and for each name in one."""

import json

# Fields whose names have a line each.
BY_NAME = ("inputs", "clocks", "delays", "properties", "plants", "processors")


def scenario_text(scenario):
    """The text of a scenario. Its events of the same time are on one line."""
    fields = []
    for name, value in scenario.items():
        if name in BY_NAME and isinstance(value, dict) and value:
            written = lines([f"{json.dumps(key)}: {json.dumps(it)}" for key, it in value.items()], "{}")
        elif name == "events" and isinstance(value, list) and value:
            written = lines(by_time(value), "[]")
        else:
            written = json.dumps(value)
        fields.append(f"  {json.dumps(name)}: {written}")
    return "{\n" + ",\n".join(fields) + "\n}\n"


def lines(parts, brackets):
    """Parts on lines of their own."""
    return brackets[0] + "\n    " + ",\n    ".join(parts) + "\n  " + brackets[1]


def by_time(events):
    """Events, grouped by time."""
    found = []
    for event in events:
        if not found or event[:1] == ["pass"]:
            found.append([])
        found[-1].append(json.dumps(event))
    return [", ".join(it) for it in found]
