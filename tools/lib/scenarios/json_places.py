"""A JSON text with the positions of its values, so that a rejection can be shown at its position."""

import re
from collections import namedtuple

# The position of a value, its kind (object, list or other), and its parts: for an object, triples of a name, the
# position of the name, and a value; for a list, values.
Value = namedtuple("Value", "offset kind parts")

BLANK = re.compile(r"[ \t\r\n]*")
PLAIN = re.compile(r'"(?:[^"\\]|\\.)*"|[^\s,:\[\]{}"]+', re.DOTALL)


class Broken(Exception):
    """No JSON here."""

    def __init__(self, offset):
        super().__init__(offset)
        self.offset = offset


def places(text):
    """The value of a JSON text with its places, in characters. It is read without recursion, since it may be deep."""
    open_values, at, root = [], 0, None
    while True:
        at = BLANK.match(text, at).end()
        if root is not None:
            return root
        value, at = one_value(text, at, open_values)
        if value is not None and not open_values:
            root = value


def one_value(text, at, open_values):
    """Reads a value's beginning, or the end of the innermost open one. Gives the value that is whole now, if any."""
    if at < len(text) and text[at] in "]}" and open_values:
        return close(text, at, open_values)
    name = None
    if open_values and open_values[-1].kind == "object":
        name, at = name_at(text, at)
    if at < len(text) and text[at] in "[{":
        value = Value(at, "list" if text[at] == "[" else "object", [])
        add(open_values, name, value)
        open_values.append(value)
        return None, at + 1
    match = PLAIN.match(text, at)
    if not match:
        raise Broken(at)
    value = Value(at, "other", match.group())
    add(open_values, name, value)
    return value, past_comma(text, match.end())


def close(text, at, open_values):
    """Ends the innermost open value."""
    value = open_values.pop()
    if text[at] != ("]" if value.kind == "list" else "}"):
        raise Broken(at)
    return value, past_comma(text, at + 1)


def name_at(text, at):
    """A name of an object with its place, and where its value begins."""
    match = PLAIN.match(text, at)
    if not match or not match.group().startswith('"'):
        raise Broken(at)
    colon = BLANK.match(text, match.end()).end()
    if text[colon : colon + 1] != ":":
        raise Broken(colon)
    return (match.group(), at), BLANK.match(text, colon + 1).end()


def add(open_values, name, value):
    """Adds a part to the innermost open value."""
    if open_values:
        open_values[-1].parts.append(value if name is None else (name[0], name[1], value))


def past_comma(text, at):
    """Behind the comma that may follow a value."""
    at = BLANK.match(text, at).end()
    return at + 1 if text[at : at + 1] == "," else at
