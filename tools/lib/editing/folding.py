"""The parts of a design's text that an editor can fold: declarations, sections, behaviours and comments."""

import re

from ..language.tokens import word_of

CATEGORIES = ("thread", "process", "system")
SECTIONS = ("features", "properties", "subcomponents", "connections", "annex", "variables", "states", "transitions")
COMMENTS = re.compile(rb"(?m)(?:^[ \t]*--[^\n]*\n?){2,}")


def foldings(edited):
    """The first and the last line of each part, from 0, in order. Parts of one line are omitted, and of several parts
    that begin on one line all but the longest."""
    longest = {first: (last, kind) for first, last, kind in sorted([*declarations(edited), *comments(edited)])}
    return [{"startLine": first, "endLine": last, "kind": kind} for first, (last, kind) in longest.items()
            if first < last]


def line_of(edited, offset):
    """The line of a byte, from 0."""
    return edited.position(offset)["line"]


def declarations(edited):
    """Declarations up to their `end`, and the sections inside of them."""
    declared, section, inner = None, None, None
    for number, token in enumerate(edited.tokens[:-1]):
        word = word_of(token).lower() if token.kind in ("word", "symbol") else ""
        line, before = line_of(edited, token.offset), edited.tokens[number - 1] if number else None
        if word == "**}" and section is not None:
            yield from part(inner, line - 1)
            yield from part(section, line)
            section, inner = None, None
        elif token.inside and word in SECTIONS:
            yield from part(inner, line - 1)
            inner = line
        elif not token.inside and (word in SECTIONS or word == "end"):
            yield from part(section, line - 1)
            section, inner = (line if word != "end" else None), None
            if word == "end":
                yield from part(declared, line)
                declared = None
        elif not token.inside and word in CATEGORIES and before is not None and word_of(before) != ":":
            declared = line


def part(first, last):
    """A part that has begun."""
    if first is not None:
        yield first, last, "region"


def comments(edited):
    """Comments of two lines or more."""
    for found in COMMENTS.finditer(edited.data):
        last = found.end() - found[0].endswith(b"\n")
        yield line_of(edited, found.start()), line_of(edited, last), "comment"
