"""Why a scenario is not JSON, as far as it can be determined, and where."""

import json
import re

from ..scenarios.bundles import BYTE_ORDER_MARK
from ..scenarios.places import text_and_start

DEEPEST = 127
SPELLED = {"True": "true", "False": "false", "None": "null"}


def why_no_json(bundle):
    """Where a scenario is not JSON, as far as it can be determined, and why."""
    data = bundle.scenario
    if data.startswith(BYTE_ORDER_MARK):
        return bundle.scenario_start, "the scenario begins with a byte order mark: remove it, as tools/bundle does"
    try:
        data.decode("utf-8")
    except UnicodeDecodeError as error:
        return bundle.scenario_start + error.start, "this byte is not UTF-8"
    text, start = text_and_start(bundle)
    deep = first_too_deep(text)
    if deep is not None:
        return start(deep), "the scenario is nested 128 deep or more here"
    try:
        json.loads(text, parse_constant=refuse, parse_float=in_range, parse_int=str)
    except json.JSONDecodeError as error:
        at, why = likely(text, error)
        return start(at), why
    except Odd as odd:
        return start(max(text.find(odd.word), 0)), f"{odd.word} is not a number of JSON"
    return bundle.scenario_start, "the scenario is not valid JSON"


def likely(text, error):
    """Where JSON is likely wrong, and why."""
    at, before = error.pos, text[: error.pos].rstrip()
    here = text[at : at + 1]
    last = len(before) - 1
    if not text.strip():
        return at, 'the scenario is empty: it is one JSON object, as {"rounds": 3}'
    if here in ("]", "}") and before.endswith(","):
        return last, "a comma precedes a closing bracket: remove it"
    if before.endswith(",") and "Expecting property name" in error.msg and here in ("}", ""):
        return last, "a comma precedes a closing bracket: remove it"
    if here == "'":
        return at, 'a string is in double quotes: "p.a"'
    if text.startswith(("//", "/*", "#"), at):
        return at, "JSON has no comments: remove it"
    word = re.match(r"[A-Za-z_][\w.]*", text[at:])
    if word and word[0] in SPELLED:
        return at, f"write {SPELLED[word[0]]} for {word[0]}"
    if word:
        return at, f'{word[0]} has no quotes: write "{word[0]}"'
    if "delimiter" in error.msg and here in ('"', "[", "{") or ("delimiter" in error.msg and here.isdigit()):
        what = "colon" if "':'" in error.msg else "comma"
        return max(last, 0), f"a {what} is missing after this"
    if "Extra data" in error.msg:
        return at, "the scenario has ended before this: it is one JSON object, and nothing follows it"
    if at >= len(text.rstrip()):
        return at, "the scenario ends too early: a closing bracket or quote is missing"
    return at, f"the scenario is not valid JSON: {error.msg}"


class Odd(Exception):
    """A number with a syntax error."""

    def __init__(self, word):
        super().__init__(word)
        self.word = word


def refuse(word):
    """NaN and Infinity are not JSON."""
    raise Odd(word)


def in_range(word):
    """A number with a point or an exponent, unless it is beyond the range of a 64-bit float."""
    if float(word) in (float("inf"), float("-inf")):
        raise Odd(word)
    return float(word)


def first_too_deep(text):
    """The first bracket that is too deep, strings left out; or None."""
    depth, at = 0, 0
    while at < len(text):
        if text[at] == '"':
            at = string_end(text, at)
        depth += (text[at : at + 1] in ("[", "{")) - (text[at : at + 1] in ("]", "}"))
        if depth > DEEPEST:
            return at
        at += 1
    return None


def string_end(text, at):
    """The quote that ends a string."""
    at += 1
    while at < len(text) and text[at] != '"':
        at += 2 if text[at] == "\\" else 1
    return at
