"""Finds the part of a watched formula that is wrong, from the outside in and left before right, as the program does."""

import json
import re

from ..language.names import choice, meant

PARTS = {"var": 5, "halted": 2, "not": 2, "and": 3, "or": 3, "previous": 2, "once": 2, "historically": 2, "since": 3}
COMPARING = ("=", "!=", "<", "<=", ">", ">=")
WHOLE = re.compile(r"-?(?:0|[1-9][0-9]*)")
SHAPES = {
    "var": '["var", PATH, NAME, "<", NUMBER]',
    "halted": '["halted", PATH]',
    **{word: f'["{word}", FORMULA]' for word in ("not", "previous", "once", "historically")},
    **{word: f'["{word}", FORMULA, FORMULA]' for word in ("and", "or", "since")},
}
TOO_MANY, TOO_DEEP = 1_000, 64
# What words of other logics are here.
OTHERS = {
    **dict.fromkeys(("always", "globally", "G", "never"), '"historically" means: in every round up to now'),
    **dict.fromkeys(("eventually", "finally", "F", "ever"),
                    '"once" means: in some round up to now'),
    **dict.fromkeys(("implies", "=>", "->", "imp"), 'A only if B is ["or", ["not", A], B]'),
    **dict.fromkeys(("next", "X", "until", "U"), "a formula refers to earlier rounds, not to later ones"),
    **dict.fromkeys(("!", "~"), '["not", A] negates A'),
}
COMPARES = {"==": "=", "<>": "!=", "=<": "<=", "=>": ">=", "eq": "=", "ne": "!=", "lt": "<", "gt": ">"}


def text_of(value):
    """The text that a JSON value is, or None."""
    if value.kind != "other" or not value.parts.startswith('"'):
        return None
    try:
        return json.loads(value.parts, strict=False)
    except ValueError:
        return None


def first_wrong(value, names):
    """The first wrong part of a formula: where it is, and sentences; or None. `names` has the variables by path."""
    todo, count = [(value, 1)], 0
    while todo:
        part, depth = todo.pop()
        count += 1
        if depth > TOO_DEEP:
            return part.offset, [f"a property has at most {TOO_DEEP} formulas inside of one another"]
        if count > TOO_MANY:
            return part.offset, [f"a property has at most {TOO_MANY:,} formulas"]
        found = wrong(part, names)
        if found:
            return found
        inner = part.parts[1:] if text_of(part.parts[0]) not in ("var", "halted") else []
        todo.extend((it, depth + 1) for it in reversed(inner))
    return None


def wrong(part, names):
    """What is wrong with one formula itself."""
    if part.kind != "list" or not part.parts:
        return part.offset, ["a formula is a list, as " + SHAPES["var"]]
    word = text_of(part.parts[0])
    if word not in PARTS:
        shown = word if word is not None else "this"
        near = OTHERS.get(word) or (meant(word, PARTS) if word else "")
        return part.parts[0].offset, [f"{shown} begins no formula", near, f"formulas begin with {choice(PARTS)}"]
    if len(part.parts) != PARTS[word]:
        more = "or" if word == "or" else "and"
        join = f'; of three write ["{more}", A, ["{more}", B, C]]' if word in ("and",
                                                                               "or") and len(part.parts) > 3 else ""
        return part.offset, [f'"{word}" has {PARTS[word] - 1} parts after it, and here are {len(part.parts) - 1}',
                             f"it is written {SHAPES[word]}{join}"]
    return wrong_node(part, word, names) if word in ("var", "halted") else None


def wrong_node(part, word, names):
    """What is wrong with the path, the variable or the comparison of a formula."""
    path = text_of(part.parts[1])
    if path is None:
        return part.parts[1].offset, [f"expected a path, as {SHAPES[word]}"]
    if word == "var":
        compare, number = text_of(part.parts[3]), part.parts[4]
        if text_of(part.parts[2]) is None:
            return part.parts[2].offset, ["expected the name of a variable"]
        if compare not in COMPARING:
            near = f'"{COMPARES[compare]}" is likely meant' if compare in COMPARES else ""
            return part.parts[3].offset, [f"{compare or 'this'} is not a comparison", near,
                                          f"comparisons: {choice(COMPARING)}"]
        if number.kind != "other" or not WHOLE.fullmatch(number.parts) or number.parts == "-0":
            return number.offset, [why_number(number)]
        if not -(2**63) <= (int(number.parts) if len(number.parts) < 25 else 2**63) < 2**63:
            return number.offset, ["the number has more than 64 bits"]
    if path not in names:
        return part.parts[1].offset, [f"there is no component {path}", meant(path, names),
                                      f"components: {', '.join(names)}"]
    if word == "var" and text_of(part.parts[2]) not in names[path]:
        name = text_of(part.parts[2])
        known = names[path]
        return part.parts[2].offset, [f"{path} has no variable {name}", meant(name, known),
                                      f"variables of {path}: {', '.join(known)}" if known
                                      else f"{path} has no variables"]
    return None


def why_number(value):
    """Why a value is not a number that a variable can be compared with."""
    if value.kind == "other" and value.parts in ("true", "false"):
        return f"expected a number: {1 if value.parts == 'true' else 0} is {value.parts}"
    if value.kind == "other" and re.fullmatch(r"-?[0-9.eE+-]+", value.parts):
        return "expected a whole number, without a point and without an exponent"
    return "expected a whole number; a variable is not compared with another variable"
