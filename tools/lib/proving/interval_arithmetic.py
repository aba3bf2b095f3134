"""Arithmetic on ranges: pairs of the smallest and the largest number, or None if no value is possible."""

from ..language.listing import GREATEST, LEAST
from .terms import quotient

WIDEST = (LEAST, GREATEST)
# The range of a truth value.
EITHER = (0, 1)


def hull(one, two):
    """The least range that has two ranges in it; None has no value."""
    if one is None or two is None:
        return one if two is None else two
    return min(one[0], two[0]), max(one[1], two[1])


def meet(one, two):
    """The values in both ranges, or None."""
    if one is None or two is None:
        return None
    low, high = max(one[0], two[0]), min(one[1], two[1])
    return (low, high) if low <= high else None


def corners(work, one, two):
    """The range of a function that is monotone on each side, from its corners."""
    found = [work(x, y) for x in one for y in two]
    return min(found), max(found)


def comparison(op, left, right):
    """The truth values that a comparison may have."""
    if op == "eq":
        return int(left == right and left[0] == left[1]), int(meet(left, right) is not None)
    strict = int(op == "lt")
    return int(left[1] + strict <= right[0]), int(left[0] + strict <= right[1])


def arithmetic(op, left, right):
    """The range of an operator's result; if it leaves 64 bits the step traps, or the result is any number."""
    word = op.split("_")[-1]
    if word in ("add", "sub", "mul"):
        work = {"add": lambda x, y: x + y, "sub": lambda x, y: x - y, "mul": lambda x, y: x * y}[word]
        found = corners(work, left, right)
        if op.startswith("exact"):
            return found
        fits = LEAST <= found[0] and found[1] <= GREATEST
        if op.startswith("overflow"):
            never = found[1] < LEAST or found[0] > GREATEST
            return (0, 0) if fits else (1, 1) if never else EITHER
        return found if fits else WIDEST
    divisor = (right[0] or 1, right[1] or -1)
    sizes = max(abs(right[0]), abs(right[1]))
    if op == "quot":
        if right[0] <= 0 <= right[1] or left[0] == LEAST:
            size = max(abs(left[0]), abs(left[1]))
            return max(-size, LEAST), min(size, GREATEST)
        return corners(quotient, left, divisor)
    if op == "rem":
        return max(left[0], 1 - sizes) if left[0] < 0 else 0, min(left[1], sizes - 1) if left[1] > 0 else 0
    if right[0] > 0 and 0 <= left[0] and left[1] < right[0]:
        return left
    return (1 - sizes if right[0] < 0 else 0), (sizes - 1 if right[1] > 0 else 0)
