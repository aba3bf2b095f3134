"""Ranges of times and of values, as a command line gives them."""

import fnmatch
import re

from ..language.model import UNITS
from ..language.names import choice
from ..scenarios.bundles import Refused
from .command import Misused

TIME = re.compile(r"([+-]?[0-9]{1,18})(?:\.([0-9]{1,9}))? ?(ns|us|ms|sec|s|min)?")


def nanos_of(word):
    """The nanoseconds of a time, as 3, 1.5ms or -200us; without a unit they are nanoseconds."""
    match = TIME.fullmatch(word.strip())
    if not match:
        raise Misused(f"{word} is not a time, as 1.5ms")
    unit = UNITS[{"s": "sec", None: "ns"}.get(match[3], match[3])]
    part = int((match[2] or "0").ljust(9, "0")) * unit // 10**9
    return int(match[1]) * unit + (-part if match[1].startswith("-") else part)


def time_range(word):
    """The two ends of a time, or of two with `..` between them."""
    first, dots, last = word.partition("..")
    ends = nanos_of(first), nanos_of(last if dots else first)
    if ends[0] > ends[1]:
        raise Misused(f"{word} is not a range: its first end is above its last")
    return ends


def named_ranges(words, known, kind):
    """Ranges by name, from NAME=RANGE; a name may have * for any letters. Later ones count."""
    found = {}
    for word in words:
        name, sign, given = word.partition("=")
        if not sign:
            raise Misused(f"{word} is no NAME=RANGE")
        fitting = [it for it in known if fnmatch.fnmatchcase(it, name)]
        if not fitting:
            others = f"; there is {choice(known[:8])}" if known else ", nor any other one"
            raise Refused(f"there is no {kind} {name}{others}")
        found.update((it, given) for it in fitting)
    return found


def values_of(word):
    """The values of a range, as 0..9, true,false or 1,5,null."""
    found = []
    for part in map(str.strip, word.split(",")):
        match = re.fullmatch(r"(-?[0-9]{1,19})(?:\.\.(-?[0-9]{1,19}))?", part)
        if match:
            found.append(Numbers(int(match[1]), int(match[2] or match[1])))
        elif part in ("true", "false", "null", "_"):
            found.append(Single({"true": True, "false": False}.get(part)))
        else:
            raise Misused(f"{part} is not a value or a range of numbers, as 0..9 or true or null")
        if found[-1].count < 1:
            raise Misused(f"{part} has no number: the first end is above the last")
    return Values(found)


class Numbers:
    """The whole numbers from one to another."""

    def __init__(self, first, last):
        self.first, self.last, self.count = first, last, last - first + 1

    def take(self, at):
        """The number at a place."""
        return self.first + at

    def has(self, value):
        """Whether a value is one of these."""
        return is_number(value) and self.first <= value <= self.last


class Single:
    """One value that is not a number."""

    def __init__(self, value):
        self.value, self.count = value, 1

    def take(self, _):
        """The value."""
        return self.value

    def has(self, value):
        """Whether a value is this one."""
        return same(self.value, value)


class Values:
    """Some values, each by its place: ranges are not written out."""

    def __init__(self, parts):
        self.parts, self.count = parts, sum(part.count for part in parts)

    def take(self, at):
        """The value at a place."""
        for part in self.parts:
            if at < part.count:
                return part.take(at)
            at -= part.count
        raise IndexError(at)

    def has(self, value):
        """Whether a value is one of these."""
        return any(part.has(value) for part in self.parts)

    def simplest(self):
        """The simplest values, in order: an absent value, false, 0 and the first one."""
        found = []
        for option in (None, False, 0, self.take(0)):
            if self.has(option) and not any(same(option, it) for it in found):
                found.append(option)
        return found

    def rank(self, value):
        """The place of a value among the simplest ones; other values come after them."""
        simplest = self.simplest()
        return next((at for at, it in enumerate(simplest) if same(it, value)), len(simplest))

    def nearest(self, value):
        """The simplest number to which a number may be reduced, or None: 0, or else the first number."""
        if not is_number(value):
            return None
        return next((it for it in (0, self.take(0)) if is_number(it) and self.has(it)), None)


def is_number(value):
    """Whether a value is a number; a Boolean is not one."""
    return isinstance(value, int) and not isinstance(value, bool)


def same(one, two):
    """Whether two values are the same: 1 is not true."""
    return type(one) is type(two) and one == two
