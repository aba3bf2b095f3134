"""The parts of a record between restarts. All nodes restart at one round R, so the part from there on is a run by
itself: its rounds are counted from R, and its readings from the time R * T. It begins with the initial frames
(`restart`), or as an earlier round began that all nodes saved (`resume`)."""

import re

from ..running.answers import NUMBER
from ..scenarios.bundles import Refused

RESTART = re.compile(rf"(?P<kind>restart|resume) (?P<path>\S+) (?P<round>{NUMBER}) {NUMBER}")
SAVE = re.compile(rf"save (?P<path>\S+) (?P<round>{NUMBER}) {NUMBER}")
# The places of the round and of the reading among the words of a line, by its first word.
PLACES = {"start": (2, 3), "send": (2, 3), "finish": (2, None), "step": (2, 4), "arrive": (2, 3), "stop": (3, 4),
          "row": (1, None), "out": (1, None), "hold": (2, 3),
          "save": (2, 3)}


def part_of(text, number, path, period):
    """The lines of one part of a record, the first being number 0, and the round at which it begins."""
    lines = text.split("\n")
    starts = [(at, int(found["round"])) for at, found in enumerate(map(RESTART.fullmatch, lines)) if found]
    if number > len(starts):
        raise Refused(f"{path} has {len(starts)} restarts in its record, and part {number} begins with one more")
    begin, first = starts[number - 1] if number else (-1, 0)
    end = starts[number][0] if number < len(starts) else len(lines)
    own = lines[begin + 1 : end]
    if end < len(lines):
        own.append("")
    if number:
        own = [line for line in (shifted(line, first, period) for line in own) if line is not None]
    return "\n".join(own), first


def saved_of(text, number, path):
    """The round that a part of a record continues, and the number of the part that has saved it; None if it begins with
    the initial frames."""
    count, saved = 0, None
    for line in text.split("\n"):
        save, start = SAVE.fullmatch(line), RESTART.fullmatch(line)
        if save:
            saved = (count, int(save["round"]))
        count += start is not None
        if start and count == number:
            if start["kind"] == "restart":
                return None
            if saved is None:
                raise Refused(f"{path} has no saved round before it resumes at round {start['round']}")
            return saved
    return None


def moved_line(line, moved, period):
    """A line with its round and its reading counted from a later round, or from an earlier one."""
    words = shifted(" ".join(line.words), moved, period).split(" ")
    reading = None if line.reading is None else max(0, line.reading - moved * period)
    return line._replace(round=line.round - moved, reading=reading, words=words)


def shifted(line, first, period):
    """A line with its round and its reading counted from a restart; None for one of a round before it."""
    words = line.split(" ")
    at, reading = PLACES.get(words[0], (None, None))
    if at is None or at >= len(words) or not words[at].isdigit():
        return line
    if int(words[at]) < first:
        return None
    words[at] = str(int(words[at]) - first)
    if reading is not None and reading < len(words) and words[reading].isdigit():
        words[reading] = str(max(0, int(words[reading]) - first * period))
    return " ".join(words)
