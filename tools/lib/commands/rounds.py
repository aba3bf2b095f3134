"""Rounds, as a command line names them."""

import re

from .command import Misused


def rounds_of(word):
    """The first and the last round of `FROM..TO`."""
    match = re.fullmatch(r"([0-9]{1,6})\.\.([0-9]{1,6})", word)
    if not match:
        raise Misused(f"{word} is not a pair of rounds, as 3..5")
    first, final = int(match[1]), int(match[2])
    if first > final:
        raise Misused(f"{word} has no rounds: the first is above the last")
    return first, final
