"""How the commands of this package show their progress, and what they do if an answer of theirs is wrong."""

import sys
import time

from .questions import Fault

# The status if an answer of a tool is wrong.
WRONG = 3


class Progress:
    """Shows the current query on a terminal, each second."""

    def __init__(self, name):
        self.name, self.shown = name, 0.0
        self.shows = sys.stderr is not None and sys.stderr.isatty()

    def tell(self, text):
        """Shows a text, unless one was shown less than a second ago."""
        if self.shows and time.monotonic() - self.shown > 1:
            self.shown = time.monotonic()
            print(f"\r\033[K{self.name}: {text}", end="", file=sys.stderr, flush=True)

    def clear(self):
        """Removes the text."""
        if self.shows:
            print("\r\033[K", end="", file=sys.stderr, flush=True)


def guarded(name, main):
    """A command whose own faults have a status of their own."""

    def work(given):
        try:
            return main(given)
        except Fault as why:
            print(f"{name}: this tool has a fault: {why}", file=sys.stderr)
            return WRONG

    return work
