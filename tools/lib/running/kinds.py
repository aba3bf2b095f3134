"""What kind an answer is, and the status that the program gives with it."""

import re

from ..language.grammar import package_of
from ..language.listing import FORM, read_listing
from ..scenarios.bundles import Refused
from .answers import CHECK_LINE, FINDING, ONE_LINE, PROCESSOR, STOP, WATCHED
from .rows import Report

# An annex that is printed unchanged.
UNREAD = re.compile(r"(?is)annex (?!behavior_specification\b)\w+ \{\*\*.*?\*\*\}")


class Answer:
    """An answer: its kind, its status, its lines, and the parts of one of one line. An answer of no kind has none."""

    def __init__(self, text):
        self.text, self.parts = text, None
        self.lines = [line for line in text.split("\n") if line]
        self.kind, self.status = self.classify()

    def classify(self):
        """The kind and the status."""
        for kind, shape, status in ONE_LINE:
            self.parts = shape.fullmatch(self.text.rstrip("\n"))
            if self.parts:
                return kind, status
        if not self.lines:
            return "empty", 0
        if all(map(FINDING.fullmatch, self.lines)):
            return "findings", 4
        if self.lines[0] == "accepted":
            return ("check", 0) if all(map(CHECK_LINE.fullmatch, self.lines)) else (None, 1)
        if self.lines[0] == FORM:
            return ("listing", 0) if is_listing(self.text) else (None, 1)
        if self.lines[0].startswith("package "):
            return ("design", 0) if is_canonical(self.text) else (None, 1)
        return self.report()

    def report(self):
        """The kind and the status of a report of rounds or of processors."""
        if not is_report(self.text):
            return None, 1
        watched = WATCHED.fullmatch(self.lines[-1])
        if watched:
            return "watch", int(watched["round"] is not None)
        if PROCESSOR.fullmatch(self.lines[0]):
            return "budget", int(any(line.endswith(" over") for line in self.lines))
        return ("stop", 6) if STOP.fullmatch(self.lines[-1]) else ("rows", 0)


def is_report(text):
    """Whether each line is one of a report or of a journal."""
    try:
        Report(text)
    except Refused:
        return False
    return True


def is_listing(text):
    """Whether a text is a listing of step code."""
    try:
        read_listing(text)
    except Refused:
        return False
    return True


def is_canonical(text):
    """Whether a text is a design as `print` writes it: without comments, and with single blanks."""
    plain = re.sub(r'"[^"\n]*"', '""', UNREAD.sub("", text))
    spaced = re.search(r"(?m)^[ \t]|[ \t]{2}|[ \t]$|--|\r|\n\n|^%%%$", plain)
    return not spaced and text.endswith("\n") and package_of(text.encode()) is not None
