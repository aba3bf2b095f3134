"""The tokens of a design's text."""

import re
from collections import namedtuple

from .words import BEHAVIOUR

# A token's kind is word, whole, real, string, symbol, unread (the body of another annex), other or end (of the text).
Token = namedtuple("Token", "kind text offset inside")

SPACE = re.compile(rb"(?:[ \t\r\n]|--[^\n]*)+")
SHAPES = [
    ("word", re.compile(rb"[A-Za-z][A-Za-z0-9_]*")),
    ("real", re.compile(rb"[0-9]+\.[0-9]+")),
    ("whole", re.compile(rb"[0-9]+(?:_[0-9]+)*")),
    ("string", re.compile(rb'"[^"\n]*"')),
    ("symbol", re.compile(rb"\+=>|\]->|=>|->|-\[|\.\.|::|!=|<=|>=|:=|[;:,.{}()\[\]+\-*/=<>!']")),
    ("other", re.compile(rb".", re.DOTALL)),
]


class Tokens:
    """The tokens of a text, in order. Comments are omitted, and a bad byte is a token of its own."""

    def __init__(self, text):
        self.text, self.at, self.found = text, 0, []
        # The end of the current behaviour annex, and the end of the readable part.
        self.annex_end, self.limit = None, len(text)

    def read(self):
        """Reads all of them; the last one is the end of the text."""
        while True:
            self.skip_space()
            if self.at >= self.limit:
                if self.annex_end is None:
                    break
                self.close_annex()
                continue
            self.take()
        self.add("end", len(self.text), len(self.text))
        return self.found

    def skip_space(self):
        """Goes over blanks and comments."""
        space = SPACE.match(self.text, self.at, self.limit)
        if space:
            self.at = space.end()

    def take(self):
        """Takes one token."""
        if self.text.startswith(b"{**", self.at) and self.annex_end is None:
            self.open_annex()
            return
        for kind, shape in SHAPES:
            match = shape.match(self.text, self.at, self.limit)
            if match:
                self.add(kind, self.at, match.end())
                return

    def add(self, kind, start, end):
        """Adds a token."""
        self.found.append(Token(kind, self.text[start:end], start, self.annex_end is not None))
        self.at = end

    def open_annex(self):
        """Opens a behaviour annex, or takes the whole of another one."""
        close = self.text.find(b"**}", self.at + 3)
        if not self.found or self.found[-1].text.lower() != BEHAVIOUR.encode():
            self.add("unread", self.at, len(self.text) if close < 0 else close + 3)
            return
        self.add("symbol", self.at, self.at + 3)
        self.annex_end = self.limit = len(self.text) if close < 0 else close

    def close_annex(self):
        """Ends the behaviour annex that is read."""
        start, self.annex_end, self.limit = self.annex_end, None, len(self.text)
        self.at = start
        if start < len(self.text):
            self.add("symbol", start, start + 3)


def tokens_of(text):
    """The tokens of a text, without its end."""
    return Tokens(text).read()[:-1]


def word_of(token):
    """The text of a token, as text."""
    return token.text.decode("utf-8", "replace")
