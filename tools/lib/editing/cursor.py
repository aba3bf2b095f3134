"""A position among the tokens of a design's text, with the tokens that may be there."""

from ..language import tree
from ..language.tokens import Tokens, word_of
from ..language.words import ANNEX, DECLARATIONS

NAME, WHOLE, REAL, STRING, UNREAD, END = "a name", "a whole number", "a real", "a string", "an annex's body", "the end"
KINDS = {WHOLE: "whole", REAL: "real", STRING: "string", UNREAD: "unread", END: "end"}
DEEPEST = 64


class Fault(Exception):
    """The first unexpected token: its number, and the expected tokens, in the order of the grammar."""

    def __init__(self, number, wanted):
        super().__init__(number)
        self.number, self.wanted = number, wanted


class Cursor:
    """A position among the tokens of a text. It records the tokens that the parser looked for here."""

    def __init__(self, text):
        self.tokens = Tokens(text).read()
        self.at, self.wanted, self.depth = 0, [], 0

    def fits(self, what):
        """Whether the token here is this one: a class of tokens, a keyword or a symbol."""
        token = self.tokens[self.at]
        if what == NAME:
            return token.kind == "word" and word_of(token).lower() not in (ANNEX if token.inside else DECLARATIONS)
        if what in KINDS:
            return token.kind == KINDS[what]
        return token.kind in ("word", "symbol") and word_of(token).lower() == what

    def sees(self, *whats):
        """The first of these that the token here is, or None."""
        self.wanted.extend(what for what in whats if what not in self.wanted)
        return next((what for what in whats if self.fits(what)), None)

    def next(self):
        """Takes the token here."""
        token = self.tokens[self.at]
        self.at, self.wanted = self.at + 1, []
        return token

    def take(self, *whats):
        """Takes one of these, or stops."""
        if not self.sees(*whats):
            raise Fault(self.at, self.wanted)
        return self.next()

    def may(self, *whats):
        """Takes one of these, where it is here."""
        return self.next() if self.sees(*whats) else None

    def name(self):
        """Takes a name."""
        token = self.take(NAME)
        return tree.Name(word_of(token), token.offset)

    def offset(self):
        """The place of the token here."""
        return self.tokens[self.at].offset

    def end(self):
        """The end of the last token that was taken."""
        token = self.tokens[self.at - 1]
        return token.offset + len(token.text)

    def since(self, start):
        """The tokens from one on, as one word."""
        found = self.tokens[start : self.at]
        return tree.Name("".join(map(word_of, found)), found[0].offset)

    def enter(self):
        """Goes one bracket deeper; a text that is nested too deep ends here."""
        self.depth += 1
        if self.depth > DEEPEST:
            raise Fault(self.at - 1, self.wanted)

    def leave(self):
        """Goes out of a bracket."""
        self.depth -= 1
