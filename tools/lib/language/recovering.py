"""Reads a text that is being written: all syntax errors in one run, with the tree of the readable parts."""

from ..editing.cursor import NAME, Fault
from . import tree
from .grammar import Grammar
from .tokens import word_of

# Words at which a part ends that cannot be read.
ENDS = ("features", "properties", "subcomponents", "connections", "annex", "variables", "states", "transitions", "end",
        "thread", "process", "system")
# How many errors are reported.
MOST_FAULTS = 100


class Recovering(Grammar):
    """The grammar, which resumes after a `;` or at a section or an `end` when a part cannot be read."""

    def __init__(self, text):
        super().__init__(text)
        self.faults = []

    def part_or_none(self, one):
        """A part, or None if it cannot be read: then its fault is noted, and the next part is here."""
        start, depth = self.at, self.depth
        try:
            return one()
        except Fault as fault:
            self.note(fault)
            self.at, self.depth, self.wanted = max(fault.number, start), depth, []
            self.skip(start)
            return None

    def note(self, fault):
        """Notes a fault; of two at one token the first."""
        if len(self.faults) < MOST_FAULTS and all(it.number != fault.number for it in self.faults):
            self.faults.append(Fault(fault.number, list(fault.wanted)))

    def skip(self, start):
        """Moves past the next `;` outside of braces, or to a word that ends a part; at least one token from the start
        on."""
        level = sum({b"{": 1, b"}": -1}.get(it.text, 0) for it in self.tokens[start : self.at])
        while not self.fits("the end"):
            token = self.tokens[self.at]
            word = word_of(token).lower() if token.kind in ("word", "symbol") else ""
            ends = word in ENDS and not (word == "end" and self.tokens[self.at + 1].text.lower() == b"if")
            if self.at > start and (ends or word == "**}"):
                return
            self.next()
            level += {"{": 1, "}": -1}.get(word, 0)
            if word == ";" and level <= 0:
                return

    def section(self, word, one):
        """A section with the parts that can be read."""
        if not self.may(word):
            return []
        if self.may("none"):
            self.part_or_none(lambda: self.take(";"))
            return []
        found = [self.part_or_none(one)]
        while self.sees(NAME):
            found.append(self.part_or_none(one))
        return [it for it in found if it is not None]

    def body(self):
        """The body of a behaviour annex."""
        found = []
        for word, one in (("variables", self.variables), ("states", self.states), ("transitions", self.transition)):
            parts = []
            if self.may(word):
                while self.sees(NAME):
                    parts.append(self.part_or_none(one))
            parts = [it for it in parts if it is not None]
            found.append(parts if word == "transitions" else [it for part in parts for it in part])
        return tree.Behaviour(*found)

    def package(self):
        """The declarations that can be read."""
        types, impls = [], []
        self.part_or_none(self.head)
        while not self.fits("the end"):
            if self.sees("end"):
                self.part_or_none(self.tail)
                break
            start = self.at
            made = self.part_or_none(self.declaration)
            if made is not None:
                (impls if isinstance(made, tree.Impl) else types).append(made)
            while self.at > start and made is None and not self.sees("thread", "process", "system", "the end"):
                self.next()
        else:
            self.part_or_none(lambda: self.take("end"))
        return tree.Package(None, types, impls, None)

    def head(self):
        """The beginning, up to the first declaration."""
        self.take("package")
        self.long_name()
        self.take("public")
        while self.may("with"):
            self.long_name()
            while self.may(","):
                self.long_name()
            self.take(";")
        if not self.sees("system", "process", "thread", "end"):
            self.take("system", "process", "thread", "end")

    def declaration(self):
        """A type or an implementation."""
        offset, category = self.offset(), word_of(self.take("system", "process", "thread")).lower()
        return self.impl(category, offset) if self.may("implementation") else self.type(category, offset)

    def tail(self):
        """The end of the package."""
        self.take("end")
        self.long_name()
        self.take(";")
        self.take("the end")


def read_all(text):
    """The tree of the readable parts of a text, its tokens, and all syntax errors as pairs of a token and sentences."""
    cursor = Recovering(text)
    package = cursor.package()
    return package, cursor.tokens, [(cursor.tokens[it.number], it.wanted) for it in cursor.faults]
