"""Reads AADL as people have it: packages, their components, and in each section its declarations as tokens."""

from collections import namedtuple

from ..explaining.show import visible
from ..language.tokens import Tokens, word_of
from ..scenarios.bundles import Bundle, Refused, read_design

# A component or its implementation: its file and package, its category, its name, the name that it extends, its
# sections (each a list of declarations), and its annexes.
Component = namedtuple("Component", "file package category name extends sections annexes offset")
# A declaration of a section, or an association of a property: its tokens, without the final `;`.
Declaration = namedtuple("Declaration", "file tokens")
Annex = namedtuple("Annex", "file name text offset")

CATEGORIES = {"abstract", "bus", "data", "device", "memory", "process", "processor", "subprogram", "system", "thread"}
TWO_WORDS = {("virtual", "bus"), ("virtual", "processor"), ("thread", "group"), ("subprogram", "group"),
             ("feature", "group")}
SECTIONS = {"features", "flows", "modes", "properties", "prototypes", "subcomponents", "connections", "calls"}
BEFORE_SECTIONS = {"internal", "processor", "requires"}
OPENERS, CLOSERS = {"(", "[", "{", "-["}, {")", "]", "}", "]->"}


class File:
    """A file with its bytes and places."""

    def __init__(self, path):
        self.bundle = Bundle(path, read_design(path))

    def place(self, offset):
        """A place in words: FILE:LINE:COLUMN."""
        line, column = self.bundle.place(offset)
        return f"{visible(self.bundle.path)}:{line}:{column}"


class Reader:
    """Reads one file."""

    def __init__(self, file):
        self.file = file
        self.tokens = Tokens(file.bundle.data).read()
        self.at, self.components, self.left_out = 0, [], []

    def word(self, more=0):
        """The token here, or a later one, in lower case."""
        return word_of(self.tokens[min(self.at + more, len(self.tokens) - 1)]).lower()

    def here(self):
        """The token here."""
        return self.tokens[min(self.at, len(self.tokens) - 1)]

    def wrong(self, wanted):
        """A text that cannot be read."""
        found = visible(word_of(self.here())[:40]) or "the end of the file"
        return Refused(f"{self.file.place(self.here().offset)}: expected {wanted}, found {found}")

    def take(self, word=None):
        """Takes the token here, which has to be a word or a certain one."""
        if (word is None and self.here().kind != "word") or (word is not None and self.word() != word):
            raise self.wrong(f"`{word}`" if word else "a name")
        self.at += 1
        return self.tokens[self.at - 1]

    def name(self):
        """A name, preceded by its packages and followed by an implementation's name, if any."""
        found = word_of(self.take())
        while self.word() in ("::", "."):
            found += self.word()
            self.at += 1
            found += word_of(self.take())
        return found

    def read(self):
        """The contents of the file: components in order, and the names of the omitted declarations."""
        while self.here().kind != "end":
            if self.word() == "property" and self.word(1) == "set":
                self.left_out.append((self.here().offset, "property set", word_of(self.tokens[self.at + 2])))
                self.skip_set()
            else:
                self.package()
        return self

    def skip_set(self):
        """Goes over a property set."""
        name = self.word(2)
        while self.here().kind != "end" and not (self.word() == "end" and self.word(1) == name):
            self.at += 1
        self.at += 3

    def package(self):
        """A package, with its public and its private part."""
        self.take("package")
        package = self.name()
        while self.here().kind != "end":
            word = self.word()
            if word in ("public", "private"):
                self.at += 1
            elif word in ("with", "renames") or self.word(1) == "renames":
                self.declaration()
            elif word == "annex":
                self.annex()
            elif word == "properties":
                self.at += 1
                while self.word() != "end" and self.here().kind != "end":
                    self.declaration()
            elif word == "end":
                self.at += 1
                self.name()
                self.take(";")
                return
            else:
                self.component(package)
        raise self.wrong("the end of the package")

    def component(self, package):
        """A component type, an implementation or a group of features."""
        offset, category = self.here().offset, self.word()
        if (category, self.word(1)) in TWO_WORDS:
            category += f" {self.word(1)}"
            self.at += 1
        elif category not in CATEGORIES:
            raise self.wrong("a component")
        self.at += 1
        if self.word() == "implementation":
            self.at += 1
        name, extends = self.name(), None
        if self.word() == "extends":
            self.at += 1
            extends = self.name()
        if self.word() == "(":
            self.over_brackets()
        sections, annexes = self.sections()
        self.components.append(Component(self.file, package, category, name, extends, sections, annexes, offset))

    def sections(self):
        """The sections of a component, to its end."""
        sections, annexes, section = {}, [], None
        while True:
            word = self.word()
            if word == "end":
                self.at += 1
                self.name()
                self.take(";")
                return sections, annexes
            if self.here().kind == "end":
                raise self.wrong("`end`")
            if word == "annex":
                annexes.append(self.annex())
            elif word in SECTIONS or (word in BEFORE_SECTIONS and self.word(1) in SECTIONS):
                section = word if word in SECTIONS else f"{word} {self.word(1)}"
                self.at += 1 if word in SECTIONS else 2
                sections.setdefault(section, [])
            else:
                if section is None:
                    raise self.wrong("a section, as `features`,")
                if self.here().kind != "word":
                    raise self.wrong("a declaration")
                found = self.declaration()
                if word != "none":
                    sections[section].append(found)

    def declaration(self):
        """The tokens up to the `;` that ends a declaration."""
        first, depth = self.at, 0
        while self.here().kind != "end":
            word = self.word()
            self.at += 1
            depth += (word in OPENERS) - (word in CLOSERS)
            if word == ";" and depth <= 0:
                return Declaration(self.file, self.tokens[first : self.at - 1])
        raise self.wrong("`;`")

    def over_brackets(self):
        """Skips a bracket and its contents."""
        depth = 0
        while self.here().kind != "end":
            depth += (self.word() in OPENERS) - (self.word() in CLOSERS)
            self.at += 1
            if not depth:
                return

    def annex(self):
        """An annex with its text."""
        offset = self.take("annex").offset
        name = word_of(self.take())
        start = self.here().offset
        while self.word() != ";" or self.here().inside:
            if self.here().kind == "end":
                raise self.wrong("`;` after the annex")
            self.at += 1
        text = self.file.bundle.data[start : self.here().offset].rstrip()
        self.at += 1
        return Annex(self.file, name, text, offset)


def read_files(paths):
    """The components of some files, and the omitted declarations: each a file, a position, a kind and a name."""
    components, left_out = [], []
    for path in paths:
        file = File(path)
        found = Reader(file).read()
        components += found.components
        left_out += [(file, *it) for it in found.left_out]
    return components, left_out
