"""Reads the declarations of a design's text: all but behaviours."""

from ..editing.cursor import END, NAME, REAL, STRING, UNREAD, WHOLE, Cursor
from . import tree
from .tokens import word_of

CATEGORIES = ("system", "process", "thread")


class Declarations(Cursor):
    """The declarations outside of behaviours."""

    def package(self):
        """The whole text."""
        self.take("package")
        name, types, impls = self.long_name(), [], []
        self.take("public")
        while self.may("with"):
            self.long_name()
            while self.may(","):
                self.long_name()
            self.take(";")
        while self.sees(*CATEGORIES):
            offset, category = self.offset(), word_of(self.next()).lower()
            if self.may("implementation"):
                impls.append(self.impl(category, offset))
            else:
                types.append(self.type(category, offset))
        self.take("end")
        end = self.long_name()
        self.take(";")
        self.take(END)
        return tree.Package(name, types, impls, end)

    def long_name(self):
        """A name with the sets before it."""
        start = self.at
        self.name()
        while self.may("::"):
            self.name()
        return self.since(start)

    def reference(self):
        """A name, preceded by its property sets and perhaps followed by an implementation's name."""
        start = self.at
        self.name()
        while self.may("::"):
            self.name()
        if self.may("."):
            self.name()
        return self.since(start)

    def dotted(self, most=None):
        """Names with dots between them."""
        start, count = self.at, 1
        self.name()
        while (most is None or count < most) and self.may("."):
            self.name()
            count += 1
        return self.since(start)

    def section(self, word, one):
        """A section with its parts, if it is here."""
        found = []
        if not self.may(word):
            return found
        if self.may("none"):
            self.take(";")
            return found
        found.append(one())
        while self.sees(NAME):
            found.append(one())
        return found

    def type(self, category, offset):
        """A component type."""
        name = self.name()
        ports = self.section("features", self.port)
        props = self.section("properties", self.property)
        annexes = self.annexes()
        self.take("end")
        end = self.name()
        self.take(";")
        return tree.Type(category, name, offset, ports, props, annexes, end)

    def impl(self, category, offset):
        """A component implementation."""
        name = self.two_names()
        parts = self.section("subcomponents", self.part)
        connections = self.section("connections", self.connection)
        props = self.section("properties", self.property)
        annexes = self.annexes()
        self.take("end")
        end = self.two_names()
        self.take(";")
        return tree.Impl(category, name, offset, parts, connections, props, annexes, end)

    def two_names(self):
        """The name of an implementation."""
        start = self.at
        self.name()
        self.take(".")
        self.name()
        return self.since(start)

    def port(self):
        """A port."""
        name = self.name()
        self.take(":")
        direction = word_of(self.take("in", "out")).lower()
        self.take("data")
        self.take("port")
        ref = self.reference() if self.sees(NAME) else None
        return self.ended(tree.Port(name, direction, ref, self.braces()))

    def part(self):
        """A subcomponent."""
        name = self.name()
        self.take(":")
        category = word_of(self.take(*CATEGORIES)).lower()
        ref = self.reference()
        return self.ended(tree.Part(name, category, ref, self.braces()))

    def connection(self):
        """A connection."""
        name = self.name()
        self.take(":")
        self.take("port")
        source = self.dotted(2)
        self.take("->")
        target = self.dotted(2)
        return self.ended(tree.Connection(name, source, target, self.braces()))

    def ended(self, made):
        """The result of a reader, after its `;`."""
        self.take(";")
        return made

    def braces(self):
        """Properties in braces, if they are here."""
        found = []
        if self.sees("{"):
            self.next()
            self.enter()
            found.append(self.property())
            while self.sees(NAME):
                found.append(self.property())
            self.take("}")
            self.leave()
        return found

    def property(self):
        """A property."""
        name, applies = self.long_name(), False
        self.take("=>", "+=>")
        self.may("constant")
        value = self.value()
        if self.may("applies"):
            applies = True
            self.take("to")
            self.dotted()
            while self.may(","):
                self.dotted()
        self.take(";")
        return tree.Property(name, value, applies)

    def value(self):
        """The value of a property."""
        start, here = self.at, self.sees("(", "[", STRING, "reference", "classifier", NAME, "+", "-", WHOLE, REAL)
        if here in ("(", "["):
            parts = self.listed() if here == "(" else self.record()
            return tree.Value("list" if here == "(" else "record", self.since(start).text, parts)
        if here in ("reference", "classifier"):
            self.next()
            self.bracketed(self.dotted if here == "reference" else self.reference)
            return tree.Value(here, self.since(start).text, [])
        if here == STRING:
            return tree.Value("string", word_of(self.next())[1:-1], [])
        if here == NAME:
            return tree.Value("ref", self.reference().text, [])
        return self.number_or_range()

    def listed(self):
        """Values in brackets."""
        self.next()
        self.enter()
        found = []
        if not self.sees(")"):
            found.append(self.value())
            while self.may(","):
                found.append(self.value())
        self.take(")")
        self.leave()
        return found

    def record(self):
        """Fields in square brackets."""
        self.next()
        self.enter()
        found = []
        while self.sees(NAME):
            found.append(self.property())
        self.take("]")
        self.leave()
        return found

    def bracketed(self, inner):
        """Something in brackets."""
        self.take("(")
        self.enter()
        found = inner()
        self.take(")")
        self.leave()
        return found

    def number_or_range(self):
        """A number with its unit, or a range of two."""
        first = self.number()
        return tree.Value("range", "", [first, self.number()]) if self.may("..") else first

    def number(self):
        """A number with its sign and its unit: its parts are both words."""
        sign = self.may("+", "-")
        token = self.take(WHOLE, REAL)
        unit = self.name().text if self.sees(NAME) else ""
        return tree.Value("number", (word_of(sign) if sign else "") + word_of(token), [token.kind, unit])

    def annexes(self):
        """The annexes here."""
        found = []
        while self.sees("annex"):
            offset = self.next().offset
            name, behaviour = self.name(), None
            if self.sees("{**"):
                self.next()
                self.enter()
                behaviour = self.body()
                self.take("**}")
                self.leave()
            else:
                self.take(UNREAD)
            self.take(";")
            found.append(tree.Annex(offset, name, behaviour))
        return found
