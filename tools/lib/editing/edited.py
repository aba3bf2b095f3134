"""A design's text that is being edited: its positions, its declarations, and the name at a place."""

from collections import namedtuple

from ..language.model import Declared, Model
from ..language.recovering import read_all
from ..language.tokens import word_of
from ..language.tree import For, Impl, acts_in, behaviour_of

# A name that is declared: its place, its kind, a sentence on it, and the number of its kind in the protocol.
Entry = namedtuple("Entry", "name kind words symbol")
SYMBOLS = {"package": 4, "type": 5, "implementation": 5, "port": 8, "part": 8, "variable": 13, "state": 22,
           "connection": 24}


class Edited:
    """A text with the parts that can be read."""

    def __init__(self, text):
        self.text, self.data = text, text.encode("utf-8", "surrogatepass")
        self.package, self.tokens, self.faults = read_all(self.data)
        self.declared = Declared(self.package)
        self.starts = [0]
        for line in self.data.split(b"\n")[:-1]:
            self.starts.append(self.starts[-1] + len(line) + 1)

    def position(self, offset):
        """The line and the character, both from 0, of a byte; characters are units of UTF-16."""
        low, high = 0, len(self.starts)
        while high - low > 1:
            middle = (low + high) // 2
            low, high = (middle, high) if self.starts[middle] <= offset else (low, middle)
        before = self.data[self.starts[low] : offset].decode("utf-8", "replace")
        return {"line": low, "character": len(before.encode("utf-16-le", "surrogatepass")) // 2}

    def offset(self, position):
        """The byte at a line and a character; the nearest one if there is none."""
        line = min(max(position["line"], 0), len(self.starts) - 1)
        end = self.starts[line + 1] - 1 if line + 1 < len(self.starts) else len(self.data)
        text = self.data[self.starts[line] : end].decode("utf-8", "replace")
        units = text.encode("utf-16-le", "surrogatepass")[: 2 * max(position["character"], 0)]
        return min(self.starts[line] + len(units.decode("utf-16-le", "replace").encode("utf-8", "replace")), end)

    def range(self, offset, length):
        """The range of some bytes."""
        return {"start": self.position(offset), "end": self.position(offset + max(length, 0))}

    def model(self):
        """The design below its one root, or None."""
        roots = self.declared.roots() if self.declared.systems() else []
        return Model(self.declared, roots[0]) if len(roots) == 1 else None

    @property
    def loops(self):
        """The names of the variables of loops, in lower case."""
        behaviours = filter(None, map(behaviour_of, self.package.impls))
        return {act.variable.text.lower() for it in behaviours for transition in it.transitions
                for act in acts_in(transition.acts) if isinstance(act, For)}

    def owner_at(self, offset):
        """The type or the implementation around a byte, or None."""
        everything = [*self.package.types, *self.package.impls]
        return max((it for it in everything if it.offset <= offset), key=lambda it: it.offset, default=None)

    def entries(self, owner):
        """The names that an owner declares or sees, by their lower case."""
        kind = self.declared.type_of(owner) if isinstance(owner, Impl) else owner
        found = [port_entry(port) for port in kind.ports] if kind else []
        if isinstance(owner, Impl):
            found += [Entry(it.name, "part", f"{it.category} {it.ref.text}", SYMBOLS["part"]) for it in owner.parts]
            found += [Entry(it.name, "connection", f"connection {it.source.text} -> {it.target.text}",
                            SYMBOLS["connection"]) for it in owner.connections]
            found += behaviour_entries(behaviour_of(owner))
        entries = {}
        for it in found:
            entries.setdefault(it.name.text.lower(), it)
        return entries

    def token_at(self, offset):
        """The number of the word at or just before a byte, or None."""
        return next((number for number, it in enumerate(self.tokens) if it.kind == "word"
                     and it.offset <= offset <= it.offset + len(it.text)), None)

    def resolve(self, offset):
        """The entry of the name at a byte, or None."""
        number = self.token_at(offset)
        if number is None:
            return None
        word, owner = word_of(self.tokens[number]).lower(), self.owner_at(offset)
        before = word_of(self.tokens[number - 1]) if number else ""
        if before == "." and number > 1:
            return self.dotted(word_of(self.tokens[number - 2]).lower(), word, owner)
        after = self.tokens[number + 1 : number + 3]
        if before in ("::", "=>") or (after and after[0].text in (b"=>", b"+=>", b"::")):
            return None
        if len(after) == 2 and after[0].text == b".":
            impl = self.declared.impls.get(f"{word}.{word_of(after[1]).lower()}")
            if impl:
                return declaration_entry(impl)
        entries = self.entries(owner) if owner else {}
        return entries.get(word) or (declaration_entry(self.declared.types[word]) if word in self.declared.types
                                     else None)

    def uses(self, entry):
        """The places of a name, its declaration included, as bytes."""
        word = entry.name.text.lower().encode()
        found = [it.offset for it in self.tokens if it.kind == "word" and it.text.lower() == word]
        return [it for it in found if getattr(self.resolve(it), "name", None) == entry.name]

    def dotted(self, first, word, owner):
        """The entry of `first.word`: an implementation, or a port of a part."""
        impl = self.declared.impls.get(f"{first}.{word}")
        if impl:
            return declaration_entry(impl)
        parts = owner.parts if isinstance(owner, Impl) else []
        part = next((it for it in parts if it.name.text.lower() == first), None)
        inner = self.declared.type_of(self.declared.impl_of(part.ref)) if part else None
        port = next((it for it in inner.ports if it.name.text.lower() == word), None) if inner else None
        return port_entry(port) if port else None


def port_entry(port):
    """The entry of a port."""
    kind = f" {port.ref.text}" if port.ref else ""
    return Entry(port.name, "port", f"{port.direction} data port{kind}", SYMBOLS["port"])


def declaration_entry(made):
    """The entry of a type or of an implementation."""
    kind = "implementation" if isinstance(made, Impl) else "type"
    return Entry(made.name, kind, f"{made.category} {'implementation ' * (kind != 'type')}{made.name.text}",
                 SYMBOLS[kind])


def behaviour_entries(behaviour):
    """The entries of variables and states."""
    if behaviour is None:
        return []
    found = [Entry(it.name, "variable", f"variable {it.ref.text}", SYMBOLS["variable"]) for it in behaviour.variables]
    for it in behaviour.states:
        words = f"{'initial ' * it.initial}{'complete ' * it.complete}state"
        found.append(Entry(it.name, "state", words, SYMBOLS["state"]))
    return found
