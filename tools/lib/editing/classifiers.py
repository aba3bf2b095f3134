"""The names of types and of implementations in a text that is being edited: where they appear, and their renaming."""

from typing import NamedTuple, Optional

from ..language.tokens import word_of

# Words after which a type or an implementation is named.
BEFORE = ("thread", "process", "system", "implementation", "end")


class Reference(NamedTuple):
    """A place that names a type, or an implementation: the numbers of the tokens of `Type` and of `impl`."""

    kind: int
    impl: Optional[int]


def references(tokens):
    """All places of a text that name a type or an implementation, without the end of the package."""
    for number, token in enumerate(tokens[1:], 1):
        if token.kind != "word" or token.inside or word_of(tokens[number - 1]).lower() not in BEFORE:
            continue
        if word_of(token).lower() == "implementation":
            continue
        at = number
        while word_of(tokens[at + 1]) == "::" and tokens[at + 2].kind == "word":
            at += 2
        has_impl = word_of(tokens[at + 1]) == "." and tokens[at + 2].kind == "word"
        after = tokens[at + 1 : at + 3]
        if not (word_of(after[0]) == ";" and after[-1].kind == "end"):
            yield Reference(at, at + 2 if has_impl else None)


class Classifier:
    """The name of a type, or of an implementation of it, at one place of a text."""

    def __init__(self, edited, number):
        self.edited, self.number = edited, number
        self.found = list(references(edited.tokens))
        self.at = next((it for it in self.found if number is not None and number in it), None)

    def word(self, number):
        """The word of a token in lower case."""
        return word_of(self.edited.tokens[number]).lower()

    def places(self):
        """The numbers of the tokens that have this name, or None if it is not declared in the text."""
        if self.at is None:
            return None
        kind, declared = self.word(self.at.kind), self.edited.declared
        if self.number == self.at.kind:
            known = kind in declared.types or any(it.startswith(f"{kind}.") for it in declared.impls)
            return [it.kind for it in self.found if self.word(it.kind) == kind] if known else None
        impl = self.word(self.at.impl)
        if f"{kind}.{impl}" not in declared.impls:
            return None
        return [it.impl for it in self.found if it.impl and (self.word(it.kind), self.word(it.impl)) == (kind, impl)]

    def is_taken(self, name):
        """Whether the text has another type, or another implementation of the type, of this name."""
        declared, kind = self.edited.declared, self.word(self.at.kind)
        if self.number == self.at.kind:
            return name.lower() != kind and name.lower() in declared.types
        return name.lower() != self.word(self.at.impl) and f"{kind}.{name.lower()}" in declared.impls
