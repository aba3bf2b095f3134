"""The text of a design that was made of AADL."""

from ..language.tokens import Tokens, word_of
from .design import category_of
from .tokens import text_of


class Writer:
    """Writes a design as a text of the language."""

    def __init__(self, design, name):
        self.design, self.name, self.lines = design, name, []

    def text(self):
        """The whole text."""
        self.lines = [f"package {self.name}", "public", " with Base_Types;", " with PALS_Profile;"]
        written = set()
        impls = [it for it in self.design.impls.values() if it is not None]
        for made in reversed(impls):
            kind = self.design.types[(self.design.library.type_of(made.component) or made.component).name]
            if kind.name not in written and not written.add(kind.name):
                self.type(kind)
            self.impl(made)
        return "\n".join([*self.lines, f"end {self.name};"]) + "\n"

    def section(self, word, lines):
        """A section, if it has something."""
        if lines:
            self.lines += [f" {word}", *(f"  {line}" for line in lines)]

    def type(self, made):
        """A component type."""
        self.lines += ["", f" {made.category} {made.name}"]
        self.section("features", [f"{it.name}: {it.direction} data port {it.type};" for it in made.ports.values()])
        self.section("properties", [self.property(it) for it in made.props])
        self.lines.append(f" end {made.name};")

    def impl(self, made):
        """An implementation."""
        self.lines += ["", f" {made.category} implementation {made.name}"]
        self.section("subcomponents", [self.part(made, part) for part in made.parts])
        self.section("connections", [f"{name}: port {source} -> {target}{self.braces(props)};"
                                     for name, source, target, props in made.links])
        self.section("properties", [self.property(it) for it in made.props])
        for annex in made.annexes:
            self.lines.append(f" annex {annex.name} {self.design_annex(made, annex)};")
        self.lines.append(f" end {made.name};")

    def part(self, made, part):
        """A subcomponent."""
        below = self.design.library.find(*part.ref)
        kind = self.design.library.type_of(below) if "." in below.name else below
        name = self.design.named(kind or below) + ("." + below.name.partition(".")[2] if "." in below.name else "")
        return f"{part.name}: {category_of(part)} {name}{self.braces(self.design.props_of(made, part))};"

    def braces(self, props):
        """Properties in braces."""
        return f" {{{' '.join(map(self.property, props))}}}" if props else ""

    @staticmethod
    def property(prop):
        """A property, which may be a text already."""
        return prop if isinstance(prop, str) else f"{prop.name} => {text_of(prop.value)};"

    def design_annex(self, made, annex):
        """The text of an annex, with the types of its variables as the language has them."""
        text = annex.text
        if annex.name.lower() != "behavior_specification":
            return text.decode("utf-8", "replace")
        tokens = Tokens(b"annex behavior_specification " + text).read()
        shift, section, found, last = len(b"annex behavior_specification "), "", "", 0
        for at, token in enumerate(tokens):
            word = word_of(token).lower()
            section = word if word in ("variables", "states", "transitions") else section
            if section == "variables" and word == ":":
                end = at + 1
                while tokens[end + 1].text == b"::":
                    end += 2
                ref = "".join(word_of(it) for it in tokens[at + 1 : end + 1])
                basic = self.design.library.basic(ref, made.component.package)
                if basic:
                    found += text[last : tokens[at + 1].offset - shift].decode("utf-8", "replace") + basic
                    last = tokens[end].offset + len(tokens[end].text) - shift
        return found + text[last:].decode("utf-8", "replace")
