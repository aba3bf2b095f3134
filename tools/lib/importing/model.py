"""AADL as input of a design: ports, subcomponents, connections and properties of components, with inherited ones."""

import re
from collections import namedtuple

from ..language.tokens import word_of
from ..scenarios.bundles import Refused
from .aadl import TWO_WORDS
from .tokens import association, name_at, name_of, reference_in, text_of, words_of

# A port: its direction (in or out), the name of its type, and its position. A subcomponent: its category and its type.
Port = namedtuple("Port", "name direction type file offset")
Part = namedtuple("Part", "name category ref props file offset")
# A connection of two ends.
Link = namedtuple("Link", "name source target props file offset")

KEPT = {"system", "process", "thread"}
# Sections and categories that the language lacks, with what to write in their place.
SECTIONS = {
    "flows": "rounds do not use them: write nothing",
    "modes": "write modes as states of a behaviour",
    "requires modes": "write modes as states of a behaviour",
    "prototypes": "write the component that is meant in their place",
    "calls": "write the called subprogram into the behaviour",
    "internal features": "write them as states and variables of a behaviour",
    "processor features": "nothing of a processor is seen by a thread",
}
FEATURES = {
    "event port": "it carries no value: write an in or out data port of Base_Types::Boolean",
    "in out port": "write one in port and one out port",
    "bus access": "the effect of a bus on messages is PALS_Profile::Network at the root",
    "data access": "no data is shared: send it through ports",
    "subprogram access": "write the called subprogram into the behaviour",
    "feature group": "write its ports one by one",
    "parameter": "subprograms are not there",
    "feature": "write the port that is meant",
}
CATEGORIES = {
    "processor": "processors are in the scenario", "virtual processor": "processors are in the scenario",
    "bus": "its effect on messages is PALS_Profile::Network at the root",
    "virtual bus": "its effect on messages is PALS_Profile::Network at the root",
    "memory": "memory has no meaning here", "data": "no data is shared: write a variable of a behaviour",
    "subprogram": "write its effect into the behaviour", "subprogram group": "write its effect into the behaviour",
    "abstract": "write the system, process or thread that is meant",
}
WHOLE_NUMBERS = {"integer", "natural"} | {f"{kind}_{size}" for kind in ("integer", "unsigned")
                                          for size in (8, 16, 32, 64)}


# Whole numbers with fewer than 64 bits or without a sign, and the properties that limit the values of a data type.
NARROW = re.compile("natural|unsigned_[0-9]+|integer_(8|16|32)")
LIMITS = {"integer_range", "data_size", "source_data_size"}


def last_of(ref):
    """The last name of a reference, in lower case."""
    return ref.lower().rpartition("::")[2]


def kind_of(rest, directions):
    """The kind of a feature that follows its direction, as `FEATURES` names it, or `data port`."""
    if "access" in rest[:4]:
        before = rest[rest.index("access") - 1]
        return f"{before} access" if f"{before} access" in FEATURES else "subprogram access"
    if rest[:2] == ["feature", "group"]:
        return "feature group"
    if rest[:2] == ["event", "port"]:
        return "event port"
    if rest[:1] in (["parameter"], ["feature"]):
        return rest[0]
    if rest[:2] != ["data", "port"] and rest[:3] != ["event", "data", "port"]:
        return "feature"
    return "data port" if len(directions) == 1 else "in out port"


def no_declaration(item):
    """A declaration that has no form."""
    return Refused(f"{item.file.place(item.tokens[0].offset)}: unknown form of declaration")


class Told:
    """What is dropped or taken otherwise, each with its place."""

    def __init__(self):
        self.all = {}

    def add(self, place, what, mend=""):
        """Tells something once."""
        self.all.setdefault((what, place[0].bundle.path, place[1]), (place, what, mend))

    def sorted(self):
        """All of it, by files and places."""
        return sorted(self.all.values(), key=lambda it: (it[0][0].bundle.path, it[0][1]))


class Library:
    """The components of all files, with everything that they inherit."""

    def __init__(self, components, told):
        self.told, self.components = told, components
        self.by_name, self.kept = {}, {}
        for it in components:
            self.by_name.setdefault((it.package.lower(), it.name.lower()), it)

    def find(self, ref, package):
        """The component that a reference names, in its own package or in another one; or None."""
        low = ref.lower().rpartition("::")
        if low[0]:
            return self.by_name.get((low[0], low[2]))
        own = self.by_name.get((package.lower(), low[2]))
        return own or next((it for it in self.components if it.name.lower() == low[2]), None)

    def type_of(self, impl):
        """The type of an implementation."""
        return self.find(impl.name.partition(".")[0], impl.package)

    def line_of(self, component):
        """A component with every component that it extends, the furthest first."""
        found = []
        while component is not None and component not in found:
            found.insert(0, component)
            above = component.extends
            component = self.find(above, component.package) if above else None
            if above and component is None and found[0].category != "data":
                last = found[0]
                self.told.add((last.file, last.offset), f"{last.name} extends {above}, which no file has",
                              "hand in the file with it, too")
        return found

    def items(self, component, section, read):
        """The declarations of a section, by name: a refined declaration is at its old position."""
        key = id(component), section
        if key not in self.kept:
            self.kept[key] = self.declared(component, section, read)
        return self.kept[key]

    def declared(self, component, section, read):
        """What a section declares, read anew."""
        found = {}
        for one in self.line_of(component):
            for name, words in SECTIONS.items():
                if one.sections.get(name):
                    place = one.file, one.sections[name][0].tokens[0].offset
                    self.told.add(place, f"the {name} of {one.name} are omitted", words)
            for item in one.sections.get(section, []):
                if len(item.tokens) < 3 or word_of(item.tokens[1]) != ":":
                    raise no_declaration(item)
                made = read(one, item)
                if made is not None:
                    found[made.name.lower()] = made
                else:
                    found.pop(name_of(item).lower(), None)
        return list(found.values())

    def ports(self, component):
        """The ports of a type that the language has."""
        return self.items(component, "features", self.port)

    def port(self, component, item):
        """A port, or None where the language has none such."""
        words, place = words_of(item), (item.file, item.tokens[0].offset)
        name, rest = word_of(item.tokens[0]), words[2:]
        rest = rest[2:] if rest[:2] == ["refined", "to"] else rest
        directions = [rest.pop(0) for _ in range(2) if rest and rest[0] in ("in", "out")]
        kind = kind_of(rest, directions)
        if kind in FEATURES:
            self.told.add(place, f"{name} is not a data port ({kind}), and is omitted", FEATURES[kind])
            return None
        if rest[0] == "event":
            self.told.add(place, f"{name} is an event data port, and is taken as a data port",
                          f"a step has at most one value of it; {name}'fresh is true if one has arrived")
        if "[" in words:
            self.told.add(place, f"{name} is an array of ports, and is taken as one", "write its ports one by one")
        type_name = self.data_type(reference_in(item, "port"), component.package, place, name)
        return Port(name, directions[0], type_name, *place) if type_name else None

    def data_type(self, ref, package, place, name):
        """The type of the language for a data type; None if there is none."""
        found = self.basic(ref, package) if ref else None
        narrow = self.narrow(ref, package) if found == "Base_Types::Integer" else ""
        if narrow:
            data = self.find(ref, package)
            what, at = (data.name, (data.file, data.offset)) if data else (f"of {name}", place)
            self.told.add(at, f"the type {what} {narrow}, and becomes Base_Types::Integer, which has 64 bits",
                          "limit the values in a behaviour")
        if not found:
            self.told.add(place, f"the type of {name}, {ref or 'none'}, is not in the language; {name} is omitted",
                          "use Base_Types::Integer in units that are small enough, or Base_Types::Boolean")
        return found

    def narrow(self, ref, package):
        """How a data type limits its whole numbers, or ""."""
        data = self.find(ref, package)
        for one in reversed(self.line_of(data) if data else []):
            limits = [it for it in self.properties(one) if it.name.lower().rpartition("::")[2] in LIMITS]
            if limits:
                return f"has {limits[0].name} => {text_of(limits[0].value)}"
            if one.extends and self.find(one.extends, one.package) is None and NARROW.fullmatch(last_of(one.extends)):
                return f"is {one.extends}"
        return f"is {ref}" if NARROW.fullmatch(last_of(ref)) else ""

    def basic(self, ref, package):
        """Base_Types::Integer or Base_Types::Boolean, where a data type is one."""
        last = ref.lower().rpartition("::")[2].partition(".")[0]
        data = self.find(ref, package)
        for one in self.line_of(data) if data else []:
            shown = [it for it in self.properties(one) if it.name.lower().endswith("data_representation")]
            words = [word_of(token).lower() for it in shown for token in it.value]
            if words in (["integer"], ["boolean"]):
                return f"Base_Types::{words[0].capitalize()}"
            above = one.extends and self.basic(one.extends, one.package)
            if above:
                return above
        if last == "boolean":
            return "Base_Types::Boolean"
        return "Base_Types::Integer" if last in WHOLE_NUMBERS else None

    def parts(self, component):
        """The subcomponents of an implementation."""
        return self.items(component, "subcomponents", self.part)

    def part(self, component, item):
        """A subcomponent of any category."""
        words = words_of(item)
        rest = words[4:] if words[2:4] == ["refined", "to"] else words[2:]
        first = len(words) - len(rest)
        two = tuple(rest[:2]) in TWO_WORDS
        category = " ".join(rest[: 1 + two])
        place = item.file, item.tokens[0].offset
        if "[" in words:
            self.told.add(place, f"{word_of(item.tokens[0])} is an array, and is taken as one component",
                          "write its components one by one")
        self.tell_modes(item, word_of(item.tokens[0]))
        ref = name_at(item.tokens, first + 1 + two)
        return Part(word_of(item.tokens[0]), category, (ref, component.package) if ref else None,
                    self.braces(item), *place)

    def links(self, component):
        """The connections between ports."""
        return self.items(component, "connections", self.link)

    def link(self, component, item):
        """A connection of ports, or None."""
        words, place = words_of(item), (item.file, item.tokens[0].offset)
        name = word_of(item.tokens[0])
        rest = words[4:] if words[2:4] == ["refined", "to"] else words[2:]
        if "<->" in "".join(words) or "->" not in rest or rest[0] != "port":
            mend = {"bus": FEATURES["bus access"], "data": FEATURES["data access"]}.get(rest[0] if rest else "",
                                                                                        "write one -> for each way")
            self.told.add(place, f"the connection {name} does not join ports in one direction, and is omitted", mend)
            return None
        arrow = words.index("->")
        source = "".join(word_of(token) for token in item.tokens[len(words) - len(rest) + 1 : arrow])
        target = name_at(item.tokens, arrow + 1)
        if target is None:
            raise no_declaration(item)
        if source.count(".") > 1 or target.count(".") > 1:
            self.told.add(place, f"the connection {name} leads into a feature group, and is omitted",
                          FEATURES["feature group"])
            return None
        self.tell_modes(item, f"the connection {name}")
        return Link(name, source, target, self.braces(item), *place)

    def properties(self, component):
        """The properties of a component; of one name and target the last one counts."""
        found = {}
        for one in self.line_of(component):
            for item in one.sections.get("properties", []):
                made = association(item)
                self.tell_modes(item, f"the property {made.name}")
                found[made.name.lower(), tuple(made.applies)] = made
        return list(found.values())

    def tell_modes(self, item, what):
        """Reports that a declaration is only for some modes; a property in its braces has modes of its own."""
        words = words_of(item)
        words = words[: words.index("{")] + words[len(words) - words[::-1].index("}") :] if "}" in words and \
            "{" in words else words
        if ("in", "modes") in zip(words, words[1:]):
            self.told.add((item.file, item.tokens[0].offset),
                          f"{what} is only in some modes, and is taken in all of them", SECTIONS["modes"])

    def braces(self, item):
        """The properties in the braces of a declaration."""
        words, found = words_of(item), []
        if "{" not in words:
            return found
        first = words.index("{") + 1
        depth, start = 0, first
        for at in range(first, len(words)):
            if words[at] == "}" and depth == 0:
                break
            depth += (words[at] in "([{") - (words[at] in ")]}")
            if words[at] == ";" and depth == 0:
                found.append(association(item._replace(tokens=item.tokens[start:at])))
                start = at + 1
        return found
