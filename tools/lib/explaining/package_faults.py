"""Why a part of a package has another kind than its position requires: a sentence for each case, and a remedy."""

from ..language.model import UNITS
from ..language.names import choice, meant
from ..language.tree import Assign, Send, acts_in, behaviour_of, exprs_in
from .package_names import Undeclared

SHAPES = {
    "period": "a time: a whole number with ns, us, ms, sec, min or hr, as `Period => 9 ms;`",
    "pals_profile::skew": "a time: a whole number with ns, us, ms, sec, min or hr, as `PALS_Profile::Skew => 1 ms;`",
    "pals_profile::execution": "a range of times, as `PALS_Profile::Execution => 0 ms .. 3 ms;`",
    "pals_profile::network": "a range of times, as `PALS_Profile::Network => 1 ms .. 4 ms;`",
    "dispatch_protocol": "a name, as `Dispatch_Protocol => Periodic;`",
    "timing": "a name, as `Timing => Delayed;`",
    "pals_profile::input_adaptor": 'a string in quotes, as `PALS_Profile::Input_Adaptor => "last";`',
    "data_model::initial_value": 'a list of one string, as `Data_Model::Initial_Value => ("5");`',
}
CONTAINS = {"system": ("systems and processes", ("system", "process")), "process": ("threads", ("thread",)),
            "thread": ("nothing", ())}
# What there is too much of, and how much there may be.
TOO_MANY = {
    "components": "there are more than 256 threads below the root",
    "links": "there are more than 4,096 links between threads",
    "ports": "a thread has more than 64 ports, in and out together",
    "variables": "a thread has more than 64 variables",
    "states": "a thread has more than 64 states",
    "path": "the path of a thread has more than 128 bytes",
}


class Reader(Undeclared):
    """A package, with what is wrong at each place of it."""

    def wrong_kind(self, offset):
        """Why a part has another kind than its position requires: sentences, the first of which states it."""
        for look in (self.wrong_end, self.wrong_impl, self.wrong_part, self.wrong_wire, self.wrong_value,
                     self.wrong_use):
            found = look(offset)
            if found:
                return [it for it in found if it]
        return []

    def wrong_end(self, offset):
        """A name after `end` that differs."""
        for made in [self.package, *self.package.types, *self.package.impls]:
            if made.end.offset == offset:
                return [f"`end {made.end.text}` ends the declaration of {made.name.text}",
                        f"write `end {made.name.text};`"]
        return None

    def wrong_impl(self, offset):
        """An implementation without its type, or with another category."""
        for impl in self.package.impls:
            if impl.offset != offset:
                continue
            kind, name = self.declared.type_of(impl), impl.name.text.partition(".")[0]
            if kind is None:
                names = [it.name.text for it in self.package.types]
                return [f"there is no type {name} for {impl.name.text}",
                        meant(name, names) or f"declare `{impl.category} {name} .. end {name};`"]
            return [f"{impl.name.text} is a {impl.category}, and its type {kind.name.text} a {kind.category}",
                    "make both the same"]
        return None

    def wrong_part(self, offset):
        """A subcomponent that is not allowed at its position, or names something else."""
        for impl in self.package.impls:
            for part in impl.parts:
                if part.name.offset == offset:
                    return self.why_part(impl, part)
        return None

    def why_part(self, impl, part):
        """Why a subcomponent is of a wrong kind."""
        words, allowed = CONTAINS[impl.category]
        if part.category not in allowed:
            return [f"a {impl.category} contains {words}, and {part.name.text} is a {part.category}",
                    "a thread belongs in a process, and a process in a system" if part.category == "thread" else ""]
        if "." not in part.ref.text:
            known = [it.name.text for it in self.package.impls
                     if it.name.text.lower().startswith(part.ref.text.lower() + ".")]
            return [f"{part.ref.text} names a type; expected an implementation",
                    f"{choice(known)} is one" if known else ""]
        made = self.declared.impl_of(part.ref)
        kind = made.category if made else "another kind"
        return [f"{part.name.text} is called a {part.category}, and {part.ref.text} is a {kind}",
                f"write `{part.name.text}: {kind} {part.ref.text};`"]

    def direction(self, impl, end):
        """Whether an end of a connection goes in or out, and whether it is an own port."""
        part, dot, name = end.text.partition(".")
        inner = next((it for it in impl.parts if it.name.text.lower() == part.lower()), None) if dot else None
        owner = self.declared.impl_of(inner.ref) if inner else impl
        ports = self.declared.ports_of(owner)
        port = next((it for it in ports if it.name.text.lower() == (name if dot else part).lower()), None)
        return (port.direction if port else None), not dot

    def wrong_wire(self, offset):
        """A connection that goes the wrong way."""
        for impl in self.package.impls:
            for wire in impl.connections:
                if wire.name.offset != offset:
                    continue
                (source, own), (target, own_too) = self.direction(impl, wire.source), self.direction(impl, wire.target)
                if own and own_too:
                    return [f"{wire.source.text} and {wire.target.text} are both own ports of {impl.name.text}",
                            "a connection has a subcomponent at one of its ends: `a.i` names its port"]
                turned = source == ("out" if own else "in") and target == ("in" if own_too else "out")
                whose = ["a subcomponent's", "an own"]
                if source == ("out" if own else "in"):
                    what = f"{wire.source.text} is {whose[own]} {source} port, and cannot be a source here"
                else:
                    what = f"{wire.target.text} is {whose[own_too]} {target} port, and cannot be a target here"
                return [what, f"reverse it: `port {wire.target.text} -> {wire.source.text}`" if turned else
                        "it leads from an out port of a subcomponent or an own in port to an in port of one or an own "
                        "out port"]
        return None

    def wrong_value(self, offset):
        """A property whose value has another shape; an annex that is not allowed at its position."""
        for props in self.lists():
            for prop in props:
                if prop.name.offset == offset:
                    shape = SHAPES.get(prop.name.text.lower(), "another shape")
                    return [f"{prop.name.text} takes {shape}", self.why_value(prop)]
        for made in [*self.package.types, *self.package.impls]:
            if any(annex.offset == offset for annex in made.annexes):
                if made.category != "thread" or made in self.package.types:
                    return [f"a behaviour belongs in the implementation of a thread, and {made.name.text} is not one"]
                return [f"{made.name.text} has a behaviour already", "remove one of the two"]
        return None

    @staticmethod
    def why_value(prop):
        """What a value lacks."""
        value, name = prop.value, prop.name.text.lower()
        if name in ("pals_profile::input_adaptor", "data_model::initial_value"):
            return "write the string in quotes" if value.kind in ("ref", "number") else ""
        if name in ("dispatch_protocol", "timing"):
            return "write the name without quotes" if value.kind == "string" else ""
        for end in value.parts if value.kind == "range" else [value]:
            found = why_time(end)
            if found:
                return found
        if name in ("pals_profile::execution", "pals_profile::network"):
            return "" if value.kind == "range" else "for a single time write it twice, as `3 ms .. 3 ms`"
        return "expected one time, found a range" if value.kind == "range" else ""

    def wrong_use(self, offset):
        """A name in a behaviour that may not be used so."""
        for impl in self.package.impls:
            for transition in behaviour_of(impl).transitions if behaviour_of(impl) else []:
                ports = {port.name.text.lower(): port.direction for port in self.declared.ports_of(impl)}
                for act in acts_in(transition.acts):
                    if isinstance(act, (Assign, Send)) and act.target.offset == offset:
                        return self.why_set(act, ports)
                for expr in exprs_in(transition):
                    for read in expr.reads:
                        if read.name.offset == offset:
                            return self.why_read(read, ports)
        return None

    @staticmethod
    def why_set(act, ports):
        """Why something cannot be set or sent on."""
        name = act.target.text
        if isinstance(act, Send):
            kind = "an in port" if ports.get(name.lower()) == "in" else "no port"
            return [f"{name} is {kind}, and `!` sends on an out port",
                    f"to set a variable write `{name} := ..`" if kind == "no port" else ""]
        if ports.get(name.lower()) == "in":
            return [f"{name} is an in port: it holds its inputs, and cannot be set", "copy it to a variable"]
        return [f"{name} is the variable of a loop, and cannot be set", "use another variable"]

    @staticmethod
    def why_read(read, ports):
        """Why something cannot be read."""
        name = read.name.text
        if ports.get(name.lower()) == "out":
            return [f"{name} is an out port, and cannot be read", "store the sent value in a variable, and read that"]
        return [f"{name} is not an in port: only an in port has 'fresh"]


def why_time(value):
    """Why a value is not a time; empty if it is a time, or not a number at all."""
    if value.kind != "number":
        return ""
    kind, unit = value.parts
    if kind == "real":
        return f"{value.text} is not a whole number: use a smaller unit, as 9500 us for 9.5 ms"
    if not unit:
        return f"{value.text} lacks its unit"
    if value.text[0] in "+-":
        return "a time has no sign"
    if unit.lower() not in UNITS:
        return f"unknown unit {unit}: use ns, us, ms, sec, min or hr" + ("; `sec` is likely meant"
                                                                        if unit.lower() in ("s", "seconds",
                                                                                            "second") else "")
    return ""
