"""Explanations of violations that are more specific than the program's output."""

import re

from ..commands.times import in_ms
from ..language.model import declared_in, model_of
from ..language.names import meant
from ..language.tree import behaviour_of, property_of
from ..language.words import BEHAVIOUR

ADAPTORS = ("repeat", "first", "last", "latest", "max", "min", "average", "at 1")
TYPES = {"base_types::integer": "Integer", "base_types::boolean": "Boolean"}
WHOLE_TYPES = ("integer", "int", "natural", "unsigned", "long", "short")
TYPE_RULE = ("arithmetic and `<` require Integers, `and`, `or`, `not` Booleans, `=` and `!=` one type on both sides, "
             "and a set or sent value has the type of its variable or port")


class Findings:
    """The design of a bundle, with queries for the declaration at the position of a finding."""

    def __init__(self, bundle):
        self.declared = declared_in(bundle.design)
        self.model = model_of(bundle.design)

    def more(self, number, offset, details):
        """Sentences on a finding; empty if nothing more is known."""
        look = {1: self.bad_type, 2: self.dispatch, 7: self.timing, 9: self.no_adaptor, 11: self.adaptor,
                12: self.initial,
                13: self.dispatch_count, 14: self.otherwise, 17: self.order, 18: self.too_short}.get(number)
        if look is None or self.declared is None:
            return []
        return [it for it in look(offset, details) or [] if it]

    def wire_at(self, offset):
        """The connection at a place, with the implementation that has it."""
        for impl in self.declared.package.impls:
            for wire in impl.connections:
                if wire.name.offset == offset:
                    return wire, impl
        return None, None

    def impl_at(self, offset):
        """The thread implementation whose name or annex, or one of whose states, is at a position."""
        for impl in self.declared.package.impls:
            behaviour = behaviour_of(impl)
            places = [impl.name.offset, *(annex.offset for annex in impl.annexes)]
            places += [state.name.offset for state in behaviour.states] if behaviour else []
            if offset in places:
                return impl
        return None

    def bad_type(self, offset, _details):
        """A missing type, or two types that differ."""
        named = [port for kind in self.declared.package.types for port in kind.ports]
        named += [it for impl in self.declared.package.impls if behaviour_of(impl)
                  for it in behaviour_of(impl).variables]
        found = next((it for it in named if it.name.offset == offset), None)
        if found:
            return self.why_type(found)
        wire, impl = self.wire_at(offset)
        if wire:
            types = [self.type_of_end(impl, end) for end in (wire.source, wire.target)]
            if all(types):
                return [f"{wire.source.text} is a {types[0]} port, and {wire.target.text} a {types[1]} port",
                        "give both one type"]
        return ["the type does not fit here", TYPE_RULE]

    @staticmethod
    def why_type(named):
        """Why a port or a variable has no existing type."""
        name = named.name.text
        if named.ref is None:
            return [f"{name} has no type", f"write `{name}: .. Base_Types::Integer;` or `Base_Types::Boolean`"]
        last = named.ref.text.rpartition("::")[2].lower()
        if last.startswith("bool"):
            likely = "Base_Types::Boolean is likely meant"
        elif last.startswith(WHOLE_TYPES):
            likely = "Base_Types::Integer is likely meant"
        elif last.startswith(("float", "real", "double")):
            likely = "numbers are whole here: use Base_Types::Integer, and count in smaller units, as tenths"
        else:
            likely = ""
        return [f"{named.ref.text} is not a type here: use Base_Types::Integer or Base_Types::Boolean", likely]

    def type_of_end(self, impl, end):
        """Integer or Boolean, or None if it is neither."""
        part, dot, port = end.text.lower().partition(".")
        inner = next((it for it in impl.parts if it.name.text.lower() == part), None) if dot else None
        owner = self.declared.impl_of(inner.ref) if inner else impl
        found = next((it for it in self.declared.ports_of(owner) if it.name.text.lower() == (port if dot else part)),
                     None)
        return TYPES.get(found.ref.text.lower()) if found and found.ref else None

    def dispatch(self, _offset, details):
        """A thread without a periodic dispatch."""
        thread = self.model.by_path.get(details[0].lower()) if self.model and details else None
        levels = [it for it in (thread.part, thread.impl, thread.type) if it] if thread else []
        value = next((it for it in (property_of(level.props, "Dispatch_Protocol") for level in levels) if it), None)
        if value is None:
            return [f"the thread {details[0]} has no Dispatch_Protocol",
                    "write `Dispatch_Protocol => Periodic;` among the properties of its type"]
        return [f"the Dispatch_Protocol of {details[0]} is {value.text}, and only Periodic has a meaning here",
                meant(value.text, ["Periodic"])]

    def timing(self, offset, details):
        """A link that is not delayed."""
        wire, _ = self.wire_at(offset)
        value = property_of(wire.props, "Timing") if wire else None
        if value is not None:
            return [f"the link to {details[0]} has Timing => {value.text}, and only Delayed is allowed: a message "
                    f"is read in the next round",
                    "write `Timing => Delayed;`"]
        return [f"the link to {details[0]} lacks its Timing", "write `{Timing => Delayed;}` after the connection"]

    def rates(self, link):
        """The rates of the two ends of a link, and how many steps its source sends."""
        came = self.model.came_from(link) if self.model else None
        target = self.model.by_path.get(link.lower().rpartition(".")[0]) if self.model else None
        if not came or not came.thread or not target:
            return None
        high, low = self.model.rate(came.thread), self.model.rate(target)
        return (high, low, self.model.steps_sent(high) or high) if high and low else None

    def applied_adaptor(self, offset):
        """A sentence on an adaptor that applies to the connection at a place from outside, or "" if there is none."""
        wire, impl = self.wire_at(offset)
        for prop in impl.props if wire else ():
            if prop.applies and prop.name.text.lower() == "pals_profile::input_adaptor":
                return f"{prop.name.text} of {impl.name.text} has `applies to`, and is ignored: if it is for this " \
                       f"connection, write it here"
        return ""

    def no_adaptor(self, offset, details):
        """A link that lacks its adaptor."""
        rates = self.rates(details[0])
        if rates is None:
            return []
        high, low, sent = rates
        texts = ['"repeat"', '"first"'] if high < low else ['"latest"', '"average"', '"max"', '"min"', '"first"']
        if high > low and sent == high:
            texts.insert(1, '"last"')
        less = f" (it sends {sent} of them, so that \"last\" would read nothing)" if high > low and sent < high else ""
        return [f"the link to {details[0]} joins a rate of {high} with one of {low}, and has no "
                f"PALS_Profile::Input_Adaptor{less}",
                f"write `PALS_Profile::Input_Adaptor => {texts[0]};` next to `Timing => Delayed;`; there are "
                f"{', '.join(texts)} and \"at n\" as well", self.applied_adaptor(offset)]

    def adaptor(self, offset, details):
        """An adaptor with an unknown text, or one that is not allowed."""
        wire, _ = self.wire_at(offset)
        value = property_of(wire.props, "PALS_Profile::Input_Adaptor") if wire else None
        text = value.text if value else ""
        rates = self.rates(details[0])
        at = re.fullmatch(r"at ([1-9][0-9]{0,3})", text)
        if text not in ADAPTORS and not at:
            return [f'"{text}" is not an adaptor', meant(text, ADAPTORS),
                    'adaptors are "repeat", "first", "last", "latest", "max", "min", "average" and "at n"']
        if rates is None:
            return []
        high, low, _ = rates
        if high < low and text in ("latest", "max", "min", "average"):
            return [f'"{text}" is for a link to a lower rate, and this one goes from {high} steps a round to {low}',
                    '"repeat" is likely meant']
        if high > low and text == "repeat":
            return [f'"repeat" is for a link to a higher rate, and this one goes from {high} steps a round to {low}',
                    '"latest" is likely meant']
        if at and int(at[1]) > max(high, low) // min(high, low):
            return [f'"{text}" is out of range: there are {max(high, low) // min(high, low)} places, counted from '
                    f'1']
        return [f'"{text}" is for Integers, and this link has Booleans']

    @staticmethod
    def too_short(_offset, details):
        """A period below the bound."""
        if len(details) < 2:
            return []
        return [f"the period, {in_ms(details[0])}, is below the minimum that the bound allows, {in_ms(details[1])}",
                f"use {in_ms(details[1])} or more, and a multiple of every component's period"]

    @staticmethod
    def order(_offset, details):
        """Ends of a range in the wrong order, or a skew of 0."""
        if details == ["Skew"]:
            return ["the skew is 0", "a skew is at least 1 ns: clocks differ by less than it"]
        return [f"the lower end of {details[0]} is above its upper end", "write the smaller end first"]

    def initial(self, offset, _details):
        """No initial state, or no behaviour at all."""
        impl = self.impl_at(offset)
        if impl is None:
            return []
        behaviour, name = behaviour_of(impl), impl.name.text
        if behaviour is None:
            others = [annex.name.text for annex in impl.annexes]
            if others:
                return [f"{name} has no behaviour: its annex {others[0]} is skipped unread",
                        f"{BEHAVIOUR} is likely meant"]
            return [f"{name} has no behaviour annex",
                    f"write `annex {BEHAVIOUR} {{** states s: initial complete state; ..  **}};` in it"]
        initial = [state.name.text for state in behaviour.states if state.initial]
        if not behaviour.states:
            return ["the behaviour has no states", "write `states s: initial complete state;`"]
        if not initial:
            return ["no state is initial", f"write `{behaviour.states[0].name.text}: initial complete state;`"]
        if len(initial) > 1:
            return [f"{', '.join(initial)} are initial, and one may be", "remove `initial` from the others"]
        return [f"the initial state {initial[0]} is not complete: a step begins and ends in complete states",
                f"write `{initial[0]}: initial complete state;`"]

    def dispatch_count(self, offset, details):
        """A state with too few or too many transitions on dispatch."""
        impl = self.impl_at(offset)
        behaviour = behaviour_of(impl) if impl else None
        if behaviour is None:
            return []
        name = details[0]
        state = next((it for it in behaviour.states if it.name.offset == offset), None)
        own = [it for it in behaviour.transitions if it.source.text.lower() == name.lower()]
        count = sum(it.guard == "dispatch" for it in own)
        if state and not state.complete:
            return [f"{name} is not complete, and has a transition on dispatch: a step only begins in a complete "
                    f"state", f"write `{name}: complete state;`, or remove `on dispatch`"]
        if count:
            return [f"{count} transitions on dispatch leave {name}, and one may: put their conditions into a state "
                    f"that is not complete"]
        return [f"no transition on dispatch leaves the complete state {name}: a step that begins there would block",
                f"write `{name} -[on dispatch]-> ..;`" + (", and its conditions in a state that is not complete" if own
                                                          else "")]

    def otherwise(self, offset, details):
        """A state in which a step may get stuck."""
        impl = self.impl_at(offset)
        behaviour = behaviour_of(impl) if impl else None
        if behaviour is None:
            return []
        name = details[0]
        own = [it for it in behaviour.transitions if it.source.text.lower() == name.lower()]
        if not own:
            return [f"no transition leaves {name}, and it is not complete: a step would block there",
                    f"write `{name} -[otherwise]-> ..;`, or make it complete"]
        if any(it.guard == "otherwise" for it in own[:-1]):
            return [f"after the `otherwise` of {name} there are further transitions, which are never taken",
                    "move `otherwise` to the end"]
        return [f"no condition of {name} need be true: a step would block there",
                f"end its transitions with `{name} -[otherwise]-> ..;`"]
