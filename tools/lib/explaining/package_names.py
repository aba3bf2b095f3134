"""What there is where a name of a package is not declared, declared twice, or on no chain of connections."""

from ..language.model import Declared
from ..language.names import meant
from ..language.tree import Assign, For, Send, acts_in, behaviour_of, exprs_in

# How many names are listed.
MOST_LISTED = 12


def listed(names, what):
    """What there is of something, as a sentence."""
    names = list(dict.fromkeys(names))
    if not names:
        return f"there are no {what}"
    more = f" and {len(names) - MOST_LISTED} more" if len(names) > MOST_LISTED else ""
    return f"{what}: {', '.join(names[:MOST_LISTED])}{more}"


class Undeclared:
    """A package, with the declarations of its names."""

    def __init__(self, package):
        self.package, self.declared = package, Declared(package)

    def lists(self):
        """All lists of properties and all annexes' owners."""
        for kind in self.package.types:
            yield from (kind.props, *(port.props for port in kind.ports))
        for impl in self.package.impls:
            behaviour = behaviour_of(impl)
            yield from (impl.props, *(part.props for part in impl.parts), *(wire.props for wire in impl.connections))
            yield from (variable.props for variable in (behaviour.variables if behaviour else []))

    def unknown(self, name, offset):
        """What there is where a name is not declared."""
        for look in (self.unknown_part, self.unknown_end, self.unknown_use):
            found = look(name, offset)
            if found:
                return [it for it in found if it]
        return []

    def unknown_part(self, name, offset):
        """A component that is not declared."""
        for impl in self.package.impls:
            for part in impl.parts:
                if part.ref.offset == offset:
                    known = [it.name.text for it in self.package.impls]
                    short = name.rpartition("::")[2]
                    other = "components of other packages cannot be named" if short != name else ""
                    return [f"there is no implementation {name}", other or meant(name, known),
                            listed(known, "implementations")]
        return None

    def unknown_end(self, name, offset):
        """An end of a connection that is not declared."""
        for impl in self.package.impls:
            for end in (end for wire in impl.connections for end in (wire.source, wire.target)):
                if end.offset != offset:
                    continue
                part, dot, port = end.text.partition(".")
                own = [it.name.text for it in self.declared.ports_of(impl)]
                parts = [it.name.text for it in impl.parts]
                inner = next((it for it in impl.parts if it.name.text.lower() == part.lower()), None)
                if not dot and inner:
                    ports = [f"{part}.{it.name.text}"
                             for it in self.declared.ports_of(self.declared.impl_of(inner.ref))]
                    return [f"{part} is a subcomponent, and an end names a port", listed(ports, f"ports of {part}")]
                if not dot:
                    return [f"{impl.name.text} has no port {name}", meant(name, own + parts), listed(own, "own ports")]
                if not inner:
                    return [f"{impl.name.text} has no subcomponent {part}", meant(part, parts),
                            listed(parts, "subcomponents")]
                ports = [it.name.text for it in self.declared.ports_of(self.declared.impl_of(inner.ref))]
                return [f"{part} has no port {port}", meant(port, ports), listed(ports, f"ports of {part}")]
        return None

    def unknown_use(self, name, offset):
        """A state, a variable or a port that is not declared."""
        for impl in self.package.impls:
            behaviour = behaviour_of(impl)
            for transition in behaviour.transitions if behaviour else []:
                if offset in (transition.source.offset, transition.target.offset):
                    states = [state.name.text for state in behaviour.states]
                    return [f"there is no state {name}", meant(name, states), listed(states, "states")]
                loops = [act.variable.text for act in acts_in(transition.acts) if isinstance(act, For)]
                uses = [act.target.offset for act in acts_in(transition.acts) if isinstance(act, (Assign, Send))]
                uses += [read.name.offset for expr in exprs_in(transition) for read in expr.reads]
                if offset in uses:
                    known = [it.name.text for it in behaviour.variables] + [it.name.text
                                                                            for it in self.declared.ports_of(impl)]
                    return [f"there is no variable or port {name} in {impl.name.text}", meant(name, known + loops),
                            listed(known, "variables and ports")]
        return None

    def scopes(self):
        """The names that have to differ, a list for each scope."""
        yield [kind.name for kind in self.package.types]
        yield [impl.name for impl in self.package.impls]
        for impl in self.package.impls:
            ports = [port.name for port in self.declared.ports_of(impl)]
            yield ports + [it.name for it in (*impl.parts, *impl.connections)]
            behaviour = behaviour_of(impl)
            if behaviour:
                loops = [act.variable for it in behaviour.transitions for act in acts_in(it.acts) if isinstance(act,
                                                                                                                For)]
                yield ports + [it.name for it in behaviour.variables] + loops
                yield [state.name for state in behaviour.states]
        for props in self.lists():
            yield [prop.name for prop in props]

    def first_of(self, name, offset):
        """Where a name that is declared twice was declared first, or None."""
        for scope in self.scopes():
            if any(it.offset == offset for it in scope):
                same = [it.offset for it in scope if it.text.lower() == name.lower() and it.offset != offset]
                if same:
                    return min(same)
        return None

    def other_source(self, offset):
        """The connection that goes into the same port as one, or None."""
        for impl in self.package.impls:
            for wire in impl.connections:
                if wire.name.offset == offset:
                    same = [it for it in impl.connections if it.target.text.lower() == wire.target.text.lower()
                            and it != wire]
                    return same[0] if same else None
        return None

    def open_ends(self, offset):
        """The ends of a connection that lead nowhere, or where nothing comes from, as sentences."""
        for impl in self.package.impls:
            for wire in impl.connections:
                if wire.name.offset == offset:
                    return [it for it in (self.open_end(impl, wire.source, True),
                                          self.open_end(impl, wire.target, False)) if it]
        return []

    def open_end(self, impl, end, is_source):
        """Whether the chain continues at one end: the sentence if it does not."""
        part, dot, port = end.text.lower().partition(".")
        joins = "goes to" if is_source else "comes from"
        if dot:
            inner = next((it for it in impl.parts if it.name.text.lower() == part), None)
            made = self.declared.impl_of(inner.ref) if inner else None
            if made is None or made.category == "thread":
                return None
            ends = [wire.target if is_source else wire.source for wire in made.connections]
            if port in [it.text.lower() for it in ends]:
                return None
            return f"inside of {made.name.text} nothing {joins} {end.text.partition('.')[2]}"
        for outer in self.package.impls:
            inner = [it.name.text.lower() for it in outer.parts if self.declared.impl_of(it.ref) == impl]
            ends = [(wire.target if is_source else wire.source).text.lower() for wire in outer.connections]
            if inner and not any(f"{name}.{part}" in ends for name in inner):
                return f"in {outer.name.text} nothing {joins} {inner[0]}.{end.text}"
        return None

