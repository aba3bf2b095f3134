"""Names that are not declared or declared twice, in the parts of a text that can be read."""

from ..language import tree
from ..language.names import near_names
from ..language.tree import Impl, behaviour_of, exprs_in


def name_faults(edited):
    """All of them: the name, a sentence, and the likely name or ""."""
    for made in [*edited.package.types, *edited.package.impls]:
        yield from declared_twice(edited, made)
        if isinstance(made, Impl):
            yield from unknown_parts(edited, made)
            behaviour = behaviour_of(made)
            if behaviour and is_readable(edited, made):
                yield from unknown_in_behaviour(edited, made, behaviour)


def is_readable(edited, made):
    """Whether all names that an implementation sees can be read: its type is declared, and neither has a syntax
    error."""
    kind = edited.declared.type_of(made)
    return kind is not None and not any(
        it.offset <= token.offset <= it.end.offset for token, _ in edited.faults for it in (kind, made))


def declared_twice(edited, made):
    """Names that are declared twice in one type, implementation or behaviour."""
    behaviour = behaviour_of(made) if isinstance(made, Impl) else None
    spaces = [[it.name for it in made.ports]] if not isinstance(made, Impl) else [
        [it.name for it in [*made.parts, *made.connections]],
        [it.name for it in behaviour.states] if behaviour else [],
        [it.name for it in behaviour.variables] if behaviour else []]
    for names in spaces:
        seen = set()
        for name in names:
            if name.text.lower() in seen:
                yield name, f"duplicate name {name.text}", ""
            seen.add(name.text.lower())


def unknown_parts(edited, made):
    """Types and implementations that are not declared."""
    known = [it.name.text for it in edited.package.impls]
    if edited.declared.type_of(made) is None and not edited.faults:
        yield made.name, f"unknown type {made.name.text.partition('.')[0]}", ""
    for part in made.parts:
        if edited.declared.impl_of(part.ref) is None and not edited.faults:
            yield part.ref, f"unknown implementation {part.ref.text}", likely(part.ref.text, known)


def unknown_in_behaviour(edited, made, behaviour):
    """States, variables and ports of a behaviour that are not declared."""
    entries = edited.entries(made)
    states = [it.name.text for it in behaviour.states]
    values = [it.name.text for it in entries.values() if it.kind in ("port", "variable")]
    for transition in behaviour.transitions:
        for name in (transition.source, transition.target):
            if name.text.lower() not in map(str.lower, states):
                yield name, f"unknown state {name.text}", likely(name.text, states)
        loops = {act.variable.text.lower() for act in tree.acts_in(transition.acts) if isinstance(act, tree.For)}
        known = {it.lower() for it in values} | loops
        names = [read.name for expr in exprs_in(transition) for read in expr.reads]
        names += [act.target for act in tree.acts_in(transition.acts) if isinstance(act, (tree.Assign, tree.Send))]
        for name in names:
            if name.text.lower() not in known:
                yield name, f"unknown variable or port {name.text}", likely(name.text, values)


def likely(name, known):
    """The likely name, or ""."""
    return next(iter(near_names(name, known)), "")
