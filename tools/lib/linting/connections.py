"""Ports of processes and systems that no connection names, inside or outside: the program ignores them."""

from .finding import Found


def find(model):
    """All of them below the root, each once."""
    declared, used = model.declared, []
    todo = declared.parts_of(model.root)
    while todo:
        impl = todo.pop()
        if impl is not None and impl.category != "thread" and impl not in used and impl is not model.root:
            used.append(impl)
            todo += declared.parts_of(impl)
    outside = joined_outside(declared, [model.root, *used])
    for impl in used:
        inside = {end.text.lower() for wire in impl.connections for end in (wire.source, wire.target)}
        for port in declared.ports_of(impl):
            name = port.name.text.lower()
            if name not in inside and (id(impl), name) not in outside:
                yield Found("unconnected-port", port.name.text, port.name.offset,
                            f"no connection names the {port.direction} port {port.name.text} of {impl.name.text}",
                            mend_of(impl, port))


def joined_outside(declared, impls):
    """The ports of subcomponents that connections of some implementations name: each the number of the subcomponent's
    implementation and a name in lower case."""
    found = set()
    for impl in impls:
        parts = {part.name.text.lower(): id(declared.impl_of(part.ref)) for part in impl.parts}
        for wire in impl.connections:
            for end in (wire.source, wire.target):
                part, _, port = end.text.lower().partition(".")
                found.add((parts.get(part), port))
    return found


def mend_of(impl, port):
    """The connection that the port lacks inside, with a subcomponent of the implementation."""
    part, name = impl.parts[0].name.text if impl.parts else "part", port.name.text
    inside = f"{part}.PORT -> {name}" if port.direction == "out" else f"{name} -> {part}.PORT"
    return f"connect it inside, as `c: port {inside};`, and outside; or remove it"
