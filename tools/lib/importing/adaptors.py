"""Adaptors for the connections of an imported design that join different rates and have none."""

from ..language.model import Model, declared_in

HIGHER, LOWER = "repeat", "latest"


def add_adaptors(design, text, root):
    """Gives such connections an adaptor, and reports each. `text` is the design's text without them."""
    declared = declared_in(text.encode())
    made = declared.impls.get(root.lower()) if declared else None
    model = Model(declared, made) if made else None
    for thread, port in model.in_ports() if model else ():
        end = f"{thread.path}.{port.name.text}"
        came = model.came_from(end)
        if came is None or came.adaptor is not None:
            continue
        source, target = model.rate(came.thread) if came.thread else 1, model.rate(thread)
        if source and target and source != target and max(source, target) % min(source, target) == 0:
            owner = next(it for it in declared.package.impls if came.carrier in it.connections)
            give(design, owner.name.text, came.carrier.name.text, (end, source, target))


def give(design, owner, name, link):
    """Gives a connection of an implementation an adaptor, once."""
    end, source, target = link
    adaptor = HIGHER if source < target else LOWER
    made = next(it for it in design.impls.values() if it is not None and it.name == owner)
    at = next(number for number, it in enumerate(made.links) if it[0] == name)
    _, start, stop, props = made.links[at]
    if any(isinstance(it, str) for it in props):
        return
    made.links[at] = (name, start, stop, [*props, f'PALS_Profile::Input_Adaptor => "{adaptor}";'])
    own = next((it for it in design.library.links(made.component) if it.name == name), made.component)
    joins = f"the connection {name} joins the rates {source} and {target} at {end}"
    design.told.add((own.file, own.offset), f'{joins}, and is given the adaptor "{adaptor}"',
                    "docs/language.md has the others: choose the one that is meant")
