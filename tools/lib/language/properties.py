"""Properties with a meaning, properties without one, and the likely name of the latter."""

from collections import namedtuple

from .grammar import package_of
from .names import is_near
from .tree import behaviour_of

PLACES = {
    "Period": "types, implementations and subcomponents",
    "Dispatch_Protocol": "thread types, thread implementations and subcomponents that are threads",
    "Timing": "connections",
    "PALS_Profile::Input_Adaptor": "connections",
    "PALS_Profile::Skew": "the root's implementation and its type",
    "PALS_Profile::Execution": "the root's implementation and its type",
    "PALS_Profile::Network": "the root's implementation and its type",
    "Data_Model::Initial_Value": "variables of a behaviour",
}
BOUNDS = {f"pals_profile::{name}" for name in ("skew", "execution", "network")}
# A property that means nothing: its name, its place, why, whether another name was likely meant, and that name if the
# property means something and is the only one with it.
Ignored = namedtuple("Ignored", "name offset why misspelt fix")


def lists_of(package, roots=()):
    """Each list of properties of a package, with the names in lower case that mean something in it. Of the
    implementations and types in `roots` the bounds count."""
    for kind in package.types:
        dispatch = {"dispatch_protocol"} if kind.category == "thread" else set()
        yield kind.props, {"period"} | dispatch | (BOUNDS if kind in roots else set())
        for port in kind.ports:
            yield port.props, set()
    for impl in package.impls:
        yield from lists_in(impl, BOUNDS if impl in roots else set())


def lists_in(impl, bounds):
    """The lists of properties of an implementation."""
    dispatch = {"dispatch_protocol"}
    yield impl.props, {"period"} | bounds | (dispatch if impl.category == "thread" else set())
    for part in impl.parts:
        yield part.props, {"period"} | (dispatch if part.category == "thread" else set())
    for wire in impl.connections:
        yield wire.props, {"timing", "pals_profile::input_adaptor"}
    behaviour = behaviour_of(impl)
    seen = []
    for variable in behaviour.variables if behaviour else []:
        if variable.props not in seen:
            seen.append(variable.props)
            yield variable.props, {"data_model::initial_value"}


def ignored(package, roots):
    """The properties without a meaning at their position: first the ones for which another name was likely meant."""
    found = []
    for props, known in lists_of(package, roots):
        for prop in props:
            if prop.applies or prop.name.text.lower() not in known:
                name = prop.name.text
                found.append(Ignored(name, prop.name.offset, why_ignored(name, prop.applies), likely(name) is not None,
                                     fix_of(prop, props, known)))
    return sorted(found, key=lambda it: (not it.misspelt, it.offset))


def fix_of(prop, props, known):
    """The likely intended name of a property in its list, or None: it must have a meaning there, and be new."""
    intended = likely(prop.name.text)
    others = [likely(it.name.text) or it.name.text for it in props if it is not prop]
    fits = intended and not prop.applies and intended.lower() in known
    return intended if fits and intended.lower() not in [it.lower() for it in others] else None


def associations(design):
    """The names of the properties of a design's text, each with its position; empty if the text has a syntax error."""
    package = package_of(design)
    return [(prop.name.text, prop.name.offset) for props, _ in lists_of(package) for prop in props] if package else []


def why_ignored(name, applies=False):
    """Why a property means nothing."""
    known = {it.lower(): it for it in PLACES}.get(name.lower())
    if known and applies:
        return f"this {known} is ignored, since it has applies to: write it at its component or connection"
    if known:
        return f"this {known} is ignored: it counts at {PLACES[known]}, and not here"
    if likely(name):
        return f"{name} is ignored; {likely(name)} is likely meant"
    return f"{name} is ignored: it has no meaning here"


def likely(name):
    """The likely intended name: one letter or the property set differs. None if no name is near, or it is one."""
    known = {it.lower(): it for it in PLACES}
    if name.lower() in known:
        return None
    for wanted in PLACES:
        if is_near(name.lower(), wanted.lower()) or is_near(last(name), last(wanted)):
            return wanted
    return None


def last(name):
    """The last word of a name, in lower case."""
    return name.lower().rpartition("::")[2]
