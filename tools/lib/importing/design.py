"""The design made from AADL: one package, with devices as ports of the root."""

from collections import namedtuple

from ..language.names import choice
from ..scenarios.bundles import Refused
from .model import CATEGORIES, KEPT

# A type or an implementation of the design: its name, its category, and its declarations.
Made = namedtuple("Made", "name category ports parts links props annexes component")
# A port that an implementation gets for a device below, and its connections inside.
Raised = namedtuple("Raised", "name direction type")

# Properties with a meaning, and the properties that are read for the root and the scenario.
MEANT = {"period", "dispatch_protocol", "timing", "pals_profile::input_adaptor", "pals_profile::skew",
         "pals_profile::execution", "pals_profile::network"}
TAKEN = KEPT | {"thread group"}
READ = {"actual_processor_binding", "compute_execution_time", "clock_period"}


class Design:
    """The implementations below a root, and their types."""

    def __init__(self, library, root):
        self.library, self.told = library, library.told
        self.impls, self.types, self.raised, self.names = {}, {}, {}, {}
        # Which components have threads below, by their categories.
        self.holding = {}
        self.root = root
        self.enter(root)

    def enter(self, impl):
        """Takes an implementation with all below it."""
        key = (impl.package.lower(), impl.name.lower())
        if key in self.impls:
            return self.impls[key]
        self.impls[key] = None
        library = self.library
        kind = library.type_of(impl) or impl
        if kind.name not in self.types:
            ports = {it.name.lower(): it for it in library.ports(kind)}
            self.types[kind.name] = Made(self.named(kind), category_of(kind), ports, [], [],
                                         self.meant(kind, kind.name), kind.annexes, kind)
        parts, outside = self.sort_parts(impl)
        made = Made(f"{self.named(kind)}.{impl.name.partition('.')[2]}", category_of(impl), {}, parts, [], [], [], impl)
        self.impls[key] = made
        self.raised[key] = []
        for part in parts:
            self.raise_from(key, part)
        self.join(key, kind, outside)
        names = {it.name.lower() for it in [*parts, *library.links(impl)]}
        made.props.extend(self.meant(impl, impl.name, names))
        made.annexes.extend(annex for one in library.line_of(impl) for annex in one.annexes)
        return made

    def named(self, component):
        """The name of a type in the one package: preceded by its own package if two would be the same."""
        key = (component.package.lower(), component.name.lower())
        if key not in self.names:
            taken = {it.lower() for it in self.names.values()}
            name = component.name.partition(".")[0]
            self.names[key] = name if name.lower() not in taken else f"{component.package.replace('::', '_')}_{name}"
        return self.names[key]

    def sort_parts(self, impl):
        """The subcomponents that are taken, and those outside, whose ports become ports of the root."""
        kept, outside = [], {}
        for part in self.library.parts(impl):
            place = part.file, part.offset
            below = self.library.find(*part.ref) if part.ref else None
            if part.category in TAKEN and below and self.has_threads(below, part):
                if part.category == "thread group":
                    self.told.add(place, f"{part.name} is a thread group, and is taken as a process")
                kept.append(part)
            elif part.category in ("device", "process", "system"):
                kind = part.category if part.category == "device" else f"{part.category} without threads"
                self.told.add(place, f"{part.name} is a {kind}: its ports become ports of the root",
                              "its values are in the inputs of a scenario")
                outside[part.name.lower()] = (part, below)
            else:
                self.told.add(place, f"the {part.category} {part.name} is omitted",
                              CATEGORIES.get(part.category, "no file has its declaration"))
        return kept, outside

    def has_threads(self, impl, part):
        """Whether a subcomponent is a thread, or has one below."""
        if part.category == "thread":
            return True
        if id(impl) not in self.holding:
            self.holding[id(impl)] = False
            inner = [it for it in self.library.parts(impl) if it.ref and it.category in TAKEN]
            below = ((self.library.find(*it.ref), it) for it in inner)
            self.holding[id(impl)] = any(found is not None and self.has_threads(found, it) for found, it in below)
        return self.holding[id(impl)]

    def raise_from(self, key, part):
        """Gives an implementation the ports that its subcomponents were given for devices."""
        below = self.library.find(*part.ref)
        if part.category == "thread" or below is None or "." not in below.name:
            self.enter(below)
            return
        self.enter(below)
        for port in self.raised.get((below.package.lower(), below.name.lower()), []):
            own = self.own_port(key, f"{part.name}_{port.name}", port.direction, port.type)
            ends = (own, f"{part.name}.{port.name}") if port.direction == "in" else (f"{part.name}.{port.name}", own)
            self.impls[key].links.append((f"to_{own}", *ends, []))

    def own_port(self, key, name, direction, type_name):
        """A port that an implementation gets, once."""
        impl = self.impls[key].component
        ports = self.types[(self.library.type_of(impl) or impl).name].ports
        if not any(it.name == name for it in self.raised[key]):
            while name.lower() in ports:
                name += "_"
            ports[name.lower()] = Raised(name, direction, type_name)
            self.raised[key].append(Raised(name, direction, type_name))
        return name

    def join(self, key, kind, outside):
        """The connections of an implementation; connections of devices begin at its own ports."""
        made = self.impls[key]
        parts = {part.name.lower(): part for part in made.parts}
        for link in self.library.links(made.component):
            ends, from_device = [], False
            for at, end in enumerate((link.source, link.target)):
                part, dot, port = end.rpartition(".")
                if dot and part.lower() in outside:
                    found = self.port_of(outside[part.lower()][1], port)
                    direction = "in" if at == 0 else "out"
                    ends.append(found and self.own_port(key, f"{part}_{port}", direction, found.type))
                    from_device = True
                elif dot and part.lower() in parts:
                    below = self.library.find(*parts[part.lower()].ref)
                    ends.append(end if self.port_of(below, port) else None)
                else:
                    ends.append(end if not dot and end.lower() in self.types[kind.name].ports else None)
            if None in ends:
                lost = (link.source, link.target)[ends.index(None)]
                self.told.add((link.file, link.offset), f"the connection {link.name} is omitted with {lost}",
                              "see there what to write, and join it again")
                continue
            if not any("." in end for end in ends):
                self.told.add((link.file, link.offset), f"the connection {link.name} joins no thread, and is omitted")
                continue
            made.links.append((link.name, *ends, self.link_props(made, link, from_device)))

    def link_props(self, made, link, from_device):
        """The properties of a connection; an input of the root is read without a delay."""
        found = []
        for prop in self.props_of(made, link):
            if from_device and prop.name.lower() == "timing":
                self.told.add((prop.file, prop.offset), f"the Timing of {link.name} is omitted",
                              "a device is outside the design, and its messages have no delay")
            else:
                found.append(prop)
        return found

    def port_of(self, component, name):
        """A port of a component, or None."""
        if component is None:
            return None
        kind = self.library.type_of(component) if "." in component.name else component
        return next((it for it in self.library.ports(kind) if it.name.lower() == name.lower()), None) if kind else None

    def meant(self, component, name, parts=frozenset()):
        """The properties of a component that mean something to it."""
        own = []
        for prop in self.library.properties(component):
            if not prop.applies:
                own.append(prop)
            elif prop.name.lower() not in MEANT | READ:
                own.append(prop)
            elif prop.name.lower() in MEANT and not all(path.lower() in parts for path in prop.applies):
                applied = f"{prop.name} applies to {', '.join(prop.applies)}, and is omitted"
                self.told.add((prop.file, prop.offset), applied, "give it at the component or the connection itself")
        return self.meant_of(own, name)

    def meant_of(self, props, name):
        """Those of some properties that mean something."""
        for prop in props:
            if prop.name.lower() not in MEANT | READ:
                self.told.add((prop.file, prop.offset), f"the property {prop.name} of {name} has no meaning here",
                              "it is omitted")
        return [prop for prop in props if prop.name.lower() in MEANT]

    def props_of(self, made, part):
        """The properties of a subcomponent or a connection: its own, and those that an enclosing component applies."""
        found = {it.name.lower(): it for it in self.meant_of(part.props, part.name)}
        for prop in self.library.properties(made.component):
            if part.name.lower() in (path.lower() for path in prop.applies) and prop.name.lower() in MEANT:
                found[prop.name.lower()] = prop
        return list(found.values())


def category_of(component):
    """The category of the language."""
    return "process" if component.category == "thread group" else component.category


def roots_of(library):
    """The implementations of systems that no other one has inside."""
    inner = set()
    for impl in library.components:
        if "." in impl.name:
            for part in library.parts(impl):
                found = library.find(*part.ref) if part.ref else None
                inner.add(found and (found.package, found.name))
    return [it for it in library.components if it.category == "system" and "." in it.name
            and (it.package, it.name) not in inner]


def root_of(library, name):
    """The root of a name, or the only one."""
    roots = roots_of(library)
    if name is not None:
        systems = [it for it in library.components if it.category == "system" and "." in it.name]
        found = [it for it in systems if name.lower() in (it.name.lower(), f"{it.package}::{it.name}".lower())]
        if not found:
            raise Refused(f"there is no system implementation {name}; there is {choice(it.name for it in systems[:8])}")
        return found[0]
    if not roots:
        raise Refused("no file has a system implementation")
    if len(roots) > 1:
        raise Refused(f"which root is meant? Say --root {choice(it.name for it in roots)}")
    return roots[0]
