"""The design below one root: its threads, the sources of their ports, its rates and its bounds. No rule is checked."""

import math
from collections import namedtuple

from ..scenarios.bundles import Refused
from .grammar import package_of
from .names import choice
from .tree import property_of

UNITS = {"ns": 1, "us": 10**3, "ms": 10**6, "sec": 10**9, "min": 60 * 10**9, "hr": 3600 * 10**9}
# A design has at most 256 threads, with paths of 128 bytes; components beyond this number are ignored.
MOST_PLACES = 32_768
# A thread: its path, its subcomponent, its implementation and type (None if they are not declared), and its period.
Thread = namedtuple("Thread", "path part impl type period")
# What comes into an in port of a thread, or into a root out port: the thread or None for the root, its port, the
# connection that carries it, and the adaptor.
Source = namedtuple("Source", "thread port carrier adaptor")
# The bounds of a platform, in nanoseconds.
Bounds = namedtuple("Bounds", "skew shortest longest fastest slowest")


class Declared:
    """The types and implementations of a package, by their names in lower case; of two of one name the first."""

    def __init__(self, package):
        self.package = package
        self.types, self.impls = {}, {}
        for kind in package.types:
            self.types.setdefault(kind.name.text.lower(), kind)
        for impl in package.impls:
            self.impls.setdefault(impl.name.text.lower(), impl)

    def impl_of(self, ref):
        """The implementation that a reference names, or None."""
        return self.impls.get(ref.text.lower().rpartition("::")[2])

    def type_of(self, impl):
        """The type of an implementation, or None."""
        return self.types.get(impl.name.text.lower().partition(".")[0]) if impl else None

    def ports_of(self, impl):
        """The ports of an implementation."""
        kind = self.type_of(impl)
        return kind.ports if kind else []

    def systems(self):
        """The implementations that may be a root."""
        return [impl for impl in self.package.impls if impl.category == "system"]

    def roots(self):
        """The system implementations that no other one contains; all of them if each is contained in another."""
        inner = {impl and impl.name.text.lower() for made in self.package.impls for impl in self.parts_of(made)}
        tops = [impl for impl in self.systems() if impl.name.text.lower() not in inner]
        return tops or self.systems()

    def parts_of(self, impl):
        """The implementations of the subcomponents of one."""
        return [self.impl_of(part.ref) for part in impl.parts]


class Model:
    """The design below one root."""

    def __init__(self, declared, root):
        self.declared, self.root = declared, root
        self.by_path, self.places, self.wires = {}, {}, {}
        periods = [time_of(property_of(level.props, "Period")) for level in (root, declared.type_of(root)) if level]
        self.period = next((period for period in periods if period is not None), None)
        self.walk(root, (), self.period, frozenset())

    def walk(self, made, path, period, above):
        """Collects threads and connections. A circle is not entered, nor more than a design may have."""
        if made.name.text.lower() in above or len(self.places) > MOST_PLACES:
            return
        for wire in made.connections:
            self.wires.setdefault(full(path, wire.target), (full(path, wire.source), wire, not path))
        for part in made.parts:
            below, impl = path + (part.name.text,), self.declared.impl_of(part.ref)
            self.places.setdefault(".".join(below).lower(), part.name.offset)
            own = self.own_period(part, impl, period)
            if part.category == "thread":
                thread = Thread(".".join(below), part, impl, self.declared.type_of(impl), own)
                self.by_path.setdefault(thread.path.lower(), thread)
            elif impl:
                self.walk(impl, below, own, above | {made.name.text.lower()})

    def own_period(self, part, impl, period):
        """The period of a component: its own, or else the period of the enclosing component."""
        levels = [part, impl, self.declared.type_of(impl)]
        own = (time_of(property_of(level.props, "Period")) for level in levels if level)
        return next((found for found in own if found is not None), period)

    @property
    def threads(self):
        """The paths of the threads, in the order of the design."""
        return [thread.path for thread in self.by_path.values()]

    def rate(self, thread):
        """The number of steps of a thread in a round, or None if that is not a whole number."""
        if not self.period or not thread.period or self.period % thread.period:
            return None
        return self.period // thread.period

    @property
    def bounds(self):
        """The bounds of the platform, or None if one is missing."""
        levels = [level for level in (self.root, self.declared.type_of(self.root)) if level]

        def given(name):
            values = (property_of(level.props, f"PALS_Profile::{name}") for level in levels)
            return next((value for value in values if value), None)

        skew, execution, network = time_of(given("Skew")), range_of(given("Execution")), range_of(given("Network"))
        return Bounds(skew, *execution, *network) if skew and execution and network else None

    def steps_sent(self, rate):
        """How many of the steps of a thread end in time for its message, or None if that is unknown."""
        if not self.bounds or not self.period or not rate:
            return None
        left = self.period - self.bounds.slowest - 2 * self.bounds.skew - self.bounds.longest
        return min(rate, 1 + max(left, 0) // max(self.period // rate, 1))

    @property
    def least_periods(self):
        """The minimum period by the bound, and the smallest one from it on that every rate divides (docs/bound.md); or
        None if a rate or a bound is missing."""
        bounds, rates = self.bounds, [self.rate(thread) for thread in self.by_path.values()]
        if bounds is None or None in rates:
            return None
        backoff = max(2 * bounds.skew - bounds.fastest, 0)
        least = max(bounds.slowest + 2 * bounds.skew + max(backoff, bounds.longest), max(rates, default=1)
                    * bounds.longest)
        multiple = 1
        for rate in rates:
            multiple = multiple * rate // math.gcd(multiple, rate)
        return least, -(-least // multiple) * multiple

    def came_from(self, end):
        """The source of a port: `PATH.PORT`, or the name of a root out port. None if it has no source."""
        at, carrier, carries = end.lower(), None, False
        for _ in range(len(self.wires) + 1):
            if at not in self.wires:
                return self.root_source(at, carrier)
            at, wire, in_root = self.wires[at]
            between = "." in wire.source.text and "." in wire.target.text
            if carrier is None or between or (in_root and not carries):
                carrier, carries = wire, between
            path, _, port = at.rpartition(".")
            if path in self.by_path:
                return Source(self.by_path[path], spelled(self.by_path[path], port), carrier, adaptor_of(carrier))
        return None

    def root_source(self, at, carrier):
        """A root in port, where a way back ends at one."""
        names = {port.name.text.lower() for port in self.root_ports("in")}
        return Source(None, at, carrier, adaptor_of(carrier)) if carrier and at in names else None

    def in_ports(self):
        """Each in port of a thread, with its thread."""
        for thread in self.by_path.values():
            for port in ports_of(thread, "in"):
                yield thread, port

    def root_ports(self, direction):
        """The ports of the root that go in or out."""
        return [port for port in self.declared.ports_of(self.root) if port.direction == direction]

    def links(self):
        """The links between threads, by their targets."""
        ends = [f"{thread.path}.{port.name.text}" for thread, port in self.in_ports()]
        return {end for end in ends if self.source(end)}

    def source(self, link):
        """The path of the thread that sends on a link, or None."""
        found = self.came_from(link)
        return found.thread.path if found and found.thread else None


def ports_of(thread, direction):
    """The ports of a thread that go in or out."""
    return [port for port in thread.type.ports if port.direction == direction] if thread.type else []


def spelled(thread, name):
    """The name of a port of a thread, as its type spells it."""
    names = [port.name.text for port in thread.type.ports] if thread.type else []
    return next((it for it in names if it.lower() == name), name)


def full(path, end):
    """An end of a connection, with the path of its component."""
    return ".".join(path + (end.text,)).lower()


def adaptor_of(wire):
    """The text of the adaptor of a connection, or None."""
    value = property_of(wire.props, "PALS_Profile::Input_Adaptor")
    return value.text if value and value.kind == "string" else None


def time_of(value):
    """The nanoseconds of `9 ms`, or None."""
    if value is None or value.kind != "number":
        return None
    kind, unit = value.parts
    digits = value.text.replace("_", "")
    if kind != "whole" or not digits.isdigit() or len(digits) > 19 or unit.lower() not in UNITS:
        return None
    return int(digits) * UNITS[unit.lower()]


def range_of(value):
    """The two ends of `0 ms .. 3 ms`, or None."""
    if value is None or value.kind != "range":
        return None
    ends = tuple(map(time_of, value.parts))
    return None if None in ends else ends


def declared_in(design):
    """The declarations of a design's text, or None if it has a syntax error."""
    package = package_of(design)
    return Declared(package) if package else None


def model_of(design, wanted=(), root=None):
    """The design below the root of a name, or below the system implementation that has all wanted paths and the most
    threads; or None."""
    declared = declared_in(design)
    if declared is None:
        return None
    named = [made for made in declared.systems() if root is None or made.name.text.lower() == root.lower()]
    models = [Model(declared, made) for made in named]
    fitting = [model for model in models if {path.lower() for path in wanted} <= set(model.places)]
    return max(fitting, key=lambda model: len(model.threads), default=None)


def root_of(declared, name):
    """The root that a name names, or the only one."""
    roots = [it for it in declared.systems() if it.name.text.lower() == name.lower()] if name else declared.roots()
    names = [it.name.text for it in (roots or declared.systems())]
    if not roots:
        raise Refused(f"there is no system implementation {name or ''}".rstrip() + (f": take {choice(names)}" if names
                                                                                    else ""))
    if len(roots) > 1:
        raise Refused(f"which root is meant? Say --root {choice(names)}")
    return roots[0]
