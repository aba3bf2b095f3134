"""The times and processors of a design's threads, for the root's bounds and for the scenario."""

import math

from ..commands.times import in_ms
from ..language.model import UNITS
from ..language.tokens import word_of
from ..scenarios.bundles import Refused

HOUR = 3600 * 10**9


class Threads:
    """The threads below a root, each with its path and the positions of its properties."""

    def __init__(self, design):
        self.design, self.library = design, design.library
        self.threads, self.bound = {}, {}
        self.walk(design.root, (), [])

    def walk(self, impl, path, above):
        """Collects threads, and the processors that bindings give them."""
        if impl in (one for one, _, _ in above):
            raise Refused(f"{impl.name} has itself inside, at {'.'.join(path)}")
        own = self.library.properties(impl)
        for part in self.library.parts(impl):
            below = self.library.find(*part.ref) if part.ref else None
            here = path + (part.name,)
            levels = above + [(impl, path, own)]
            if part.category == "thread":
                self.threads[here] = (part, below, levels)
            elif below is not None and part.category in ("system", "process", "thread group"):
                self.walk(below, here, levels)

    def value(self, here, name):
        """The value of a thread's property: at its subcomponent, applied to it from above, at its implementation and
        its type; or None."""
        part, below, levels = self.threads[here]
        low = ".".join(here).lower()
        candidates = [it for it in part.props if it.name.lower() == name]
        for _, path, props in levels:
            for prop in props:
                ends = [".".join([*path, end]).lower() for end in prop.applies]
                if prop.name.lower() == name and any(low == end or low.startswith(f"{end}.") for end in ends):
                    candidates.append(prop)
        for one in (below, self.library.type_of(below) if below else None):
            if one is not None:
                candidates += [it for it in self.library.properties(one) if it.name.lower() == name and not it.applies]
        return candidates[0] if candidates else None

    def execution(self):
        """The range of Compute_Execution_Time of all threads, or None if one thread has none."""
        ranges = [range_in(self.value(here, "compute_execution_time")) for here in self.threads]
        if not ranges or None in ranges:
            return None
        return min(it[0] for it in ranges), max(it[1] for it in ranges)

    def period(self):
        """The least period that all threads' periods divide, or None."""
        periods = [range_in(self.value(here, "period")) for here in self.threads]
        if not periods or None in periods or any(not it[0] for it in periods):
            return None
        found = 1
        for first, _ in periods:
            found = found * first // math.gcd(found, first)
        return found if found <= HOUR else None

    def processors(self):
        """The processors of the scenario, as bindings give them; and the threads that have none."""
        found, unbound = {}, []
        for here in self.threads:
            prop = self.value(here, "actual_processor_binding")
            words = [word_of(token) for token in prop.value] if prop else []
            if "reference" not in [word.lower() for word in words]:
                unbound.append(".".join(here))
                continue
            first = [word.lower() for word in words].index("reference") + 2
            name = "_".join(word for word in words[first : words.index(")", first)] if word != ".")
            found.setdefault(name, []).append(".".join(here))
        return found, unbound


def range_in(prop):
    """The nanoseconds of a property's time or range of times, or None."""
    words = [word_of(token).lower() for token in prop.value] if prop else []
    ends = " ".join(words).split(" .. ")
    times = [end.split(" ") for end in ends]
    if len(times) > 2 or not all(len(it) == 2 and it[0].replace("_", "").isdigit() and it[1] in UNITS for it in times):
        return None
    nanos = [int(number.replace("_", "")) * UNITS[unit] for number, unit in times]
    return nanos[0], nanos[-1]


def time(nanos):
    """A time as a design has it."""
    unit, size = next((unit, size) for unit, size in (("ms", 10**6), ("us", 10**3), ("ns", 1)) if nanos % size == 0)
    return f"{nanos // size} {unit}"


def add_bounds(design, threads):
    """Gives the root the bounds of its threads, and reports the missing ones."""
    root = design.impls[design.root.package.lower(), design.root.name.lower()]
    kind = design.library.type_of(design.root)
    known = {it.name.lower() for it in [*root.props, *(design.library.properties(kind) if kind else [])]}
    place = design.root.file, design.root.offset
    execution, period = threads.execution(), threads.period()
    if "period" not in known:
        if period:
            root.props.append(f"Period => {time(period)};")
        given = f", and is given {in_ms(period)}" if period else ""
        design.told.add(place, f"the root {design.root.name} has no Period{given}",
                        "its period is that of a round: give one that each component's period divides")
    if "pals_profile::execution" not in known:
        if execution:
            root.props.append(f"PALS_Profile::Execution => {time(execution[0])} .. {time(execution[1])};")
            what = f"is given PALS_Profile::Execution, {in_ms(execution[0])} to {in_ms(execution[1])}"
            mend = "by the Compute_Execution_Time of all threads"
        else:
            what = "has no PALS_Profile::Execution, nor have all threads a Compute_Execution_Time"
            mend = "write how long a step takes: PALS_Profile::Execution => 0 ms .. 3 ms;"
        design.told.add(place, f"the root {design.root.name} {what}", mend)
    for name, mend in (("Skew", "how far clocks may be off: PALS_Profile::Skew => 1 ms;"),
                       ("Network", "how long messages take: PALS_Profile::Network => 1 ms .. 4 ms;")):
        if f"pals_profile::{name.lower()}" not in known:
            design.told.add(place, f"the root {design.root.name} has no PALS_Profile::{name}", f"write {mend}")


def scenario_of(design, threads):
    """The scenario: one round more than it needs, and the processors of the bindings."""
    found, unbound = threads.processors()
    place = design.root.file, design.root.offset
    scenario = {"rounds": 10}
    if found and unbound:
        design.told.add(place, f"no processor is bound to {', '.join(unbound[:6])}",
                        "each component is on one: add them to processors in the scenario")
    if found:
        design.told.add(place, "the time of an instruction is not given; the scenario has 1000 ns",
                        "write nanos for each processor, or omit processors")
        scenario["processors"] = {name: {"nanos": 1000, "components": paths} for name, paths in sorted(found.items())}
    return scenario
