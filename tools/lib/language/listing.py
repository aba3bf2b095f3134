"""Reads listings: the step code of a design as text, whose form is in docs/step_code.md."""

import re
from collections import namedtuple

from ..scenarios.bundles import Refused
from .step_code import OPERANDS

# A design: its times in nanoseconds, its components, and its connections. Ends are (component, port) by number.
Listing = namedtuple("Listing", "period skew execution network components links inputs outputs")
Component = namedtuple("Component", "path rate sent release ins outs variables loops states initial most code")
Port = namedtuple("Port", "name kind")
Variable = namedtuple("Variable", "name kind first")
# A state, and the place where its steps begin; None if no step begins in it.
State = namedtuple("State", "name entry")
Link = namedtuple("Link", "source target adaptor")
Input = namedtuple("Input", "name target adaptor")
Output = namedtuple("Output", "source name")

FORM = "pals-code 1"
KINDS = ("Integer", "Boolean")
LEAST, GREATEST = -(2**63), 2**63 - 1
HOUR, MOST_RATE, MOST_CODE, MOST_PORTS, MOST_NAMES = 3_600_000_000_000, 64, 4096, 64, 64
NUMBER = re.compile(r"0|-?[1-9][0-9]{0,19}")
NAME = re.compile(r"[A-Za-z][A-Za-z0-9_]*")
UP = ("repeat", "first", "last")
DOWN = ("first", "last", "latest", "max", "min", "average")


def name_of_link(listing, link):
    """The name of a link: that of the in port that it goes to."""
    number, port = link.target
    return f"{listing.components[number].path}.{listing.components[number].ins[port].name}"


def shown(component, kind, number):
    """The name after an operand."""
    if kind == "slot":
        names = component.variables
        return names[number].name if number < len(names) else f"#{number - len(names)}"
    return {"in": component.ins, "out": component.outs, "state": component.states}[kind][number].name


def instruction_text(component, instruction):
    """An instruction as a listing has it."""
    words = [instruction[0]]
    for kind, number in zip(OPERANDS[instruction[0]], instruction[1:]):
        words += [str(number)] + ([] if kind in ("number", "place") else [shown(component, kind, number)])
    return " ".join(words)


def steps_sent(listing, rate):
    """k' of a rate (docs/bound.md)."""
    left = max(0, listing.period - listing.network[1] - 2 * listing.skew - listing.execution[1])
    return min(rate, 1 + left // (listing.period // rate))


def release_of(listing, rate):
    """c of a rate (docs/bound.md)."""
    backoff = max(0, 2 * listing.skew - listing.network[0])
    return max(backoff, (steps_sent(listing, rate) - 1) * (listing.period // rate))


class Lines:
    """The lines of a listing, taken one after the other."""

    def __init__(self, text):
        self.lines, self.at = text.split("\n"), 0

    def refuse(self, what):
        """Refuses the line that was taken last."""
        raise Refused(f"line {self.at} of the listing: {what}")

    def next(self, start):
        """The words after the beginning of the next line, or None if the line begins otherwise."""
        if self.at < len(self.lines) and self.lines[self.at].startswith(f"{start} "):
            self.at += 1
            return self.lines[self.at - 1][len(start) + 1 :].split(" ")
        return None

    def all(self, start, *counts):
        """The words of each line that begins so, up to the first that does not."""
        for words in iter(lambda: self.next(start), None):
            if counts and len(words) not in counts:
                self.refuse(f"it has {len(words)} words after `{start.strip()}`")
            yield words

    def take(self, start, count=1):
        """The words of the next line, which has to begin so."""
        words = self.next(start)
        if words is None or len(words) != count:
            self.at += words is None
            self.refuse(f"expected a line `{start.strip()}` with {count} more words")
        return words

    def number(self, word, low, high):
        """A number in its one spelling."""
        if not NUMBER.fullmatch(word) or not low <= int(word) <= high:
            self.refuse(f"`{word[:40]}` is not a number from {low} to {high}")
        return int(word)

    def name(self, word):
        """A name."""
        if not NAME.fullmatch(word):
            self.refuse(f"`{word[:40]}` is not a name")
        return word

    def distinct(self, names):
        """Names that are pairwise distinct; upper and lower case make no difference."""
        names = [name.lower() for name in names]
        if len(set(names)) < len(names):
            self.refuse("duplicate name")

    def kind(self, word):
        """A kind of values."""
        if word not in KINDS:
            self.refuse(f"`{word[:40]}` is not a type")
        return word

    def one(self, start, low, high):
        """The number of a line with one."""
        return self.number(self.take(start)[0], low, high)

    def range(self, start):
        """The two times of a line with two, the less one first."""
        least, most = self.take(start, 2)
        least = self.number(least, 0, HOUR)
        return least, self.number(most, least, HOUR)


def read_component(lines, design):
    """A component."""
    path = lines.take("component")[0]
    if not all(map(NAME.fullmatch, path.split("."))):
        lines.refuse(f"`{path[:40]}` is not a path")
    rate = lines.one(" rate", 1, MOST_RATE)
    sent, release = lines.one(" sent", 1, MOST_RATE), lines.one(" release", 0, HOUR)
    if design.period % rate or (sent, release) != (steps_sent(design, rate), release_of(design, rate)):
        lines.refuse("sent and release differ from the values that the rate and the bounds give")
    ins = [Port(lines.name(name), lines.kind(kind)) for name, kind in lines.all(" in", 2)]
    outs = [Port(lines.name(name), lines.kind(kind)) for name, kind in lines.all(" out", 2)]
    variables = [Variable(lines.name(name), lines.kind(kind), lines.number(first, LEAST, GREATEST))
                 for name, kind, first in lines.all(" var", 3)]
    loops = lines.one(" loops", 0, MOST_CODE)
    states = [read_state(lines, words) for words in lines.all(" state", 2, 3)]
    if len(ins) + len(outs) > MOST_PORTS or max(len(variables), len(states)) > MOST_NAMES:
        lines.refuse("it has too many ports, variables or states")
    for names in (ins + outs, variables, states):
        lines.distinct(it.name for it in names)
    initial = lines.take(" initial")[0]
    found = [number for number, state in enumerate(states) if state.name == initial and state.entry is not None]
    if not found:
        lines.refuse(f"`{initial[:40]}` is not a state in which a step begins")
    most = lines.one(" most", 0, 2 * GREATEST + 1)
    made = Component(path, rate, sent, release, ins, outs, variables, loops, states, found[0], most, [])
    for place in range(lines.one(" code", 1, MOST_CODE)):
        made.code.append(read_instruction(lines, made, lines.next(f"  {place}")))
    return made


def read_state(lines, words):
    """A state."""
    if words[1:] == ["passing"]:
        return State(lines.name(words[0]), None)
    if len(words) == 3 and words[1] == "entry":
        return State(lines.name(words[0]), lines.number(words[2], 0, MOST_CODE - 1))
    return lines.refuse("expected `passing`, or `entry` and a place")


def read_instruction(lines, component, words):
    """An instruction."""
    if words is None or words[0] not in OPERANDS:
        lines.at += words is None
        lines.refuse("expected an instruction with its place")
    counts = {"slot": len(component.variables) + component.loops, "in": len(component.ins), "out": len(component.outs),
              "state": len(component.states), "place": MOST_CODE}
    found, left = [words[0]], words[1:]
    for kind in OPERANDS[words[0]]:
        if not left:
            lines.refuse("an operand is missing")
        low, high = (LEAST, GREATEST) if kind == "number" else (0, counts[kind] - 1)
        found.append(lines.number(left.pop(0), low, high))
        if kind not in ("number", "place"):
            name = shown(component, kind, found[-1])
            if not left or left.pop(0) != name:
                lines.refuse(f"expected the name `{name}` after {found[-1]}")
    if left:
        lines.refuse("it has a word too many")
    return tuple(found)


class Ends:
    """The ports that connections of a listing name."""

    def __init__(self, lines, components):
        self.lines, self.components, self.taken = lines, components, set()
        self.ins = {f"{it.path}.{port.name}": (number, at) for number, it in enumerate(components)
                    for at, port in enumerate(it.ins)}
        self.outs = {f"{it.path}.{port.name}": (number, at) for number, it in enumerate(components)
                     for at, port in enumerate(it.outs)}

    def parted(self, words):
        """The words before and after an arrow, and the adaptor's."""
        if len(words) < 3 or words[1] != "->":
            self.lines.refuse("`FROM -> TO` is wanted")
        return words[0], words[2], words[3:]

    def port(self, ports, word):
        """A port of a component."""
        if word not in ports:
            self.lines.refuse(f"there is no port `{word[:80]}` here")
        return ports[word]

    def target(self, word):
        """An in port, which nothing else may go to."""
        found = self.port(self.ins, word)
        if found in self.taken:
            self.lines.refuse(f"two things go to `{word}`")
        self.taken.add(found)
        return found

    def link(self, words):
        """A link."""
        source, target, adaptor = self.parted(words)
        source, target = self.port(self.outs, source), self.target(target)
        rates = [self.components[end[0]].rate for end in (source, target)]
        return Link(source, target, self.adaptor(adaptor, *rates))

    def input(self, words):
        """What a root in port goes to."""
        name, target, adaptor = self.parted(words)
        target = self.target(target)
        return Input(self.lines.name(name), target, self.adaptor(adaptor, 1, self.components[target[0]].rate))

    def output(self, words):
        """What a root out port shows."""
        source, name, adaptor = self.parted(words)
        if adaptor:
            self.lines.refuse("an output has no adaptor")
        return Output(self.port(self.outs, source), self.lines.name(name))

    def adaptor(self, words, source, target):
        """The adaptor between two rates: None if they are equal."""
        group = max(source, target) // min(source, target)
        names = UP if source < target else DOWN
        if source == target and not words:
            return None
        if source != target and max(source, target) % min(source, target) == 0:
            if len(words) == 1 and words[0] in names:
                return words[0]
            if len(words) == 2 and words[0] == "at" and self.lines.number(words[1], 1, group):
                return " ".join(words)
        return self.lines.refuse(f"this is not an adaptor from rate {source} to rate {target}")


def read_listing(text):
    """The design of a listing, or a rejection. For the code only the form is checked."""
    lines = Lines(text)
    if lines.lines[0] != FORM:
        raise Refused(f"line 1 of the listing: expected `{FORM}`")
    lines.at = 1
    design = Listing(lines.one("period", 1, HOUR), lines.one("skew", 1, HOUR), lines.range("execution"),
                     lines.range("network"), [], [], [], [])
    while lines.at < len(lines.lines) and lines.lines[lines.at].startswith("component "):
        design.components.append(read_component(lines, design))
    lines.distinct(it.path for it in design.components)
    ends = Ends(lines, design.components)
    design.links.extend(map(ends.link, lines.all("link")))
    design.inputs.extend(map(ends.input, lines.all("input")))
    design.outputs.extend(map(ends.output, lines.all("output")))
    if lines.lines[lines.at :] != ["end", ""]:
        lines.at += 1
        lines.refuse("expected `end`, and nothing after it")
    return design
