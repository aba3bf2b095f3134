"""The errors of rejected scenarios: a sentence for each field, with the expected and the given value."""

import re

from ..language.model import declared_in, model_of
from ..language.names import choice, meant
from ..language.tree import behaviour_of
from .formulas import first_wrong, text_of

FIELDS = ("rounds", "inputs", "events", "clocks", "delays", "trace", "properties", "replicas", "faults", "plants",
          "processors")
EVENTS = {
    "pass": ('["pass", TIME, [READING, ..]]', 3),
    **{word: (f'["{word}", PATH]', 2) for word in ("start", "step", "finish", "send")},
    **{word: (f'["{word}", LINK, ROUND]', 3) for word in ("arrive", "drop", "repeat")},
}
# What each field takes.
TAKES = {
    "rounds": 'a whole number from 1 to 100,000, as "rounds": 3',
    "inputs": 'an object from root in ports to lists, as "inputs": {"goal": [1, 2, null]}',
    "events": 'a list of events, as ["start", "p.a"]',
    "clocks": '"meet", or an object from paths to lists of readings',
    "delays": 'an object from links to lists of nanoseconds, as "delays": {"p.b.i": [2000000]}',
    "trace": "a list of texts, each a line of a run",
    "properties": 'an object from names to formulas, as {"small": ["var", "p.a", "x", "<", 9]}',
    "replicas": 'a list of paths, as ["p.a"]',
    "faults": 'a list of faults, as ["p.a", 2, "p.b.i", 1, 0, [100]]',
    "plants": "an object from the path of a plant to that of its controller",
    "processors": 'an object from names to processors, as {"cpu": {"nanos": 10, "components": ["p.a"]}}',
}
# The expected contents of a field.
INSIDE = {
    "inputs": "a list of values, one for each round",
    "events": f"an event: {choice([shape for shape, _ in EVENTS.values()])}",
    "clocks": "a list of readings in nanoseconds, whole numbers that don't fall",
    "delays": "a list of one or more delays in nanoseconds",
    "trace": "a line as a string",
    "replicas": "the path of a component as a text",
    "faults": 'a fault: [PATH, REPLICA, LINK, TARGET, ROUND, [VALUE, ..]], as ["p.a", 2, "p.b.i", 1, 0, [100]]',
    "plants": "the path of the plant's controller as a text",
    "processors": 'an object with "nanos" and "components", and nothing else',
}
# What is out of its range.
RANGES = {
    "rounds": "rounds are from 1 to 100,000",
    "inputs": "a number has 64 bits at most",
    "events": "a time or a reading is at most 2^59, a round at most 100,000, and a pass has one reading for each "
    "component",
    "clocks": "readings never decrease, and are at most 2^59; there are 1,000,000 at most",
    "delays": "there is one delay or more, each at most one hour",
    "trace": "there are 1,000,000 lines at most",
    "properties": "there are 1 to 64 properties, each named by a word: a letter, then letters, digits and _",
    "replicas": "each component is named once",
    "faults": "replicas are 1 to 3, rounds at most 100,000; there is one value for each step of the source, and one "
    "fault for each place",
    "plants": "a plant and its controller have one rate, are in no other pair, and each link of the plant is with "
    "its controller",
    "processors": "there are 1 to 256 processors, each named by a word, with nanos from 1 to one hour; each component "
    "is on one, once",
}
MOST_LISTED = 12


class Names:
    """What a scenario may name: paths with their variables, links, and root in ports with their types."""

    def __init__(self, bundle):
        declared = declared_in(bundle.design)
        roots = declared.roots() if declared else []
        model = model_of(bundle.design, root=roots[0].name.text) if len(roots) == 1 else model_of(bundle.design)
        self.paths, self.links, self.inputs = {}, {}, {}
        if model is None:
            return
        for thread in model.by_path.values():
            behaviour = behaviour_of(thread.impl) if thread.impl else None
            self.paths[thread.path] = [it.name.text for it in behaviour.variables] if behaviour else []
        self.links = {link: model.source(link) for link in sorted(model.links())}
        self.inputs = {port.name.text: port.ref.text if port.ref else "" for port in model.root_ports("in")}


def there_are(names, what):
    """What there is of something."""
    names = list(names)
    if not names:
        return f"the design has no {what}"
    return f"{what}: {', '.join(names[:MOST_LISTED])}" + (" .." if len(names) > MOST_LISTED else "")


def unknown(name, known, what):
    """Sentences on a name that the design has not."""
    return [f"the design has no {what[:-1]} {name}", meant(name, known), there_are(known, what)]


class Why:
    """What is wrong with the part of a scenario that an answer names. `at` finds the value of a part of it."""

    def __init__(self, names, at):
        self.names, self.at, self.offset = names, at, None

    def of(self, fault, about):
        """Sentences, the first of which states the error; empty if nothing is known of it."""
        field, _, rest = about.partition("/")
        look = {"WrongKind": self.wrong_kind, "Unknown": self.unknown, "OutOfRange": self.out_of_range,
                "Field": self.missing, "TooBig": self.too_big}.get(fault)
        found = look(field, rest) if look else []
        return [it for it in found if it]

    def formula(self, rest):
        """The first wrong part of a property."""
        value = self.at(f"properties/{rest}")
        found = first_wrong(value, self.names.paths) if value else None
        if found:
            self.offset = found[0]
            return found[1]
        return []

    def wrong_kind(self, field, rest):
        """Another kind of value."""
        if field == "scenario":
            return ['a scenario is one JSON object, as {"rounds": 3}']
        if field == "properties" and rest:
            return self.formula(rest)
        if field == "events" and rest:
            return self.event(rest)
        if not rest:
            return [f"{field} takes {TAKES.get(field, 'another kind of value')}"]
        name = rest.rpartition("/")[0]
        if field == "inputs" and name:
            boolean = self.names.inputs.get(name, "").lower().endswith("boolean")
            kind = "true, false or null" if boolean else "a whole number or null"
            return [f"a value of {name} is {kind}: {name} is a {'Boolean' if boolean else 'Integer'} port"]
        if field in ("clocks", "delays") and name:
            return ["expected a whole number of nanoseconds, without a point and without an exponent"]
        return [f"expected {INSIDE.get(field, 'another kind of value')}"]

    def event(self, rest):
        """An event without a form, or of the other world."""
        value = self.at(f"events/{rest}")
        word = text_of(value.parts[0]) if value and value.kind == "list" and value.parts else None
        if word not in EVENTS:
            return [f"{word or 'this'} is not an event", meant(word, EVENTS) if word else "",
                    f"events: {', '.join(EVENTS)}"]
        shape, count = EVENTS[word]
        if len(value.parts) != count:
            return [f'"{word}" is written {shape}']
        if word in ("pass", "drop", "repeat") and (word == "pass" or text_of(value.parts[1]) is not None):
            loose = "world" if word == "pass" else "world --loose"
            if word != "pass" or value.parts[2].kind == "list":
                return [f'"{word}" is an event of {loose} only, in the form {shape}']
        return [f'"{word}" is written {shape}']

    def unknown(self, field, rest):
        """An unknown name."""
        if field not in FIELDS:
            return [f"a scenario has no field {field}", meant(field, FIELDS), f"fields: {', '.join(FIELDS)}"]
        if field == "inputs":
            return unknown(rest, self.names.inputs, "root in ports")
        if field in ("clocks", "plants") and rest not in self.names.paths:
            return unknown(rest, self.names.paths, "components")
        if field == "delays":
            return unknown(rest, self.names.links, "links")
        if field == "properties":
            return self.formula(rest)
        return self.unknown_inside(field, rest)

    def unknown_inside(self, field, rest):
        """A name inside of an event, a fault, a pair, a processor or the list of replicas."""
        value = self.at(f"{field}/{rest}")
        if value is None:
            return []
        parts = value.parts if value.kind == "list" else [value]
        words = [text_of(part) for part in parts]
        if field == "events" and len(words) > 1 and words[0] in ("arrive", "drop", "repeat"):
            return unknown(words[1], self.names.links, "links")
        if field == "events" and len(words) > 1:
            return unknown(words[1], self.names.paths, "components")
        if field == "faults" and len(words) == 6:
            return self.unknown_fault(words)
        if field == "processors":
            known = self.at(f"{field}/{rest}/components")
            words = [text_of(part) for part in known.parts] if known and known.kind == "list" else []
        stray = next((word for word in words if word and word not in self.names.paths), None)
        return unknown(stray, self.names.paths, "components") if stray else []

    def unknown_fault(self, words):
        """A name in a fault of replicas."""
        if words[0] not in self.names.paths:
            return unknown(words[0], self.names.paths, "components")
        replicas = self.at("replicas")
        named = [text_of(part) for part in replicas.parts] if replicas and replicas.kind == "list" else []
        if words[0] not in named:
            return [f"{words[0]} is not among the replicas", f'add it: "replicas": ["{words[0]}"]']
        own = [link for link, source in self.names.links.items() if source == words[0]]
        return [f"{words[2]} is not a link from {words[0]}", meant(words[2] or "", own),
                there_are(own, f"links from {words[0]}")]

    def out_of_range(self, field, rest):
        """A number or a count that is out of its range."""
        if field == "properties" and rest:
            return self.formula(rest)
        fall = self.falls(rest) if field == "clocks" else []
        return fall or [RANGES.get(field, "a number or a count is out of range")]

    def falls(self, rest):
        """A reading that is below the one before it."""
        path, _, index = rest.rpartition("/")
        value = self.at(f"clocks/{path}")
        at = int(index) if re.fullmatch(r"[0-9]{1,7}", index) else 0
        if not value or value.kind != "list" or not 0 < at < len(value.parts):
            return []
        one, two = value.parts[at - 1].parts, value.parts[at].parts
        if re.fullmatch(r"[0-9]{1,18}", str(one)) and re.fullmatch(r"[0-9]{1,18}", str(two)) and int(two) < int(one):
            return [f"the clock of {path} goes back: {two} follows {one}", "readings never decrease: sort them"]
        return []

    def missing(self, field, rest):
        """A field that is missing."""
        if field == "processors" and rest:
            return [f"{rest} is on no processor", f'add "{rest}" to the components of one']
        return [f"the field {field} is missing", f'add "{field}": {TAKES.get(field, "..")}']

    def too_big(self, cells, _rest):
        """A run that would leave too much."""
        rounds = self.at("rounds")
        text = str(rounds.parts) if rounds and rounds.kind == "other" else ""
        if re.fullmatch(r"[0-9]{1,6}", text) and re.fullmatch(r"[0-9]{1,30}", cells) and int(text):
            each = int(cells) // int(text)
            most = 1_000_000 // each if each else 0
            return [f"the run would produce {int(cells):,} values, {each:,} a round, and the maximum is 1,000,000",
                    f'"rounds": {most} is the most for this design' if most
                    else "this design leaves too much in one round"]
        return []
