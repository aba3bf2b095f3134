"""Remarks on designs and scenarios that are refused."""

from ..editing.edited import Edited
from ..language.grammar import package_of
from ..language.names import choice
from ..language.properties import associations, likely
from ..running.answers import FINDING
from ..scenarios.places import offset_of, place_of, value_of
from . import sentences
from .all_errors import errors
from .findings import Findings
from .json_faults import why_no_json
from .package_faults import TOO_MANY, Reader
from .page import advice
from .scenario_faults import Names, Why
from .sentences import sentence
from .show import fix_in, show
from .text_faults import tell

# Findings that a misspelt property may have caused.
BY_PROPERTY = {2, 3, 4, 6, 7, 9, 10, 11, 16, 18}
FOLLOWS = "this may follow from the property above that is misspelt"


# How many errors are shown in addition to the error of the program.
MOST_FURTHER = 20
# Designs with more bytes are not searched for further errors.
MOST_SEARCHED = 1_000_000


def show_further(bundle, offset, end=None):
    """Shows the other errors of a design that can be found in the same run: no error between two bytes, which is the
    one of the program."""
    if len(bundle.design) > MOST_SEARCHED:
        return
    shown = range(offset, (offset if end is None else end) + 1)
    found = [it for it in errors(Edited(bundle.design.decode("utf-8", "replace"))) if it.offset not in shown]
    for it in found[:MOST_FURTHER]:
        what, *more = it.words
        show(bundle, bundle.place(it.offset), what, *more, rule=it.rule, fix=fix_in(bundle, it.fix))


def place_in(found):
    """The place that an answer names, or the beginning."""
    return (int(found["line"]), int(found["column"])) if found["line"] else (1, 1)


def offset_in(bundle, place):
    """The byte at a place of the bundle."""
    line, column = place
    return bundle.starts[line - 1] + column - 1 if 0 < line <= len(bundle.starts) else 0


def show_text(bundle, answer):
    """A text that is not in the language."""
    name, place = answer.parts["name"], place_in(answer.parts)
    told = tell(bundle, name, offset_in(bundle, place))
    show(bundle, place, told.what, *told.more, f"see docs/language.md, {name}", rule=name)
    if told.culprit is not None and bundle.place(told.culprit)[0] != place[0]:
        show(bundle, bundle.place(told.culprit), "this is likely the place to fix", rule=name, level="note")
    if name == "Syntax":
        show_further(bundle, offset_in(bundle, place))


def show_fault(bundle, answer):
    """The first fault of a package."""
    found = answer.parts
    number, name, place = int(found["number"]), found["what"] or "", place_in(found)
    package = package_of(bundle.design)
    reader = Reader(package) if package else None
    told = fault_sentences(reader, number, name, offset_in(bundle, place)) or [
        sentence(sentences.FAULTS.get(number, "the package is rejected"), [name]), advice().get(("faults", number))]
    see = f"see docs/checks.md, faults of the package, {number} {found['name']}"
    show(bundle, place, *told, see, rule=found["name"])
    if reader:
        show_related(bundle, reader, number, (name, offset_in(bundle, place)))
        # An error of a wrong kind is at the beginning of its declaration.
        begin, line = offset_in(bundle, place), bundle.line(place[0])
        show_further(bundle, begin, offset_in(bundle, (place[0], len(line) + 1)) if number == 4 else None)


def fault_sentences(reader, number, name, offset):
    """Sentences on a fault; empty if nothing is known of it."""
    if reader is None:
        return []
    if number == 1:
        roots = [impl.name.text for impl in reader.declared.systems()]
        return ["there is no system implementation of the root's name",
                f"{choice(roots)} may be a root" if roots
                else "the design has no system implementation at all: a root is one"]
    if number == 4:
        return reader.wrong_kind(offset)
    if number == 2:
        return reader.unknown(name, offset)
    if number == 6:
        ends = reader.open_ends(offset)
        return [f"the connection {name} has an open end: {'; '.join(ends)}",
                "connect that end further, or remove the connection"] if ends else []
    if number == 8 and name in TOO_MANY:
        return [TOO_MANY[name], "the limits are fixed: split the design or the thread, or shorten names"]
    return []


def show_related(bundle, reader, number, what):
    """What else a fault is about."""
    name, offset = what
    if number == 1:
        for impl in reader.declared.roots():
            show(bundle, bundle.place(impl.name.offset), f"{impl.name.text} may be a root", rule="related",
                 level="note")
    if number == 3:
        first = reader.first_of(name, offset)
        if first is not None:
            show(bundle, bundle.place(first), f"{name} is declared here first", rule="related", level="note")
    if number == 7:
        other = reader.other_source(offset)
        if other:
            show(bundle, bundle.place(other.name.offset), f"{other.name.text} goes into the same port", rule="related",
                 level="note")


def show_findings(bundle, answer):
    """All findings on an instance; before them the properties that may have caused them."""
    numbers = {int(FINDING.fullmatch(line)["number"]) for line in answer.lines}
    misspelt = show_likely(bundle) if numbers & BY_PROPERTY else 0
    known, do = Findings(bundle), advice()
    for found in map(FINDING.fullmatch, answer.lines):
        number, details = int(found["number"]), (found["details"] or "").split(" ")
        place = place_in(found)
        what, *more = known.more(number, offset_in(bundle, place), details) or [
            sentence(sentences.FINDINGS.get(number, found["name"]), details)]
        follows = FOLLOWS if misspelt and number in BY_PROPERTY else ""
        see = f"see docs/checks.md, findings on the instance, {number} {found['name']}"
        show(bundle, place, what, *more, follows or ("" if more else do.get(("findings", number))), see,
             rule=found["name"])


def show_likely(bundle):
    """Properties that mean nothing as they are spelled, and were likely meant to; how many there are."""
    count = 0
    for name, offset in associations(bundle.design):
        if likely(name):
            count += 1
            show(bundle, bundle.place(offset), f"{name} is ignored; {likely(name)} is likely meant",
                 rule="misspelt-property", level="warning")
    return count


def show_scenario(bundle, answer):
    """A fault of the scenario."""
    name, about = answer.parts["name"], answer.parts["what"] or ""
    why = Why(Names(bundle), lambda part: value_of(bundle, part))
    told = why.of(name, about)
    if name == "NotJson":
        offset, what = why_no_json(bundle)
        told = [what]
    else:
        offset = place_of(bundle, "rounds" if name == "TooBig" else about)
        offset = offset_of(bundle, why.offset) if why.offset is not None else offset
    what, *more = told or [sentence(sentences.SCENARIO_FAULTS.get(name, "the scenario is rejected"), [about])]
    show(bundle, bundle.place(offset), what, *more, f"see docs/scenario.md, Errors of a scenario, {name}", rule=name)

