"""Confirms by the proved program that a property is false at the inputs that an engine found."""

from ..scenarios.bundles import Refused
from .copies import check_rows, component_rows
from .evaluate import expression_value
from .formula_forms import OPERATORS, atoms_in
from .observers import observed
from .properties import COMPARISONS, paths_in
from .questions import Fault
from .terms import compared_words

COPY = "pals watch on a copy of the design"
ROWS = "the rows of pals sync"


class Confirmed:
    """A false property: its first false round, the program that confirms it (None: no program), the scenario, and the
    copy of the design that the scenario's properties are of, if it is one."""

    def __init__(self, number, by, scenario, copy=None):
        self.number, self.by, self.copy = number, by, copy
        rounds = number + 1
        self.scenario = {**scenario, "rounds": rounds,
                         "inputs": {port: values[:rounds] for port, values in scenario["inputs"].items()}}


def confirm(opened, name, form, result):
    """Confirms a false property, or raises a fault of the tool."""
    given = {"rounds": result.rounds + 1, "inputs": result.inputs}
    if not atoms_in(form):
        return by_watch(opened, name, {**given, "properties": {name: form}}, None, "pals watch")
    if all(len(paths_in(atom)) == 1 for atom in atoms_in(form)):
        copy, forms = observed(opened, {name: form})
        check_copy(opened, copy, given)
        return by_watch(opened, name, {**given, "properties": forms}, copy, COPY)
    if reads_ports(form):
        return Confirmed(result.rounds, None, given)
    number = first_false(form, component_rows(sync_text(opened, given)), result.rounds)
    return Confirmed(number, ROWS, given)


def by_watch(opened, name, scenario, copy, by):
    """What `pals watch` finds false."""
    found = opened.watch(scenario, copy)
    if found is None:
        raise Fault(f"{by} does not find {name} false at the inputs that were found")
    return Confirmed(found[1], by, scenario, copy)


def sync_text(opened, given, design=None):
    """The output of `sync` for a scenario without properties."""
    given = {name: value for name, value in given.items() if name != "properties"}
    status, text = opened.ask("sync", given, design)
    if status:
        raise Refused(f"pals sync {opened.root} ended with {status}: {text[:120].strip()}")
    return text


def check_copy(opened, copy, given):
    """Shows that a copy has the rows of the design, further variables aside."""
    check_rows(sync_text(opened, given), sync_text(opened, given, copy))


def reads_ports(form):
    """Whether a formula reads ports, which rows do not have."""
    return form[0] in ("in", "out", "fresh", "present") or any(reads_ports(it) for it in form if isinstance(it, list))


def number_in(text):
    """The number of a value in a row."""
    return {"true": 1, "false": 0}.get(text) if text in ("true", "false") else int(text)


def first_false(form, rows, most):
    """The first round in which a formula is false on rows; a fault of the tool if there is none."""
    values = truth(form, rows)
    if all(values[: most + 1]):
        raise Fault("the rows of pals sync do not make the property false at the inputs that were found")
    return values.index(False)


def truth(form, rows):
    """The truth of a formula in each round, by its meaning over the rows so far."""
    op = form[0]
    if op not in OPERATORS:
        return [atom_truth(form, row) for row in rows]
    parts = [truth(it, rows) for it in form[1:]]
    if op == "not":
        return [not it for it in parts[0]]
    if op in ("and", "or"):
        return [(all if op == "and" else any)(it) for it in zip(*parts)]
    if op == "previous":
        return [False] + parts[0][:-1]
    if op == "once":
        return [any(parts[0][: at + 1]) for at in range(len(rows))]
    if op == "historically":
        return [all(parts[0][: at + 1]) for at in range(len(rows))]
    return [any(parts[1][first] and all(parts[0][first + 1 : at + 1]) for first in range(at + 1))
            for at in range(len(rows))]


def atom_truth(form, row):
    """The truth of a part that is not temporal, in a row."""
    op, path = form[0], form[1]
    if op == "halted":
        return row[path][0].startswith("halted(")
    if op == "var":
        return compared_words(COMPARISONS[form[3]], number_in(row[path][1][form[2]]), form[4])
    if op == "state":
        return row[path][0] in form[2]
    sides = (expression_value(it, lambda part: number_in(row[part[1]][1][part[2]])) for it in form[2:])
    return compared_words(COMPARISONS[form[1]], *sides)
