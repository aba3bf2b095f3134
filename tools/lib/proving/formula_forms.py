"""Forms of formulas: the forms of `watch` if they suffice, and the atoms of a form."""

from ..language.listing import GREATEST, LEAST
from .properties import EXACT

MIRRORED = {"=": "=", "!=": "!=", "<": ">", "<=": ">=", ">": "<", ">=": "<="}
# The forms that `watch` has.
WATCHED = ("var", "halted", "not", "and", "or", "previous", "once", "historically", "since")
OPERATORS = WATCHED[2:]


def within(word, count, inner):
    """A formula on the last rounds: once[3] A is A now or in one of the 3 rounds before."""
    if word == "previous":
        for _ in range(count):
            inner = ["previous", inner]
        return inner
    if word == "historically":
        return ["not", within("once", count, ["not", inner])]
    found = inner
    for _ in range(count):
        found = ["or", inner, ["previous", found]]
    return found


def linear(form):
    """An expression as the factors of its variables and ports, and a constant; None if it is not linear."""
    op = form[0]
    if op == "number":
        return {}, form[1]
    if op not in EXACT:
        return {tuple(form): 1}, 0
    left, right = linear(form[1]), linear(form[2])
    if left is None or right is None:
        return None
    if op == "*":
        if left[0] and right[0]:
            return None
        (factors, constant), factor = (left, right[1]) if left[0] else (right, left[1])
        return {name: it * factor for name, it in factors.items() if it * factor}, constant * factor
    sign = 1 if op == "+" else -1
    factors = dict(left[0])
    for name, factor in right[0].items():
        factors[name] = factors.get(name, 0) + sign * factor
    return {name: it for name, it in factors.items() if it}, left[1] + sign * right[1]


def compared(op, left, right):
    """A comparison, as `watch` has it if it is one of a variable with a number."""
    found = linear(["-", left, right])
    if found is not None and len(found[0]) == 1:
        (name, factor), = found[0].items()
        number = -found[1] * factor
        if name[0] == "variable" and abs(factor) == 1 and LEAST <= number <= GREATEST:
            return ["var", name[1], name[2], op if factor == 1 else MIRRORED[op], number]
    return running(["compare", op, left, right])


def running(form):
    """A formula that reads ports, which is false if a component with such a port is halted."""
    for path in sorted(paths_of_ports(form)):
        form = ["and", ["not", ["halted", path]], form]
    return form


def paths_of_ports(form):
    """The components whose ports a formula reads."""
    if form[0] in ("in", "out", "fresh", "present"):
        return {form[1]}
    return set().union(set(), *(paths_of_ports(it) for it in form[1:] if isinstance(it, list)))


def atoms_in(form):
    """The parts of a formula for which `watch` has no form, each once, in their order."""
    if form[0] not in WATCHED:
        return [form]
    found = []
    for part in form[1:] if form[0] in OPERATORS else ():
        found += [it for it in atoms_in(part) if it not in found]
    return found


def replaced(form, others):
    """A formula with some atoms replaced: pairs of an atom and another form."""
    for atom, other in others:
        if form == atom:
            return other
    return [form[0], *(replaced(it, others) for it in form[1:])] if form[0] in OPERATORS else form
