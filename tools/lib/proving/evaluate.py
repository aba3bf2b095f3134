"""The values of terms: for tests of the translation, and for what a scenario covers."""

from ..language.listing import GREATEST, LEAST
from .properties import EXACT
from .terms import compared, computed, quotient


def value_of(node, values):
    """The value of a term by the values of its parts."""
    op, args = node[1], node[2:]
    if op == "const":
        return args[0]
    parts = [values[it] for it in args]
    if op == "not":
        return not parts[0]
    if op == "and":
        return all(parts)
    if op == "ite":
        return parts[1] if parts[0] else parts[2]
    if op in ("eq", "lt", "le"):
        return compared(op, *parts)
    if op == "average":
        present = [value for there, value in zip(parts[::2], parts[1::2]) if there]
        return quotient(sum(present), len(present)) if present else 0
    return number_of(op, *parts)


def number_of(op, x, y):
    """The value of an arithmetic term; a quotient by 0 is 0."""
    if op.startswith("exact_"):
        return computed(op[len("exact_"):], x, y)
    if op.startswith("overflow_"):
        return not LEAST <= computed(op[len("overflow_"):], x, y) <= GREATEST
    if op in ("quot", "mod", "rem") and y == 0:
        return 0
    return (computed(op, x, y) + 2**63) % 2**64 - 2**63


def expression_value(form, read):
    """The value of an expression of a formula; `read` gives that of a variable or a port."""
    if form[0] == "number":
        return form[1]
    if form[0] in EXACT:
        return computed(EXACT[form[0]], *(expression_value(it, read) for it in form[1:]))
    return read(form)


class Run:
    """The rounds of a machine at given inputs. It computes the terms that `roots` and the next state need."""

    def __init__(self, machine, inputs, roots=()):
        self.machine, self.terms, self.inputs, self.round = machine, machine.terms, inputs, 0
        self.state = {it: self.terms.constant(first) for it, first in machine.first.items()}
        self.order = self.terms.below([*machine.next.values(), *roots])

    def step(self):
        """Runs a round, and gives the values of all terms in it; `state` is then that after the round."""
        values = dict(self.state)
        for name, (kind, present, value) in self.machine.inputs.items():
            row = self.inputs.get(name, [])
            given = row[self.round] if self.round < len(row) else None
            values[present] = given is not None
            values[value] = given if given is not None else 0 if kind == "Integer" else False
        for term in self.order:
            if term not in values:
                values[term] = value_of(self.terms.nodes[term], values)
        self.state = {it: values[after] for it, after in self.machine.next.items()}
        self.round += 1
        return values
