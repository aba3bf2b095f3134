"""Watched formulas as terms: their value after a round, with a bit of the state for each temporal operator."""

from ..scenarios.bundles import Refused

COMPARISONS = {"=": "eq", "!=": "ne", "<": "lt", "<=": "le", ">": "gt", ">=": "ge"}
EXACT = {"+": "add", "-": "sub", "*": "mul"}


class Formulas:
    """The formulas of a machine. Parts that `watch` has no form for are read too: they come from texts."""

    def __init__(self, machine):
        self.machine, self.terms = machine, machine.terms

    def frame(self, path):
        """The terms of a component."""
        frame = self.machine.frames.get(path)
        if frame is None:
            raise Refused(f"there is no component {path}")
        return frame

    def term(self, form, name):
        """The term of a formula; `name` is that of the property, for the bits that it needs."""
        op = form[0]
        if op in ("not", "and", "or", "previous", "once", "historically", "since"):
            return self.operator(op, [self.term(it, f"{name}.{at}") for at, it in enumerate(form[1:])], name)
        return self.leaf(form)

    def operator(self, op, parts, name):
        """The value of an operator by the values of its parts."""
        terms = self.terms
        if op == "not":
            return terms.no(parts[0])
        if op in ("and", "or"):
            return (terms.all if op == "and" else terms.any)(*parts)
        bit = self.machine.kept("Boolean", f"property {name}", op == "historically")
        if op == "previous":
            self.machine.next[bit] = parts[0]
            return bit
        now = {"once": lambda: terms.any(bit, parts[0]), "historically": lambda: terms.all(bit, parts[0]),
               "since": lambda: terms.any(parts[-1], terms.all(parts[0], bit))}[op]()
        self.machine.next[bit] = now
        return now

    def leaf(self, form):
        """A formula without parts that are formulas."""
        terms, op = self.terms, form[0]
        if op == "halted":
            return self.frame(form[1]).halted
        if op == "var":
            return terms.compare(COMPARISONS[form[3]], terms.as_int(self.value(["variable", *form[1:3]])),
                                 terms.number(form[4]))
        if op == "compare":
            return terms.compare(COMPARISONS[form[1]], self.value(form[2]), self.value(form[3]))
        if op == "state":
            return self.in_states(form[1], form[2])
        if op == "fresh":
            return self.frame(form[1]).fresh[form[2]]
        if op == "present":
            return self.frame(form[1]).outs[form[2]][0]
        raise Refused(f"no formula begins with {op}")

    def in_states(self, path, names):
        """Whether a component is in one of some states."""
        states = next(it.states for it in self.machine.design.components if it.path == path)
        numbers = [at for at, state in enumerate(states) if state.name in names]
        state = self.frame(path).state
        return self.terms.any(*(self.terms.compare("eq", state, self.terms.number(at)) for at in numbers))

    def value(self, form):
        """The number of an expression; truth values count as 0 and 1, and no result overflows."""
        op, terms = form[0], self.terms
        if op == "number":
            return terms.number(form[1])
        if op in EXACT:
            return terms.exact(EXACT[op], self.value(form[1]), self.value(form[2]))
        frame = self.frame(form[1])
        found = {"variable": lambda: frame.variables.get(form[2]), "in": lambda: frame.held.get(form[2]),
                 "out": lambda: frame.outs[form[2]][1]}[op]()
        if found is None:
            raise Refused(f"{form[1]} has no variable {form[2]}")
        return terms.as_int(found)


def paths_in(form):
    """The paths of the components that a formula names."""
    if form[0] in ("var", "halted", "state", "fresh", "present", "variable", "in", "out"):
        return {form[1]}
    return set().union(*(paths_in(it) for it in form[1:] if isinstance(it, list)))
