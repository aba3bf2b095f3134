"""Observers: what `watch` has no form for becomes a variable of a copy of the design, which `watch` can see.

An atom of one component becomes a Boolean variable of its implementation. Each transition that ends a step sets it. The
copy runs as the design does, since nothing reads the new variables."""

from ..language.model import Model, root_of
from ..language.tree import behaviour_of
from ..scenarios.bundles import Refused
from .copies import Copy
from .evaluate import expression_value
from .formula_forms import atoms_in, replaced
from .properties import COMPARISONS, paths_in
from .terms import compared_words

# The fields of a component that have the names of each kind of expression.
PLACES = {"in": "ins", "out": "outs", "variable": "variables"}


def observed(opened, properties):
    """A copy of the design, and the properties as `watch` has them on it; the design itself if it needs no copy."""
    observer, found = Observer(opened), {}
    for name, form in properties.items():
        found[name] = replaced(form, [(atom, observer.watched(atom, name)) for atom in atoms_in(form)])
    return observer.copy.text(), found


class Observer:
    """Makes the variables of a copy."""

    def __init__(self, opened):
        self.model = Model(opened.declared, root_of(opened.declared, opened.root))
        self.components = {it.path: it for it in opened.listing.components}
        self.copy, self.made, self.sent = Copy(opened.design), [], {}

    def watched(self, atom, name):
        """The form by which `watch` sees an atom; each atom has one variable."""
        for one, form in self.made:
            if one == atom:
                return form
        paths = sorted(paths_in(atom))
        if len(paths) != 1:
            raise Refused(f"property {name} compares {' and '.join(paths)}: `watch` has no form for it without a delay")
        component = self.components[paths[0]]
        behaviour = behaviour_of(self.model.by_path[paths[0].lower()].impl)
        variable = self.copy.variable(behaviour, "Boolean", first_value(atom, component))
        for transition in behaviour.transitions:
            if any(it.complete and it.name.text.lower() == transition.target.text.lower() for it in behaviour.states):
                text = self.text_of(atom, component, behaviour, transition.target.text)
                self.copy.add_last(transition, f"{variable} := {text}")
        self.made.append((atom, ["var", paths[0], variable, "=", 1]))
        return self.made[-1][1]

    def text_of(self, atom, component, behaviour, target):
        """The text of an atom at the end of a step that ends in a state."""
        if atom[0] == "state":
            return str(any(it.lower() == target.lower() for it in atom[2])).lower()
        if atom[0] == "fresh":
            return f"{atom[2]}'fresh"
        if atom[0] == "present":
            return self.sends(component, behaviour, atom[2])[0]
        boolean = any(kind_of(it, component) == "Boolean" for it in atom[2:])
        left, right = (self.operand(it, component, behaviour, boolean) for it in atom[2:])
        return f"({left}) {atom[1]} ({right})"

    def operand(self, form, component, behaviour, boolean):
        """The text of an expression."""
        if form[0] == "number":
            return ("true" if form[1] else "false") if boolean else str(form[1])
        if form[0] == "out":
            return self.sends(component, behaviour, form[2])[1]
        if form[0] in PLACES:
            return form[2]
        left, right = (self.operand(it, component, behaviour, boolean) for it in form[1:])
        return f"({left}) {form[0]} ({right})"

    def sends(self, component, behaviour, port):
        """Two variables of an out port: whether it was sent in this step, and its value. Each send sets them."""
        key = (component.path, port)
        if key not in self.sent:
            kind = kind_of(["out", component.path, port], component)
            zero = "0" if kind == "Integer" else "false"
            sent = self.copy.variable(behaviour, "Boolean", "false")
            value = self.copy.variable(behaviour, kind, zero)
            for transition in behaviour.transitions:
                if transition.guard == "dispatch":
                    self.copy.add_first(transition, f"{sent} := false; {value} := {zero}")
                self.copy.before_sends(transition, port, lambda text: f"{sent} := true; {value} := {text}; ")
            self.sent[key] = sent, value
        return self.sent[key]


def kind_of(form, component):
    """The type of an expression."""
    if form[0] not in PLACES:
        return "Integer"
    return next(it.kind for it in getattr(component, PLACES[form[0]]) if it.name == form[2])


def first_value(atom, component):
    """The value of an atom before the first step, as text: a component that its first step halts keeps it."""
    if atom[0] == "state":
        return str(component.states[component.initial].name in atom[2]).lower()
    if atom[0] != "compare":
        return "false"
    firsts = {it.name: it.first for it in component.variables}
    sides = [expression_value(it, lambda form: firsts[form[2]] if form[0] == "variable" else 0) for it in atom[2:]]
    return str(compared_words(COMPARISONS[atom[1]], *sides)).lower()
