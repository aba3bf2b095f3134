"""The synchronous composition of a design as a transition system of terms."""

from ..language.listing import GREATEST, LEAST
from .steps import Step
from .terms import Terms


class Frame:
    """The terms of a component after a round: its state, whether it is halted, its variables by name; of the round's
    last step the values that in ports hold, which were fresh, and the out ports with their presence."""

    def __init__(self, state, halted, variables, held, fresh, outs):
        self.state, self.halted, self.variables = state, halted, variables
        self.held, self.fresh, self.outs = held, fresh, outs


class Machine:
    """A transition system: `first` and `next` of each variable of its state, and the `inputs` of the root by name
    (kind, presence, value). `frames` has each component after the round by its path, `sends` the values of its out
    ports in each step. `bounds` has the smallest and the largest value of each Integer variable by its type, `owner`
    the path of the component that computes a variable. `goals` has the conditions of each branch, move, trap and
    adaptor group, and of each condition that decides, if `decisions` has the trees of decisions by path and place."""

    def __init__(self, design, decisions=None):
        self.design, self.terms, self.decisions = design, Terms(), decisions or {}
        self.first, self.next, self.bounds, self.owner, self.inputs = {}, {}, {}, {}, {}
        self.frames, self.sends, self.goals = {}, {}, {}
        for it in design.inputs:
            number, port = it.target
            kind = design.components[number].ins[port].kind
            self.inputs[it.name] = (kind, self.terms.variable("Boolean", f"{it.name}?"),
                                    self.terms.variable(kind, it.name))
        self.messages = {}
        for number, component in enumerate(design.components):
            for port in range(len(component.outs)):
                if any(link.source == (number, port) for link in design.links):
                    self.messages[number, port] = self.message(component, port)
        for number in range(len(design.components)):
            self.add_component(number)

    def kept(self, kind, name, first, owner=None, bounds=(LEAST, GREATEST)):
        """A variable of the state."""
        found = self.terms.variable(kind, name)
        self.first[found] = self.terms.number(first) if kind == "Integer" else self.terms.truth(first)
        self.owner[found] = owner
        if kind == "Integer":
            self.bounds[found] = bounds
        return found

    def message(self, component, port):
        """The variables of the message of an out port: for each step that is sent, presence and value."""
        name, kind = f"{component.path}.{component.outs[port].name}", component.outs[port].kind
        return [(self.kept("Boolean", f"{name}[{at}]?", 0, component.path),
                 self.kept(kind, f"{name}[{at}]", 0, component.path)) for at in range(component.sent)]

    def add_component(self, number):
        """Adds the steps of a component in a round."""
        terms, component = self.terms, self.design.components[number]
        path, ins = component.path, component.ins
        state = self.kept("Integer", f"{path} state", component.initial, path, (0, len(component.states) - 1))
        halted = self.kept("Boolean", f"{path} halted", 0, path)
        slots = [self.kept(it.kind, f"{path}.{it.name}", it.first, path) for it in component.variables]
        held = [self.kept(it.kind, f"{path}.{it.name} held", 0, path) for it in ins]
        before = (state, halted, *slots, *held)
        read = [self.values_read(number, port) for port in range(len(ins))]
        outs, fresh, budget = [], [terms.truth(False) for _ in ins], [0]
        for at in range(component.rate):
            fresh = [places[at][0] for places in read]
            held = [terms.ite(places[at][0], places[at][1], old) for places, old in zip(read, held)]
            step = Step(terms, component, (state, slots), held, fresh, budget, self.decisions.get(path))
            stops = terms.any(halted, step.trap)
            self.note(component, step, halted, stops)
            outs.append([(terms.all(terms.no(stops), present), value) for present, value in step.outs])
            state = terms.ite(stops, state, step.state)
            slots = [terms.ite(stops, old, new) for old, new in zip(slots, step.slots)]
            halted = stops
        self.next.update(zip(before, (state, halted, *slots, *held)))
        for port in range(len(component.outs)):
            for at, (present, value) in enumerate(self.messages.get((number, port), ())):
                self.next[present], self.next[value] = outs[at][port]
        self.frames[path] = Frame(state, halted, {it.name: slots[at] for at, it in enumerate(component.variables)},
                                  dict(zip((it.name for it in ins), held)),
                                  dict(zip((it.name for it in ins), fresh)),
                                  dict(zip((it.name for it in component.outs), outs[-1])))
        self.sends[path] = outs

    def note(self, component, step, halted, stops):
        """Notes what a step may do, for coverage: a move or a branch counts if the step completes."""
        terms, path = self.terms, component.path
        found = [((path, "branch", place, side), terms.no(stops), when) for place, side, when in step.branches]
        found += [((path, "move", place, ""), terms.no(stops), when) for place, when in step.moves]
        found += [((path, "trap", place, ""), terms.no(halted), when) for place, when in step.traps]
        found += [((path, "condition", place, side), terms.no(stops), when) for place, side, when in step.deciding]
        for key, here, when in found:
            self.goals.setdefault(key, []).append(terms.all(here, when))

    def values_read(self, number, port):
        """The presence and the value that each step of a round reads at an in port."""
        component = self.design.components[number]
        none = (self.terms.truth(False), self.terms.zero(component.ins[port].kind))
        for link in self.design.links:
            if link.target == (number, port):
                source = self.design.components[link.source[0]]
                places = self.messages[link.source] + [none] * (source.rate - source.sent)
                return self.adapted(places, component.rate, link.adaptor, none, (component, port))
        for it in self.design.inputs:
            if it.target == (number, port):
                return self.adapted([self.inputs[it.name][1:]], component.rate, it.adaptor, none, (component, port))
        return [none] * component.rate

    def adapted(self, places, rate, adaptor, none, target):
        """The places of a message as an adaptor gives them to the steps of its target."""
        if adaptor is None:
            return places
        count = len(places)
        size = max(count, rate) // min(count, rate)
        at = {"first": 0, "last": size - 1}.get(adaptor, int(adaptor[3:]) - 1 if adaptor.startswith("at ") else None)
        if count < rate:
            return [value if adaptor == "repeat" or place == at else none for value in places for place in range(size)]
        groups = [places[first * size : (first + 1) * size] for first in range(rate)]
        if at is None:
            self.note_groups(groups, target)
        return [group[at] if at is not None else self.gathered(group, adaptor, none) for group in groups]

    def note_groups(self, groups, target):
        """Notes whether a group has no value, and whether each place of it has one."""
        terms, (component, port) = self.terms, target
        for group in groups:
            here = [present for present, _ in group if terms.constant(present) is not False]
            key = (component.path, "group", component.ins[port].name)
            self.goals.setdefault((*key, "empty"), []).append(terms.no(terms.any(*here)))
            self.goals.setdefault((*key, "full"), []).append(terms.all(*here) if here else terms.truth(False))

    def gathered(self, group, adaptor, none):
        """The presence and the value that latest, max, min or average gives of a group."""
        terms = self.terms
        group = [it for it in group if terms.constant(it[0]) is not False]
        if not group:
            return none
        if adaptor == "average":
            parts = [part for pair in group for part in pair]
            return terms.any(*(present for present, _ in group)), terms.make("I", "average", *parts)
        found, value = group[0]
        for present, new in group[1:]:
            better = terms.truth(True) if adaptor == "latest" else terms.compare(
                "gt" if adaptor == "max" else "lt", new, value)
            value = terms.ite(terms.all(present, terms.any(terms.no(found), better)), new, value)
            found = terms.any(found, present)
        return found, value

    def allowed(self, values):
        """The condition on the inputs of a round: `values` by port, as lib.ranges has them; other ports are free."""
        terms, found = self.terms, []
        for name, (kind, present, value) in self.inputs.items():
            if name in values:
                found.append(terms.any(*(self.one_of(part, present, value) for part in values[name].parts)))
            zero = terms.compare("eq", value, terms.zero(kind))
            found.append(terms.any(present, zero))
        return terms.all(*found)

    def one_of(self, part, present, value):
        """The condition that an input is one of some values."""
        terms, boolean = self.terms, self.terms.sort(value) == "B"
        if hasattr(part, "first"):
            if boolean:
                return terms.truth(False)
            return terms.all(present, terms.compare("ge", value, terms.number(part.first)),
                             terms.compare("le", value, terms.number(part.last)))
        if part.value is None:
            return terms.no(present)
        return terms.all(present, value if part.value else terms.no(value)) if boolean else terms.truth(False)

    def cone(self, roots):
        """The variables of the state that some terms depend on, also through earlier rounds."""
        found, todo = set(), list(roots)
        while todo:
            new = [it for it in self.terms.below(todo) if it in self.next and it not in found]
            found.update(new)
            todo = [self.next[it] for it in new]
        return sorted(found)
