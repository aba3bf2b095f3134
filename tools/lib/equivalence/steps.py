"""A step by its listing, and a step by the C that tools/code2c made of it, as terms: read from the two texts apart."""

from ..scenarios.bundles import Refused
from .terms import TRAPPING, ZERO, Paths

MOST_TURNS = 20_000
SIGNS = {"Eq": "==", "Ne": "!=", "Lt": "<", "Le": "<=", "Gt": ">", "Ge": ">="}
BAD_STATE = 3


def unknowns(terms, component):
    """The values before a step: the state and the trap of the frame, its variables and held inputs, and the inputs."""
    values = {"f->state": terms.symbol("state"), "f->halt": terms.symbol("halt")}
    for it in component.variables:
        values[f"f->v_{it.name}"] = terms.symbol(f"v_{it.name}")
    for at, it in enumerate(component.ins):
        values[f"f->h_{it.name}"] = terms.symbol(f"h_{it.name}")
        values[f"in[{at}].present"] = terms.symbol(f"present_{at}", "Bool")
        values[f"in[{at}].number"] = terms.symbol(f"number_{at}")
    return values


def results(component, values):
    """The names of the values after a step that matter."""
    for name in values:
        if name.startswith("f->"):
            yield name
    for at in range(len(component.outs)):
        yield f"out[{at}]"


class ByListing:
    """A step by the instructions of a listing."""

    def __init__(self, terms, component, values):
        self.terms, self.component, self.turns = terms, component, 0
        self.ends = {at: it[4] - 1 for at, it in enumerate(component.code) if it[0] == "LoopStart"}
        self.paths = Paths(terms, True, dict(values))
        for at, it in enumerate(component.ins):
            self.set(f"f->h_{it.name}", terms.choice(values[f"in[{at}].present"], values[f"in[{at}].number"],
                                                     values[f"f->h_{it.name}"]))
        for at in range(len(component.outs)):
            self.set(f"out[{at}]", (False, ZERO))
        self.paths.leave("halted", terms.compare("!=", values["f->halt"], ZERO))
        for number in range(len(component.variables)):
            self.set(number, values[f"f->v_{component.variables[number].name}"])
        for at, state in enumerate(component.states):
            if state.entry is not None:
                self.paths.leave(state.entry, terms.compare("==", values["f->state"], at))
        self.trap(BAD_STATE, True)
        self.run(0, len(component.code))

    def set(self, name, value):
        """Sets a value; an output is two values."""
        if isinstance(value, tuple):
            self.set(f"{name}.present", value[0])
            value, name = value[1], f"{name}.number"
        self.paths.values[name] = value

    def trap(self, code, condition):
        """Ends the step by a trap under a condition: of all values only the trap is new."""
        own = self.paths.values
        before = {name: own[name] for name in own if not isinstance(name, int)}
        before.update({"f->halt": code}, **{f"out[{at}].{part}": value for at in range(len(self.component.outs))
                                            for part, value in (("present", False), ("number", ZERO))})
        kept, self.paths.values = own, before
        self.paths.leave("trapped", condition)
        self.paths.values = kept

    def run(self, place, end):
        """The instructions of a range."""
        while place < end:
            self.paths.reach(place)
            place = self.one(place, self.component.code[place])

    def one(self, place, instruction):
        """One instruction; gives the place of the next."""
        name, *operands = instruction
        self.turns += 1
        if self.turns > MOST_TURNS:
            raise Refused(f"{self.component.path}: its loops have more than {MOST_TURNS:,} turns")
        if name == "LoopStart":
            return self.loop(place, *operands)
        if self.paths.condition is not False:
            getattr(self, f"do_{name.lower()}", self.operate)(name, *operands)
        return place + 1

    def loop(self, place, slot, low, high, leave):
        """A loop, turn by turn."""
        if low > high:
            self.paths.leave(leave)
            return place + 1
        for turn in range(low, high + 1):
            self.set(slot, turn)
            self.run(place + 1, leave - 1)
            self.paths.reach(leave - 1)
        return leave

    def push(self, value):
        """Pushes a number."""
        self.paths.values["stack"] = (*self.stack(), value)

    def stack(self):
        """The stack."""
        return self.paths.values.get("stack", ())

    def pop(self):
        """Pops a number."""
        *rest, value = self.stack()
        self.paths.values["stack"] = tuple(rest)
        return value

    def do_push(self, _, number):
        self.push(number)

    def do_load(self, _, slot):
        self.push(self.paths.values.get(slot, ZERO))

    def do_store(self, _, slot):
        self.set(slot, self.pop())

    def do_port(self, _, port):
        self.push(self.paths.values[f"f->h_{self.component.ins[port].name}"])

    def do_fresh(self, _, port):
        self.push(self.terms.number(self.paths.values[f"in[{port}].present"]))

    def do_emit(self, _, port):
        self.set(f"emitted[{port}]", (True, self.pop()))

    def do_jump(self, _, place):
        self.paths.leave(place)

    def do_jumpzero(self, _, place):
        self.paths.leave(place, self.terms.compare("==", self.pop(), ZERO))

    def do_end(self, _, state):
        self.set("f->state", state)
        for at in range(len(self.component.outs)):
            values = self.paths.values
            self.set(f"out[{at}]", (values.get(f"emitted[{at}].present", False),
                                    values.get(f"emitted[{at}].number", ZERO)))
        for number, it in enumerate(self.component.variables):
            self.set(f"f->v_{it.name}", self.paths.values[number])
        self.paths.leave("ended")

    def operate(self, name, *_):
        """An operator."""
        terms, small = self.terms, name.lower()
        if TRAPPING.get(small) == 1:
            result, trap = terms.operator(small, self.pop())
        elif name == "Not":
            return self.push(terms.number(terms.compare("==", self.pop(), ZERO)))
        else:
            right, left = self.pop(), self.pop()
            if small not in TRAPPING:
                return self.push(terms.number(logical(terms, name, left, right)))
            result, trap = terms.operator(small, left, right)
        self.trap(trap, terms.compare("!=", trap, ZERO))
        return self.push(result)

    def after(self):
        """The values after the step."""
        self.paths.condition = False
        for label in ("halted", "ended", "trapped"):
            self.paths.reach(label)
        return self.paths.values


def logical(terms, name, left, right):
    """A comparison, or a connective of two numbers that count as Booleans."""
    if name in SIGNS:
        return terms.compare(SIGNS[name], left, right)
    one, other = terms.compare("!=", left, ZERO), terms.compare("!=", right, ZERO)
    if name == "And":
        return terms.both(one, other)
    if name == "Or":
        return terms.either(one, other)
    return terms.either(terms.both(one, terms.negated(other)), terms.both(terms.negated(one), other))
