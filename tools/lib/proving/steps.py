"""The step code of a component as terms: one step, from the state before it to the state after it."""

from ..language.step_code import Verified
from ..scenarios.bundles import Refused
from .conditions import deciding, leaves_of

COMPARISONS = {"Eq": "eq", "Ne": "ne", "Lt": "lt", "Le": "le", "Gt": "gt", "Ge": "ge"}
LOGICAL = ("And", "Or", "Xor")
# A round with more instructions than this, all iterations of loops counted, is not unrolled.
MOST_UNROLLED = 200_000


class Path:
    """The values at a place of the code, and the condition under which a step reaches it."""

    def __init__(self, when, stack, slots, outs):
        self.when, self.stack, self.slots, self.outs = when, stack, slots, outs

    def copy(self, when):
        """The same values under another condition. The lists are copied: paths diverge."""
        return Path(when, list(self.stack), list(self.slots), list(self.outs))


class Step:
    """One step of a component as terms, from its state, its variables, its held inputs and the fresh ports.

    `state`, `slots` and `outs` hold the results (of an out port whether it is present, and its value), `trap` whether
    the step traps, `ends` the paths with the states that they end in; `branches`, `moves` and `traps` the conditions
    under which it takes each side of a `JumpZero`, executes each `Jump` and `End`, and traps at each place; `deciding`
    those under which a condition of a decision decides."""

    def __init__(self, terms, component, before, held, fresh, budget, decisions=None):
        self.terms, self.component, self.held, self.fresh, self.budget = terms, component, held, fresh, budget
        self.decisions, self.pushed, self.deciding = decisions or {}, {}, []
        self.loops = Verified(component).loops
        self.traps, self.ends, self.waiting, self.branches, self.moves = [], [], {}, [], []
        state, slots = before
        none = [(terms.truth(False), terms.zero(port.kind)) for port in component.outs]
        start = [*slots, *[terms.number(0)] * component.loops]
        for number, it in enumerate(component.states):
            if it.entry is not None:
                self.reach(it.entry, Path(terms.compare("eq", state, terms.number(number)), [], list(start),
                                          list(none)))
        self.walk(0, len(component.code))
        self.trap = terms.any(*(when for _, when in self.traps))
        paths = [path for _, path in self.ends]
        self.state = self.merged([(path.when, terms.number(end)) for end, path in self.ends], state)
        self.slots = [self.merged([(path.when, path.slots[at]) for path in paths], slots[at])
                      for at in range(len(slots))]
        self.outs = [tuple(self.merged([(path.when, path.outs[at][part]) for path in paths], none[at][part])
                           for part in (0, 1)) for at in range(len(component.outs))]

    def merged(self, choices, otherwise):
        """The value of the first condition that is true."""
        found = otherwise
        for when, value in reversed(choices):
            found = self.terms.ite(when, value, found)
        return found

    def reach(self, place, path):
        """Adds a path to a place, unless it is impossible."""
        if self.terms.constant(path.when) is not False:
            self.waiting.setdefault(place, []).append(path)

    def joined(self, place):
        """The paths to a place as one path, or None."""
        paths = self.waiting.pop(place, [])
        if len(paths) < 2:
            return paths[0] if paths else None
        last = paths[-1]

        def pick(get):
            return self.merged([(path.when, get(path)) for path in paths[:-1]], get(last))

        stack = [pick(lambda path, at=at: path.stack[at]) for at in range(len(last.stack))]
        slots = [pick(lambda path, at=at: path.slots[at]) for at in range(len(last.slots))]
        outs = [tuple(pick(lambda path, at=at, part=part: path.outs[at][part]) for part in (0, 1))
                for at in range(len(last.outs))]
        return Path(self.terms.any(*(path.when for path in paths)), stack, slots, outs)

    def walk(self, first, end):
        """Executes the places from one to another, loops turn by turn."""
        place = first
        while place < end:
            path = self.joined(place)
            if path is None:
                place = self.loops[place] + 1 if place in self.loops else place + 1
            elif place in self.loops:
                place = self.turns(place, path)
            else:
                self.spend()
                self.execute(place, path, *self.component.code[place])
                place += 1

    def spend(self):
        """Counts an instruction of the round."""
        self.budget[0] += 1
        if self.budget[0] > MOST_UNROLLED:
            raise Refused(f"{self.component.path}: its loops are too long: a round unrolls to more than "
                          f"{MOST_UNROLLED:,} instructions")

    def turns(self, place, path):
        """Executes a loop, and gives the place after it."""
        _, slot, low, high, leave = self.component.code[place]
        for number in range(low, high + 1):
            self.spend()
            path.slots[slot] = self.terms.number(number)
            self.reach(place + 1, path)
            self.walk(place + 1, leave - 1)
            path = self.joined(leave - 1)
            if path is None:
                return leave
        self.reach(leave, path)
        return leave

    def execute(self, place, path, name, *operands):
        """Executes an instruction that is not part of a loop."""
        terms = self.terms
        if name in ("Jump", "End"):
            self.moves.append((place, path.when))
            if name == "Jump":
                self.reach(operands[0], path)
            else:
                self.ends.append((operands[0], path))
            return
        if name == "JumpZero":
            test = terms.as_bool(path.stack.pop())
            taken, left = terms.all(path.when, test), terms.all(path.when, terms.no(test))
            self.branches += [(place, True, taken), (place, False, left)]
            self.note_decision(place, path.when)
            self.reach(operands[0], path.copy(left))
            path.when = taken
        elif name in ("Store", "Emit"):
            self.assign(path, name, operands[0])
        elif name in ("Push", "Load", "Port", "Fresh"):
            read = {"Push": terms.number, "Load": path.slots.__getitem__, "Port": self.held.__getitem__,
                    "Fresh": self.fresh.__getitem__}
            path.stack.append(read[name](operands[0]))
        elif name in ("Not", "Neg", "Abs"):
            self.unary(place, path, name)
        else:
            self.binary(place, path, name)
        if path.stack:
            self.pushed[place] = path.stack[-1]
        self.reach(place + 1, path)

    def note_decision(self, place, when):
        """Notes when each condition of a decision decides. A condition that no step reaches has no value."""
        tree = self.decisions.get(place)
        if tree is None or not all(it in self.pushed for it in leaves_of(tree)):
            return
        values = {it: self.terms.as_bool(self.pushed[it]) for it in leaves_of(tree)}
        for (leaf, side), term in deciding(self.terms, tree, values).items():
            self.deciding.append((leaf, side, self.terms.all(when, term)))

    def assign(self, path, name, number):
        """Executes a `Store` or an `Emit`."""
        terms, value = self.terms, path.stack.pop()
        if name == "Emit":
            boolean = self.component.outs[number].kind == "Boolean"
            path.outs[number] = (terms.truth(True), terms.as_bool(value) if boolean else terms.as_int(value))
            return
        variables = self.component.variables
        boolean = number < len(variables) and variables[number].kind == "Boolean"
        path.slots[number] = terms.as_bool(value) if boolean else terms.as_int(value)

    def unary(self, place, path, name):
        """Executes an operator with one operand."""
        terms, value = self.terms, path.stack.pop()
        if name == "Not":
            path.stack.append(terms.no(terms.as_bool(value)))
            return
        value = terms.as_int(value)
        result, trap = terms.arithmetic("sub", terms.number(0), value)
        if name == "Abs":
            negative = terms.compare("lt", value, terms.number(0))
            result, trap = terms.ite(negative, result, value), terms.all(negative, trap)
        self.may_trap(place, path, trap)
        path.stack.append(result)

    def binary(self, place, path, name):
        """Executes an operator with two operands."""
        terms = self.terms
        right, left = path.stack.pop(), path.stack.pop()
        if name in COMPARISONS:
            path.stack.append(terms.compare(COMPARISONS[name], left, right))
        elif name in LOGICAL:
            left, right = terms.as_bool(left), terms.as_bool(right)
            path.stack.append({"And": lambda: terms.all(left, right), "Or": lambda: terms.any(left, right),
                               "Xor": lambda: terms.ite(left, terms.no(right), right)}[name]())
        else:
            result, trap = terms.arithmetic(name.lower(), terms.as_int(left), terms.as_int(right))
            self.may_trap(place, path, trap)
            path.stack.append(result)

    def may_trap(self, place, path, trap):
        """Ends the path where an instruction traps."""
        if self.terms.constant(trap) is False:
            return
        self.traps.append((place, self.terms.all(path.when, trap)))
        path.when = self.terms.all(path.when, self.terms.no(trap))
