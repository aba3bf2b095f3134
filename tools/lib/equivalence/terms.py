"""Terms over numbers of 64 bits, as definitions of SMT-LIB. Equal terms have one name, so that two computations that do
the same give the same names."""

ZERO, ONE = 0, 1
# The operators of pals_step.h, of one or two numbers: each is a function for its result, and one for its trap.
TRAPPING = {"add": 2, "sub": 2, "mul": 2, "quot": 2, "rem": 2, "mod": 2, "neg": 1, "abs": 1}
ORDER = {"==": "=", "!=": "distinct", "<": "bvslt", "<=": "bvsle", ">": "bvsgt", ">=": "bvsge"}
COMPARED = {"==": lambda a, b: a == b, "!=": lambda a, b: a != b, "<": lambda a, b: a < b, "<=": lambda a, b: a <= b,
            ">": lambda a, b: a > b, ">=": lambda a, b: a >= b}


def spelled(term):
    """A term in SMT-LIB: a Boolean, a number or a name."""
    if isinstance(term, bool):
        return str(term).lower()
    return f"#x{term % 2**64:016x}" if isinstance(term, int) else term


class Terms:
    """The definitions of terms, in their order."""

    def __init__(self):
        self.names, self.lines, self.sorts, self.denied = {}, [], {}, {}
        for name, count in TRAPPING.items():
            for kind in ("result", "trap"):
                self.lines.append(f"(declare-fun {kind}_{name} ({' '.join(['Number'] * count)}) Number)")

    def symbol(self, name, sort="Number"):
        """An unknown."""
        self.lines.append(f"(declare-const {name} {sort})")
        self.sorts[name] = sort
        return name

    def define(self, text, sort):
        """The name of a term."""
        if text not in self.names:
            self.names[text] = f"t{len(self.names)}"
            self.lines.append(f"(define-fun {self.names[text]} () {sort} {text})")
            self.sorts[self.names[text]] = sort
        return self.names[text]

    def compare(self, sign, left, right):
        """A comparison."""
        if isinstance(left, int) and isinstance(right, int):
            return COMPARED[sign](left, right)
        return self.define(f"({ORDER[sign]} {spelled(left)} {spelled(right)})", "Bool")

    def both(self, one, other):
        """A conjunction."""
        if one is False or other is False:
            return False
        if one is True or other is True:
            return other if one is True else one
        return one if one == other else self.define(f"(and {one} {other})", "Bool")

    def either(self, one, other):
        """A disjunction."""
        return self.negated(self.both(self.negated(one), self.negated(other)))

    def negated(self, one):
        """A negation."""
        if isinstance(one, bool):
            return not one
        if one not in self.denied:
            made = self.define(f"(not {one})", "Bool")
            self.denied[one], self.denied[made] = made, one
        return self.denied[one]

    def choice(self, condition, one, other):
        """A number, a Boolean or a tuple of them, by a condition."""
        if isinstance(one, tuple):
            return tuple(self.choice(condition, *pair) for pair in zip(one, other))
        if condition is True or (one == other and isinstance(one, bool) == isinstance(other, bool)):
            return one
        if condition is False:
            return other
        sort = "Bool" if isinstance(one, bool) or self.sorts.get(one) == "Bool" else "Number"
        return self.define(f"(ite {condition} {spelled(one)} {spelled(other)})", sort)

    def number(self, condition):
        """1 or 0 by a condition."""
        return self.choice(condition, ONE, ZERO)

    def operator(self, name, *numbers):
        """The result and the trap of an operator."""
        words = " ".join(map(spelled, numbers))
        return self.define(f"(result_{name} {words})", "Number"), self.define(f"(trap_{name} {words})", "Number")


def initial(name):
    """The value of a name that nothing was given yet."""
    if name == "stack":
        return ()
    return False if str(name).endswith(".present") else ZERO


class Paths:
    """One computation along all its ways, which only go forward: at a label the ways that lead there are merged."""

    def __init__(self, terms, condition, values):
        self.terms, self.condition, self.values, self.waiting = terms, condition, values, {}

    def leave(self, label, condition=True):
        """Goes to a label under a condition; the rest continues."""
        taken = self.terms.both(self.condition, condition)
        if taken is not False:
            self.waiting.setdefault(label, []).append((taken, dict(self.values)))
        self.condition = self.terms.both(self.condition, self.terms.negated(condition))

    def reach(self, label):
        """Comes to a label, from before it and by each jump."""
        for condition, values in self.waiting.pop(label, []):
            if self.condition is False:
                self.condition, self.values = condition, values
                continue
            for name in [*self.values, *(name for name in values if name not in self.values)]:
                none = initial(name)
                self.values[name] = self.terms.choice(condition, values.get(name, none), self.values.get(name, none))
            self.condition = self.terms.either(self.condition, condition)
