"""Steps of one thread, computed from the tree of its behaviour: what they send, and the operator at which one traps.

Truth values are the numbers 0 and 1. `docs/language.md` defines the steps. The program is proved, and this interpreter
is not: it finds places in the text, which the program does not report.
"""

import re

from . import tree
from .tree import property_of

LEAST, GREATEST = -(2**63), 2**63 - 1
NUMBER = re.compile(r"[+-]?[0-9]{1,20}")
# The turns that a loop may make, and with the turns of the loops around it.
MOST_TURNS, MOST_NESTED_TURNS = 1_000, 10_000
OVERFLOW, ZERO_DIVISOR = "overflow", "zero-divisor"
DIVIDING = ("/", "mod", "rem")
COMPARED = {
    "=": lambda a, b: a == b, "!=": lambda a, b: a != b, "<": lambda a, b: a < b, "<=": lambda a, b: a <= b,
    ">": lambda a, b: a > b, ">=": lambda a, b: a >= b,
}
COMPUTED = {
    "+": lambda a, b: a + b, "-": lambda a, b: a - b, "*": lambda a, b: a * b,
    "and": lambda a, b: a and b, "or": lambda a, b: a or b, "xor": lambda a, b: int(a != b),
    "/": lambda a, b: quotient(a, b), "rem": lambda a, b: a - b * quotient(a, b), "mod": lambda a, b: a % b,
}


class Trap(Exception):
    """A trap: which one, the operator that met it, and the values of its operands."""

    def __init__(self, kind, operator, values):
        super().__init__(kind)
        self.kind, self.operator, self.values = kind, operator, values


def quotient(a, b):
    """The quotient, cut towards zero."""
    return abs(a) // abs(b) * (1 if (a < 0) == (b < 0) else -1)


def exact(value, operator, values):
    """A result that fits 64 bits."""
    if not LEAST <= value <= GREATEST:
        raise Trap(OVERFLOW, operator, values)
    return value


def first_values(behaviour):
    """The first values of a behaviour's variables, by their names in lower case."""
    found = {}
    for variable in behaviour.variables:
        value = property_of(variable.props, "Data_Model::Initial_Value")
        word = value.parts[0].text if value and value.kind == "list" and value.parts else "0"
        number = word.replace("_", "")
        found[variable.name.text.lower()] = int(number) if NUMBER.fullmatch(number) else int(word.lower() == "true")
    return found


def is_bounded(acts, turns=1):
    """Whether the loops of some actions have no more turns than a behaviour may have."""
    for act in acts:
        if isinstance(act, tree.If) and not all(is_bounded(it, turns) for it in [inner for _, inner in act.branches] +
                                                [act.otherwise]):
            return False
        if isinstance(act, tree.For):
            count = max(act.high - act.low + 1, 0)
            if count > MOST_TURNS or turns * count > MOST_NESTED_TURNS or not is_bounded(act.body, turns * count):
                return False
    return True


class Machine:
    """A thread with its state, its variables and the values that its in ports hold. Raises KeyError if a loop has more
    turns than a behaviour may have."""

    def __init__(self, behaviour, ins, outs):
        if not all(is_bounded(it.acts) for it in behaviour.transitions):
            raise KeyError("a loop has too many turns")
        self.behaviour = behaviour
        self.ins, self.outs = [name.lower() for name in ins], [name.lower() for name in outs]
        self.state = next((it.name.text.lower() for it in behaviour.states if it.initial), "")
        self.complete = {it.name.text.lower() for it in behaviour.states if it.complete}
        self.spelled = {it.name.text.lower(): it.name.text for it in behaviour.states}
        self.variables = first_values(behaviour)
        # What each in port holds, and those to which a value has come.
        self.held, self.arrived = dict.fromkeys(self.ins, 0), set()
        self.trap = None
        self.leaving = {}
        for transition in behaviour.transitions:
            self.leaving.setdefault(transition.source.text.lower(), []).append(transition)

    def step(self, inputs):
        """One step by the values of the in ports, None for an absent one: what the out ports send. After a trap all
        are absent."""
        fresh = {name: value is not None for name, value in zip(self.ins, inputs)}
        self.held.update((name, value) for name, value in zip(self.ins, inputs) if value is not None)
        self.arrived.update(name for name, is_fresh in fresh.items() if is_fresh)
        if self.trap is None:
            frame = Frame(self, fresh)
            try:
                frame.run()
            except Trap as trap:
                self.trap = trap
            else:
                self.state, self.variables = frame.state, frame.variables
                return [frame.sent.get(name) for name in self.outs]
        return [None] * len(self.outs)


class Frame:
    """One step under way."""

    def __init__(self, machine, fresh):
        self.machine, self.fresh = machine, fresh
        self.state, self.variables, self.sent, self.loops = machine.state, dict(machine.variables), {}, {}

    def run(self):
        """The dispatch, and then transitions up to a complete state."""
        self.take(next((it for it in self.leaving() if it.guard == "dispatch"), None))
        for _ in self.machine.behaviour.states:
            if self.state in self.machine.complete:
                return
            self.take(next((it for it in self.leaving() if self.opens(it.guard)), None))

    def leaving(self):
        """The transitions that leave the state."""
        return self.machine.leaving.get(self.state, [])

    def opens(self, guard):
        """Whether a guard is true."""
        if isinstance(guard, tree.Expr):
            return bool(self.value(guard.root))
        return guard in ("otherwise", "none")

    def take(self, transition):
        """Takes a transition."""
        if transition is None:
            return
        self.act(transition.acts)
        self.state = transition.target.text.lower()

    def act(self, acts):
        """Actions, in order."""
        for act in acts:
            if isinstance(act, tree.If):
                chosen = next((inner for condition, inner in act.branches if self.value(condition.root)), act.otherwise)
                self.act(chosen)
            elif isinstance(act, tree.For):
                self.repeat(act)
            else:
                self.put(act.target.text.lower(), self.value(act.value.root))

    def repeat(self, act):
        """A loop; its variable hides others of its name."""
        name = act.variable.text.lower()
        kept = self.loops.get(name)
        for number in range(act.low, act.high + 1):
            self.loops[name] = number
            self.act(act.body)
        self.loops.pop(name, None)
        if kept is not None:
            self.loops[name] = kept

    def put(self, name, value):
        """Sets a variable, or what an out port sends."""
        (self.variables if name in self.variables else self.sent)[name] = value

    def value(self, node):
        """The value of an expression."""
        node, operators = tree.spine(node)
        if isinstance(node, tree.Literal):
            found = int(node.value)
        else:
            found = self.read(node) if isinstance(node, tree.Read) else self.unary(node)
        for operator in operators:
            found = self.binary(operator, found)
        return found

    def binary(self, node, left):
        """The value of an operator whose left side has a value."""
        if (node.word == "and then" and not left) or (node.word == "or else" and left):
            return left
        right = self.value(node.right)
        if node.word in ("and then", "or else"):
            return right
        if node.word in COMPARED:
            return int(COMPARED[node.word](left, right))
        if node.word in DIVIDING and right == 0:
            raise Trap(ZERO_DIVISOR, node, (left, right))
        return exact(COMPUTED[node.word](left, right), node, (left, right))

    def unary(self, node):
        """The value of a sign, `abs` or `not`."""
        value = self.value(node.inner)
        if node.word == "not":
            return int(not value)
        return exact({"-": -value, "+": value, "abs": abs(value)}[node.word], node, (value,))

    def read(self, node):
        """What a name reads: a loop's variable, a variable, or what an in port holds."""
        name = node.name.text.lower()
        if node.fresh:
            return int(self.fresh.get(name, False))
        for values in (self.loops, self.variables, self.machine.held):
            if name in values:
                return values[name]
        return 0
