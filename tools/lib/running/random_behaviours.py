"""Behaviours that are made at random, and their text: what tests run on nodes and by the program.

An expression is a tuple of a word and its parts: (number, N), (boolean, B), (name, X), (fresh, PORT), (OPERATOR, E)
or (OPERATOR, E, E). An action is (set, X, E), (send, PORT, E), (if, [(E, ACTIONS)], ACTIONS) or (for, X, LOW, HIGH,
ACTIONS).
"""

from collections import namedtuple

# Ports are (name, kind), variables (name, kind, first value), states (name, complete); a guard is dispatch,
# otherwise, or an expression.
Behaviour = namedtuple("Behaviour", "ins outs variables states transitions")
Transition = namedtuple("Transition", "source guard target actions")

INTEGER, BOOLEAN = "Integer", "Boolean"
SUMS, COMPARISONS = ("+", "-", "*", "/", "mod", "rem"), ("=", "!=", "<", "<=", ">", ">=")
LOGICAL = ("and", "or", "xor", "and then", "or else")
EDGES = (0, 1, 2, 3, 7, 10**9, 2**31, 2**32, 3037000499, 2**62, 2**63 - 1)


class BehaviourMaker:
    """Makes one behaviour by a source of random numbers."""

    def __init__(self, random, ins, outs):
        self.random, self.ins, self.outs = random, ins, outs
        self.variables = [(f"v{at}", self.kind(), self.first()) for at in range(random.randrange(4))]
        self.variables = [(name, kind, first if kind == INTEGER else first % 2) for name, kind, first in self.variables]
        self.loops = []

    def kind(self):
        """A kind, mostly that of numbers."""
        return INTEGER if self.random.random() < 0.7 else BOOLEAN

    def first(self):
        """A first value."""
        return self.random.choice((0, 1, -1, self.random.randint(-9, 9), self.random.choice(EDGES)))

    def names(self, kind):
        """The names of a kind that an expression may read."""
        found = [name for name, of in self.ins if of == kind] + [name for name, of, _ in self.variables if of == kind]
        return found + (self.loops if kind == INTEGER else [])

    def expression(self, kind, depth=0):
        """An expression of a kind."""
        names, leaf = self.names(kind), depth > 2 or self.random.random() < 0.3
        if leaf and names and self.random.random() < 0.8:
            return ("name", self.random.choice(names))
        if kind == INTEGER:
            return self.number(depth) if leaf else self.sum(depth)
        return ("boolean", self.random.random() < 0.5) if leaf else self.condition(depth)

    def number(self, depth):
        """A literal, with its sign."""
        number = self.random.randint(0, 9) if self.random.random() < 0.97 else self.random.choice(EDGES)
        return ("number", number) if self.random.random() < 0.8 else ("-", ("number", number))

    def sum(self, depth):
        """An operator on numbers."""
        if self.random.random() < 0.2:
            return (self.random.choice(("-", "abs")), self.expression(INTEGER, depth + 1))
        chosen = self.random.choice(SUMS[:2]) if self.random.random() < 0.85 else self.random.choice(SUMS)
        return (chosen, self.expression(INTEGER, depth + 1), self.expression(INTEGER, depth + 1))

    def condition(self, depth):
        """An operator whose result is a Boolean."""
        chance = self.random.random()
        if chance < 0.15 and self.ins:
            return ("fresh", self.random.choice(self.ins)[0])
        if chance < 0.25:
            return ("not", self.expression(BOOLEAN, depth + 1))
        if chance < 0.65:
            kind = INTEGER if self.random.random() < 0.85 else BOOLEAN
            words = COMPARISONS if kind == INTEGER else COMPARISONS[:2]
            return (self.random.choice(words), self.expression(kind, depth + 1), self.expression(kind, depth + 1))
        return (self.random.choice(LOGICAL), self.expression(BOOLEAN, depth + 1), self.expression(BOOLEAN, depth + 1))

    def actions(self, depth=0):
        """Some actions; empty if nothing can be set."""
        return [it for it in (self.action(depth) for _ in range(self.random.randint(1, 3))) if it]

    def action(self, depth):
        """An action, or None if nothing can be set."""
        chance = self.random.random()
        if chance < 0.15 and depth < 2:
            branches = [(self.expression(BOOLEAN), self.actions(depth + 1)) for _ in range(self.random.randint(1, 2))]
            branches = [(condition, inner) for condition, inner in branches if inner]
            return ("if", branches, self.actions(depth + 1)) if branches else None
        if chance < 0.25 and depth < 2:
            return self.loop(depth)
        if chance < 0.6 and self.variables:
            name, kind, _ = self.random.choice(self.variables)
            return ("set", name, self.expression(kind))
        if self.outs:
            name, kind = self.random.choice(self.outs)
            return ("send", name, self.expression(kind))
        return None

    def loop(self, depth):
        """A loop of a few turns, or of none."""
        name, low = f"n{len(self.loops)}", self.random.randint(-3, 3)
        self.loops.append(name)
        inner = self.actions(depth + 1)
        self.loops.pop()
        return ("for", name, low, low + self.random.randint(-1, 4), inner)

    def made(self):
        """The behaviour: complete states, and passing ones that lead to later ones or to complete ones."""
        complete = [f"s{at}" for at in range(self.random.randint(1, 3))]
        passing = [f"m{at}" for at in range(self.random.choice((0, 0, 1, 2)))]
        transitions = [Transition(name, "dispatch", self.random.choice(complete + passing), self.actions())
                       for name in complete]
        for at, name in enumerate(passing):
            for _ in range(self.random.randrange(3)):
                target = self.random.choice(complete + passing[at + 1 :])
                transitions.append(Transition(name, self.expression(BOOLEAN), target, self.actions()))
            target = self.random.choice(complete + passing[at + 1 :])
            transitions.append(Transition(name, "otherwise", target, self.actions()))
        states = [(name, True) for name in complete] + [(name, False) for name in passing]
        return Behaviour(self.ins, self.outs, self.variables, states, transitions)


def expression_text(it):
    """An expression, with brackets round all parts."""
    word, *parts = it
    if word == "number":
        return str(parts[0])
    if word == "boolean":
        return "true" if parts[0] else "false"
    if word == "name":
        return parts[0]
    if word == "fresh":
        return f"{parts[0]}'fresh"
    texts = [expression_text(part) for part in parts]
    return f"({texts[0]} {word} {texts[1]})" if len(parts) == 2 else f"({word} {texts[0]})"


def actions_text(acts):
    """Actions with `;` between them."""
    return "; ".join(map(action_text, acts))


def action_text(it):
    """An action."""
    if it[0] == "set":
        return f"{it[1]} := {expression_text(it[2])}"
    if it[0] == "send":
        return f"{it[1]}!({expression_text(it[2])})"
    if it[0] == "for":
        return f"for ({it[1]}: Base_Types::Integer in {it[2]} .. {it[3]}) {{{actions_text(it[4])}}}"
    words = [f"{'elsif' if at else 'if'} ({expression_text(condition)}) {actions_text(acts)}"
             for at, (condition, acts) in enumerate(it[1])]
    return " ".join(words + ([f"else {actions_text(it[2])}"] if it[2] else []) + ["end if"])


def guard_text(guard):
    """A guard."""
    return {"dispatch": "on dispatch", "otherwise": "otherwise"}.get(guard) or expression_text(guard)


def first_text(kind, first):
    """The first value of a variable."""
    return str(first) if kind == INTEGER else str(bool(first)).lower()


def behaviour_text(behaviour):
    """The annex of a behaviour."""
    variables = [f' {name}: Base_Types::{kind} {{Data_Model::Initial_Value => ("{first_text(kind, first)}");}};'
                 for name, kind, first in behaviour.variables]
    states = [f" {name}: {'initial ' * (at == 0)}{'complete ' * complete}state;"
              for at, (name, complete) in enumerate(behaviour.states)]
    transitions = [f" {it.source} -[{guard_text(it.guard)}]-> {it.target}"
                   f"{' {' + actions_text(it.actions) + '}' if it.actions else ''};" for it in behaviour.transitions]
    return "\n".join(["annex behavior_specification {**", *(["variables", *variables] if variables else []), "states",
                      *states, "transitions", *transitions, "**};"])
