"""What is likely not meant in conditions and divisions: divisors that may be 0, constant and shadowed conditions."""

from ..language import tree
from ..language.conditions import implies, verdict
from ..language.interpreter import DIVIDING, ZERO_DIVISOR, Machine, first_values
from ..language.model import ports_of
from ..language.tree import behaviour_of
from .finding import Found

# How many conditions of one state or one choice are compared with one another.
MOST_CONDITIONS = 200
FIRST = "test it first, as `if ({0} != 0) .. end if`"


def find(impls):
    """All of it, in implementations, each with the threads that it is of."""
    for threads in impls.values():
        behaviour = behaviour_of(threads[0].impl)
        ins = [port.name.text.lower() for port in ports_of(threads[0], "in")]
        yield from divisions(behaviour, ins, dies_at(threads[0], behaviour))
        for transition in behaviour.transitions:
            yield from conditions(transition)
        yield from shadowed(behaviour)


def dies_at(thread, behaviour):
    """The operator whose divisor is 0 at the first step if no value arrives, or None."""
    ins, outs = ([port.name.text for port in ports_of(thread, way)] for way in ("in", "out"))
    try:
        machine = Machine(behaviour, ins, outs)
    except KeyError:
        return None
    machine.step([None] * len(ins))
    return machine.trap.operator if machine.trap and machine.trap.kind == ZERO_DIVISOR else None


def divisions(behaviour, ins, dies):
    """Divisions by an in port or a variable that may be 0: one that halts the first step, or that nothing tests."""
    zero = {name for name, value in first_values(behaviour).items() if value == 0}
    for division, tested in divided(behaviour):
        divisor = division.right
        name = divisor.name.text if isinstance(divisor, tree.Read) else ""
        if division is dies:
            why = holds(name, ins) if name else ""
            yield Found("zero-divisor", name or division.word, division.offset,
                        f"the divisor of `{division.word}` is 0 at the first step, if no value has arrived: this step "
                        f"halts the thread", why, FIRST.format(name or "d"))
        elif name.lower() not in tested and (name.lower() in ins or name.lower() in zero):
            what = f"the divisor {name} may be 0, and no condition tests it"
            yield Found("zero-divisor", name, division.offset, what, holds(name, ins), FIRST.format(name))


def holds(name, ins):
    """Why a name is 0 at first."""
    return (f"{name} is an in port: it holds 0 until its first value arrives" if name.lower() in ins
            else f"the first value of {name} is 0")


def divided(behaviour):
    """Each division with the names that are tested or set before it, in lower case."""
    near = {}
    for transition in behaviour.transitions:
        names = names_of(transition.guard) if isinstance(transition.guard, tree.Expr) else set()
        near.setdefault(transition.source.text.lower(), set()).update(names)
        names |= {act.target.text.lower() for act in tree.acts_in(transition.acts) if isinstance(act, tree.Assign)}
        near.setdefault(transition.target.text.lower(), set()).update(names)
    for transition in behaviour.transitions:
        if transition.guard == "dispatch":
            yield from in_acts(transition.acts, set())
            continue
        tested = near[transition.source.text.lower()]
        if isinstance(transition.guard, tree.Expr):
            yield from in_expression(transition.guard.root, tested)
        yield from in_acts(transition.acts, tested)


def names_of(expr):
    """The names that an expression reads, in lower case."""
    return {read.name.text.lower() for read in expr.reads}


def in_acts(acts, tested):
    """The divisions of actions, each with the names that are tested or set before it."""
    tested = set(tested)
    for act in acts:
        if isinstance(act, tree.If):
            inside = set(tested)
            for condition, inner in act.branches:
                yield from in_expression(condition.root, inside)
                inside |= names_of(condition)
                yield from in_acts(inner, inside)
            yield from in_acts(act.otherwise, inside)
            tested |= {it.target.text.lower() for it in tree.acts_in([act]) if isinstance(it, tree.Assign)}
        elif isinstance(act, tree.For):
            yield from in_acts(act.body, tested | {act.variable.text.lower()})
        else:
            yield from in_expression(act.value.root, tested)
            tested.add(act.target.text.lower())


def in_expression(node, tested):
    """The divisions of an expression; the left side of `and then` and `or else` is tested before the right one."""
    node, operators = tree.spine(node)
    before = names_in(node)
    if isinstance(node, tree.Unary):
        yield from in_expression(node.inner, tested)
    for operator in operators:
        if operator.word in ("and then", "or else"):
            tested = tested | before
        yield from in_expression(operator.right, tested)
        before |= names_in(operator.right)
        if operator.word in DIVIDING:
            yield operator, tested


def names_in(node):
    """The names in an expression's tree, in lower case."""
    return {it.name.text.lower() for it in tree.nodes_in(node) if isinstance(it, tree.Read)}


def conditions(transition):
    """Conditions that are always true or always false."""
    found = [transition.guard] if isinstance(transition.guard, tree.Expr) else []
    found += [condition for act in tree.acts_in(transition.acts) if isinstance(act, tree.If)
              for condition, _ in act.branches]
    for condition in found:
        always = verdict(condition.root)
        if always is not None:
            word = "true" if always else "false"
            yield Found("constant-condition", transition.source.text, condition.offset,
                        f"this condition is always {word}", "correct the condition, or remove it")


def shadowed(behaviour):
    """Transitions and branches that are never taken, since an earlier condition is true whenever theirs is."""
    for state in behaviour.states:
        guards = [it for it in behaviour.transitions if it.source.text.lower() == state.name.text.lower()
                  and isinstance(it.guard, tree.Expr)]
        for at, _, _ in pairs([it.guard for it in guards]):
            yield Found("shadowed-transition", state.name.text, guards[at].offset,
                        f"this transition of {state.name.text} is never taken: an earlier one is taken whenever its "
                        f"guard is true", "move it before the other one, or change its guard")
    for transition in behaviour.transitions:
        for act in tree.acts_in(transition.acts):
            for _, _, later in pairs([it for it, _ in act.branches] if isinstance(act, tree.If) else []):
                yield Found("shadowed-branch", transition.source.text, later.offset,
                            "this branch is never taken: an earlier condition is true whenever this one is",
                            "move it before the other one, or change its condition")


def pairs(found):
    """Each condition that an earlier one makes needless: its place in the list, the earlier one, and itself."""
    for at, later in enumerate(found[:MOST_CONDITIONS]):
        if verdict(later.root) is not None:
            continue
        first = next((it for it in found[:at] if verdict(it.root) is None and implies(later.root, it.root)), None)
        if first is not None:
            yield at, first, later
