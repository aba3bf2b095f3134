"""Likely mistakes in behaviours: names never read or set, states never reached, transitions never taken, and mixed
operators without brackets."""

from ..language.model import ports_of
from ..language.tree import Assign, For, Send, acts_in, behaviour_of, exprs_in
from .finding import Edit, Fix, Found

FAMILIES = {"and": "and", "and then": "and", "or": "or", "or else": "or", "xor": "xor"}
# How many operands a pattern shows.
MOST_SHOWN = 8


def implementations(model):
    """The threads that have a behaviour, by the names of their implementations in lower case."""
    impls = {}
    for thread in model.by_path.values():
        if thread.impl and behaviour_of(thread.impl):
            impls.setdefault(thread.impl.name.text.lower(), []).append(thread)
    return impls


def find(impls, watched):
    """All of it; `watched` has the variables that a scenario's properties look at, with their paths, in lower case."""
    used = {}
    for threads in impls.values():
        behaviour = behaviour_of(threads[0].impl)
        uses = Uses(behaviour)
        yield from variables(threads, behaviour, uses, watched)
        yield from states(behaviour)
        yield from operators(behaviour)
        for port in ports_of(threads[0], "in") + ports_of(threads[0], "out"):
            used.setdefault(port.name.offset, []).append((port, threads[0].type, uses))
    for all_uses in used.values():
        yield from ports(all_uses)


class Uses:
    """The names that a behaviour reads and sets, in lower case, without the names of loops."""

    def __init__(self, behaviour):
        self.read, self.set = set(), set()
        for transition in behaviour.transitions:
            loops = {act.variable.text.lower() for act in acts_in(transition.acts) if isinstance(act, For)}
            for expr in exprs_in(transition):
                self.read |= {read.name.text.lower() for read in expr.reads} - loops
            for act in acts_in(transition.acts):
                if isinstance(act, (Assign, Send)):
                    self.set.add(act.target.text.lower())


def variables(threads, behaviour, uses, watched):
    """Variables that are never read, or never set."""
    for variable in behaviour.variables:
        name = variable.name.text
        seen = any((thread.path.lower(), name.lower()) in watched for thread in threads)
        if name.lower() not in uses.read and not seen:
            yield Found("unread-variable", name, variable.name.offset, f"the variable {name} is never read",
                        "it appears only in the rows: use it, or remove it")
        if name.lower() not in uses.set:
            keeps = "keeps its first value" if variable.props else "stays 0 or false"
            yield Found("unset-variable", name, variable.name.offset, f"the variable {name} is never set: it {keeps}",
                        "set it, or write its value in its place")


def ports(all_uses):
    """A port of a type that none of its implementations in use reads or sets."""
    port, kind = all_uses[0][0], all_uses[0][1].name.text
    name = port.name.text
    if port.direction == "in" and not any(name.lower() in uses.read for *_, uses in all_uses):
        yield Found("unread-port", name, port.name.offset, f"no step of {kind} reads its in port {name}",
                    "use it, or remove the port")
    if port.direction == "out" and not any(name.lower() in uses.set for *_, uses in all_uses):
        yield Found("unset-port", name, port.name.offset,
                    f"no step of {kind} sends on its out port {name}: it is always absent",
                    f"send on it, as {name}!(..), or remove the port")


def states(behaviour):
    """States that no way leads to, and transitions that are never taken."""
    kinds = {state.name.text.lower(): state for state in behaviour.states}
    taken = {name: takeable(behaviour, state) for name, state in kinds.items()}
    todo = [name for name, state in kinds.items() if state.initial]
    reached = set(todo)
    while todo:
        for transition in taken[todo.pop()]:
            target = transition.target.text.lower()
            if target in kinds and target not in reached:
                reached.add(target)
                todo.append(target)
    for name, state in kinds.items():
        if name not in reached:
            yield Found("unreached-state", state.name.text, state.name.offset,
                        f"no path leads to the state {state.name.text}",
                        "lead a transition to it, or remove it")
            continue
        for transition in behaviour.transitions:
            if transition.source.text.lower() == name and transition not in taken[name]:
                why = ("a step begins in it, and takes the one transition on dispatch" if state.complete
                       else "the one before it is always taken")
                yield Found("untaken-transition", state.name.text, transition.offset,
                            f"this transition of {state.name.text} is never taken: {why}",
                            "remove it, or give the transition before it a guard")


def takeable(behaviour, state):
    """The transitions of a state that may be taken."""
    own = [it for it in behaviour.transitions if it.source.text.lower() == state.name.text.lower()]
    if state.complete:
        return [it for it in own if it.guard == "dispatch"]
    last = next((at for at, it in enumerate(own) if it.guard in ("otherwise", "none")), len(own))
    return [it for it in own[: last + 1] if it.guard != "dispatch"]


def operators(behaviour):
    """Logical operators of several kinds without brackets."""
    for transition in behaviour.transitions:
        for expr in exprs_in(transition):
            for chain in expr.chains:
                if len({FAMILIES[word] for word in chain.words}) > 1:
                    plain, read = patterns(chain.words)
                    yield Found("mixed-operators", chain.words[0], chain.offset,
                                f"`{plain}` is read from the left, as `{read}`: all logical operators have one "
                                f"precedence",
                                "add parentheses", fix=parentheses(chain))


def parentheses(chain):
    """The parentheses that state how a chain is read: a pair before each operator of another kind. None if they would
    be too many to read."""
    kinds = [FAMILIES[word] for word in chain.words]
    closed = [end for end, kind, following in zip(chain.ends[1:], kinds, kinds[1:]) if kind != following]
    if len(closed) > MOST_SHOWN:
        return None
    opening = Edit(chain.offset, "", "(" * len(closed))
    return Fix("add the parentheses that keep the meaning", [opening, *(Edit(end, "", ")") for end in closed)])


def patterns(words):
    """A chain as it is written and as it is read, with letters for its operands."""
    shown = words[: MOST_SHOWN - 1]
    plain = read = "a"
    for at, word in enumerate(shown):
        letter = chr(ord("b") + at)
        plain = f"{plain} {word} {letter}"
        read = f"({read}) {word} {letter}" if at else f"{read} {word} {letter}"
    return plain, read
