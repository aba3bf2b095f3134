"""Outputs that some paths through a step set and others do not, if no reader tests whether a value is fresh."""

from ..language import tree
from ..language.model import ports_of
from ..language.tree import behaviour_of, exprs_in
from .finding import Found


def find(model, impls):
    """All of it."""
    readers = readers_of(model)
    for threads in impls.values():
        behaviour = behaviour_of(threads[0].impl)
        for port in ports_of(threads[0], "out"):
            name = port.name.text
            reading = [it for thread in threads for it in readers.get((thread.path.lower(), name.lower()), [])]
            missing = path_without(behaviour, name.lower())
            if missing and reading and not any(tests_fresh(it) for it in reading) and is_set(behaviour, name.lower()):
                other, into = reading[0]
                yield Found("partial-output", name, missing.offset,
                            f"a path through the step that begins with this transition does not set {name}",
                            f"{other.path} reads it by its in port {into} without {into}'fresh, and then has the value "
                            f"of an earlier step", f"set {name} on each path, or test {into}'fresh")


def readers_of(model):
    """The threads with the in ports that read each out port, by the path and the name of the out port."""
    found = {}
    for thread, port in model.in_ports():
        source = model.came_from(f"{thread.path}.{port.name.text}")
        if source and source.thread:
            found.setdefault((source.thread.path.lower(), source.port.lower()), []).append((thread, port.name.text))
    return found


def tests_fresh(reader):
    """Whether a thread tests whether an in port is fresh, or does not read it at all."""
    thread, name = reader
    behaviour = behaviour_of(thread.impl) if thread.impl else None
    reads = [read for transition in behaviour.transitions for expr in exprs_in(transition) for read in expr.reads
             if read.name.text.lower() == name.lower()] if behaviour else []
    return not reads or any(read.fresh for read in reads)


def is_set(behaviour, name):
    """Whether some action sets a port."""
    return any(targets(act) == name for it in behaviour.transitions for act in tree.acts_in(it.acts))


def targets(act):
    """The name that an action sets, in lower case."""
    return act.target.text.lower() if isinstance(act, (tree.Assign, tree.Send)) else None


def path_without(behaviour, name):
    """The transition on dispatch at which a path through a step begins that does not set a port; or None."""
    complete, leaving, seen = {it.name.text.lower() for it in behaviour.states if it.complete}, {}, set()
    for transition in behaviour.transitions:
        leaving.setdefault(transition.source.text.lower(), []).append(transition)
    for dispatch in behaviour.transitions:
        todo = [dispatch] if dispatch.guard == "dispatch" else []
        while todo:
            transition = todo.pop()
            target = transition.target.text.lower()
            if always_sets(transition.acts, name):
                continue
            if target in complete:
                return dispatch
            if target not in seen:
                seen.add(target)
                todo.extend(leaving.get(target, []))
    return None


def always_sets(acts, name):
    """Whether each path through some actions sets a port."""
    for act in acts:
        if targets(act) == name:
            return True
        if isinstance(act, tree.If) and act.otherwise:
            if all(always_sets(it, name) for it in [inner for _, inner in act.branches] + [act.otherwise]):
                return True
        if isinstance(act, tree.For) and act.low <= act.high and always_sets(act.body, name):
            return True
    return False
