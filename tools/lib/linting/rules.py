"""What is accepted and likely not meant, with its place and what to do about it."""

import json

from ..language.properties import ignored
from . import behaviours as lint_behaviours
from . import connections as lint_connections
from . import outputs as lint_outputs
from . import timing as lint_timing
from . import values as lint_values
from .finding import Edit, Fix, Found

# Each rule, and its finding.
RULES = {
    "dead-link": "a link whose adaptor reads steps that are never sent",
    "thin-adaptor": "an adaptor over fewer values than it suggests, since a step of its source is not sent",
    "unsent-steps": "a component that sends fewer steps than it executes",
    "no-source": "a port without a source",
    "no-input": "a root in port for which the scenario has no value",
    "shared-input": "a root in port that several components read",
    "unread-port": "a port without a reader, or that no step reads",
    "unset-port": "an out port that no step sends on",
    "unconnected-port": "a port of a process or system that no connection names",
    "unread-variable": "a variable that no step reads, and no property of the scenario",
    "unset-variable": "a variable that no step sets",
    "unreached-state": "a state that no path leads to",
    "untaken-transition": "a transition that is never taken",
    "zero-divisor": "a divisor that may be 0 when it is first used",
    "constant-condition": "a condition that is always true or always false",
    "shadowed-transition": "a transition that is never taken, as an earlier guard is true whenever its own is",
    "shadowed-branch": "a branch that is never taken, as an earlier condition is true whenever its own is",
    "partial-output": "an out port that some paths through a step do not set, read as if each step set it",
    "mixed-operators": "`and`, `or` and `xor` mixed without parentheses",
    "misspelt-property": "a property without a meaning that resembles one with a meaning",
    "ignored-property": "a property without a meaning at its place",
}


def lint(model, scenario=None):
    """All findings of a design below its root: misspelt properties first, then the others by their place."""
    impls = lint_behaviours.implementations(model)
    found = [*properties(model), *lint_timing.find(model, scenario), *lint_behaviours.find(impls, watched(scenario)),
             *lint_values.find(impls), *lint_outputs.find(model, impls), *lint_connections.find(model)]
    return sorted(found, key=lambda it: (it.rule != "misspelt-property", it.offset, list(RULES).index(it.rule)))


def properties(model):
    """The properties that mean nothing."""
    roots = [level for level in (model.root, model.declared.type_of(model.root)) if level]
    for prop in ignored(model.declared.package, roots):
        rule = "misspelt-property" if prop.misspelt else "ignored-property"
        fix = Fix(f"replace {prop.name} by {prop.fix}", [Edit(prop.offset, prop.name, prop.fix)]) if prop.fix else None
        yield Found(rule, prop.name, prop.offset, prop.why, "see docs/language.md, Properties", fix=fix)


def watched(scenario):
    """The variables that the properties of a scenario look at, as pairs of a path and a name, in lower case."""
    found, todo = set(), [scenario.get("properties")] if isinstance(scenario, dict) else []
    while todo:
        value = todo.pop()
        if isinstance(value, dict):
            todo.extend(value.values())
        elif isinstance(value, list):
            if len(value) == 5 and value[0] == "var" and all(isinstance(it, str) for it in value[1:3]):
                found.add((value[1].lower(), value[2].lower()))
            todo.extend(it for it in value if isinstance(it, list))
    return found


def scenario_of(text):
    """The value of a scenario's text, or None if it cannot be read."""
    try:
        return json.loads(text.decode("utf-8")) if text.strip() else None
    except (ValueError, RecursionError):
        return None
