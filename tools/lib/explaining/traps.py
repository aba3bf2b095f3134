"""Components that a trap has halted: the round, the step, and the place of the operator in the design's text."""

import re
from collections import namedtuple

from ..language.composition import MOST_STEPS, Composition
from ..language.interpreter import DIVIDING, OVERFLOW, ZERO_DIVISOR
from ..language.model import model_of
from ..language.tree import Binary, Read, Unary, behaviour_of, exprs_in, nodes_in
from ..linting.finding import Found
from ..linting.rules import scenario_of
from ..running.rows import COMPONENT, ROUND, Report
from ..scenarios.bundles import Refused

HALTED = re.compile(r"halted\((overflow|zero-divisor)\)")
RULE = "trap"
# A component that rows show as halted: its path as the rows have it, the first such round, and the trap.
Shown = namedtuple("Shown", "path round kind")
# The result of a search: remarks, halts, and how many of how many rounds were computed.
Traps = namedtuple("Traps", "found halts searched rounds")
NO_TRAPS = Traps([], [], 0, 0)
# A halt in a picture or a table: the step is None if it is not known.
Marked = namedtuple("Marked", "path round step kind")
AFTER = "from then on its outputs are absent, and the other components continue"


def halted_in(report):
    """The components that the rows of a report show as halted, each at its first such round."""
    found = {}
    for row in report.rows:
        for component in row.components:
            match = HALTED.fullmatch(component.state)
            if match:
                found.setdefault(component.path, Shown(component.path, row.number, match[1]))
    return list(found.values())


def plain_path(path):
    """The path of a component, for a replica that of the component that is replicated."""
    return path.partition("#")[0].lower()


def traps_of(bundle, text, root=None):
    """The traps of an answer with rows or verdicts, or of one on a trace, which has its rows in the scenario."""
    scenario = scenario_of(bundle.scenario)
    report = report_of(text, scenario)
    if report is None:
        return NO_TRAPS
    shown = halted_in(report)
    if not shown and not report.watched:
        return NO_TRAPS
    paths = {component.path.partition("#")[0] for row in report.rows for component in row.components}
    model = model_of(bundle.design, paths, root)
    rounds = len(report.rows) if report.watched else max(it.round + 1 for it in shown)
    search = Search(model, scenario, rounds, [] if report.watched else report.rows)
    return traps_found(model, search, search.halts() if report.watched else [search.at(it) for it in shown])


def in_scenario(bundle, root, rounds):
    """The traps of the first rounds of a scenario, without an answer of the program."""
    model = model_of(bundle.design, (), root)
    search = Search(model, scenario_of(bundle.scenario), rounds)
    return traps_found(model, search, search.halts())


def traps_found(model, search, halts):
    """Halts, each with its remark."""
    marked = [unplaced([it])[0] if isinstance(it, Shown) else Marked(it.path, it.round, it.step, it.trap.kind)
              for it in halts]
    return Traps([remark(model, it) for it in halts], marked, search.searched, search.rounds)


def unplaced(shown):
    """Halts of which only the rows are known."""
    return [Marked(it.path, it.round, None, it.kind) for it in shown]


def report_of(text, scenario):
    """The report that an answer is, or that the trace of a scenario has; None if there is none."""
    if text.startswith(("sound ", "wrong ")):
        trace = scenario.get("trace") if isinstance(scenario, dict) else None
        lines = trace if isinstance(trace, list) else []
        lines = [it for it in lines if isinstance(it, str)]
        text = "\n".join(it for it in lines if ROUND.fullmatch(it) or COMPONENT.fullmatch(it))
    try:
        return Report(text)
    except Refused:
        return None


class Search:
    """Computes some rounds, to find where components halt, and compares them with rows."""

    def __init__(self, model, scenario, rounds, rows=()):
        self.searched, self.rounds, self.found, self.agrees = 0, rounds, {}, True
        try:
            composition = Composition(model, scenario) if model else None
        except KeyError:
            composition = None
        if composition is None:
            return
        self.searched = min(rounds, MOST_STEPS // max(composition.steps, 1) + 1)
        for number in range(self.searched):
            composition.advance()
            components = rows[number].components if number < len(rows) else ()
            self.agrees = self.agrees and all(agree(composition, it) for it in components)
        self.found = {it.path.lower(): it for it in composition.halts}

    def halts(self):
        """All halts that were found."""
        return list(self.found.values())

    def at(self, shown):
        """The halt of a component that rows show as halted, or what the rows have of it."""
        halt = self.found.get(plain_path(shown.path))
        fits = halt and self.agrees and (halt.round, halt.trap.kind) == (shown.round, shown.kind)
        return halt._replace(path=shown.path) if fits else shown


def agree(composition, component):
    """Whether a component of a row is as it was computed."""
    node = composition.nodes.get(plain_path(component.path))
    if node is None:
        return False
    machine = node.machine
    state = f"halted({machine.trap.kind})" if machine.trap else machine.spelled.get(machine.state)
    values = {name.lower(): int(value == "true") if value in ("true", "false") else int(value)
              for name, value in component.values.items()}
    return (state, machine.variables) == (component.state, values)


def remark(model, halt):
    """The finding on a halt."""
    if isinstance(halt, Shown):
        return unsure(model, halt)
    operator, values = halt.trap.operator, halt.trap.values
    place = f"{halt.path} halts in round {halt.round}, step {halt.step}"
    if halt.trap.kind == ZERO_DIVISOR:
        name = operator.right.name.text if isinstance(operator.right, Read) else "d"
        return Found(RULE, halt.path, operator.offset, f"{place}: the divisor of `{operator.word}` is 0 here",
                     why_zero(model, halt), AFTER, f"test the divisor first, as `if ({name} != 0) .. end if`; see "
                     "docs/language.md, Traps")
    shown = f"{values[0]} {operator.word} {values[1]}" if len(values) == 2 else f"{operator.word} {values[0]}"
    return Found(RULE, halt.path, operator.offset,
                 f"{place}: the result of `{operator.word}` does not fit 64 bits here", f"{shown} was computed", AFTER,
                 "limit the operands first, as `if (x < 1000) .. end if`; see docs/language.md, Traps")


def why_zero(model, halt):
    """Why a divisor is 0, if it is an in port to which no value has come."""
    divisor = halt.trap.operator.right
    thread = model.by_path.get(plain_path(halt.path))
    if not isinstance(divisor, Read) or thread is None or thread.type is None:
        return ""
    name = divisor.name.text
    ports = {port.name.text.lower() for port in thread.type.ports if port.direction == "in"}
    if name.lower() in ports and name.lower() not in halt.arrived:
        return f"{name} is an in port: it holds 0 until its first value arrives"
    return f"{name} is 0 in this step"


def unsure(model, shown):
    """The finding on a component that rows show as halted, in a run that was not computed here."""
    thread = model.by_path.get(plain_path(shown.path)) if model else None
    behaviour = behaviour_of(thread.impl) if thread and thread.impl else None
    what = "a divisor is 0" if shown.kind == ZERO_DIVISOR else "a result does not fit 64 bits"
    places = trapping(behaviour, shown.kind) if behaviour else []
    sure = "" if len(places) == 1 else "the operator is one of this behaviour" if places else ""
    offset = places[0].offset if places else thread.impl.name.offset if thread and thread.impl else 0
    return Found(RULE, shown.path, offset, f"{shown.path} halts in round {shown.round}: {what}", sure, AFTER,
                 "see docs/language.md, Traps")


def trapping(behaviour, kind):
    """The operators of a behaviour that may meet a trap of a kind."""
    operators = [it for transition in behaviour.transitions for expr in exprs_in(transition)
                 for it in nodes_in(expr.root) if isinstance(it, (Binary, Unary))]
    if kind == ZERO_DIVISOR:
        return [it for it in operators if it.word in DIVIDING]
    return [it for it in operators if it.word in ("+", "-", "*", "/", "abs") and kind == OVERFLOW]


def short(marked):
    """A halt in a few words."""
    step = "" if marked.step is None else f", step {marked.step}"
    return f"{marked.path} halted in round {marked.round}{step}: {marked.kind}"


def rounds_words(traps):
    """A remark if not all rounds were searched."""
    if traps.searched >= traps.rounds:
        return ""
    return f"traps were searched in the first {traps.searched:,} of {traps.rounds:,} rounds"
