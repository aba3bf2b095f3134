"""Remarks on accepted designs, and on properties and processors that do not hold or fit."""

import re

from ..commands.times import in_ms
from ..language.model import model_of
from ..language.properties import associations, why_ignored
from ..linting.rules import lint, scenario_of
from ..running.answers import PROCESSOR, WATCHED
from ..scenarios.places import place_of
from .show import show, show_found


def show_check(bundle, answer):
    """Accepted but likely unintended constructs: ignored properties from the report, and the findings of `lint`."""
    paths = [line.split(" ")[1] for line in answer.lines if line.startswith("component ")]
    model = model_of(bundle.design, paths)
    found = lint(model, scenario_of(bundle.scenario)) if model else []
    told = {it.about.lower() for it in found if it.rule.endswith("-property")}
    for it in found:
        show_found(bundle, it)
    ignored = {line[len("ignored ") :].lower() for line in answer.lines if line.startswith("ignored ")} - told
    for name, offset in associations(bundle.design):
        if name.lower() in ignored:
            show(bundle, bundle.place(offset), why_ignored(name), "see docs/language.md, Properties",
                 rule="ignored-property", level="warning")


def show_watch(bundle, answer):
    """The first property that is false, with the verdicts of its round."""
    last = WATCHED.fullmatch(answer.lines[-1])
    if last["round"] is None:
        return
    at = answer.lines.index(f"round {last['round']}")
    end = next((it for it in range(at + 1, len(answer.lines)) if re.match(r"round |watch ", answer.lines[it])), at)
    place = bundle.place(place_of(bundle, f"properties/{last['name']}"))
    others = [line.split(" ")[0] for line in answer.lines if line.endswith(" false")]
    false = sorted(set(others) - {last["name"]})
    show(bundle, place, f"{last['name']} is false first in round {last['round']}", "; ".join(answer.lines[at:end]),
         f"false in some round too: {', '.join(false)}" if false else "",
         "sync shows the round's row; see docs/monitors.md", rule="property")


def show_budget(bundle, answer):
    """Each processor that is over, and what would fit."""
    scenario = scenario_of(bundle.scenario)
    processors = scenario.get("processors", {}) if isinstance(scenario, dict) else {}
    for line in answer.lines:
        found = PROCESSOR.fullmatch(line)
        if not found or found["fits"] == "fits":
            continue
        total, most, name = int(found["sum"]), int(found["most"]), found["name"]
        given = processors.get(name, {}) if isinstance(processors, dict) else {}
        nanos = given.get("nanos") if isinstance(given, dict) else None
        fits = most * nanos // total if isinstance(nanos, int) and total else 0
        what = f"the processor {name} is over: a step of each of its components takes {in_ms(total)} together"
        show(bundle, bundle.place(place_of(bundle, f"processors/{name}")), what,
             f"the longest execution, {in_ms(most)}, is what they may take",
             f"with {fits} nanoseconds an instruction it would fit, and {nanos} are given" if fits else "",
             f"or move components to another processor, or give PALS_Profile::Execution an upper end of {in_ms(total)}",
             "see docs/budgets.md", rule="processor-over")
