"""Remarks on events, runs, clocks and traces."""

from ..commands.times import in_ms
from ..language.model import model_of
from ..nodes.journal import parsed
from ..scenarios.places import place_of
from . import sentences
from .sentences import sentence
from .show import show


def show_event(bundle, answer):
    """The first event that is refused."""
    found = answer.parts
    details = found["details"].split()
    form = sentences.EVENT_FAULTS.get(found["name"], "the event is rejected")
    form = form[len(details) == 3] if isinstance(form, tuple) else form
    place = bundle.place(place_of(bundle, f"events/{found['index']}"))
    see = f"see docs/nodes.md, {found['name']}"
    show(bundle, place, f"event {found['index']}: {sentence(form, details)}", see, rule=found["name"])


def show_stop(bundle, answer):
    """The stop of a run, the last line of a journal: at the event that gave it, or at the delays of its link."""
    words = answer.lines[-1].split(" ")
    cause = words[1] if words[1] == "early" else words[5]
    what = sentence(sentences.STOPS[cause], words[2:4])
    if words[4] != "_":
        place = bundle.place(place_of(bundle, f"delays/{words[2]}"))
        show(bundle, place, f"at the reading {in_ms(words[4])}: {what}", "see docs/nodes.md, Stops of a run",
             rule="stop")
        return
    index = len([line for line in answer.lines if parsed(line)]) - (1 if cause == "early" else 0)
    place = bundle.place(place_of(bundle, f"events/{index}"))
    show(bundle, place, f"event {index}: {what}", "see docs/nodes.md, Stops", rule="stop")


def show_ended(bundle, answer):
    """A clock of a run that has ended."""
    found = answer.parts
    place = bundle.place(place_of(bundle, f"clocks/{found['path']}"))
    what = sentence(sentences.CLOCK_ENDED, [found["path"], found["target"]])
    show(bundle, place, what, "see docs/nodes.md, Clocks by lists", rule="clock-ended")


def show_wrong(bundle, answer):
    """The first wrong line of a trace."""
    found = answer.parts
    place = bundle.place(place_of(bundle, f"trace/{found['index']}"))
    what = sentences.TRACE_RULES.get(found["rule"], "the trace is wrong here")
    show(bundle, place, f"line {found['index']} of the trace: {what}", f"see docs/traces.md, {found['rule']}",
         rule=found["rule"])


def show_code(bundle, answer):
    """Step code that is too long."""
    path = answer.parts["path"]
    model = model_of(bundle.design, [path])
    offset = model.places.get(path.lower(), 0) if model else 0
    what = f"the step code of {path} would have {int(answer.parts['number']):,} instructions, and the maximum is 4,096"
    show(bundle, bundle.place(offset), what,
         "split its transitions over several threads, or its work over several steps",
         "see docs/step_code.md", rule="code")
