"""Explains an output of the program, at its position in the bundle."""

import sys

from ..running.kinds import Answer
from ..scenarios.bundles import Refused, divider_at
from . import accepted as explain_accepted
from . import refused as explain_refused
from . import runs as explain_runs
from .show import show, show_found, visible
from .traps import rounds_words, traps_of

SHOW = {
    "text": explain_refused.show_text,
    "fault": explain_refused.show_fault,
    "findings": explain_refused.show_findings,
    "scenario": explain_refused.show_scenario,
    "event": explain_runs.show_event,
    "stop": explain_runs.show_stop,
    "clock": explain_runs.show_ended,
    "wrong": explain_runs.show_wrong,
    "code": explain_runs.show_code,
    "check": explain_accepted.show_check,
    "watch": explain_accepted.show_watch,
    "budget": explain_accepted.show_budget,
}
# Answers that are passed on.
PASSED = {"check", "rows", "watch", "budget", "sound", "ring", "design", "listing"}
# Answers in which components may be halted.
WITH_TRAPS = {"rows", "stop", "watch", "sound"}
# Commands whose answer may be empty: a world in which no round is finished, and nothing is sent.
MAY_BE_EMPTY = {"world", "world --loose"}


def explain(bundle, text, command, passes=True, strict=False):
    """Writes the remarks on an answer, after the answer itself if it is passed on, and gives its status. With `strict`
    the status is 1 instead of 0 if a component halts."""
    found = Answer(text)
    if found.kind == "empty" and command not in MAY_BE_EMPTY:
        raise Refused("an empty answer: nothing was checked; was the program given the bundle, and did it run?")
    if found.kind is None and divider_at(text.encode("utf-8", "replace")):
        raise Refused("this is a bundle, not an answer: nothing was checked; pass it to ./pals first")
    if found.kind is None:
        first = found.lines[0] if found.lines else ""
        raise Refused(f"not an answer of the program: nothing was checked; it begins with: {visible(first[:60])}")
    if passes and found.kind in PASSED:
        sys.stdout.write(text if text.endswith("\n") else text + "\n")
    if found.kind in SHOW:
        SHOW[found.kind](bundle, found)
    elif found.kind in ("usage", "unread"):
        show(bundle, (1, 1), found.lines[0], rule=found.kind)
    halts = show_traps(bundle, text) if found.kind in WITH_TRAPS else 0
    return 1 if strict and halts and not found.status else found.status


def show_traps(bundle, text):
    """Writes a remark on each component that halts; how many do."""
    traps = traps_of(bundle, text)
    for it in traps.found:
        show_found(bundle, it)
    if rounds_words(traps):
        print(rounds_words(traps))
    return len(traps.found)
