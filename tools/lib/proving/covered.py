"""The coverage of a design, and the code that no input reaches."""

from ..linting.finding import Found
from .coverage import Coverage
from .goals import Goals
from .progress import Progress
from .questions import Questions


def covered(opened, inputs, seconds, folder, conditions=False):
    """The goals of a design and their coverage, for the values that the words of --input give its in ports."""
    progress, values = Progress("cover"), opened.values(inputs)
    goals = Goals(opened, conditions)
    questions = Questions(goals.machine, {}, values, folder)
    questions.find_facts(seconds, lambda: progress.tell("ranges"))
    coverage = Coverage(questions, values, goals.keys())
    coverage.at_random("cover")
    coverage.search(seconds, progress.tell)
    coverage.reduce()
    progress.clear()
    return goals, coverage


def dead_code(goals, coverage):
    """The findings on goals that no input reaches, without operations that never trap."""
    dead = set(coverage.dead)
    for key in goals.keys():
        if key in dead and key[1] != "trap":
            yield Found("dead-code", key[0], goals.offset(key) or 0, f"{goals.text(key)}: never")
