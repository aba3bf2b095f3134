"""Many scenarios of one design: made at random or all of them, and tried on all processors."""

import itertools
import json
import multiprocessing
import os
import random
import re
import signal
from collections import namedtuple

from ..proving.copies import check_rows
from ..scenarios.bundles import DIVIDER, Refused
from .answers import WATCHED
from .program import ask_program
from .rows import rounds_in

# What a campaign is of: the program, the root, the design, the scenario without inputs, the ports with their values,
# the rounds, the seed, and how a scenario is judged: by `watch`, or by the rows of another design, of a command, or of
# a file, by their rounds. Then the paths of its components, whether a scenario is false if one of them halts, and the
# design of which its design is a copy, or None.
Plan = namedtuple("Plan", "program root design scenario ports rounds seed against expected rows paths strict original",
                  defaults=((), False, None))
# A scenario with a false property: the property, and its first false round.
Falsified = namedtuple("Falsified", "name round")
# What is false of a scenario, or None, and the first round in which a component halts, or None.
Judged = namedtuple("Judged", "false halted")
# The scenarios in which a component halts: how many, and the number and the round of the first one.
Halts = namedtuple("Halts", "count number round")
NONE_HALT = Halts(0, None, None)

# The property that no component halts, and how many properties a scenario may have.
NO_TRAP, MOST_PROPERTIES = "no_trap", 64
# The number of scenarios that a processor gets at once.
CHUNK = 16
# What a worker works on: the plan, and whether scenarios are taken in order.
WORK = {}


def count_of(plan):
    """How many scenarios there are in all."""
    return multiply(values.count ** plan.rounds for values in plan.ports.values())


def multiply(numbers):
    """The product of numbers."""
    found = 1
    for number in numbers:
        found *= number
    return found


def at_random(plan, number):
    """Random inputs of a scenario: the same number and seed always give the same inputs."""
    chance = random.Random(f"{plan.seed}/{number}")
    return {name: [values.take(chance.randrange(values.count)) for _ in range(plan.rounds)]
            for name, values in plan.ports.items()}


def by_number(plan, number):
    """The inputs of a scenario among all, by its number: later rounds change first."""
    inputs = {}
    for name, values in plan.ports.items():
        digits = []
        for _ in range(plan.rounds):
            number, digit = divmod(number, values.count)
            digits.append(values.take(digit))
        inputs[name] = digits[::-1]
    return inputs


def made_of(plan, inputs, rounds):
    """The scenario with these inputs; of its other inputs the first rounds."""
    others = {name: values for name, values in (plan.scenario.get("inputs") or {}).items() if name not in inputs}
    return {**plan.scenario, "rounds": rounds, "inputs": {**others, **inputs}}


def judge(plan, inputs, rounds):
    """What is false of a scenario, and the round in which a component halts."""
    scenario = made_of(plan, inputs, rounds)
    if any(it is not None for it in (plan.against, plan.expected, plan.rows)):
        found = compare(plan, json.dumps(scenario).encode())
    else:
        found = watch(plan, scenario)
    if plan.strict and found.halted is not None and (found.false is None or found.halted <= found.false.round):
        return found._replace(false=Falsified(NO_TRAP, found.halted))
    return found


def watch(plan, scenario):
    """The verdicts on the properties of a scenario, and on one more, that no component has halted."""
    properties, name = dict(scenario.get("properties") or {}), NO_TRAP
    while name in properties:
        name += "_"
    if plan.paths and len(properties) < MOST_PROPERTIES:
        scenario = {**scenario, "properties": {**properties, name: none_halted(list(plan.paths))}}
    status, text = ask_program(plan.program, ["watch", plan.root], joined(plan.design, json.dumps(scenario).encode()))
    last = WATCHED.fullmatch(text.rstrip("\n").rpartition("\n")[2])
    if status not in (0, 1) or not last:
        raise Refused(f"pals watch {plan.root} ended with {status}: {text[:120].strip()}")
    if plan.original is not None:
        check_original(plan, scenario)
    if not status:
        return Judged(None, None)
    halted = re.search(rf"(?m)^{name} false$", text)
    false = Falsified(last["name"], int(last["round"]))
    if false.name == name:
        other = re.search(rf"(?m)^(?!{name} )(\w+) false$", text)
        false = Falsified(other[1], round_before(text, other.start())) if other else None
    return Judged(false, round_before(text, halted.start()) if halted else None)


def check_original(plan, scenario):
    """Shows that the copy of the design has the rows of the design in a scenario."""
    plain = json.dumps({name: value for name, value in scenario.items() if name != "properties"}).encode()
    check_rows(*(sync_text(plan.program, ["sync", plan.root], joined(it, plain))
                 for it in (plan.original, plan.design)))


def none_halted(paths):
    """The formula that none of some components has halted, as flat as it can be."""
    if len(paths) == 1:
        return ["not", ["halted", paths[0]]]
    middle = len(paths) // 2
    return ["and", none_halted(paths[:middle]), none_halted(paths[middle:])]


def round_before(text, at):
    """The round to which a line of verdicts belongs."""
    start = text.rfind("round ", 0, at)
    return int(text[start:at].split("\n")[0].split(" ")[1])


def joined(design, scenario):
    """A bundle."""
    return design + DIVIDER + b"\n" + scenario


def compare(plan, scenario):
    """The first round whose row is another one with the other design, by the command or in the file."""
    words = ["sync", plan.root]
    found = rows_by(plan.program, words, joined(plan.design, scenario))
    halted = next((at for at, lines in enumerate(found) if any(" halted(" in line for line in lines)), None)
    if plan.rows is not None:
        pairs = zip(found, plan.rows)
        return Judged(first_false(not set(wanted) <= set(lines) for lines, wanted in pairs), halted)
    if plan.expected is not None:
        wanted = rows_by(plan.expected, [], joined(plan.design, scenario))
    else:
        wanted = rows_by(plan.program, words, joined(plan.against, scenario))
    return Judged(first_false(one != two for one, two in itertools.zip_longest(found, wanted)), halted)


def rows_by(program, words, bundle):
    """The lines of each round of a program's output for a bundle."""
    return rounds_in(sync_text(program, words, bundle))


def sync_text(program, words, bundle):
    """A program's output for a bundle, which it has to accept."""
    status, text = ask_program(program, words, bundle)
    if status:
        raise Refused(f"{' '.join([program, *words])} ended with {status}: {text[:120].strip()}")
    return text


def first_false(differ):
    """What is false where the row of some round differs, or None."""
    number = next((at for at, it in enumerate(differ) if it), None)
    return None if number is None else Falsified("the row", number)


def try_chunk(numbers):
    """The first scenario of some numbers that is false, how many were tried, and in which of them a component halts."""
    plan, make, halts = WORK["plan"], by_number if WORK["in_order"] else at_random, NONE_HALT
    for tried, number in enumerate(numbers, 1):
        found = judge(plan, make(plan, number), plan.rounds)
        if found.halted is not None:
            halts = added(halts, Halts(1, number, found.halted))
        if found.false:
            return tried, halts, (number, found.false)
    return len(numbers), halts, None


def added(one, more):
    """The sum of two counts of scenarios; the first one is that of the first count."""
    return more if not one.count else one._replace(count=one.count + more.count)


def run_campaign(plan, count, in_order, tell, jobs=None):
    """Runs scenarios until one has a false property: its number and the property, or None, and in how many a component
    halts. The result is the smallest such number with any number of processors, since results are used in order."""
    chunks = (range(first, min(first + CHUNK, count)) for first in range(0, count, CHUNK))
    tried, halts = 0, NONE_HALT
    with multiprocessing.get_context("fork").Pool(jobs or os.cpu_count(), begin, (plan, in_order)) as pool:
        try:
            for done, halted, found in pool.imap(try_chunk, chunks):
                tried, halts = tried + done, added(halts, halted)
                tell(tried)
                if found:
                    return found, halts
        finally:
            pool.terminate()
    return None, halts


def begin(plan, in_order):
    """A worker leaves interrupts to the campaign, and gives way to other work."""
    WORK.update(plan=plan, in_order=in_order)
    signal.signal(signal.SIGINT, signal.SIG_IGN)
    os.nice(5)
