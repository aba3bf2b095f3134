"""Coverage: the positions of instructions, the scenarios that take each goal, and goals that are never taken."""

import glob
import itertools
import json
import os
import random
import re
import tempfile

from lib.language.model import Model, root_of
from lib.language.tokens import tokens_of
from lib.proving.conditions import deciding, leaves_of
from lib.proving.coverage import Coverage
from lib.proving.evaluate import value_of
from lib.proving.opened import Opened
from lib.proving.places import layout_of
from lib.proving.questions import Questions
from lib.proving.terms import Terms
from lib.scenarios.bundles import read
from tests.common import EXAMPLES, built, expect, tool
from tests.nodes import MORE, pals
from tests.proving import made, needed

LINE = re.compile(r"\S+:(\d+:\d+): (.*): (scenario \d+|never \(proved\)|unknown)")


def opened_of(text):
    """An opened design."""
    return Opened(text, b"", "made", program=built(), code=built("pals_code"))


def test_positions_of_instructions():
    """The code laid out from the text is that of the listing, on the examples and on designs made at random."""
    texts = [read(path) for path in glob.glob(os.path.join(EXAMPLES, "*.aadl")) if "Profile" not in path]
    texts += [made(2000 + seed, 1)[0].encode() for seed in range(60 if MORE else 25)]
    for text in texts:
        opened = opened_of(text)
        model, tokens = Model(opened.declared, root_of(opened.declared, opened.root)), tokens_of(opened.design)
        for component in opened.listing.components:
            found = layout_of(tokens, model.by_path[component.path.lower()].impl, component)
            expect(found is not None, True, f"the code of {component.path} is laid out\n{text.decode()}")


def cover(model, *words):
    """What the tool writes of a design: its status and the answer to each goal, by position and words."""
    status, text, said = tool("cover", "--program", built(), "--code", built("pals_code"), *words, model)
    matches = filter(None, map(LINE.fullmatch, text.decode().splitlines()))
    found = {match[1] + " " + match[2]: match[3] for match in matches}
    return status, found, said


OPERATORS = ("and", "or", "xor", "and then", "or else")


def tree_of(chance, count):
    """A decision at random, with so many conditions at most."""
    leaves = iter(range(count))

    def made_tree(depth):
        if depth > 2 or chance.random() < 0.25:
            return "leaf", next(leaves)
        if chance.random() < 0.2:
            return "not", made_tree(depth + 1)
        return chance.choice(OPERATORS), made_tree(depth + 1), made_tree(depth + 1)

    return made_tree(0)


def outcome(tree, values, seen):
    """The outcome of a decision as a step evaluates it; `seen` gets the conditions that are evaluated."""
    if tree[0] == "leaf":
        seen.add(tree[1])
        return values[tree[1]]
    left = outcome(tree[1], values, seen)
    if tree[0] == "not":
        return not left
    if tree[0] in ("and then", "or else") and left == (tree[0] == "or else"):
        return left
    right = outcome(tree[2], values, seen)
    return {"xor": left != right, "and": left and right, "or": left or right}[tree[0].split()[0]]


def decides(tree, values, leaf):
    """Whether a condition decides: it is evaluated, and its other value gives another outcome for some values of the
    conditions that were omitted."""
    seen = set()
    now = outcome(tree, values, seen)
    if leaf not in seen:
        return False
    free = [it for it in range(len(values)) if it not in seen]
    for chosen in itertools.product((False, True), repeat=len(free)):
        others = {**dict(enumerate(values)), **dict(zip(free, chosen)), leaf: not values[leaf]}
        if outcome(tree, [others[it] for it in range(len(values))], set()) != now:
            return True
    return False


def test_conditions_that_decide():
    """A condition decides if and only if its other value may give another outcome, by all values of all conditions."""
    chance = random.Random(8)
    for _ in range(200):
        tree, terms = tree_of(chance, 8), Terms()
        leaves = leaves_of(tree)
        names = {it: terms.variable("Boolean", f"c{it}") for it in leaves}
        found = deciding(terms, tree, names)
        order = terms.below(found.values())
        for chosen in itertools.islice(itertools.product((False, True), repeat=len(leaves)), 64):
            values = {names[it]: value for it, value in zip(leaves, chosen)}
            for term in order:
                if term not in values:
                    values[term] = value_of(terms.nodes[term], values)
            for (leaf, side), term in found.items():
                wanted = chosen[leaf] == side and decides(tree, chosen, leaf)
                expect(values[term], wanted, f"{tree} at {chosen}: condition {leaf} decides while it is {side}")


def test_cover_pacemaker():
    """Each goal of the pacemaker has a scenario; no operation traps. Each scenario has its rows by sync."""
    needed("berkeley-abc")
    path = os.path.join(EXAMPLES, "pacemaker.aadl")
    with tempfile.TemporaryDirectory() as folder:
        status, found, said = cover(path, "--to", folder)
        never = sorted(key for key, answer in found.items() if answer.startswith("never"))
        expect((status, len(found)), (0, 23), said)
        expect(never, ["55:52 controller.pacer: Add traps", "59:57 controller.pacer: Add traps",
                       "59:75 controller.pacer: Sub traps"], "what is never taken")
        numbers = {answer.split()[1] for answer in found.values() if answer.startswith("scenario")}
        for number in numbers:
            scenario = json.loads(read(os.path.join(folder, f"cover_{number}.json")))
            status, rows = pals(["sync", "Pacemaker.impl"], read(path).decode() + "\n", scenario)
            expect((status, rows), (0, read(os.path.join(folder, f"cover_{number}.rounds")).decode()), "rows")


def test_cover_finds_what_is_dead():
    """A transition that is never taken is proved to be so, at its position; with other inputs it is taken."""
    needed("berkeley-abc")
    text = read(os.path.join(EXAMPLES, "pacemaker.aadl")).replace(b"-[deaf > 0]->", b"-[deaf > 6]->")
    with tempfile.TemporaryDirectory() as folder:
        path = os.path.join(folder, "d.aadl")
        with open(path, "wb") as file:
            file.write(text)
        status, found, said = cover(path, "--dead")
        expect((status, {key.split(" ", 1)[0] for key in found}), (0, {"60:13", "60:3"}), said)
        status, text, said = tool("lint", "--dead", path)
        dead = [line for line in text.decode().splitlines() if line.endswith("(dead-code)")]
        places = [line.split(": ")[0].rpartition("d.aadl:")[2] for line in dead]
        expect((status, sorted(places)), (1, ["60:13", "60:3"]), said)
        status, found, said = cover(os.path.join(EXAMPLES, "pacemaker.aadl"), "--dead", "--input", "beat=true,false")
        expect((status, found), (0, {}), said)
        status, found, said = cover(os.path.join(EXAMPLES, "turn_controller.aadl"), "--input", "goal=0", "--dead")
        expect((status, len(found)), (0, 12), f"a goal that is 0: {said} {found}")


def test_nothing_reaches_what_is_never_taken():
    """No scenario at random reaches a goal that is proved never to be; each kept scenario reaches its goals."""
    needed("berkeley-abc")
    for seed in range(12) if MORE else (1, 3):
        text, _ = made(4000 + seed, 1)
        opened = opened_of(text.encode())
        with tempfile.TemporaryDirectory() as folder:
            questions = Questions(opened.machine, {}, {}, folder)
            questions.find_facts(2)
            coverage = Coverage(questions, {})
            coverage.at_random("test")
            coverage.search(2)
        goals, reached, chance = coverage.goals, set(), random.Random(seed)
        for _ in range(15):
            inputs = {port: [coverage.value(chance, port) for _ in range(12)] for port in opened.machine.inputs}
            reached |= coverage.reached(inputs, 12)
        expect(reached & set(coverage.dead), set(), f"seed {seed}\n{text}")
        for inputs, rounds, keys in coverage.tests:
            expect(set(keys) <= coverage.reached(inputs, rounds), True, "a scenario reaches its goals")
        expect(set(goals) <= {*coverage.dead, *coverage.unknown, *(key for it in coverage.tests for key in it[2])},
               True, "each goal has an answer")
