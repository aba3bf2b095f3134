"""Campaigns by compiled code: rows and verdicts compared with the program, parts of a campaign, planted mistakes."""

import json
import os
import random
import re
import tempfile

from lib.commands.ranges import values_of
from lib.language.listing import read_listing
from lib.proving.formula_forms import atoms_in
from lib.proving.formula_text import read_property
from lib.running import fast_c
from lib.running.campaign import Plan, judge
from lib.running.fast import Fast, Wrong, sample
from tests.common import EXAMPLES, built, expect, tool
from tests.nodes import MORE, compilers, listing_of
from tests.proving import made
from tests.test_formulas import OTHER, OVERFLOW, Texts

ROUNDS, NUMBERS = 9, 12
KINDS = {"Integer": ("-5..9,null", "0..3,9223372036854775807,null", "-2..2"),
         "Boolean": ("true,false,null", "true,false")}


def campaign_of(seed, folder):
    """A compiled campaign of a design made at random, with its plan."""
    text, _ = made(3000 + seed, ROUNDS)
    design, chance = read_listing(listing_of(text)), random.Random(f"fast {seed}")
    kinds = {it.name: design.components[it.target[0]].ins[it.target[1]].kind for it in design.inputs}
    ports = {name: values_of(chance.choice(KINDS[kind])) for name, kind in kinds.items() if chance.random() < 0.8}
    others = {name: [chance.choice((None, 1, 0)) if kind == "Integer" else True for _ in range(3)]
              for name, kind in kinds.items() if name not in ports}
    properties, texts = {}, Texts(chance, design)
    while len(properties) < 4:
        name, form = read_property(f"q{len(properties)}: {texts.formula()}", design)
        if not atoms_in(form):
            properties[name] = form
    scenario = {"rounds": ROUNDS, "inputs": others, "properties": properties}
    plan = Plan(built(), "Top.impl", text.encode(), scenario, ports, ROUNDS, str(seed), None, None, None)
    return plan, Fast(plan, design, folder)


def test_compiled_campaigns_agree_with_the_program():
    """Compiled code has the rows and verdicts of `sync` and `watch`, on designs made at random."""
    compilers()
    false = 0
    for seed in range(25 if MORE else 6):
        with tempfile.TemporaryDirectory() as folder:
            plan, campaign = campaign_of(seed, folder)
            campaign.compare(range(NUMBERS))
            for number in range(NUMBERS):
                found = campaign.search(number, number + 1, 1, lambda reached: None)
                wanted = judge(plan, campaign.inputs(number), ROUNDS).false
                expect(found and found[1:], wanted and tuple(wanted), f"scenario {number} of seed {seed}")
                false += found is not None
    expect(0 < false, True, "some are false")


def test_wrong_compiled_code_is_found():
    """A wrong adaptor, a wrong value and a wrong message in the compiled code are found by its rows."""
    compilers()
    text = fast_c.Program.text
    mistakes = {"PALS_MAX": "PALS_MIN", "return (pals_value){1, true}": "return (pals_value){0, true}",
                "i < 4; i++) { old_": "i < 0; i++) { old_"}
    plan = None
    for right, wrong in mistakes.items():
        fast_c.Program.text = lambda self, right=right, wrong=wrong: text(self).replace(right, wrong)
        try:
            with tempfile.TemporaryDirectory() as folder:
                with open(os.path.join(EXAMPLES, "pacemaker.aadl"), "rb") as file:
                    design = file.read()
                scenario = {"rounds": 20, "properties": {"q": ["halted", "controller.pacer"]}}
                ports = {"beat": values_of("true,false")}
                plan = Plan(built(), "Pacemaker.impl", design, scenario, ports, 20, "0", None, None, None)
                listing = read_listing(listing_of(design.decode() + "\n", "Pacemaker.impl"))
                try:
                    Fast(plan, listing, folder).compare(range(20))
                    expect(True, False, f"{wrong} in the place of {right} is found")
                except Wrong:
                    pass
        finally:
            fast_c.Program.text = text
    expect(plan is not None, True, "mistakes were tried")


def test_parts_of_a_campaign():
    """The parts of a campaign find what the whole one does; results of other campaigns or with gaps are rejected."""
    compilers()
    with tempfile.TemporaryDirectory() as folder:
        path = os.path.join(folder, "s.json")
        with open(path, "w", encoding="ascii") as file:
            json.dump({"rounds": 30}, file)
        words = ["--fast", "--program", built(), "--code", built("pals_code"), "--count", "3000", "--compare", "5",
                 "--jobs", "2", "--property", "rare: controller.pacer.waited <= 13 or controller.sensor.before",
                 os.path.join(EXAMPLES, "pacemaker.aadl"), path]
        status, text, said = tool("campaign", *words)
        expect((status, json.loads(text)["rounds"]), (1, 14), said)
        number = int(said.split(" of number ")[1].split()[0])
        results = [os.path.join(folder, f"r{part}") for part in (1, 2, 3)]
        for part, result in enumerate(results, 1):
            tool("campaign", "--shard", f"{part}/3", "--result", result, *words)
        status, text, said = tool("campaign", "--merge", *results)
        expect((status, f"of number {number}" in text.decode()), (1, True), f"{text.decode()} {said}")
        expect(tool("campaign", "--merge", results[0], results[2])[0], 1, "a part is missing")
        expect(tool("campaign", "--merge", path)[0], 1, "no result")
        tool("campaign", "--shard", "1/3", "--result", results[0], "--seed", "other", *words)
        expect(tool("campaign", "--merge", *results)[0], 1, "another campaign")
        for wrong in (["--shard", "4/3"], ["--shard", "x"]):
            expect(tool("campaign", *wrong, *words)[0], 1, f"{wrong}")
        expect(tool("campaign", "--shard", "1/2", *words[1:])[0], 2, "a part without --fast")
    expect(sample(3, 10, 3), [3, 5, 7], "a sample")


def test_compiled_campaigns_compare_copies():
    """A formula that overflows in the copy of the design ends a compiled campaign."""
    compilers()
    words = ["--fast", "--count", "4", "--rounds", "20", "--jobs", "1", "--input", "goal=10", "--property", OVERFLOW]
    programs = ["--program", built(), "--code", built("pals_code")]
    files = [os.path.join(EXAMPLES, f"turn_controller.{kind}") for kind in ("aadl", "json")]
    status, text, said = tool("campaign", *words, *programs, *files)
    expect((status, text, bool(re.fullmatch("campaign" + OTHER, said))), (1, b"", True), said)
