"""Formulas as text: their forms, and their meaning compared with `watch` on a copy of the design."""

import random
import re
import tempfile

from lib.language.listing import read_listing
from lib.proving.confirm import check_copy, reads_ports, sync_text, truth
from lib.proving.copies import component_rows
from lib.proving.evaluate import Run
from lib.proving.formula_forms import atoms_in
from lib.proving.formula_text import read_properties, read_property
from lib.proving.observers import observed
from lib.proving.opened import Opened
from lib.proving.properties import Formulas, paths_in
from lib.running.rows import Report
from lib.scenarios.bundles import Refused
from tests.common import EXAMPLES, built, expect, page, tool
from tests.nodes import MORE
from tests.proving import made

A, HALTED = ["var", "p.l", "a", "<=", 3], ["halted", "p.l"]
# Texts on the turn controller, and their forms.
READ = {
    "p.l.a <= 3": A,
    "3 >= p.l.a": A,
    "p.l.a + 2 < 6 - 0": ["var", "p.l", "a", "<", 4],
    "5 - p.l.a > 2": ["var", "p.l", "a", "<", 3],
    "not p.l.halted": ["not", HALTED],
    "p.l.a <= 3 or p.l.halted and not p.l.halted": ["or", A, ["and", HALTED, ["not", HALTED]]],
    "p.l.a <= 3 and p.l.halted since p.l.halted": ["and", A, ["since", HALTED, HALTED]],
    "p.l.halted implies p.l.halted implies p.l.a <= 3": ["or", ["not", HALTED], ["or", ["not", HALTED], A]],
    "historically (p.l.a <= 3 or p.l.halted)": ["historically", ["or", A, HALTED]],
    "once[2] p.l.halted": ["or", HALTED, ["previous", ["or", HALTED, ["previous", HALTED]]]],
    "previous[2] p.l.halted": ["previous", ["previous", HALTED]],
    "historically[0] p.l.halted": ["not", ["not", HALTED]],
    "p.l in s": ["state", "p.l", ["s"]],
    "p.l.target'fresh": ["and", ["not", HALTED], ["fresh", "p.l", "target"]],
    "p.l.a = p.r.a": ["compare", "=", ["variable", "p.l", "a"], ["variable", "p.r", "a"]],
    "2 * p.l.a <= 3": ["compare", "<=", ["*", ["number", 2], ["variable", "p.l", "a"]], ["number", 3]],
}
WRONG = ("", "p.l.a", "p.l.a <= ", "p.l.b <= 3", "p.x.a <= 3", "(p.l.a <= 3", "p.l.a <= 3)", "p.l.a <= 3 p.l.halted",
         "p.l in t", "p.l in mv", "p.l.a'fresh", "once[99] p.l.halted", "once[-1] p.l.halted",
         "p.l.a <= 3 + p.l.halted",
         "p.l.halted < p.l.halted", "p.l.a <= 99999999999999999999", "p.l.a ; 3", "not" * 3, "not " * 80 + "p.l.halted")


def test_formulas_are_read():
    """Each text has its form; wrong ones are rejected with the column."""
    listing = read_listing(page("examples/turn_controller.listing"))
    for text, form in READ.items():
        expect(read_property(f"q: {text}", listing), ("q", form), text)
    for text in WRONG:
        try:
            expect(read_property(f"q: {text}", listing), None, f"{text} is rejected")
        except Refused as why:
            expect(bool(re.match(r"property q, column \d+: ", str(why))), True, f"{text}: {why}")
    found = read_properties("-- two properties\nq: p.l.a <= 3 -- a remark\n  or p.l.halted\n\nr: p.l.halted\n", listing)
    expect(found, {"q": ["or", A, HALTED], "r": HALTED}, "a file")


class Texts:
    """Makes formulas at random on the components of a design."""

    def __init__(self, chance, listing):
        self.chance, self.components = chance, listing.components

    def formula(self, depth=0):
        """The text of a formula."""
        chance = self.chance.random()
        if depth > 2 or chance < 0.3:
            return self.atom(self.chance.choice(self.components))
        if chance < 0.7:
            word = self.chance.choice(("and", "or", "since", "implies"))
            return f"({self.formula(depth + 1)} {word} {self.formula(depth + 1)})"
        word = self.chance.choice(("not", "previous", "once", "historically", "once[2]", "historically[1]"))
        return f"{word} {self.formula(depth + 1)}"

    def atom(self, component):
        """The text of a part that is not temporal."""
        path, some = component.path, self.chance.choice
        complete = [it.name for it in component.states if it.entry is not None]
        options = [f"{path}.halted", f"{path} in {some(complete)}"]
        options += [f"{path}.{it.name}'fresh" for it in component.ins]
        options += [f"{path}.{it.name}'present" for it in component.outs]
        names = [it for places in (component.variables, component.ins, component.outs) for it in places]
        numbers = [f"{path}.{it.name}" for it in names if it.kind == "Integer"]
        options += [f"{path}.{it.name}" for it in names if it.kind == "Boolean"]
        for _ in range(2 * bool(numbers)):
            op = some(("=", "!=", "<", "<=", ">", ">="))
            options.append(f"{some(numbers)} {op} {self.chance.randint(-3, 6)}")
            options.append(f"{some(numbers)} {op} {some(numbers)} {some('+-*')} {self.chance.randint(0, 3)}")
        return "(" + some(options) + ")"


def verdicts_by_terms(opened, properties, inputs, rounds):
    """The truth of properties in each round by the terms of the machine."""
    formulas = Formulas(opened.machine)
    terms = {name: formulas.term(form, name) for name, form in properties.items()}
    run, found = Run(opened.machine, inputs, list(terms.values())), []
    for _ in range(rounds):
        values = run.step()
        found.append({name: str(bool(values[term])).lower() for name, term in terms.items()})
    return found


def test_formulas_mean_what_watch_finds():
    """On random designs the terms of random formulas are what `watch` finds on a copy, and what rows give."""
    rounds, seen, overflows = 8, 0, 0
    programs = {"program": built(), "code": built("pals_code")}
    for seed in range(60 if MORE else 20):
        text, inputs = made(1000 + seed, rounds)
        opened = Opened(text.encode(), b"", "made", **programs)
        texts = Texts(random.Random(seed), opened.listing)
        properties = dict(read_property(f"q{at}: {texts.formula()}", opened.listing) for at in range(4))
        given = {"rounds": rounds, "inputs": inputs}
        copy, forms = observed(opened, properties)
        try:
            check_copy(opened, copy, given)
        except Refused:
            overflows += 1
            continue
        status, answer = opened.ask("watch", {**given, "properties": forms}, copy)
        expect(status in (0, 1), True, answer)
        found = verdicts_by_terms(opened, properties, inputs, rounds)
        expect(found, Report(answer).verdicts, f"seed {seed}: {properties}\n{text}")
        rows = component_rows(sync_text(opened, given))
        for name, form in properties.items():
            if not reads_ports(form):
                wanted = [row[name] == "true" for row in found]
                expect(truth(form, rows), wanted, f"{form} on rows")
        seen += sum(bool(atoms_in(form)) for form in properties.values())
    expect((seen > 10, overflows < 5), (True, True), f"{seen} formulas with observers, {overflows} overflow")


def test_watch_takes_texts():
    """tools/watch has the answer of the program; what needs a delay is rejected."""
    files = [f"{EXAMPLES}/pacemaker.aadl", f"{EXAMPLES}/pacemaker.json"]
    words = ["--program", built(), "--code", built("pals_code")]
    calm = "q: controller.pacer in alert or controller.pacer.deaf > 0"
    status, text, said = tool("watch", *words, "--property", calm, *files)
    expect((status, text.decode().splitlines()[-1]), (0, "watch rounds 32 first none"), said)
    status, text, said = tool("watch", *words, "--property", "q: controller.pacer in alert", *files)
    expect((status, text.decode().split()[-2]), (1, "q"), said)
    with tempfile.NamedTemporaryFile("w", suffix=".txt") as file:
        file.write("q: controller.pacer.sensed <= controller.sensor.sensed\n")
        file.flush()
        status, _, said = tool("watch", *words, "--properties", file.name, *files)
        expect((status, "without a delay" in said), (1, True), said)
    expect(paths_in(["compare", "=", ["in", "a.b", "x"], ["number", 2]]), {"a.b"}, "paths")


# A formula whose product leaves the 64 bits when a wing reaches 2 degrees, and what the tools then report.
OVERFLOW = "q: p.l.a * 9223372036854775807 != 3"
OTHER = r": a formula overflows in the copy of the design: p\.[lrt] has other rows there\n"


def test_a_copy_with_other_rows_is_rejected():
    """If a formula overflows in the copy, tools/watch and tools/campaign report that and print no rows and no scenario;
    without an overflow they have an answer."""
    files = [f"{EXAMPLES}/turn_controller.aadl", f"{EXAMPLES}/turn_controller.json"]
    words = ["--program", built(), "--code", built("pals_code"), "--property", OVERFLOW]
    many = ["--count", "2", "--rounds", "20", "--jobs", "1", "--input"]
    for name, more in (("watch", []), ("campaign", [*many, "goal=10"])):
        status, text, said = tool(name, *words, *more, *files)
        expect((status, text, bool(re.fullmatch(name + OTHER, said))), (1, b"", True), said)
    status, text, said = tool("campaign", *words, *many, "goal=0..1", *files)
    expect((status, text, "none is false" in said), (0, b"", True), said)
    with tempfile.TemporaryDirectory() as folder:
        path = f"{folder}/short.json"
        with open(path, "w", encoding="ascii") as file:
            file.write('{"rounds": 2, "inputs": {"goal": [1, 1]}}')
        status, text, said = tool("watch", *words, files[0], path)
    expect((status, text.decode().splitlines()[-1]), (0, "watch rounds 2 first none"), said)
