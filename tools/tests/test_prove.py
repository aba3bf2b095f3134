"""Properties for all inputs: properties of the examples, a false twin of each proved one, and certificates."""

import json
import os
import random
import re
import tempfile

from lib.proving import steps, terms, vectors
from lib.proving.coverage import Coverage
from lib.proving.evaluate import Run
from lib.proving.formula_text import read_property
from lib.proving.opened import Opened
from lib.proving.questions import Questions
from lib.proving.solver import SecondOpinion
from lib.scenarios.bundles import Refused, read
from tests.common import EXAMPLES, HERE, Wrong, built, expect, script, tool
from tests.nodes import MORE
from tests.proving import made, needed
from tests.test_formulas import Texts

PACER, WHEEL, CRUISER, MAIN, LEFT, TAIL = ("controller.pacer", "c.wheel", "c.cruiser", "p.m", "p.l", "p.t")
DEAF = ["var", PACER, "deaf", "=", 6]
# For each design the words for its inputs, properties that are proved, and false ones with the first round.
CRUISE = (os.path.join(EXAMPLES, "cruise_control.aadl"), ["raw=0..100000", "wanted=0..100000"], {
    "low": ["var", CRUISER, "drive", ">=", 0], "high": ["var", CRUISER, "drive", "<=", 1000],
    "runs": ["not", ["halted", CRUISER]], "smooth": ["var", WHEEL, "smooth", "<=", 99999],
}, {"never_full": (["var", CRUISER, "drive", "<", 150], 15), "low_twin": (["var", CRUISER, "drive", "!=", 0], 0),
    "high_twin": (["var", CRUISER, "drive", "<=", 20], 3), "smooth_twin": (["var", WHEEL, "smooth", "<=", 90000], 2)})
TURN = (os.path.join(EXAMPLES, "turn_controller.aadl"), ["goal=-60..60"], {
    "left": ["and", ["var", LEFT, "a", "<=", 60], ["var", LEFT, "a", ">=", -60]],
    "tail": ["and", ["var", TAIL, "a", "<=", 60], ["var", TAIL, "a", ">=", -60]],
    "sum": ["and", ["var", MAIN, "sum", "<=", 180], ["var", MAIN, "sum", ">=", -180]],
    "runs": ["not", ["halted", MAIN]],
}, {"lags": (["var", MAIN, "sum", "<", 100], 16), "left_twin": (["var", LEFT, "a", "<=", 8], 9),
    "tail_twin": (["var", TAIL, "a", "<=", 11], 3), "sum_twin": (["var", MAIN, "sum", ">", -9], 3)})
PACEMAKER = (os.path.join(EXAMPLES, "pacemaker.aadl"), [], {
    "deaf_by_pace": ["or", ["var", PACER, "deaf", "=", 0], ["since", ["var", PACER, "deaf", "<", 6], DEAF]],
    "rests": ["not", ["and", DEAF, ["previous", ["var", PACER, "deaf", ">", 0]]]],
    "waits": ["or", ["not", DEAF], ["previous", ["var", PACER, "waited", "=", 19]]],
}, {"unaided": (["historically", ["not", DEAF]], 19),
    "waits_twin": (["or", ["not", DEAF], ["previous", ["var", PACER, "waited", "=", 18]]], 19),
    "rests_twin": (["not", ["and", ["var", PACER, "deaf", "=", 5], ["previous", DEAF]]], 20)})
VAULT = (os.path.join(HERE, "tests", "vault.aadl"), ["key=0..9999"], {
    "held": ["var", "p.bolt", "held", ">=", 0], "wanted": ["var", "p.dial", "wanted", "<", 9973],
    "opens_held": ["or", ["var", "p.bolt", "opened", "=", 0], ["once", ["var", "p.bolt", "held", ">=", 2]]],
}, {"shut": (["var", "p.bolt", "opened", "=", 0], 4)})
LINE = re.compile(r"(\w+) (proved|false in round (\d+)|unknown)\b.*")


def prove(folder, model, properties, *words):
    """What the tool writes for properties of a design: its status, and the verdict and the round of each."""
    path = os.path.join(folder, "asked.json")
    with open(path, "w", encoding="ascii") as file:
        json.dump({"rounds": 1, "properties": properties}, file)
    programs = [] if "--program" in words else ["--program", built()]
    status, text, said = tool("prove", *programs, "--code", built("pals_code"), "--to", folder, *words, model, path)
    found = {}
    for line in text.decode().splitlines():
        match = LINE.fullmatch(line)
        if match is None:
            raise Wrong(f"a line of prove: {line}")
        found[match[1]] = "proved" if match[2] == "proved" else match[3] and int(match[3])
    return status, found, said


def check_design(model, inputs, proved, false):
    """Each property has its answer, and each false one a scenario that `watch` finds false."""
    needed("berkeley-abc")
    words = [word for it in inputs for word in ("--input", it)]
    with tempfile.TemporaryDirectory() as folder:
        forms = {**proved, **{name: form for name, (form, _) in false.items()}}
        wanted = {**dict.fromkeys(proved, "proved"), **{name: number for name, (_, number) in false.items()}}
        status, found, said = prove(folder, model, forms, *words)
        expect((found, status), (wanted, 1), f"the properties of {model}: {said}")
        for name, (_, number) in false.items():
            made = json.loads(read(os.path.join(folder, f"{name}.json")))
            expect(made["rounds"], number + 1, f"the rounds of the scenario of {name}")


def test_prove_cruise_control():
    """The properties of the cruise control."""
    check_design(*CRUISE)


def test_prove_without_limits_on_inputs():
    """An input that is not named has any value of 64 bits: then the filter of the wheel overflows in its second
    step."""
    check_design(CRUISE[0], [], {"runs": ["not", ["halted", CRUISER]]}, {"wheel": (["not", ["halted", WHEEL]], 0)})


def test_prove_turn_controller():
    """The properties of the turn controller; one that is false in a late round takes longer."""
    model, inputs, proved, false = TURN
    check_design(model, inputs, proved, {name: it for name, it in false.items() if MORE or name != "lags"})


def test_prove_pacemaker():
    """The properties of the pacemaker."""
    check_design(*PACEMAKER)


def test_prove_vault():
    """The keys that open the lock are found; a property about a remainder takes longer."""
    model, inputs, proved, false = VAULT
    check_design(model, inputs, {name: it for name, it in proved.items() if MORE or name != "wanted"}, false)


def test_answers_on_random_designs():
    """A proved property is true in random rounds; a false one is false in the round that was found, and not before."""
    needed("berkeley-abc")
    proved = false = 0
    for seed in range(40 if MORE else 6):
        text, _ = made(5000 + seed, 1)
        opened = Opened(text.encode(), b"", "made", program=built(), code=built("pals_code"))
        if len(opened.machine.terms.nodes) > 500:
            continue
        texts, chance = Texts(random.Random(seed), opened.listing), random.Random(seed)
        forms = dict(read_property(f"q{at}: {texts.formula()}", opened.listing) for at in range(3))
        with tempfile.TemporaryDirectory() as folder:
            questions = Questions(opened.machine, forms, {}, folder)
            questions.find_facts(3)
            values = Coverage(questions, {}, [])
            for name in forms:
                result, term = questions.answer(name, 3).result, questions.properties[name]
                run_inputs = [{port: [values.value(chance, port) for _ in range(10)] for port in opened.machine.inputs}
                              for _ in range(20)]
                if result.verdict == "proved":
                    proved += 1
                    for inputs in run_inputs:
                        run = Run(opened.machine, inputs, [term])
                        expect(all(run.step()[term] for _ in range(10)), True, f"{name} of {forms}\n{text}")
                elif result.verdict == "false":
                    false += 1
                    run = Run(opened.machine, result.inputs, [term])
                    found = [bool(run.step()[term]) for _ in range(result.rounds + 1)]
                    expect(found, [True] * result.rounds + [False], f"{name} of {forms}\n{text}")
    expect((proved > 1, false > 3), (True, True), f"{proved} are proved and {false} are false")


def test_certificates_are_checked():
    """A certificate is checked by another solver; one with a literal, a range or a lemma changed is rejected."""
    needed("berkeley-abc", "cadical")
    model, proved = PACEMAKER[0], {name: PACEMAKER[2][name] for name in ("rests", "waits")}
    with tempfile.TemporaryDirectory() as folder:
        path = os.path.join(folder, "certificate.json")
        status, _, said = prove(folder, model, proved, "--certificate", path)
        expect(status, 0, said)
        check = ("prove", "--program", built(), "--code", built("pals_code"), "--check")
        status, text, said = tool(*check, path, model)
        expect((status, [line.split()[0] for line in text.decode().splitlines()]), (0, sorted(proved)), said)
        expect(tool(*check, path, TURN[0])[0], 1, "the certificate of another design")
        made = json.loads(read(path))
        for change in changes(made):
            with open(path, "w", encoding="ascii") as file:
                json.dump(change, file)
            status, text, said = tool(*check, path)
            expect((status != 0, "Traceback" in said), (True, False), f"a certificate that is wrong: {said}")


def test_a_second_opinion_finds_a_fault():
    """cvc5 confirms a formula that has no solution; one that has a solution is a fault of the first solver."""
    needed("cvc5")
    second = SecondOpinion()
    second.take("p cnf 2 3\n1 0\n-1 2 0\n-2 0\n")
    expect(second.words(), "cadical and cvc5", "a formula without a solution")
    try:
        second.take("p cnf 2 2\n1 0\n-1 2 0\n")
    except Refused as why:
        expect("differ" in str(why), True, "a formula with a solution")
    else:
        raise Wrong("no fault is found")


def changes(made):
    """Certificates that are wrong: `deaf` is even at first, and 5 after a round in which it was 6."""
    last = len(made["steps"]) - 1
    clauses = made["steps"][last]["clauses"]
    yield with_step(made, last, clauses=clauses + [["controller.pacer.deaf:0"]])
    yield with_step(made, last, clauses=clauses + [["-controller.pacer.deaf:0"]])
    yield with_step(made, last, clauses=[])
    for number, step in enumerate(made["steps"]):
        if step["property"] is not None:
            yield with_step(made, number, formula=["halted", PACER])
            yield with_step(made, number, lemmas=["unaided"])
    yield {**made, "ranges": {**made["ranges"], "controller.pacer.waited": [0, 19]}}
    yield {**made, "ranges": {"nothing": [0, 19]}}
    yield {**made, "steps": made["steps"][1:]}
    yield {**made, "steps": [{}]}
    yield {"form": made["form"]}


def with_step(made, number, **fields):
    """A certificate with some fields of a step changed."""
    steps = list(made["steps"])
    steps[number] = {**steps[number], **fields}
    return {**made, "steps": steps}


def test_prove_reports_what_watch_does_not_confirm():
    """If the program does not find a false property false, the tool has a fault, and reports it with status 3."""
    needed("berkeley-abc")
    model, _, _, false = PACEMAKER
    with tempfile.TemporaryDirectory() as folder:
        program = os.path.join(folder, "pals")
        script(program, 'cat >/dev/null; echo "watch rounds 1 first none"')
        status, found, said = prove(folder, model, {"unaided": false["unaided"][0]}, "--program", program)
        expect((status, found, "has a fault" in said), (3, {}, True), said)


def test_prove_rejects_designs_that_are_too_large():
    """Too many terms, gates or turns of loops end with one line, before memory runs out."""
    needed("berkeley-abc")
    model, _, proved, _ = PACEMAKER
    for module, name, word in ((terms, "MOST_TERMS", "terms"), (vectors, "MOST_GATES", "gates"),
                               (steps, "MOST_UNROLLED", "instructions")):
        limit = getattr(module, name)
        setattr(module, name, 9)
        try:
            with tempfile.TemporaryDirectory() as folder:
                status, _, said = prove(folder, model, proved)
            expect((status, f"more than 9 {word}" in said), (1, True), said)
        finally:
            setattr(module, name, limit)


def test_prove_rejects_wrong_words():
    """Wrong words, values and formulas end with their status and one line."""
    needed("berkeley-abc")
    with tempfile.TemporaryDirectory() as folder:
        model, proved = PACEMAKER[0], PACEMAKER[2]
        for words, wanted in ((["--input", "beat=0..1"], 1), (["--input", "none=0..1"], 1), (["--only", "no"], 1),
                              (["--seconds", "x"], 2), (["--what"], 2)):
            status, _, said = prove(folder, model, proved, *words)
            expect((status, "Traceback" in said), (wanted, False), f"{words}: {said}")
        for properties in ({}, {"p": ["halted", "no"]}, {"p": ["until", ["halted", PACER]]}):
            expect(prove(folder, model, properties)[0], 1, f"{properties}")
        expect(tool("prove")[0], 2, "no words")
