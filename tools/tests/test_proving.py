"""The translation of designs to terms and graphs, tried against `sync`, and mistakes planted in it."""

import random

from lib.language.listing import read_listing
from lib.language.step_code import BINARY, UNARY
from lib.proving.evaluate import Run
from lib.proving.machine import Machine
from lib.proving.steps import COMPARISONS, Step
from lib.proving.vectors import Graph
from tests.common import Wrong, expect, page
from tests.nodes import MORE, listing_of
from tests.proving import Averager, first_difference, graph_difference, machine_of, made, run_rows, sync_rows
from tests.test_code import EDGES

DESIGNS, ROUNDS = (150, 12) if MORE else (30, 8)
# Another operator for each operator: which of the two is in the code has to be found out.
OTHERS = {"Add": "Sub", "Sub": "Add", "Mul": "Add", "Quot": "Mul", "Mod": "Rem", "Rem": "Mod", "Eq": "Le", "Ne": "Lt",
          "Lt": "Le", "Le": "Lt", "Gt": "Ge", "Ge": "Gt", "And": "Or", "Or": "And", "Xor": "Or", "Neg": "Abs",
          "Abs": "Neg", "Not": "Neg"}


def test_terms_agree_with_sync():
    """The terms have the states, variables and halts of `sync`, on designs made at random."""
    halted, rates = 0, set()
    for seed in range(DESIGNS):
        text, inputs = made(seed, ROUNDS)
        wanted = sync_rows(text, inputs, ROUNDS)
        machine = machine_of(text)
        expect(first_difference(wanted, run_rows(machine, inputs, ROUNDS)), None, f"seed {seed}\n{text}")
        rates |= {it.rate for it in machine.design.components}
        halted += sum(it[0] is None for row in wanted for it in row.values())
    expect((halted > 0, {1, 2, 64} <= rates), (True, True), f"some components are halted; the rates are {rates}")


def test_graphs_agree_with_terms():
    """The graph of a design gives each variable the value that the terms give it, quotients and averages included."""
    ops = set()
    for seed in range(DESIGNS // 4):
        text, inputs = made(seed, 4)
        machine = machine_of(text)
        expect(graph_difference(machine, inputs, 4), None, f"seed {seed}\n{text}")
        ops |= {node[1] for node in machine.terms.nodes}
    expect({"quot", "mod", "rem", "mul", "overflow_mul"} <= ops, True, f"the operators of the designs: {sorted(ops)}")


def partial_averages(machine, inputs, rounds):
    """How many averages of a run have both a place with a value and a place without one."""
    averages = [it for it, node in enumerate(machine.terms.nodes) if node[1] == "average"]
    run, count = Run(machine, inputs, averages), 0
    for _ in range(rounds):
        values = run.step()
        count += sum({bool(values[it]) for it in machine.terms.nodes[term][2::2]} == {True, False} for term in averages)
    return count


def test_averages_with_absent_values_agree_with_sync():
    """Terms, graphs and `sync` have the same averages, on designs made at random in which some places have no value."""
    partial = 0
    for seed in range(60 if MORE else 12):
        text, inputs = made(seed, ROUNDS, Averager)
        if '"average"' in text:
            machine = machine_of(text)
            wanted = sync_rows(text, inputs, ROUNDS)
            expect(first_difference(wanted, run_rows(machine, inputs, ROUNDS)), None, f"seed {seed}\n{text}")
            expect(graph_difference(machine, inputs, 4), None, f"the graph of seed {seed}\n{text}")
            partial += partial_averages(machine, inputs, ROUNDS)
    expect(partial > 0, True, f"{partial} averages with an absent value")


def operator_inputs():
    """Inputs of the design with all operators; a divisor of 0 comes last, since it halts what divides."""
    pairs = [(7, 2), (-7, 2), (7, -3), (0, 5), (-1, 1), (2, 2), (3, 3), (-9, -9), (1, 5), (2**31, 3), (None, 4),
             (5, None), (5, 0), (0, 0), (-3, 0)]
    return {"a": [a for a, _ in pairs], "b": [b for _, b in pairs]}, len(pairs)


def test_each_operator_agrees_with_sync():
    """Each operator of the step code has the result of `sync`, also if it traps."""
    text, chance = page("nodes/tests/operators.aadl"), random.Random(7)
    machine = machine_of(text)
    inputs, rounds = operator_inputs()
    runs = [(inputs, rounds)]
    for _ in range(60 if MORE else 20):
        runs.append(({"a": [1, chance.choice(EDGES)], "b": [2, chance.choice(EDGES)]}, 2))
    for number, (given, count) in enumerate(runs):
        expect(first_difference(sync_rows(text, given, count), run_rows(machine, given, count)), None, f"{given}")
        if number < 3 or MORE:
            expect(graph_difference(machine, given, count), None, f"the graph at {given}")


def test_a_wrong_operator_is_found():
    """For each operator another one in its place gives other rows than `sync`."""
    text, listing = page("nodes/tests/operators.aadl"), page("nodes/tests/operators.listing")
    inputs, rounds = operator_inputs()
    wanted = sync_rows(text, inputs, rounds)
    expect(set(OTHERS), {*BINARY, *UNARY}, "the operators")
    for name, other in OTHERS.items():
        lines = listing.split("\n")
        places = [at for at, line in enumerate(lines) if line.split()[-1:] == [name]]
        expect(bool(places), True, f"{name} is in the design")
        for at in places:
            changed = lines[:at] + [lines[at][: -len(name)] + other] + lines[at + 1 :]
            found = run_rows(Machine(read_listing("\n".join(changed))), inputs, rounds)
            if first_difference(wanted, found) is None:
                raise Wrong(f"{other} in the place of {name} in line {at + 1} is not found")


class Planted:
    """A mistake in one method of a class, while it is entered."""

    def __init__(self, owner, name, wrong):
        self.owner, self.name, self.wrong, self.right = owner, name, wrong, vars(owner)[name]

    def __enter__(self):
        setattr(self.owner, self.name, self.wrong)

    def __exit__(self, *_):
        setattr(self.owner, self.name, self.right)


# Of each operator an expression with it, and the types of the inputs a and b and of its value.
INT, BOOL = "Integer", "Boolean"
EXPRESSIONS = {
    "Add": ("a + b", INT, INT), "Sub": ("a - b", INT, INT), "Mul": ("a * b", INT, INT), "Quot": ("a / b", INT, INT),
    "Mod": ("a mod b", INT, INT), "Rem": ("a rem b", INT, INT), "Eq": ("a = b", INT, BOOL), "Ne": ("a != b", INT, BOOL),
    "Lt": ("a < b", INT, BOOL), "Le": ("a <= b", INT, BOOL), "Gt": ("a > b", INT, BOOL), "Ge": ("a >= b", INT, BOOL),
    "And": ("a and b", BOOL, BOOL), "Or": ("a or b", BOOL, BOOL), "Xor": ("a xor b", BOOL, BOOL),
    "Neg": ("-a", INT, INT), "Abs": ("abs a", INT, INT), "Not": ("not a", BOOL, BOOL)}


def design_of(expression, given, kind):
    """The text of a design with one thread, which sends the value of one expression."""
    ports = (f"features a: in data port Base_Types::{given}; b: in data port Base_Types::{given}; "
             f"o: out data port Base_Types::{kind};")
    return "\n".join([
        "package One public", "with Base_Types, PALS_Profile;", f"thread K {ports}",
        "properties Dispatch_Protocol => Periodic;", "end K;", "thread implementation K.impl",
        "annex behavior_specification {**", "states s: initial complete state;",
        f"transitions s -[on dispatch]-> s {{o!({expression})}};", "**};", "end K.impl;", f"process P {ports} end P;",
        "process implementation P.impl", "subcomponents t: thread K.impl;",
        "connections c1: port a -> t.a; c2: port b -> t.b; c3: port t.o -> o;", "end P.impl;",
        f"system Top {ports} end Top;", "system implementation Top.impl", "subcomponents p: process P.impl;",
        "connections c1: port a -> p.a; c2: port b -> p.b; c3: port p.o -> o;", "properties Period => 9 ms;",
        "PALS_Profile::Skew => 1 ms; PALS_Profile::Execution => 0 ms .. 3 ms;",
        "PALS_Profile::Network => 1 ms .. 4 ms;", "end Top.impl;", "end One;", ""])


def one_expression_inputs(kind):
    """Inputs for one expression."""
    if kind == INT:
        return operator_inputs()
    pairs = [(False, False), (False, True), (True, False), (True, True)]
    return {"a": [a for a, _ in pairs], "b": [b for _, b in pairs]}, len(pairs)


def test_a_wrong_translation_of_an_operator_is_found():
    """For each operator of a design with one expression, the translation of another operator gives other rows than
    `sync`, and the right one gives the same."""
    expect(set(EXPRESSIONS), {*BINARY, *UNARY}, "the operators")
    for name, (expression, given, kind) in EXPRESSIONS.items():
        text, (inputs, rounds) = design_of(expression, given, kind), one_expression_inputs(given)
        wanted, listing = sync_rows(text, inputs, rounds), read_listing(listing_of(text))
        expect(first_difference(wanted, run_rows(Machine(listing), inputs, rounds)), None, expression)
        method = "unary" if name in UNARY else "binary"
        right = vars(Step)[method]
        with Planted(Step, method, lambda self, place, path, op: right(self, place, path, OTHERS[op])):
            if first_difference(wanted, run_rows(Machine(listing), inputs, rounds)) is None:
                raise Wrong(f"the translation of {name} as {OTHERS[name]} is not found")


def test_a_wrong_gate_is_found():
    """Each mistake in the arithmetic of vectors is found by comparison with the terms."""
    names = ("sum", "product", "choice", "same", "less", "divided", "fits", "size")
    right = {name: vars(Graph)[name] for name in names}
    mistakes = {
        "sum": lambda self, one, two, subtract=0: right["sum"](self, one, two, 1 - subtract),
        "product": lambda self, one, two: right["product"](self, one, one),
        "choice": lambda self, test, one, two: right["choice"](self, test ^ 1, one, two),
        "same": lambda self, one, two: right["same"](self, one, two) ^ 1,
        "less": lambda self, one, two: right["less"](self, two, one),
        "divided": lambda self, one, two: right["divided"](self, one, two)[::-1],
        "fits": lambda self, vector, width: right["fits"](self, vector, width) ^ 1,
        "size": lambda self, vector: vector,
    }
    machine = machine_of(page("nodes/tests/operators.aadl"))
    inputs, rounds = operator_inputs()
    expect(graph_difference(machine, inputs, rounds), None, "without a mistake")
    for name, wrong in mistakes.items():
        with Planted(Graph, name, wrong):
            if graph_difference(machine, inputs, rounds) is None:
                raise Wrong(f"the mistake in {name} is not found")


def test_wrong_comparisons_and_cut_messages_are_found():
    """A comparison of the wrong kind is found, and so is a message with a place that is never sent."""
    expect(len(COMPARISONS), 6, "comparisons")
    text = page("nodes/tests/cut.aadl")
    machine = machine_of(text)
    chance = random.Random(3)
    inputs = {name: [chance.randint(-9, 9) if kind == "Integer" else chance.random() < 0.5 for _ in range(8)]
              for name, (kind, _, _) in machine.inputs.items()}
    wanted = sync_rows(text, inputs, 8)
    expect(first_difference(wanted, run_rows(machine, inputs, 8)), None, "the design with messages that are cut")
    expect(any(it.sent < it.rate for it in machine.design.components), True, "a message is cut")
    listing = read_listing(listing_of(text))
    whole = listing._replace(components=[it._replace(sent=it.rate) for it in listing.components])
    found = run_rows(Machine(whole), inputs, 8)
    expect(first_difference(wanted, found) is not None, True, "messages that are not cut are found")
