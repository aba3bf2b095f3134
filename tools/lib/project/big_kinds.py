"""Bundles of the largest size, one for each kind of thing that a text can have without end."""

import json
import os

from ..explaining.page import TOP
from ..scenarios.bundles import MOST_BYTES, read

DESIGN = os.path.join(TOP, "examples", "two_counters.aadl")
# A scenario with the fields that the commands need.
FIELDS = {
    "rounds": 3,
    "events": [],
    "trace": [],
    "properties": {"up": ["var", "p.a", "x", ">", 0]},
    "replicas": ["p.a"],
    "plants": {"p.a": "p.b"},
    "processors": {"cpu": {"nanos": 1, "components": ["p.a", "p.b"]}},
}
# The last field of a scenario that is to be made longer.
MARK = "@"


def text(value):
    """A value as JSON, in few bytes."""
    return json.dumps(value, separators=(",", ":"))


def bundle(design, scenario):
    """The two joined."""
    return design + b"%%%\n" + scenario.encode()


def filled(front, piece, back, joint=""):
    """A text of the largest size: between two parts as many pieces as there is room for, with joints between."""
    front, back, joint = front.encode(), back.encode(), joint.encode()
    pieces, size, number = [], MOST_BYTES - len(front) - len(back), 0
    while True:
        made = (joint if pieces else b"") + piece(number).encode()
        if len(made) > size:
            return front + b"".join(pieces) + back
        pieces.append(made)
        size, number = size - len(made), number + 1


def in_design(old, piece, around="{}", variables=""):
    """A design with as many pieces as there is room for at a place, and the scenario with all fields."""
    design = read(DESIGN).decode().replace("states\n", f"{variables}states\n", 1)
    front, back = design.split(old, 1)
    before, after = around.split("{}")
    return filled(front + old + before, piece, f"{after}{back}%%%\n{text(FIELDS)}")


def in_scenario(field, value, piece, most=1_000_000):
    """The design, and a scenario one of whose fields has at most so many pieces, as many as there is room for."""
    whole = text({**FIELDS, field: value}).replace(f'"{MARK}"', MARK)
    front, back = (read(DESIGN).decode() + "%%%\n" + whole).split(MARK)
    room = MOST_BYTES - len(front) - len(back)
    made, size = [], 0
    for number in range(most):
        it = piece(number)
        size += len(it) + 1
        if size > room:
            break
        made.append(it)
    return (front + ",".join(made) + back).encode()


def padded(data):
    """A bundle with blanks after it, up to the largest size."""
    return data + b" " * (MOST_BYTES - len(data))


BODY = "{x := x + i + 1; o!(x)"
# An object in objects, as deep as JSON may be inside of the field.
DEEP = '{"":' * 123 + "1" + "}" * 123
KINDS = {
    "blanks after the scenario": lambda: padded(bundle(read(DESIGN), text(FIELDS))),
    "one comment": lambda: filled("--", lambda _: "-" * 1023, "\n" + bundle(read(DESIGN), text(FIELDS)).decode()),
    "no divider": lambda: b"-" * MOST_BYTES,
    "one byte too many": lambda: b"-" * (MOST_BYTES + 1),
    "thread types that nothing uses": lambda: in_design("end Counter.impl;\n", lambda n: f"thread T{n} end T{n};\n"),
    "types of one name": lambda: in_design("end Counter.impl;\n", lambda _: "thread T end T;\n"),
    "properties that mean nothing": lambda: in_design(" Period => 9 ms;\n", lambda n: f" Note{n} => {n};\n"),
    "numbers of one property": lambda: in_design(" Period => 9 ms;\n", lambda _: "1,", " Note => ({}1);\n"),
    "lists in a list of one property": lambda: in_design(" Period => 9 ms;\n", lambda _: "((1)),", " Note => ({}1);\n"),
    "names of one property": lambda: in_design(" Period => 9 ms;\n", lambda _: "a,", " Note => ({}a);\n"),
    "threads in one process": lambda: in_design("subcomponents\n", lambda n: f" t{n}: thread Counter.impl;\n"),
    "connections in one process": lambda: in_design(
        "connections\n", lambda n: f" d{n}: port a.o -> b.i {{Timing => Delayed;}};\n"),
    "ports of one thread": lambda: in_design("features\n", lambda n: f" i{n}: in data port Base_Types::Integer;\n"),
    "variables of one thread": lambda: in_design("variables\n", lambda n: f" v{n}: Base_Types::Integer;\n"),
    "states of one thread": lambda: in_design("states\n", lambda n: f" s{n}: state;\n"),
    "transitions of one thread": lambda: in_design("transitions\n", lambda _: " s -[x > 0]-> s;\n"),
    "actions of one step": lambda: in_design(BODY, lambda _: "; x := x + 1"),
    "short actions of one step": lambda: in_design(BODY, lambda _: ";x:=1"),
    "findings": lambda: in_design(BODY, lambda _: "+b", ";x:=0{}", " b: Base_Types::Boolean;\n"),
    "one long sum": lambda: in_design(BODY, lambda _: " + 1", "; x := 0{}"),
    "brackets in brackets": lambda: in_design(BODY, lambda _: "(", "; x := {}"),
    "values of a port that there is not": lambda: in_scenario("inputs", {"goal": [MARK]}, str, 10**9),
    "events": lambda: in_scenario("events", [MARK], lambda _: '["start","p.a"]'),
    "too many events": lambda: in_scenario("events", [MARK], lambda _: "[]", 10**9),
    "passes of time": lambda: in_scenario("events", [MARK], lambda n: f'["pass",{n},[{n},{n}]]'),
    "readings of a clock": lambda: in_scenario("clocks", {"p.a": [MARK], "p.b": []}, lambda n: str(9_000_000 + n)),
    "delays of a link": lambda: in_scenario("delays", {"p.b.i": [MARK]}, lambda n: str(n % 4_000_000)),
    "lines of a trace": lambda: in_scenario("trace", [MARK], lambda n: f'"round {n}"'),
    "one line of a trace": lambda: in_scenario("trace", [MARK], lambda _: '"' + "x" * (MOST_BYTES - 2000) + '"', 1),
    "forms of a property": lambda: in_scenario(
        "properties", {"p": ["and", ["halted", "p.a"], MARK]}, lambda _: '["halted","p.a"]', 10**9),
    "faults of replicas": lambda: in_scenario(
        "faults", [MARK], lambda n: f'["p.a",1,"p.b.i",1,{n % 100_001},[{n}]]', 10**9),
    "processors": lambda: in_scenario("processors", MARK, lambda n: f'"c{n}":{{}}', 10**9),
    "objects in objects": lambda: in_scenario("inputs", {"goal": [MARK]}, lambda _: DEEP, 10**9),
    "lists in lists": lambda: padded(bundle(read(DESIGN), "["))[: MOST_BYTES // 2] + b"[" * (MOST_BYTES // 2),
    "all rounds that there may be": lambda: bundle(read(DESIGN), text({**FIELDS, "rounds": 100_000})),
}
