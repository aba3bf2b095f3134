"""A component that a trap halts is reported everywhere: the round, the step, the trap and the operator's place."""

import json
import os
import random
import tempfile

from lib.explaining.traps import traps_of
from lib.language import tree
from lib.language.composition import adapted
from lib.language.conditions import verdict
from lib.language.grammar import Grammar
from lib.language.interpreter import Frame, Trap
from lib.running.program import ask_program
from lib.running.random_designs import DesignMaker, design_text, scenario
from lib.scenarios.bundles import Bundle
from tests.common import EXAMPLES, built, expect, explained, on_bundle, tool
from tests.test_scenarios import Files

# A control law that divides by an in port, which holds 0 until the meter's first message arrives in round 1.
LAW = """package Control public
thread Law features
 total, count: in data port Base_Types::Integer;
 mean: out data port Base_Types::Integer;
properties Dispatch_Protocol => Periodic;
end Law;
thread implementation Law.impl
annex behavior_specification {**
variables last: Base_Types::Integer;
states s: initial complete state;
transitions
 s -[on dispatch]-> s {last := total / count; mean!(last)};
**};
end Law.impl;
thread Meter features
 total: out data port Base_Types::Integer;
 count: out data port Base_Types::Integer;
properties Dispatch_Protocol => Periodic;
end Meter;
thread implementation Meter.impl
annex behavior_specification {**
variables n: Base_Types::Integer;
states s: initial complete state;
transitions
 s -[on dispatch]-> s {n := n + 1; total!(n * 10); count!(n)};
**};
end Meter.impl;
process P features
 mean: out data port Base_Types::Integer;
end P;
process implementation P.impl
subcomponents
 meter: thread Meter.impl;
 law: thread Law.impl;
connections
 c1: port meter.total -> law.total {Timing => Delayed;};
 c2: port meter.count -> law.count {Timing => Delayed;};
 c3: port law.mean -> mean;
end P.impl;
system Top features
 mean: out data port Base_Types::Integer;
end Top;
system implementation Top.impl
subcomponents p: process P.impl;
connections d1: port p.mean -> mean;
properties
 Period => 20 ms; PALS_Profile::Skew => 1 ms; PALS_Profile::Execution => 0 ms .. 3 ms;
 PALS_Profile::Network => 1 ms .. 4 ms;
end Top.impl;
end Control;
%%%
{"rounds": 2, "properties": {"small": ["var", "p.law", "last", "<", 100]}}
""".replace(" total, count: in", " total: in data port Base_Types::Integer; count: in")
ROWS = """round 0
p.meter s n=1
p.law halted(zero-divisor) last=0
out mean (_)
round 1
p.meter s n=2
p.law halted(zero-divisor) last=0
out mean (_)
"""
WATCHED = "round 0\nsmall true\nround 1\nsmall true\nwatch rounds 2 first none\n"
JOURNAL = "start p.meter 0 20000000\nstart p.law 0 20000000\nsend p.law 0 21000000\nsend p.meter 0 21000000\n"
PLACE = "b.pals:12:38: p.law halts in round 0, step 0: the divisor of `/` is 0 here (trap)"


def test_explain_names_the_operator():
    """Rows, verdicts and traces: a line at the operator, and with --strict the status 1."""
    for answer in (ROWS, WATCHED, ROWS + JOURNAL):
        status, text = explained(LAW.encode(), answer)
        expect((status, PLACE in text, "count is an in port: it holds 0" in text), (0, True, True), text)
        expect(on_bundle("explain", LAW.encode(), "--strict", given=answer.encode())[0], 1, "the status with --strict")
    healthy = LAW.replace("total / count", "total + count")
    expect(on_bundle("explain", healthy.encode(), "--strict", given=WATCHED.encode())[::2], (0, ""), "no trap")


def test_a_trap_of_other_rows_has_its_thread():
    """Rows that are not the design's, as with plants or replicas, still bring a finding, at the one division."""
    shown = ROWS.replace("p.law halted", "p.law#2 halted").replace("n=1", "n=7")
    text = explained(LAW.encode(), shown)[1]
    expect("b.pals:12:38: p.law#2 halts in round 0: a divisor is 0 (trap)" in text, True, text)


def test_pictures_and_reports_are_red():
    """The chip of a report, the cross of a timeline and the line of a plot; statuses with --strict."""
    with tempfile.TemporaryDirectory() as folder:
        for name, text in (("b.pals", LAW), ("rows", ROWS), ("watch", WATCHED)):
            with open(os.path.join(folder, name), "w", encoding="utf-8") as file:
                file.write(text)
        words = ["--strict", "--answer", "rows", "--answer", "watch", "b.pals"]
        status, page, _ = tool("report", *words, folder=folder)
        chip = '<li class="bad">p.law halted in round 0, step 0: zero-divisor</li>'
        expect((status, chip in page.decode(), PLACE in page.decode()), (1, True, True), "report")
        for bundle in (["b.pals"], []):
            drawn = tool("timeline", "--strict", *bundle, given=(ROWS + JOURNAL).encode(), folder=folder)
            expect((drawn[0], b"halted: zero-divisor" in drawn[1], "p.law" in drawn[2]), (1, True, True), "timeline")
        plotted = tool("plot", "p.law.last", given=ROWS.encode(), folder=folder)[1].decode()
        expect("p.law halts in round 0" in plotted and "halted: p.law in round 0" in plotted, True, "plot")


def test_a_campaign_finds_traps():
    """Halts are reported with their place; with --strict they are false, and reduced to one round."""
    given = LAW.replace(" c2: port meter.count -> law.count {Timing => Delayed;};", " c2: port d -> law.count;")
    given = given.replace("connections d1", "connections d0: port d -> p.d; d1")
    for kind in ("process P", "system Top"):
        given = given.replace(f"{kind} features", f"{kind} features d: in data port Base_Types::Integer;")
    words = ["--program", built(), "--count", "20", "--rounds", "3", "--jobs", "2", "--input", "d=0..2"]
    status, text, said = on_bundle("campaign", given.encode(), *words)
    expect((status, text, "none is false; components halt in" in said, "b.pals:12:38: p.law halts" in said),
           (0, "", True, True), said)
    status, text, said = on_bundle("campaign", given.encode(), "--strict", *words)
    expect((status, json.loads(text)["rounds"], json.loads(text)["properties"].keys()), (1, 1, {"small"}), text)
    expect("no_trap is false first in round" in said and "b.pals:12:38: p.law halts in round 0" in said, True, said)
    expect(on_bundle("campaign", given.encode(), "--strict", *words[:-1], "d=1..2")[0], 0, "divisors that are not 0")


def expression(text):
    """The tree of an expression."""
    cursor = Grammar(b"annex behavior_specification {** " + text.encode() + b" **}")
    for _ in range(3):
        cursor.next()
    return cursor.expression().root


class Nothing:
    """A machine with the in port p, which holds 3."""

    state, variables, held = "s", {"x": 7}, {"p": 3}


def value_of(text):
    """The value of an expression, or the name of the trap and its operator."""
    try:
        return Frame(Nothing(), {"p": True}).value(expression(text))
    except Trap as trap:
        return trap.kind, trap.operator.word


def test_values_by_hand():
    """Quotients and remainders of docs/language.md, precedence, short-circuits, and traps at their operator."""
    great = 2**63 - 1
    for text, wanted in (
        ("-7 / 2", -3), ("-7 rem 3", -1), ("7 mod (-3)", -2), ("9 - 4 - 3", 2), ("-x + p * 2", -1), ("p'fresh", 1),
        ("(x = 0) or else (1 / (x - 7) > 0)", ("zero-divisor", "/")), ("x = 0 and then 1 / 0 > 0", 0),
        ("x = 7 or 1 rem 0 > 0", ("zero-divisor", "rem")), (f"{great} + 1", ("overflow", "+")),
        (f"-{great} - 1", -great - 1), (f"(-{great} - 1) / (-1)", ("overflow", "/")),
        (f"(-{great} - 1) rem (-1)", 0), (f"abs (-{great} - 1)", ("overflow", "abs")), ("not (x < 3) xor false", 1),
        (" + ".join(["1"] * 5000), 5000),
    ):
        expect(value_of(text), wanted, text[:60])


def test_adaptors_by_hand():
    """The adaptors of docs/language.md."""
    for adaptor, places, rate, wanted in (
        ("repeat", [7], 4, [7] * 4), ("first", [7], 4, [7, None, None, None]), ("at 2", [7], 2, [None, 7]),
        ("average", [4, None, 5, None], 1, [4]), ("average", [-4, None, -5, None], 1, [-4]),
        ("latest", [1, None, 3, None], 2, [1, 3]), ("last", [1, 2, 3, None], 2, [2, None]),
        ("max", [None, None], 1, [None]), ("at 3", [1, 2, 3, 4], 1, [3]), ("min", [3, 1, 2, 9], 2, [1, 2]),
    ):
        expect(adapted(adaptor, places, rate), wanted, f"{adaptor} of {places} to {rate}")


def test_traps_of_random_designs():
    """The components that the program's rows show as halted are the ones that are found, each with an operator."""
    program, count = built(), 0
    for seed in range(60):
        chance = random.Random(f"traps/{seed}")
        design = DesignMaker(chance).made()
        given = scenario(chance, {name: kind for name, kind, *_ in design.inputs}, 6)
        bundle = Bundle("b.pals", f"{design_text(design)}%%%\n{json.dumps(given)}".encode())
        rows = ask_program(program, ["sync", "Top.impl"], bundle.data)[1]
        found = traps_of(bundle, rows)
        expect(len(found.found), rows.split("round 5")[-1].count(" halted("), f"traps of seed {seed}")
        expect([it for it in found.halts if it.step is None], [], f"places of seed {seed}")
        count += len(found.found)
    expect(count > 10, True, f"{count} traps")


def test_constant_conditions():
    """Conditions that are always true or false, and conditions that are neither."""
    for text, wanted in (
        ("x < 0 and x > 5", False), ("x < 5 or x > 3", True), ("x = x", True), ("x != x", False), ("1 + 1 = 2", True),
        ("x > 5", None), ("x < 5 or x > 5", None), ("x < 5 or x >= 5", True), ("p'fresh and not p'fresh", False),
        ("not (1 > 2)", True), ("x = 3 and x != 3", False), ("x / 0 = 1", None), ("2 < x and 4 > x", None),
        ("3 < x and 4 > x", False), ("x < 5 or true", True), ("y > 0 and x < 0", None),
    ):
        expect(verdict(expression(text)), wanted, text)
    expect(isinstance(expression("x"), tree.Read), True, "a name")


def test_a_campaign_without_room_for_traps_says_so():
    """A scenario with 64 properties has no room for the one that shows halts: --strict rejects it."""
    properties = {f"p{at}": ["not", ["halted", "controller.pacer"]] for at in range(64)}
    with Files(s_json=json.dumps({"rounds": 2, "properties": properties})) as files:
        words = ("campaign", "--program", built(), "--count", "2", os.path.join(EXAMPLES, "pacemaker.aadl"),
                 files.path("s_json"))
        status, _, said = tool(*words)
        expect((status, "components that halt are not looked for" in said), (0, True), said)
        status, _, said = tool(words[0], "--strict", *words[1:])
        expect((status, "64: omit one" in said), (1, True), said)
