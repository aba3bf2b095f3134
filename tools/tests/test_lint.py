"""What lint finds in designs that are accepted."""

import re

from lib.language.model import model_of
from lib.linting.rules import RULES
from lib.running.program import program_at
from lib.scenarios.bundles import Bundle, Refused
from tests.common import Skipped, examples, expect, on_bundle, page, tool

# A train's supervision: the odometer runs four steps in a round of 20 ms, and sends the first three.
TRAIN = """package Train public
thread Odometer features
 speed: out data port Base_Types::Integer;
properties Dispatch_Protocol => Periodic; Period => 5 ms;
end Odometer;
thread implementation Odometer.impl
annex behavior_specification {**
variables v: Base_Types::Integer;
states s: initial complete state;
transitions s -[on dispatch]-> s {v := v + 1; speed!(v)};
**};
end Odometer.impl;
thread Supervisor features
 speed: in data port Base_Types::Integer;
 limit: in data port Base_Types::Integer;
 brake: out data port Base_Types::Boolean;
properties Dispatch_Protocol => Periodic;
end Supervisor;
thread implementation Supervisor.impl
annex behavior_specification {**
states s: initial complete state;
transitions s -[on dispatch]-> s {brake!(speed > limit)};
**};
end Supervisor.impl;
process Cab features
 limit: in data port Base_Types::Integer;
 brake: out data port Base_Types::Boolean;
end Cab;
process implementation Cab.impl
subcomponents
 odometer: thread Odometer.impl;
 supervisor: thread Supervisor.impl;
connections
 c1: port odometer.speed -> supervisor.speed {Timing => Delayed; PALS_Profile::Input_Adaptor => "last";};
 c2: port limit -> supervisor.limit;
 c3: port supervisor.brake -> brake;
end Cab.impl;
system Top features
 limit: in data port Base_Types::Integer;
 brake: out data port Base_Types::Boolean;
end Top;
system implementation Top.impl
subcomponents
 cab: process Cab.impl;
connections
 d1: port limit -> cab.limit;
 d2: port cab.brake -> brake;
properties
 Period => 20 ms;
 PALS_Profile::Skew => 1 ms;
 PALS_Profile::Execution => 0 ms .. 3 ms;
 PALS_Profile::Network => 1 ms .. 4 ms;
end Top.impl;
end Train;
"""
GIVEN = '%%%\n{"rounds": 2, "inputs": {"limit": [2]}}\n'
NOT_ACCEPTED = "lint: b.pals: the design is not accepted; ./pals check reports the reason\n"


def found(design, *words, scenario=GIVEN, refused=False):
    """The findings of lint on a design, as lines and rules; and its status. For a rejected design lint reports this, if
    the program exists."""
    status, text, said = on_bundle("lint", (design + scenario).encode(), *words)
    expect(said in ("", NOT_ACCEPTED if refused else ""), True, f"what lint says: {said}")
    return status, re.findall(r"(?m)^b\.pals:(\d+):\d+: .* \((\S+)\)$", text), text


def test_a_dead_link_is_told():
    """The train's brake would never work: lint reports the link, the position, and three fixes."""
    status, rules, text = found(TRAIN)
    expect((status, rules), (1, [("31", "unsent-steps"), ("34", "dead-link")]), text)
    for part in (
        'the link to cab.supervisor.speed is dead: cab.odometer sends 3 of its 4 steps, and "last" reads none '
        'of them',
        '"latest" reads the last one that is sent, and so does "at 3" in the first group',
        "all 4 are sent with a period of 36 ms or more at the root",
    ):
        expect(part in text, True, text)
    expect(found(TRAIN.replace('"last"', '"latest"'))[1][1], ("34", "thin-adaptor"), "an adaptor over three of four")
    expect(found(TRAIN.replace('"last"', '"at 3"'))[1], [("31", "unsent-steps")], "a step that is sent")
    expect(found(TRAIN.replace("Period => 20 ms", "Period => 36 ms").replace("5 ms", "9 ms"))[:2], (0, []),
           "all are sent")


def test_the_bound_is_that_of_the_page():
    """How many steps are sent, as the table of docs/bound.md has it."""
    for period, sent in ((12, 2), (20, 3), (36, 4)):
        model = model_of(TRAIN.replace("Period => 20 ms", f"Period => {period} ms").encode())
        expect(model.steps_sent(4), sent, f"steps sent at {period} ms")


# A change of the train's supervision, and the findings in addition to the dead link and the unsent steps.
CHANGES = [
    ("no source", " c2: port limit -> supervisor.limit;\n", "", ["no-source", "unread-port"]),
    ("shared", " supervisor: thread Supervisor.impl;\nconnections\n",
     " supervisor: thread Supervisor.impl; spare: thread Supervisor.impl;\nconnections\n c4: port limit -> spare.limit;"
     "\n c5: port odometer.speed -> spare.speed {Timing => Delayed; PALS_Profile::Input_Adaptor => \"at 3\";};\n",
     ["shared-input"]),
    ("no brake", "brake!(speed > limit)", "", ["unread-port", "unread-port", "unset-port"]),
    ("unconnected", " brake: out data port Base_Types::Boolean;\nend Cab",
     " brake: out data port Base_Types::Boolean; spare: out data port Base_Types::Boolean;\nend Cab",
     ["unconnected-port"]),
    ("no scenario value", None, '%%%\n{"rounds": 2, "inputs": {"limit": [null]}}', ["no-input"]),
    ("unread", "states s: initial complete state;\ntransitions s -[on dispatch]-> s {brake",
     "variables w: Base_Types::Integer;\nstates s: initial complete state;\ntransitions s -[on dispatch]-> s {w := 1; "
     "brake", ["unread-variable"]),
    ("unset", "{brake!(speed > limit)}", "{brake!(speed > limit + w)}", ["unset-variable"]),
    ("unreached", "states s: initial complete state;\ntransitions s -[on dispatch]-> s {brake",
     "states s: initial complete state; t: state;\ntransitions t -[otherwise]-> s; s -[on dispatch]-> s {brake",
     ["unreached-state"]),
    ("untaken", "s {brake!(speed > limit)}", "s {brake!(speed > limit)}; s -[limit > 3]-> s {brake!(true)}",
     ["untaken-transition"]),
    ("divisor", "speed > limit", "1 / limit > speed", ["zero-divisor"]),
    ("tested divisor", "speed > limit", "limit != 0 and then 1 / limit > speed", []),
    ("constant", "{brake!(speed > limit)}", "{if (1 > 2) brake!(true) end if; brake!(speed > limit)}",
     ["constant-condition"]),
    ("shadowed", "{brake!(speed > limit)}", "{if (speed > limit) brake!(true) elsif (speed > 9 and speed > limit) "
     "brake!(false) else brake!(limit > 3) end if}", ["shadowed-branch"]),
    ("shadowed transition", "states s: initial complete state;\ntransitions s -[on dispatch]-> s {brake",
     "states s: initial complete state; t: state;\ntransitions t -[speed > 2]-> s; t -[speed > 3]-> s; "
     "t -[otherwise]-> s; s -[on dispatch]-> t {brake", ["shadowed-transition"]),
    ("partial", "speed!(v)};", "if (v > 3) speed!(v) end if};", ["partial-output"]),
    ("mixed", "speed > limit", "speed > limit or limit > 0 and speed > 1", ["mixed-operators"]),
    ("one kind", "speed > limit", "speed > limit and then limit > 0 and speed > 1", []),
    ("misspelt", "Dispatch_Protocol => Periodic;\nend Supervisor",
     "Dispatch_Protocol => Periodic; Dedline => 3; Perriod => 5 ms;\nend Supervisor",
     ["misspelt-property", "ignored-property"]),
    ("applies", " Period => 20 ms;", " Period => 20 ms; Timing => Delayed applies to cab;", ["ignored-property"]),
]
WITH_VARIABLE = ("states s: initial complete state;\ntransitions s -[on dispatch]-> s {brake",
                 "variables w: Base_Types::Integer;\nstates s: initial complete state;\ntransitions s -[on dispatch]-> "
                 "s {brake")


def test_each_rule_finds_its_own():
    """Each change brings the findings of its rule, misspelt properties first, and no others."""
    seen = {"dead-link", "thin-adaptor", "unsent-steps"}
    base = TRAIN.replace('"last"', '"at 3"')
    for name, old, new, wanted in CHANGES:
        design = base.replace(*WITH_VARIABLE) if name == "unset" else base
        scenario = new if old is None else GIVEN
        design = design if old is None else design.replace(old, new)
        _, rules, text = found(design, scenario=scenario, refused=name == "no source")
        rules = [rule for _, rule in rules if rule != "unsent-steps"]
        expect(rules, wanted, f"{name}\n{text}")
        seen |= set(rules)
    expect(seen, set(RULES), "rules that are tried")


def test_a_design_that_is_refused_is_no_clean_one():
    """If the program exists, lint ends with 1 for a design that it rejects, though nothing else is found."""
    try:
        program_at()
    except Refused as why:
        raise Skipped(str(why)) from why
    design = TRAIN.replace("Timing => Delayed; ", "").replace('"last"', '"latest"')
    words = ["--quiet", "unsent-steps", "--quiet", "thin-adaptor"]
    expect(found(design, *words, refused=True)[:2], (1, []), "a link without its Timing")
    expect(found(TRAIN.replace('"last"', '"latest"'), *words)[:2], (0, []), "the same with it")


def test_what_is_meant_is_quiet():
    """--quiet leaves out a rule, what a finding is about, or one rule of one thing; --root names the root."""
    for quiet in (["unsent-steps", "dead-link"], ["cab.odometer", "cab.supervisor.speed"],
                  ["unsent-steps:cab.odometer", "dead-link:cab.supervisor.speed"]):
        words = [word for name in quiet for word in ("--quiet", name)]
        expect(found(TRAIN, *words)[:2], (0, []), f"quiet: {quiet}")
    expect(found(TRAIN, "--root", "Top.impl")[0], 1, "a root that is named")
    status, _, said = on_bundle("lint", (TRAIN + GIVEN).encode(), "--root", "Tip.impl")
    expect((status, said), (1, "lint: there is no system implementation Tip.impl: take Top.impl\n"),
           "a root that is none")
    status, text, said = on_bundle("lint", b"package A")
    expect((status, text, "not a text of the language" in said), (1, "", True), "no text of the language")


def test_explain_lints_what_is_accepted():
    """The findings of lint follow the report of check."""
    answer = b"accepted\nperiod 20000000\ncomponent cab.odometer rate 4\ncomponent cab.supervisor rate 1\n"
    status, text, _ = on_bundle("explain", (TRAIN + GIVEN).encode(), given=answer)
    expect((status, text.startswith(answer.decode()), "(dead-link)" in text), (0, True, True), text)


def test_the_page_has_each_rule():
    """docs/tools.md has a row for each rule, and the examples have no dead links."""
    expect(re.findall(r"(?m)^\| `([a-z]+-[a-z]+)` \|", page("docs/tools.md")), list(RULES), "rules of docs/tools.md")
    for bundle, *_ in examples():
        text = tool("lint", bundle)[1].decode()
        expect([rule for rule in ("dead-link", "misspelt-property", "no-source") if f"({rule})" in text], [], bundle)


def test_the_model_is_that_of_the_report():
    """Rates and links of the examples are the ones that their outputs name."""
    for name in ("turn_controller", "cruise_control", "pacemaker"):
        model = model_of(Bundle("", page(f"examples/{name}.aadl").encode()).design)
        expect(all(model.rate(thread) for thread in model.by_path.values()), True, f"rates of {name}")
        expect(all(model.source(link) in model.threads for link in model.links()), True, f"links of {name}")
