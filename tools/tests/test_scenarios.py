"""Scenarios that are made: worlds by clocks, inputs of tables, and campaigns."""

import json
import os
import stat
import subprocess
import tempfile

from lib.commands.ranges import nanos_of, values_of
from lib.running.clocks import Clock
from lib.scenarios.bundles import join, read
from tests.common import EXAMPLES, TOP, WITHIN, built, expect, tool

TURN = os.path.join(EXAMPLES, "turn_controller.aadl")
# A program that takes two beats in two rounds that follow one another as false.
JUDGE = """#!/usr/bin/env python3
import json, sys
found = json.loads(sys.stdin.read().partition("\\n%%%\\n")[2])
beats = found["inputs"]["beat"] + [None] * found["rounds"]
first = [at for at in range(1, found["rounds"]) if beats[at - 1] is True and beats[at] is True][:1]
for at in range(found["rounds"]):
    print(f"round {at}\\ncalm {str(not first or at < first[0]).lower()}")
print(f"watch rounds {found['rounds']} first {f'calm {first[0]}' if first else 'none'}")
sys.exit(bool(first))
"""
# A program that writes rows, with something more that depends on the beats.
ROWS = """#!/usr/bin/env python3
import json, sys
found = json.loads(sys.stdin.read().partition("\\n%%%\\n")[2])
beats = found["inputs"].get("beat", [])
for at in range(found["rounds"]):
    print(f"round {{at}}\\np.a s x={{at + int({extra})}}")
"""
BROKEN = [("skew:p.m", "ClockApart p.m"), ("long:p.t:1", "PastDeadline p.t"), ("early-start:p.l:2", "NotDue p.l"),
          ("late-start:p.r:1", "PastDeadline p.r"), ("early-send:p.m:3", "NotDue p.m"),
          ("slow:p.m.t:2", "PastDeadline p.m.t 2"), ("fast:p.l.target:1", "TooSoon p.l.target 1")]


class Files:
    """A folder with files, by their names."""

    def __init__(self, **texts):
        self.kept = tempfile.TemporaryDirectory()
        for name, text in texts.items():
            self.write(name, text)

    def __enter__(self):
        return self

    def __exit__(self, *_):
        self.kept.cleanup()

    def path(self, name):
        """The path of a file; a name has _ for its dot."""
        return os.path.join(self.kept.name, name.replace("_", "."))

    def write(self, name, text):
        """Writes a file."""
        with open(self.path(name), "wb") as file:
            file.write(text if isinstance(text, bytes) else text.encode())
        return self.path(name)


def answered(words, design, scenario):
    """The status and the text of the built program."""
    given = join("a", design, scenario)
    ran = subprocess.run([built(), *words], input=given, stdout=subprocess.PIPE, timeout=WITHIN, check=False)
    return ran.returncode, ran.stdout.decode()


def worlds(*words, rounds=4):
    """The scenario of a world of the turn controller."""
    with Files(s_json=json.dumps({"rounds": rounds, "inputs": {"goal": [10]}})) as files:
        return tool("world", *words, TURN, files.path("s_json"))


def test_worlds_have_all_rounds():
    """A list has each start, step, finish, send and arrival once, and time never falls."""
    given = ["--clock", "p.m=0.9ms", "--delay", "*=1ms..4ms", "--execution", "*=3ms"]
    for words in ([], ["--random", "--seed", "7"], given):
        status, text, said = worlds(*words)
        expect((status, said), (0, ""), f"world {words}")
        events = json.loads(text)["events"]
        wanted = {"start": 16, "step": 16, "finish": 32, "send": 16, "arrive": 24}
        counts = {kind: sum(event[0] == kind for event in events) for kind in wanted}
        expect(counts, wanted, f"events of {words}")
        passes = [event for event in events if event[0] == "pass"]
        expect([event[1] for event in passes], sorted({event[1] for event in passes}), "times that rise")
        for at in range(4):
            readings = [event[2][at] for event in passes]
            expect(readings, sorted(readings), "readings that do not fall")
    expect(worlds("--random", "--seed", "7"), worlds("--random", "--seed", "7"), "a seed")
    for words, said in ((["--delay", "*=5ms"], "--break"), (["--clock", "p.x=1"], "p.m"),
                        (["--break", "slow:p.x"], "p.m.t"), (["--break", "short:p.m"], "nothing to break"),
                        (["--break", "x:y"], "skew"), (["--drift", "p.m=1s"], "less than a second")):
        status, _, heard = worlds(*words)
        expect((status, said in heard), (1, True), f"world {words}: {heard}")
    expect(worlds("--clock", "p.m")[0], 2, "no range")


def test_clocks_drift_within_the_skew():
    """A clock never goes back, is never off by the skew, reverses at its ends, and reads a target when predicted."""
    for offset, drift, skew in ((0, 0, 5), (3, 10**8, 5), (-4, -(10**9 - 1), 5), (0, 7, 1), (9, 10**9 - 1, 10)):
        clock = Clock(offset, drift, skew)
        expect(clock.offset(0), offset, "the offset at the beginning")
        offsets = [clock.offset(at) for at in range(300)]
        expect(max(map(abs, offsets)) < skew, True, f"the offsets of {offset, drift, skew}")
        expect(all(one <= two + 1 for one, two in zip(offsets, offsets[1:])), True, "a clock goes back")
        for target in range(skew, 200):
            first = next(at for at in range(-skew, 300) if at + clock.offset(at) >= target)
            expect(clock.first(target), first, f"when {offset, drift, skew} reads {target}")
    events = json.loads(worlds("--drift", "p.m=20ms", rounds=9)[1])["events"]
    ahead = [event[2][0] - event[1] for event in events if event[0] == "pass"]
    expect(ahead[0] < 400_000 < 990_000 < max(ahead) < 1_000_000, True, "a clock that gains")
    expect(ahead[-1] < max(ahead), True, "it turns")


def test_worlds_are_accepted():
    """The program accepts the lists, and rejects lists that violate a bound by a nanosecond, at the violation."""
    design = read(TURN)
    expect(answered(["check", "Top.impl"], design, b"{}")[0], 0, "the design")
    for words in ([], *(["--random", "--seed", str(seed)] for seed in range(10)),
                  *(["--random", "--seed", str(seed), "--drift", "p.*=-50ms..50ms"] for seed in range(5)),
                  ["--clock", "p.m=999999", "--clock", "p.[lrt]=-999999", "--execution", "*=3ms", "--delay", "*=4ms"]):
        status, text = answered(["world", "Top.impl"], design, worlds(*words)[1])
        expect((status, text.count("sent ")), (0, 24), f"world {words}: {text[:80]}")
    for word, wanted in BROKEN:
        status, text = answered(["world", "Top.impl"], design, worlds("--random", "--break", word)[1])
        expect((status, wanted in text), (5, True), f"{word}: {text[:80]}")


def test_inputs_of_tables():
    """Tables with a column of rounds and without, with values that hold; an invalid value is named by its line."""
    for table, words, wanted in (
        ("goal,on\n1,true\n,false\n3,\n", [], {"goal": [1, None, 3], "on": [True, False]}),
        ("round;goal\n0;10\n3;-5\n", ["--hold", "--rounds", "5"], {"goal": [10, 10, 10, -5, -5]}),
        ("\ufeffround\tgoal\n2\t7\n", [], {"goal": [None, None, 7]}),
    ):
        with Files(t_csv=table) as files:
            status, text, said = tool("inputs", *words, files.path("t_csv"))
            expect((status, said, json.loads(text)["inputs"]), (0, "", wanted), f"inputs of {table!r}")
    given = '{"rounds": 9, "inputs": {"goal": [5], "x": [1]}, "clocks": "meet"}'
    with Files(t_csv="goal\n1\n2\n", s_json=given) as files:
        found = json.loads(tool("inputs", files.path("t_csv"), files.path("s_json"))[1])
        expect(found, {"rounds": 9, "inputs": {"goal": [1, 2], "x": [1]}, "clocks": "meet"}, "a scenario with a table")
    for table, said in (("goal\n1.5\n", ":2: 1.5 is not a whole number"), ("a,a\n", "none twice"), ("", "name each"),
                        ("round,a\n0,1\n0,2\n", ":3:"), ("a\n1,2\n", "2 cells"),
                        ("a\n9223372036854775808\n", "64 bits")):
        with Files(t_csv=table) as files:
            status, _, heard = tool("inputs", files.path("t_csv"))
            expect((status, said in heard), (1, True), f"inputs of {table!r}: {heard}")


def campaign(program, *words, design=None):
    """The output and messages of a campaign of the pacemaker, with its status."""
    scenario = json.dumps({"rounds": 12, "properties": {"calm": ["halted", "controller.pacer"]}})
    with Files(s_json=scenario, d_aadl=design or read(os.path.join(EXAMPLES, "pacemaker.aadl"))) as files:
        status, text, said = tool("campaign", "--program", program, *words, files.path("d_aadl"), files.path("s_json"))
    return status, text.decode(), said


def test_campaigns_repeat_and_shrink():
    """A campaign finds a false property, shrinks its scenario, and its seed repeats it with any processors."""
    with Files(judge=JUDGE) as files:
        program = files.path("judge")
        os.chmod(program, stat.S_IRWXU)
        found = [campaign(program, "--seed", "3", "--count", "40", "--jobs", jobs) for jobs in ("1", "3")]
        expect(found[0][:2], found[1][:2], "a seed with one processor and with three")
        expect(found[0][0], 1, f"a campaign that finds something: {found[0][2]}")
        scenario = json.loads(found[0][1])
        expect((scenario["rounds"], scenario["inputs"]), (2, {"beat": [True, True]}), "the smallest scenario")
        status, text, said = campaign(program, "--input", "beat=false,null", "--count", "20", "--jobs", "2")
        expect((status, text, "none is false" in said), (0, "", True), said)
        status, text, said = campaign(program, "--all", "--rounds", "3", "--jobs", "2")
        expect((status, "of 8 scenarios" in said, json.loads(text)["rounds"]), (1, True, 2), said)
        for words, wanted in ((["--all", "--rounds", "60"], 1), (["--input", "x=1"], 1), (["--input", "beat=yes"], 2),
                              (["--count", "0"], 2), (["--root", "No.impl"], 1)):
            expect(campaign(program, *words)[0], wanted, f"campaign {words}")
    expect(campaign(os.path.join(TOP, "no_program"))[0], 1, "no program")


def test_campaigns_compare_rows():
    """A scenario is false where another program writes other rows; the first other round is where it is cut."""
    with Files(one=ROWS.format(extra="0"), two=ROWS.format(extra="(at == 2 and beats[1:3] == [True, True])")) as files:
        for name in ("one", "two"):
            os.chmod(files.path(name), stat.S_IRWXU)
        status, text, said = campaign(files.path("one"), "--expect", files.path("two"), "--count", "30")
        found = json.loads(text)
        expect((status, found["rounds"], found["inputs"]["beat"][1:]), (1, 3, [True, True]), said)
        expect("the row is false first in round 2" in said, True, said)
        status, text, said = campaign(files.path("one"), "--expect", files.path("one"), "--count", "10")
        expect((status, text), (0, ""), said)


def test_campaigns_compare_with_a_file():
    """Rows of a file hold for the scenario itself, or for all values of some inputs; lines may be omitted."""
    rows = "".join(f"round {at}\np.a s x={at}\n" for at in range(12))
    with Files(one=ROWS.format(extra="(at == 2 and beats[1:3] == [True, True])"), all_rows=rows,
               no_lines="".join(f"round {at}\n" for at in range(12)), less_rows=rows.replace("x=4", "x=5"),
               short_rows=rows.partition("round 9")[0], bad_rows=rows.replace("round 3", "round 4")) as files:
        os.chmod(files.path("one"), stat.S_IRWXU)
        for name, words, wanted, said in (
                ("all_rows", [], 0, "1 of 1 scenarios"), ("no_lines", [], 0, "none is false"),
                ("less_rows", [], 1, "the row is false first in round 4"), ("short_rows", [], 1, "use --rounds 9"),
                ("short_rows", ["--rounds", "9"], 0, "none is false"), ("bad_rows", [], 1, "no row"),
                ("all_rows", ["--input", "beat=true"], 1, "false first in round 2"),
                ("all_rows", ["--expect", files.path("one")], 2, "not allowed with")):
            status, _, heard = campaign(files.path("one"), "--rows", files.path(name), *words)
            expect((status, said in heard), (wanted, True), f"--rows {name} {words}: {heard}")


def test_campaigns_find_a_planted_mistake():
    """A pacer that does not hear the heart is found, with a scenario of at most three rounds; so are other rows."""
    design = read(os.path.join(EXAMPLES, "pacemaker.aadl"))
    deaf = design.replace(b"sensed > 0", b"sensed > 1")
    status, text, said = campaign(built(), "--against", os.path.join(EXAMPLES, "pacemaker.aadl"), design=deaf)
    expect((status, json.loads(text)["rounds"] <= 3), (1, True), said)
    status, text, said = campaign(built(), "--count", "60", "--against", os.path.join(EXAMPLES, "pacemaker.aadl"))
    expect((status, text), (0, ""), said)


def test_times_and_values():
    """Times with units, and ranges of values that are not written out."""
    for word, wanted in (("3", 3), ("1.5ms", 1_500_000), ("-0.25 ms", -250_000), ("2s", 2 * 10**9), ("7us", 7_000)):
        expect(nanos_of(word), wanted, word)
    values = values_of("0..9223372036854775807,null,true")
    expect(tuple(values.take(2**63 + more) for more in (-1, 0, 1)), (2**63 - 1, None, True), "a wide range")
    values = values_of("3..9,null,false")
    expect([values.simplest(), values.rank(8), values.nearest(8)], [[None, False, 3], 3, 3], "simpler values")
    expect([values_of("-5..9").nearest(-4), values_of("true").nearest(True)], [0, None], "the simplest number")
