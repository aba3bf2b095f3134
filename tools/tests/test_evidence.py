"""Records of runs that went wrong: clocks that are off, crashes, restarts, readings that jump, runs that are long."""

import json
import os
import random
import tempfile

from lib.nodes.joined_bundle import joined_bundle
from lib.nodes.joining import Joined
from lib.nodes.record_ends import endings, jumps, other_designs
from lib.nodes.records import read_record
from lib.scenarios.bundles import Bundle, Refused
from tests.common import expect, page, tool
from tests.nodes import (MORE, audited, compilers, design_nodes, pals, program_of, recorded_within, records_in)

RUNS, ROUNDS, MS = 120 if MORE else 12, 20, 1_000_000
STEP = 20_000


class Run:
    """The turn controller with clocks that are off."""

    def __init__(self):
        self.text = page("examples/turn_controller.aadl")
        self.nodes = design_nodes(self.text)
        self.program = program_of(page("examples/turn_controller.listing"), "tests/offsets.c", compilers()[0], ["-O1"])
        self.given = {"rounds": ROUNDS, "inputs": {"goal": [10]}}

    def records(self, offsets, delays, *more):
        """The output of a run, as lines with the path of their node before them."""
        return self.program.run(self.given, str(STEP), *map(str, [*offsets, *delays, *more]))

    def read(self, output):
        """The records in an output."""
        return {path: read_record(text, path, self.nodes) for path, text in records_in(self.nodes, output).items()}

    def joined(self, output):
        """The joined trace of an output, or why there is none."""
        try:
            return Joined(self.nodes, self.read(output), ROUNDS), None
        except Refused as why:
            return None, str(why)


def broken_surely(output, nodes):
    """Whether a message took 1 ms less twice the skew of 1 ms, or less, by the readings of the records."""
    sends, found = {}, False
    for line in output.split("\n")[:-1]:
        words = line.split(" ")
        if words[1] == "send":
            sends[words[2], words[3]] = int(words[4])
    for line in output.split("\n")[:-1]:
        words = line.split(" ")
        key = (nodes.links[words[2]][0], words[3]) if words[1] == "arrive" else None
        found = found or (key in sends and int(words[4]) - sends[key] <= 1 * MS - 2 * MS)
    return found


def test_one_clock_that_is_off():
    """A clock that is off by up to 6 ms: the trace is sound or refused, records that break a bound for certain are
    outside of the bounds, and the clock is named."""
    run, source, named, outside = Run(), random.Random(3), 0, 0
    for number in range(RUNS):
        offsets = [source.randint(-900_000, 900_000) for _ in range(4)]
        delays = [source.randint(1 * MS, 3_900_000) for _ in range(6)]
        wrong, sign = source.randrange(4), source.choice((1, -1))
        if number % 4:
            offsets[wrong] = sign * source.randint(4 * MS, 6 * MS)
        output = run.records(offsets, delays)
        trace, why = run.joined(output)
        if trace:
            given = {**run.given, "rounds": trace.rounds or ROUNDS}
            expect(audited(run.text, given, trace)[1][:6], "sound ", f"{offsets} {delays}")
        status, found = recorded_within(run.text, run.nodes, output)
        expect(status or not broken_surely(output, run.nodes), 1 if status else True, f"{offsets} {delays}: {found}")
        if number % 4 == 0:
            expect((status, why), (0, None), f"clocks within the skew: {offsets} {delays} {found}")
            continue
        outside += status
        path, way = run.nodes.paths[wrong], "ahead of" if sign > 0 else "behind"
        named += f"likely at fault: the clock of {path}, which is {way} the time" in found
        others = [it for it in run.nodes.paths if f"the clock of {it}, which" in found]
        expect(others in ([], [path]), True, f"{path} is off: {offsets} {delays}: {found}")
    expect(outside * 2 >= RUNS and named * 4 >= RUNS, True, f"{outside} of {RUNS} outside, {named} named")


def good_output(run):
    """The output of a run within the bounds."""
    return run.records([100_000, -200_000, 300_000, 0], [1_500_000] * 6)


def without_end(text, rounds):
    """A record that ends in the middle of a line of a round, as a killed node leaves it."""
    at = text.index(f"finish p.l {rounds}")
    return text[: at + 5]


def test_a_killed_node():
    """The records of a run with a killed node are sound up to there, with the stop of the node that missed it."""
    run = Run()
    texts = records_in(run.nodes, good_output(run))
    texts["p.l"] = without_end(texts["p.l"], 12)
    texts["p.m"] = texts["p.m"][: texts["p.m"].index("start p.m 13")].replace(
        next(line for line in texts["p.m"].split("\n") if line.startswith("arrive p.m.l 12")) + "\n", "")
    texts["p.m"] += "stop missed p.m.l 12 280100000\n"
    for path in ("p.r", "p.t"):
        texts[path] = texts[path][: texts[path].index(f"arrive {path}.target 13")] + \
            f"stop missed {path}.target 13 300500000\n"
    records = {path: read_record(text, path, run.nodes) for path, text in texts.items()}
    trace = Joined(run.nodes, records, ROUNDS)
    expect(trace.notes, ["the last line of p.l has no end and is omitted"], "the notes")
    expect(audited(run.text, run.given, trace), (0, "sound rounds 12 stop p.m.l 12\n"), "the audit")
    said = list(endings(records, run.nodes))
    expect(any("the record of p.l ends after 12 whole rounds without a stop, at `start p.l 12" in it for it in said),
           True, said)
    expect("p.m stopped in round 13: the message of round 12 to p.m.l was not there" in said, True, said)
    expect(said[-1], "the last node to stop was p.t, in round 14", "the last stop")


def test_records_that_end_without_a_stop():
    """If all records end without a stop, the rounds that all of them have are audited."""
    run = Run()
    texts = records_in(run.nodes, good_output(run))
    texts["p.r"] = texts["p.r"][: texts["p.r"].index("row 7 p.r")]
    records = {path: read_record(text, path, run.nodes) for path, text in texts.items()}
    trace = Joined(run.nodes, records, ROUNDS)
    expect((trace.rounds, trace.notes), (7, ["the record of p.r ends in round 7 without a stop"]), "the cut")
    expect(audited(run.text, {**run.given, "rounds": 7}, trace), (0, "sound rounds 7 stop none\n"), "the audit")
    del records["p.r"].lines[:]
    try:
        Joined(run.nodes, records, ROUNDS)
    except Refused as why:
        expect(str(why), "no round can be audited: the record of p.r ends in round 0 without a stop", "an empty record")


def test_a_restarted_node():
    """The lines of a restarted node are omitted, also after a stop."""
    run = Run()
    texts = records_in(run.nodes, good_output(run))
    first = texts["p.t"][: texts["p.t"].index("start p.t 9")]
    for again in ("start p.t 0 400000000\nfinish p.t 0\n", "design p.t 0123456789abcdef\n"):
        record = read_record(first + again, "p.t", run.nodes)
        expect([note[:29] for note in record.notes], ["p.t was started again at line"], "the note")
        expect(record.lines, read_record(first, "p.t", run.nodes).lines, "the lines")
    stopped = first + "stop missed p.t.target 8 200000000\ndesign p.t 0123456789abcdef\nstart p.t 0 9\n"
    expect(read_record(stopped, "p.t", run.nodes).lines[-1].kind, "stop", "a stop before it")


def test_a_reading_that_jumps():
    """A reading that is an hour ahead is named, and the rounds before it are sound."""
    run = Run()
    output = run.records([0] * 4, [1_500_000] * 6, "jump", 3, 202 * MS, 3_600_000 * MS)
    trace, why = run.joined(output)
    expect(why, None, "the joined trace")
    verdict = audited(run.text, {**run.given, "rounds": trace.rounds or ROUNDS}, trace)
    expect((verdict[0], verdict[1][:15]), (0, "sound rounds 10"), f"the audit: {verdict} {trace.notes}")
    found = list(jumps(run.read(output), run.nodes))
    expect([it[:48] for it in found], ["the reading of p.t jumps by 3,599,997 ms in roun"], found)


def test_nodes_of_different_designs():
    """A node that ran another design is named."""
    run = Run()
    texts = records_in(run.nodes, good_output(run))
    for path, number in zip(run.nodes.paths, "1121"):
        texts[path] = f"design {path} {number * 16}\n" + texts[path]
    records = {path: read_record(text, path, run.nodes) for path, text in texts.items()}
    expect(list(other_designs(records)), [f"p.r ran the design {'2' * 16}, and p.m ran {'1' * 16}"], "the designs")


def test_a_long_run():
    """Of a run that is too long for a bundle the first rounds that fit are joined."""
    text = page("examples/two_counters.aadl") + "-- padding\n" * 1_520_000
    bundle, nodes = Bundle("long", text.encode()), design_nodes(page("examples/two_counters.aadl"))
    program = program_of(page("examples/two_counters.listing"), "tests/meeting.c", compilers()[0], ["-O1"])
    output = records_in(nodes, program.run({"rounds": 400}))
    records = {path: read_record(lines, path, nodes) for path, lines in output.items()}
    made, notes, _ = joined_bundle(bundle, {"rounds": 400}, nodes, records, None)
    found = json.loads(Bundle("made", made).scenario)
    expect(100 < found["rounds"] < 400 and len(made) <= 16_777_216, True, f"{found['rounds']} rounds")
    expect(notes, ["400 rounds are too long for a bundle, which holds 16,777,216 bytes",
                   f"the trace has the first {found['rounds']} rounds"], "the notes")
    found = {name: found[name] for name in ("rounds", "trace")}
    expect(pals(["audit", "Top.impl"], page("examples/two_counters.aadl"), found),
           (0, f"sound rounds {found['rounds']} stop none\n"), "the audit")



# What the two counters do until p.a holds a value in round 1, and after a restart of both at round 4.
HELD_A = """start p.a 0 9000000
finish p.a 0
row 0 p.a s x=1
send p.a 0 10000000
hold p.a.i 0 18000000
start p.a 1 18000000
finish p.a 1
row 1 p.a s x=2
send p.a 1 19000000
restart p.a 4 40000000
"""
HELD_B = """start p.b 0 9000000
finish p.b 0
row 0 p.b s x=1
send p.b 0 10000000
arrive p.b.i 0 12000000 kept
start p.b 1 18000000
finish p.b 1
row 1 p.b s x=3
send p.b 1 19000000
restart p.b 4 40000000
"""
AGAIN = """start p.X 4 45000000
finish p.X 4
row 4 p.X s x=1
send p.X 4 46000000
arrive p.X.i 4 48000000 kept
start p.X 5 54000000
finish p.X 5
row 5 p.X s x=3
send p.X 5 55000000
"""


def test_held_values_and_a_restart():
    """A run is audited up to the first held value, and again from a restart on."""
    text = page("examples/two_counters.aadl")
    with tempfile.TemporaryDirectory() as where:
        for name, lines in (("d.aadl", text), ("s.json", '{"rounds": 6}'), ("p.a", HELD_A + AGAIN.replace("X", "a")),
                            ("p.b", HELD_B + AGAIN.replace("X", "b"))):
            with open(os.path.join(where, name), "w", encoding="ascii") as file:
                file.write(lines)
        words = [where, os.path.join(where, "d.aadl"), os.path.join(where, "s.json")]
        for part, rounds, said in (("0", 1, "p.a began round 1 with a held value"), ("1", 2, "")):
            status, written, noted = tool("join", "--part", part, *words)
            expect((status, said in noted), (0, True), noted)
            given = json.loads(Bundle("joined", written).scenario)
            expect(pals(["audit", "Top.impl"], text, given), (0, f"sound rounds {rounds} stop none\n"), f"part {part}")
        status, _, noted = tool("join", "--part", "2", *words)
        expect((status, "p.a has 1 restarts in its record" in noted), (1, True), noted)
