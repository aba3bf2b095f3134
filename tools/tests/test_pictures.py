"""Pictures, tables and waves."""

import os
import shutil
import sys
import tempfile
import xml.dom.minidom
from collections import namedtuple

from lib.drawing.crate_picture import CratePicture
from lib.drawing.graph import Box, Wire
from lib.drawing.graph_dot import dot_text, drawn_by_dot
from lib.project.crates import chains, dependencies, direct, purposes
from lib.running.rows import Report
from lib.scenarios.bundles import read
from tests.common import EXAMPLES, TOP, Skipped, answers, expect, page, tool

# The parts of a design that are drawn.
Shown = namedtuple("Shown", "boxes wires")

PICTURES = [
    ("accepted_round", ["timeline", "examples/turn_world.pals"], "turn_world.world"),
    ("late_message", ["timeline", "examples/turn_world_late.pals"], "turn_world_late.world"),
    ("lost_message", ["timeline", "examples/lost_message.pals"], "lost_message.journal"),
    ("trace", ["timeline", "examples/turn_trace.pals"], "turn_trace.audit"),
    ("values", ["plot", "--watch", "examples/pacemaker_watch.watch", "controller.pacer", "pace"], "pacemaker.rounds"),
    ("design", ["graph", "--layout", "own", "examples/turn_controller.aadl"], None),
    ("timetable", ["timetable"], "turn_budget.budget"),
    ("crates", ["crate_graph"], None),
]


def test_tools_draw_the_pictures():
    """The pictures of the docs are made from the examples; --write-pictures makes them anew."""
    for picture, words, name in PICTURES:
        status, drawn, said = tool(*words, given=read(os.path.join(EXAMPLES, name)) if name else b"")
        expect((status, said), (0, ""), f"{words} of {name}")
        expect_picture(picture, drawn)


def expect_picture(picture, drawn):
    """A picture of the docs is one that was drawn."""
    path = os.path.join(TOP, "docs", "pictures", f"{picture}.svg")
    if "--write-pictures" in sys.argv:
        with open(path, "wb") as file:
            file.write(drawn)
    expect(read(path) == drawn, True, f"{path} is not what is drawn")


def test_the_text_for_graphviz():
    """It has each process as a cluster and each link as an edge; `dot` draws it, also with names that are markup."""
    status, text, _ = tool("graph", "--dot", "examples/turn_controller.aadl")
    lines = text.decode().split("\n")
    parts = sum("subgraph" in line for line in lines), sum(" -> " in line for line in lines)
    expect((status, *parts), (0, 1, 7), "parts")
    expect(tool("graph", "--dot", "--layout", "own", "examples/turn_controller.aadl")[0], 2, "two forms")
    if not shutil.which("dot"):
        raise Skipped("dot is not installed (Debian: graphviz)")
    boxes = {("thread", name): Box(name, 'rate "1"', "k0") for name in ('a.<b>&"', "a.b.{c|d}")}
    wires = [Wire(("thread", "a.b.{c|d}"), ("thread", 'a.<b>&"'), "at 1 \\N-->", "note <i>", "wire")]
    drawn = drawn_by_dot(dot_text(Shown(boxes, wires), "The <design>"))
    texts = [it.firstChild.data for it in xml.dom.minidom.parseString(drawn.encode()).getElementsByTagName("text")]
    expect({'<b>&"', "at 1 \\N-->", "{c|d}", "The <design>"} <= set(texts), True, f"{texts}")
    drawn = tool("graph", "examples/turn_controller.aadl")[1].decode()
    expect((drawn.count('class="node"'), "average, 3 of 4" in drawn, "xlink:title" in drawn), (5, True, False), "drawn")


def test_the_picture_of_the_crates_is_whole():
    """It has a box for each crate but the tests, in as many rows as the longest chain has crates."""
    below, shown = dependencies(page("crates.txt")), purposes(page("docs/crates.md"))
    tests = {"case_files", *(name for name in below if name.endswith("_tests"))}
    expect(set(shown), set(below) - tests, "crates in the picture")
    expect(len(CratePicture(below, shown).rows), max(chains(below).values()), "rows")
    expect(direct({"a": ["b", "c"], "b": ["c"], "c": []}), {"a": ["b"], "b": ["c"], "c": []}, "direct dependencies")


def test_pictures_of_what_is_made():
    """A world at random, which is drawn by its events, and a design that was imported."""
    given = ["--random", "--seed", "7", "examples/two_counters.aadl", "examples/two_counters.json"]
    osate = [f"tools/tests/osate/{name}.aadl" for name in ("Vehicle_Types", "Vehicle")]
    with tempfile.TemporaryDirectory() as folder:
        for name, words in (("world.json", ["world", *given]), ("car.aadl", ["import", *osate])):
            with open(os.path.join(folder, name), "wb") as file:
                file.write(tool(*words)[1])
        world = tool("timeline", "examples/two_counters.aadl", os.path.join(folder, "world.json"))
        graph = tool("graph", "--layout", "own", os.path.join(folder, "car.aadl"))
    for picture, (status, drawn, said) in (("random_world", world), ("imported", graph)):
        expect((status, said), (0, ""), picture)
        expect_picture(picture, drawn)


JOURNAL = b"""start p.a 0 9000000
finish p.a 0
send p.a 0 10000000
arrive p.b.i 0 9500000 early
stop early p.b.i 0 9500000
"""


def test_timeline_draws_each_kind():
    """Journals with readings and without, with a bundle and without; text that belongs to no run is rejected."""
    for words, given, parts in (
        ([], JOURNAL, ["reading", "early", "stop: the message of round 0 arrived at p.b.i"]),
        ([], read(os.path.join(EXAMPLES, "lost_message.journal")), ["event", "ignored", "lost", "+1 copy"]),
        (["--rounds", "1..1", "examples/turn_world.pals"], b"", ["alarm of round 1", "step 3"]),
    ):
        status, drawn, _ = tool("timeline", *words, given=given)
        expect(status, 0, f"timeline {words}")
        text = xml.dom.minidom.parseString(drawn).toxml()
        for part in parts:
            expect(part in text, True, f"{part} in the picture of {words}")
    for name, parts in (("turn_trace", ["step 3", "kept"]),
                        ("turn_trace_hasty", ["line 41 is wrong: this is sent too soon"])):
        given = read(os.path.join(EXAMPLES, f"{name}.audit"))
        status, drawn, said = tool("timeline", f"examples/{name}.pals", given=given)
        expect((status, said), (0, ""), f"timeline of {name}")
        for part in parts:
            expect(part in xml.dom.minidom.parseString(drawn).toxml(), True, f"{part} in the picture of {name}")
    expect(tool("timeline", "examples/turn_trace.pals", given=b"wrong 3 row\n")[0], 1,
           "a row that is wrong has no events")
    expect(tool("timeline", "examples/clock_ended.pals", given=b"clock ended p.b 1\n")[0], 1, "a clock that has ended")
    expect(tool("timeline", given=read(os.path.join(EXAMPLES, "two_counters.rounds")))[0], 1, "rows have no journal")
    expect(tool("timeline", "examples/two_counters.pals", given=b"accepted\n")[0], 1, "a check report is of no run")
    expect(tool("timeline", "--rounds", "1")[0], 2, "words that are wrong")


def reports():
    """The answers of the examples that are reports."""
    for _, command, answer, status in answers():
        if status in (0, 1, 6) and not command.startswith("audit"):
            yield command, read(os.path.join(TOP, answer))


def test_tables_have_what_reports_have():
    """A table has a line for each round, and each value of the report in it."""
    for command, given in reports():
        status, made, said = tool("rows2csv", given=given)
        expect((status, said), (0, ""), f"rows2csv of {command}")
        report, lines = Report(given.decode()), made.decode().split("\n")[:-1]
        expect(len(lines) - 1, len(report.slots) or len(report.rows), f"lines of the table of {command}")
        for row, line in zip(report.rows, lines[1:]):
            values = {value for it in row.components for value in it.values.values()}
            expect(values <= set(line.split(",")), True, f"{command}: {line}")
    status, made, _ = tool("rows2csv", "--sent", given=read(os.path.join(EXAMPLES, "turn_world.world")))
    expect((status, made.count(b"\n"), b"p.m.t,1,1,2,3,\n" in made), (0, 13, True), "messages in a table")
    expect(tool("rows2csv", given=b"event 36 PastDeadline p.m.t 0 1\n")[0], 1, "an answer that is no report")


def waves(text):
    """The values of each signal of a file of waves, by its path, at each time that the file names."""
    scopes, names, held, at_time, now = [], {}, {}, {}, None
    for line in text.split("\n")[:-1]:
        words = line.split(" ")
        if words[0] == "$scope":
            scopes.append(words[2])
        elif words[0] == "$upscope":
            scopes.pop()
        elif words[0] == "$var":
            names[words[3]] = ".".join([*scopes, words[4]])
        elif line.startswith("#"):
            at_time[now], now = dict(held), int(line[1:])
        elif now is not None:
            value, name = words if len(words) == 2 else (line[0], line[1:])
            held[names[name]] = value
    at_time[now] = dict(held)
    return at_time


def number(bits):
    """The number that 64 bits or fewer mean."""
    value = int(bits[1:], 2)
    return value - 2**64 if value >= 2**63 else value


def test_waves_have_what_reports_have():
    """Read back, the waves have each state and each number of the last round."""
    for command, given in reports():
        status, made, said = tool("rows2vcd", given=given)
        expect((status, said), (0, ""), f"rows2vcd of {command}")
        report, at_time = Report(given.decode()), waves(made.decode())
        last = at_time[max(time for time in at_time if time is not None)]
        for component in report.rows[-1].components if report.rows else []:
            path = component.path.replace("#", "_")
            expect(last[f"{path}.state"], f"s{component.state}", f"{command}: {path}")
            for name, value in component.values.items():
                found = last[f"{path}.{name}"]
                wanted = {"true": "1", "false": "0"}.get(value)
                expect(found if wanted else str(number(found)), wanted or value, f"{command}: {path}.{name}")


def test_waves_spread_places():
    """Places of a tuple follow one another within their round, absent ones are x, and negative numbers come back."""
    given = b"round 0\np.f s x=-5\nout o (1,_,-3,4)\n"
    at_time = waves(tool("rows2vcd", "4000", given=given)[1].decode())
    found = [at_time[time]["out.o"] for time in (0, 1000, 2000, 3000)]
    expect([it if it == "bx" else number(it) for it in found], [1, "bx", -3, 4], "places of a tuple")
    expect(number(at_time[0]["p.f.x"]), -5, "a negative number")
