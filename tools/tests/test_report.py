"""Pages and pictures of all sizes, with names of all kinds."""

import base64
import hashlib
import html.parser
import os
import re
import tempfile
import time
import xml.dom.minidom

from lib.scenarios.bundles import read
from tests.common import EXAMPLES, TOP, built, expect, on_bundle, tool

# Tags that stand alone.
ALONE = {"meta"}
WATCHED = ["--answer", "examples/pacemaker.rounds", "--answer", "examples/pacemaker_watch.watch"]
# Names that a page or a picture could stumble over.
NAMES = ["<script>alert(1)</script>.x", "a&b.x", '"><img/src=x/onerror=alert(1)>.y', "\x1b[2J\x07.z",
         "p.\ufffe\x00\x9b"]
RUN = """start {name} {round} {at}
finish {name} {round}
send {name} {round} {at}
arrive {next}.i {before} {at} kept
"""


class Tags(html.parser.HTMLParser):
    """The tags of a page, and whether each is closed if it has to be."""

    def __init__(self, text):
        super().__init__()
        self.open, self.seen, self.wrong = [], [], []
        self.feed(text)

    def handle_starttag(self, tag, attrs):
        self.seen.append((tag, dict(attrs)))
        if tag not in ALONE:
            self.open.append(tag)

    def handle_startendtag(self, tag, attrs):
        self.seen.append((tag, dict(attrs)))

    def handle_endtag(self, tag):
        if not self.open or self.open.pop() != tag:
            self.wrong.append(tag)


def expect_page(text, what):
    """A page is well-formed, runs only its own script, and needs no other file."""
    tags = Tags(text)
    expect((tags.open, tags.wrong), ([], []), f"the tags of {what}")
    scripts = re.findall(r"<script[^>]*>(.*?)</script>", text, re.DOTALL)
    expect(len(scripts), 1, f"scripts in {what}")
    allowed = base64.b64encode(hashlib.sha256(scripts[0].encode()).digest()).decode()
    expect(f"script-src 'sha256-{allowed}'" in text, True, f"the script that may run in {what}")
    for tag, attributes in tags.seen:
        active = [name for name in attributes if name.startswith("on") or name in ("src", "action")]
        expect(active, [], f"{tag} in {what}")
        expect(attributes.get("href", "#").startswith("#"), True, f"a way out of {what}")
    expect(re.findall("[\x00-\x08\x0b-\x1f\x7f-\x9f]", text), [], f"control characters in {what}")


def test_report_has_it_all():
    """A page has the design, verdicts, plots and rows of stored answers, and ways to each part."""
    status, text, said = tool("report", *WATCHED, "examples/pacemaker_watch.pals")
    expect((status, said), (0, ""), "report of stored answers")
    page = text.decode()
    expect_page(page, "the pacemaker's page")
    for part in ('id="design"', 'id="verdicts"', 'id="values"', 'id="rows"', "false first in round 23",
                 "3 of 4 properties", 'class="plot"', "controller.pacer.deaf", 'tabindex="0"', 'scope="col"'):
        expect(part in page, True, f"{part} in the page")
    status, text, _ = tool("report", "--answer", "examples/turn_world_late.world", "examples/turn_world_late.pals")
    expect_page(text.decode(), "the page of a late message")
    expect(b'class="timeline"' in text, True, "a timeline")
    status, text, _ = tool("report", "--answer", "examples/turn_budget.budget", "examples/turn_budget.pals")
    expect_page(text.decode(), "the page of a budget")


def test_reports_of_the_examples():
    """The program runs every command that each example has input for, and for rejected designs reports the error."""
    program = ["--program", built()]
    for name in sorted(os.listdir(EXAMPLES)):
        if name.endswith(".pals"):
            status, text, said = tool("report", *program, f"examples/{name}")
            expect((status, said), (0, ""), f"the page of {name}")
            expect_page(text.decode(), f"the page of {name}")
            expect(b"the design is accepted" in text, True, f"the verdict of {name}")
    design = read(os.path.join(EXAMPLES, "two_counters.pals"))
    for old, new, wanted in ((b"9 ms", b"8 ms", "below the minimum"), (b'"rounds"', b'"round"', "has no field"),
                             (b"Delayed", b"Delayed Delayed", "unexpected `Delayed`"),
                             (b"end Two;", b"end To;", "end")):
        status, text, said = on_bundle("report", design.replace(old, new, 1), *program)
        expect((status, said, wanted in text), (0, "", True), f"the page of {new}")
        expect_page(text, f"the page of {new}")


def test_report_of_what_is_refused():
    """Whatever a bundle has, its page runs nothing of it."""
    design = read(os.path.join(EXAMPLES, "two_counters.aadl"))
    design = design.replace(b"package", b"-- </script><script>alert(1)</script> \x1b[2J ]]> </pre>\npackage", 1)
    for name in NAMES:
        shown = name.encode("unicode_escape").replace(b'"', b'\\"').replace(b"\\x", b"\\u00")
        bundle = design + b'%%%\n{"rounds":3,"properties":{"' + shown + b'":["halted","p.a"]}}'
        with tempfile.NamedTemporaryFile() as file:
            file.write(f"scenario OutOfRange properties/{name}\n".encode())
            file.flush()
            status, text, said = on_bundle("report", bundle, "--answer", file.name)
        expect((status, said), (0, ""), f"a page of {name!r}")
        expect_page(text, f"the page of {name!r}")


def journal(nodes, rounds):
    """A journal of nodes in a ring."""
    lines = []
    for order in range(rounds):
        for node in range(nodes):
            names = {"name": f"p.n{node}", "next": f"p.n{(node + 1) % nodes}"}
            at = (order + 1) * 20_000_000 + node * 100_000
            lines.append(RUN.format(round=order, before=order, at=at, **names))
    return "".join(lines).encode()


def test_pictures_of_all_sizes():
    """Runs of 3 to 200 rounds and 4 to 64 nodes: long ones are reported, no two labels touch, the longest is quick."""
    for nodes, rounds in ((4, 3), (4, 200), (64, 3), (64, 200)):
        given, begun = journal(nodes, rounds), time.process_time()
        status, text, said = tool("timeline", given=given)
        expect((status, said), (0, ""), f"{nodes} nodes in {rounds} rounds")
        took = time.process_time() - begun
        expect(took < 6, True, f"{given.count(10)} lines took {took:.1f} seconds")
        picture = text.decode()
        expect("--rounds 0..19" in picture, rounds > 20, f"a word on long runs of {rounds} rounds")
        expect_apart(picture, f"{nodes} nodes in {rounds} rounds")
        expect(picture.count("<rect") > nodes * rounds, True, "bars")


def expect_apart(picture, what):
    """No two small labels of a line touch."""
    ends = {}
    labels = re.findall(r'<text x="([\d.-]+)" y="([\d.-]+)" class="small" text-anchor="middle">([^<]*)', picture)
    for x, y, words in sorted(labels, key=lambda it: float(it[0])):
        half = len(words) * 2.5
        expect(float(x) - half >= ends.get(y, -999), True, f"{words} touches another label at {x}, {y} of {what}")
        ends[y] = float(x) + half


def test_pictures_of_any_name():
    """Pictures are well-formed whatever names have."""
    for name in NAMES:
        words = name.replace(" ", "")
        for given in (f"start {words} 0 5\nfinish {words} 0\nsend {words} 0 7\narrive {words}.i 0 9 early\n",
                      f"start {words} 0 5\nstop missed {words}.i 0 5 lost\n"):
            status, text, _ = tool("timeline", given=given.encode())
            expect(status in (0, 1), True, f"timeline of {name!r}")
            if not status:
                xml.dom.minidom.parseString(text)
        status, text, _ = tool("plot", given=f"round 0\n{words} s x=1\n{words} s x=2\nout o (1,_)\n".encode())
        if not status:
            xml.dom.minidom.parseString(text)


def test_plots_choose_by_name():
    """A name, a component and a pattern select; a missing name is reported with the existing ones."""
    given = read(os.path.join(EXAMPLES, "pacemaker.rounds"))
    for names, wanted in ((["controller.pacer.deaf"], 1), (["controller.pacer"], 3), (["pace"], 1),
                          (["*.deaf", "out *"], 2), (["pa*"], 1), ([], 6)):
        status, text, _ = tool("plot", *names, given=given)
        expect(status, 0, f"plot of {names}")
        found = xml.dom.minidom.parseString(text).getElementsByTagName("g")
        frames = next(len(it.getElementsByTagName("rect")) for it in found if it.getAttribute("class") == "frame")
        expect(frames, wanted, f"strips of {names}")
    status, _, said = tool("plot", "controller.pacer.deaff", given=given)
    expect((status, "controller.pacer.deaf" in said), (1, True), "a name that is not there")
    status, text, _ = tool("plot", given=read(os.path.join(EXAMPLES, "pacemaker_watch.watch")))
    expect((status, b"false first: 23" in text), (0, True), "verdicts alone")
    expect(tool("plot", given=b"accepted\n")[0], 1, "no rows")
    expect(tool("plot", "--rounds", "3..2", given=given)[0], 2, "rounds that are none")


def test_graphs_of_the_examples():
    """Each design has its components and links in its picture."""
    for name, count in (("turn_controller", 6), ("pacemaker", 1), ("triple_sensor", 0)):
        status, text, said = tool("graph", f"examples/{name}.aadl")
        expect((status, said), (0, ""), f"graph of {name}")
        xml.dom.minidom.parseString(text)
        expect(text.count(b"<title>link ") >= count, True, f"links of {name}")
    text = tool("graph", "examples/turn_controller.aadl")[1]
    for part in (b"rate 4, k' 3", b"average, 3 of 4", b"<title>input goal -&gt; p.m.goal"):
        expect(part in text, True, f"{part} in the graph")
    expect(tool("graph", "README.md")[0], 1, "no design")


def test_timetables():
    """A timetable has each step, shows idle times, and overload."""
    text = tool("timetable", given=read(os.path.join(TOP, "examples", "turn_budget.budget")))[1]
    for part in (b"p.t, step 3: 15 ms to 15.016 ms", b"4.943 ms idle", b"fits"):
        expect(part in text, True, f"{part} in the timetable")
    status, text, _ = tool("timetable", given=b"processor cpu sum 3420000 of 3000000 over\n")
    expect((status, b"over: it has no timetable" in text), (0, True), "a processor that is over")
    expect(tool("timetable", given=b"accepted\n")[0], 1, "no timetable")
