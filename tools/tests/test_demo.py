"""The demonstration: a process a node by the host's clock, without a fault and with each, audited."""

import os
import re
import subprocess
import tempfile

from lib.nodes.joining import Joined
from lib.nodes.records import read_record
from lib.scenarios.bundles import Refused
from tests.common import WITHIN, Skipped, Wrong, expect, page, tool
from tests.nodes import NodesInC, audited, compilers, design_nodes, folder, scenario_lines

SLOWER, ROUNDS, TRIES = 10, 8, 4
# The faults of a run of the turn controller, and what the audit has to say; of a line that it names which one it is.
FAULTS = {
    "": ("sound rounds 8 stop none", None),
    f"late p.m.t 5 {12_000_000 * SLOWER}": ("sound rounds 6 stop p.m.t 5", None),
    f"late p.t.target 3 {20_000_000 * SLOWER}": ("sound rounds 4 stop p.t.target 3", None),
    "lose p.l.target 4": ("sound rounds 5 stop p.l.target 4", None),
    "twice p.m.r 3": ("sound rounds 8 stop none", None),
    "hasty p.m": ("wrong release", r"send p\.m \d \d+"),
    "hasty p.l": ("wrong release", r"send p\.l \d \d+"),
    "wrong p.m.l 2": ("wrong row", r"p\.m s sum=-?\d+"),
    f"ahead p.m {9_000_000 * SLOWER}": ("the clock of p.m is ahead", None),
}


def slower(text, line, times=SLOWER):
    """A text with the times of some of its lines made longer."""
    return re.sub(line, lambda match: re.sub(r"\d+", lambda it: str(int(it[0]) * times), match[0]), text)


class Demo:
    """The turn controller, ten times slower, so that a host that has other work keeps its bounds."""

    def __init__(self):
        design = page("examples/turn_controller.pals").partition("\n%%%\n")[0] + "\n"
        self.text = slower(design, r"\d+ ms")
        listing = slower(page("examples/turn_controller.listing"),
                         r"(?m)^(?:period|skew|execution|network| release) .*$")
        self.nodes, self.given = design_nodes(self.text), {"rounds": ROUNDS, "inputs": {"goal": [10]}}
        self.program = NodesInC(listing, compilers()[0], ["-O2"]).program("demo/demo.c", "demo/faults.c")

    def begin(self, fault, seed):
        """Begins a run in a folder of its own."""
        where = tempfile.mkdtemp(dir=folder())
        ran = subprocess.Popen([self.program.path, where, str(seed), *fault.split()], stdin=subprocess.PIPE)
        ran.stdin.write(scenario_lines(self.given).encode())
        ran.stdin.close()
        return where, ran

    def end(self, where, ran):
        """The trace of a run that has ended, or why there is none."""
        expect(ran.wait(WITHIN), 0, "the demonstration's status")
        records = {}
        for path in self.nodes.paths:
            with open(os.path.join(where, path), encoding="ascii") as file:
                records[path] = read_record(file.read(), path, self.nodes)
        try:
            return Joined(self.nodes, records)
        except Refused as why:
            return str(why)


def said(demo, trace):
    """The audit's output for a trace, without the line's index, and the line that it names."""
    if isinstance(trace, str):
        return "the clock of p.m is ahead" if "the clock of p.m is ahead" in trace else trace, None
    verdict = audited(demo.text, demo.given, trace)[1].strip()
    words = verdict.split()
    if words[0] != "wrong":
        return verdict, None
    lines = trace.lines()
    return f"wrong {words[2]}", lines[int(words[1])] if int(words[1]) < len(lines) else ""


def test_the_demonstration():
    """Each run is audited as its fault requires. A host may wake its nodes up too late: then the run is repeated."""
    demo = Demo()
    left = dict(FAULTS)
    for attempt in range(TRIES):
        runs = {fault: demo.begin(fault, 100 * attempt + number) for number, fault in enumerate(left)}
        for fault, (where, ran) in runs.items():
            trace = demo.end(where, ran)
            verdict, line = said(demo, trace)
            wanted, form = left[fault]
            if verdict == wanted and (form is None or re.fullmatch(form, line)):
                del left[fault]
                check_more(demo, fault, where, trace)
            elif not verdict.startswith("sound "):
                raise Wrong(f"the fault {fault!r} gives {verdict}, {line}")
        if not left:
            return
    raise Skipped(f"this host wakes up its nodes too late: {', '.join(left)}")


def check_more(demo, fault, where, trace):
    """Further effects of a fault: a second copy is omitted, and a clock that is ahead is named."""
    if not fault.startswith("ahead"):
        expect(trace.left_out, int(fault.startswith("twice")), f"second copies of {fault!r}")
        return
    design = os.path.join(folder(), "demo.aadl")
    with open(design, "w", encoding="ascii") as file:
        file.write(demo.text)
    status, found, _ = tool("bounds", where, design)
    lines = found.decode().split("\n")
    expect((status, lines[0].split()[2]), (1, "fast"), f"the bounds of {fault!r}")
    expect(any("likely at fault: the clock of p.m, which is ahead of the time" in it for it in lines), True, lines)
