"""Nodes over UDP, without faults and with each: the nodes, the audit and the bounds name it as it is."""

import json
import os
import time

from lib.nodes.records import read_record
from lib.scenarios.bundles import read
from tests.common import Skipped, Wrong, page, tool
from tests.nodes import design_nodes, folder, pals
from tests.test_demo import slower
from tests.udp import Network, Run, changed_listing, udp_program

SLOWER, ROUNDS, TRIES, LONG_TRIES = 50, 6, 2, 6
M, L, R, T = range(4)
# Links by their numbers in the listing.
M_L, M_R, M_T, L_TARGET, R_TARGET, T_TARGET = range(6)
NO_MESSAGE = "that message did not come within 2 periods"
# For each fault: how a run has it; the audit's output; a text of the bounds; and a text of a node with its number.
FAULTS = {
    "none": ({}, f"sound rounds {ROUNDS} stop none", "within", None),
    "twice": ({"faults": [f"twice:{M_R}:3"]}, f"sound rounds {ROUNDS} stop none", "within", None),
    "lost": ({"faults": [f"lose:{L_TARGET}:4"]}, "sound rounds 5 stop p.l.target 4", " slow", (L, NO_MESSAGE)),
    "late": ({"faults": [f"late:{M_T}:3:1200"]}, "sound rounds 4 stop p.m.t 3", " slow",
             (M, "us after the start that missed it")),
    "damaged": ({"faults": [f"flip:{M_T}:2"]}, "sound rounds 3 stop p.m.t 2", " slow",
                (M, "is refused: it is damaged")),
    "ahead": ({"words": {T: ["ahead", "300000000"]}}, None, "likely at fault: the clock of p.t, which is ahead of",
              None),
    "killed": ({"kill": {L: 4.5}}, "sound rounds 4 stop p.m.l 4", "within", (M, "from p.l was not there")),
    "started late": ({"delay": {T: 2.2}}, None, "", (T, "p.t: too late: the start was")),
    "another design": ({"other": R}, None, "", (M, "its sender runs another design")),
    "held": ({"faults": [f"lose:{L_TARGET}:4"], "words": {at: ["policy", "hold"] for at in range(4)}},
             "sound rounds 5 stop none", "", None),
}


class Nodes:
    """The turn controller, slower, so that a host that has other work keeps its bounds."""

    def __init__(self, times=SLOWER, rounds=ROUNDS):
        design = page("examples/turn_controller.pals").partition("\n%%%\n")[0] + "\n"
        self.text = slower(design, r"\d+ ms", times)
        listing = slower(page("examples/turn_controller.listing"),
                         r"(?m)^(?:period|skew|execution|network| release) .*$", times)
        self.program, self.other = udp_program(listing), udp_program(changed_listing(listing))
        self.nodes, self.given = design_nodes(self.text), {"rounds": rounds, "inputs": {"goal": [10]}}
        self.design = os.path.join(folder(), "udp.aadl")
        self.scenario = os.path.join(folder(), "udp.json")
        for path, text in ((self.design, self.text), (self.scenario, json.dumps(self.given))):
            with open(path, "w", encoding="ascii") as file:
                file.write(text)

    def begin(self, network, number, how):
        """Begins a run with a fault."""
        more = dict(how)
        other = more.pop("other", None)
        if other is not None:
            more["programs"] = {other: self.other}
        return Run(network, number, self.program, self.nodes.paths, self.given, **more)

    def judged(self, where):
        """The output of the audit, the bounds and join for the records in a folder."""
        records = os.path.join(where, "records")
        status, joined, said = tool("join", records, self.design, self.scenario)
        if status == 0:
            text, _, given = joined.decode().partition("\n%%%\n")
            verdict = pals(["audit", "Top.impl"], text + "\n", json.loads(given))[1].strip()
        else:
            verdict = said
        return verdict, tool("bounds", records, self.design, self.scenario)[1].decode(), said


    def was_late(self, where):
        """Whether a node of a run acted later than the skew allows by its own clock, or a message took too long."""
        bounds = self.nodes.bounds
        records = {path: read_record(read(os.path.join(where, "records", path)).decode(), path, self.nodes)
                   for path in self.nodes.paths if os.path.isfile(os.path.join(where, "records", path))}
        sends = {(path, it.round): it.reading for path, record in records.items() for it in record.lines
                 if it.kind == "send"}
        for path, record in records.items():
            step_period = self.nodes.period // self.nodes.rates[path]
            for line in record.lines:
                due = {"start": 0, "step": int(line.words[3]) * step_period if line.kind == "step" else 0,
                       "stop": (line.end == "missed") * self.nodes.period}.get(line.kind)
                if due is not None and line.reading > (line.round + 1) * self.nodes.period + due + bounds.skew // 2:
                    return True
                source = self.nodes.links[line.what][0] if line.kind == "arrive" else None
                if source and line.reading - sends.get((source, line.round), line.reading) > bounds.slowest:
                    return True
        return False


def check(found, fault, ends):
    """What is not as a fault has it, or None."""
    _, verdict, bounds, of_node = FAULTS[fault]
    if verdict is not None and verdict not in found[0]:
        return f"the audit says {found[0]}"
    if bounds not in found[1]:
        return f"the bounds say {found[1]}"
    if of_node and of_node[1] not in ends[of_node[0]][1]:
        return f"the node says {ends[of_node[0]][1]}"
    return None


def test_nodes_over_udp():
    """Each fault is named. A host may wake its nodes up too late: then the run is made again."""
    nodes, left = Nodes(), dict.fromkeys(FAULTS)
    network = Network(len(nodes.nodes.paths))
    try:
        for attempt in range(TRIES):
            runs = {fault: nodes.begin(network, number, FAULTS[fault][0]) for number, fault in enumerate(FAULTS)
                    if fault in left}
            while any(run.waits() for run in runs.values()):
                for run in runs.values():
                    run.turn()
                time.sleep(0.01)
            for fault, run in runs.items():
                ends = run.end()
                found = nodes.judged(run.where)
                left[fault] = check(found, fault, ends), nodes.was_late(run.where)
                if left[fault][0] is None:
                    del left[fault]
            if not left:
                return
    finally:
        network.remove()
    if all(late for _, late in left.values()):
        raise Skipped(f"this host wakes up its nodes too late: {', '.join(left)}")
    raise Wrong(f"not named: {left}")


def test_500_rounds_over_udp():
    """500 rounds of 20 ms over UDP are sound and within the bounds, on a host that wakes its nodes up in time."""
    nodes = Nodes(1, 500)
    network = Network(len(nodes.nodes.paths))
    try:
        for number in range(LONG_TRIES):
            run = nodes.begin(network, number, {"direct": True})
            run.end()
            found = nodes.judged(run.where)
            if (found[0], found[1].split("\n")[0]) == ("sound rounds 500 stop none", "within"):
                return
            if not nodes.was_late(run.where):
                raise Wrong(found)
    finally:
        network.remove()
    raise Skipped(f"this host wakes up its nodes too late: {found[0]}")
