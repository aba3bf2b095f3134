"""Restarts of all nodes with a round that they saved: the part after the restart continues that round."""

import json
import os
import random
import tempfile

from lib.running.random_designs import DesignMaker, design_text, scenario
from lib.scenarios.bundles import Bundle
from tests.common import expect, page, tool
from tests.nodes import (CHECKED, MORE, NodesInC, compilers, design_nodes, listing_of, program_of,
                         records_in)
from tests.test_windows import audit_of

DESIGNS = 40 if MORE else 5
# The saved round, the round whose message is lost, and the round of the restart.
SAVED, LOST, AGAIN, ROUNDS = 3, 6, 9, 16


def join_part(text, given, output, part, *more):
    """The status, the output and the messages of `join` for a part of the records in an output."""
    with tempfile.TemporaryDirectory() as where:
        files = {"d.aadl": text, "s.json": json.dumps(given), **records_in(design_nodes(text), output)}
        for name, lines in files.items():
            with open(os.path.join(where, name), "w", encoding="ascii") as file:
                file.write(lines)
        words = [where, os.path.join(where, "d.aadl"), os.path.join(where, "s.json")]
        return tool("join", "--part", str(part), *more, *words)


def rounds_of(text):
    """The rows of a joined trace, by round, without those of the root's out ports."""
    rows = []
    for line in json.loads(Bundle("joined", text).scenario)["trace"]:
        if line.startswith("round "):
            rows.append([])
        elif line.split(" ")[0] in ("start", "arrive"):
            break
        else:
            rows[-1].append(line)
    return rows


def test_a_saved_round_is_continued():
    """After a lost message all nodes of the turn controller resume; their trace is sound, and continues as round 3."""
    text, given = page("examples/turn_controller.aadl"), {"rounds": ROUNDS, "inputs": {"goal": [10, None, 4]}}
    program = program_of(page("examples/turn_controller.listing"), "tests/meeting.c", compilers()[0], CHECKED)
    output = program.run(given, str(SAVED), str(LOST), str(AGAIN))
    status, before, said = join_part(text, given, output, 0)
    expect((status, audit_of(before)[0], "stop" in audit_of(before)[1]), (0, 0, True), f"the first part: {said}")
    status, after, said = join_part(text, given, output, 1)
    expect((status, said), (0, "join: part 1 continues round 3, which all nodes saved: the bundle has a copy of the "
                               "design, with an entry of 1 rounds\n"), "what join writes")
    expect(audit_of(after), (0, f"sound rounds {ROUNDS - AGAIN + 1} stop none\n"), "the part after the restart")
    expect(rounds_of(after)[:4], rounds_of(before)[SAVED - 1 : SAVED + 3], "the rounds after the restart")
    status, _, said = join_part(text, given, output, 2)
    expect((status, "p.m has 1 restarts in its record" in said), (1, True), said)


def test_wrong_saved_rounds_are_found():
    """A node that resumed with another frame has a wrong row, and nodes that saved different rounds are named."""
    text, given = page("examples/two_counters.aadl"), {"rounds": ROUNDS}
    program = program_of(page("examples/two_counters.listing"), "tests/meeting.c", compilers()[0], ["-O1"])
    output = program.run(given, str(SAVED), str(LOST), str(AGAIN))
    row = f"p.a row {AGAIN} p.a s x=15\n"
    expect(output.count(row), 1, output)
    status, joined, said = join_part(text, given, output.replace(row, row.replace("15", "16")), 1)
    expect((status, audit_of(joined)), (0, (1, "wrong 4 row\n")), said)
    other = output.replace(f"p.b save p.b {SAVED} ", f"p.b save p.b {SAVED + 1} ")
    status, _, said = join_part(text, given, other, 1)
    wanted = "join: in part 1 the nodes continue different saved rounds, or some of them none\n"
    expect((status, said), (1, wanted), "different saved rounds")


def test_random_designs_resume():
    """Nodes of designs made at random resume, and their traces are sound."""
    resumed = 0
    for seed in range(DESIGNS):
        source = random.Random(f"resume {seed}")
        design = DesignMaker(source).made()
        text, given = design_text(design), scenario(source, {name: kind for name, kind, *_ in design.inputs}, ROUNDS)
        if not design.links:
            continue
        nodes = NodesInC(listing_of(text), compilers()[0], ["-O1"])
        output = nodes.program("tests/meeting.c").run(given, str(SAVED), str(LOST), str(AGAIN))
        status, joined, said = join_part(text, given, output, 1)
        expect((status, audit_of(joined)[0]), (0, 0), f"seed {seed}: {said}\n{audit_of(joined)}\n{text}")
        with tempfile.TemporaryDirectory() as where:
            out = os.path.join(where, "out")
            status, _, said = join_part(text, given, output, 1, "--windows", out)
            with open(os.path.join(out, "window_1.pals"), "rb") as file:
                expect(audit_of(file.read()), audit_of(joined), f"the window of seed {seed}")
        resumed += 1
    expect(resumed > 0, True, f"{resumed} designs resumed")
