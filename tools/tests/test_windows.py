"""Windows of long runs: each is sound by itself, and shows what the run was."""

import contextlib
import json
import os
import random
import tempfile

from lib.language.model import model_of
from lib.nodes import windows
from lib.nodes.joining import Joined
from lib.nodes.records import read_record
from lib.running.random_designs import DesignMaker, design_text, scenario
from lib.scenarios.bundles import Bundle
from tests.common import Skipped, expect, page, tool
from tests.nodes import MORE, compilers, design_nodes, pals, program_of, records_in

DESIGNS, ROUNDS = 100 if MORE else 15, 12


@contextlib.contextmanager
def most_rounds(number):
    """Windows with so many rounds at most, those of the entry included."""
    kept = windows.MOST
    windows.MOST = kept._replace(rounds=number)
    try:
        yield
    finally:
        windows.MOST = kept


def records_of_run(text, given):
    """The nodes of a design, and the records that they would have written in a run of the program."""
    status, output = pals(["run", "--trace", "Top.impl"], text, given)
    if status:
        raise Skipped(f"the run ends with {status}")
    nodes = design_nodes(text)
    lines, number = {path: [] for path in nodes.paths}, 0
    shows = {name: model_of(text.encode()).came_from(name).thread.path for name in nodes.outputs}
    for line in output.split("\n")[:-1]:
        words = line.split(" ")
        if words[0] == "round":
            number = int(words[1])
        elif words[0] == "out":
            lines[shows[words[1]]].append(f"out {number} {line[4:]}")
        elif words[0] in lines:
            lines[words[0]].append(f"row {number} {line}")
        else:
            lines[nodes.links.get(words[1], (None, words[1]))[1]].append(line)
    return nodes, {path: read_record("".join(f"{it}\n" for it in own), path, nodes) for path, own in lines.items()}


def windows_of(text, given, nodes, records):
    """The windows of records."""
    joined = Joined(nodes, records, given["rounds"])
    return list(windows.Windows(Bundle("d", text.encode()), None, given, records, joined).each())


def audit_of(text):
    """The audit of a window."""
    bundle = Bundle("window", text)
    return pals(["audit", "Top.impl"], bundle.design.decode(), json.loads(bundle.scenario))


def test_windows_of_random_designs():
    """Every window of a run is sound; together they have all rounds, and each shows the rows of its rounds."""
    entries = set()
    for seed in range(DESIGNS):
        source = random.Random(f"windows {seed}")
        design = DesignMaker(source).made()
        text, given = design_text(design), scenario(source, {name: kind for name, kind, *_ in design.inputs}, ROUNDS)
        nodes, records = records_of_run(text, given)
        with most_rounds(6):
            made = windows_of(text, given, nodes, records)
        expect([it.first for it in made[1:]] + [ROUNDS], [it.end for it in made], f"the rounds of {seed}")
        expect(made[0].first, 0, "the first round")
        for it in made:
            expect(audit_of(it.text), (0, f"sound rounds {it.end - it.first + it.entry} stop none\n"),
                   f"the window of seed {seed} from round {it.first} on\n{it.text.decode()}")
            entries.add(it.entry)
    expect({0, 1, 2} <= entries, True, f"the entries have {entries} rounds")


def changed(record, number, old, new):
    """A record with another row of a round."""
    expect(old in record.rows[number], True, record.rows[number])
    return record._replace(rows={**record.rows, number: record.rows[number].replace(old, new)})


def test_wrong_states_are_found_in_their_window():
    """A wrong state makes the windows wrong that have it, in their rounds or in their entries, and no other."""
    text, given = page("examples/two_counters.aadl"), {"rounds": ROUNDS}
    nodes, records = records_of_run(text, given)
    for number, wrong in ((1, [0]), (5, [0, 1]), (7, [1]), (11, [2])):
        value = 2 ** (number + 1) - 1
        bad = {**records, "p.a": changed(records["p.a"], number, f"x={value}", f"x={value + 1}")}
        with most_rounds(6):
            made = windows_of(text, given, nodes, bad)
        expect([it.first for it in made], [0, 6, 11], "the windows")
        found = [at for at, it in enumerate(made) if audit_of(it.text)[0]]
        expect(found, wrong, f"the windows that are wrong by round {number}")


def test_a_halted_component():
    """A component that a trap halted is halted in later windows, and its messages are absent."""
    text = page("examples/two_counters.aadl").replace("x := x + i + 1", "x := x + 1 + 6 / (5 - x)", 1)
    given = {"rounds": ROUNDS}
    nodes, records = records_of_run(text, given)
    halted = [number for number, row in records["p.a"].rows.items() if "halted(" in row]
    expect(bool(halted) and halted[0] < 6, True, f"halted in {halted}")
    with most_rounds(6):
        made = windows_of(text, given, nodes, records)
    expect([audit_of(it.text)[0] for it in made], [0] * len(made), "the audits")


def stopped(record, path, nodes, rounds):
    """A record of the two counters that ends at the start of a round, since the message of the round before is not
    there."""
    lines = [it for it in record.lines if it.round < rounds and (it.kind, it.round) != ("arrive", rounds - 1)]
    stop = f"stop missed {path}.i {rounds - 1} {(rounds + 1) * nodes.period}\n"
    rows = {number: row for number, row in record.rows.items() if number < rounds}
    return record._replace(lines=lines + read_record(stop, path, nodes).lines, rows=rows)


def test_a_stop_is_in_the_last_window():
    """The last window has the stop of the run."""
    text, given = page("examples/two_counters.aadl"), {"rounds": ROUNDS}
    nodes, records = records_of_run(text, given)
    records = {"p.a": stopped(records["p.a"], "p.a", nodes, 10), "p.b": stopped(records["p.b"], "p.b", nodes, 9)}
    with most_rounds(6):
        first, last = windows_of(text, given, nodes, records)
    expect(audit_of(first.text), (0, "sound rounds 6 stop none\n"), "the first window")
    expect((last.first, last.entry), (6, 1), "the last window")
    expect(audit_of(last.text), (0, "sound rounds 4 stop p.b.i 3\n"), "the audit of the last window")


def test_join_writes_windows():
    """`join --windows` writes the windows of a run of 25,000 rounds of the turn controller, or of fewer."""
    rounds = 25_000 if MORE else 2_000
    text = page("examples/turn_controller.aadl")
    program = program_of(page("examples/turn_controller.listing"), "tests/meeting.c", compilers()[0], ["-O1"])
    nodes, given = design_nodes(text), {"rounds": rounds, "inputs": {"goal": [10, -3, 7]}}
    with tempfile.TemporaryDirectory() as where:
        records, out = os.path.join(where, "records"), os.path.join(where, "out")
        os.mkdir(records)
        found = records_in(nodes, program.run(given))
        for path, lines in [(os.path.join(records, path), lines) for path, lines in found.items()] + [
                (os.path.join(where, "d.aadl"), text), (os.path.join(where, "s.json"), json.dumps(given))]:
            with open(path, "w", encoding="ascii") as file:
                file.write(lines)
        words = ["--windows", out, records, os.path.join(where, "d.aadl"), os.path.join(where, "s.json")]
        with most_rounds(15_000 if MORE else 1_200):
            status, written, said = tool("join", *words)
        expect((status, said, written.decode().count("\n")), (0, "", 2), "what join writes")
        for line in written.decode().split("\n")[:-1]:
            path, _, first, _, last, _, entry = line.split(" ")
            with open(path, "rb") as file:
                count = int(last) + 1 - int(first) + int(entry)
                expect(audit_of(file.read()), (0, f"sound rounds {count} stop none\n"), f"the audit of {path}")
        status, _, said = tool("join", *words)
        expect((status, said), (1, f"join: {out} is not empty\n"), "a folder that is not empty")
