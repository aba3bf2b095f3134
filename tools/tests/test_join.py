"""Traces that are joined of records of nodes, and whether they kept the bounds."""

import json
import os
import random
import tempfile
from collections import Counter

from lib.nodes.joining import Joined
from lib.nodes.nodes_of import nodes_of
from lib.nodes.platform_bounds import Bounds, lines_of_records
from lib.nodes.raw_arrivals import comments_of
from lib.nodes.records import read_record
from lib.scenarios.bundles import Bundle, Refused
from tests.common import TOP, expect, page, tool
from tests.nodes import MORE, audited, pals


WORLDS = 300 if MORE else 30
# Two rounds of the two counters. The message of p.a is consumed at the very reading of p.b's start, after it.
A = """start p.a 0 9000000
finish p.a 0
row 0 p.a s x=1
send p.a 0 10000000
arrive p.a.i 0 12000000 kept
start p.a 1 18000000
finish p.a 1
row 1 p.a s x=3
send p.a 1 19000000
"""
B = """start p.b 0 10000000
finish p.b 0
row 0 p.b s x=1
arrive p.b.i 0 10000000 kept
send p.b 0 11000000
start p.b 1 18000000
finish p.b 1
row 1 p.b s x=3
send p.b 1 19000000
"""
def counters():
    """The text and the nodes of the two counters."""
    text = page("examples/two_counters.aadl")
    return text, nodes_of(Bundle("two_counters", text.encode()), None)


def joined(of_a, of_b, rounds=None):
    """The joined records of the two counters."""
    nodes = counters()[1]
    records = {"p.a": read_record(of_a, "p.a", nodes), "p.b": read_record(of_b, "p.b", nodes)}
    return Joined(nodes, records, rounds)


def as_recorded(of_a, of_b):
    """The lines of two records in one order, with each arrival at its own reading."""
    nodes = counters()[1]
    records = {"p.a": read_record(of_a, "p.a", nodes), "p.b": read_record(of_b, "p.b", nodes)}
    return [" ".join(line.words) for _, line in lines_of_records(records, nodes)]


def any_order(source, journal, nodes):
    """An order of lines that keeps each node's own, and each arrival after its send; no more than that."""
    left, sent, order = {}, set(), []
    for line in journal:
        path = nodes.links[line.what][1] if line.kind == "arrive" else line.what
        left.setdefault(path, []).append(line)
    while any(left.values()):
        heads = [(path, lines[0]) for path, lines in left.items() if lines]
        path, line = source.choice([(path, it) for path, it in heads if it.kind != "arrive" or
                                    (nodes.links[it.what][0], it.round) in sent])
        order.append(left[path].pop(0))
        sent.update([(path, line.round)] if line.kind == "send" else [])
    return order


def test_any_order_is_sound():
    """The joined trace is sound, without delays. So is every order that keeps each node's own and each arrival after
    its send, since arrivals are at the starts that read them."""
    text, nodes = counters()
    trace, given, source, orders = joined(A, B), {"rounds": 2}, random.Random(7), set()
    expect(audited(text, given, trace), (0, "sound rounds 2 stop none\n"), "the joined trace")
    expect(trace.delays, {}, "the delays")
    for _ in range(60):
        trace.journal = any_order(source, joined(A, B).journal, nodes)
        orders.add(tuple(trace.lines()))
    for lines in orders:
        given["trace"] = list(lines)
        expect(pals(["audit", "Top.impl"], text, given), (0, "sound rounds 2 stop none\n"), f"the order {lines}")
    expect(len(orders) > 20, True, f"{len(orders)} orders")


def of_example(name):
    """The scenario of an example with a trace, the nodes, and the record of each node."""
    bundle = Bundle(name, page(name).encode())
    given, nodes = json.loads(bundle.scenario), nodes_of(bundle, None)
    records = {path: [] for path in nodes.paths}
    rounds = 0
    for line in given["trace"]:
        words = line.split(" ")
        if words[0] == "round":
            rounds = int(words[1])
        elif words[0] in records:
            records[words[0]].append(f"row {rounds} {line}")
        else:
            records[nodes.links.get(words[1], (None, words[1]))[1]].append(line)
    return bundle.design.decode(), given, nodes, records


def test_a_trace_comes_back_from_its_nodes():
    """The trace of an example, taken apart by its nodes, is joined to one that is as sound, without delays."""
    text, given, nodes, records = of_example("examples/turn_trace.pals")
    trace = Joined(nodes, {path: read_record("".join(f"{line}\n" for line in lines), path, nodes)
                           for path, lines in records.items()})
    own = [line for line in trace.lines() if not line.startswith("arrive")]
    expect(sorted(own), sorted(line for line in given["trace"] if not line.startswith("arrive")), "the lines")
    expect(sorted(f"arrive {link} {number} {reading} kept" for (link, number), reading in trace.arrivals.items()),
           sorted(line for line in given["trace"] if line.startswith("arrive")), "the recorded arrivals")
    expect(trace.delays, {}, "the delays of messages within the bounds")
    expect(audited(text, given, trace), (0, "sound rounds 2 stop none\n"), "the joined trace")


def test_which_stop_is_kept():
    """Of two stops the first by its round is retained, with its cause; the others are omitted."""
    text = counters()[0]
    a = A.replace("arrive p.a.i 0 12000000 kept\n", "").partition("start p.a 1")[0] + "stop missed p.a.i 0 18000000\n"
    b = B + "stop missed p.b.i 1 27000000\n"
    trace = joined(a, b)
    expect(trace.lines()[-1], "stop missed p.a.i 0 18000000 in-transit", "the stop")
    expect([line for line in trace.lines() if line.startswith("stop")], trace.lines()[-1:], "one stop")
    expect(trace.delays["p.a.i"], [7000001, 1000000], "a message that never came is due behind the stop")
    expect(audited(text, {"rounds": 3}, trace), (0, "sound rounds 1 stop p.a.i 0\n"), "the stop is sound")
    trace = joined(a, B.partition("send p.b 0")[0])
    expect(trace.lines()[-1], "stop missed p.a.i 0 18000000 not-sent", "a message that was not sent")
    expect(audited(text, {"rounds": 3}, trace)[1], "sound rounds 1 stop p.a.i 0\n", "it is sound too")
    b = "arrive p.b.i 0 8000000 early\nstop early p.b.i 0 8000000\n"
    trace = joined(A.partition("arrive")[0].replace("10000000", "8000000"), b)
    expect(trace.lines()[-2:], b.split("\n")[:-1], "an early stop stands behind its arrival")


def test_arrivals_that_read_less_than_their_sends():
    """Such an arrival is taken for the next start; without one its message counts as under way."""
    text = counters()[0]
    early = B.replace("arrive p.b.i 0 10000000", "arrive p.b.i 0 9999999").replace("start p.b 0 10000000",
                                                                              "start p.b 0 9000000")
    trace = joined(A, early)
    expect("arrive p.b.i 0 18000000 kept" in trace.lines(), True, trace.lines())
    expect(audited(text, {"rounds": 2}, trace)[1], "sound rounds 2 stop none\n", "it is sound")
    trace = joined(A, early, 1)
    expect([it for it in trace.lines() if it.startswith("arrive p.b")], [], "no start follows")
    expect(audited(text, {"rounds": 1}, trace)[1], "sound rounds 1 stop none\n", "a cut trace is sound")


def test_join_as_a_program():
    """Second copies are counted; the bundle is one that the program accepts; invalid records are rejected."""
    with tempfile.TemporaryDirectory() as folder:
        def record(path, text):
            with open(os.path.join(folder, path), "w", encoding="ascii") as file:
                file.write(text)

        record("p.a", A)
        record("p.b", B.replace("send p.b 0", "arrive p.b.i 0 10500000 ignored\nsend p.b 0"))
        example = os.path.join(TOP, "examples", "two_counters.pals")
        status, written, said = tool("join", folder, example)
        bundle = Bundle("joined", written)
        fields = list(json.loads(bundle.scenario))
        expect((status, said[:6], fields), (0, "join: ", ["rounds", "trace"]), said)
        comments = b"-- arrived p.a.i 0 12000000\n-- arrived p.b.i 0 10000000\n"
        expect(bundle.design, Bundle("example", page("examples/two_counters.pals").encode()).design + comments,
               "the design")
        status, written, _ = tool("join", "--rounds", "1", folder, example)
        expect((status, json.loads(Bundle("joined", written).scenario)["rounds"]), (0, 1), "rounds")
        for wrong, words in (("start p.a 0 1\n", "p.b, line 1"), ("stop early p.b.i 0 9\nfinish p.b 0\n", "line 2"),
                             ("arrive p.b.i 7 9 kept\n", "no round can be audited"),
                             ("start p.b 0 _\nfinish p.b 0\n", "not a line of this node")):
            record("p.b", wrong)
            status, written, said = tool("join", folder, example)
            expect((status, written, words in said), (1, b"", True), said)


def bounds_of(text, trace):
    """What tools/bounds writes, with its status."""
    with tempfile.TemporaryDirectory() as folder:
        with open(os.path.join(folder, "b.pals"), "w", encoding="ascii") as file:
            file.write(text + "%%%\n" + json.dumps({"trace": trace}))
        status, written, said = tool("bounds", os.path.join(folder, "b.pals"))
    expect(said, "", "what bounds says")
    return status, written.decode().split("\n")[0]


def test_bounds():
    """What is outside of the bounds is found by its first line, at the ends of the bounds and one nanosecond past."""
    text = counters()[0]
    lines = as_recorded(A, B)
    cases = [("start p.b 0 10000000", "start p.b 0 10999998", None),
             ("start p.b 0 10000000", "start p.b 0 10999999", "late"),
             ("send p.b 0 11000000", "send p.b 0 13999998", None),
             ("send p.b 0 11000000", "send p.b 0 13999999", "late"),
             ("arrive p.a.i 0 12000000 kept", "arrive p.a.i 0 10000002 kept", None),
             ("arrive p.a.i 0 12000000 kept", "arrive p.a.i 0 10000001 kept", "fast"),
             ("arrive p.a.i 0 12000000 kept", "arrive p.a.i 0 16999998 kept", None),
             ("arrive p.a.i 0 12000000 kept", "arrive p.a.i 0 16999999 kept", "slow"),
             ("arrive p.a.i 0 12000000 kept", "arrive p.a.i 0 18000000 kept", None)]
    for line, other, rule in cases:
        changed = [other if it == line else it for it in lines]
        # The lines that follow the changed line too soon are omitted.
        stray = {"start": "arrive p.b.i", "send": "arrive p.a.i"}.get(other.split()[0], "none")
        rest = [it for it in changed if not it.startswith(stray)]
        wanted = (1, f"outside {rest.index(other)} {rule}") if rule else (0, "within")
        expect(bounds_of(text, rest), wanted, other)
    for name in ("examples/turn_trace.pals", "examples/turn_trace_hasty.pals"):
        expect(tool("bounds", os.path.join(TOP, name))[:2], (0, b"within\n"), name)
    late = lines[:lines.index("arrive p.a.i 0 12000000 kept")] + ["stop missed p.a.i 0 18000000 in-transit"]
    expect(bounds_of(text, late), (1, f"outside {len(late) - 1} slow"), "a message that has not come")


def test_a_sound_trace_out_of_bounds():
    """A message that took four times the network's declared time: the audit reports sound, and tools/bounds slow."""
    text = counters()[0]
    trace = joined(A.replace("arrive p.a.i 0 12000000", "arrive p.a.i 0 17500000"), B)
    expect(audited(text, {"rounds": 2}, trace), (0, "sound rounds 2 stop none\n"), "the audit")
    comments = "".join(f"{line}\n" for line in comments_of(trace.raw_arrivals()))
    status, found = bounds_of(text + comments, trace.lines())
    expect((status, found.split()[-1]), (1, "slow"), "the bounds")


def test_a_record_that_is_no_sound_trace_in_any_order():
    """An arrival that follows no send has no order."""
    try:
        joined(A.replace("send p.a 0 10000000\n", ""), B)
    except Refused as why:
        expect(str(why), "no round can be audited: the record of p.a lacks lines of round 0", "why")
    else:
        expect("joined", "refused", "an arrival without its send")


def records_of_world(nodes, events, report):
    """The records of the nodes of a timed list of events, and the rows of its report."""
    texts, count, step, sent, now = {path: [] for path in nodes.paths}, Counter(), Counter(), Counter(), {}
    rows = {}
    for line in report.split("\n")[:-1]:
        if line.startswith("round "):
            number = line.split(" ")[1]
        else:
            rows.setdefault(int(number), []).append(line)
    for kind, what, *rest in events:
        path = nodes.links[what][1] if kind == "arrive" else what
        if kind == "pass":
            now = dict(zip(nodes.paths, rest[0]))
        elif kind == "arrive":
            texts[path].append(f"arrive {what} {rest[0]} {now[path]} kept")
        elif kind == "start":
            texts[path].append(f"start {path} {count[path]} {now[path]}")
            count[path], step[path] = count[path] + 1, 0
        elif kind == "step":
            step[path] += 1
            texts[path].append(f"step {path} {count[path] - 1} {step[path]} {now[path]}")
        elif kind == "send":
            texts[path].append(f"send {path} {sent[path]} {now[path]}")
            sent[path] += 1
        else:
            texts[path].append(f"finish {path} {count[path] - 1}")
            if step[path] + 1 == nodes.rates[path]:
                own = next(line for line in rows[count[path] - 1] if line.startswith(f"{path} "))
                texts[path].append(f"row {count[path] - 1} {own}")
    return {path: read_record("".join(f"{line}\n" for line in lines), path, nodes) for path, lines in texts.items()}


def test_worlds_that_the_program_accepts_are_sound():
    """Random worlds, which the proved program accepts, are sound without delays as they are joined, and within the
    bounds as they were recorded."""
    text = page("examples/turn_controller.aadl").replace("Network => 1 ms", "Network => 0 ms")
    nodes, put_off = nodes_of(Bundle("the design", text.encode()), None), 0
    with tempfile.TemporaryDirectory() as folder:
        design, given = os.path.join(folder, "d.aadl"), os.path.join(folder, "s.json")
        for path, content in ((design, text), (given, '{"rounds": 5, "inputs": {"goal": [4, 9]}}')):
            with open(path, "w", encoding="ascii") as file:
                file.write(content)
        for seed in range(WORLDS):
            status, written, said = tool("world", "--random", "--seed", str(seed), design, given)
            expect((status, said), (0, ""), "tools/world")
            scenario = json.loads(written)
            status, report = pals(["world", "Top.impl"], text, scenario)
            expect(status, 0, report)
            records = records_of_world(nodes, scenario["events"], report)
            trace = Joined(nodes, records, 5)
            expect((trace.delays, trace.notes), ({}, []), f"the delays of seed {seed}")
            expect(audited(text, scenario, trace), (0, "sound rounds 5 stop none\n"), f"the world of seed {seed}")
            expect(Bounds(nodes, lines_of_records(records, nodes)).outside, None, f"the bounds of seed {seed}")
            put_off += sum(trace.sent(key) > reading for key, reading in trace.arrivals.items())
    expect(put_off > 0, True, "some arrivals read less than their sends")
