"""Nodes in C: their calls one by one, whole designs against the program, and their traces."""

import random

from lib.language.listing import read_listing
from lib.running.random_designs import DesignMaker, design_text, scenario
from lib.scenarios.bundles import Refused
from tests.common import expect, page
from tests.nodes import (CHECKED, MORE, NodesInC, audited, compilers, design_nodes, joined, listing_of, pals,
                         program_of, recorded_within, within)

DESIGNS = 1000 if MORE else 100


def test_the_calls_of_a_node():
    """Each call of a node has its specified effect, and rejects the specified calls, under the sanitizers."""
    for compiler in compilers():
        calls = program_of(page("examples/two_counters.listing"), "tests/calls.c", compiler, CHECKED)
        expect(calls.run_text(""), "", "the calls")


def test_outputs_and_traps():
    """Root outputs are passed on when the round is sent, and a trap is reported once."""
    for compiler in compilers():
        hooks = program_of(page("nodes/tests/operators.listing"), "tests/hooks.c", compiler, CHECKED)
        expect(hooks.run_text(""), "", "the hooks")


def test_a_node_that_has_finished_more_steps_than_it_sends():
    """A message carries k' steps, also where more are finished when it is sent."""
    text = page("nodes/tests/cut.aadl")
    meeting = program_of(page("nodes/tests/cut.listing"), "tests/meeting.c", compilers()[0], CHECKED)
    for rounds in (1, 2, 7):
        rows = "\n".join(joined(design_nodes(text), meeting.run({"rounds": rounds})).rows()) + "\n"
        expect((0, rows), pals(["sync", "Top.impl"], text, {"rounds": rounds}), f"{rounds} rounds")


def own_lines(nodes, lines):
    """The lines of each node of a journal, in its own order; the rows under None."""
    own = {}
    for line in lines:
        words = line.split(" ")
        what = words[1] if words[0] in ("start", "step", "finish", "send", "arrive") else None
        own.setdefault(nodes.links.get(what, (None, what))[1], []).append(line)
    return own


class Design:
    """A design with its nodes in one process: all of them meeting, and in a time that is made up."""

    def __init__(self, text, listing, number):
        self.text, self.random, self.listing = text, random.Random(number), read_listing(listing)
        self.nodes, compiler = design_nodes(text), compilers()[number % len(compilers())]
        self.kinds = {it.name: self.listing.components[it.target[0]].ins[it.target[1]].kind
                      for it in self.listing.inputs}
        built = NodesInC(listing, compiler, CHECKED if number % 4 == 0 else ["-O0"])
        self.meeting, self.world = built.program("tests/meeting.c"), built.program("tests/world.c")

    def scenario(self, *rounds):
        """A scenario with one of these numbers of rounds."""
        return scenario(self.random, self.kinds, self.random.choice(rounds))

    def check(self, times):
        """The rows of the nodes, and so many times their runs, and worlds within the bounds and out of them."""
        self.check_rows()
        for _ in range(times):
            self.check_run()
            self.check_world()
            self.check_wild_world()

    def check_rows(self):
        """The rows of the nodes are the rows of `sync`."""
        given = self.scenario(5, 12, 30)
        status, wanted = pals(["sync", "Top.impl"], self.text, given)
        rows = "".join(f"{line}\n" for line in joined(self.nodes, self.meeting.run(given)).rows())
        expect((status, rows), (0, wanted), f"the rows of {given} of\n{self.text}")

    def check_run(self):
        """With delays, within the bounds or out of them, the nodes act as the nodes of `run --trace`."""
        given = self.scenario(2, 6)
        least, most = self.listing.network
        most += self.random.choice((0, 0, self.listing.period))
        given["delays"] = {link: [self.random.randint(max(1, least), max(1, most)) for _ in range(3)]
                           for link in self.nodes.links}
        status, wanted = pals(["run", "--trace", "Top.impl"], self.text, given)
        trace = joined(self.nodes, self.meeting.run(given))
        lines = trace.lines()
        stops = bool(lines) and lines[-1].startswith("stop ")
        expect(stops, status == 6, f"whether a run of {given} stops\n{self.text}")
        if status == 0:
            expect(own_lines(self.nodes, lines), own_lines(self.nodes, wanted.split("\n")[:-1]),
                   f"the lines of {given} of\n{self.text}")
        self.check_trace(given, trace)

    def check_trace(self, given, trace):
        """A trace is sound, with its stop or without."""
        status, verdict = audited(self.text, given, trace)
        expect((status, verdict[:6]), (0, "sound "), f"the audit of {given}: {verdict}{trace.lines()}\n{self.text}")
        return verdict

    def check_world(self):
        """Within the bounds the trace of the nodes is sound and has no stop, and tools/bounds finds nothing."""
        given = self.scenario(1, 4, 10)
        output = self.world.run(given, str(self.random.randrange(1, 2**40)))
        trace = joined(self.nodes, output)
        wanted = f"sound rounds {given['rounds']} stop none\n"
        expect(self.check_trace(given, trace), wanted, f"a world within the bounds: {given}\n{self.text}")
        expect((trace.delays, trace.notes), ({}, []), f"the delays of {given}\n{self.text}")
        for status, found in (within(self.text, trace), recorded_within(self.text, self.nodes, output)):
            expect(status, 0, f"the bounds of {given}: {found}\n{self.text}")

    def check_wild_world(self):
        """Out of the bounds the trace is sound too, with a stop or without. If no trace can show a message, which is
        read before its send by the two clocks, the rounds before it are sound, and the records break the bounds."""
        given, wild = self.scenario(4, 10), self.random.choice((1, 3, 10))
        output = self.world.run(given, str(self.random.randrange(1, 2**40)), str(wild))
        try:
            trace = joined(self.nodes, output)
        except Refused as why:
            trace, notes = None, [str(why)]
        if trace:
            self.check_trace({**given, "rounds": trace.rounds or given["rounds"]}, trace)
            notes = trace.notes
        if notes:
            status, found = recorded_within(self.text, self.nodes, output)
            expect(status, 1, f"the bounds of {given}: {found}, {notes}\n{self.text}")


def test_designs_of_the_repository():
    """Nodes of the designs whose listings are here."""
    for number, name in enumerate(("examples/two_counters", "examples/turn_controller", "nodes/tests/cut")):
        Design(page(f"{name}.aadl"), page(f"{name}.listing"), number).check(8)


def test_random_designs():
    """Nodes of random designs, by the listings that pals_code writes."""
    for number in range(DESIGNS):
        text = design_text(DesignMaker(random.Random(number)).made())
        Design(text, listing_of(text), number).check(2)
