"""Runs the model checker berkeley-abc on circuits."""

import os
import re
import shutil
import signal
import subprocess
import time

from ..scenarios.bundles import Refused

ENGINE = "berkeley-abc"
INSTALL = "apt install berkeley-abc (Debian and Ubuntu) installs it"
# What the word `proved` depends on, for the end of an output that has it.
TRUSTED = f"`proved` depends on the translation in tools/lib/proving and on {ENGINE} (docs/for_all_inputs.md)"
# How a graph is made smaller before the inductive engine reads it, and the gates from which on one step takes too long.
REDUCED, LARGE_REDUCED, LARGE = "strash; scorr; dc2", "strash; dc2", 10_000
# Seconds that the engine gets at most beyond its own limit before it is ended.
GRACE = 5
# The job that finds a shortest counterexample, and the seconds that it has left when another one has found one.
SHORTEST, SHORTEST_SECONDS = "bmc", 10
INVARIANT = re.compile(r"Invariant F\[\d+\] : (\d+) clauses with (\d+) flops")
ASSERTED = re.compile(r"Output (\d+) of .* was asserted in frame (\d+)")
EXPLORED = re.compile(r"No output asserted in (\d+) frames|Reached timeout .* in frame (\d+)")


def engine_at():
    """The path of the engine."""
    found = shutil.which(ENGINE)
    if found is None:
        raise Refused(f"{ENGINE} is not installed: {INSTALL}")
    return found


class Result:
    """The answer to a query: `verdict` is proved, false or open. `clauses` is the size of the invariant, `inputs` has
    the inputs of a counterexample by port, `rounds` is the number of rounds without one."""

    def __init__(self, verdict, rounds=0, clauses=0, inputs=None):
        self.verdict, self.rounds, self.clauses, self.inputs = verdict, rounds, clauses, inputs


class Job:
    """A run of the engine on a circuit."""

    def __init__(self, circuit, name, script, seconds):
        self.circuit, self.name, self.path = circuit, name, f"{circuit.stem}.{name}"
        self.begun, self.limit = time.monotonic(), seconds + min(GRACE, 1 + seconds)
        script = f"read {circuit.stem}.aig; {script}; print_status; write_cex -a {self.path}.cex"
        with open(f"{self.path}.out", "wb") as out:
            # The engine has a group of its own, so that an interrupt reaches only the tool, which ends it.
            self.process = subprocess.Popen([engine_at(), "-c", script], stdout=out, stderr=subprocess.STDOUT,
                                            stdin=subprocess.DEVNULL, cwd=os.path.dirname(circuit.stem),
                                            start_new_session=True)

    def ended(self):
        """Whether the engine has ended; it is ended if it takes too long."""
        if self.process.poll() is None and time.monotonic() - self.begun > self.limit:
            self.stop()
        return self.process.poll() is not None

    def stop(self):
        """Ends the engine."""
        if self.process.poll() is None:
            os.killpg(self.process.pid, signal.SIGKILL)
        self.process.wait()

    def text(self):
        """The output of the engine so far."""
        with open(f"{self.path}.out", "r", encoding="utf-8", errors="replace") as file:
            return file.read()

    def result(self):
        """The answer of an engine that has ended."""
        text = self.text()
        if "Property proved" in text or re.search(r"Status = 1\b", text):
            found = INVARIANT.search(text)
            return Result("proved", clauses=int(found[1]) if found else 0)
        asserted = ASSERTED.search(text)
        if asserted:
            rows = self.counterexample(int(asserted[2]) + 1)
            return Result("false", int(asserted[2]), inputs=self.circuit.inputs_of(rows))
        explored = EXPLORED.search(text)
        return Result("open", int(explored[1] or explored[2]) if explored else 0)

    def counterexample(self, rounds):
        """The bits of the inputs in each round: after the line of the latches, and a mark on the last line."""
        with open(f"{self.path}.cex", "r", encoding="ascii") as file:
            rows = file.read().replace("# DONE", "").split("\n")[1 : rounds + 1]
        return [row.strip() for row in rows]


def induction(circuit, seconds):
    """A job that proves by property-directed reachability."""
    reduced = REDUCED if len(circuit.graph.gates) < LARGE else LARGE_REDUCED
    return Job(circuit, "pdr", f"{reduced}; pdr -T {max(1, round(seconds))}", seconds)


def one_step(circuit, seconds):
    """A job for a query that the step of one round decides. It reads the graph as it is: a reduction takes longer than
    the proof, and may replace latches so that one step no longer decides the query."""
    return Job(circuit, "pdr", f"pdr -T {max(1, round(seconds))}", seconds)


def bounded(circuit, seconds):
    """A job that searches for the shortest counterexample."""
    return Job(circuit, SHORTEST, f"bmc3 -T {max(1, round(seconds))}", seconds)


def first_of(jobs, tell=lambda: None):
    """The first result that decides, or else the one with the most rounds. A search for the shortest counterexample has
    some seconds left when another job has found a counterexample. Jobs are ended then."""
    found, left, end = Result("open"), list(jobs), None
    try:
        while left and (end is None or time.monotonic() < end):
            for job in [it for it in left if it.ended()]:
                left.remove(job)
                result = job.result()
                if result.verdict == "proved" or (result.verdict == "false" and job.name == SHORTEST):
                    return result
                if result.verdict == "false":
                    found, end = result, time.monotonic() + SHORTEST_SECONDS
                elif end is None:
                    found = max(found, result, key=lambda it: it.rounds)
            tell()
            time.sleep(0.02)
    finally:
        for job in jobs:
            job.stop()
    return found


def first_proved(part, search, tell=lambda: None):
    """The proof of a part of the components, or the counterexample that a search on all of them finds; or None. The
    part is ended, and the search is not."""
    try:
        while not part.ended():
            if search.ended() and search.result().verdict != "open":
                return search.result()
            tell()
            time.sleep(0.02)
        result = part.result()
        return result if result.verdict == "proved" else None
    finally:
        part.stop()
