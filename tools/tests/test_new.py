"""The design with which a user begins, and inputs from samples with times."""

import json
import os
import tempfile

from lib.scenarios.bundles import read
from tests.common import expect, tool
from tests.test_scenarios import answered


def test_a_new_design_is_accepted():
    """The program accepts it and its scenario, no finding of lint is in it, and no file is replaced."""
    with tempfile.TemporaryDirectory() as folder:
        expect(tool("new", "Tank", folder=folder)[:2], (0, b"Tank.aadl\nTank.json\n"), "new")
        design, scenario = (read(os.path.join(folder, f"Tank.{ending}")) for ending in ("aadl", "json"))
        expect(tool("lint", "Tank.aadl", "Tank.json", folder=folder), (0, b"", ""), "lint")
        status, _, said = tool("new", "Tank", folder=folder)
        expect((status, said), (1, "new: Tank.aadl exists, and is not replaced\n"), "a second time")
        for name in ("end", "2x", "a-b", ""):
            expect(tool("new", name, folder=folder)[0], 2, f"the name {name}")
    status, text = answered(["check", "Top.impl"], design, b"{}")
    expect((status, text.split("\n")[0]), (0, "accepted"), text)
    expect(answered(["watch", "Top.impl"], design, scenario)[0], 0, "its property")


def test_samples_become_rounds():
    """Of the samples of a round one value is taken, or computed; a sample belongs to the round of its time."""
    with tempfile.TemporaryDirectory() as folder:

        def made(text, *words):
            with open(os.path.join(folder, "t.csv"), "w", encoding="ascii") as file:
                file.write(text)
            status, text, said = tool("inputs", *words, "t.csv", folder=folder)
            return (json.loads(text)["inputs"] if status == 0 else status), said

        samples = "time (ms),raw\n0,5\n3.5,7\n8.999999,-20\n9,4\n30,1\n"
        for choice, first in (("last", -20), ("first", 5), ("max", 7), ("min", -20), ("average", -2)):
            expect(made(samples, "--period", "9ms", "--choose", choice), ({"raw": [first, 4, None, 1]}, ""), choice)
        expect(made("time,on\n8999us,true\n9ms,false\n", "--period", "9ms")[0], {"on": [True, False]}, "units")
        for text, words, status, reason in (
                ("raw\n1\n", ["--period", "9ms"], 1, "requires a column"),
                ("time,raw\nx,1\n", ["--period", "9ms"], 1, "t.csv:2: x is not a time"),
                ("time,raw\n-1ms,1\n", ["--period", "9ms"], 1, "round -1"),
                ("time,on\n1ms,true\n", ["--period", "9ms", "--choose", "average"], 1, "no average"),
                ("time,raw\n1ms,1\n", ["--period", "0"], 2, "--period")):
            found, said = made(text, *words)
            expect((found, reason in said), (status, True), f"{text} {said}")
