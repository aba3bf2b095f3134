"""How a campaign reduces a false scenario: bounded tries, bisection, interrupts, and the file meanwhile."""

import json
import os
import signal
import stat
import subprocess
import sys
import tempfile
import time

from lib.commands.ranges import values_of
from lib.running.campaign import Falsified, Plan
from lib.running.shrinking import Shrink
from lib.scenarios.bundles import read
from tests.common import EXAMPLES, TOP, WITHIN, Wrong, built, expect
from tests.test_scenarios import JUDGE, Files, campaign

# A program that answers at once until a file is there, and then takes a fifth of a second.
SLOW = JUDGE.replace("import json, sys\n", "import json, os, sys, time\nif os.path.exists(sys.argv[0] + '.slow'): "
                                           "time.sleep(1)\nopen(sys.argv[0] + '.slow', 'w')\n")


class Sums(Shrink):
    """A scenario that is false if the inputs of two successive rounds have a sum of 1,500 or more."""

    def take(self, inputs, rounds):
        self.tries += 1
        sums = [sum(values[at] or 0 for values in inputs.values()) for at in range(rounds)]
        at = next((at for at in range(1, rounds) if sums[at - 1] + sums[at] >= 1500), None)
        if at is not None:
            self.rounds, self.inputs = at + 1, {name: values[: at + 1] for name, values in inputs.items()}
        return at is not None


def test_numbers_are_reduced_by_bisection():
    """Sixteen ports with numbers to 1000 are reduced to a sum of just 1,500 in some hundred tries."""
    names = [f"g{at}" for at in range(16)]
    plan = Plan("", "", b"", {}, {name: values_of("0..1000") for name in names}, 40, "0", None, None, None)
    found = Sums(plan, {name: [(at * 37 + 5) % 1001 for at in range(40)] for name in names}, Falsified("x", 39), 10**6)
    expect((found.reduce(), found.rounds), (True, 2), "the rounds")
    expect(sum(map(sum, found.inputs.values())), 1500, "the sum")
    expect(found.tries < 600, True, f"{found.tries} tries")


def test_tries_are_bounded():
    """With --tries 1 the scenario is as it was found, up to the first false round."""
    with Files(judge=JUDGE) as files:
        os.chmod(files.path("judge"), stat.S_IRWXU)
        status, text, said = campaign(files.path("judge"), "--seed", "3", "--count", "40", "--tries", "1")
        whole = campaign(files.path("judge"), "--seed", "3", "--count", "40")
        expect((status, json.loads(text)["rounds"] > json.loads(whole[1])["rounds"]), (1, True), text)
        expect("not reduced further after 1 try, it has" in said and "; reduced after " in whole[2], True, said)
        expect(campaign(files.path("judge"), "--tries", "0")[0], 2, "no tries")


def interrupted(how):
    """What is in the file of a campaign that is ended by a signal while it reduces, and its status and last words."""
    scenario = json.dumps({"rounds": 12, "properties": {"calm": ["halted", "controller.pacer"]}})
    with Files(judge=SLOW, s_json=scenario) as files, tempfile.TemporaryDirectory() as folder:
        os.chmod(files.path("judge"), stat.S_IRWXU)
        words = [sys.executable, f"{TOP}/tools/campaign", "--program", files.path("judge"), "--input", "beat=true",
                 "--jobs", "1", f"{EXAMPLES}/pacemaker.aadl", files.path("s_json")]
        with open(f"{folder}/found.json", "wb") as file:
            # A shell ignores interrupts in commands that it runs in the background, and so would the campaign.
            with subprocess.Popen(words, stdout=file, stderr=subprocess.PIPE,
                                  preexec_fn=lambda: signal.signal(signal.SIGINT, signal.SIG_DFL)) as run:
                begun = time.monotonic()
                while not os.path.getsize(f"{folder}/found.json"):
                    if run.poll() is not None or time.monotonic() - begun > WITHIN:
                        raise Wrong(f"no scenario is written: {run.stderr.read().decode()}")
                    time.sleep(0.02)
                run.send_signal(how)
                said = run.communicate(timeout=WITHIN)[1].decode()
        with open(f"{folder}/found.json", encoding="utf-8") as file:
            return run.returncode, json.load(file), said


def test_what_was_found_is_not_lost():
    """The scenario is in the file before it is reduced, and after an interrupt the smallest one so far."""
    status, found, _ = interrupted(signal.SIGKILL)
    expect((status, found["rounds"], found["inputs"]), (-signal.SIGKILL, 2, {"beat": [True, True]}), "killed")
    for how in (signal.SIGINT, signal.SIGTERM):
        status, found, said = interrupted(how)
        expect((status, found["rounds"], "interrupted after" in said), (130, 2, True), said)


def test_a_design_may_begin_with_a_byte_order_mark():
    """The tools and ./pals take such a design, as its other half and as a file to compare with."""
    built()
    mark, plain = b"\xef\xbb\xbf", read(f"{EXAMPLES}/two_counters.aadl")
    with Files(d_aadl=mark + plain, s_json=mark + b'{"rounds": 3}') as files:
        design, how = files.path("d_aadl"), {"stdout": subprocess.PIPE, "stderr": subprocess.PIPE, "timeout": WITHIN}
        for words in (["check", design], ["lint", design], ["graph", design], ["import", design],
                      ["sync", design, files.path("s_json")],
                      ["campaign", "--against", design, "--rounds", "3", design, files.path("s_json")]):
            ran = subprocess.run([f"{TOP}/pals", *words], check=False, **how)
            if words[0] == "campaign":
                expect(b"no input varies" in ran.stderr, True, "a campaign on a design without inputs")
                continue
            expect((ran.returncode, bool(ran.stdout) or words[0] == "lint"), (0, True), f"{words[0]}: {ran.stderr}")
