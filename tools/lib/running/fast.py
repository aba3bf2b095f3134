"""Campaigns at the speed of compiled code: the program of a design, its runs on all processors, and their results."""

import hashlib
import json
import os
import shutil
import subprocess

from ..explaining.page import TOP
from ..nodes.c_step import c_name, step_header, step_source
from ..scenarios.bundles import Refused
from .campaign import check_original, joined
from .fast_c import Program, inputs_of
from .program import ask_program

COMPILERS = ("gcc", "clang", "cc")
FLAGS = ("-std=c11", "-O2", "-w")
# How many scenarios a processor runs before the results are inspected, and how many rows are compared.
BLOCK, COMPARED = 500_000, 1_000
FORM = "pals-campaign 1"


class Wrong(Exception):
    """The compiled code and the proved program differ."""


def compiler():
    """The C compiler."""
    found = next((path for path in map(shutil.which, COMPILERS) if path), None)
    if found is None:
        raise Refused("there is no C compiler: --fast needs gcc or clang")
    return found


def seed_of(plan):
    """The seed of the generator: a number of the plan's word."""
    return int.from_bytes(hashlib.sha256(plan.seed.encode()).digest()[:8], "big")


class Fast:
    """A compiled campaign."""

    def __init__(self, plan, design, folder):
        self.plan, self.folder, self.seed = plan, folder, seed_of(plan)
        given = {name: row for name, row in (plan.scenario.get("inputs") or {}).items() if name not in plan.ports}
        for values in plan.ports.values():
            if values.count >= 2**64:
                raise Refused("an input has more than 2^64 - 1 values: give it fewer by --input")
        program = Program(design, plan.ports, given, plan.rounds, self.seed, plan.scenario["properties"])
        files = {"run.c": program.text()}
        for it in design.components:
            files[f"{c_name(it.path)}.h"], files[f"{c_name(it.path)}.c"] = step_header(it), step_source(it)
        for name, text in files.items():
            with open(os.path.join(folder, name), "w", encoding="ascii") as file:
                file.write(text)
        self.path = os.path.join(folder, "run")
        command = [compiler(), *FLAGS, "-I", os.path.join(TOP, "nodes"), "-o", self.path, os.path.join(folder, "run.c")]
        ran = subprocess.run(command, stdout=subprocess.PIPE, stderr=subprocess.STDOUT, check=False)
        if ran.returncode:
            raise Refused(f"the compiler rejects the code: {ran.stdout.decode('utf-8', 'replace')[:200].strip()}")

    def inputs(self, number):
        """The inputs of a scenario by its number."""
        return inputs_of(self.plan.ports, self.plan.rounds, self.seed, number)

    def search(self, first, end, jobs, tell):
        """The smallest number of a false scenario, with its property and round; or None."""
        while first < end:
            last = min(end, first + BLOCK * jobs)
            runs = [subprocess.Popen([self.path, "search", str(first + job), str(last), str(jobs)],
                                     stdout=subprocess.PIPE) for job in range(jobs)]
            try:
                found = [run.communicate()[0].decode().split() for run in runs]
            finally:
                for run in runs:
                    run.kill()
                    run.wait()
            if any(run.returncode for run in runs):
                raise Refused("the compiled campaign was ended")
            false = sorted((int(number), name, int(place)) for number, name, place in filter(None, found))
            if false:
                return false[0]
            first = last
            tell(last)
        return None

    def compare(self, numbers):
        """Shows that some scenarios have the same rows by `pals sync`."""
        numbers = list(numbers)
        for at in range(0, len(numbers), 100):
            part = numbers[at : at + 100]
            ran = subprocess.run([self.path, "show", *map(str, part)], stdout=subprocess.PIPE, check=False)
            for number, rows in zip(part, ran.stdout.decode().split("end\n")):
                self.same(number, rows)

    def same(self, number, rows):
        """Compares the rows of one scenario."""
        scenario = {"rounds": self.plan.rounds,
                    "inputs": {**(self.plan.scenario.get("inputs") or {}), **self.inputs(number)}}
        status, text = ask_program(self.plan.program, ["sync", self.plan.root],
                                   joined(self.plan.design, json.dumps(scenario).encode()))
        if status:
            raise Refused(f"pals sync ended with {status}: {text[:120].strip()}")
        if text != rows:
            raise Wrong(f"scenario {number} has other rows by pals sync than by the compiled code")
        if self.plan.original is not None:
            check_original(self.plan, scenario)


def sample(first, end, count):
    """Some numbers of a range, evenly."""
    count = min(count, end - first)
    return [first + at * (end - first) // count for at in range(count)] if count else []


def shard_of(word, count):
    """The numbers of the part I of N of a campaign."""
    part, _, whole = word.partition("/")
    if not (part.isdigit() and whole.isdigit()) or not 1 <= int(part) <= int(whole) <= 1_000_000:
        raise Refused(f"{word} is not I/N with I from 1 to N")
    return count * (int(part) - 1) // int(whole), count * int(part) // int(whole)


def digest_of(plan, count):
    """A digest that distinguishes the results of different campaigns."""
    ports = {name: [[getattr(part, "first", None), getattr(part, "last", None), getattr(part, "value", None)]
                    for part in values.parts] for name, values in plan.ports.items()}
    text = json.dumps([plan.root, plan.design.decode("utf-8", "replace"), plan.scenario, ports, plan.rounds, plan.seed,
                       count], sort_keys=True)
    return hashlib.sha256(text.encode()).hexdigest()


def merged(results):
    """The result of a whole campaign from the results of all its parts."""
    first = results[0]
    if any(it["campaign"] != first["campaign"] for it in results):
        raise Refused("the results are of different campaigns")
    end, reached = 0, None
    for it in sorted(results, key=lambda result: result["first"]):
        if it["first"] != end:
            raise Refused(f"the results have a gap, or a part twice, at scenario {min(end, it['first'])}")
        end = it["end"]
        if reached is None and it["false"] is not None:
            reached = it
    if end != first["count"]:
        raise Refused(f"the results end at scenario {end} of {first['count']}")
    return reached
