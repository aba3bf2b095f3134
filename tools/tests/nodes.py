"""What the tests of nodes in C share: compilers, the programs of a listing's nodes, and their records."""

import atexit
import functools
import json
import os
import shutil
import subprocess
import sys
import tempfile

from lib.nodes.joining import Joined
from lib.nodes.nodes_of import nodes_of
from lib.nodes.raw_arrivals import comments_of
from lib.nodes.records import read_record
from lib.scenarios.bundles import Bundle
from tests.common import TOP, WITHIN, Skipped, Wrong, built, page, tool

NODES = os.path.join(TOP, "nodes")
STRICT = ["-std=c11", "-Wall", "-Wextra", "-Wconversion", "-Wsign-conversion", "-Wshadow", "-Wpedantic", "-Werror",
          "-D_GNU_SOURCE"]
CHECKED = ["-O1", "-fsanitize=undefined,address", "-fno-sanitize-recover=all"]
OWN = ["pals_adaptor.c", "pals_node.c", "pals_lines.c"]
HOST = ["demo/messages.c", "demo/random.c", "demo/records.c", "demo/scenario.c"]
MORE = "--more" in sys.argv


@functools.lru_cache(None)
def folder():
    """A folder for the files of the tests."""
    path = tempfile.mkdtemp()
    atexit.register(shutil.rmtree, path, True)
    return path


def pals(words, text, scenario):
    """The status and the text of the program."""
    given = text.encode() + b"%%%\n" + json.dumps(scenario).encode()
    ran = subprocess.run([built(), *words], input=given, stdout=subprocess.PIPE, timeout=WITHIN, check=False)
    return ran.returncode, ran.stdout.decode()


def listing_of(text, root="Top.impl"):
    """The listing of a design."""
    ran = subprocess.run([built("pals_code"), root], input=text.encode() + b"%%%\n{}", stdout=subprocess.PIPE,
                         timeout=WITHIN, check=False)
    if ran.returncode != 0:
        raise Wrong(f"pals_code ends with {ran.returncode}: {ran.stdout.decode()}\n{text}")
    return ran.stdout.decode()


def compilers():
    """The C compilers that are here."""
    found = [name for name in ("gcc", "clang") if shutil.which(name)]
    if not found:
        raise Skipped("no C compiler is here")
    return found


def compiled(compiler, flags, source, include, where):
    """The object of a source, at a path. Any message of the compiler is an error."""
    command = [compiler, *STRICT, *flags, "-I", NODES, "-I", os.path.join(NODES, "demo"), "-I",
               os.path.join(NODES, "udp"), "-I", include, "-c", "-o", where, source]
    ran = subprocess.run(command, stdout=subprocess.PIPE, stderr=subprocess.STDOUT, timeout=WITHIN, check=False)
    if ran.returncode or ran.stdout:
        raise Wrong(f"{compiler} says of {source}: {ran.stdout.decode()[:2000]}")
    return where


@functools.lru_cache(None)
def object_of(compiler, flags, source):
    """The object of a source of nodes/, which is the same for every design: design.h is."""
    include = os.path.join(folder(), "any_design")
    if not os.path.isdir(include):
        c_of(page("examples/two_counters.listing"), include)
    name = "-".join([compiler, str(abs(hash(flags))), source.replace("/", "-")])
    return compiled(compiler, flags, os.path.join(NODES, source), include, os.path.join(folder(), f"{name}.o"))


def c_of(listing, where):
    """The C of a listing in a folder: the names of its sources."""
    status, written, said = tool("code2c", where, given=listing.encode())
    if status != 0:
        raise Wrong(f"code2c: {said}")
    return written.decode().split()


class NodesInC:
    """The nodes of a listing, compiled, for programs of which each has a main of its own."""

    def __init__(self, listing, compiler, flags):
        self.compiler, self.flags, self.path = compiler, flags, tempfile.mkdtemp(dir=folder())
        whole = os.path.join(self.path, "whole.c")
        with open(whole, "w", encoding="ascii") as file:
            file.write("".join(f'#include "{name}"\n' for name in c_of(listing, self.path)))
        self.objects = [compiled(compiler, flags, whole, self.path, os.path.join(self.path, "whole.o"))]

    def program(self, main, *more):
        """The program of a main and of its further sources."""
        objects = [object_of(self.compiler, tuple(self.flags), name) for name in (*OWN, *HOST, *more, main)]
        path = os.path.join(self.path, os.path.basename(main)[:-2])
        subprocess.run([self.compiler, *self.flags, "-o", path, *self.objects, *objects], check=True, timeout=WITHIN)
        return Program(path)


class Program:
    """A program of nodes in one process, or in several."""

    def __init__(self, path):
        self.path = path

    def run(self, scenario, *words):
        """What it writes of a scenario."""
        return self.run_text(scenario_lines(scenario), *words)

    def run_text(self, text, *words):
        """What it writes of a text."""
        ran = subprocess.run([self.path, *words], input=text.encode(), stdout=subprocess.PIPE, stderr=subprocess.PIPE,
                             timeout=WITHIN, check=False)
        if ran.returncode or ran.stderr:
            raise Wrong(f"the nodes end with {ran.returncode}: {ran.stderr.decode()[:2000]}")
        return ran.stdout.decode()


def program_of(listing, main, compiler, flags):
    """The program of a listing's nodes with a main."""
    return NodesInC(listing, compiler, flags).program(main)


def value_text(value):
    """A value as nodes on a host read it."""
    return "_" if value is None else str(int(value))


def scenario_lines(scenario):
    """A scenario as nodes on a host read it."""
    lines = [f"rounds {scenario['rounds']}"]
    for kind in ("input", "delay"):
        found = scenario.get(f"{kind}s", {}).items()
        lines += [" ".join([kind, name, *map(value_text, values)]) for name, values in found if values]
    return "\n".join(lines) + "\n"


def design_nodes(text, root=None):
    """The nodes of a design's text."""
    return nodes_of(Bundle("the design", text.encode()), root)


def records_in(nodes, output):
    """The texts of the records in the output of several nodes."""
    own = {path: [] for path in nodes.paths}
    for line in output.split("\n")[:-1]:
        path, _, rest = line.partition(" ")
        own[path].append(f"{rest}\n")
    return {path: "".join(lines) for path, lines in own.items()}


def joined(nodes, output):
    """The records in the output of several nodes, joined."""
    return Joined(nodes, {path: read_record(text, path, nodes) for path, text in records_in(nodes, output).items()})


def recorded_within(text, nodes, output):
    """The status and the text of tools/bounds for the records in the output of several nodes."""
    with tempfile.TemporaryDirectory() as where:
        design = os.path.join(where, "design.aadl")
        for path, record in [("design.aadl", text), *records_in(nodes, output).items()]:
            with open(os.path.join(where, path), "w", encoding="ascii") as file:
                file.write(record)
        status, written, said = tool("bounds", where, design)
    if said:
        raise Wrong(said)
    return status, written.decode()


def audited(text, scenario, trace, root="Top.impl"):
    """The status and the text of an audit of a trace."""
    given = {name: value for name, value in scenario.items() if name in ("rounds", "inputs")}
    return pals(["audit", root], text, {**given, "delays": trace.delays, "trace": trace.lines()})


def within(text, trace):
    """The status and the text of tools/bounds for a trace."""
    path = os.path.join(folder(), "trace.pals")
    with open(path, "w", encoding="ascii") as file:
        comments = "".join(f"{line}\n" for line in comments_of(trace.raw_arrivals()))
        file.write(text + comments + "%%%\n" + json.dumps({"trace": trace.lines()}))
    status, written, said = tool("bounds", path)
    if said:
        raise Wrong(said)
    return status, written.decode()
