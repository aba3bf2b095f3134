"""Votes in C among three replicas, against `pals vote` on random lies."""

import json
import os
import random

from lib.language.listing import name_of_link, read_listing
from lib.nodes.c_step import c_name
from lib.running.random_designs import DesignMaker, design_text, scenario
from tests.common import expect, page
from tests.nodes import CHECKED, MORE, NodesInC, compiled, compilers, listing_of, pals

DESIGNS, SCENARIOS = (60, 6) if MORE else (5, 4)


def openers(design):
    """C that opens three nodes of each component, which have memory of their own."""
    names = [c_name(it.path) for it in design.components]
    return "\n".join([
        "#include <stddef.h>", *(f'#include "{name}_node.h"' for name in names),
        "pals_node *replica_opened(uint32_t number, uint32_t replica, const pals_hooks *hooks, void *user, "
        "uint64_t rounds);",
        "pals_node *replica_opened(uint32_t number, uint32_t replica, const pals_hooks *hooks, void *user, "
        "uint64_t rounds)", "{", *(f"    static {name}_node of_{name}[3];" for name in names), "    switch (number) {",
        *(f"    case {at}: return {name}_open(&of_{name}[replica], hooks, user, rounds);"
          for at, name in enumerate(names)), "    default: return NULL;", "    }", "}", ""])


def voting_program(listing):
    """The program of the replicas of a listing."""
    built = NodesInC(listing, compilers()[0], CHECKED)
    source = os.path.join(built.path, "openers.c")
    with open(source, "w", encoding="ascii") as file:
        file.write(openers(read_listing(listing)))
    made = compiled(built.compiler, CHECKED, source, built.path, os.path.join(built.path, "openers.o"))
    built.objects.append(made)
    return built.program("tests/voted.c", "pals_vote.c")


def random_faults(source, design, replicated, rounds):
    """Random lies, without two of one replica, link, target and round."""
    found = {}
    links = [(at, it) for at, it in enumerate(design.links) if it.source[0] in replicated]
    for _ in range(source.randint(0, 3 * rounds) if links else 0):
        at, link = source.choice(links)
        target = source.randrange(3) if link.target[0] in replicated else 0
        kind = design.components[link.source[0]].outs[link.source[1]].kind
        values = [source.choice((None, True, False) if kind == "Boolean" else (None, 0, 1, -7, 2**63 - 1))
                  for _ in range(design.components[link.source[0]].rate)]
        found[at, source.randrange(3), target, source.randrange(rounds)] = values
    return found


def check(source, text, listing, program, given):
    """The rows of the C nodes are the rows of `pals vote` for random faults."""
    design = read_listing(listing)
    replicated = {at for at in range(len(design.components)) if source.random() < 0.6}
    faults = random_faults(source, design, replicated, given["rounds"])
    words = ["".join("3" if at in replicated else "1" for at in range(len(design.components)))]
    words += [":".join(map(str, key)) + ":" + ",".join("_" if it is None else str(int(it)) for it in values)
              for key, values in faults.items()]
    asked = {**given, "replicas": [design.components[at].path for at in sorted(replicated)], "faults": [
        [design.components[design.links[at].source[0]].path, replica + 1, name_of_link(design, design.links[at]),
         target + 1, number, values] for (at, replica, target, number), values in faults.items()]}
    status, report = pals(["vote", "Top.impl"], text, asked)
    rows = "".join(f"{line}\n" for line in report.split("\n")[:-1] if not line.startswith("out "))
    expect((status, program.run(given, *words)), (0, rows), f"the votes of {json.dumps(asked)}\n{text}")


def test_votes_in_c():
    """Replicas of the turn controller and of random designs vote as `pals vote` does."""
    designs = [(page("examples/turn_controller.aadl"), page("examples/turn_controller.listing"), {"goal": "Integer"})]
    for number in range(DESIGNS):
        text = design_text(DesignMaker(random.Random(number)).made())
        listing = listing_of(text)
        design = read_listing(listing)
        kinds = {it.name: design.components[it.target[0]].ins[it.target[1]].kind for it in design.inputs}
        designs.append((text, listing, kinds))
    for number, (text, listing, kinds) in enumerate(designs):
        source, program = random.Random(number), voting_program(listing)
        for _ in range(SCENARIOS):
            check(source, text, listing, program, scenario(source, kinds, source.choice((2, 5, 9))))
