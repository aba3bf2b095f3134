"""Nodes on small processors: what they need there, and whether they do the same."""

import os
import re
import shutil
import subprocess

from tests.common import WITHIN, Skipped, expect, page, tool
from tests.nodes import HOST, NODES, OWN, c_of, compilers, design_nodes, folder, joined, pals, scenario_lines
from tests.small import PROCESSORS, compiler_of, sizes

# The maximum stack of a function of the nodes, in bytes.
MOST_STACK = 200


def test_nodes_fit_small_processors():
    """The nodes compile for small processors without a warning, and no function needs much stack."""
    tried = 0
    for processor in PROCESSORS:
        try:
            found = sizes(processor, page("examples/turn_controller.listing"))
        except Skipped:
            continue
        tried += 1
        for source, (_, _, stack) in found.items():
            expect(stack <= MOST_STACK, True, f"{source} on {processor}: {stack} bytes of stack")
    if not tried:
        raise Skipped("arm-none-eabi-gcc and avr-gcc are not installed")


def test_short_names_and_packed_values():
    """Nodes with short names and values of 9 bytes do the same; no external name has more than 31 letters."""
    listing, given = page("examples/turn_controller.listing"), {"rounds": 20, "inputs": {"goal": [10, -7, None, 3]}}
    outputs, flags = [], ["-std=c11", "-O1", "-D_GNU_SOURCE"]
    for short, packed in (([], []), (["--short"], ["-DPALS_PACKED=__attribute__((packed))"])):
        where = os.path.join(folder(), f"short {len(short)}")
        status, written, said = tool("code2c", *short, where, given=listing.encode())
        expect((status, said), (0, ""), "code2c")
        sources = [os.path.join(where, it) for it in written.decode().split()]
        sources += [os.path.join(NODES, it) for it in (*OWN, *HOST, "tests/meeting.c")]
        path = os.path.join(where, "meeting")
        subprocess.run([compilers()[0], *flags, *packed, "-I", NODES, "-I", os.path.join(NODES, "demo"), "-I", where,
                        "-o", path, *sources], check=True, timeout=WITHIN)
        ran = subprocess.run([path], input=scenario_lines(given).encode(), stdout=subprocess.PIPE, timeout=WITHIN,
                             check=True)
        outputs.append(ran.stdout)
    expect(outputs[1], outputs[0], "the records")
    with open(os.path.join(where, "c_3_node.h"), encoding="ascii") as file:
        names = re.findall(r"\b(c_\w+)\b", file.read())
    expect(max(map(len, names)) <= 31, True, f"names {names}")


def test_500_rounds_on_an_arm():
    """500 rounds of the turn controller in a simulated ARM processor have the rows of `sync`."""
    name, _ = compiler_of("cortex-m0")
    if not shutil.which("qemu-arm"):
        raise Skipped("qemu-arm is not installed")
    where = os.path.join(folder(), "arm")
    sources = [os.path.join(where, it) for it in c_of(page("examples/turn_controller.listing"), where)]
    sources += [os.path.join(NODES, it) for it in (*OWN, *HOST, "tests/meeting.c")]
    path = os.path.join(where, "meeting")
    command = [f"{name}-gcc", "-std=gnu11", "-mcpu=cortex-a7", "-marm", "-Os", "--specs=rdimon.specs", "-I", NODES,
               "-I", os.path.join(NODES, "demo"), "-I", where, "-o", path, *sources]
    linked = subprocess.run(command, stdout=subprocess.PIPE, stderr=subprocess.STDOUT, timeout=WITHIN, check=False)
    if linked.returncode:
        raise Skipped(f"no program for it can be linked: {linked.stdout.decode()[:200]}")
    text, given = page("examples/turn_controller.aadl"), {"rounds": 500, "inputs": {"goal": [10, -7, None, 3]}}
    ran = subprocess.run(["qemu-arm", path], input=scenario_lines(given).encode(), stdout=subprocess.PIPE,
                         timeout=WITHIN, check=False)
    rows = "".join(f"{line}\n" for line in joined(design_nodes(text), ran.stdout.decode()).rows())
    expect((0, rows), pals(["sync", "Top.impl"], text, given), "the rows of the ARM processor")
