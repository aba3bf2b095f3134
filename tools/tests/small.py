"""What the tests of small processors share: cross compilers, sizes of objects, and the stack of functions."""

import os
import re
import shutil
import subprocess
import tempfile

from tests.common import WITHIN, Skipped, Wrong
from tests.nodes import NODES, STRICT, c_of

# For each processor: the compiler's name and its flags.
PROCESSORS = {
    "cortex-m0": ("arm-none-eabi", ["-mcpu=cortex-m0", "-mthumb"]),
    "atmega2560": ("avr", ["-mmcu=atmega2560"]),
}
# The sources of nodes/ that a node needs.
NEEDED = ("pals_adaptor.c", "pals_node.c")


def compiler_of(processor):
    """The compiler of a processor, with its flags."""
    name, flags = PROCESSORS[processor]
    if not shutil.which(f"{name}-gcc"):
        raise Skipped(f"{name}-gcc is not installed")
    return name, flags


def sizes(processor, listing):
    """For each source of a design's nodes its flash and RAM in bytes, and its maximum stack of a function."""
    name, flags = compiler_of(processor)
    strict = [flag for flag in STRICT if not flag.startswith("-std")]
    found = {}
    with tempfile.TemporaryDirectory() as where:
        sources = [os.path.join(where, it) for it in c_of(listing, where)]
        for source in [*sources, *(os.path.join(NODES, it) for it in NEEDED)]:
            base = os.path.join(where, os.path.basename(source)[:-2])
            command = [f"{name}-gcc", "-std=c99", *strict, *flags, "-Os", "-ffreestanding", "-fstack-usage", "-I",
                       NODES, "-I", where, "-c", "-o", f"{base}.o", source]
            ran = subprocess.run(command, stdout=subprocess.PIPE, stderr=subprocess.STDOUT, timeout=WITHIN, check=False)
            if ran.returncode:
                raise Wrong(f"{name}-gcc says of {source}: {ran.stdout.decode()[:2000]}")
            size = subprocess.run([f"{name}-size", f"{base}.o"], stdout=subprocess.PIPE, timeout=WITHIN, check=True)
            text, data, bss = map(int, size.stdout.split(b"\n")[1].split()[:3])
            with open(f"{base}.su", encoding="ascii") as file:
                stack = max((int(it) for it in re.findall(r"\t(\d+)\t", file.read())), default=0)
            found[os.path.basename(source)] = text + data, data + bss, stack
    return found
