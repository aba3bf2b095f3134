"""The page on nodes in C: its commands, the files that it shows, and its loop."""

import os
import re
import subprocess

from tests.common import TOP, WITHIN, Skipped, blocks, built, expect, page, script
from tests.nodes import c_of, compiled, compilers, folder

NAME = "docs/c_nodes.md"
# What the loop of the page leaves to its reader.
OWN = """#include <stdint.h>
#include "pals_node.h"
typedef struct { uint32_t link; uint64_t round; pals_value values[PALS_MOST_RATE]; uint32_t count; } message;
static int64_t read_clock(void) { return 0; }
static bool next_message(message *m) { (void)m; return false; }
static void sleep_until(int64_t wake) { (void)wake; }
static bool on_send(void *user, uint32_t link, uint64_t round, const pals_value values[], uint32_t count)
{ (void)user; (void)link; (void)round; (void)values; (void)count; return true; }
static pals_value on_read(void *user, uint32_t input, uint64_t round)
{ (void)user; (void)input; (void)round; return (pals_value){0, false}; }
static void on_record(void *user, const pals_node *node, const pals_record *record)
{ (void)user; (void)node; (void)record; }
void run(void);
"""


def pals_here(where):
    """A command ./pals that runs the built programs; if pals_code is not built it prints the listing in the
    repository."""
    try:
        code = f'exec {built("pals_code")} Top.impl'
    except Skipped:
        code = f"exec cat {TOP}/examples/turn_controller.listing"
    script(os.path.join(where, "pals"), f"""command=$1 file=$2
case $file in
*.aadl) {TOP}/tools/bundle "$file" ;;
*) cat "$file" ;;
esac > bundle
case $command in
code) {code} < bundle ;;
*) exec {built()} "$command" Top.impl < bundle ;;
esac""")


def commands_of(text):
    """The commands of a block; one may go over several lines."""
    return [it for it in text.replace("\\\n", "").split("\n") if it]


def test_the_walk_of_the_page():
    """Each command of the page runs, and the listings, C and outputs that it shows are the results."""
    compilers()
    where = os.path.join(folder(), "walk")
    os.makedirs(where)
    for part in ("tools", "examples", "nodes"):
        os.symlink(os.path.join(TOP, part), os.path.join(where, part))
    pals_here(where)
    said = {}
    for command in (it for kind, text in blocks(NAME) if kind == "sh" for it in commands_of(text)):
        how = {"shell": True, "cwd": where, "stdout": subprocess.PIPE, "stderr": subprocess.STDOUT, "timeout": WITHIN}
        ran = subprocess.run(command, check=False, **how)
        # Of a host that wakes its nodes up too late the bounds are not kept.
        if command.startswith("tools/join ") and b"no round can be audited" in ran.stdout:
            raise Skipped(f"this host wakes up its nodes too late: {ran.stdout.decode()}")
        wanted = (0, 1) if command.startswith("tools/bounds ") else (0,)
        expect(ran.returncode in wanted, True, f"{command}: {ran.stdout.decode()}")
        said[command] = ran.stdout.decode()
    shown = [text for kind, text in blocks(NAME) if kind in ("", "c")]
    expect(shown[1] in said["./pals check examples/turn_controller.aadl"], True, f"the answer begins with {shown[1]}")
    expect(shown[2] in page("examples/turn_controller.listing"), True, f"the listing has {shown[2]}")
    with open(os.path.join(where, "turn", "c", "c_p_l.c"), encoding="ascii") as file:
        expect(shown[3] in file.read(), True, f"the C has {shown[3]}")
    for command in ("./pals audit turn/trace.pals", "./pals audit turn/late.pals"):
        expect(re.fullmatch(r"sound rounds \d+ stop .*\n", said[command]) is not None, True, said[command])
    expect(said["tools/bounds turn/late.pals"].startswith("outside "), True, said["tools/bounds turn/late.pals"])


def test_the_loop_of_the_page():
    """The loop compiles without a word."""
    where = os.path.join(folder(), "loop")
    c_of(page("examples/turn_controller.listing"), where)
    loop = next(text for kind, text in blocks(NAME) if kind == "c" and "pals_poll" in text)
    with open(os.path.join(where, "loop.c"), "w", encoding="ascii") as file:
        file.write(OWN + loop)
    for compiler in compilers():
        compiled(compiler, ["-O1"], os.path.join(where, "loop.c"), where, os.path.join(where, "loop.o"))
