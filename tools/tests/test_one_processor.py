"""The C of the components of one processor, and the identity of a design."""

import hashlib
import os
import subprocess
import tempfile

from tests.common import WITHIN, expect, page, tool
from tests.nodes import OWN, STRICT, NODES, compilers

LISTING = "examples/turn_controller.listing"
MAIN = """#include <inttypes.h>
#include <stdio.h>
#include "design.h"
int main(void)
{
    for (uint32_t j = 0; j < pals_nodes; j++) {
        uint32_t count = 0;
        const uint32_t *links = pals_links_of(j, &count);
        (void)printf("%s %d", (pals_path_of[j] == NULL) ? "-" : pals_path_of[j], pals_component_of[j] != NULL);
        for (uint32_t i = 0; i < count; i++) {
            const pals_link *link = &pals_link_of[links[i]];
            (void)printf(" %s:%" PRIu32, link->name, link->rate);
        }
        (void)printf("\\n");
    }
    for (uint32_t l = 0; l < pals_links; l++) {
        (void)printf("%s\\n", (pals_link_of[l].name == NULL) ? "-" : pals_link_of[l].name);
    }
    (void)printf("%016" PRIx64 " %s\\n", pals_design, PALS_LISTING);
    return pals_open_node(0, NULL, NULL, 1) != NULL;
}
"""
# The tables with p.l and p.t only: p.m is the other end of their links, and p.r is not there.
WANTED = """p.m 0
p.l 1 p.m.l:1 p.l.target:1
- 0
p.t 1 p.m.t:4 p.t.target:1
p.m.l
-
p.m.t
p.l.target
-
p.t.target
"""


def test_the_components_of_one_processor():
    """--for writes these components, their links and the paths of their neighbours, and nothing else."""
    compiler, listing = compilers()[0], page(LISTING)
    with tempfile.TemporaryDirectory() as where:
        status, written, said = tool("code2c", "--for", "p.t", "--for", "p.l", where, given=listing.encode())
        sources = written.decode().split()
        expect((status, said, sources), (0, "", ["c_p_l.c", "c_p_l_node.c", "c_p_t.c", "c_p_t_node.c", "design.c"]),
               "the files")
        with open(os.path.join(where, "main.c"), "w", encoding="ascii") as file:
            file.write(MAIN)
        paths = [*(os.path.join(where, it) for it in (*sources, "main.c")), *(os.path.join(NODES, it) for it in OWN)]
        program = os.path.join(where, "main")
        subprocess.run([compiler, *STRICT, "-I", NODES, "-I", where, "-o", program, *paths], check=True, timeout=WITHIN)
        ran = subprocess.run([program], stdout=subprocess.PIPE, timeout=WITHIN, check=False)
        identity = hashlib.sha256(listing.encode()).hexdigest()[:16]
        expect((ran.returncode, ran.stdout.decode()), (0, f"{WANTED}{identity} pals-code 1\n"), "the tables")


def test_components_that_are_not_there():
    """An unknown component is named, and nothing is written."""
    with tempfile.TemporaryDirectory() as where:
        status, written, said = tool("code2c", "--for", "p.q", where, given=page(LISTING).encode())
        expect((status, written, said), (1, b"", "code2c: unknown component p.q; the listing has p.m, p.l, p.r, p.t\n"),
               "an unknown component")
        expect(os.listdir(where), [], "the folder")
