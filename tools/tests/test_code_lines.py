"""Comments of generated C that name lines of the design's text."""

import os
import random
import re
import tempfile

from lib.running.random_designs import DesignMaker, design_text
from tests.common import expect, page, tool
from tests.nodes import MORE, compiled, compilers, listing_of

DESIGNS = 200 if MORE else 25


def generated(text, listing, where):
    """The sources of the steps of a design with its lines as comments."""
    design = os.path.join(where, "design.aadl")
    with open(design, "w", encoding="utf-8") as file:
        file.write(text)
    status, written, said = tool("code2c", "--aadl", design, os.path.join(where, "c"), given=listing.encode())
    expect((status, said), (0, ""), f"code2c --aadl of\n{text}")
    for name in written.decode().split():
        if not name.endswith("_node.c") and name != "design.c":
            with open(os.path.join(where, "c", name), encoding="ascii") as file:
                yield name, file.read()


def check(text, listing):
    """Each assignment and each send of the C names a line of the text that has it; each transition has its comment."""
    lines, count = text.split("\n"), 0
    with tempfile.TemporaryDirectory() as where:
        for name, source in generated(text, listing, where):
            for kind, port, number in re.findall(r"(v|o)_(\w+) = .* /\* line (\d+) \*/", source):
                form = rf"\b{port}\s*:=" if kind == "v" else rf"\b{port}\s*!\s*\("
                expect(bool(re.search(form, lines[int(number) - 1], re.I)), True, f"{port} at line {number} of\n{text}")
                count += 1
            for number, shown in re.findall(r"/\* line (\d+): (.*) \*/", source):
                expect("-[" in lines[int(number) - 1] and lines[int(number) - 1].strip().startswith(shown[:20]), True,
                       f"the transition at line {number} of\n{text}")
                count += 1
            compiled(compilers()[0], ["-O0"], os.path.join(where, "c", name), os.path.join(where, "c"),
                     os.path.join(where, "step.o"))
    return count


def test_comments_name_lines_of_the_text():
    """Lines of the designs whose listings are here, and of random ones."""
    count = sum(check(page(f"{name}.aadl"), page(f"{name}.listing"))
                for name in ("examples/turn_controller", "nodes/tests/operators", "nodes/tests/cut"))
    expect(count > 60, True, f"{count} comments")
    for number in range(DESIGNS):
        text = design_text(DesignMaker(random.Random(number)).made())
        check(text, listing_of(text))


def test_another_design_is_refused():
    """A text that is not the design of the listing is refused."""
    with tempfile.TemporaryDirectory() as where:
        design = os.path.join(where, "other.aadl")
        with open(design, "w", encoding="ascii") as file:
            file.write(page("examples/two_counters.aadl"))
        given = page("examples/turn_controller.listing").encode()
        status, written, said = tool("code2c", "--aadl", design, where, given=given)
        expect((status, written, "is not the design of the listing" in said), (1, b"", True), said)
