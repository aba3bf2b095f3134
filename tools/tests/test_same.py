"""The comparison of a step's C with its listing by cvc5: it finds the same, and each change."""

import os
import re
import shutil
import tempfile

from tests.common import Skipped, expect, page, tool
from tests.nodes import MORE, c_of

# Changes of the C of the turn controller's surface, the first match is changed: each gives another step.
CHANGES = [
    (r"s0 > s1", "s0 >= s1"), (r"s0 < s1", "s1 < s0"), (r"pals_add\(s0, s1", "pals_sub(s0, s1"),
    (r"pals_sub\(s0, s1", "pals_sub(s1, s0"), (r"INT64_C\(1\);", "INT64_C(2);"), (r"goto L12;", "goto L23;"),
    (r"v_a = s0; .*\n", "\n"), (r"o_angle = \(pals_value\)\{s0, true\};", "o_angle = (pals_value){s1, true};"),
    (r"o_angle = \(pals_value\)\{s0, true\};", "o_angle = (pals_value){s0, false};"),
    (r"if \(in\[0\]\.present\) \{ f->h_target = in\[0\]\.number; \}\n", "\n"),
    (r"    if \(halt != PALS_GOES\) \{ return halt; \}\n", "\n"), (r"trap:\n    f->halt = halt;", "trap:"),
    (r"    f->v_a = v_a;\n", "\n"), (r"if \(s0 == 0\) \{ goto", "if (s0 != 0) { goto"),
    (r"    if \(halt != PALS_GOES\) \{ goto trap; \}\n", "\n"), (r"s0 = f->h_target;", "s0 = in[0].number;"),
    (r"done:\n    f->v_a = v_a;\n    out\[0\] = o_angle;", "done:\n    f->v_a = v_a;"),
]
DESIGNS = ("nodes/tests/operators", "examples/turn_controller", "examples/two_counters", "nodes/tests/cut")


def same(folder, listing):
    """The results of tools/same by component, with its status."""
    if not shutil.which("cvc5"):
        raise Skipped("cvc5 is not installed")
    status, written, said = tool("same", folder, given=listing.encode())
    expect(said, "", "what same says")
    return status, dict(re.findall(r"(?m)^(\S+) (.*) [\d.]+ s$", written.decode()))


def test_the_c_of_designs_is_their_code():
    """The C of each component of the designs whose listings are here is the same as its code."""
    for name in DESIGNS if MORE else DESIGNS[:2]:
        with tempfile.TemporaryDirectory() as folder:
            c_of(page(f"{name}.listing"), folder)
            status, found = same(folder, page(f"{name}.listing"))
            expect((status, set(found.values()), len(found) > 1), (0, {"same"}, True), f"{name}: {found}")


def test_changed_c_is_another_step():
    """Each change of the C is found, or its statement is refused."""
    listing = page("examples/turn_controller.listing")
    begin = listing.index("component p.l\n")
    only = listing[: listing.index("component p.m\n")] + listing[begin : listing.index("component p.r\n")] + "end\n"
    with tempfile.TemporaryDirectory() as folder:
        c_of(only, folder)
        path = os.path.join(folder, "c_p_l.c")
        with open(path, encoding="ascii") as file:
            text = file.read()
        expect(same(folder, only), (0, {"p.l": "same"}), "the C as it is made")
        for old, new in CHANGES:
            changed, count = re.subn(old, new, text, count=1)
            expect(count, 1, f"the change {old}")
            with open(path, "w", encoding="ascii") as file:
                file.write(changed)
            expect(same(folder, only), (1, {"p.l": "differs"}), f"{old} becomes {new}")
        with open(path, "w", encoding="ascii") as file:
            file.write(text.replace("s0 = v_a;", "s0 = v_a ^ 1;"))
        status, found = same(folder, only)
        expect((status, found["p.l"][:41]), (1, "not tried: p.l: a statement of the C cann"), found)


# Changes of pals_step.h, each with the operators that are then wrong or undefined.
OPERATORS = [
    ("a > (INT64_MAX - b)", "a >= (INT64_MAX - b)", {"add"}), ("a < (INT64_MIN - b)", "a < INT64_MIN", {"add"}),
    ("a > (INT64_MAX + b)", "a > (INT64_MAX - b)", {"sub"}), ("*to = a - b;", "*to = b - a;", {"sub"}),
    ("*to = a * b;", "*to = a + b;", {"mul"}), ("(a == INT64_MIN) && (b == -1)", "b == -1", {"quot"}),
    ("*to = a / b;", "*to = a % b;", {"quot"}), ("(b == -1) ? 0 : (a % b)", "a % b", {"rem", "mod"}),
    ("*to += b;", "*to = b;", {"mod"}), ("(*to < 0) != (b < 0)", "*to < 0", {"mod"}),
    ("a == INT64_MIN) {\n        return PALS_OVERFLOW;\n    }\n    *to = -a;", "a == INT64_MAX) {\n        return "
     "PALS_OVERFLOW;\n    }\n    *to = -a;", {"neg", "abs"}), ("    if (a < 0) {\n", "    if (a < 1) {\n", set()),
]


def wrong_operators(header):
    """The operators of a header that are not shown to be their definitions."""
    if not shutil.which("cvc5"):
        raise Skipped("cvc5 is not installed")
    with tempfile.TemporaryDirectory() as folder:
        path = os.path.join(folder, "pals_step.h")
        with open(path, "w", encoding="ascii") as file:
            file.write(header)
        status, written, said = tool("same", "--seconds", "300", "--operators", path)
    found = dict(re.findall(r"(?m)^(\S+) (.*) [\d.]+ s$", written.decode()))
    expect((said, len(found)), ("", 8), "what same says")
    wrong = {name for name, result in found.items() if result != "same"}
    expect(status, 1 if wrong else 0, f"the status with {found}")
    return wrong


def test_operators_are_their_definitions():
    """Each operator of pals_step.h is its definition for all operands; each change of an operator is found."""
    header = page("nodes/pals_step.h")
    expect(wrong_operators(header), set(), "the header")
    for old, new, wrong in OPERATORS if MORE else OPERATORS[:1] + OPERATORS[7:9]:
        expect(header.count(old) >= 1, True, f"the change {old}")
        expect(wrong_operators(header.replace(old, new, 1)), wrong, f"{old} becomes {new}")
