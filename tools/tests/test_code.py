"""Listings, and the C that is made of them: tried against the program, instruction by instruction."""

import os
import random
import tempfile

from lib.language.listing import read_listing
from lib.scenarios.bundles import Refused
from tests.common import expect, explained, page, tool
from tests.nodes import (CHECKED, HOST, MORE, OWN, c_of, compiled, compilers, design_nodes, folder, joined, listing_of,
                         object_of, pals, program_of)

LISTED = {"examples/two_counters": "pals", "examples/turn_controller": "pals", "nodes/tests/operators": "aadl",
          "nodes/tests/cut": "aadl"}
GREATEST = 2**63 - 1
EDGES = [0, 1, -1, 2, -2, 3, -3, 7, -7, 2**31, -(2**31), 2**32, 3037000499, 3037000500, -3037000500, 2**62, -(2**62),
         GREATEST, GREATEST - 1, -GREATEST - 1, -GREATEST]
ADAPTORS = ("same", "repeat", "at", "latest", "max", "min", "average")


def test_listings_stand_beside_their_designs():
    """Each listing in the repository is what pals_code writes of its design."""
    for name, ending in LISTED.items():
        text = page(f"{name}.{ending}").partition("\n%%%\n")[0] + "\n"
        expect(listing_of(text), page(f"{name}.listing"), f"{name}.listing")


def changed(source, text):
    """A text with one change."""
    lines = text.split("\n")
    at, how = source.randrange(len(lines)), source.randrange(7)
    words = lines[at].split(" ")
    place = source.randrange(len(words))
    if how == 0:
        del lines[at]
    elif how == 1:
        lines.insert(at, source.choice(lines))
    elif how == 2:
        other = source.randrange(len(lines))
        lines[at], lines[other] = lines[other], lines[at]
    elif how == 3:
        letter = source.randrange(len(text))
        return text[:letter] + source.choice(" 0-1_.\n\tAé\r") + text[letter + source.randrange(2) :]
    elif how == 4 and words[place].lstrip("-").isdigit():
        words[place] = str(int(words[place]) + source.choice((-1, 1, 10**18, -(2**63))))
    elif how == 5:
        words[place] = source.choice(source.choice(lines).split(" "))
    else:
        del words[place]
    if how > 3:
        lines[at] = " ".join(words)
    return "\n".join(lines)


def test_changed_listings_are_refused_or_told_apart():
    """A listing has one spelling: a changed one is another design."""
    source = random.Random(5)
    texts = [page(f"{name}.listing") for name in LISTED]
    read = {text: read_listing(text) for text in texts}
    refused = 0
    for _ in range(4000 if MORE else 800):
        text = source.choice(texts)
        other = changed(source, text)
        if other == text:
            continue
        try:
            expect(read_listing(other) != read[text], True, f"another listing is read alike:\n{other}")
        except Refused:
            refused += 1
    expect(refused > 0, True, "some are refused")


def test_code2c_refuses_what_the_verifier_refuses():
    """Code that jumps back, runs past its end, or pops too much is rejected with its place, and no file is made."""
    text = page("examples/two_counters.listing")
    cases = [("  1 Port 0 i", "  1 Jump 0", "place 1: BackJump"), ("  8 End 0 s", "  8 Push 1", "place 8: BadJump"),
             ("  3 Push 1", "  3 Not", "place 4: Underflow"), ("  5 Store 0 x", "  5 LoopNext 0 x 3 4", "BackJump")]
    for line, other, wanted in cases:
        with tempfile.TemporaryDirectory() as where:
            status, _, said = tool("code2c", where, given=text.replace(line, other, 1).encode())
            expect((status, wanted in said, os.listdir(where)), (1, True, []), f"{other}: {said}")
    status, _, said = tool("code2c", folder(), given=text.replace(" release 1000000", " release 1", 1).encode())
    expect((status, "line 9 of the listing" in said), (1, True), said)


def test_explain_passes_listings_on():
    """A listing is an output that is passed on whole; half of one is not an output."""
    text = page("examples/two_counters.listing")
    bundle = page("examples/two_counters.pals").encode()
    expect(explained(bundle, text), (0, text), "a listing")
    expect(explained(bundle, text[:300]), (1, ""), "half a listing")
    expect(explained(bundle, "usage: pals_code ROOT\n")[0], 2, "the usage line")


def test_c_compiles_without_a_word():
    """All C is taken by each compiler that is here, with its warnings as errors."""
    for compiler in compilers():
        for name in LISTED:
            where = os.path.join(folder(), f"{compiler}-{os.path.basename(name)}")
            sources = [os.path.join(where, it) for it in c_of(page(f"{name}.listing"), where)]
            for source in sources if MORE or name == "examples/turn_controller" else sources[:3]:
                compiled(compiler, ["-O2"], source, where, os.path.join(where, "made.o"))
        for source in (*OWN, *HOST, "demo/faults.c", "demo/demo.c"):
            object_of(compiler, ("-O2",), source)


def fits(number):
    """Whether a number is one of 64 bits."""
    return -GREATEST - 1 <= number <= GREATEST


def traps(a, b):
    """Whether an operator traps on two numbers."""
    return b == 0 or not all(map(fits, (a + b, a - b, a * b, -a, 12 * a, 12 * b))) or (a, b) == (-GREATEST - 1, -1)


def test_each_operator_and_trap():
    """Each instruction in C has the result of `sync`, at the ends of 64 bits too, and traps if `sync` traps."""
    text, source = page("nodes/tests/operators.aadl"), random.Random(3)
    nodes = design_nodes(text)
    pairs = [(a, b) for a in EDGES for b in EDGES]
    trapping = [pair for pair in pairs if traps(*pair)]
    plain = [pair for pair in pairs if not traps(*pair)] + [(None, 5), (7, None), (None, None), (3, -3)]
    runs = [plain] + [[pair, (1, 2)] for pair in (trapping if MORE else source.sample(trapping, 60))]
    meeting = program_of(page("nodes/tests/operators.listing"), "tests/meeting.c", compilers()[-1], CHECKED)
    for run in runs:
        given = {"rounds": len(run), "inputs": {"a": [a for a, _ in run], "b": [b for _, b in run]}}
        status, wanted = pals(["sync", "Top.impl"], text, given)
        rows = "\n".join(joined(nodes, meeting.run(given)).rows()) + "\n"
        expect((status, rows), (0, wanted), f"the rows of {given}")


def adapted(adaptor, place, group):
    """What an adaptor gives of a group, by the table of docs/language.md."""
    there = [value for value in group if value is not None]
    if adaptor == "at":
        return group[place]
    if not there:
        return None
    if adaptor == "average":
        total = sum(there)
        return abs(total) // len(there) * (1 if total >= 0 else -1)
    return {"latest": there[-1], "max": max(there), "min": min(there)}[adaptor]


def steps_read(source_rate, rate, adaptor, place, message):
    """What each step of the target reads."""
    if source_rate == rate:
        return message
    if source_rate > rate:
        length = source_rate // rate
        return [adapted(adaptor, place, message[at : at + length]) for at in range(0, source_rate, length)]
    length = rate // source_rate
    return [value if adaptor == "repeat" or at == place else None for value in message for at in range(length)]


def test_adaptors_in_c():
    """Each adaptor gives the result in the table of docs/language.md, for values up to the ends of 64 bits."""
    source, asked, wanted = random.Random(11), [], []
    for _ in range(20000 if MORE else 3000):
        rate, length = source.choice((1, 2, 3, 4, 8)), source.choice((1, 2, 3, 4, 5, 7, 8))
        down = source.random() < 0.8
        names = ("same",) if length == 1 else ("at", "latest", "max", "min", "average", "average") if down else (
            "at", "repeat")
        adaptor, place = source.choice(names), source.randrange(length)
        rates = (rate * length, rate) if down else (rate, rate * length)
        message = [None if source.random() < 0.2 else source.choice(
            (source.randint(-9, 9), source.choice(EDGES), source.randint(-(2**63), GREATEST))) for _ in range(rates[0])]
        asked.append(" ".join(["_" if it is None else str(it) for it in (
            *rates, ADAPTORS.index(adaptor), place, *message)]))
        wanted.append(" ".join("_" if it is None else str(it) for it in steps_read(*rates, adaptor, place, message)))
    adaptors = program_of(page("examples/two_counters.listing"), "tests/adaptors.c", compilers()[0], CHECKED)
    found = adaptors.run_text("\n".join(asked) + "\n").split("\n")[:-1]
    wrong = [it for it in zip(asked, wanted, found) if it[1] != it[2]]
    expect((len(found), wrong[:3]), (len(wanted), []), "adaptors")
