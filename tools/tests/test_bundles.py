"""Examples, and the bundles that are made of them."""

import json
import os
import tempfile

from lib.language.tokens import tokens_of
from lib.scenarios.bundles import Bundle, bundle_of, read
from tests.common import EXAMPLES, TOP, examples, expect, tool


def meaning(design):
    """The tokens of a design, without its `with` clauses and empty braces, which mean nothing."""
    words, kept, at = [token.text for token in tokens_of(design)], [], 0
    while at < len(words):
        if words[at].lower() == b"with":
            at = words.index(b";", at) + 1
        elif words[at : at + 2] == [b"{", b"}"]:
            at += 2
        else:
            kept.append(words[at])
            at += 1
    return kept


def test_examples_join_to_their_bundles():
    """Each bundle has a row, and the design and the scenario of the row join to a bundle with the same meaning."""
    named = {os.path.basename(row[0]) for row in examples()}
    expect({it for it in os.listdir(EXAMPLES) if it.endswith(".pals")} - named, set(), "bundles without a row")
    for bundle, design, scenario, *_ in examples():
        status, made, said = tool("bundle", design, scenario)
        expect((status, said), (0, ""), f"joining {bundle}")
        if not os.path.isfile(os.path.join(TOP, bundle)):
            continue
        joined, whole = Bundle("", made), bundle_of(os.path.join(TOP, bundle))
        expect(meaning(joined.design), meaning(whole.design), f"the design of {bundle}")
        expect(json.loads(joined.scenario), json.loads(whole.scenario), f"the scenario of {bundle}")


def test_designs_open_in_editors():
    """Each design has a `with` for every set that it uses, no empty braces, and is named by a row."""
    designs = {os.path.basename(row[1]) for row in examples()}
    stands = {it for it in os.listdir(EXAMPLES) if it.endswith(".aadl")} - {"PALS_Profile.aadl"}
    expect(stands, designs, "designs and the rows of the table")
    for name in designs:
        words = [token.text for token in tokens_of(read(os.path.join(EXAMPLES, name)))]
        used = {word for word, then in zip(words, words[1:]) if then == b"::"}
        declared, at = set(), 0
        while b"with" in words[at:]:
            at = words.index(b"with", at)
            end = words.index(b";", at)
            declared |= set(words[at + 1 : end]) - {b","}
            at = end
        expect(declared, used, f"the with clauses of {name}")
        expect([b"{", b"}"] in [list(it) for it in zip(words, words[1:])], False, f"empty braces in {name}")


def test_bundle_mends_and_refuses():
    """A missing line end is added, a byte order mark taken off, and a line %%% refused."""
    with tempfile.TemporaryDirectory() as folder:

        def joined(design, scenario=None):
            with open(os.path.join(folder, "m.aadl"), "wb") as file:
                file.write(design)
            words = ["m.aadl"]
            if scenario is not None:
                with open(os.path.join(folder, "s.json"), "wb") as file:
                    file.write(scenario)
                words.append("s.json")
            return tool("bundle", *words, folder=folder)[:2]

        expect(joined(b"end A;", b"{}"), (0, b"end A;\n%%%\n{}"), "a line end that is missing")
        expect(joined(b"end A;\n", b"{}\n"), (0, b"end A;\n%%%\n{}\n"), "a line end that is there")
        expect(joined(b"\xef\xbb\xbfend A;\n", b"\xef\xbb\xbf{}"), (0, b"end A;\n%%%\n{}"), "byte order marks")
        expect(joined(b"end A;\r\n"), (0, b"end A;\r\n%%%\n"), "no scenario")
        for design in (b"a\n%%%\nb\n", b"a\n%%%", b"a\n%%%\r\nb", b"a\n%%%\r", b"%%%"):
            expect(joined(design, b"{}"), (1, b""), f"the design {design}")
        for design in (b"a\n%%% \nb\n", b"-- %%%\n", b"%%%%\n"):
            expect(joined(design, b"{}"), (0, design + b"%%%\n{}"), f"the design {design}")
