"""Changes that a review has to see: public calls, the longest chain of crates, counts in pages, unused names."""

import glob
import os
import re
import shutil
import subprocess

from lib.project.surface import CRATES, PAGE, exported, items, surface
from lib.scenarios.bundles import read
from tests.common import TOP, WITHIN, Skipped, expect, page, tool
from tests.test_assurance import crates_below


def pages():
    """The text of each page, in one line, by its name."""
    names = ["README.md"] + [os.path.relpath(it, TOP) for it in sorted(glob.glob(f"{TOP}/docs/*.md"))]
    return {name: " ".join(page(name).split()) for name in names}


def test_public_calls_are_those_of_the_list():
    """docs/surface.txt has the public calls of the crates that docs/library.md names, with their signatures."""
    expect(page(PAGE), surface(), f"{PAGE}: tools/surface makes it anew")
    text = pages()["docs/library.md"]
    for calls, crate in re.findall(r"((?:`\w+`(?:, | and | and others )?)+) of `(\w+)`", text):
        expect(crate in CRATES, True, f"docs/library.md names {crate}, which tools/lib/surface.py has")
        listed = page(PAGE).partition(f"\n{crate}\n")[2].partition("\n\n")[0]
        for call in (name for name in re.findall(r"`(\w+)`", calls) if name not in crates_below()):
            found = re.search(rf"\b(?:fn|struct|enum|trait|type) {call}\b", listed)
            expect(found is not None, True, f"{PAGE} has {call} of {crate}")
    expect(tool("surface", "--check")[0], 0, "tools/surface --check")


def test_public_items_are_read():
    """Items, methods and traits of a source, without private functions and functions in bodies."""
    text = """pub struct A<T> { x: T }
        impl<T> A<T> {
            pub fn new(x: T) -> A<T> ensures { result.x ≡ x } { fn inner() {} A { x } }
            fn hidden(&self) -> u8 { 1 } pub fn size(&self,
                more: u8,
            ) -> u8 { match more { 0 => 1, _ => 2 } }
        }
        impl Drop for A<u8> { fn drop(self) {} }
        pub trait Sink { fn write(&mut self, x: &[u8]) -> u8; }
        pub fn take(x: u8) requires { x < 2 } ensures { true } { }
        fn private(x: u8) {}
        pub const MOST: usize = 3;"""
    found = [(owner, line) for owner, _, _, line in items(text)]
    wanted = [(None, "pub struct A<T>"), ("A", "pub fn new(x: T) -> A<T>"), ("A", "pub fn size(&self, more: u8) -> u8"),
              (None, "pub trait Sink"), ("Sink", "fn write(&mut self, x: &[u8]) -> u8"), (None, "pub fn take(x: u8)"),
              (None, "pub const MOST: usize")]
    expect(found, wanted, "items")
    expect(exported("pub use a::{B, C};\npub use d::E;\nuse f::G;\npub mod h;"), ({"B", "C", "E"}, {"h"}), "a root")


def longest(crates, name, known):
    """The number of crates in the longest chain from a crate down."""
    if name not in known:
        known[name] = 1 + max((longest(crates, it, known) for it in crates[name] if it in crates), default=0)
    return known[name]


def test_the_longest_chain_is_that_of_the_pages():
    """The longest chain of crates is as long as the pages state, and at most 12."""
    crates, known = crates_below(), {}
    found = max(longest(crates, name, known) for name in crates)
    expect(found <= 12, True, f"the longest chain has {found} crates")
    for name, text in pages().items():
        for number in re.findall(r"longest chain (?:has|is|of) (\d+)", text):
            expect(int(number), found, f"{name}: the longest chain")


def test_pages_count_crates_and_edits():
    """Each number of crates or edits that a page states is the number in the tree."""
    edits = glob.glob(f"{TOP}/crates/*/must-fail/*.edit")
    counted = {r"over (\d+) crates": len(glob.glob(f"{TOP}/crates/*/src")),
               r"(\d+) (?:wrong bodies|wrong edits|edits)\b": len(edits),
               r"(?:wrong bodies|wrong edits|edits) (?:are tried, )?in (\d+) crates":
                   len({os.path.dirname(path) for path in edits})}
    for name, text in pages().items():
        for form, wanted in counted.items():
            for number in re.findall(form, text):
                expect(int(number), wanted, f"{name}: {form}")


def test_tools_are_clean():
    """pyflakes finds nothing in the tools."""
    command = shutil.which("pyflakes3") or shutil.which("pyflakes")
    if not command:
        raise Skipped("pyflakes is not installed (Debian: pyflakes3)")
    scripts = [path for path in glob.glob(f"{TOP}/tools/*") if os.path.isfile(path)]
    scripts = [path for path in scripts if read(path).startswith(b"#!/usr/bin/env python3")]
    ran = subprocess.run([command, *sorted(scripts), f"{TOP}/tools/lib", f"{TOP}/tools/tests"], timeout=WITHIN,
                         stdout=subprocess.PIPE, stderr=subprocess.STDOUT, check=False)
    expect((ran.returncode, ran.stdout.decode()), (0, ""), "pyflakes")
