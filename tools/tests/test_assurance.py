"""What the pages state of trust, mutants and promises, compared with the tree."""

import glob
import os
import re
import shutil
import subprocess

from lib.project.promises import PAGE, all_wrong, defines, page_of, promises
from lib.scenarios.bundles import read
from tests.common import TOP, Skipped, expect, page, tool

# What the ported crates depend on in the kit, if the kit is not installed.
KIT = {"serde_json": "fast_float itoa json ryu serde simdutf8", "json": "fast_float itoa ryu simdutf8",
       "ryu": "fast_float", "smallvec": "arrayvec"}
# What the kit has for every program: its standard library.
STANDARD = {"core", "std", "std_alloc", "std_collections", "std_heap", "std_io", "io", "os", "libc", "check"}


def crates_below():
    """The crates of the repository, each with its line of crates.txt."""
    lines = [line.partition(":") for line in page("crates.txt").split("\n") if line and not line.startswith("#")]
    return {name.split()[0]: rest.split() for name, _, rest in lines}


def kit_folder():
    """The folder of the kit, or None."""
    found = shutil.which("rt")
    if found is None:
        return None
    ran = subprocess.run([found, "doc"], stdout=subprocess.PIPE, stderr=subprocess.DEVNULL, timeout=60, check=False)
    folder = os.path.dirname(os.fsdecode(ran.stdout).strip())
    return folder if os.path.isdir(f"{folder}/rlibs") else None


def kit_below(folder, crate):
    """The crates of the kit that a crate names in its sources, or has below its library."""
    known = {os.path.splitext(it)[0] for it in os.listdir(f"{folder}/rlibs")} - STANDARD
    below = f"{folder}/rlibs/{crate}.rlib/below"
    found = set(os.listdir(below)) if os.path.isdir(below) else set()
    own = {crate}
    for path in glob.glob(f"{folder}/rattle/{crate}/src/**/*.rt", recursive=True):
        text = re.sub(r"//[^\n]*", "", read(path).decode())
        found |= set(re.findall(r"\b(\w+)::", text))
        own |= set(re.findall(r"\bmod (\w+)", text))
    return (found & known) - own


def trusted():
    """The ported crates that the repository depends on, and what these depend on in the kit."""
    crates, folder = crates_below(), kit_folder()
    todo = {word for words in crates.values() for word in words} - set(crates)
    found = set()
    while todo:
        crate = todo.pop()
        found.add(crate)
        below = kit_below(folder, crate) if folder else set(KIT.get(crate, "").split())
        todo |= below - found
    return found


def named_in(text, begins):
    """The crates in backticks from some words up to the end of their paragraph or list item."""
    expect(begins in text, True, f"the words {begins!r}")
    part = re.split(r"\n\n|\n- ", text[text.index(begins):])[0]
    # The definitions follow in the same paragraph.
    words = re.findall(r"`(\w+)`", part.partition("definitions")[0])
    return set(words) - set(crates_below())


def test_the_trusted_crates_are_named():
    """README and docs/assurance.md name each ported crate that the program depends on, and no other."""
    if "**Ported crates**" not in page("docs/assurance.md"):
        raise Skipped("docs/assurance.md has no list of ported crates")
    wanted = trusted()
    expect(sorted(named_in(page("docs/assurance.md"), "**Ported crates**")), sorted(wanted), "docs/assurance.md")
    expect(sorted(named_in(page("README.md"), "Trusted are")), sorted(wanted), "README.md")
    folder = kit_folder()
    if folder:
        known = {crate: " ".join(sorted(kit_below(folder, crate))) for crate in wanted}
        expect({crate: below for crate, below in known.items() if below}, KIT, "the list for a machine without the kit")


def mutants():
    """The rows of docs/testing.md: body, crate and what refuses it."""
    if not os.path.isfile(f"{TOP}/docs/testing.md"):
        raise Skipped("there is no docs/testing.md")
    rows = [[cell.strip().strip("`") for cell in line.strip("|").split("|")]
            for line in page("docs/testing.md").split("\n") if line.startswith("| ")]
    heads = [at for at, row in enumerate(rows) if row[0] == "body"]
    expect(len(heads), 1, "tables of mutants in docs/testing.md")
    found = [(row[0], row[2], row[3]) for row in rows[heads[0] + 1:] if len(row) == 4]
    expect(len(found) > 30, True, f"{len(found)} mutants")
    return found


def test_mutants_are_those_of_the_page():
    """Each edit has its row in docs/testing.md, and each row that names an edit has its file."""
    edits = {(os.path.basename(path)[:-5], path.split(os.sep)[-3])
             for path in glob.glob(f"{TOP}/crates/*/must-fail/*.edit")}
    rows = mutants()
    expect({(body, crate) for body, crate, by in rows if by == "edit"}, edits, "edits and rows")
    expect({crate for _, crate, _ in rows} - set(crates_below()), set(), "crates of mutants")


def test_promises_name_what_is_there():
    """Each definition, clause, law, test, edit and page of a promise exists, and docs/promises.md is made of them."""
    found = promises()
    expect(all_wrong(found), [], "references that lead nowhere")
    expect(page(PAGE), page_of(found), f"{PAGE}: tools/promises makes it anew")
    expect([it["id"] for it in found], [f"P{number}" for number in range(1, len(found) + 1)], "identifiers")
    rows = re.findall(r"(?m)^\| (\d+) ", page("docs/assurance.md").partition("## What is guaranteed")[2])
    if rows:
        expect([f"P{number}" for number in rows], [it["id"] for it in found], "guarantees of docs/assurance.md")


def test_wrong_promises_are_reported():
    """A name that no file defines, a file, a crate, an edit and a page that are not there are found."""
    for path, text, name, wanted in (
            ("a.rt", "pub fn step<T>()\n    ensures means { x }\n", "step", True), ("a.rt", "// step\n", "step", False),
            ("a.rt", "    ensures means { x }\n", "means", True), ("a.antt", "pub record IsA : Type 0", "IsA", True),
            ("a.antt", "  pub part : x", "part", True), ("a.antt", "  x part : y", "part", False),
            ("a.py", "def test_a():\n", "test_a", True), ("a.py", "# test_a()\n", "test_a", False)):
        expect(defines(path, text, name), wanted, f"{name} in {text!r}")
    first = promises()[0]
    for field, value, said in (("definitions", ["pals_top/specs/Answers.antt NoSuch"], "defines no NoSuch"),
                               ("clauses", ["pals_top/src/none.rt pals"], "there is no file"),
                               ("crates", ["no_crate"], "there is no crate"), ("edits", ["pals_top/none"], "no edit"),
                               ("page", "docs/none.md", "there is no page"), ("tests", [], "has no tests")):
        found = all_wrong([{**first, field: value}])
        expect((len(found), said in "".join(found)), (1, True), f"{field}: {found}")
    expect("two promises" in all_wrong([first, first])[0], True, "an identifier twice")
    expect(tool("promises", "--check")[0], 0, "tools/promises --check")
