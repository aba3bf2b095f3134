"""The contents of the pages, and the positions of definitions."""

import glob
import os
import re
import subprocess
import tempfile

from lib.scenarios.bundles import read
from tests.common import TOP, WITHIN, blocks, built, expect, page, script

LISTINGS = ("code_listing", "pals_code")
# A command ./pals that passes a design and a scenario to the built program.
PALS = """command=$1; shift; flag=
case $1 in --trace) flag=$1; shift ;; esac
tools/bundle "$@" | {program} $command $flag Top.impl"""


def says(name, words):
    """Stops if a page does not contain a sentence, however its lines are broken."""
    expect(words in " ".join(page(name).split()), True, f"{name} says: {words}")


def of_pals(pattern):
    """The files of a pattern, except the files of the listing program, which has definitions of its own."""
    found = glob.glob(pattern, recursive=True)
    return [it for it in found if os.path.relpath(it, f"{TOP}/crates").split(os.sep)[0] not in LISTINGS]


def test_pages_show_what_the_tools_write():
    """Each console block of the pages is the output of its commands."""
    count = 0
    for name in ("docs/tools.md", "docs/misleading.md"):
        for block in (text for kind, text in blocks(name) if kind == "console"):
            with tempfile.TemporaryDirectory() as folder:
                for part in ("tools", "examples", "docs", "pals"):
                    os.symlink(os.path.join(TOP, part), os.path.join(folder, part))
                for command, wanted in re.findall(r"\$ (.*)\n((?:(?!\$ ).*\n)*)", block):
                    how = {"shell": True, "cwd": folder, "stdout": subprocess.PIPE, "timeout": WITHIN}
                    ran = subprocess.run(command, stderr=subprocess.STDOUT, check=False, **how)
                    expect(ran.stdout.decode(), wanted, f"{name}: {command}")
                    count += 1
    expect(count >= 8, True, f"{count} commands in the pages")


def test_the_tutorial_shows_what_its_commands_write():
    """Each command of the tutorial runs, in order in one folder, and writes what the page shows."""
    program = built()
    with tempfile.TemporaryDirectory() as folder:
        for part in ("tools", "examples"):
            os.symlink(os.path.join(TOP, part), os.path.join(folder, part))
        script(os.path.join(folder, "pals"), PALS.format(program=program))
        for block in (text for kind, text in blocks("docs/tutorial.md") if kind == "console"):
            for command, wanted in re.findall(r"\$ (.*(?:\n> .*)*)\n((?:(?!\$ ).*\n)*)", block):
                how = {"shell": True, "cwd": folder, "stdout": subprocess.PIPE, "timeout": WITHIN}
                ran = subprocess.run(command.replace("\n> ", "\n"), stderr=subprocess.STDOUT, check=False, **how)
                expect(ran.stdout.decode(), wanted, command)


def test_pages_name_files_that_are_there():
    """Each file of a crate that a page names is there, and so is each file of the list of what to read."""
    there = [it for kind in ("rt", "antt") for it in glob.glob(f"{TOP}/crates/**/*.{kind}", recursive=True)]
    files = {os.path.basename(it) for it in there}
    names = ["README.md"] + [os.path.relpath(it, TOP) for it in sorted(glob.glob(f"{TOP}/docs/*.md"))]
    for name in names:
        for found in re.findall(r"`(?:[\w/+-]*/)?([\w+-]+\.(?:antt|rt))`", page(name)):
            expect(found in files, True, f"{name} names {found}, which is there")
    paths = 0
    for item in re.split(r"\n(?=[-#])", page("docs/contributing.md")):
        crate = None
        for word in re.findall(r"`([^`]+)`", item):
            first, _, rest = word.partition("/")
            if os.path.isdir(f"{TOP}/crates/{first}"):
                crate, word = first, rest
            if crate and re.fullmatch(r"(?:src|specs|proofs)/[\w/+]+\.(?:rt|antt)", word):
                here = os.path.isfile(f"{TOP}/crates/{crate}/{word}")
                expect(here, True, f"docs/contributing.md names {word} of {crate}, which is there")
                paths += 1
    expect(paths >= 150, True, f"{paths} paths in docs/contributing.md")
    listed = page("docs/definitions.md").partition("in this order:")[2].partition("\n\nThe")[0]
    count = 0
    for item in re.split(r"\n(?=\d+\.)", listed):
        crate = None
        for word in re.findall(r"`(\w+)`", item):
            if os.path.isdir(f"{TOP}/crates/{word}"):
                crate = word
            elif crate and re.fullmatch("[A-Z][A-Za-z]+", word):
                folder = glob.glob(f"{TOP}/crates/{crate}/specs/*.antt")
                own = f"{TOP}/crates/{crate}/specs/{word}.antt" in folder
                inner = any(re.search(rf"\bpub (?:record |data )?{word}\b", read(it).decode()) for it in folder)
                expect(own or inner, True, f"the list of definitions names {word} of {crate}, which is there")
                count += 1
    expect(count >= 40, True, f"{count} files in the list of definitions")


def test_links_of_pages_lead_somewhere():
    """Each link of a page leads to a file that is there, and to a heading of it."""
    count = 0
    for path in [f"{TOP}/README.md", f"{TOP}/examples/README.md", *glob.glob(f"{TOP}/docs/*.md")]:
        name = os.path.relpath(path, TOP)
        for link in re.findall(r"\]\(([^)\s:]+)\)", page(name)):
            file, _, heading = link.partition("#")
            target = os.path.normpath(os.path.join(os.path.dirname(name), file)) if file else name
            expect(os.path.isfile(os.path.join(TOP, target)), True, f"{name} links to {link}")
            if heading:
                titles = [re.sub(r"[^\w\- ]", "", it.lower()).replace(" ", "-")
                          for it in re.findall(r"(?m)^#+ (.*)$", page(target))]
                expect(heading in titles, True, f"{name} links to {link}")
            count += 1
    expect(count >= 50, True, f"{count} links")


def test_the_list_of_crates_has_their_edges():
    """The page lists each crate of `crates.txt` once, with dependencies that it has there."""
    lines = [line.partition(":") for line in page("crates.txt").split("\n") if not line.startswith("#")]
    below = {name: rest.split() for name, _, rest in lines if name}
    items = re.findall(r"(?m)^- \*\*`(\w+)`\*\*\s\(([^)]*)\)", page("docs/crates.md"))
    expect(sorted(name for name, _ in items), sorted(below), "crates in docs/crates.md")
    for name, nearest in items:
        for word in re.findall(r"`(\w+)`", nearest):
            expect(word in below[name], True, f"docs/crates.md: {name} depends on {word}")


def test_definitions_are_told_by_their_folder():
    """No definition on which the theorem rests uses one of a folder `proof`, nor does the theorem."""
    files = [it for it in of_pals(f"{TOP}/crates/*/specs/**/*.antt") if not it.endswith("/Lib.antt")]
    rests = [it for it in files if "/specs/proof" not in it]
    for name in rests:
        expect(b".specs.proof." in read(name), False, f"a definition of proofs, used in {name}")
    clauses = page("crates/pals_top/src/program.rt").partition("pub fn pals<")[2].partition("\n{")[0]
    inner = re.findall(r"\.specs\.proof\.\w+\.\{(.*)\}", page("crates/pals_top/src/program.rt"))
    for name in (name for names in inner for name in names.split(", ")):
        expect(re.search(rf"\b{name}\b", clauses), None, f"{name} in the theorem")
    lines = [line.strip() for name in rests for line in read(name).decode().split("\n") if line.strip()]
    told = sum(not line.startswith(("--", "use ")) for line in lines)
    says("docs/definitions.md", f"{len(rests)} of them, with {told:,} lines of definitions")
    inside = len(of_pals(f"{TOP}/crates/*/specs/proof/**/*.antt"))
    says("docs/definitions.md", f"those definitions, {inside} files")
    says("docs/assurance.md", f"{len(rests)} short files")


def test_mutants_name_cases_that_stand():
    """Each mutant has one row in the table, and each case that a row names is in the output of its crate."""
    rows = re.findall(r"(?m)^\| (\w+) \| [^|]* \| (\w+) \| ([^|]*) \|$", page("docs/testing.md"))
    bodies = [body for body, _, _ in rows]
    expect(sorted(set(bodies)), sorted(bodies), "each mutant has one row")
    written = page("crates/program_tests/stdout").split("\n")
    count = 0
    for test in (test for _, crate, test in rows if os.path.isdir(f"{TOP}/crates/{crate}")):
        for name, number in re.findall(r"\b([a-z_]+) (\d+)", test):
            expect(f"{name} {number}: right" in written, True, f"{name} {number} is a case of program_tests")
            count += 1
    expect(count >= 40, True, f"{count} cases in the table of mutants")


def test_pages_quote_what_stands():
    """The theorem's signature, and the names of clauses and laws that a page sends its reader to."""
    program = page("crates/pals_top/src/program.rt")
    signature = program[program.index("pub fn pals<") : program.index(" -> u8\n") + len(" -> u8\n")]
    expect(signature in page("docs/theorem.md"), True, "the signature of pals in docs/theorem.md")
    count = 0
    for line in page("docs/theorem.md").split("\n"):
        for names, path in re.findall(r"((?:`\w+`(?:, | and )?)+)[^`(]*\(`(\w+/[\w/]+\.\w+)`\)", line):
            for name in re.findall(r"`(\w+)`", names):
                expect(re.search(rf"\b{name}\b", page(f"crates/{path}")) is not None, True, f"{name} in {path}")
                count += 1
    expect(count >= 20, True, f"{count} names of clauses and laws")
