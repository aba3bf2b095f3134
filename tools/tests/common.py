"""What the tests of the tools share."""

import io
import os
import re
import runpy
import sys
import tempfile

from lib.running.program import found_by_pals
from lib.scenarios.bundles import Refused, read

HERE = os.path.dirname(os.path.dirname(os.path.abspath(__file__)))
TOP = os.path.dirname(HERE)
EXAMPLES = os.path.join(TOP, "examples")
RULE = re.compile(r"\| `(\S+\.pals)` \| `(\S+)` \| `(\S+)` \| `([^`]+)` \| `(\S+)` \| (\d+) \|")
# Of each program the variable that names another one, and the word by which ./pals knows it.
PROGRAMS = {"pals_cli": ("PALS_PROGRAM", ()), "pals_code": ("PALS_CODE_PROGRAM", ("code",))}
# The paths of programs that were found.
FOUND = {}
# The seconds that a command may take at most, on a machine that has other work.
WITHIN = 600


class Wrong(Exception):
    """What is not as it should be."""


class Skipped(Exception):
    """Why a test is omitted."""


def expect(found, wanted, what):
    """Stops if a value is not the expected one."""
    if found != wanted:
        raise Wrong(f"{what}\n--- wanted\n{wanted}\n--- found\n{found}")


def tool(name, *words, given=b"", folder=TOP):
    """Runs a tool in this process, and returns its status and its output."""
    kept = sys.argv, sys.stdin, sys.stdout, sys.stderr, os.getcwd()
    sys.argv, sys.stdin = [name, *words], io.TextIOWrapper(io.BytesIO(given))
    sys.stdout, sys.stderr = io.TextIOWrapper(io.BytesIO(), write_through=True), io.StringIO()
    os.chdir(folder)
    try:
        runpy.run_path(os.path.join(HERE, name), run_name="__main__")
        status = 0
    except SystemExit as end:
        status = end.code or 0
    finally:
        written, said = sys.stdout.buffer.getvalue(), sys.stderr.getvalue()
        sys.argv, sys.stdin, sys.stdout, sys.stderr = kept[:4]
        os.chdir(kept[4])
    return status, written, said


def built(name="pals_cli"):
    """The path of a program that is built, or carried in prebuilt/."""
    variable, words = PROGRAMS[name]
    if name not in FOUND:
        try:
            FOUND[name] = os.environ.get(variable) or found_by_pals(*words)
        except Refused as why:
            raise Skipped(f"{name}: {why}") from why
    return FOUND[name]


def page(name):
    """The text of a page of docs."""
    return read(os.path.join(TOP, name)).decode()


def blocks(name):
    """The blocks between fences of a page, each with the word after its first fence."""
    return re.findall(r"(?ms)^```(\w*)\n(.*?)^```$", page(name))


def examples():
    """The rows of the table of examples, the files as paths."""
    rows = [match.groups() for match in map(RULE.match, page("examples/README.md").split("\n")) if match]
    return [(*(os.path.join("examples", it) for it in row[:3]), row[3], f"examples/{row[4]}",
             int(row[5])) for row in rows]


def answers():
    """The examples whose bundle and output exist: the bundle, the command, the output and the status."""
    rows = [(row[0], row[3], row[4], row[5]) for row in examples()]
    return [row for row in rows if all(os.path.isfile(os.path.join(TOP, it)) for it in (row[0], row[2]))]


def changed(lines, changes):
    """A text with some of its lines changed, as in the examples of docs/checks.md."""
    return "\n".join(changes.get(number + 1, line) for number, line in enumerate(lines))


def check_examples():
    """The examples of docs/checks.md and docs/misleading.md: the changed bundle, and the answer to it."""
    lines = page("examples/two_counters.pals").split("\n")
    for _, block in blocks("docs/checks.md") + blocks("docs/misleading.md"):
        given, _, answer = block.partition("\n\n")
        rows = [re.fullmatch(r"\s*(\d+)(?: (.*))?", line) for line in given.split("\n")]
        if answer and all(rows) and "..." not in given:
            yield changed(lines, {int(row.group(1)): row.group(2) or "" for row in rows}).encode(), answer


def on_bundle(name, bundle, *words, given=b""):
    """A tool's output and messages for a bundle in the file b.pals, with its status."""
    with tempfile.TemporaryDirectory() as folder:
        with open(os.path.join(folder, "b.pals"), "wb") as file:
            file.write(bundle)
        status, text, said = tool(name, *words, "b.pals", given=given, folder=folder)
    return status, text.decode(), said


def explained(bundle, answer):
    """What explain writes of an answer to a bundle, with its status."""
    return on_bundle("explain", bundle, given=answer.encode())[:2]


def script(path, text):
    """Writes a shell script."""
    os.makedirs(os.path.dirname(path), exist_ok=True)
    with open(path, "w", encoding="utf-8") as file:
        file.write(f"#!/bin/sh\n{text}\n")
    os.chmod(path, 0o755)
