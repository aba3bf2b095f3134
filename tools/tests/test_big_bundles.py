"""Doublings, which detect time or memory that grows faster than a text."""

import os
import shutil
import sys
import tempfile

from lib.project.big_kinds import KINDS
from lib.project.measuring import file_of, instructions, instructions_grow, measured, size_of
from lib.scenarios.bundles import MOST_BYTES, divider_at
from tests.common import Skipped, expect, script, tool


def test_doublings_tell_what_grows():
    """Each product has a bundle of each size; a program whose memory grows with the square of a bundle is detected."""
    with tempfile.TemporaryDirectory() as folder:
        plain, square = os.path.join(folder, "plain"), os.path.join(folder, "square")
        script(plain, "exec cat")
        script(square, f"exec {sys.executable} -c 'import sys; bytearray(len(sys.stdin.buffer.read()) ** 2)'")
        few = ("big_bundles", "--double", "--bytes", "16000", "--program")
        status, made, _ = tool(*few, plain)
        expect((status, made.count(b"\n")), (0, 2), "a program that grows with its text")
        status, made, _ = tool(*few, square, "ports x implementations")
        expect((status, made.count(b"ports x implementations") > 0), (1, True), "a program that grows faster")
        expect(tool(*few[:2], "no such thing")[0], 2, "doublings of nothing")
        expect(tool("big_bundles", "--double", "--bytes", "many")[0], 2, "many bytes")


def test_memory_is_that_of_the_program():
    """The memory of the bundle's maker is not counted, nor that of this process."""
    with tempfile.TemporaryDirectory() as folder, file_of(lambda: bytes(50_000_000)[:1000]) as file:
        script(f"{folder}/program", "exec cat >/dev/null")
        status, _, memory, first = measured(f"{folder}/program", [], file, 10)
        expect((status, memory < 48, first, size_of(file)), ("0", True, "", 1000), f"{memory} MiB")


def test_times_count_if_instructions_grow():
    """With valgrind a doubling counts by its instructions, without it by its seconds."""
    one, two, kept = file_of(lambda: b"x" * 100), file_of(lambda: b"x" * 200), os.environ["PATH"]
    with tempfile.TemporaryDirectory() as folder:
        try:
            os.environ["PATH"] = folder
            expect(instructions_grow("program", [], one, two), True, "without valgrind")
            for form, wanted in (("$size", False), ("$((size * size))", True)):
                script(f"{folder}/valgrind", f"size=$(/usr/bin/wc -c); echo \"==1== I   refs:      {form}\" >&2")
                expect(instructions_grow("program", [], one, two), wanted, f"{form} instructions")
        finally:
            os.environ["PATH"] = kept
        if not shutil.which("valgrind"):
            raise Skipped("valgrind is not installed")
        found = [instructions(shutil.which("true"), [], one) for _ in range(2)]
        expect((found[0] > 1000, abs(found[0] - found[1]) < found[0] // 100), (True, True), f"instructions {found}")


def test_kinds_have_their_size():
    """The kinds with the largest ratios are bundles of 16 MiB with a design and a scenario."""
    for kind in ("objects in objects", "short actions of one step", "findings"):
        data = KINDS[kind]()
        expect((MOST_BYTES - 1024 < len(data) <= MOST_BYTES, divider_at(data) is not None), (True, True), kind)
