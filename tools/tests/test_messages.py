"""Messages as bytes: against bytes made here, at random, with any bytes, and fuzzed."""

import os
import shutil
import struct
import subprocess
import zlib

from tests.common import WITHIN, Skipped, blocks, expect
from tests.nodes import CHECKED, MORE, NODES, STRICT, compilers, folder

SOURCES = ["pals_message.c", "tests/messages.c"]
FUZZED = 10_000_000 if MORE else 200_000


def built_with(compiler, *flags, sources=(*SOURCES, "demo/random.c")):
    """The program of the messages."""
    path = os.path.join(folder(), f"messages-{compiler}-{len(flags)}")
    command = [compiler, *STRICT, *flags, "-I", NODES, "-I", os.path.join(NODES, "demo"), "-o", path,
               *(os.path.join(NODES, name) for name in sources)]
    ran = subprocess.run(command, stdout=subprocess.PIPE, stderr=subprocess.STDOUT, timeout=WITHIN, check=False)
    expect((ran.returncode, ran.stdout.decode()[:2000]), (0, ""), compiler)
    return path


def ran(path, *words):
    """A program's output; it ends with 0 and writes no message."""
    done = subprocess.run([path, *words], stdout=subprocess.PIPE, stderr=subprocess.PIPE, timeout=WITHIN, check=False)
    expect((done.returncode, done.stderr.decode()[:2000]), (0, ""), words[:2])
    return done.stdout.decode()


def message(values, link=3, number=7, design=1, version=1, reserved=0, more=0, magic=b"PALS"):
    """The bytes of a message, by the page docs/messages.md."""
    present = (sum(1 << at for at, value in enumerate(values) if value is not None) | more) % 2**64
    head = magic + struct.pack(">BBHQIQQ", version, reserved, len(values), design, link, number, present)
    data = head + b"".join(struct.pack(">q", value or 0) for value in values)
    return data + struct.pack(">I", zlib.crc32(data))


def with_crc(data):
    """Bytes with the right CRC at their end."""
    return data[:-4] + struct.pack(">I", zlib.crc32(data[:-4]))


def test_messages_have_the_bytes_of_the_page():
    """Messages and damaged ones, made here, give the result that the page states."""
    good = message([5, None, -(2**63), 2**63 - 1])
    absent = bytearray(message([None, 1]))
    absent[43] = 1
    cases = [
        (good, f"decoded link 3 round 7 5 _ {-(2**63)} {2**63 - 1}"),
        (message([-1], link=2**32 - 1, number=2**64 - 1), f"decoded link {2**32 - 1} round {2**64 - 1} -1"),
        (message([0] * 64), "decoded link 3 round 7" + " 0" * 64),
        (message([None] * 64), "decoded link 3 round 7" + " _" * 64),
        (b"", "not-pals"), (good[:47], "not-pals"), (message([5], magic=b"PALT"), "not-pals"),
        (message([5], version=2), "other-version"), (message([0] * 65), "bad-length"), (good + b"\0", "bad-length"),
        (good[:-1], "bad-length"), (good[:40] + b"\1" + good[41:], "damaged"),
        (message([5], design=2), "other-design"), (message([5], reserved=1), "not-canonical"),
        (message([5], more=2), "not-canonical"), (with_crc(bytes(absent)), "not-canonical"),
    ]
    path = built_with(compilers()[0], *CHECKED)
    found = ran(path, *(data.hex() for data, _ in cases)).split("\n")[:-1]
    for (data, wanted), line in zip(cases, found):
        expect(line, wanted, data.hex())
    expect(len(found), len(cases), "the results")


def test_the_example_of_the_page():
    """The bytes that the page shows are the bytes of the message that it states."""
    shown = next(text for kind, text in blocks("docs/messages.md") if kind == "")
    expect(bytes.fromhex(shown.replace("\n", " ")), message([5, None, -1]), "the bytes")


def test_random_messages():
    """Random messages come back, changed ones do not, and random bytes are decoded without a fault."""
    for compiler in compilers():
        expect(ran(built_with(compiler, *CHECKED), "random", "5", "20000"), "", "random messages")


def test_the_decoder_is_fuzzed():
    """libFuzzer with the sanitizers finds no bytes that break the decoder."""
    if not shutil.which("clang"):
        raise Skipped("clang, which has libFuzzer, is not installed")
    path = built_with("clang", "-O1", "-DFUZZING", "-fsanitize=fuzzer,undefined,address", sources=SOURCES)
    done = subprocess.run([path, f"-runs={FUZZED}", "-max_len=616", "-seed=1"], stdout=subprocess.PIPE,
                          stderr=subprocess.STDOUT, timeout=WITHIN, check=False, cwd=folder())
    expect((done.returncode, f"Done {FUZZED} runs" in done.stdout.decode()), (0, True), done.stdout.decode()[-2000:])
