"""That no tool stumbles, whatever it is given, and wherever it writes to."""

import os
import subprocess
import sys
import tempfile

from lib.scenarios.bundles import read
from tests.common import EXAMPLES, TOP, WITHIN, Skipped, built, expect, on_bundle, tool

TOOLS = ("bundle", "explain", "lint", "timeline", "rows2csv", "rows2vcd", "fail_alloc", "big_bundles", "on_files",
         "watch_files", "release", "gate_cost", "plot", "graph", "timetable", "report", "world", "inputs", "campaign",
         "import", "join", "bounds", "code2c", "same", "promises", "surface", "prove",
         "cover", "latency", "watch", "new", "install", "crate_graph", "language_server")
LONG = "9" * 5000
ANSWERS = [
    b"flat x\n", b"text 1 Syntax\n", b"text 99999:99999 Syntax\n", b"text 1:1 Syntax\n", b"text 2:3 NotUtf8\n",
    b"flat 4 WrongKind 3:3\n",
    b"flat 2 Unknown a.b 9:9\n", b"flat 8 TooMany links\n", b"flat 1 NoRoot\n", b"flat 6 DeadEnd c 1:1\n",
    b"flat 9 New 1:1\n",
    b"1:1 12 NoInitial\n", b"9:9 99 New a b\n", b"1:1 1 BadType\n", b"1:1 9 NoAdaptor p.a\n",
    b"1:1 13 DispatchCount s\n",
    b"event 9 NotDue\n", b"event 999 NotDue p.m 1 2\n", b"event 9 PastDeadline\n", b"\xff\n", b"scenario\n",
    b"round 0\np.a s x\n",
    b"p.a s x=1\n", b"stop missed p.b.i 0 _ lost\n", b"slot a 0\n", b"wrong 99 due\n", b"wrong 0 x\n",
    b"sound rounds 1 stop none\n",
    b"clock ended p 1\n", b"stop early p.b.i 0 9\n", b"accepted\n", b"accepted\nignored X\ncomponent p.a rate 1\n",
    b"scenario WrongKind properties/q\n", b"scenario Unknown faults/0\n", b"scenario OutOfRange clocks/p.a/1\n",
    b"scenario TooBig 5\n",
    b"scenario Field processors/p.b\n", b"scenario NotJson\n", b"watch rounds 1 first q 0\n",
    b"round 0\nq false\nwatch rounds 1 first q 0\n",
    b"processor cpu sum 2 of 1 over\n", b"code p.a 5000\n",
    f"wrong {LONG} due\n".encode(), f"round {LONG}\n".encode(), f"text {LONG}:1 Syntax\n".encode(),
    f"scenario TooBig {LONG}\n".encode(),
    "event ² NotDue\n".encode(), "wrong ² due\n".encode(), "round ٣\n".encode(),
    "scenario WrongKind events/²\n".encode(),
]
BUNDLES = [
    b"", b'%%%\n{"events":[5]}', b"\xff\n%%%\n[[[",
    b"package A public end A;\n%%%\n" + f'{{"rounds":{LONG},"events":[["pass",{LONG},[1]]]}}'.encode(),
    b"package A public end A;\n%%%\n[" + b"[" * 300,
    b'package A public end A;\n%%%\n{"properties":{"q":[[[]]]},"faults":[[]],"clocks":{"p.a":[2,1]}}',
    b'package A public end A;\n%%%\n{"events":[["pass"],["start"]],"processors":{"cpu":7},"trace":5}',
    b"package A public system A end A; (((",
]


def test_no_tool_stumbles():
    """Invalid outputs and bundles end with a status and a message, and without a traceback of Python."""
    whole = read(os.path.join(EXAMPLES, "turn_world_late.pals"))
    for bundle in (whole, whole[:2000], *BUNDLES):
        expect(on_bundle("lint", bundle)[0] in (0, 1), True, f"lint of {bundle[:40]}")
        for given in ANSWERS:
            for name in ("explain", "timeline"):
                expect(on_bundle(name, bundle, given=given)[0] in range(14), True, f"{name} of {given[:40]}")
    for given in ANSWERS:
        for name in ("timeline", "rows2csv", "rows2vcd"):
            expect(tool(name, given=given)[0] in (0, 1), True, f"{name} {given[:40]}")


def test_nothing_unchecked_passes():
    """An empty answer, a text of no kind, a bundle and half an answer end with 1; --command allows an empty one."""
    bundle = read(os.path.join(EXAMPLES, "two_counters.pals"))
    for given in (b"", b"\n", b"hello\n", bundle, bundle[:300], b"accepted\nhello\n", b"round 0\np.a s x=1\nhello\n",
                  b"accepte", b"package\n"):
        status, text, said = on_bundle("explain", bundle, given=given)
        expect((status, text, said.count("\n"), said.startswith("explain: ")), (1, "", 1, True),
               f"explain of {given[:40]}: {said}")
    expect(on_bundle("explain", bundle, "--command", "world", given=b""), (0, "", ""), "an empty world")
    expect(on_bundle("explain", bundle, "--command", "check", given=b"")[0], 1, "an empty check")


def ran(name, *words, **how):
    """Runs a tool as a program of its own: its status, its output and its messages."""
    how = {"input": b"", "stdout": subprocess.PIPE, "stderr": subprocess.PIPE, "timeout": WITHIN, "cwd": TOP, **how}
    done = subprocess.run([sys.executable, f"{TOP}/tools/{name}", *words], check=False, **how)
    return done.returncode, done.stdout or b"", done.stderr or b""


def there():
    """The tools."""
    return [name for name in TOOLS if os.path.isfile(f"{TOP}/tools/{name}")]


def test_each_tool_helps():
    """--help writes the usage and the tool's purpose; an unknown option ends with 2 and the usage."""
    for name in there():
        status, text, said = ran(name, "--help")
        expect((status, said), (0, b""), f"{name} --help")
        expect(text.startswith(f"usage: tools/{name} ".encode()) and len(text) > 200, True,
               f"{name} --help\n{text.decode()}")
        status, text, said = ran(name, "--nothing")
        expect((status, text, b"usage: " in said), (2, b"", True), f"{name} --nothing\n{said.decode()}")


def test_options_may_be_anywhere():
    """Options before and after files, with `=`, and files after `--`; wrong ones are a wrong use, with the reason."""
    design = "examples/two_counters.aadl"
    for words, wanted, reason in (
            ([design, "--root", "Top.impl"], 0, ""), (["--root=Top.impl", design], 0, ""), (["--", design], 0, ""),
            (["--roo", "Top.impl", design], 2, "unknown option --roo"), ([design, "--root"], 2, "--root"),
            (["--format", "xml", design], 2, "'xml'"), ([design] * 3, 2, f"unexpected argument {design}"),
            (["--input", "i=1", design], 2, "--dead"), ([], 2, "expected")):
        status, _, said = tool("lint", *words)
        expect((status, reason in said, "usage: tools/lint" in said), (wanted, True, wanted == 2), f"{words} {said}")
    for words in (["--all", "--count", "5"], ["--rows", "r", "--expect", "p"], ["--fast", "--strict"], ["--jobs", "0"]):
        status, _, said = tool("campaign", *words, design)
        expect((status, words[0] in said or words[1] in said), (2, True), f"campaign {words} {said}")


def test_outputs_that_take_nothing():
    """A full disk, a closed output, an ASCII output and a reader that leaves end without a traceback of Python."""
    rows = read(os.path.join(EXAMPLES, "turn_controller.rounds"))
    if not os.path.exists("/dev/full"):
        raise Skipped("no /dev/full is here")
    cases = [("rows2csv", [], rows), ("rows2vcd", [], rows), ("bundle", ["examples/two_counters.aadl"], b""),
             ("explain", ["examples/turn_controller.pals"], rows), ("lint", ["examples/turn_controller.pals"], b""),
             ("timeline", ["examples/turn_world.pals"], b""), ("plot", [], rows),
             ("graph", ["examples/turn_controller.aadl"], b"")]
    for name, words, given in cases:
        with open("/dev/full", "wb") as full:
            status, _, said = ran(name, *words, input=given, stdout=full)
        expect((status, b"No space left" in said, b"Traceback" in said, b"Exception" in said), (1, True, False, False),
               f"{name} on a full disk {said}")
        read_end, write_end = os.pipe()
        os.close(read_end)
        status, _, said = ran(name, *words, input=given, stdout=write_end)
        os.close(write_end)
        expect((status, said), (1, b""), f"{name} without a reader")
        closed = subprocess.run(f"{sys.executable} tools/{name} {' '.join(words)} >&-", shell=True, input=given,
                                cwd=TOP,
                                stderr=subprocess.PIPE, check=False)
        expect((closed.returncode, b"Traceback" in closed.stderr), (1, False), f"{name} with a closed output")
    env = {**os.environ, "LC_ALL": "C", "PYTHONUTF8": "0", "PYTHONCOERCECLOCALE": "0", "PYTHONIOENCODING": "ascii"}
    with tempfile.TemporaryDirectory() as folder:
        path = os.path.join(folder, "ü.pals")
        with open(path, "wb") as file:
            file.write("package Zü\n%%%\n".encode())
        status, text, said = ran("explain", path, input=b"text 1:10 BadByte\n", env=env)
        expect((status, b"Traceback" in said, b"BadByte" in text), (3, False, True), "an output of ASCII alone")


def test_a_bundle_cannot_command_a_terminal():
    """Control characters of a bundle and of an answer are shown, and not sent."""
    bundle = b"package A \x1b[2J\x07\xc2\x9b public\n%%%\n{}"
    for given in (b"text 1:11 BadByte\n", b"text 1:11 Syntax\n", b"scenario Unknown \x1b[1m\n", b"\x1b[2J\n"):
        _, text, said = on_bundle("explain", bundle, given=given)
        expect("\x1b" in text + said or "\x9b" in text + said, False, f"{given}: {text + said!r}")
    expect("\\x1b[2J\\x07\\x9b" in on_bundle("explain", bundle, given=b"text 1:11 BadByte\n")[1], True, "what is shown")


def test_words_that_are_none():
    """Missing rounds, invalid lengths, and folders in place of programs are rejected."""
    world = read(os.path.join(EXAMPLES, "turn_world.world"))
    for word, wanted in (("9..2", 2), ("1..²", 2), (f"1..{LONG}", 2), ("7..9", 1), ("1", 2), ("0..1", 0)):
        status, text, said = tool("timeline", "--rounds", word, "examples/turn_world.pals", given=world)
        expect((status, bool(text), bool(said)), (wanted, not wanted, bool(wanted)), f"--rounds {word[:9]}: {said}")
    for word in ("0", "²", "-1", LONG):
        expect(tool("rows2vcd", word, given=b"round 0\n")[0], 2, f"a round of {word[:9]}")
    with tempfile.TemporaryDirectory() as folder:
        status, _, said = tool("fail_alloc", "--program", folder)
        expect((status, "is not a program" in said), (1, True), "a folder as a program")
        for name in ("bundle", "lint", "explain"):
            expect(tool(name, folder)[0], 1, f"a folder in place of a file for {name}")
    expect(tool("fail_alloc", "--program", "/no/program")[0], 1, "no program")
    expect(tool("fail_alloc", "no such row")[0], 2, "no row")


def test_words_that_are_not_utf8():
    """Such a word on the command line makes it no form: the usage line, and status 2; words in UTF-8 are read."""
    program = built()
    two = read(os.path.join(EXAMPLES, "two_counters.pals"))
    for words, wanted in (([], 2), ([b"sync", b"Top.impl"], 0), ([b"sync", b"\xff"], 2), ([b"\xc3", b"Top.impl"], 2)):
        ran = subprocess.run([program, *words], input=two, stdout=subprocess.PIPE, timeout=WITHIN, check=False)
        expect((ran.returncode, ran.stdout.startswith(b"usage: ")), (wanted, wanted == 2), f"the words {words}")
