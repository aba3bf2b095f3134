"""The command ./pals, with programs and a command rt that only print their names."""

import gzip
import hashlib
import os
import platform
import pty
import re
import shutil
import subprocess
import tempfile
import threading
import time

from lib.scenarios.bundles import read
from tests.common import TOP, WITHIN, examples, expect, page, script, tool


def small_tree(folder):
    """A repository with ./pals, an existing program, and a command rt, which both print their names."""
    for name in ("pals", "crates.txt"):
        shutil.copy(os.path.join(TOP, name), folder)
    os.makedirs(os.path.join(folder, "docs"))
    shutil.copy(os.path.join(TOP, "docs", "commands.txt"), os.path.join(folder, "docs"))
    for crate in ("pals_cli", "pals_code", "pals_base", "case_files"):
        os.makedirs(os.path.join(folder, "crates", crate, "src"))
        with open(os.path.join(folder, "crates", crate, "src", "lib.rt"), "w", encoding="utf-8") as file:
            file.write("//! Nothing.\n")
    os.makedirs(os.path.join(folder, "crates", "pals_cli", "out"))
    script(os.path.join(folder, "crates", "pals_cli", "out", "pals_cli"), 'echo "built $*"; cat; exit 5')
    script(os.path.join(folder, "bin", "rt"), 'echo "rt $*"; cat; exit 6')
    record(folder)


def record(folder, crate="pals_cli", kit="kit-1 logic 0a"):
    """Writes the record of a program, as if it had been proved of these sources just now."""
    sources = pals(folder, "--sources", *(["code"] if crate == "pals_code" else []))[1]
    path = f"{folder}/crates/{crate}/out/{crate}"
    with open(f"{path}.record", "w", encoding="utf-8") as file:
        file.write(f"sources {sources}kit {kit}\nprogram {hashlib.sha256(read(path)).hexdigest()}\n")


def change(folder, crate="pals_base", text="// more\n"):
    """Adds a comment to a source."""
    with open(f"{folder}/crates/{crate}/src/lib.rt", "a", encoding="utf-8") as file:
        file.write(text)


def pals(folder, *words, path=None, by=(), **more):
    """Runs ./pals of a small tree, by a command that runs it, if given, and with more variables."""
    env = {**os.environ, "PATH": path or f"{folder}/bin:{os.environ['PATH']}", **more}
    how = {"input": b"bundle\n", "stdout": subprocess.PIPE, "stderr": subprocess.PIPE, "timeout": WITHIN}
    ran = subprocess.run([*by, f"{folder}/pals", *words], env=env, check=False, **how)
    return ran.returncode, ran.stdout.decode(), ran.stderr.decode()


def test_hostile_tools_make_what_they_say():
    """Big bundles are as long as they may be, and the rows that memory is refused to are there."""
    for kind, size, divided in (("no divider", 2**24, False), ("one byte too many", 2**24 + 1, False),
                                ("one comment", 2**24, True)):
        status, made, _ = tool("big_bundles", "--write", kind)
        expect((status, size - 1024 < len(made) <= size), (0, True), kind)
        expect(b"\n%%%\n" in made, divided, f"a divider in {kind}")
    for name in ("big_bundles", "fail_alloc"):
        expect(tool(name, "no such thing")[0], 2, f"{name} of nothing")



def test_pals_hands_on():
    """Words, standard input and the status go through, to the built program or to rt try."""
    with tempfile.TemporaryDirectory() as folder:
        small_tree(folder)
        built = (5, "built sync A b.impl\nbundle\n", "")
        expect(pals(folder, "sync", "A b.impl"), built, "a program that is built")
        change(folder, "case_files")
        expect(pals(folder, "sync", "A b.impl"), built, "a change in a crate that the program does not depend on")
        change(folder)
        status, text, said = pals(folder, "sync", "A b.impl")
        expect((status, text), (6, "rt try -- sync A b.impl\nbundle\n"), "a changed source")
        expect("a source has changed since the program was built" in said and "unproved" in said, True, said)
        os.remove(os.path.join(folder, "crates", "pals_cli", "out", "pals_cli"))
        status, text, said = pals(folder, "print")
        expect((status, text), (6, "rt try -- print\nbundle\n"), "no program that is built")
        expect("no program is built" in said and "./pals build" in said, True, said)
        os.remove(os.path.join(folder, "bin", "rt"))
        if not shutil.which("rt", path="/usr/bin:/bin"):
            expect(pals(folder, "print", path="/usr/bin:/bin")[0], 127, "neither a program nor rt")


def test_pals_helps():
    """Each form of the usage line that runs has its page in short, and each section of the page is shown."""
    sections = re.findall(r"(?m)^# (.+)$", page("docs/commands.txt"))
    for name in [*sections[1:], ""]:
        ran = subprocess.run([f"{TOP}/pals", "help", *name.split()], stdout=subprocess.PIPE, timeout=WITHIN)
        expect((ran.returncode, bool(ran.stdout.strip())), (0, True), f"./pals help {name}")
    forms = re.findall(r"^\| `pals ([a-z]+(?: --loose)?)", page("docs/formats.md"), re.MULTILINE)
    expect(set(forms) - set(sections), set(), "forms without a page in short")
    tried = set(re.findall(r"examples/\w+\.pals", page("docs/commands.txt")))
    expect(tried - {row[0] for row in examples()}, set(), "bundles to try that are no examples")
    for words, status, wanted in (("help nothing", 2, 'no command "nothing";'), ("help run --trace", 0, ""),
                                  ("help chekc", 2, "check is likely meant"),
                                  ("help world --loose --fast", 0, "")):
        ran = subprocess.run([f"{TOP}/pals", *words.split()], stdout=subprocess.PIPE, stderr=subprocess.PIPE,
                             timeout=WITHIN)
        expect((ran.returncode, wanted in ran.stderr.decode(), bool(ran.stdout)), (status, True, not status),
               f"./pals {words}")


def test_pals_tells_the_likely_word():
    """An unknown command is named with the likely one, and passed on to the program if one is built."""
    with tempfile.TemporaryDirectory() as folder:
        small_tree(folder)
        for word, near in (("chekc", "check"), ("sinc", "sync"), ("Watch", "watch"), ("budgets", "budget"),
                           ("frobnicate", None)):
            status, text, said = pals(folder, word, "A.b")
            expect((status, text), (5, f"built {word} A.b\nbundle\n"), f"./pals {word}")
            expect((f"{near} is likely meant" in said) == (near is not None) and "there is no command" in said, True,
                   said)
        os.remove(f"{folder}/crates/pals_cli/out/pals_cli")
        expect(pals(folder, "chekc", "A.b")[:2], (2, ""), "a word that is none, and no program")
        expect(pals(folder)[0], 2, "no word, and no program")


def test_pals_runs_tools():
    """./pals TOOL runs tools/TOOL, a command comes before a tool of its name, and --help shows a command in short."""
    with tempfile.TemporaryDirectory() as folder:
        with_files(folder, 'echo "built $*"; cat; exit 5')
        usage = pals(folder, "lint", "--help")
        expect((usage[0], usage[1].startswith("usage: tools/lint "), usage[2]), (0, True, ""), "./pals lint --help")
        expect(pals(folder, "help", "lint"), usage, "./pals help lint")
        expect(pals(folder, "bundle", f"{folder}/two_counters.aadl")[1].endswith("%%%\n"), True, "./pals bundle")
        expect(pals(folder, "world", "A.b")[:2], (5, "built world A.b\nbundle\n"), "./pals world")
        expect("lint is likely meant" in pals(folder, "lnt")[2], True, "a tool that is near")
        for word in ("lib", "test.py", "../pals", ""):
            expect("there is no command" in pals(folder, word)[2], True, f"./pals {word}")
        for words in (("check", "--help"), ("check", "-h"), ("check", "Top.impl", "--help")):
            status, text, said = pals(folder, *words)
            expect((status, text.startswith("./pals check ROOT"), said), (0, True, ""), f"./pals {words}")


def test_pals_finds_old_programs_in_any_folder():
    """A changed source is found whatever letters the path has, and a folder is not a program."""
    with tempfile.TemporaryDirectory() as outer:
        for name in ("plain", "a b", "it's \"so\"", "-n", "line\nend", "ends\n", "ü\\x"):
            folder = os.path.join(outer, name)
            os.makedirs(folder)
            small_tree(folder)
            expect(pals(folder, "print")[:2], (5, "built print\nbundle\n"), f"a program in {name!r}")
            change(folder)
            status, text, said = pals(folder, "print")
            expect((status, text), (6, "rt try -- print\nbundle\n"), f"an old program in {name!r}")
            expect("a source has changed" in said, True, said)
        os.remove(f"{folder}/crates/pals_cli/out/pals_cli")
        os.makedirs(f"{folder}/crates/pals_cli/out/pals_cli")
        expect(pals(folder, "print")[:2], (6, "rt try -- print\nbundle\n"), "a folder in place of the program")


def carry(folder, text='echo "carried $*"; cat; exit 4', machine=None):
    """Puts two programs into prebuilt/ of a small tree, made from its sources."""
    lines = [f"machine {machine or f'{platform.system()}-{platform.machine()}'}"]
    os.makedirs(f"{folder}/prebuilt", exist_ok=True)
    for name, words, sums in (("pals", [], ""), ("pals_code", ["code"], "code_")):
        data = f"#!/bin/sh\n# {name}\n{text}\n".encode()
        with open(f"{folder}/prebuilt/{name}.gz", "wb") as file:
            file.write(gzip.compress(data))
        lines += [f"{sums}sources {pals(folder, '--sources', *words)[1].strip()}",
                  f"{sums}program {hashlib.sha256(data).hexdigest()}"]
    with open(f"{folder}/prebuilt/SUMS", "w", encoding="utf-8") as file:
        file.write("\n".join(lines) + "\n")


def test_pals_answers_with_what_is_carried():
    """If nothing is built the program of prebuilt/ runs, with one notice, as long as the sources are its own."""
    with tempfile.TemporaryDirectory() as folder:
        small_tree(folder)
        os.remove(f"{folder}/crates/pals_cli/out/pals_cli")
        carry(folder)
        answer = (4, "carried sync A.b\nbundle\n")
        ran = pals(folder, "sync", "A.b", path="/usr/bin:/bin")
        expect((ran[:2], "proved elsewhere" in ran[2]), (answer, True), "a program that is carried, without rt")
        expect(pals(folder, "sync", "A.b"), (*answer, ""), "it is told of once")
        expect("of prebuilt/, proved elsewhere" in pals(folder, "--version")[1], True, "the version")
        os.utime(f"{folder}/crates/pals_base/src/lib.rt")
        expect(pals(folder, "sync", "A.b")[:2], answer, "a source that is newer, and the same")
        change(folder, "case_files")
        expect(pals(folder, "sync", "A.b")[:2], answer, "a source that the program does not stand on")
        change(folder)
        expect(pals(folder, "sync", "A.b")[:2], (6, "rt try -- sync A.b\nbundle\n"), "other sources")
        expect("not built" in pals(folder, "--version")[1], True, "the version of other sources")


def test_code_is_a_program_of_its_own():
    """For `code` the program is pals_code, built or carried; if it is neither, one line reports this."""
    with tempfile.TemporaryDirectory() as folder:
        small_tree(folder)
        missing = "pals: code: crates/pals_code/out/pals_code writes listings, and no program is built: ./pals build " \
                  "builds it\n"
        expect(pals(folder, "code", "A.b"), (127, "", missing), "no program")
        expect(pals(folder, "--version", "code")[1].endswith(", not built\n"), True, "the version of no program")
        script(f"{folder}/crates/pals_code/out/pals_code", 'echo "listed $*"; cat; exit 3')
        record(folder, "pals_code")
        listed = (3, "listed A.b\nbundle\n", "")
        expect(pals(folder, "code", "A.b"), listed, "a program that is built")
        expect(pals(folder, "--version", "code")[1].endswith("built and proved here by kit-1 logic 0a\n"), True,
               "its version")
        expect(pals(folder, "check", "A.b")[:2], (5, "built check A.b\nbundle\n"), "another command")
        change(folder, "pals_code")
        status, text, said = pals(folder, "code", "A.b")
        expect((status, text, "a source has changed" in said), (127, "", True), said)
        os.remove(f"{folder}/crates/pals_code/out/pals_code")
        carry(folder)
        status, text, said = pals(folder, "code", "A.b")
        expect((status, text, "proved elsewhere" in said), (4, "carried A.b\nbundle\n", True), said)


def test_each_source_counts():
    """The sum of the sources changes with any change in a crate that the program depends on, and with no other."""
    with tempfile.TemporaryDirectory() as folder:
        small_tree(folder)
        first = pals(folder, "--sources")[1]
        for crate, counts in (("pals_cli", True), ("pals_base", True), ("case_files", False)):
            path = f"{folder}/crates/{crate}/src/lib.rt"
            kept = read(path)
            with open(path, "ab") as file:
                file.write(b"// more\n")
            expect(pals(folder, "--sources")[1] != first, counts, f"a change in {crate}")
            with open(path, "wb") as file:
                file.write(kept)
        expect(pals(folder, "--sources")[1], first, "the sum of the same sources")
        path = f"{folder}/crates.txt"
        kept = read(path).decode()
        for line, counts in (("case_files:", False), ("pals_base:", True)):
            with open(path, "w", encoding="utf-8") as file:
                file.write(kept.replace(f"\n{line}", f"\n{line} itoa", 1))
            expect(pals(folder, "--sources")[1] != first, counts, f"a change in the line of {line}")


def test_pals_takes_no_other_program():
    """A carried program of another machine, with other bytes than its sum, or broken, is ignored."""
    with tempfile.TemporaryDirectory() as folder:
        small_tree(folder)
        os.remove(f"{folder}/crates/pals_cli/out/pals_cli")
        other = (6, "rt try -- print\nbundle\n")
        carry(folder, machine="Plan9-mips")
        expect(pals(folder, "print")[:2], other, "another machine")
        carry(folder)
        with open(f"{folder}/prebuilt/pals.gz", "wb") as file:
            file.write(gzip.compress(b"#!/bin/sh\necho worse\n"))
        ran = pals(folder, "print")
        expect((ran[:2], "is not the program of prebuilt/SUMS" in ran[2]), (other, True), "other bytes")
        with open(f"{folder}/prebuilt/pals.gz", "wb") as file:
            file.write(b"no gzip")
        expect(pals(folder, "print")[:2], other, "no gzip")
        expect(os.path.exists(f"{folder}/prebuilt/out"), False, "a folder for it")


def test_pals_tells_how_long_it_compiles():
    """While rt compiles there is a line each ten seconds (here sleep is short), and none of it stays."""
    with tempfile.TemporaryDirectory() as folder:
        small_tree(folder)
        os.remove(f"{folder}/crates/pals_cli/out/pals_cli")
        script(f"{folder}/bin/sleep", "/bin/sleep 0.2")
        script(f"{folder}/bin/rt", 'cat; /bin/sleep 1; exit 3')
        status, text, said = pals(folder, "print")
        expect((status, text), (3, "bundle\n"), "the answer")
        expect("pals: compiling, 10 seconds so far\npals: compiling, 20 seconds so far\n" in said, True, said)


def in_terminal(words, folder, given=None):
    """Runs arguments with a terminal for standard error, and for standard input if none is given: the status, the
    standard output, and the output on the terminal."""
    ours, theirs = pty.openpty()
    if given is None:
        os.write(ours, b"\x04")
    shown = []

    def take():
        while True:
            try:
                data = os.read(ours, 4096)
            except OSError:
                return
            if not data:
                return
            shown.append(data)

    reader = threading.Thread(target=take)
    env = {**os.environ, "PATH": f"{folder}/bin:{os.environ['PATH']}"}
    stdin = theirs if given is None else subprocess.PIPE
    with subprocess.Popen(words, cwd=folder, env=env, stdin=stdin, stdout=subprocess.PIPE, stderr=theirs) as run:
        os.close(theirs)
        reader.start()
        text, _ = run.communicate(given, timeout=WITHIN)
    reader.join()
    os.close(ours)
    return run.returncode, text.decode(), b"".join(shown).decode().replace("\r\n", "\n")


def with_files(folder, answer):
    """A small tree with the tools, a program that gives one answer, and the two counters in files."""
    small_tree(folder)
    shutil.copytree(os.path.join(TOP, "tools"), f"{folder}/tools",
                    ignore=shutil.ignore_patterns("tests", "__pycache__"))
    shutil.copy(os.path.join(TOP, "docs", "checks.md"), f"{folder}/docs")
    for name in ("two_counters.aadl", "two_counters.json", "two_counters.pals"):
        shutil.copy(os.path.join(TOP, "examples", name), folder)
    script(f"{folder}/crates/pals_cli/out/pals_cli", answer)
    record(folder)


def test_pals_takes_files():
    """Of files ./pals makes the bundle, and finds the root; bytes and status are the program's."""
    joined = tool("bundle", "examples/two_counters.aadl", "examples/two_counters.json")[1].decode()
    with tempfile.TemporaryDirectory() as folder:
        with_files(folder, 'echo "built $*"; cat; exit 5')
        two = (f"{folder}/two_counters.aadl", f"{folder}/two_counters.json")
        for words, wanted in ((("sync", *two), "sync Top.impl"), (("sync", "Tip.impl", *two), "sync Tip.impl"),
                              (("sync", *two[::-1]), "sync Top.impl"),
                              (("world", "--loose", *two), "world --loose Top.impl"), (("print", *two), "print")):
            expect(pals(folder, *words), (5, f"built {wanted}\n{joined}", ""), f"./pals {words[:2]}")
        status, text, said = pals(folder, "check", two[0])
        expect((status, text.endswith("end Two;\n%%%\n"), said), (5, True, ""), "a design alone")
        status, text, said = pals(folder, "sync", f"{folder}/two_counters.pals")
        expect((status, text.count("%%%")), (5, 1), "a bundle")
        expect(pals(folder, "sync", "no.aadl")[0], 1, "a file that is not there")
        expect(pals(folder, "sync", *two, two[0])[0], 2, "three files")


def test_pals_explains_on_a_terminal():
    """On a terminal the answer is explained at its place in the user's file; standard output is the program's."""
    with tempfile.TemporaryDirectory() as folder:
        with_files(folder, "cat >/dev/null; echo 'scenario OutOfRange rounds'; exit 5")
        words = [f"{folder}/pals", "sync", "two_counters.aadl", "two_counters.json"]
        status, text, shown = in_terminal(words, folder, b"")
        expect((status, text), (5, "scenario OutOfRange rounds\n"), "the program's answer")
        expect(shown.startswith("two_counters.json:1:2: rounds are from 1 to 100,000\n"), True, shown)
        script(f"{folder}/crates/pals_cli/out/pals_cli", "cat >/dev/null; exit 0")
        record(folder)
        status, text, shown = in_terminal(words, folder, b"")
        expect((status, text, "nothing was checked" in shown), (0, "", True), "an empty answer")


def test_pals_says_what_it_waits_for():
    """Without a bundle on a terminal ./pals reports the input that it waits for."""
    with tempfile.TemporaryDirectory() as folder:
        small_tree(folder)
        status, text, shown = in_terminal([f"{folder}/pals", "check", "Top.impl"], folder)
        expect((status, text.startswith("built check Top.impl\n"), "waiting for a bundle on standard input" in shown),
               (5, True, True), shown)


def test_files_are_watched():
    """At each save there is a new answer, with the time before it."""
    with tempfile.TemporaryDirectory() as folder:
        with_files(folder, "cat >/dev/null; echo 'text 1:1 Syntax'; exit 3")
        words = [f"{folder}/pals", "watch-files", "--times", "2", "check", "two_counters.aadl"]
        how = {"stdin": subprocess.DEVNULL, "stdout": subprocess.PIPE, "stderr": subprocess.PIPE, "cwd": folder}
        with subprocess.Popen(words, **how) as run:
            begun = time.monotonic()
            while run.poll() is None and time.monotonic() - begun < WITHIN:
                time.sleep(0.3)
                with open(f"{folder}/two_counters.aadl", "a", encoding="utf-8") as file:
                    file.write("-- more\n")
            text, said = run.communicate(timeout=WITHIN)
        expect((run.returncode, text), (3, b"text 1:1 Syntax\n" * 2), "answers")
        expect(len(re.findall(rb"(?m)^\d\d:\d\d:\d\d pals check two_counters.aadl$", said)), 2, said.decode())
        expect(said.count(b"two_counters.aadl:1:1: "), 2, said.decode())
