"""The programs that are built, released and carried: what ./pals, tools/release and the gate take for proved."""

import os
import re
import resource
import shutil
import subprocess
import sys
import tempfile

from lib.scenarios.bundles import read
from tests.common import TOP, WITHIN, Skipped, built, expect, script
from tests.test_pals import carry, change, pals, record, small_tree

HOW = {"stdout": subprocess.PIPE, "stderr": subprocess.PIPE, "timeout": WITHIN, "check": False}
KIT = "kit-1 logic 0a"
# What the command rt of a small tree does: it names its kit, passes its gate, and builds a program with a stamp.
KIT_COMMAND = f"""
case $1 in
version) echo "{KIT}" ;;
ci) mkdir -p crates/pals_cli/out crates/pals_code/out
    for it in pals_cli pals_code; do
        printf '#!/bin/sh\\necho of the gate\\n' >crates/$it/out/$it
        chmod +x crates/$it/out/$it
    done
    echo 12 passed, 0 failed ;;
run) name=${{PWD##*/}}
    mkdir -p out; printf '#!/bin/sh\\necho built "$*"\\n' >out/$name; chmod +x out/$name; echo stamp >out/$name.stamp
    eval "${{MEANWHILE-}}" ;;
*) echo "rt $*"; cat; exit 6 ;;
esac"""


def release_tree(folder):
    """A small tree with the tools, the gate and a command rt that builds programs."""
    small_tree(folder)
    left = shutil.ignore_patterns("tests", "__pycache__")
    shutil.copytree(os.path.join(TOP, "tools"), f"{folder}/tools", ignore=left)
    script(f"{folder}/tools/test.py", "")
    os.makedirs(f"{folder}/examples")
    with open(f"{folder}/examples/two_counters.pals", "w", encoding="utf-8") as file:
        file.write("bundle\n")
    script(f"{folder}/bin/rt", KIT_COMMAND)


def release(folder, *words):
    """Runs tools/release of a tree: its status and its last line on standard error."""
    ran = subprocess.run([sys.executable, f"{folder}/tools/release", *words], **HOW)
    return ran.returncode, ran.stderr.decode().strip()


def gate(folder):
    """Runs the gate of a tree, with a command python3 that does nothing: its status and its output."""
    os.makedirs(f"{folder}/.ci", exist_ok=True)
    shutil.copy(f"{TOP}/.ci/run", f"{folder}/.ci/run")
    script(f"{folder}/bin/python3", "")
    env = {**os.environ, "PATH": f"{folder}/bin:{os.environ['PATH']}"}
    ran = subprocess.run([f"{folder}/.ci/run"], env=env, **HOW)
    os.remove(f"{folder}/bin/python3")
    return ran.returncode, ran.stdout.decode(), ran.stderr.decode()


def test_no_time_stamp_makes_a_program_proved():
    """A comment in a source and a `touch` of the old program are noticed by ./pals, --version and tools/release."""
    with tempfile.TemporaryDirectory() as folder:
        release_tree(folder)
        program = f"{folder}/crates/pals_cli/out/pals_cli"
        expect(release(folder)[0], 0, "a release of a program with its record")
        change(folder)
        os.utime(program)
        os.utime(f"{program}.record")
        status, text, said = pals(folder, "print")
        expect((status, text), (6, "rt try -- print\nbundle\n"), "a touched program")
        expect("a source has changed since the program was built" in said, True, said)
        expect("not built" in pals(folder, "--version")[1], True, "its version")
        status, said = release(folder)
        expect((status, "a source has changed since pals was built" in said), (1, True), said)
        os.remove(f"{program}.record")
        expect("no record of its proof" in pals(folder, "print")[2], True, "a program without a record")
        expect(release(folder)[0], 1, "a release without a record")
        record(folder)
        with open(program, "ab") as file:
            file.write(b"# other bytes\n")
        expect("is not the one that was proved" in pals(folder, "print")[2], True, "other bytes than the record has")
        expect(release(folder)[0], 1, "a release of other bytes")


def test_build_writes_the_record():
    """./pals build records sources, kit and program; a change during the proof leaves no record."""
    with tempfile.TemporaryDirectory() as folder:
        release_tree(folder)
        status, _, said = pals(folder, "build")
        expect(status, 0, said)
        for words, crate in ((), "pals_cli"), (("code",), "pals_code"):
            expect(pals(folder, "--version", *words)[1].endswith(f", built and proved here by {KIT}\n"), True, crate)
            found = re.sub("[0-9a-f]{64}", "SUM", read(f"{folder}/crates/{crate}/out/{crate}.record").decode())
            expect(found, f"sources SUM\nkit {KIT}\nprogram SUM\n", f"the record of {crate}")
        meanwhile = f"echo '// more' >>'{folder}/crates/pals_base/src/lib.rt'"
        status, _, said = pals(folder, "build", MEANWHILE=meanwhile)
        expect((status, "a source changed while pals_cli was proved" in said), (1, True), said)
        expect(os.path.exists(f"{folder}/crates/pals_cli/out/pals_cli.record"), False, "a record")


def test_release_makes_what_pals_takes():
    """tools/release makes prebuilt/ of the programs that are built, the same bytes each time, with kit and sums."""
    with tempfile.TemporaryDirectory() as folder:
        release_tree(folder)
        expect(release(folder)[0], 0, "a release")
        first = [read(f"{folder}/prebuilt/{name}") for name in ("pals.gz", "SUMS")]
        expect(b"\nkit kit-1 logic 0a\n" in first[1] and b"gate" not in first[1], True, first[1].decode())
        expect(release(folder, "--check")[0], 0, "a release of this program")
        expect(release(folder)[0], 0, "a release again")
        expect([read(f"{folder}/prebuilt/{name}") for name in ("pals.gz", "SUMS")], first, "the same bytes")
        expect(os.path.exists(f"{folder}/prebuilt/pals_code.gz"), False, "a program that is not built")
        script(f"{folder}/crates/pals_code/out/pals_code", 'echo "listed $*"')
        expect(release(folder)[0], 1, "a second program without a record")
        record(folder, "pals_code")
        expect(release(folder, "--check")[0], 1, "a release without a program that is built")
        expect(release(folder)[0], 0, "a release of two programs")
        for crate in ("pals_cli", "pals_code"):
            shutil.rmtree(f"{folder}/crates/{crate}/out")
        expect(pals(folder, "code", "A.b", path="/usr/bin:/bin")[:2], (0, "listed A.b\n"), "the released pals_code")
        expect(pals(folder, "print", path="/usr/bin:/bin")[:2], (5, "built print\nbundle\n"), "the released program")
        said = pals(folder, "--version")[1]
        expect(said.endswith(f", of prebuilt/, proved elsewhere by {KIT}\n"), True, said)
        expect(release(folder)[0], 1, "a release of nothing")


def test_the_gate_records_what_it_proved():
    """.ci/run records its programs, its output gives a release its line, and a stale prebuilt/ fails it."""
    with tempfile.TemporaryDirectory() as folder:
        release_tree(folder)
        status, text, said = gate(folder)
        expect((status, "12 passed, 0 failed" in text), (0, True), said)
        for words in ((), ("code",)):
            expect("built and proved here" in pals(folder, "--version", *words)[1], True, f"the gate's program {words}")
        log = f"{folder}/gate.log"
        with open(log, "w", encoding="utf-8") as file:
            file.write(text)
        expect(release(folder, "--gate", log)[0], 0, "a release with the gate's line")
        expect(b"\ngate 12 passed, 0 failed\n" in read(f"{folder}/prebuilt/SUMS"), True, "the line")
        expect(release(folder, "--check")[0], 0, "the release")
        expect(gate(folder)[0], 0, "the gate with a release of these sources")
        for wrong in (text.replace("12 passed, 0 failed", "12 passed, 1 failed"), text.replace("0a", "0b"),
                      text.partition("gate: passed")[0], "12 passed, 0 failed\n"):
            with open(log, "w", encoding="utf-8") as file:
                file.write(wrong)
            expect(release(folder, "--gate", log)[0], 1, f"a log that is not of this gate\n{wrong}")
        with open(log, "w", encoding="utf-8") as file:
            file.write(text)
        change(folder, "case_files")
        expect(release(folder, "--gate", log)[0], 1, "a log of other tests")
        expect(gate(folder)[0], 0, "a change in a test, which no program has")
        change(folder)
        status, _, said = gate(folder)
        expect((status, "prebuilt/ is not made of these sources" in said), (1, True), said)
        shutil.rmtree(f"{folder}/prebuilt")
        expect(gate(folder)[0], 0, "the gate without prebuilt/")


def as_nobody(folder):
    """The words that run a command as another user, who may read the tree; left out if that fails."""
    words = ["setpriv", "--reuid=65534", "--regid=65534", "--clear-groups"]
    if os.geteuid() or not shutil.which("setpriv") or subprocess.run([*words, "true"], **HOW).returncode:
        raise Skipped("only root with setpriv runs a program as another user")
    os.chmod(folder, 0o755)
    return words


def test_a_folder_of_another_user_serves():
    """A carried program that cannot be unpacked at its place is unpacked to the user's cache, or runs from a temporary
    folder; what another user left in either is not run."""
    with tempfile.TemporaryDirectory() as folder, tempfile.TemporaryDirectory() as shared:
        small_tree(folder)
        shutil.rmtree(f"{folder}/crates/pals_cli/out")
        carry(folder)
        words = as_nobody(folder)
        os.chmod(shared, 0o1777)
        answer, how = (4, "carried print\nbundle\n"), {"by": words, "path": "/usr/bin:/bin", "TMPDIR": shared}
        os.makedirs(f"{shared}/home")
        os.chown(f"{shared}/home", 65534, 65534)
        home = {**how, "HOME": f"{shared}/home", "XDG_CACHE_HOME": ""}
        for _ in range(2):
            expect(pals(folder, "print", **home)[:2], answer, "in the cache of the home")
        path = pals(folder, "--program", **home)[1]
        expect(path.startswith(f"{shared}/home/.cache/pals/pals-"), True, path)
        with open(path.strip(), "w", encoding="utf-8") as file:
            file.write("#!/bin/sh\necho worse\n")
        expect(pals(folder, "print", **home)[:2], answer, "other bytes in the cache")
        none = {**how, "HOME": "/nonexistent", "XDG_CACHE_HOME": ""}
        expect(pals(folder, "print", **none)[:2], answer, "no folder of the user's own")
        expect(pals(folder, "--program", **none)[0], 127, "no path that lasts")
        script(f"{shared}/cache/pals/pals-0", "echo worse")
        os.chmod(f"{shared}/cache/pals", 0o777)
        other = {**how, "HOME": "", "XDG_CACHE_HOME": f"{shared}/cache"}
        expect(pals(folder, "print", **other)[:2], answer, "a cache of another user")
        expect(os.listdir(f"{shared}/cache/pals"), ["pals-0"], "a program in the cache of another user")
        expect(sorted(os.listdir(shared)), ["cache", "home"], "files in the temporary folder")
        expect(os.path.exists(f"{folder}/prebuilt/out"), False, "a folder in prebuilt/")


def limit_files():
    """Lets a process write files of at most 64 bytes."""
    resource.setrlimit(resource.RLIMIT_FSIZE, (64, resource.getrlimit(resource.RLIMIT_FSIZE)[1]))


def test_a_limit_of_a_files_size_is_a_failed_write():
    """Below `ulimit -f` the program ends with status 10, and not by a signal."""
    built()
    with tempfile.TemporaryDirectory() as folder:
        with open(f"{folder}/answer", "wb") as file, open(f"{TOP}/examples/two_counters.pals", "rb") as given:
            ran = subprocess.run([f"{TOP}/pals", "print"], stdin=given, stdout=file, stderr=subprocess.PIPE,
                                 preexec_fn=limit_files, timeout=WITHIN, check=False)
        expect((ran.returncode, os.path.getsize(f"{folder}/answer")), (10, 64), "a file of at most 64 bytes")
