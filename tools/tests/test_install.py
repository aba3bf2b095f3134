"""The installation: it runs without sources, as a user who owns nothing, with its manual page and completions."""

import os
import shutil
import subprocess
import tempfile

from lib.commands import manual
from lib.commands.installing import Installation
from lib.commands.version import VERSION
from lib.running.program import found_by_pals
from lib.scenarios.bundles import Refused, read
from tests.common import TOP, WITHIN, Skipped, expect, page, tool

DESIGN = os.path.join(TOP, "examples/two_counters.aadl")


def ran(*words, given=b"", **more):
    """The status and the text of a command."""
    done = subprocess.run(words, input=given, stdout=subprocess.PIPE, stderr=subprocess.STDOUT, timeout=WITHIN,
                          check=False, **more)
    return done.returncode, done.stdout.decode("utf-8", "replace")


def installed(folder):
    """Installs into a folder; left out if no program is there."""
    try:
        found_by_pals()
    except Refused as why:
        raise Skipped(str(why)) from why
    expect(tool("install", "--prefix", folder)[:2], (0, f"{folder}/bin/pals\n".encode()), "install")
    return os.path.join(folder, "bin/pals")


def nobody():
    """The words before a command that runs it as a user who owns nothing; none if that is not possible."""
    other = ["setpriv", "--reuid=65534", "--regid=65534", "--clear-groups"]
    return other if os.geteuid() == 0 and shutil.which("setpriv") else []


def test_an_installation_runs_without_sources():
    """It answers by the copied program, also for a user who owns nothing; it refuses to build; it is removed whole."""
    with tempfile.TemporaryDirectory() as folder:
        os.chmod(folder, 0o755)
        pals = installed(os.path.join(folder, "usr"))
        shutil.copy(DESIGN, os.path.join(folder, "two.aadl"))
        os.chmod(os.path.join(folder, "two.aadl"), 0o644)
        before = sorted(os.walk(os.path.join(folder, "usr")))
        other = nobody()
        clean = {"PATH": "/usr/bin:/bin", "HOME": "/nonexistent"}
        status, text = ran(*other, pals, "check", f"{folder}/two.aadl", env=clean, cwd="/")
        expect((status, text.startswith("accepted\n")), (0, True), text)
        expect(ran(*other, pals, "lint", f"{folder}/two.aadl", env=clean, cwd="/"), (0, ""), "lint")
        expect(ran(*other, pals, "--version", env=clean)[1].split(",")[0].split()[:2], ["pals", VERSION], "its version")
        expect(ran(pals, "build", env=clean)[0], 1, "build")
        expect(sorted(os.walk(os.path.join(folder, "usr"))), before, "nothing is written")
        program = os.path.join(folder, "usr/lib/pals/program/pals")
        with open(program, "ab") as file:
            file.write(b"x")
        expect(ran(pals, "--program", env=clean)[0], 127, "a program that is not the one of its record")
        expect(tool("install", "--prefix", os.path.join(folder, "usr"))[0], 0, "a second installation")
        expect(tool("install", "--remove", "--prefix", os.path.join(folder, "usr"))[0], 0, "remove")
        expect([names for _, _, names in os.walk(os.path.join(folder, "usr")) if names], [], "what is left")


def test_foreign_files_are_not_replaced():
    """A folder or a program of another origin is not replaced or removed; an odd word is a wrong use."""
    with tempfile.TemporaryDirectory() as folder:
        os.makedirs(os.path.join(folder, "lib/pals"))
        for words in ([], ["--remove"]):
            status, _, said = tool("install", *words, "--prefix", folder)
            expect((status, said.count("\n")), (1, 1), said)
        expect(tool("install", "--prefix")[0], 2, "no folder")
        expect(tool("install", "x")[0], 2, "a stray word")
        try:
            Installation(folder, folder).remove()
            expect(True, False, "an error")
        except Refused:
            pass


def test_the_manual_has_each_command():
    """Each section of docs/commands.txt and each tool are in the manual, which troff takes without a warning."""
    text, tools = page("docs/commands.txt"), manual.tools_in(os.path.join(TOP, "tools"))
    made = manual.manual(text, VERSION, tools)
    names = [name for name, _ in manual.sections_of(text)][1:] + [it.name for it in tools]
    expect([name for name in names if f".SS {manual.roff(name)}\n" not in made], [], "sections")
    expect("omit intended constructs: a rule" in made, True, "the options of lint")
    expect("./pals" in made, False, "the installed name")
    if shutil.which("groff"):
        expect(ran("groff", "-man", "-Tutf8", "-ww", "-z", given=made.encode()), (0, ""), "groff")


def test_completions():
    """Each command and tool is offered, with its options; each shell that is installed takes its file."""
    known = manual.options(page("docs/commands.txt"), manual.tools_in(os.path.join(TOP, "tools")))
    expect({"check", "lint", "report", "install", "build"} <= set(known), True, "commands and tools")
    names = {name: [it.name for it in words] for name, words in known.items()}
    expect("--loose" in names["world"] and "--trace" in names["run"] and "--quiet" in names["lint"], True, "options")
    with tempfile.TemporaryDirectory() as folder:
        for name, make in (("bash", manual.bash), ("zsh", manual.zsh), ("fish", manual.fish)):
            path = os.path.join(folder, f"pals.{name}")
            with open(path, "w", encoding="utf-8") as file:
                file.write(make(known))
            if shutil.which(name):
                expect(ran(name, "-n", path), (0, ""), name)
        asked = "_pals; echo ${COMPREPLY[@]}"
        for words, at, offered in (("lint --qu", 2, "--quiet"), ("lint --format ", 3, "json sarif"),
                                   ("check --form", 2, "--format"), ("timeline --format s", 3, "svg")):
            given = f"COMP_WORDS=(pals {words}); COMP_CWORD={at}"
            if shutil.which("bash"):
                expect(ran("bash", "-c", f"source {folder}/pals.bash; {given}; {asked}"), (0, f"{offered}\n"), words)
            if shutil.which("fish"):
                found = ran("fish", "-c", f"source {folder}/pals.fish; complete -C 'pals {words}'")[1]
                expect([it.split("\t")[0] for it in found.split()[:1]], offered.split()[:1], f"fish: {words}")


def test_the_package():
    """The package has the program and its page, and depends on python3."""
    if not shutil.which("dpkg-deb"):
        raise Skipped("dpkg-deb is not installed")
    try:
        found_by_pals()
    except Refused as why:
        raise Skipped(str(why)) from why
    with tempfile.TemporaryDirectory() as folder:
        os.chmod(folder, 0o755)
        status, text = ran(os.path.join(TOP, "packaging/build-deb"), os.path.join(folder, "made"))
        expect(status, 0, text)
        listed = ran("dpkg-deb", "-c", text.strip())[1]
        for path in ("./usr/bin/pals", "./usr/lib/pals/program/pals", "./usr/share/man/man1/pals.1.gz"):
            expect(f" {path}" in listed, True, path)
        fields = ran("dpkg-deb", "-f", text.strip(), "Version", "Depends")[1]
        expect(f"Version: {VERSION}\n" in fields and "python3" in fields, True, fields)
        unpacked = os.path.join(folder, "unpacked")
        expect(ran("dpkg-deb", "-x", text.strip(), unpacked)[0], 0, "unpack")
        shutil.copy(DESIGN, os.path.join(folder, "two.aadl"))
        os.chmod(os.path.join(folder, "two.aadl"), 0o644)
        status, text = ran(*nobody(), os.path.join(unpacked, "usr/bin/pals"), "check", f"{folder}/two.aadl", cwd="/",
                           env={"PATH": "/usr/bin:/bin", "HOME": "/nonexistent"})
        expect((status, text.startswith("accepted\n")), (0, True), text)


def test_the_version_is_in_one_place():
    """The changes begin with the version of the file VERSION, and the hooks and the action exist."""
    expect(page("CHANGELOG.md").split("\n## ")[1].split("\n")[0], VERSION, "CHANGELOG.md")
    for name in ("Containerfile", "github/action.yml", "git/pre-commit", "git/pre-commit-hooks.yaml"):
        expect(bool(read(os.path.join(TOP, "packaging", name))), True, name)
