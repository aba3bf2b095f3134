"""What analyzers of C report of the nodes: nothing, and of MISRA C only the rules that the page names."""

import glob
import re
import shutil
import subprocess
import tempfile

from tests.common import TOP, WITHIN, Skipped, expect, page
from tests.nodes import MORE, NODES, c_of

CHECKS = ("-*,clang-analyzer-*,-clang-analyzer-security.insecureAPI.DeprecatedOrUnsafeBufferHandling,"
          "-clang-analyzer-deadcode.DeadStores,bugprone-*,-bugprone-easily-swappable-parameters,"
          "-bugprone-implicit-widening-of-multiplication-result")


def made(where):
    """The C of the turn controller in a folder, and the sources of the nodes."""
    c_of(page("examples/turn_controller.listing"), where)
    return sorted(glob.glob(f"{NODES}/*.c")) + sorted(glob.glob(f"{where}/*.c"))


def includes(where):
    """The words for the folders of headers."""
    return [word for path in (NODES, f"{NODES}/demo", f"{NODES}/udp", where) for word in ("-I", path)]


def need(program):
    """Leaves a test out without --more, or without its program."""
    if not MORE:
        raise Skipped("it takes half a minute; --more runs it")
    if not shutil.which(program):
        raise Skipped(f"{program} is not installed")


def test_clang_tidy_reports_nothing():
    """The analyzer of clang, and the checks of clang-tidy for mistakes, report nothing of the nodes and of UDP."""
    need("clang-tidy")
    with tempfile.TemporaryDirectory() as where:
        sources = made(where) + sorted(glob.glob(f"{NODES}/udp/*.c"))
        command = ["clang-tidy", "--quiet", f"-checks={CHECKS}", *sources, "--", "-std=c11", "-D_GNU_SOURCE",
                   *includes(where)]
        ran = subprocess.run(command, stdout=subprocess.PIPE, stderr=subprocess.DEVNULL, timeout=WITHIN, check=False,
                             cwd=TOP)
    expect([line for line in ran.stdout.decode().split("\n") if "warning:" in line or "error:" in line], [], "warnings")


def test_the_page_names_the_rules_of_misra():
    """cppcheck reports violations of those rules of MISRA C that docs/c_nodes.md names, and of no others."""
    need("cppcheck")
    with tempfile.TemporaryDirectory() as where:
        command = ["cppcheck", "--addon=misra", "--std=c99", *includes(where), *made(where)]
        ran = subprocess.run(command, stdout=subprocess.PIPE, stderr=subprocess.STDOUT, timeout=WITHIN, check=False)
    found = set(re.findall(r"misra-c2012-([\d.]+)", ran.stdout.decode()))
    if not found:
        raise Skipped(f"the addon misra is not there: {ran.stdout.decode()[:100]}")
    table = page("docs/c_nodes.md").partition("| rule | reason |")[2].partition("\n\n")[0]
    named = set(re.findall(r"\d+\.\d+", "\n".join(row.split("|")[1] for row in table.split("\n")[2:])))
    expect(found, named, "rules of MISRA C:2012")
