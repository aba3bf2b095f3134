"""Results for other tools: JSON, SARIF 2.1.0, JUnit XML, and traces that Perfetto opens."""

import json
import os
import tempfile
import xml.etree.ElementTree as ElementTree

from lib.scenarios.bundles import read
from tests.common import TOP, built, expect, on_bundle, tool
from tests.test_traps import JOURNAL, LAW, ROWS, WATCHED

LEVELS = ("none", "note", "warning", "error")


def checked(text):
    """A text that has what the schema of SARIF 2.1.0 requires of the objects that are used; gives its results."""
    log = json.loads(text)
    expect((log["version"], log["$schema"].endswith("sarif-schema-2.1.0.json")), ("2.1.0", True), "the log")
    expect(len(log["runs"]), 1, "runs")
    driver, results = log["runs"][0]["tool"]["driver"], log["runs"][0]["results"]
    expect(set(log["runs"][0]) - {"tool", "columnKind", "invocations", "results"}, set(), "fields of the run")
    expect(log["runs"][0]["columnKind"], "unicodeCodePoints", "columns")
    expect(isinstance(log["runs"][0]["invocations"][0]["executionSuccessful"], bool), True, "the invocation")
    expect(isinstance(driver["name"], str) and isinstance(driver["version"], str), True, "the driver")
    rules = [it["id"] for it in driver["rules"]]
    expect(len(set(rules)), len(rules), "rules once each")
    for it in results:
        expect((it["level"] in LEVELS, rules[it["ruleIndex"]]), (True, it["ruleId"]), str(it))
        expect(bool(it["message"]["text"]), True, "a message")
        place = it["locations"][0]["physicalLocation"]
        expect(" " in place["artifactLocation"]["uri"], False, "a URI")
        expect(min(place["region"]["startLine"], place["region"]["startColumn"]) >= 1, True, "a place from 1")
        for fix in it.get("fixes", []):
            expect(bool(fix["description"]["text"]) and bool(fix["artifactChanges"]), True, "a fix")
            for change in fix["artifactChanges"]:
                expect((change["artifactLocation"], bool(change["replacements"])), (place["artifactLocation"], True),
                       "a change of the file of the place")
    return results


def with_fixes(text, results):
    """A text of short lines with all fixes of some results, the last place of the text first."""
    lines, edits = text.split("\n"), []
    for it in (it for result in results for fix in result.get("fixes", []) for change in fix["artifactChanges"]
               for it in change["replacements"]):
        region = it["deletedRegion"]
        expect(region["startLine"], region["endLine"], "a replacement within a line")
        edits.append((region["startLine"], region["startColumn"], region["endColumn"], it["insertedContent"]["text"]))
    for line, start, end, new in sorted(edits, reverse=True):
        old = lines[line - 1]
        lines[line - 1] = old[: start - 1] + new + old[end - 1 :]
    return "\n".join(lines)


# A condition, and the same one with the parentheses that state how it is read: from the left.
MIXED = [("a or b and c", "(a or b) and c"),
         ("not a and b and then c or else d", "(not a and b and then c) or else d"),
         ("a xor b or\n c and (a or b and c)", "((a xor b) or\n c) and ((a or b) and c)"),
         ("a or b or (a and b)", None)]


def test_fixes_of_mixed_operators():
    """The fix of mixed operators inserts the parentheses that keep the meaning; lint is then silent."""
    for given, wanted in MIXED:
        text = LAW.replace("variables last", "variables a, b, c, d: Base_Types::Boolean; last", 1).replace(
            "last := total", f"d := {given}; last := total", 1)
        results = [it for it in checked(on_bundle("lint", text.encode(), "--format", "sarif")[1])
                   if it["ruleId"] == "mixed-operators"]
        expect((given in text, bool(results)), (True, wanted is not None), given)
        fixed = with_fixes(text, results)
        expect(fixed, text.replace(given, wanted or given), "the text with its fixes")
        expect("mixed-operators" in on_bundle("lint", fixed.encode())[1], False, fixed)


# Properties of a thread, and the same ones without a misspelling; None if there is no fix: the name is there already,
# or has no meaning at a thread.
MISSPELT = [('Label => "\u00e4\u00f6"; Dispatch_Protocl => Periodic',
             'Label => "\u00e4\u00f6"; Dispatch_Protocol => Periodic'),
            ("Dispatch_Protocol => Periodic; Period => 9 ms; Perriod => 9 ms", None),
            ("Dispatch_Protocol => Periodic; Tming => Delayed", None)]


def test_fixes_of_misspelt_properties():
    """The fix of a misspelt property is its likely name. Columns count letters."""
    for given, wanted in MISSPELT:
        text = LAW.replace("Dispatch_Protocol => Periodic", given, 1)
        results = [it for it in checked(on_bundle("lint", text.encode(), "--format", "sarif")[1])
                   if it["ruleId"] == "misspelt-property"]
        expect(([it.get("fixes", []) != [] for it in results], with_fixes(text, results)),
               ([wanted is not None], text.replace(given, wanted or given)), given)


def test_each_refusal_as_sarif_and_json():
    """Each answer of the table of mistakes has the same number of remarks as text, JSON and SARIF."""
    bundle = read(os.path.join(TOP, "examples/two_counters.pals"))
    for answer in ("38:2 18 PeriodTooShort 8000000 9000000", "text 39:2 Syntax", "scenario OutOfRange rounds",
                   "flat 1 NoRoot", "clock ended p.a 5", "code p.a 5000", "read fault", "usage: pals print"):
        given = f"{answer}\n".encode()
        status, text, _ = on_bundle("explain", bundle, given=given)
        found = on_bundle("explain", bundle, "--format", "json", given=given)
        log = json.loads(found[1])
        shown = sum(line.startswith("b.pals:") for line in text.split("\n"))
        expect((found[0], log["status"], len(log["findings"])), (status, status, shown), answer)
        results = checked(on_bundle("explain", bundle, "--format", "sarif", given=given)[1])
        expect((len(results), all(it["ruleId"] for it in results)), (shown, True), answer)
    expect(on_bundle("explain", bundle, "--format", "yaml", given=b"text 39:2 Syntax\n")[0], 2, "an unknown format")


def test_lint_as_sarif():
    """The findings of lint are warnings; columns count letters; a design without findings has an empty log."""
    results = checked(on_bundle("lint", LAW.encode(), "--format", "sarif")[1])
    expect([(it["ruleId"], it["level"]) for it in results], [("zero-divisor", "warning")], "results")
    marked = LAW.replace("s -[on dispatch]-> s {last", '-- \u00e4\n s -[on dispatch]-> s {last')
    expect(json.loads(on_bundle("lint", marked.encode(), "--format", "json")[1])["findings"][0]["line"], 13, "a line")
    wide = LAW.replace("thread Law features", 'thread Law features -- no letters before').replace(
        "properties\n Period", 'properties Label => "\u00e4\u00f6"; Lable => 3;\n Period')
    places = [it["locations"][0]["physicalLocation"]["region"]["startColumn"]
              for it in checked(on_bundle("lint", wide.encode(), "--format", "sarif")[1])]
    expect('properties Label => "\u00e4\u00f6"; Lable'.index("Lable") + 1 in places, True, str(places))
    clean = LAW.replace("total / count", "total + count")
    status, text, _ = on_bundle("lint", clean.encode(), "--format", "sarif")
    expect((status, checked(text)), (0, []), "no findings")


def test_junit_of_watch():
    """A case for each property and one for traps; the trap is a failure."""
    suite = ElementTree.fromstring(on_bundle("explain", LAW.encode(), "--format", "junit", given=WATCHED.encode())[1])
    expect((suite.tag, suite.get("tests"), suite.get("failures")), ("testsuite", "2", "1"), "the suite")
    cases = {it.get("name"): it.find("failure") is not None for it in suite.findall("testcase")}
    expect(cases, {"small": False, "no_trap": True}, "cases")
    false = WATCHED.replace("round 1\nsmall true", "round 1\nsmall false").replace("first none", "first small 1")
    suite = ElementTree.fromstring(on_bundle("explain", LAW.encode(), "--format", "junit", given=false.encode())[1])
    expect(suite.find("testcase/failure").get("message"), "false first in round 1", "the failure")
    status, text, said = on_bundle("explain", LAW.encode(), "--format", "junit", given=ROWS.encode())
    expect((status, text, said), (1, "", "explain: JUnit XML is made of an answer of watch\n"), "rows")


def test_junit_of_a_campaign():
    """A false property is a failure with its scenario; a campaign without one has none."""
    given = read(os.path.join(TOP, "examples/pacemaker_watch.pals"))
    with tempfile.TemporaryDirectory() as folder:
        with open(os.path.join(folder, "b.pals"), "wb") as file:
            file.write(given)
        words = ["--program", built(), "--count", "2", "--jobs", "1", "--tries", "3", "--input", "beat=false",
                 "--junit", "found.xml", "b.pals"]
        status, text, _ = tool("campaign", *words, folder=folder)
        suite = ElementTree.parse(os.path.join(folder, "found.xml")).getroot()
    failed = [it for it in suite.findall("testcase") if it.find("failure") is not None]
    expect((status, suite.get("failures"), len(failed)), (1, "1", 1), "the suite")
    expect(json.loads(failed[0].find("failure").text), json.loads(text), "the scenario")
    expect({it.get("name") for it in suite.findall("testcase")},
           {"deaf_by_pace", "rests", "unaided", "waits", "no_trap"}, "cases")


def test_a_trace_for_perfetto():
    """Each node is a track; a message is an arrow from its send to its arrival; a trap and a stop are moments."""
    journal = JOURNAL + "arrive p.law.count 0 25000000 kept\nstart p.law 1 40000000\nfinish p.law 1\n"
    status, text, _ = on_bundle("timeline", LAW.encode(), "--format", "chrome", given=(ROWS + journal).encode())
    events = json.loads(text)["traceEvents"]
    expect((status, {it["args"]["name"] for it in events if it["ph"] == "M"}), (0, {"p.meter", "p.law"}), "tracks")
    expect([(it["ts"]) for it in events if it["ph"] in "sf"], [21000.0, 25000.0], "the arrow, in microseconds")
    expect([it["name"] for it in events if it["name"].startswith("halted")], ["halted: zero-divisor"], "the trap")
    steps = {(it["tid"], it["args"]["round"]): it for it in events if it["ph"] == "X"}
    expect("no reading" in steps[1, 1]["args"]["finish"], True, "a finish has no reading")
    for name in ("lost_message", "late_delivery"):
        given = read(os.path.join(TOP, f"examples/{name}.journal"))
        text = tool("timeline", "--format", "chrome", f"examples/{name}.pals", given=given)[1]
        names = [it["name"] for it in json.loads(text)["traceEvents"]]
        expect(any(it.startswith("stop: ") for it in names), True, f"the stop of {name}")
