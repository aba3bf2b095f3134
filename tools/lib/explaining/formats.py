"""Remarks as other tools read them: JSON, SARIF 2.1.0, and JUnit XML of verdicts."""

import json
from urllib.parse import quote
from xml.sax.saxutils import escape, quoteattr

from ..commands.version import VERSION
from ..linting.rules import RULES
from ..running.rows import Report
from ..scenarios.bundles import Refused
from .outputs import explain
from .show import collecting, visible
from .traps import rounds_words, short, traps_of

SCHEMA = "https://docs.oasis-open.org/sarif/sarif/v2.1.0/os/schemas/sarif-schema-2.1.0.json"
FORMATS = ("json", "sarif", "junit")


def explained_as(form, bundle, text, command, strict=False):
    """What `explain` remarks on an answer, in a format, and the status."""
    with collecting() as remarks:
        status = explain(bundle, text, command, passes=False, strict=strict)
    if form == "junit":
        return junit_of_watch(bundle, text), status
    return (sarif_of if form == "sarif" else json_of)(remarks, status), status


def json_of(remarks, status):
    """Remarks as JSON. Columns count bytes."""
    found = [{"file": it.path, "line": it.line, "column": it.column, "level": it.level, "rule": it.rule,
              "message": it.what, "notes": it.more} for it in remarks]
    return json.dumps({"tool": "pals", "version": VERSION, "status": status, "findings": found}, indent=2) + "\n"


def sarif_of(remarks, status):
    """Remarks as SARIF 2.1.0. Columns count letters."""
    rules = list(dict.fromkeys(it.rule for it in remarks))
    run = {
        "tool": {"driver": {"name": "pals", "version": VERSION,
                            "rules": [{"id": rule, "shortDescription": {"text": described(rule)}} for rule in rules]}},
        "columnKind": "unicodeCodePoints",
        "invocations": [{"executionSuccessful": True, "exitCode": status}],
        "results": [result_of(it, rules) for it in remarks],
    }
    return json.dumps({"$schema": SCHEMA, "version": "2.1.0", "runs": [run]}, indent=2) + "\n"


def described(rule):
    """What a rule finds, for a rule of lint; else its name."""
    return RULES.get(rule, "a component that a trap halts" if rule == "trap" else rule)


def result_of(remark, rules):
    """A remark as a result of SARIF."""
    place = {"artifactLocation": {"uri": quote(remark.path)},
             "region": {"startLine": remark.line, "startColumn": remark.letter}}
    result = {"ruleId": remark.rule, "ruleIndex": rules.index(remark.rule), "level": remark.level,
              "message": {"text": "\n".join([remark.what, *remark.more])}, "locations": [{"physicalLocation": place}]}
    return {**result, "fixes": [fix_of(remark)]} if remark.fix else result


def fix_of(remark):
    """The fix of a remark. A replacement whose region is empty is an insertion."""
    title, replacements = remark.fix
    changes = [{"deletedRegion": {"startLine": it.line, "startColumn": it.letter, "endLine": it.line,
                                  "endColumn": it.end},
                "insertedContent": {"text": it.text}} for it in replacements]
    return {"description": {"text": title},
            "artifactChanges": [{"artifactLocation": {"uri": quote(remark.path)}, "replacements": changes}]}


def case_of(name, owner, failure="", more=""):
    """A test case of JUnit XML, with its failure if it has one."""
    head = f"  <testcase name={attribute(name)} classname={attribute(owner)}"
    if not failure:
        return head + "/>"
    return f"{head}>\n    <failure message={attribute(failure)}>{escape(visible_lines(more))}</failure>\n  </testcase>"


def attribute(text):
    """A text as an attribute of XML."""
    return quoteattr(visible(text))


def visible_lines(text):
    """Lines without control characters."""
    return "\n".join(map(visible, text.split("\n")))


def junit(name, cases, properties=()):
    """A suite of test cases."""
    failures = sum("<failure" in case for case in cases)
    named = "".join(f"    <property name={attribute(key)} value={attribute(value)}/>\n" for key, value in properties)
    named = f"  <properties>\n{named}  </properties>\n" if named else ""
    return (f'<?xml version="1.0" encoding="UTF-8"?>\n<testsuite name={attribute(name)} tests="{len(cases)}" '
            f'failures="{failures}" errors="0" skipped="0">\n{named}' + "".join(f"{case}\n" for case in cases)
            + "</testsuite>\n")


def junit_of_watch(bundle, text):
    """A case for each property of an answer of `watch`, and one for traps."""
    report = Report(text) if text.startswith("round ") else None
    if report is None or not report.watched:
        raise Refused("JUnit XML is made of an answer of watch")
    cases = []
    for name in report.verdicts[0]:
        first = next((row.number for row, it in zip(report.rows, report.verdicts) if it.get(name) == "false"), None)
        cases.append(case_of(name, bundle.path, "" if first is None else f"false first in round {first}"))
    traps = traps_of(bundle, text)
    halts = "; ".join([*map(short, traps.halts), *filter(None, [rounds_words(traps)])])
    return junit(bundle.path, [*cases, case_of("no_trap", bundle.path, halts, places(bundle, traps))],
                 [("rounds", str(len(report.rows)))])


def places(bundle, traps):
    """The places of traps, one a line."""
    with_places = [(*bundle.place(it.offset), it.what) for it in traps.found]
    return "\n".join(f"{bundle.path}:{line}:{column}: {what}" for line, column, what in with_places)
