"""What explain shows of each kind of answer."""

import os
import re

from lib.explaining import sentences
from lib.explaining.page import advice
from lib.language.properties import PLACES, likely
from lib.language.words import ANNEX, DECLARATIONS
from lib.scenarios.bundles import read
from tests.common import EXAMPLES, TOP, answers, changed, check_examples, expect, explained, page, tool


def test_explain_shows_each_finding():
    """Of each example of the two pages each place is shown, with its line, a caret below it, and advice."""
    count = 0
    for bundle, answer in check_examples():
        status, text = explained(bundle, answer)
        expect(status, 4, answer)
        for place in re.findall(r"(?:^|\s)(\d+):(\d+)(?=\s|$)", answer):
            line, column = int(place[0]), int(place[1])
            source = bundle.decode().split("\n")[line - 1]
            shown = re.escape(f"    {source}") + r"\n" + " " * (column + 3) + r"\^\n"
            shown += r"(    \S[^\n]*\n)+    see docs/checks.md, "
            expect(bool(re.search(rf"(?m)^b\.pals:{line}:{column}: .*\n{shown}", text)), True, f"{answer}\n{text}")
        count += 1
    expect(count >= 36, True, f"{count} examples of the pages are read")


def test_explain_shows_each_text_fault():
    """Of each refused text of docs/language.md the place and the status are shown."""
    lines = page("examples/two_counters.pals").split("\n")
    rows = re.findall(r"\| `\w+` \| (\d+) \| (.*) \| `(text (\d+:\d+) (\w+))` \|", page("docs/language.md"))
    for number, shape, answer, place, name in rows:
        quoted = re.match(r"`( [^`]*)`", shape)
        bundle = changed(lines, {int(number): quoted.group(1)} if quoted else {}).encode()
        status, text = explained(bundle, answer)
        expect((status, text.startswith(f"b.pals:{place}: ")), (3, True), f"{answer}\n{text}")
        expect(f"see docs/language.md, {name}" in text, True, text)
    expect(len(rows), 9, "refused texts of docs/language.md")


def test_explain_tells_likely_causes():
    """A byte order mark, a divider with a blank, a keyword as a name, and what the subset leaves out are named."""
    design = page("examples/two_counters.aadl")
    for bundle, answer, wanted in (
        ("\ufeff" + design, "text 1:1 BadByte", "the text begins with a byte order mark"),
        (design + "%%% \n{}", "text 45:3 NoDivider", "line 44 is not a divider"),
        (design.replace("x + i + 1", "on + i + 1"), "text 19:29 Syntax",
         "`on` is a keyword inside a behaviour annex"),
        (design.replace("process Pair\n", "process Pair extends P\n"), "text 22:14 Syntax",
         "the subset of AADL has no `extends` here"),
    ):
        status, text = explained(bundle.encode(), answer)
        expect((status, wanted in text), (3, True), f"{answer}\n{text}")


# Scenarios with their rejections, and the text at the position that is shown.


SCENARIOS = [
    ('{"rounds":3', "scenario NotJson", None),
    ("[]", "scenario WrongKind scenario", "[]"),
    ('{"rounds":"3"}', "scenario WrongKind rounds", '"rounds"'),
    ('{"rounds":3,"goal":1}', "scenario Unknown goal", '"goal"'),
    ('{"rounds":3,"clocks":{"p.c":[]}}', "scenario Unknown clocks/p.c", '"p.c"'),
    ('{"rounds":3,"clocks":{"p.a":[2,1]}}', "scenario OutOfRange clocks/p.a/1", "1]"),
    ('{"rounds":3,\n"events":[["start"]]}', "scenario WrongKind events/0", '["start"]'),
    ('{"rounds":100000}', "scenario TooBig 3400000", '"rounds"'),
    ('{"a":{},"processors":{"cpu":{"nanos":1}}}', "scenario Field processors/p.b", '"processors"'),
    ('{"events":[["pass",1,[1,1]],["start","p.a"]]}', "event 1 NotDue p.a 9000000 0", '["start"'),
    ("\ufeff{}", "scenario NotJson", "\ufeff"),
    ('{"a":NaN}', "scenario NotJson", "NaN"),
    ('{"a":1e999}', "scenario NotJson", "1e999"),
    ("[" * 128, "scenario NotJson", "["),
]


def test_explain_shows_each_scenario_fault():
    """For each rejected scenario the position is the position of the rejected value."""
    design = page("examples/two_counters.aadl")
    for scenario, answer, wanted in SCENARIOS:
        bundle = f"{design}%%%\n{scenario}".encode()
        status, text = explained(bundle, answer)
        place = re.match(r"b\.pals:(\d+):(\d+): ", text)
        expect((status, bool(place)), (5, True), f"{answer}\n{text}")
        source = bundle.split(b"\n")[int(place.group(1)) - 1][int(place.group(2)) - 1 :].decode()
        expect(wanted is None or source.startswith(wanted), True, f"{answer}\n{text}")


# Answers to runs and audits, and where each is shown.


RUNS = [
    ('{"rounds":2,"delays":{"p.b.i":[9]}}', "stop missed p.b.i 0 18000000 in-transit", 6, '"p.b.i"'),
    ('{"rounds":2}', "stop early p.b.i 0 9000000", 6, "{"),
    ('{"rounds":2,"clocks":{"p.a":[1],"p.b":[2]}}', "clock ended p.b 9000000", 7, '"p.b"'),
    ('{"rounds":2,"clocks":{"p.a":[1]}}', "clock ended p.b 9000000", 7, '"clocks"'),
    ('{"rounds":1,"trace":["round 0","start p.a 0 1"]}', "wrong 1 alarm", 1, '"start p.a'),
    ('{"rounds":1,"trace":["round 0"]}', "wrong 1 unfinished", 1, '"trace"'),
]


def test_explain_shows_runs_and_traces():
    """A stop of a run, a clock that has ended and the first wrong line of a trace are shown in the scenario."""
    design = page("examples/two_counters.aadl")
    for scenario, answer, wanted, shown in RUNS:
        bundle = f"{design}%%%\n{scenario}".encode()
        status, text = explained(bundle, answer)
        place = re.match(r"b\.pals:(\d+):(\d+): ", text)
        expect((status, bool(place)), (wanted, True), f"{answer}\n{text}")
        source = bundle.split(b"\n")[int(place.group(1)) - 1][int(place.group(2)) - 1 :].decode()
        expect(source.startswith(shown), True, f"{answer}\n{text}")
    for answer in ("sound rounds 1 stop none", "sound rounds 1 stop p.b.i 0"):
        expect(explained(f"{design}%%%\n{{}}".encode(), answer), (0, f"{answer}\n"), "what is sound is passed on")


def test_explain_gives_the_status():
    """Of each example the status is that of the program; and of each other kind of answer."""
    for bundle, command, answer, wanted in answers():
        given = read(os.path.join(TOP, answer))
        status, text, said = tool("explain", bundle, given=given)
        expect((status, said), (wanted, ""), f"{command} of {bundle}")
        if wanted < 2 and not given.startswith(b"wrong "):
            expect(text.startswith(given), True, f"the answer to {command} of {bundle} is passed on")
    kinds = {"read fault\n": 9, "too long\n": 12, "code p.a 5000\n": 13, "usage: pals print\n": 2,
             "ring 2 rounds 3 messages 6 sum 57\n": 0, "package A public\nend A;\n": 0}
    for answer, wanted in kinds.items():
        expect(explained(read(os.path.join(EXAMPLES, "two_counters.pals")), answer)[0], wanted, answer)


def test_explain_shows_likely_properties():
    """A property with another set or a letter that is off is shown with the name that was likely meant."""
    design = page("examples/two_counters.aadl")
    design = design.replace("{Timing => Delayed;}", '{Timing => Delayed; Input_Adapter => "last";}', 1)
    design = design.replace(" Period => 9 ms;", " Timing_Properties::Period => 9 ms; Deadline => 8 ms;")
    answer = "accepted\nignored Input_Adapter\nignored Timing_Properties::Period\nignored Deadline\n"
    text = explained(f"{design}%%%\n".encode(), answer)[1]
    for line in (
        "b.pals:29:42: Input_Adapter is ignored; PALS_Profile::Input_Adaptor is likely meant (misspelt-property)",
        "b.pals:38:2: Timing_Properties::Period is ignored; Period is likely meant (misspelt-property)",
        "b.pals:38:37: Deadline is ignored: it has no meaning here (ignored-property)",
    ):
        expect(line in text.split("\n"), True, text)
    text = explained(f"{design}%%%\n".encode(), "34:23 3 NoPeriod\n")[1]
    expect(text.find("Period is likely meant") in range(text.find("the root has no Period")), True,
           "the cause comes first")
    near = {"Perriod": "Period", "Initial_Value": "Data_Model::Initial_Value",
            "Pals_Profile::Skwe": "PALS_Profile::Skew",
            "PALS_Profil::Network": "PALS_Profile::Network", "Period": None, "Deadline": None, "Timng": "Timing"}
    expect({name: likely(name) for name in near}, near, "likely names")


def test_advice_has_no_marks_of_a_page():
    """Advice that is read from docs/checks.md names pages by their paths, and quotes a string once."""
    for key, text in advice().items():
        expect(re.findall(r"\*\*|`\"|\"`|`\w+\.md`|\]\(|^$", text), [], f"advice on {key}: {text}")
    expect('as "repeat" to the faster and "latest"' in advice()["findings", 9], True, "the advice on NoAdaptor")


def test_sentences_are_those_of_the_pages():
    """Each refusal that the pages name has its sentence, and no other has one; and so have the properties."""
    faults, findings = page("docs/checks.md").split("## Findings on the instance")
    numbers = [{int(number) for number in re.findall(r"(?m)^### (\d+) ", part)} for part in (faults, findings)]
    expect([set(sentences.FAULTS), set(sentences.FINDINGS)], numbers, "faults and findings of docs/checks.md")
    language = page("docs/language.md")
    named = set(re.findall(r"(?m)^\| `(\w+)` \| \d+ \|", language)) | {"NotUtf8", "NoDivider"}
    expect(set(sentences.TEXT_FAULTS), named, "faults of docs/language.md")
    named = set(re.findall(r"(?m)^\| `scenario (\w+)[^`]*` \| (?!`)", page("docs/scenario.md")))
    expect(set(sentences.SCENARIO_FAULTS), named, "faults of docs/scenario.md")
    named = set(re.findall(r"(?m)^\| `event N (\w+)", page("docs/nodes.md")))
    expect(set(sentences.EVENT_FAULTS), named, "faults of docs/nodes.md")
    rules = page("docs/traces.md").split("## The rules")[1].split("##")[0]
    expect(list(sentences.TRACE_RULES), re.findall(r"(?m)^\| `(\w+)` \|", rules), "rules of docs/traces.md")
    grammar = language.split("body    =")[1].split("```")[0]
    inside = set(re.findall(r'"([a-z]+)"', grammar)) | {"constant", "applies", "to", "reference", "classifier"}
    expect(set(ANNEX), inside, "keywords inside of annexes")
    grammar = language.split("package =")[1].split("body    =")[0]
    expect(set(DECLARATIONS), set(re.findall(r'"([a-z]+)"', '"package"' + grammar)), "keywords outside of annexes")
    rows = language.split("## Properties")[1].split("\n\n")[1]
    named = {name for row in rows.split("\n")[2:] for name in re.findall(r"`([\w:]+)`", row.split("|")[1])}
    expect(set(PLACES), named, "properties of docs/language.md")


def test_all_errors_of_a_text_are_shown():
    """After the error of the program there are the others: syntax errors, or names if the text can be read."""
    text = page("examples/two_counters.aadl")
    wrong = text.replace("out data port", "out dta port", 1).replace("Period => 9 ms;", "Period = 9 ms;")
    places = [place_of_text(wrong, needle) for needle in ("dta", "= 9 ms")]
    shown = explained(wrong.encode() + b"\n%%%\n{}", f"text {places[0]} Syntax")[1]
    expect(errors_in(shown), places, shown)
    named = text.replace("o!(x)", "o!(xx)", 1).replace("p: process Pair.impl", "p: process Par.impl")
    places = [place_of_text(named, needle) for needle in ("xx)", "Par.impl")]
    shown = explained(named.encode() + b"\n%%%\n{}", f"flat 2 Unknown xx {places[0]}")[1]
    expect(errors_in(shown), places, shown)
    alone = text.replace("thread Counter\n", "thread Cunter\n", 1).replace("end Counter;", "end Cunter;")
    place = place_of_text(alone, "thread implementation")
    shown = explained(alone.encode() + b"\n%%%\n{}", f"flat 4 WrongKind Counter.impl {place}")[1]
    expect(errors_in(shown), [place], f"nothing that follows from it: {shown}")


def place_of_text(text, needle):
    """The line and the column of a part of a text, as LINE:COLUMN."""
    offset = text.index(needle)
    return f"{text.count(chr(10), 0, offset) + 1}:{offset - text.rfind(chr(10), 0, offset)}"


def errors_in(shown):
    """The places of the errors that explain shows."""
    return [f"{it[1]}:{it[2]}" for it in re.finditer(r"(?m)^b\.pals:(\d+):(\d+): ", shown)]
