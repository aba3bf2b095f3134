"""AADL as people have it, and what editors know of the language."""

import json
import os
import random
import re
import tempfile

from lib.language import words
from lib.language.model import Model, declared_in
from lib.language.properties import PLACES
from lib.scenarios.bundles import join, read
from tests.common import EXAMPLES, HERE, TOP, built, examples, expect, tool
from tests.test_scenarios import answered

OSATE = [os.path.join(HERE, "tests", "osate", name) for name in ("Vehicle_Types.aadl", "Vehicle.aadl")]
EDITORS = os.path.join(HERE, "editors")
# The messages on the two packages: the file, the line, and words of it.
TOLD = [
    ("Vehicle_Types", 2, "the property set Vehicle_Properties is omitted"),
    ("Vehicle_Types", 12, "the type Speed is Base_Types::Integer_32, and becomes Base_Types::Integer"),
    ("Vehicle_Types", 40, "net is not a data port (bus access)"),
    ("Vehicle_Types", 42, "the flows of Wheel_Sensor are omitted"),
    ("Vehicle", 9, "wanted is an event data port, and is taken as a data port"),
    ("Vehicle", 11, "the type of view, Vehicle_Types::Picture, is not in the language"),
    ("Vehicle", 12, "alarm is not a data port (event port)"),
    ("Vehicle", 30, "the property Priority of Cruise.gentle has no meaning here"),
    ("Vehicle", 66, "is given PALS_Profile::Execution, 0 ms to 2 ms"),
    ("Vehicle", 66, "has no PALS_Profile::Network"),
    ("Vehicle", 69, "wheel is a device"),
    ("Vehicle", 71, "the processor cpu is omitted"),
    ("Vehicle", 72, "the bus can is omitted"),
    ("Vehicle", 75, "the Timing of s is omitted"),
    ("Vehicle", 77, "the connection b1 does not join ports"),
    ("Vehicle", 80, "the flows of Car.impl are omitted"),
    ("Vehicle", 82, "the modes of Car.impl are omitted"),
    ("Vehicle", 86, "Actual_Connection_Binding"),
]


def imported(*texts, root=None):
    """The design and the scenario of some texts, with the messages and the status."""
    with tempfile.TemporaryDirectory() as folder:
        paths = []
        for number, text in enumerate(texts):
            paths.append(os.path.join(folder, f"{number}.aadl"))
            with open(paths[-1], "wb") as file:
                file.write(text if isinstance(text, bytes) else text.encode())
        made = os.path.join(folder, "s.json")
        named = ["--root", root] if root else []
        status, text, said = tool("import", *named, "--scenario", made, *paths)
        scenario = json.loads(read(made)) if os.path.isfile(made) else None
    return status, text, said, scenario


def test_packages_are_imported_at_once():
    """Two packages with everything that people write: the resulting design, and one list of the dropped parts."""
    status, text, said, scenario = imported(*map(read, OSATE))
    expect(status, 1, said)
    for name, line, what in TOLD:
        number = ("Vehicle_Types", "Vehicle").index(name)
        found = [it for it in said.split("\n") if f"{number}.aadl:{line}:" in it and what in it]
        expect(len(found), 1, f"{what} of {name}:{line} in\n{said}")
    model = Model(declared_in(text), declared_in(text).roots()[0])
    expect(model.threads, ["control.filter", "control.cruise"], "threads")
    expect([model.rate(it) for it in model.by_path.values()], [2, 1], "rates, of which one is applied from above")
    expect(sorted(it.name.text for it in model.root_ports("in")), ["wanted", "wheel_speed"], "inputs")
    expect([it.name.text for it in model.root_ports("out")], ["engine_throttle"], "outputs")
    expect(model.came_from("control.cruise.speed").adaptor, "last", "an adaptor that is applied to a connection")
    expect(b"Picture" in text or b"alarm" in text, False, "what is dropped")
    expect(scenario["processors"]["cpu"]["components"], ["control.filter", "control.cruise"], "a binding")


def test_imported_designs_are_accepted():
    """With the bound that is reported as missing the program accepts the imported design, and prints a timetable."""
    _, text, _, scenario = imported(*map(read, OSATE))
    text = text.replace(b"  PALS_Profile::Skew", b"  PALS_Profile::Network => 1 ms .. 4 ms;\n  PALS_Profile::Skew")
    given = json.dumps(scenario).encode()
    status, report = answered(["check", "Car.impl"], text, given)
    expect((status, report.startswith("accepted\n")), (0, True), report)
    expect(answered(["budget", "Car.impl"], text, given)[0], 0, "the timetable")


MODAL = """package A public
thread T features
 i: in data port Base_Types::Unsigned_8; o: out data port Base_Types::Integer_64;
properties Dispatch_Protocol => Periodic;
end T;
thread implementation T.i
end T.i;
process P end P;
process implementation P.i
subcomponents
 a: thread T.i;
 b: thread T.i {Period => 5 ms;} in modes (m);
connections
 c: port a.o -> b.i {Timing => Delayed;};
 d: port b.o -> a.i {Timing => Delayed in modes (m);} in modes (m);
properties
 Period => 10 ms in modes (m);
end P.i;
system S end S;
system implementation S.i
subcomponents p: process P.i;
properties Period => 10 ms; PALS_Profile::Skew => 1 ms; PALS_Profile::Execution => 0 ms .. 1 ms;
 PALS_Profile::Network => 0 ms .. 1 ms;
end S.i;
end A;
"""


def test_modes_narrow_types_and_missing_adaptors():
    """Modes and the limits of types are dropped, and connections of different rates get adaptors: each is reported."""
    status, text, said, _ = imported(MODAL)
    told = [(int(line), what) for line, what in re.findall(r"(?m)^\S+\.aadl:(\d+):\d+: (.*)$", said)]
    expect((status, told), (1, [
        (3, "the type of i is Base_Types::Unsigned_8, and becomes Base_Types::Integer, which has 64 bits"),
        (12, "b is only in some modes, and is taken in all of them"),
        (14, 'the connection c joins the rates 1 and 2 at p.b.i, and is given the adaptor "repeat"'),
        (15, "the connection d is only in some modes, and is taken in all of them"),
        (15, 'the connection d joins the rates 2 and 1 at p.a.i, and is given the adaptor "latest"'),
        (17, "the property Period is only in some modes, and is taken in all of them")]), said)
    model = Model(declared_in(text), declared_in(text).roots()[0])
    expect([model.came_from(f"p.{it}.i").adaptor for it in "ab"], ["latest", "repeat"], "adaptors")


def test_own_designs_stay_as_they_are():
    """A design in the language is imported whole: check's output for it is the same."""
    for name in sorted(os.listdir(EXAMPLES)):
        if not name.endswith(".aadl") or name == "PALS_Profile.aadl":
            continue
        design = read(os.path.join(EXAMPLES, name))
        root = declared_in(design).roots()[0].name.text
        status, text, said, _ = imported(design, root=root)
        expect(status, 0, f"{name}: {said}")
        found = [Model(declared_in(it), next(one for one in declared_in(it).systems() if one.name.text == root))
                 for it in (design, text)]
        expect(found[1].threads, found[0].threads, f"threads of {name}")
        expect(found[1].links(), found[0].links(), f"links of {name}")
        expect(found[1].bounds, found[0].bounds, f"bounds of {name}")


def test_checked_alike():
    """The program's report of a design and of its import is the same."""
    built()
    for row in examples():
        if not row[1].endswith(".aadl"):
            continue
        design = read(os.path.join(TOP, row[1]))
        root = declared_in(design).roots()[0].name.text
        reports = [answered(["check", root], it, b"{}") for it in (design, imported(design, root=root)[1])]
        plain = [(status, re.sub(r"(?m)^ignored .*\n", "", text)) for status, text in reports]
        expect(plain[1], plain[0], row[1])


def test_nothing_stumbles():
    """Texts that are cut and changed are imported, or refused at a place."""
    chance, texts = random.Random(3), [read(path).decode() for path in OSATE]
    for _ in range(150):
        parts = re.findall(r"\w+|\s+|[^\w\s]+", "".join(texts))
        for _ in range(chance.randrange(1, 4)):
            at = chance.randrange(len(parts))
            parts[at : at + chance.randrange(2)] = [chance.choice([*parts[:200], "end", ";", "{", "\x1b", "->", ""])]
        status, text, said, _ = imported("".join(parts))
        expect(status in (0, 1), True, said)
        expect("\x1b" in said, False, said)
        expect(bool(text) or said.count("\n") == 1, True, said)
    loop = "package A public system S end S; system implementation S.i subcomponents s: system S.i; t: thread T.i;"
    text = f"{loop} end S.i; thread T end T; thread implementation T.i end T.i; end A;"
    status, _, said, _ = imported(text, root="S.i")
    expect((status, "has itself inside" in said), (1, True), said)
    text = text.replace("s: system S.i;", "")
    expect("which root is meant" in imported(text, text.replace(" A", " B"))[2], True, "two roots")


def test_editors_know_the_language():
    """The editors' grammars have the keywords and the properties of the language, and their matchers find places."""
    vscode = json.loads(read(os.path.join(EDITORS, "vscode", "package.json")))
    pattern = vscode["contributes"]["problemMatchers"][0]["pattern"]
    found = re.match(pattern["regexp"], "/a b/two.pals:38:2: the period, 8 ms, is below the least")
    expect(found.groups(), ("/a b/two.pals", "38", "2", "the period, 8 ms, is below the least"), "a matcher")
    expect(re.match(pattern["regexp"], "    take 9 ms or more: 1:2: 3"), None, "no place")
    for path in ("vscode/syntaxes/aadl.tmLanguage.json", "vim/syntax/aadl.vim"):
        text = read(os.path.join(EDITORS, path)).decode()
        there = {word.lower() for word in re.findall(r"[A-Za-z_]+", text)}
        wanted = set(words.ANNEX) | set(words.DECLARATIONS) | {name.lower().rpartition("::")[2] for name in PLACES}
        expect(sorted(wanted - there), [], f"words that {path} lacks")
    grammar = json.loads(read(os.path.join(EDITORS, "vscode", "syntaxes", "aadl.tmLanguage.json")))
    for shape in re.findall(r'"(?:match|begin|end)": "((?:[^"\\]|\\.)*)"', json.dumps(grammar)):
        re.compile(json.loads(f'"{shape}"'))
    expect(join("a", b"x\n", b"{}").split(b"\n")[1], b"%%%", "the divider of bundles")
