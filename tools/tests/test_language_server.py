"""The language server, by a client that speaks the protocol; and its reader on texts that are cut or changed."""

import glob
import json
import os
import random
import subprocess
import sys
import time

from lib.editing.completing import completions
from lib.editing.cursor import Fault
from lib.editing.describing import described
from lib.editing.edited import Edited
from lib.editing.folding import foldings
from lib.editing.language_server import Server, diagnostics, places_of
from lib.language.grammar import package_of
from lib.language.grammar import read as read_design_tree
from lib.language.recovering import read_all
from lib.scenarios.bundles import Refused, read
from tests.common import TOP, WITHIN, Skipped, built, expect, page
from tests.test_traps import LAW

URI = "file:///two.aadl"
TEXT = page("examples/two_counters.aadl")
DESIGNS = [it for it in sorted(glob.glob(f"{TOP}/examples/*.aadl")) if package_of(read(it))]
SLOWEST = 2.0


class Client:
    """A client of a server in a process of its own."""

    def __init__(self):
        words = [sys.executable, os.path.join(TOP, "tools/language_server")]
        self.process = subprocess.Popen(words, stdin=subprocess.PIPE, stdout=subprocess.PIPE, stderr=subprocess.PIPE)
        self.number = 0

    def __enter__(self):
        return self

    def __exit__(self, *_):
        self.process.kill()
        self.process.communicate()

    def write(self, data):
        """Writes the body of a message."""
        self.process.stdin.write(b"Content-Length: %d\r\n\r\n" % len(data) + data)
        self.process.stdin.flush()

    def notify(self, method, params):
        """Sends a notification."""
        self.write(json.dumps({"jsonrpc": "2.0", "method": method, "params": params}).encode())

    def read(self):
        """The next message of the server."""
        length = int(self.process.stdout.readline().split(b":")[1])
        self.process.stdout.readline()
        return json.loads(self.process.stdout.read(length))

    def ask(self, method, **params):
        """The answer to a request; the messages before it are passed over."""
        self.number += 1
        self.write(json.dumps({"jsonrpc": "2.0", "id": self.number, "method": method, "params": params}).encode())
        while True:
            found = self.read()
            if found.get("id") == self.number:
                return found

    def change(self, text):
        """Changes the text, and gives the diagnostics."""
        self.notify("textDocument/didChange", {"textDocument": {"uri": URI}, "contentChanges": [{"text": text}]})
        return self.read()["params"]["diagnostics"]

    def at(self, method, text, needle, more=0, **others):
        """Asks something at a place of a text."""
        offset = text.index(needle) + more
        position = {"line": text.count("\n", 0, offset), "character": offset - text.rfind("\n", 0, offset) - 1}
        return self.ask(f"textDocument/{method}", textDocument={"uri": URI}, position=position, **others).get("result")


def opened(client, text):
    """Opens a text; gives its diagnostics."""
    client.ask("initialize", capabilities={})
    client.notify("initialized", {})
    client.notify("textDocument/didOpen", {"textDocument": {"uri": URI, "text": text}})
    return client.read()["params"]["diagnostics"]


def test_a_session():
    """Diagnostics with a fix, definition, description, completion, outline, and an orderly end."""
    wrong = TEXT.replace("o!(x)", "o!(xx)", 1)
    with Client() as client:
        found = opened(client, wrong)
        told = [(it["message"].split("\n")[0], it["severity"]) for it in found]
        expect(told, [("unknown variable or port xx", 1)], "diagnostics")
        fix = client.ask("textDocument/codeAction", textDocument={"uri": URI}, range=found[0]["range"],
                         context={"diagnostics": found})["result"][0]
        expect(fix["edit"]["changes"][URI], [{"range": found[0]["range"], "newText": "x"}], "the fix")
        expect(client.change(TEXT), [], "no fault")
        place = client.at("definition", TEXT, "x + i")
        line = TEXT.split("\n")[place["range"]["start"]["line"]]
        expect(line[place["range"]["start"]["character"] :].startswith("x: Base_Types::Integer"), True, line)
        expect("variable" in client.at("hover", TEXT, "x + i")["contents"]["value"], True, "description")
        labels = [it["label"] for it in client.at("completion", TEXT, "x + i")]
        expect("x" in labels and "abs" in labels and "thread" not in labels, True, str(labels))
        outline = client.ask("textDocument/documentSymbol", textDocument={"uri": URI})["result"]
        tree = package_of(TEXT.encode())
        expect({it["name"] for it in outline}, {it.name.text for it in [*tree.types, *tree.impls]}, "outline")
        uses = client.at("references", TEXT, "x + i")
        expect([it["range"]["start"]["line"] for it in uses], [14, 18, 18, 18], "references of x")
        renamed = client.at("rename", TEXT, "i: in", newName="given")["changes"][URI]
        lines = [TEXT.split("\n")[it["range"]["start"]["line"]] for it in renamed]
        wanted = [line for line in TEXT.split("\n") for _ in range(line.count("i: in") - line.count("i: ini")
                  + line.count("+ i ") + line.count(".i "))]
        expect(lines, wanted, "a port is renamed in behaviours and connections")
        for name in ("end", "2x", ""):
            expect(client.at("rename", TEXT, "i: in", newName=name), None, f"the name {name}")
        expect(client.ask("textDocument/moniker")["error"]["code"], -32601, "an unknown method")
        expect(client.ask("textDocument/hover")["error"]["code"], -32603, "a request without its fields")
        client.write(b"{")
        expect(client.read()["error"]["code"], -32700, "no JSON")
        expect(client.ask("shutdown")["result"], None, "shutdown")
        client.notify("exit", {})
        expect((client.process.wait(WITHIN), client.process.stderr.read()), (0, b""), "the end")


def test_all_errors_in_one_run():
    """Three syntax errors are three diagnostics, each at its token; a trap that lint finds is a warning."""
    wrong = TEXT.replace("out data port", "out dta port", 1).replace("Period => 9 ms;", "Period = 9 ms;")
    wrong = wrong.replace("{x := x + i + 1; ", "{x := x + ; ", 1)
    lines = wrong.split("\n")
    wanted = [next(at for at, line in enumerate(lines) if word in line) for word in ("dta", "x + ;", "Period = ")]
    found = [it["range"]["start"]["line"] for it in diagnostics(Edited(wrong)) if it["code"] == "Syntax"]
    expect(found, wanted, "lines of the errors")
    design = LAW.partition("%%%\n")[0]
    expect([(it["code"], it["severity"]) for it in diagnostics(Edited(design))], [("zero-divisor", 2)], "a warning")
    mixed = design.replace("last := total / count", "last := 1; if (a or b and a) last := 2 end if").replace(
        "variables last", "variables a, b: Base_Types::Boolean; last")
    edits = next(it["data"]["edits"] for it in diagnostics(Edited(mixed)) if it["code"] == "mixed-operators")
    expect([it["newText"] for it in edits], ["(", ")"], "edits of a warning")
    characters = Edited('-- \U0001f600 x\n').position(len('-- \U0001f600'.encode()))
    expect(characters, {"line": 0, "character": 5}, "characters of UTF-16")


TURN = page("examples/turn_controller.aadl")


def test_types_are_renamed():
    """The name of a type or an implementation changes at all its places, and at no other name of the same letters."""
    server = Server([].append, "0")
    server.take(URI, TURN.replace(" l: thread Surface.impl", " surface: thread Surface.impl"))
    edited = server.texts[URI]

    def renamed(needle, more, name):
        params = {"textDocument": {"uri": URI}, "position": edited.position(edited.text.index(needle) + more)}
        expect(server.on_preparerename(params)["start"], edited.position(edited.text.index(needle) + more), needle)
        edits = server.on_rename({**params, "newName": name})["changes"][URI]
        return [it["range"]["start"]["line"] + 1 for it in edits]

    expect(renamed("Surface features", 0, "Fin"), [19, 23, 24, 33, 38, 39, 40], "a type")
    expect(renamed("Surface.impl {Period => 5", 0, "Fin"), [19, 23, 24, 33, 38, 39, 40], "a type in an implementation")
    expect(renamed("Main.impl annex", 5, "plain"), [13, 18, 37], "an implementation of one type")
    for name in ("main", "end", "a.b"):
        try:
            renamed("Surface features", 0, name)
        except Refused:
            continue
        expect(name, "an error", "a name that is taken or not allowed")


def test_adaptors_fit_the_rates():
    """In the string of an adaptor the adaptors that the rates allow are offered, also while the string is open."""
    numbers = ["first", "last", "latest", "max", "min", "average"]
    for name, wanted in (("c3", ["repeat", "first", "last", *(f"at {at}" for at in range(1, 5))]),
                         ("c5", [*numbers, "at 1", "at 2"]), ("c6", [*numbers, *(f"at {at}" for at in range(1, 5))])):
        begin = TURN.index('"', TURN.index(f" {name}: port")) + 1
        for text in (TURN, TURN[:begin] + TURN[TURN.index("\n", begin) :]):
            found = [it["label"] for it in completions(Edited(text), begin)]
            expect(found, wanted, f"adaptors of {name}")
    empty = 'PALS_Profile::Input_Adaptor => "";'
    equal = TURN.replace("l.target {Timing => Delayed;", "l.target {Timing => Delayed; " + empty)
    expect(completions(Edited(equal), equal.index('""') + 1), [], "equal rates")


def test_the_minimum_period_is_described():
    """It is shown at the period of the root and at the root's name: the example of docs/bound.md."""
    for needle in ("Period => 20", "Top.impl\n"):
        found = described(Edited(TURN), TURN.index(needle) + (4 if needle.startswith("Top") else 0))
        expect("minimum period by the bound: 12 ms" in found, True, f"{needle} {found}")
    expect("12 ms" in " ".join(described(Edited(TURN), TURN.index("Period => 10"))), False, "the period of a thread")
    odd = TURN.replace("{Period => 10 ms;}", "{Period => 7 ms;}").replace("Period => 20 ms", "Period => 63 ms")
    odd = odd.replace("m: thread Main.impl", "m: thread Main.impl {Period => 9 ms;}").replace("{Period => 5 ms;}", "")
    found = described(Edited(odd), odd.index("Period => 63"))[-1]
    wanted = "minimum period by the bound: 27 ms; the shortest one that every rate divides: 27.000036 ms"
    expect(found, wanted, "rates 7 and 9")


def test_parts_are_folded():
    """Declarations, sections and comments, by the lines of the example; an unfinished text has its complete parts."""
    lines = [(it["startLine"] + 1, it["endLine"] + 1) for it in foldings(Edited(TURN))]
    expect(lines, [(1, 2), (5, 12), (13, 18), (19, 23), (24, 33), (27, 31), (35, 49), (36, 40), (41, 48), (51, 57),
                   (54, 56)], "parts")
    cut = TURN[: TURN.index("process implementation")]
    expect(len(foldings(Edited(cut))), 6, "parts of a text without an end")


def test_answers_are_quick():
    """On a text of 300 lines each answer takes less than a tenth of a second of the processor."""
    kind = TURN[TURN.index("thread Surface") : TURN.index("process Plane")]
    text = TURN.replace("process Plane features", "".join(kind.replace("Surface", f"Fin{at}") for at in range(17))
                        + "process Plane features")
    expect(text.count("\n") > 300, True, "lines")
    middle = text.index("Fin8.impl annex")
    for name, work in (("diagnostics", diagnostics), ("completion", lambda it: completions(it, middle)),
                       ("hover", lambda it: described(it, middle)), ("folding", foldings),
                       ("adaptors", lambda it: completions(it, text.index('"repeat') + 1))):
        took = []
        for _ in range(3):
            begun = time.process_time()
            work(Edited(text))
            took.append(time.process_time() - begun)
        expect(min(took) < 0.1, True, f"{name}: {min(took):.3f} s")


def test_readable_texts_have_their_tree():
    """On the examples the reader that recovers has no error and the tree of the grammar; else its first error."""
    for path in DESIGNS:
        data = read(path)
        package, _, faults = read_all(data)
        tree = package_of(data)
        expect((faults, package.types, package.impls), ([], tree.types, tree.impls), path)
        for end in range(0, len(data), 97):
            try:
                read_design_tree(data[:end])
                first = None
            except Fault as fault:
                first = fault.number
            _, tokens, faults = read_all(data[:end])
            expect([it for it, _ in faults][:1], [] if first is None else [tokens[first]], f"{path} {end}")


def test_cut_and_changed_texts():
    """Each prefix of the examples through the protocol, and changed texts: an answer, and none takes long."""
    step, count = (1, 10_000) if "--more" in sys.argv else (53, 150)
    with Client() as client:
        opened(client, "")
        for path in DESIGNS:
            text = read(path).decode()
            for end in range(0, len(text), step):
                begun = time.monotonic()
                client.change(text[:end])
                expect(time.monotonic() - begun < SLOWEST, True, f"{path} {end}")
        expect(client.ask("shutdown")["result"], None, "shutdown")
        client.notify("exit", {})
        expect((client.process.wait(WITHIN), client.process.stderr.read()), (0, b""), "no traceback")
    chance, texts = random.Random("changes"), [read(it).decode() for it in DESIGNS]
    for _ in range(count):
        text = list(chance.choice(texts))
        for _ in range(chance.randint(1, 4)):
            at = chance.randrange(len(text))
            text[at : at + chance.randint(0, 9)] = chance.choice(["", ";", "end", "{", "**}", '"', "x.y", "->", "\x00"])
        begun, edited = time.process_time(), Edited("".join(text))
        at = chance.randrange(len(edited.data) + 1)
        diagnostics(edited)
        completions(edited, at)
        described(edited, at)
        places_of(edited, at)
        foldings(edited)
        expect(time.process_time() - begun < 1, True, "".join(text))


def test_formatting():
    """A text is formatted by the program; one with comments is not, and the editor is informed."""
    built()
    sent = []
    server = Server(sent.append, "0")
    params = {"textDocument": {"uri": URI}}
    server.take(URI, "-- a comment\n" + TEXT)
    expect((server.on_formatting(params), "comments" in sent[-1]["params"]["message"]), (None, True), "comments")
    plain = "\n".join(line.partition("--")[0] for line in TEXT.split("\n"))
    server.take(URI, plain.replace(";", " ;"))
    edits = server.on_formatting(params)
    if edits is None:
        raise Skipped(sent[-1]["params"]["message"])
    expect(package_of(edits[0]["newText"].encode()) is not None and " ;" not in edits[0]["newText"], True, "the text")
