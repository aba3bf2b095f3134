"""A language server for designs: the requests of an editor, and their results."""

import re
import subprocess

from ..explaining.all_errors import errors
from ..explaining.show import visible
from ..language.tree import Impl
from ..language.words import ANNEX, DECLARATIONS
from ..linting.rules import lint
from ..running.program import program_at
from ..scenarios.bundles import Refused
from .classifiers import Classifier
from .completing import completions
from .describing import described
from .edited import SYMBOLS, Edited
from .folding import foldings

ERROR, WARNING = 1, 2
NAME = re.compile("[A-Za-z][A-Za-z0-9_]{0,63}")
FULL_SYNC = 1
# Texts that are longer are read only for their syntax.
MOST_LINTED = 400_000
CAPABILITIES = {"textDocumentSync": FULL_SYNC, "definitionProvider": True, "hoverProvider": True,
                "completionProvider": {"triggerCharacters": [".", '"']}, "documentSymbolProvider": True,
                "documentFormattingProvider": True, "codeActionProvider": True, "referencesProvider": True,
                "renameProvider": {"prepareProvider": True}, "foldingRangeProvider": True}


class Stopped(Exception):
    """The editor has ended the server, with a status."""


class Server:
    """The open texts. `send` writes a message to the editor."""

    def __init__(self, send, version):
        self.send, self.version, self.texts, self.down = send, version, {}, False

    def answer(self, method, params):
        """The result of a request, or None; notifications have no result."""
        name = method.replace("/", "_").replace("$", "").replace("textDocument_", "").lower()
        work = getattr(self, f"on_{name}", None)
        return work(params) if work else None

    def knows(self, method):
        """Whether there is such a request."""
        name = method.replace("/", "_").replace("$", "").replace("textDocument_", "").lower()
        return hasattr(self, f"on_{name}")

    def on_initialize(self, _params):
        """What the server can do."""
        return {"capabilities": CAPABILITIES, "serverInfo": {"name": "pals", "version": self.version}}

    def on_shutdown(self, _params):
        """The editor is about to end the server."""
        self.down = True

    def on_exit(self, _params):
        """The end."""
        raise Stopped(0 if self.down else 1)

    def on_didopen(self, params):
        """A text is opened."""
        self.take(params["textDocument"]["uri"], params["textDocument"]["text"])

    def on_didchange(self, params):
        """A text is changed: the editor sends all of it."""
        self.take(params["textDocument"]["uri"], params["contentChanges"][-1]["text"])

    def on_didclose(self, params):
        """A text is closed."""
        uri = params["textDocument"]["uri"]
        self.texts.pop(uri, None)
        self.publish(uri, [])

    def take(self, uri, text):
        """Reads a text, and sends what is wrong with it."""
        self.texts[uri] = Edited(text)
        self.publish(uri, diagnostics(self.texts[uri]))

    def publish(self, uri, found):
        """Sends what is wrong with a text."""
        self.send({"method": "textDocument/publishDiagnostics", "params": {"uri": uri, "diagnostics": found}})

    def place(self, params):
        """The text and the byte that a request is about."""
        edited = self.texts[params["textDocument"]["uri"]]
        return edited, edited.offset(params["position"])

    def on_definition(self, params):
        """Where the name at a place is declared."""
        edited, offset = self.place(params)
        entry = edited.resolve(offset)
        return {"uri": params["textDocument"]["uri"], "range": named(edited, entry.name)} if entry else None

    def on_references(self, params):
        """The places of the name at a place, in this text."""
        edited, offset = self.place(params)
        uri = params["textDocument"]["uri"]
        return [{"uri": uri, "range": it} for it in places_of(edited, offset)]

    def on_preparerename(self, params):
        """The range of the name at a place, if it can be renamed."""
        edited, offset = self.place(params)
        number = edited.token_at(offset)
        if edited.faults or number is None or not places_of(edited, offset):
            return None
        return edited.range(edited.tokens[number].offset, len(edited.tokens[number].text))

    def on_rename(self, params):
        """The changes that give the name at a place another text."""
        edited, offset = self.place(params)
        name, found = params["newName"], places_of(edited, offset)
        if not found or edited.faults:
            raise Refused("only declared names of a readable text are renamed")
        if not NAME.fullmatch(name) or name.lower() in ANNEX | DECLARATIONS:
            raise Refused(f"`{name}` is not a name of the language")
        classifier = Classifier(edited, edited.token_at(offset))
        if classifier.places() is not None:
            if classifier.is_taken(name):
                raise Refused(f"there is a declaration of the name {name} already")
        elif edited.resolve(offset).name.text.lower() in edited.loops or name.lower() in edited.loops:
            raise Refused("a loop has a variable of this name")
        return {"changes": {params["textDocument"]["uri"]: [{"range": it, "newText": name} for it in found]}}

    def on_foldingrange(self, params):
        """The parts of a text that can be folded."""
        return foldings(self.texts[params["textDocument"]["uri"]])

    def on_hover(self, params):
        """What the name at a place is."""
        edited, offset = self.place(params)
        words = described(edited, offset)
        return {"contents": {"kind": "plaintext", "value": "\n".join(words)}} if words else None

    def on_completion(self, params):
        """What may be written at a place."""
        return completions(*self.place(params))

    def on_documentsymbol(self, params):
        """The declarations of a text."""
        edited = self.texts[params["textDocument"]["uri"]]
        everything = sorted([*edited.package.types, *edited.package.impls], key=lambda it: it.offset)
        return [outline(edited, it) for it in everything]

    def on_codeaction(self, params):
        """The fixes of the diagnostics in a range."""
        uri = params["textDocument"]["uri"]
        found = [it for it in params.get("context", {}).get("diagnostics", []) if (it.get("data") or {}).get("edits")]
        return [{"title": it["data"]["title"], "kind": "quickfix", "diagnostics": [it],
                 "edit": {"changes": {uri: it["data"]["edits"]}}} for it in found]

    def on_formatting(self, params):
        """The canonical text, by the program; a text with comments is not changed, since they would be lost."""
        edited = self.texts[params["textDocument"]["uri"]]
        text, why = canonical(edited)
        if why:
            self.send({"method": "window/showMessage", "params": {"type": WARNING, "message": why}})
            return None
        return [{"range": edited.range(0, len(edited.data)), "newText": text}]


def places_of(edited, offset):
    """The ranges of the name at a byte, its declaration included; none if it is not declared in the text."""
    numbers = Classifier(edited, edited.token_at(offset)).places()
    if numbers is not None:
        return [edited.range(edited.tokens[it].offset, len(edited.tokens[it].text)) for it in numbers]
    entry = edited.resolve(offset)
    return [edited.range(it, len(entry.name.text)) for it in edited.uses(entry)] if entry else []


def named(edited, name):
    """The range of a name."""
    return edited.range(name.offset, len(name.text.encode()))


def diagnostic(edited, place, severity, code, words, fix=None):
    """One diagnostic: its place is a byte and a number of bytes."""
    found = {"range": edited.range(*place), "severity": severity, "source": "pals", "code": code,
             "message": visible_lines(words)}
    if fix is None or any(not edited.data.startswith(it.old.encode(), it.offset) for it in fix.edits):
        return found
    edits = [{"range": edited.range(it.offset, len(it.old.encode())), "newText": it.new} for it in fix.edits]
    return {**found, "data": {"title": fix.title, "edits": edits}}


def visible_lines(words):
    """Sentences, one a line."""
    return "\n".join(visible(it) for it in words if it)


def diagnostics(edited):
    """What is wrong with a text: syntax errors, names, and for a text without these the findings of lint."""
    found = [diagnostic(edited, (it.offset, it.length), ERROR, it.rule, it.words, it.fix) for it in errors(edited)]
    if found or len(edited.data) > MOST_LINTED:
        return found
    model = edited.model()
    for it in lint(model) if model else []:
        length = len(it.about.encode()) if it.rule == "misspelt-property" else 1
        found.append(diagnostic(edited, (it.offset, length), WARNING, it.rule, [it.what, *it.more], it.fix))
    return found


def outline(edited, made):
    """A declaration with the names inside of it."""
    whole = edited.range(made.offset, made.end.offset + len(made.end.text.encode()) - made.offset)
    is_impl = isinstance(made, Impl)
    inside = edited.entries(made).values()
    inside = [it for it in inside if not (is_impl and it.kind == "port")]
    children = [{"name": it.name.text, "detail": it.words, "kind": it.symbol, "range": named(edited, it.name),
                 "selectionRange": named(edited, it.name)} for it in inside]
    return {"name": made.name.text, "detail": made.category, "kind": SYMBOLS["implementation"], "range": whole,
            "selectionRange": named(edited, made.name), "children": children}


def canonical(edited):
    """The canonical text of a design, or why it is not to be had."""
    if edited.faults:
        return "", "the text has syntax errors, and is not formatted"
    plain = b"".join(it.text for it in edited.tokens)
    if edited.data.count(b"--") > plain.count(b"--"):
        return "", "formatting would lose the comments of this text, and is not done"
    try:
        given = edited.data + b"\n%%%\n"
        ran = subprocess.run([program_at(), "print"], input=given, stdout=subprocess.PIPE, timeout=10, check=False)
    except (Refused, OSError, subprocess.TimeoutExpired) as why:
        return "", str(why)
    if ran.returncode:
        return "", "the program rejects the text, which is not formatted"
    return ran.stdout.decode("utf-8", "replace"), ""
