"""Runs the program on a design and a scenario in files, and explains its answer."""

import contextlib
import os
import subprocess
import sys

from ..commands.command import Misused
from ..explaining.formats import explained_as
from ..explaining.outputs import explain
from ..explaining.page import TOP
from ..language.model import declared_in
from ..language.names import choice
from ..scenarios.bundles import Refused, bundle_of

ENDINGS = (".aadl", ".json", ".pals")


def is_file(word):
    """Whether a word of a command line is a file, and no word of the program."""
    return word.endswith(ENDINGS) or "/" in word


class Asked:
    """What is asked of the program: its words, and the files of the bundle."""

    def __init__(self, words):
        self.files = [word for word in words if is_file(word)]
        self.words = [word for word in words if not is_file(word)]
        if len(self.files) == 2 and self.files[0].endswith(".json"):
            self.files.reverse()
        if not self.words or len(self.files) not in (1, 2):
            raise Misused("expected a command, and one or two files")
        self.bundle = bundle_of(*self.files)
        self.add_root()

    def add_root(self):
        """Adds the root where the words have none: the one system implementation that no other one contains."""
        options = [word for word in self.words if word.startswith("--")]
        if self.words[0] == "print" or len(self.words) > 1 + len(options):
            return
        declared = declared_in(self.bundle.design)
        roots = [impl.name.text for impl in declared.roots()] if declared else []
        if len(roots) > 1:
            raise Refused(f"which root is meant? Say ./pals {self.words[0]} ROOT .. with {choice(roots)}")
        # For a rejected text, or one without a system, the program reports this whatever the root.
        self.words.append(roots[0] if roots else "Root.impl")

    def data(self):
        """The bytes that the program reads."""
        data = self.bundle.data
        whole = self.bundle.has_divider or len(self.files) == 2 or not self.files[0].endswith(".aadl")
        if whole:
            return data
        return data + (b"" if data.endswith(b"\n") else b"\n") + b"%%%\n"

    def run(self):
        """The status and the bytes of the program."""
        try:
            ran = subprocess.run([os.path.join(TOP, "pals"), *self.words], input=self.data(), stdout=subprocess.PIPE,
                                 check=False)
        except OSError as error:
            raise Refused(f"./pals: {error.strerror}") from error
        return (ran.returncode if ran.returncode >= 0 else 128 - ran.returncode), ran.stdout

    @property
    def command(self):
        """The command, with --loose if it is that of `world`."""
        return " ".join(word for word in self.words[:2] if word == self.words[0] or word == "--loose")

    def explain(self, text, strict):
        """Writes the remarks on an answer to standard error, and gives the status of `explain`."""
        with contextlib.redirect_stdout(sys.stderr):
            return explain(self.bundle, text.decode("utf-8", "replace"), self.command, passes=False, strict=strict)


def on_terminal():
    """Whether to write remarks: if standard error is a terminal."""
    return sys.stderr is not None and sys.stderr.isatty()


def ask(words, explains, strict=False):
    """Runs the program, writes its bytes, explains them if requested, and returns its status. With `strict` the status
    is 1 instead of 0 if a component halts."""
    asked = Asked(words)
    status, text = asked.run()
    sys.stdout.buffer.write(text)
    sys.stdout.flush()
    if explains:
        try:
            explained = asked.explain(text, strict)
            status = explained if strict and not status else status
        except Refused as why:
            print(f"pals: {why}", file=sys.stderr)
    return status


def ask_as(form, words, strict):
    """Runs the program, writes what `explain` remarks on its answer in a format, and gives the status."""
    asked = Asked(words)
    status, text = asked.run()
    written, explained = explained_as(form, asked.bundle, text.decode("utf-8", "replace"), asked.command, strict)
    sys.stdout.write(written)
    return explained if strict and not status else status
