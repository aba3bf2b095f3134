"""An installation of the program, its tools and pages below a prefix."""

import hashlib
import os
import shutil
import subprocess

from ..explaining.page import TOP
from ..running.program import PALS, found_by_pals
from ..scenarios.bundles import Refused, read
from . import manual
from .version import VERSION

# Parts that need the sources of the program, or that are for its developers.
LEFT_OUT = ("tests", "test.py", "release", "promises", "surface", "crate_graph", "gate_cost", "fail_alloc",
            "big_bundles", "install", "__pycache__", "out")
FOLDERS = ("docs", "examples", "tools", "nodes")
FILES = ("pals", "LICENSE", "README.md", "CHANGELOG.md", "VERSION")
# The files that are made, each with the function that makes it of the options of commands and tools.
COMPLETIONS = {"share/bash-completion/completions/pals": manual.bash, "share/zsh/site-functions/_pals": manual.zsh,
               "share/fish/vendor_completions.d/pals.fish": manual.fish}
PAGE = "share/man/man1/pals.1"


class Installation:
    """The files of an installation. `root` is the folder of the files, `prefix` the folder that users see."""

    def __init__(self, prefix, root):
        self.prefix, self.root = prefix, root
        self.folder = os.path.join(root, "lib/pals")

    def write(self):
        """Writes all files; an older installation is replaced when the new one is complete."""
        if os.path.exists(self.folder) and not os.path.isfile(os.path.join(self.folder, "INSTALLED")):
            raise Refused(f"{self.folder} exists, and was not made by install")
        part = f"{self.folder}.{os.getpid()}"
        try:
            self.copy(part)
            self.write_programs(os.path.join(part, "program"))
            shutil.rmtree(self.folder, ignore_errors=True)
            os.rename(part, self.folder)
        finally:
            shutil.rmtree(part, ignore_errors=True)
        text = read(os.path.join(TOP, "docs/commands.txt")).decode()
        tools = manual.tools_in(os.path.join(self.folder, "tools"))
        self.put(PAGE, manual.manual(text, VERSION, tools))
        known = manual.options(text, tools)
        for path, make in COMPLETIONS.items():
            self.put(path, make(known))
        self.link()

    @staticmethod
    def copy(part):
        """Copies tools, pages and examples; everyone may read them."""
        for name in FOLDERS:
            shutil.copytree(os.path.join(TOP, name), os.path.join(part, name), ignore=shutil.ignore_patterns(*LEFT_OUT))
        for name in FILES:
            shutil.copy(os.path.join(TOP, name), os.path.join(part, name))
        with open(os.path.join(part, "INSTALLED"), "w", encoding="utf-8") as file:
            file.write(f"pals {VERSION}\n")
        for folder, _, names in os.walk(part):
            os.chmod(folder, 0o755)
            for name in names:
                path = os.path.join(folder, name)
                os.chmod(path, 0o755 if os.access(path, os.X_OK) else 0o644)

    @staticmethod
    def write_programs(folder):
        """Copies the programs, each with its record; the one that writes listings only if it is there."""
        os.makedirs(folder, exist_ok=True)
        for name, words in (("pals", ()), ("pals_code", ("code",))):
            try:
                data = read(found_by_pals(*words))
            except Refused:
                if name == "pals":
                    raise
                continue
            path = os.path.join(folder, name)
            for where, content, mode in ((path, data, 0o755), (f"{path}.record", record_of(data, words), 0o644)):
                with open(where, "wb") as file:
                    file.write(content)
                os.chmod(where, mode)
        os.chmod(folder, 0o755)

    def put(self, path, text):
        """Writes a file below the prefix."""
        whole = os.path.join(self.root, path)
        os.makedirs(os.path.dirname(whole), exist_ok=True)
        with open(whole, "w", encoding="utf-8") as file:
            file.write(text)
        os.chmod(whole, 0o644)

    def link(self):
        """Makes the link by which the program is started."""
        path = os.path.join(self.root, "bin/pals")
        os.makedirs(os.path.dirname(path), exist_ok=True)
        if os.path.lexists(path):
            if not os.path.islink(path):
                raise Refused(f"{path} exists, and was not made by install")
            os.remove(path)
        os.symlink("../lib/pals/pals", path)

    def remove(self):
        """Removes the files of an installation."""
        if not os.path.isfile(os.path.join(self.folder, "INSTALLED")):
            raise Refused(f"{self.folder} is not an installation")
        shutil.rmtree(self.folder)
        for path in ("bin/pals", PAGE, *COMPLETIONS):
            whole = os.path.join(self.root, path)
            if os.path.lexists(whole):
                os.remove(whole)


def record_of(data, words):
    """The record of a program: the sums of its sources and of its bytes, and the kit that proved it."""
    sources = told("--sources", *words)
    _, by, kit = told("--version", *words).partition(" by ")
    kit = f"kit {kit}\n" if by else ""
    return f"sources {sources}\n{kit}program {hashlib.sha256(data).hexdigest()}\n".encode()


def told(*words):
    """What ./pals writes."""
    return subprocess.run([PALS, *words], stdout=subprocess.PIPE, check=False).stdout.decode("utf-8", "replace").strip()
