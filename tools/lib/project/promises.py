"""The promises of the program: one data file, the page that is made of it, and what is wrong with its references."""

import glob
import json
import os
import re
import textwrap
from collections import Counter

from ..explaining.page import TOP
from ..scenarios.bundles import Refused, read

DATA, PAGE = "docs/promises.json", "docs/promises.md"
FIELDS = ("id", "requirement", "definitions", "clauses", "crates", "tests", "edits", "page")
LISTS = ("definitions", "clauses", "crates", "tests", "edits")
# How the page names one and several items of each list.
TITLES = {"definitions": ("Definition", "Definitions"), "clauses": ("Clause or law", "Clauses and laws"),
          "crates": ("Crate", "Crates"), "tests": ("Test", "Tests"), "edits": ("Mutant", "Mutants")}
HEAD = """# Promises

Reference, for an assessor who traces each requirement to its definition, proof and tests. [Assurance](assurance.md)
explains the promises, with their premises and limits; this page has the names. `tools/promises` makes it from
`promises.json`, and `tools/test.py promises` checks that each name exists.

A **clause** is a part of the contract of a function, or a definition that a contract names. A **law** is a function
whose contract is the statement. Both are proved. A **mutant** is an edit that the prover has to reject. Files are in
`crates/` unless their path begins with `tools/`.
"""


def promises(top=TOP):
    """The promises of the data file."""
    try:
        found = json.loads(read(os.path.join(top, DATA)))
    except ValueError as why:
        raise Refused(f"{DATA}: {why}") from why
    if not isinstance(found, list):
        raise Refused(f"{DATA}: expected a list of promises")
    for number, it in enumerate(found, 1):
        if not isinstance(it, dict) or tuple(it) != FIELDS:
            raise Refused(f"{DATA}: promise {number} needs the fields {', '.join(FIELDS)}, in this order")
        strings = [it["id"], it["requirement"], it["page"]]
        if not all(isinstance(part, list) for part in map(it.get, LISTS)):
            raise Refused(f"{DATA}: promise {number}: {', '.join(LISTS)} are lists")
        if not all(isinstance(word, str) for word in strings + [word for name in LISTS for word in it[name]]):
            raise Refused(f"{DATA}: promise {number} has a value that is not a string")
    return found


def page_of(found):
    """The text of the page."""
    parts = [HEAD]
    for it in found:
        parts.append(f"\n## {it['id']}\n\n{wrapped(it['requirement'] + '.')}\n\n")
        for name in LISTS:
            if it[name]:
                words = ", ".join(shown(name, word) for word in it[name])
                parts.append(f"{wrapped(f'- {TITLES[name][len(it[name]) > 1]}: {words}', '  ')}\n")
        page = os.path.basename(it["page"])
        parts.append(f"- Page: [{page}]({page})\n")
    return "".join(parts)


def wrapped(text, indent=""):
    """A text in lines of at most 120 letters."""
    return textwrap.fill(text, 120, subsequent_indent=indent, break_long_words=False, break_on_hyphens=False)


def shown(kind, word):
    """One reference as the page shows it."""
    path, _, name = word.partition(" ")
    if kind == "edits":
        crate, _, body = path.partition("/")
        return f"`{body}` of `{crate}`"
    path = path[len("crates/"):] if path.startswith("crates/") else path
    return f"`{name}` (`{path}`)" if name else f"`{path}`"


def wrong_with(it, top=TOP):
    """What is wrong with the references of a promise."""
    found = [f"{it['id']} has no {name}" for name in ("definitions", "clauses", "crates", "tests") if not it[name]]
    for word in it["definitions"] + it["clauses"]:
        found += wrong_name(top, f"crates/{word}")
    for word in it["tests"]:
        found += wrong_name(top, word)
    for crate in it["crates"]:
        if not os.path.isdir(os.path.join(top, "crates", crate, "src")):
            found.append(f"{it['id']}: there is no crate {crate}")
    for word in it["edits"]:
        crate, _, body = word.partition("/")
        if not os.path.isfile(os.path.join(top, "crates", crate, "must-fail", f"{body}.edit")):
            found.append(f"{it['id']}: there is no edit {word}")
    if not os.path.isfile(os.path.join(top, it["page"])):
        found.append(f"{it['id']}: there is no page {it['page']}")
    return found


def wrong_name(top, word):
    """What is wrong with a reference PATH or PATH NAME: no such file or folder, or no definition of the name in it."""
    path, _, name = word.partition(" ")
    whole = os.path.join(top, path)
    if not os.path.exists(whole):
        return [f"there is no file {path}"]
    files = sorted(glob.glob(f"{whole}/**/*.rt", recursive=True)) if os.path.isdir(whole) else [whole]
    if name and not any(defines(it, read(it).decode("utf-8", "replace"), name) for it in files):
        return [f"{path} defines no {name}"]
    return []


def defines(path, text, name):
    """Whether a file defines a name: a function, a clause, a definition or a field of one."""
    forms = {".py": rf"^def {name}\(", ".rt": rf"\bfn {name}\b|\bensures {name} {{",
             ".antt": rf"^ *(?:\w+ )?pub (?:record |data )?{name}\b"}
    form = forms.get(os.path.splitext(path)[1], rf"\b{re.escape(name)}\b")
    return re.search(form, text, re.MULTILINE) is not None


def all_wrong(found, top=TOP):
    """What is wrong with all promises: their references, and identifiers that two have."""
    twice = [name for name, count in Counter(it["id"] for it in found).items() if count > 1]
    return [f"two promises have the id {name}" for name in twice] + [why for it in found for why in wrong_with(it, top)]
