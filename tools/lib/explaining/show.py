"""Remarks on a bundle: a position, a message, the line with a caret, and further lines."""

import contextlib
import re
from collections import namedtuple

# One remark: its file, line and column from 1, the column also in letters, its rule and level, its sentences, and the
# title and the replacements of its fix, if it has one.
Remark = namedtuple("Remark", "path line column letter rule level what more fix")
# A replacement within a line: the line, the first letter and the letter after the last one, both from 1, and the text.
Replacement = namedtuple("Replacement", "line letter end text")
# The list that collects remarks instead of writing them, or None.
COLLECTED = []

# How many bytes of a line are shown.
MOST_SHOWN = 160
# Characters that a terminal would interpret, and characters that change the direction of writing; tabs are allowed.
CONTROL = re.compile("[\x00-\x08\x0a-\x1f\x7f-\x9f\u200b-\u200f\u2028-\u202e\u2060-\u2069\ufeff]")


def visible(text):
    """A text in which no character means anything to a terminal."""
    return CONTROL.sub(lambda it: f"\\x{ord(it[0]):02x}" if ord(it[0]) < 256 else f"\\u{ord(it[0]):04x}", text)


@contextlib.contextmanager
def collecting():
    """Collects the remarks of some work in a list, instead of writing them."""
    found = []
    COLLECTED.append(found)
    try:
        yield found
    finally:
        COLLECTED.pop()


def show(bundle, place, what, *more, rule="", level="error", fix=None):
    """Writes one remark."""
    line, column = place
    path, number = bundle.file_and_line(line)
    if COLLECTED:
        letter, told = letter_at(bundle, line, column), [it for it in more if it]
        COLLECTED[-1].append(Remark(path, number, column, letter, rule, level, what, told, fix))
        return
    print(visible(f"{path}:{number}:{column}: {what}"))
    text = bundle.line(line)
    if text:
        start = max(column - MOST_SHOWN // 2, 0) if len(text) > MOST_SHOWN else 0
        before = visible(text[start : column - 1].decode("utf-8", "replace"))
        print(f"    {visible(text[start : start + MOST_SHOWN].decode('utf-8', 'replace'))}")
        print("    " + re.sub(r"[^\t]", " ", before) + "^")
    for it in more:
        if it:
            print(visible(f"    {it}"))


def letter_at(bundle, line, column):
    """The number of a column of bytes in letters, both from 1."""
    return len(bundle.line(line)[: column - 1].decode("utf-8", "replace")) + 1


def fix_in(bundle, fix):
    """The title of a fix and its replacements in the file; None if the text there is written in another way."""
    found = []
    for offset, old, new in fix.edits if fix else ():
        line, column = bundle.place(offset)
        length = len(old.encode())
        if bundle.data[offset : offset + length] != old.encode():
            return None
        letters = letter_at(bundle, line, column), letter_at(bundle, line, column + length)
        found.append(Replacement(bundle.file_and_line(line)[1], *letters, new))
    return (fix.title, found) if found else None


def show_found(bundle, found):
    """Writes a finding on an accepted design."""
    what = found.what if COLLECTED else f"{found.what} ({found.rule})"
    show(bundle, bundle.place(found.offset), what, *found.more, rule=found.rule,
         level="error" if found.rule == "trap" else "warning", fix=fix_in(bundle, found.fix))
