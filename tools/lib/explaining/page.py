"""The sections of docs/checks.md, which give a remedy for each rejection of a design."""

import os
import re

TOP = os.path.dirname(os.path.dirname(os.path.dirname(os.path.dirname(os.path.abspath(__file__)))))
CHECKS = "docs/checks.md"


def advice():
    """The remedies, by part (faults or findings) and number; empty if the page is missing."""
    found, part, number, taking = {}, "", 0, False
    for line in lines_of(os.path.join(TOP, CHECKS)):
        if line.startswith("## "):
            part, number = line[3:].split()[0].lower(), 0
        match = re.match(r"### (\d+) ", line)
        number = int(match.group(1)) if match else number
        taking = line.startswith("**Do:**") or (taking and bool(line.strip()))
        if taking and number:
            text = plain(line.replace("**Do:**", "").strip())
            found[part, number] = (found.get((part, number), "") + " " + text).strip()
    return found


def plain(text):
    """A text of a page without its marks: a string is not quoted twice, and a page is named by its path."""
    return re.sub(r"`(\w+\.md)`", r"docs/\1", re.sub(r'`("[^"`]*")`', r"\1", text))


def lines_of(path):
    """The lines of a page; empty if it is missing."""
    try:
        with open(path, encoding="utf-8") as file:
            return file.read().split("\n")
    except OSError:
        return []
