"""Completions in a text that is being edited."""

from ..language.adaptor_choices import choices
from ..language.properties import PLACES
from .edited import Edited

# Numbers of the protocol.
KEYWORD, VARIABLE, PROPERTY, VALUE = 14, 6, 10, 12


def completions(edited, offset):
    """What may be written at a byte: keywords and names that the grammar allows there, or adaptors in a string."""
    begin = offset
    while begin and (edited.data[begin - 1 : begin].isalnum() or edited.data[begin - 1 : begin] == b"_"):
        begin -= 1
    line = edited.data[: begin].rpartition(b"\n")[2]
    if line.count(b'"') % 2:
        return [item(name, VALUE, words) for name, words in choices(edited.data, offset).items()] \
            if b"Input_Adaptor" in line else []
    if b"--" in line:
        return []
    before = Edited(edited.data[:begin].decode("utf-8", "replace"))
    wanted = next((wanted for token, wanted in before.faults if token.kind == "end"), [])
    found = [item(word, KEYWORD, "") for word in wanted if word.isalpha() and word.islower()]
    if "a name" not in wanted:
        return found
    owner = edited.owner_at(offset)
    found += [item(it.name.text, VARIABLE, it.words) for it in (edited.entries(owner) if owner else {}).values()]
    if owner and not before_annex(before):
        found += [item(name, PROPERTY, f"of {where}") for name, where in PLACES.items()]
        found += [item(it.name.text, VARIABLE, it.category) for it in edited.package.impls]
    return found


def before_annex(before):
    """Whether the end of a text is inside of a behaviour annex."""
    return bool(before.tokens[-1].inside) or before.data.rfind(b"{**") > before.data.rfind(b"**}")


def item(label, kind, detail):
    """One completion."""
    return {"label": label, "kind": kind, "detail": detail}
