"""Declarations of AADL as tokens: their words, the names in them, and properties."""

from collections import namedtuple

from ..language.tokens import word_of

# An association of a property: its value's tokens, and the paths that it applies to.
Association = namedtuple("Association", "name value applies file offset")

# The sets that people write before the names of properties that mean something here.
SETS = {"timing_properties", "thread_properties", "communication_properties", "deployment_properties"}


def words_of(item):
    """The words of a declaration, in lower case."""
    return [word_of(token).lower() for token in item.tokens]


def name_of(item):
    """The name that a declaration declares."""
    return word_of(item.tokens[0])


def reference_in(item, word):
    """The reference after a word of a declaration, or None."""
    words = words_of(item)
    return name_at(item.tokens, words.index(word) + 1) if word in words else None


def name_at(tokens, at):
    """The name at a position, with packages and an implementation; or None."""
    found, wants = "", True
    while at < len(tokens):
        word = word_of(tokens[at])
        if wants != (tokens[at].kind == "word") or (not wants and word not in ("::", ".")):
            break
        found, wants, at = found + word, not wants, at + 1
    return found or None


def association(item):
    """A property: the set before its name is omitted if the property has a meaning without it."""
    words = words_of(item)
    name = name_at(item.tokens, 0) or words[0]
    before, sign, last = name.rpartition("::")
    name = last if sign and before.lower() in SETS else name
    value = next((at for at, word in enumerate(words) if word in ("=>", "+=>")), len(words)) + 1
    modes = [at for at in range(len(words) - 1) if words[at] == "in" and words[at + 1] in ("modes", "binding")]
    end = min([at for at, word in enumerate(words) if word == "applies"] + modes + [len(words)])
    paths = []
    if words[end : end + 2] == ["applies", "to"]:
        last = min((it for it in modes if it > end), default=len(words))
        paths = "".join(word_of(token) for token in item.tokens[end + 2 : last]).split(",")
    return Association(name, item.tokens[value:end], paths, item.file, item.tokens[0].offset)


def text_of(tokens):
    """The text of a property's value, with normalized blanks."""
    found = ""
    for token in tokens:
        word = word_of(token)
        open_end = found.endswith(("(", "::", "[", ".")) and not found.endswith("..")
        tight = not found or word in (")", ",", ";", "::", ".", "]") or open_end
        found += word if tight else f" {word}"
    return found
