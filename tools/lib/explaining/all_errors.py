"""All errors of a text that can be found in one run: syntax errors, and names that are unknown or declared twice."""

from typing import NamedTuple, Optional, Tuple

from ..language.names import choice
from ..language.tokens import word_of
from ..linting.finding import Edit, Fix
from ..scenarios.bundles import Bundle
from .name_faults import name_faults
from .text_faults import tell


class Error(NamedTuple):
    """An error: the first byte and the number of bytes, its rule, its sentences, and its fix if it has one."""

    offset: int
    length: int
    rule: str
    words: Tuple[str, ...]
    fix: Optional[Fix] = None


def errors(edited):
    """All errors of a text: syntax errors in the order of the text, then names."""
    for at, (token, wanted) in enumerate(edited.faults):
        yield Error(token.offset, len(token.text), "Syntax", syntax_words(edited, at, token, wanted))
    for name, words, likely in name_faults(edited):
        fix = Fix(f"replace {name.text} by {likely}", [Edit(name.offset, name.text, likely)]) if likely else None
        more = (f"{likely} is likely meant",) if likely else ()
        rule = "Twice" if words.startswith("duplicate") else "Unknown"
        yield Error(name.offset, len(name.text.encode()), rule, (words, *more), fix)


def syntax_words(edited, at, token, wanted):
    """Sentences on a syntax error; the first one has its cause."""
    if at == 0:
        told = tell(Bundle("", edited.data + b"\n%%%\n"), "Syntax", token.offset)
        if told.what:
            return (told.what, *told.more)
    here = "the end of the text" if token.kind == "end" else f"`{word_of(token)}`"
    return (f"expected {choice(wanted[:6])}, found {here}" if wanted else f"{here} is nested too deeply",)
