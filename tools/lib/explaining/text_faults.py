"""The error of a rejected text, and a fix."""

import re

from ..scenarios.bundles import BYTE_ORDER_MARK
from .syntax_causes import cause, may_stand, place_of_fault

# The likely meaning of a byte that begins no token. Sequences of several bytes are checked first.
BYTES = [
    (b"\xe2\x80\x9c", 'a string is in straight quotes: "'),
    (b"\xe2\x80\x9d", 'a string is in straight quotes: "'),
    (b"\xe2\x80\x98", "a string is in straight double quotes"),
    (b"\xe2\x80\x99", "a string is in straight double quotes"),
    (b"\xe2\x80\x93", "this is a dash: `-` is the sign, `--` begins a comment"),
    (b"\xe2\x80\x94", "this is a dash: `-` is the sign, `--` begins a comment"),
    (b"\xe2\x88\x92", "this is another minus sign: write `-`"),
    (b"\xe2\x89\xa4", "write `<=`"),
    (b"\xe2\x89\xa5", "write `>=`"),
    (b"\xe2\x89\xa0", "write `!=`"),
    (b"\xe2\x86\x92", "write `->`"),
    (b"\xc2\xa0", "this is a no-break space: write a plain space"),
    (b"&", "write `and` or `and then`"),
    (b"|", "write `or` or `or else`"),
    (b"%", "write `mod` or `rem`; %%% divides a bundle only on a line of its own"),
    (b"#", "a comment begins with `--`"),
    (b"^", "there is no power: multiply, or write `xor`"),
    (b"~", "`not` negates a condition"),
    (b"?", "there is no `?`: choose with `if (x > 0) .. else .. end if`"),
    (b"@", "there is no `@` in the language"),
    (b"_", "a name begins with a letter"),
    (b"`", 'a string is in straight double quotes: "'),
    (b"\\", "there is no `\\` in the language"),
    (b"$", "there is no `$` in the language"),
    (b"\x00", "this is not a text: it contains a byte 0, as UTF-16 does"),
]
LETTER = "a name has ASCII letters, digits and `_`"


class Told:
    """The message for a fault: sentences, and a second position that is likely the cause."""

    def __init__(self, what, *more, culprit=None):
        self.what, self.more, self.culprit = what, [it for it in more if it], culprit


def tell(bundle, name, offset):
    """What is wrong at a byte of the bundle."""
    look = {"Syntax": syntax, "BadByte": bad_byte, "NoDivider": no_divider, "OpenAnnex": open_annex,
            "OpenString": open_string, "BigNumber": big_number, "LongName": long_name, "TooDeep": too_deep,
            "NotUtf8": not_utf8}
    return look[name](bundle, offset) if name in look else Told("the text is rejected here")


def syntax(bundle, offset):
    """An unexpected token."""
    place = place_of_fault(bundle.design, offset)
    if place is None:
        return Told("unexpected token: no text of the language begins like this")
    here = "unexpected end of the text" if place.here.kind == "end" else f"unexpected `{shown(place.here.text)}`"
    found = cause(bundle.design, place)
    if found is None:
        return Told(here, f"expected {may_stand(place)}")
    what, culprit = found
    return Told(f"{here}: {what}", f"expected {may_stand(place)}", culprit=culprit)


def shown(text):
    """A token's text, the beginning of a long one."""
    text = text.decode("utf-8", "replace")
    return text if len(text) <= 40 else text[:40] + ".."


def bad_byte(bundle, offset):
    """A byte that begins no token."""
    if offset == 0 and bundle.data.startswith(BYTE_ORDER_MARK):
        return Told("the text begins with a byte order mark", "remove it, as tools/bundle does")
    byte = bundle.data[offset : offset + 1]
    found = next((what for start, what in BYTES if bundle.data.startswith(start, offset)), None)
    letter = re.match(rb"[\xc2-\xf4][\x80-\xbf]*", bundle.data[offset : offset + 4])
    sign = (letter[0] if letter else byte).decode("utf-8", "replace")
    before = bundle.data[offset - 1 : offset]
    if byte == b"_" and before.isdigit():
        found = "a number has single `_` between digits, and a real has none"
    return Told(f"no token begins with `{sign}`" + (f": {found or LETTER}" if found or letter else ""))


def no_divider(bundle, _offset):
    """A bundle without its divider."""
    near = re.search(rb"(?m)^.*%%%[ \t]*\r?$", bundle.data)
    if near:
        line = bundle.place(near.start())[0]
        return Told("the bundle ends, and no line is exactly %%%",
                    f"line {line} is not a divider: %%% must be a line of its own, without blanks; see "
                    f"docs/misleading.md")
    return Told("the bundle ends, and no line is exactly %%%",
                "tools/bundle MODEL.aadl SCENARIO.json makes a bundle, and ./pals accepts the files themselves")


def open_annex(bundle, offset):
    """An annex that is never closed."""
    end = re.search(rb"(?im)^[ \t]*end[ \t]+\w+\.\w+[ \t]*;", bundle.design[offset:])
    culprit = offset + end.start() if end else None
    return Told("the annex that begins here has no closing `**}`",
                "write `**};` at its end" + (", likely before this:" if end else ""), culprit=culprit)


def open_string(_bundle, _offset):
    """A text that is never closed."""
    return Told("the string that begins here has no closing quote on its line",
                'write `"` at its end: a string is on one line')


def big_number(bundle, offset):
    """A number that is too great."""
    if bundle.data[offset : offset + 19] == b"9223372036854775808":
        return Told("the number is above 9223372036854775807", "for the minimum write -9223372036854775807 - 1")
    return Told("the number is above 9223372036854775807", "numbers have 64 bits: count in larger units")


def long_name(_bundle, _offset):
    """A word that is too long."""
    return Told("the word has more than 64 bytes", "shorten it")


def too_deep(_bundle, _offset):
    """An opener that is too deep."""
    return Told("this opener makes the text nested more than 64 deep",
                "remove parentheses, or use a variable for a part of the expression")


def not_utf8(_bundle, _offset):
    """A byte that is not UTF-8."""
    return Told("this byte is not UTF-8",
                "save the file as UTF-8; names have only ASCII letters; comments may have any")
