"""The likely cause of a syntax error, with a fix."""

from ..editing.cursor import END, NAME, STRING, WHOLE, Cursor, Fault
from ..language.grammar import Grammar
from ..language.names import choice, distance
from ..language.tokens import word_of
from ..language.words import ANNEX, DECLARATIONS, LEFT_OUT
from .syntax_patterns import PATTERNS

CATEGORIES = ("system", "process", "thread")
OPERATORS = frozenset("and or xor = != < <= > >= + - * / mod rem".split())
BEGINS_VALUE = frozenset(["abs", "not", WHOLE, "true", "false", "(", NAME, "+", "-"])
SECTIONS = ("features", "subcomponents", "connections", "properties", "annex", "variables", "states", "transitions")
ORDERS = {
    "type": ("features", "properties", "annex"),
    "implementation": ("subcomponents", "connections", "properties", "annex"),
    "annex": ("variables", "states", "transitions"),
}


class Place:
    """The position of a syntax error: the tokens, the number of the unexpected one, and the expected ones."""

    def __init__(self, tokens, number, wanted):
        self.tokens, self.number, self.wanted = tokens, number, wanted
        self.here, self.before = tokens[number], tokens[number - 1] if number else None
        self.word = self.low(number)
        self.last, self.next = self.low(number - 1), self.low(number + 1)

    def low(self, number):
        """A token's text in lower case; empty if there is none."""
        return word_of(self.tokens[number]).lower() if 0 <= number < len(self.tokens) else ""

    def wants(self, *whats):
        """Whether all of these are expected here."""
        return all(what in self.wanted for what in whats)

    @property
    def touches(self):
        """Whether nothing is between the previous token and this one."""
        return bool(self.before) and self.before.offset + len(self.before.text) == self.here.offset

    @property
    def before_end(self):
        """The position after the previous token."""
        return self.before.offset + len(self.before.text)


def place_of_fault(text, offset):
    """The place of a fault, or None where the text is refused elsewhere or not at all."""
    try:
        Grammar(text).package()
    except Fault as fault:
        place = Place(Cursor(text).tokens, fault.number, fault.wanted)
        return place if place.here.offset == offset else None
    return None


def may_stand(place):
    """The expected tokens at a position, as part of a sentence."""
    wanted, shown = set(place.wanted), []
    if len(wanted & BEGINS_VALUE) > 5:
        wanted -= BEGINS_VALUE
        shown.append("an expression")
    if len(wanted & OPERATORS) > 2:
        wanted -= OPERATORS
        shown.append("an operator")
    rest = [what if what in (NAME, WHOLE, STRING,
                             END) or " " in what else f"`{what}`" for what in place.wanted if what in wanted]
    return choice(shown + rest)


def cause(text, place):
    """The likely error: a sentence, and the position of the cause if it is another one; or None."""
    for look in LOOKS:
        found = look(place, text)
        if found:
            return found if isinstance(found, tuple) else (found, None)
    return None


def comment(place, text):
    """A `--` that was not meant as a comment."""
    if not place.before:
        return None
    between = text[place.before_end : place.here.offset]
    if between.startswith(b"--") or between.lstrip(b" \t").startswith(b"--["):
        start = place.before_end + between.find(b"--")
        return "`--` begins a comment: the rest of its line is ignored", start
    return None


def line_end(place, text):
    """A `;` that is missing at the end of a line before this one."""
    if place.wants(";") and place.before and b"\n" in text[place.before_end : place.here.offset]:
        return f"a `;` is missing after `{word_of(place.before)}`", place.before_end
    return None


def pattern(place, _text):
    """The cause that this token, the previous one, and the expected tokens determine."""
    for fits, says in PATTERNS:
        if fits(place):
            return says(place) if callable(says) else says
    return None


def misspelt(place, _text):
    """A word that is near to an expected keyword here, or the previous word near to one expected there."""
    known = [what for what in place.wanted if what.isalpha()]
    near = nearest(place.word, known) if place.here.kind == "word" and place.next not in (":", ",", "=>") else None
    if near:
        return f"`{near}` is likely meant"
    if place.before and place.before.kind == "word" and place.wanted in ([":"], [",", ":"], [":", "-["]):
        near = nearest(place.last, SECTIONS + ("implementation", "end"))
        if near:
            return f"`{near}` is likely meant", place.before.offset
    return None


def nearest(word, known):
    """The one keyword that is near to a word."""
    if len(word) < 4 or word in known:
        return None
    most = 2 if len(word) < 8 else 3
    return next((it for it in known if len(it) > 3 and distance(word, it, most) <= most), None)


def order(place, _text):
    """A section that follows a later one, or in a declaration without such a section."""
    if place.word not in SECTIONS or place.word in place.wanted:
        return None
    kind = "annex" if place.here.inside else opened(place)[1]
    sections = ORDERS.get(kind, ())
    if place.word in sections:
        return f"`{place.word}` is too late: the order is {', '.join(sections)}, each at most once"
    if kind in ("type", "implementation") and not place.here.inside:
        return f"`{place.word}` belongs in an {'implementation' if kind == 'type' else 'annex or a type'}, not here"
    return None


def opened(place):
    """The declaration that is open here: its name, and whether it is a type or an implementation."""
    found = ("", "package")
    for at in range(place.number):
        token, word = place.tokens[at], place.low(at)
        if token.inside:
            continue
        if word in CATEGORIES and place.low(at - 1) in (";", "public"):
            made = place.low(at + 1) == "implementation"
            end = at + 5 if made else at + 2
            start = at + 2 if made else at + 1
            found = ("".join(map(word_of, place.tokens[start:end])), "implementation" if made else "type")
        elif word == "end" and place.low(at - 1) in (";", "**}"):
            found = ("", "package")
        elif word == "end" and found[1] != "package" and place.low(at + 1) != "if":
            found = ("", "package")
    return found


def keyword(place, _text):
    """A keyword instead of a name."""
    if place.here.kind != "word" or not place.wants(NAME):
        return None
    words = ANNEX if place.here.inside else DECLARATIONS
    if place.word in words and (len(place.wanted) == 1 or place.wants(WHOLE) or place.next in (":", ",", "=>", ":=",
                                                                                               ".", "!", "=", "->",
                                                                                               "-[", ")", "'")):
        where = "inside a behaviour annex" if place.here.inside else "outside annexes"
        return f"`{place.word}` is a keyword {where}, and cannot be a name"
    return None


def missing_end(place, _text):
    """An `end` that is missing before the next declaration, or at the end of the text."""
    if place.wanted == ["."] and place.low(place.number - 2) == "end":
        name, _ = opened(Place(place.tokens, place.number - 2, []))
        return f"{name} is still open: its `end {name};` is missing before this", place.tokens[place.number - 2].offset
    if place.wanted == ["."] and place.low(place.number - 2) == "end":
        name, _ = opened(Place(place.tokens, place.number - 2, []))
        return f"{name} is still open: its `end {name};` is missing before this", place.tokens[place.number - 2].offset
    name, kind = opened(place)
    if not place.wants("end") or place.here.inside:
        return None
    if kind == "package" and place.here.kind == "end":
        return f"the package lacks its `end {word_of(place.tokens[1])};`"
    if kind != "package" and (place.word in CATEGORIES or place.here.kind == "end"):
        return f"{name} lacks its `end {name};` before this"
    return None


def semicolon(place, _text):
    """A `;` that is missing."""
    if not place.wants(";") or not place.before:
        return None
    behind = word_of(place.before)
    if place.word == "}":
        return f"a `;` is missing after `{behind}`: each property ends with one", place.before_end
    if place.here.kind in ("word", "end", "symbol"):
        return f"a `;` is missing after `{behind}`", place.before_end
    return None


def behind_package(place, _text):
    """Something after the end of the package."""
    if place.wanted == [END]:
        return "the package has ended before this: an `end` is too early, or there is one too many"
    return None


def word_left_out(place, _text):
    """A word of AADL that this subset has no use for."""
    for word, offset in ((place.word, place.here.offset), (place.last, place.before.offset if place.before else 0)):
        if word in LEFT_OUT:
            return f"the subset of AADL has no `{word}` here: docs/language.md lists its omissions", offset
    return None


def comma(place, _text):
    """Two names next to each other in a list of names."""
    return "a `,` is missing between two names" if place.wants(",", ":") and place.here.kind == "word" else None


def value(place, _text):
    """A value, a number or a bracket that is missing, or another kind of value."""
    if place.here.kind in ("real", "string") and place.here.inside:
        return "values are whole numbers, `true` and `false`"
    if len(set(place.wanted) & BEGINS_VALUE) > 4:
        return f"a value is missing after `{word_of(place.before)}`" if place.before else None
    for closer in (")", "]->", "}", "**}"):
        if place.wants(closer):
            return f"a `{closer}` is missing here"
    return f"a `{place.wanted[0]}` is missing here" if len(place.wanted) == 1 and place.wanted[0] not in (NAME,
                                                                                                          END) else None


# What may be wrong, the surest first.
LOOKS = (comment, missing_end, line_end, pattern, misspelt, order, keyword, semicolon, behind_package, word_left_out,
         comma, value)
