"""Reads formulas as people write them: `historically (p.a.x <= 100 or p.a.halted)`. docs/monitors.md has the language.

A formula becomes a form of `watch`, or else one with further parts: ["compare", OP, E, E], ["state", PATH, NAMES],
["fresh", PATH, PORT] and ["present", PATH, PORT]. An expression E is ["number", N], ["variable", PATH, NAME],
["in", PATH, PORT], ["out", PATH, PORT], or one of + - * with two expressions.
"""

import re

from ..language.listing import GREATEST
from ..language.names import meant
from ..scenarios.bundles import Refused
from .formula_forms import compared, running, within

TOKEN = re.compile(r"\s*(?:(--[^\n]*)|([A-Za-z][A-Za-z0-9_]*(?:\.[A-Za-z][A-Za-z0-9_]*)*)|([0-9]+)|"
                   r"(!=|<=|>=|[-+*()\[\]<>=',]))")
NAMED = re.compile(r"\s*([A-Za-z][A-Za-z0-9_]{0,63})\s*:\s*(.*)", re.DOTALL)
COMPARING = ("=", "!=", "<", "<=", ">", ">=")
PREFIXES = ("not", "previous", "once", "historically")
DEEPEST, MOST_BACK = 64, 60


class Value:
    """A part of a formula while it is read: an expression of the type Integer or Boolean, or a formula."""

    def __init__(self, kind, form):
        self.kind, self.form = kind, form


class Reader:
    """Reads one formula on the components of a listing."""

    def __init__(self, text, listing):
        self.text, self.at, self.depth = text, 0, 0
        self.components = {it.path: it for it in listing.components}
        self.tokens = self.split()

    def split(self):
        """The tokens with their positions; the last one is the end."""
        found, at = [], 0
        while self.text[at:].strip():
            match = TOKEN.match(self.text, at)
            if match is None:
                self.refuse("this character has no meaning", len(self.text) - len(self.text[at:].lstrip()))
            at = match.end()
            if match[1] is None:
                found.append((match[match.lastindex], match.start(match.lastindex)))
        return found + [("", len(self.text))]

    def refuse(self, what, at=None):
        """Rejects the formula, with the column of a token."""
        raise Refused(f"column {(self.tokens[self.at][1] if at is None else at) + 1}: {what}")

    def sees(self, *words):
        """Whether the next token is one of some words."""
        return self.tokens[self.at][0] in words

    def next(self):
        """Takes the next token."""
        self.at += 1
        return self.tokens[self.at - 1][0]

    def may(self, *words):
        """Takes the next token if it is one of some words."""
        return self.next() if self.sees(*words) else None

    def take(self, word):
        """Takes a token that has to be here."""
        if not self.sees(word):
            self.refuse(f"expected `{word}`, found `{self.tokens[self.at][0] or 'the end'}`")
        return self.next()

    def whole(self):
        """The form of the whole formula."""
        found = self.formula_form()
        if not self.sees(""):
            self.refuse(f"unexpected `{self.tokens[self.at][0]}`")
        return found

    def formula(self):
        """A formula: `implies` binds least, then `or`, `and`, `since`."""
        self.depth += 1
        if self.depth > DEEPEST:
            self.refuse(f"a formula has at most {DEEPEST} levels")
        found = self.chain("or", lambda: self.chain("and", lambda: self.chain("since", self.unary)))
        if self.may("implies"):
            found = Value("formula", ["or", ["not", self.truth(found)], self.formula_form()])
        self.depth -= 1
        return found

    def formula_form(self):
        """A formula that is nothing but a formula."""
        return self.truth(self.formula())

    def chain(self, word, part):
        """Parts with a word between them, from the left."""
        found = part()
        while self.may(word):
            left = self.truth(found)
            found = Value("formula", [word, left, self.truth(part())])
        return found

    def unary(self):
        """A formula with a prefix, or a comparison."""
        if not self.sees(*PREFIXES):
            return self.comparison()
        self.depth += 1
        if self.depth > DEEPEST:
            self.refuse(f"a formula has at most {DEEPEST} levels")
        word, count = self.next(), None
        if word != "not" and self.may("["):
            count = self.count()
            self.take("]")
        inner = self.truth(self.unary())
        self.depth -= 1
        return Value("formula", [word, inner] if count is None else within(word, count, inner))

    def count(self):
        """A number of rounds."""
        word = self.next()
        if not word.isdigit() or int(word) > MOST_BACK:
            self.at -= 1
            self.refuse(f"expected a number of rounds from 0 to {MOST_BACK}")
        return int(word)

    def comparison(self):
        """Two sums that are compared, or one part by itself."""
        left = self.sum()
        if not self.sees(*COMPARING):
            return left
        op = self.next()
        right = self.sum()
        kinds = {left.kind, right.kind}
        if "formula" in kinds and "Integer" not in kinds and op in ("=", "!="):
            one, two = self.truth(left), self.truth(right)
            same = ["or", ["and", one, two], ["and", ["not", one], ["not", two]]]
            return Value("formula", same if op == "=" else ["not", same])
        if "formula" in kinds or len(kinds) != 1 or (kinds == {"Boolean"} and op not in ("=", "!=")):
            self.refuse(f"`{op}` compares two numbers, or two truth values if it is = or !=")
        return Value("formula", compared(op, left.form, right.form))

    def sum(self):
        """Terms that are added."""
        found = self.product()
        while self.sees("+", "-"):
            found = self.arithmetic(self.next(), found, self.product())
        return found

    def product(self):
        """Factors that are multiplied."""
        found = self.factor()
        while self.sees("*"):
            found = self.arithmetic(self.next(), found, self.factor())
        return found

    def arithmetic(self, op, left, right):
        """The result of an operator on two numbers."""
        if {left.kind, right.kind} != {"Integer"}:
            self.refuse(f"`{op}` needs two numbers")
        return Value("Integer", [op, left.form, right.form])

    def factor(self):
        """A number, a name, a truth value or a part in parentheses."""
        if self.may("("):
            found = self.formula()
            self.take(")")
            return found
        if self.may("-"):
            return self.arithmetic("-", Value("Integer", ["number", 0]), self.factor())
        word = self.next()
        if word.isdigit():
            if int(word) > GREATEST:
                self.at -= 1
                self.refuse("the number has more than 64 bits")
            return Value("Integer", ["number", int(word)])
        if word in ("true", "false"):
            return Value("Boolean", ["number", int(word == "true")])
        self.at -= 1
        return self.named()

    def named(self):
        """What a name of the design means: `PATH.NAME`, `PATH in STATES`, `PATH.PORT'fresh` or `'present`."""
        word = self.tokens[self.at][0]
        path, _, name = word.rpartition(".")
        if word in self.components:
            self.next()
            return self.in_states(self.components[word])
        if path not in self.components:
            known = [f"{it.path}.{var.name}" for it in self.components.values() for var in it.variables]
            self.refuse(f"unknown name `{word or 'the end'}`" + after(meant(word, [*self.components, *known])))
        component = self.components[path]
        self.next()
        if self.may("'"):
            return self.of_port(component, name)
        places = (("variable", component.variables), ("in", component.ins), ("out", component.outs))
        for kind, names in places:
            for it in names:
                if it.name == name:
                    return Value(it.kind, [kind, path, name])
        if name == "halted":
            return Value("formula", ["halted", path])
        self.at -= 1
        known = [it.name for _, names in places for it in names] + ["halted"]
        return self.refuse(f"{path} has no variable or port {name}" + after(meant(name, known)))

    def of_port(self, component, name):
        """Whether an in port was fresh, or an out port was present, in the last step of the round."""
        word = self.next()
        ports = {"fresh": component.ins, "present": component.outs}.get(word)
        if ports is None:
            self.at -= 1
            self.refuse("expected `fresh` (of an in port) or `present` (of an out port)")
        if all(it.name != name for it in ports):
            self.refuse(f"{component.path} has no {'in' if word == 'fresh' else 'out'} port {name}")
        return Value("formula", running([word, component.path, name]))

    def in_states(self, component):
        """Whether a component is in one of some states."""
        self.take("in")
        several = self.may("(")
        names = [self.next()]
        while several and self.may(","):
            names.append(self.next())
        if several:
            self.take(")")
        known = [it.name for it in component.states if it.entry is not None]
        for name in names:
            if name not in known:
                self.refuse(f"{component.path} has no complete state {name}" + after(meant(name, known)))
        return Value("formula", ["state", component.path, sorted(names)])

    def truth(self, value):
        """A part as a formula: a Boolean is true if it is not false."""
        if value.kind == "Integer":
            self.refuse("expected a formula, found a number")
        return value.form if value.kind == "formula" else compared("!=", value.form, ["number", 0])


def after(text):
    """A remark after a message."""
    return f"; {text}" if text else ""


def read_property(text, listing):
    """The name and the form of `NAME: FORMULA`."""
    match = NAMED.fullmatch(text)
    if match is None:
        raise Refused(f"a property is NAME: FORMULA, and not {text.strip()[:60]}")
    try:
        return match[1], Reader(match[2], listing).whole()
    except Refused as why:
        raise Refused(f"property {match[1]}, {why}") from why


def read_properties(text, listing):
    """The properties of a file: one a line; a line that begins with a blank continues the one before."""
    found = []
    for line in text.split("\n"):
        line = line.partition("--")[0].rstrip()
        if line[:1].isspace() and found:
            found[-1] += " " + line
        elif line:
            found.append(line)
    return dict(read_property(it, listing) for it in found)
