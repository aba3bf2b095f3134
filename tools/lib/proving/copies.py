"""Copies of a design with further variables and actions in its behaviours."""

from ..language.tokens import tokens_of, word_of
from ..language.tree import Assign, Send, acts_in
from ..running.rows import Report
from ..scenarios.bundles import Refused

ENDS = (";", "}", "end", "else", "elsif")


class OtherRows(Refused):
    """A copy that has other rows than the design."""


def component_rows(text):
    """For each round of an output of `sync` the rows of the components: state and values by path."""
    return [{it.path: (it.state, it.values) for it in row.components} for row in Report(text).rows]


def check_rows(text, copied):
    """Shows that the output of `sync` for a copy has the rows of the design's own, further variables aside."""
    for one, two in zip(component_rows(text), component_rows(copied)):
        for path, (state, values) in one.items():
            others = {name: value for name, value in two[path][1].items() if name in values}
            if (state, values) != (two[path][0], others):
                raise OtherRows(f"a formula overflows in the copy of the design: {path} has other rows there")


class Copy:
    """A copy of a design's text, with inserted texts by offsets, and further actions by transitions."""

    def __init__(self, design):
        self.design, self.tokens = design, tokens_of(design)
        self.numbers = {token.offset: at for at, token in enumerate(self.tokens)}
        self.inserted, self.firsts, self.lasts, self.sections, self.count = {}, {}, {}, {}, 0
        self.prefix = "watched_"
        while any(word_of(token).lower().startswith(self.prefix) for token in self.tokens):
            self.prefix = "x" + self.prefix

    def word(self, at):
        """A token's text, in lower case."""
        return word_of(self.tokens[at]).lower()

    def text(self):
        """The text of the copy."""
        inserted = dict(self.inserted)
        for offset, (title, texts) in self.sections.items():
            inserted[offset] = title + "".join(texts) + inserted.get(offset, "")
        for target in {*self.firsts, *self.lasts}:
            for offset, text in self.actions(target, self.firsts.get(target, []), self.lasts.get(target, [])):
                inserted[offset] = inserted.get(offset, "") + text if text.startswith(";") else (
                    text + inserted.get(offset, ""))
        found, end = [], 0
        for offset in sorted(inserted):
            found += [self.design[end:offset], inserted[offset].encode()]
            end = offset
        return b"".join(found) + self.design[end:]

    def actions(self, target, firsts, lasts):
        """The offsets at which actions go into the transition with a target at an offset, and their texts."""
        opening = self.numbers[target] + 1
        if self.word(opening) != "{":
            return [(self.tokens[opening].offset, " {" + "; ".join(firsts + lasts) + "}")]
        closing = self.closing(opening)
        if closing == opening + 1:
            return [(self.tokens[closing].offset, "; ".join(firsts + lasts))]
        joint = " " if self.word(closing - 1) == ";" else "; "
        found = [(self.tokens[closing].offset, joint + "; ".join(lasts))] if lasts else []
        return found + ([(self.tokens[opening + 1].offset, "; ".join(firsts) + "; ")] if firsts else [])

    def closing(self, opening):
        """The number of the token that closes a brace or a parenthesis."""
        one = self.word(opening)
        other, depth, at = {"{": "}", "(": ")"}[one], 1, opening
        while depth:
            at += 1
            depth += (self.word(at) == one) - (self.word(at) == other)
        return at

    def variable(self, behaviour, kind, first):
        """The name of a new variable of a behaviour; a section of variables is made if it has none."""
        self.count += 1
        name = f"{self.prefix}{self.count}"
        at = self.numbers[behaviour.states[0].name.offset]
        while self.word(at) != "states":
            at -= 1
        title = "" if behaviour.variables else "variables "
        section = self.sections.setdefault(self.tokens[at].offset, (title, []))
        section[1].append(f'{name}: Base_Types::{kind} {{Data_Model::Initial_Value => ("{first}");}};\n')
        return name

    def add_first(self, transition, text):
        """Adds actions at the beginning of a transition."""
        self.firsts.setdefault(transition.target.offset, []).append(text)

    def add_last(self, transition, text):
        """Adds actions at the end of a transition."""
        self.lasts.setdefault(transition.target.offset, []).append(text)

    def before_sends(self, transition, port, made):
        """Inserts before each send on a port the text that is made of the sent expression."""
        for act in acts_in(transition.acts):
            if isinstance(act, (Assign, Send)) and act.target.text.lower() == port.lower():
                at = self.numbers[act.target.offset] + 1
                if self.word(at) == "!":
                    first, last = at + 2, self.closing(at + 1)
                else:
                    first = last = at + 1
                    while self.word(last) not in ENDS:
                        last = self.closing(last) + 1 if self.word(last) == "(" else last + 1
                text = self.design[self.tokens[first].offset : self.tokens[last].offset].decode("utf-8", "replace")
                self.inserted[act.target.offset] = made(text) + self.inserted.get(act.target.offset, "")
