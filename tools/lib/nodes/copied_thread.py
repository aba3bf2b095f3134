"""The threads of a copy of a design that begins with a later round: each goes through an entry, then runs as before.

In the entry, a thread has a state for each step, and sends the values that the design has sent. After the entry, it is
in the state of the design, with its variables, or is halted by the same trap."""

from ..language.interpreter import LEAST, OVERFLOW
from ..language.model import ports_of
from ..language.tokens import tokens_of, word_of
from ..language.tree import behaviour_of
from ..scenarios.bundles import Refused

# The maximum number of states of a behaviour.
MOST_STATES = 64


class ThreadMaker:
    """Writes the behaviours of a copy. All new names have the prefix."""

    def __init__(self, design, model, start, prefix):
        self.design, self.model, self.start, self.prefix = design, model, start, prefix
        self.tokens = tokens_of(design)
        self.numbers = {token.offset: at for at, token in enumerate(self.tokens)}

    def behaviour(self, thread):
        """The lines of the behaviour of a thread, with its entry."""
        own, state = behaviour_of(thread.impl), self.start.states[thread.path.lower()]
        entry, goal = list(self.entry(thread)), f"{self.prefix}_trap" if state.trap else state.state
        names = [f"{self.prefix}_{at}" for at in range(len(entry))]
        first = names[0] if names else state.state
        kinds = {name: "complete " for name in names}
        if state.trap:
            kinds[goal] = ""
        else:
            kinds.update((it.name.text, "complete " if it.complete else "") for it in own.states)
        if len(kinds) > MOST_STATES:
            raise Refused(f"{thread.path} would have {len(kinds)} states in a copy that begins with round "
                          f"{self.start.round}, and {MOST_STATES} are the most")
        yield from section("variables", [variable_text(it, state.variables[it.name.text.lower()])
                                         for it in own.variables])
        yield from section("states", [f" {name}: {'initial ' if name == first else ''}{kind}state;"
                                      for name, kind in kinds.items()])
        yield "transitions"
        for name, then, acts in zip(names, [*names[1:], goal], entry):
            yield f" {name} -[on dispatch]-> {then}{acts};"
        if state.trap:
            guard = "9223372036854775807 + 1 = 0" if state.trap == OVERFLOW else "1 / 0 = 0"
            yield f" {goal} -[{guard}]-> {names[0]};"
            yield f" {goal} -[otherwise]-> {names[0]};"
        else:
            yield self.transitions(own)

    def entry(self, thread):
        """The actions of each step of the entry."""
        outs = ports_of(thread, "out")
        for sent in self.start.sent:
            for step in range(self.model.rate(thread)):
                values = ((port, sent.get((thread.path.lower(), port.name.text.lower()))) for port in outs)
                acts = [f"{port.name.text}!({literal(places[step], port.ref.text)})" for port, places in values
                        if places and places[step] is not None]
                yield f" {{{'; '.join(acts)}}}" if acts else ""

    def transitions(self, own):
        """The text of the transitions of a behaviour."""
        begin = end = self.numbers[own.transitions[0].offset]
        while word_of(self.tokens[end]) != "**}":
            end += 1
        return self.design[self.tokens[begin].offset : self.tokens[end].offset].decode("utf-8", "replace").rstrip()


def section(title, lines):
    """The lines of a section; none if it is empty."""
    return [title, *lines] if lines else []


def literal(value, kind):
    """A value as an expression of a type."""
    if is_boolean(kind):
        return "true" if value else "false"
    return str(value) if value > LEAST else f"{LEAST + 1} - 1"


def variable_text(variable, value):
    """The declaration of a variable with a value."""
    word = literal(value, variable.ref.text) if is_boolean(variable.ref.text) else str(value)
    return f' {variable.name.text}: {variable.ref.text} {{Data_Model::Initial_Value => ("{word}");}};'


def is_boolean(kind):
    """Whether a type is that of truth values."""
    return kind.lower().rpartition("::")[2] == "boolean"
