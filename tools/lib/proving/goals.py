"""The goals of coverage as people know them: with their positions in the design's text."""

from ..language.model import Model, root_of
from ..language.tokens import tokens_of
from .machine import Machine
from .places import layout_of

PARTS = {"guard": "the guard", "if": "the condition of the `if`", "and then": "the left side of `and then`",
         "or else": "the left side of `or else`"}
SIDES = {True: "true", False: "false"}


class Goals:
    """The goals of an opened design. Jumps inside of a transition are not goals. With `conditions` each
    condition that decides is a goal, and `machine` is another one than that of the opened design."""

    def __init__(self, opened, conditions):
        self.opened, self.machine = opened, opened.machine
        model = Model(opened.declared, root_of(opened.declared, opened.root))
        tokens, decisions = tokens_of(opened.design), {}
        self.places, self.ports = {}, {}
        for component in opened.listing.components:
            thread = model.by_path[component.path.lower()]
            layout = layout_of(tokens, thread.impl, component)
            self.places[component.path] = layout and layout.found
            decisions[component.path] = layout.decisions if layout else {}
            for port in thread.type.ports:
                self.ports[component.path, port.name.text] = port.name.offset
        if conditions:
            self.machine = Machine(opened.listing, decisions)
        self.found = [key for key in self.machine.goals if self.counts(key)]

    def counts(self, key):
        """Whether a goal of the machine is one of the text."""
        places = self.places[key[0]]
        if places is None or key[1] != "move":
            return True
        return places[key[2]].part == "transition"

    def keys(self):
        """The keys of all goals, in the order of components."""
        return self.found

    def offset(self, key):
        """The offset of a goal in the design; None if the code has no positions."""
        path, kind, place, _ = key
        if kind == "group":
            return self.ports[path, place]
        return self.places[path] and self.places[path][place].offset

    def position(self, key):
        """The line and the column of a goal; 0 and 0 if the code has no positions."""
        offset = self.offset(key)
        return (0, 0) if offset is None else self.opened.position(offset)

    def text(self, key):
        """A goal in words."""
        path, kind, place, side = key
        if kind == "group":
            return f"{path}: the values of a group at {place} are all {'absent' if side == 'empty' else 'present'}"
        places = self.places[path]
        name = self.opened.component(path).code[place][0]
        if kind == "trap":
            return f"{path}: {name} traps"
        if kind == "condition":
            return f"{path}: the condition decides while it is {SIDES[side]}"
        if kind == "branch":
            what = PARTS[places[place].part] if places else f"the condition at place {place}"
            return f"{path}: {what} is {SIDES[side]}"
        return f"{path}: the transition is taken" if places else f"{path}: place {place} is executed"
