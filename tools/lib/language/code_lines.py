"""Which line of a design's text each instruction of its step code comes from (docs/step_code.md, The compiler)."""

from ..scenarios.bundles import Refused
from .model import Model, declared_in, root_of
from .step_code import EFFECTS
from .tree import Assign, If, Send, acts_in, behaviour_of

# So much of a line is in a comment.
MOST_TEXT = 90


class TextLines:
    """The lines of a design's text, for comments."""

    def __init__(self, bundle, root):
        self.bundle = bundle
        declared = declared_in(bundle.design)
        if declared is None:
            raise Refused(f"{bundle.path}: no text of the language; ./pals check tells where")
        self.model = Model(declared, root_of(declared, root))

    def of(self, component):
        """For each place of a component's code that begins a transition, or ends an assignment or a send, the number
        and the text of its line."""
        thread = self.model.by_path.get(component.path.lower())
        behaviour = behaviour_of(thread.impl) if thread and thread.impl else None
        if behaviour is None:
            raise Refused(f"{self.bundle.path} is not the design of the listing: it has no behaviour of "
                          f"{component.path}")
        return {place: self.line(offset) for place, offset in self.places(component, behaviour)}

    def line(self, offset):
        """The number and the text of the line of a byte."""
        number = self.bundle.place(offset)[0]
        text = self.bundle.line(number).decode("utf-8", "replace").strip()[:MOST_TEXT]
        text = text.encode("ascii", "backslashreplace").decode()
        return number, text.replace("*/", "* /").replace("/*", "/ *").replace("??", "? ?")

    def places(self, component, behaviour):
        """The places of a component's code, with the offsets of their transitions, assignments and sends."""
        heights, place = heights_of(component.code), 0
        for transition in in_code_order(behaviour):
            yield place, transition.offset
            acts = [it for it in acts_in(transition.acts) if isinstance(it, (Assign, Send))]
            jumps = sum(len(it.branches) for it in acts_in(transition.acts) if isinstance(it, If))
            while place < len(component.code):
                name = component.code[place][0]
                if name in ("Store", "Emit") and acts:
                    yield place, acts.pop(0).target.offset
                if name == "Jump" and heights[place] == 0:
                    jumps -= 1
                place += 1
                if name == "End" or jumps < 0:
                    break
            if acts:
                raise Refused(f"{self.bundle.path} is not the design of the listing: {component.path} differs")


def heights_of(code):
    """The height of the stack at each place, also at places that no step reaches."""
    heights = {}
    for place, (name, *operands) in enumerate(code):
        height = heights.setdefault(place, 0)
        pops, pushes = EFFECTS[name]
        if name in ("Jump", "JumpZero", "LoopStart"):
            heights.setdefault(operands[-1], height - pops)
        if name not in ("Jump", "End"):
            heights.setdefault(place + 1, height - pops + pushes)
    return heights


def in_code_order(behaviour):
    """The transitions in the order of their code: first the transitions of complete states, then the transitions of
    each other state after every transition that leads to it, the first state first."""
    complete = [it.name.text.lower() for it in behaviour.states if it.complete]
    others = [it.name.text.lower() for it in behaviour.states if not it.complete]
    order, left = list(complete), list(others)
    while left:
        into = {it.target.text.lower() for it in behaviour.transitions if it.source.text.lower() in left}
        order.append(next((name for name in left if name not in into), left[0]))
        left.remove(order[-1])
    return [it for name in order for it in behaviour.transitions if it.source.text.lower() == name]
