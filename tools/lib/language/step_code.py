"""The instructions of step code, and its verifier: the height of the stack at each place, and the loops."""

from ..scenarios.bundles import Refused

BINARY = ("Add", "Sub", "Mul", "Quot", "Mod", "Rem", "Eq", "Ne", "Lt", "Le", "Gt", "Ge", "And", "Or", "Xor")
UNARY = ("Neg", "Abs", "Not")
# The operand of an instruction: a number, a slot, an in port, an out port, a state, or a place.
OPERANDS = {
    "Push": ("number",),
    "Load": ("slot",),
    "Store": ("slot",),
    "Port": ("in",),
    "Fresh": ("in",),
    "Emit": ("out",),
    "End": ("state",),
    "Jump": ("place",),
    "JumpZero": ("place",),
    "LoopStart": ("slot", "number", "number", "place"),
    "LoopNext": ("slot", "number", "place"),
    **dict.fromkeys(BINARY + UNARY, ()),
}
# How many numbers an instruction pops, and how many it pushes.
EFFECTS = {
    **dict.fromkeys(("Push", "Load", "Port", "Fresh"), (0, 1)),
    **dict.fromkeys(("Store", "JumpZero", "Emit"), (1, 0)),
    **dict.fromkeys(("Jump", "LoopStart", "LoopNext", "End"), (0, 0)),
    **dict.fromkeys(UNARY, (1, 1)),
    **dict.fromkeys(BINARY, (2, 1)),
}


class Verified:
    """A component's code that the verifier takes: `heights` by place, for the places that a step may come to, and the
    place of the `LoopNext` of each `LoopStart`. Else it is refused, with the first rule that finds something."""

    def __init__(self, component):
        self.component, self.code = component, component.code
        self.loops = dict(self.loops_of())
        self.ends = {end: start for start, end in self.loops.items()}
        entries = [state.entry for state in component.states if state.entry is not None]
        self.heights = dict.fromkeys(entries, 0)
        for entry in entries:
            self.need(entry < len(self.code) and not self.round(entry), entry, "BadJump")
        for place, instruction in enumerate(self.code):
            self.check(place, instruction)

    def loops_of(self):
        """The places of each `LoopStart` that has a `LoopNext` just before its exit, and of that one."""
        for start, instruction in enumerate(self.code):
            if instruction[0] == "LoopStart":
                _, slot, _, high, leave = instruction
                if start + 1 < leave <= len(self.code) and self.code[leave - 1] == ("LoopNext", slot, high, start + 1):
                    yield start, leave - 1

    def round(self, place):
        """The loops whose bodies have a place."""
        return [start for start, end in self.loops.items() if start < place <= end]

    def need(self, holds, place, rule):
        """Refuses the code where a rule does not hold."""
        if not holds:
            raise Refused(f"{self.component.path}: the code is rejected at place {place}: {rule}")

    def check(self, place, instruction):
        """All rules at one place."""
        name, operands = instruction[0], instruction[1:]
        jumps = operands[-1:] if name in ("Jump", "JumpZero", "LoopStart") else ()
        goes_on = name not in ("Jump", "End")
        self.need(not goes_on or place + 1 < len(self.code), place, "BadJump")
        self.need(all(to < len(self.code) and self.round(to) == self.round(place) for to in jumps), place, "BadJump")
        self.need(all(to > place for to in jumps), place, "BackJump")
        if name in ("LoopStart", "LoopNext"):
            self.check_loop(place, operands[0])
        self.need(name != "Store" or operands[0] < len(self.component.variables), place, "BadSlot")
        self.need(name != "End" or self.component.states[operands[0]].entry is not None, place, "BadSlot")
        if place in self.heights:
            self.lead(place, name, jumps + ((place + 1,) if goes_on else ()))

    def check_loop(self, place, slot):
        """The rules on the start and the end of a loop."""
        self.need(place in self.loops or place in self.ends, place, "BackJump")
        above = [self.code[start][1] for start in self.round(place) if self.loops[start] != place]
        self.need(slot >= len(self.component.variables) and slot not in above, place, "BadSlot")

    def lead(self, place, name, targets):
        """Gives the height after an instruction to its successors."""
        pops, pushes = EFFECTS[name]
        height = self.heights[place]
        self.need(height >= pops, place, "Underflow")
        for to in targets:
            self.need(self.heights.setdefault(to, height - pops + pushes) == height - pops + pushes, place,
                      "HeightsDiffer")
