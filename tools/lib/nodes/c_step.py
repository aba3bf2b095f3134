"""C of step code: what a component keeps from step to step, and its step, an instruction a line."""

from ..language.listing import LEAST, instruction_text
from ..language.step_code import BINARY, EFFECTS, Verified

HEAD = "/* Made of a listing by tools/code2c: change the design, and not this file. */\n"
COMPARED = {"Eq": "==", "Ne": "!=", "Lt": "<", "Le": "<=", "Gt": ">", "Ge": ">="}
LOGICAL = {"And": "&&", "Or": "||", "Xor": "!="}
# The column of the comment after an instruction's statement.
WIDTH = 56


def c_name(path):
    """The name of a component in C: no two paths have one."""
    return "c_" + path.replace("_", "__").replace(".", "_")


def c_names(design, short=False):
    """The names of all components in C: by their paths, or short ones by their numbers."""
    return [f"c_{number}" if short else c_name(it.path) for number, it in enumerate(design.components)]


def c_number(number):
    """A number in C."""
    if number == LEAST:
        return "INT64_MIN"
    return f"INT64_C({number})" if number >= 0 else f"-INT64_C({-number})"


class Body:
    """The statements of a step.

    The stack's places are locals s0, s1, ..: the verifier gives each instruction its height. A jump is a goto, which
    goes forward and into no block; a loop is a block that its LoopNext leaves."""

    def __init__(self, component, lines=None):
        self.component, self.code, self.text_lines = component, component.code, lines
        verified = Verified(component)
        self.heights, self.loops, self.ends = verified.heights, verified.loops, verified.ends
        self.lines, self.depth, self.slots, self.stack = [], 1, set(), 0
        self.labels = set(self.targets())
        place = 0
        while place < len(self.code):
            if place in self.labels:
                self.lines.append(f"L{place}:")
            if self.text_lines and place in self.text_lines and self.code[place][0] not in ("Store", "Emit"):
                number, text = self.text_lines[place]
                self.add(f"/* line {number}: {text} */")
            place = self.at(place)

    def targets(self):
        """The places that a goto goes to."""
        for state in self.component.states:
            if state.entry is not None:
                yield state.entry
        for place in self.heights:
            name, *operands = self.code[place]
            if name in ("Jump", "JumpZero") or (name == "LoopStart" and operands[1] > operands[2]):
                yield operands[-1]

    def add(self, text):
        """A line, as deep as the loops are."""
        self.lines.append("    " * self.depth + text)

    def put(self, place, statement):
        """A statement, with its instruction as its comment, or with the line of the design's text."""
        comment = f"{place} {instruction_text(self.component, self.code[place])}"
        if self.text_lines is not None:
            here = place in self.text_lines and self.code[place][0] in ("Store", "Emit")
            comment = f"line {self.text_lines[place][0]}" if here else ""
        self.add(f"{statement:{WIDTH}} /* {comment} */" if comment else statement)

    def trapping(self, place, call):
        """A call that may trap."""
        self.put(place, f"halt = {call};")
        self.add("if (halt != PALS_GOES) { goto trap; }")

    def slot(self, number):
        """The local of a slot."""
        if number < len(self.component.variables):
            return f"v_{self.component.variables[number].name}"
        self.slots.add(number - len(self.component.variables))
        return f"l_{number - len(self.component.variables)}"

    def end_block(self):
        """The end of a loop's block."""
        self.depth -= 1
        self.add("}")

    def at(self, place):
        """The instruction at a place; gives the next place that is written."""
        name, *operands = self.code[place]
        if place not in self.heights:
            if self.ends.get(place) in self.heights:
                self.end_block()
            else:
                self.add(f"/* {place} {instruction_text(self.component, self.code[place])}: no step comes here */")
            return place + 1
        height = self.heights[place]
        pops, pushes = EFFECTS[name]
        self.stack = max(self.stack, height - pops + pushes)
        if name in ("LoopStart", "LoopNext"):
            return self.loop(place, name, operands)
        if pops and pushes:
            self.operator(place, name, f"s{height - pops}", f"s{height - 1}")
        else:
            self.plain(place, name, operands, height)
        return place + 1

    def plain(self, place, name, operands, height):
        """An instruction that is neither an operator nor part of a loop."""
        first, top, next_top = operands[0], f"s{height - 1}", f"s{height}"
        if name == "Push":
            self.put(place, f"{next_top} = {c_number(first)};")
        elif name == "Load":
            self.put(place, f"{next_top} = {self.slot(first)};")
        elif name == "Port":
            self.put(place, f"{next_top} = f->h_{self.component.ins[first].name};")
        elif name == "Fresh":
            self.put(place, f"{next_top} = in[{first}].present ? 1 : 0;")
        elif name == "Store":
            self.put(place, f"{self.slot(first)} = {top};")
        elif name == "Emit":
            self.put(place, f"o_{self.component.outs[first].name} = (pals_value){{{top}, true}};")
        elif name == "Jump":
            self.put(place, f"goto L{first};")
        elif name == "JumpZero":
            self.put(place, f"if ({top} == 0) {{ goto L{first}; }}")
        else:
            self.put(place, f"f->state = {first}; goto done;")

    def operator(self, place, name, left, right):
        """An operator: of one operand `left` and `right` are the same."""
        if name == "Not":
            self.put(place, f"{left} = ({left} == 0) ? 1 : 0;")
        elif name in COMPARED:
            self.put(place, f"{left} = ({left} {COMPARED[name]} {right}) ? 1 : 0;")
        elif name in LOGICAL:
            self.put(place, f"{left} = (({left} != 0) {LOGICAL[name]} ({right} != 0)) ? 1 : 0;")
        elif name in BINARY:
            self.trapping(place, f"pals_{name.lower()}({left}, {right}, &{left})")
        else:
            self.trapping(place, f"pals_{name.lower()}({left}, &{left})")

    def loop(self, place, name, operands):
        """The start or the end of a loop."""
        if name == "LoopNext":
            slot = self.slot(operands[0])
            self.put(place, f"if ({slot} >= {c_number(operands[1])}) {{ break; }}")
            self.add(f"{slot} += 1;")
            self.end_block()
            return place + 1
        _, low, high, leave = operands
        if low > high:
            self.put(place, f"goto L{leave};")
            return leave
        self.put(place, f"{self.slot(operands[0])} = {c_number(low)};")
        self.add("for (;;) {")
        self.depth += 1
        return place + 1


def step_header(component, name=None):
    """The header of a component's step code; the name in C is that of its path if none is given."""
    name = name or c_name(component.path)
    begun = ", ".join(f"{at} {state.name}" for at, state in enumerate(component.states) if state.entry is not None)
    fields = [f"    int64_t v_{it.name};" for it in component.variables]
    fields += [f"    int64_t h_{it.name};" for it in component.ins]
    ins, outs = (", ".join(it.name for it in ports) or "none" for ports in (component.ins, component.outs))
    return "\n".join([
        f"{HEAD}#ifndef PALS_{name.upper()}_H", f"#define PALS_{name.upper()}_H", '#include "pals_step.h"', "",
        f"/* What {component.path} keeps from step to step: variables are v_, the inputs that it holds h_. */",
        "typedef struct {", f"    int32_t state; /* {begun} */",
        "    int32_t halt;  /* PALS_GOES, or the trap that has halted it */", *fields, f"}} {name}_frame;", "",
        f"void {name}_init({name}_frame *f);", "",
        f"/* One step, of {component.most} instructions at most. In: {ins}. Out: {outs}.",
        "   It gives PALS_GOES, or the trap that has halted the component: then no output is present. */",
        f"int32_t {name}_step({name}_frame *f, const pals_value in[], pals_value out[]);", "", "#endif", ""])


def step_source(component, lines=None, name=None):
    """The source of a component's step code. Its comments name instructions, or lines of the design's text."""
    name, body = name or c_name(component.path), Body(component, lines)
    names, ins, outs = component.variables, list(enumerate(component.ins)), list(enumerate(component.outs))
    written = [f"    out[{at}] = o_{it.name};" for at, it in outs]
    return "\n".join([
        f'{HEAD}#include "{name}.h"', "", f"void {name}_init({name}_frame *f)", "{",
        f"    f->state = {component.initial};", "    f->halt = PALS_GOES;",
        *(f"    f->v_{it.name} = {c_number(it.first)};" for it in names),
        *(f"    f->h_{it.name} = 0;" for _, it in ins),
        "}", "", f"int32_t {name}_step({name}_frame *f, const pals_value in[], pals_value out[])", "{",
        "    int32_t halt = f->halt;", *(f"    int64_t v_{it.name} = f->v_{it.name};" for it in names),
        *(f"    int64_t l_{number} = 0;" for number in sorted(body.slots)),
        *(f"    int64_t s{number} = 0;" for number in range(body.stack)),
        *(f"    pals_value o_{it.name} = {{0, false}};" for _, it in outs), "", "    (void)in;", "    (void)out;",
        *written, *(f"    if (in[{at}].present) {{ f->h_{it.name} = in[{at}].number; }}" for at, it in ins),
        "    if (halt != PALS_GOES) { return halt; }", "    switch (f->state) {",
        *(f"    case {at}: goto L{it.entry};" for at, it in enumerate(component.states) if it.entry is not None),
        "    default: halt = PALS_BAD_STATE; goto trap;", "    }", "", *body.lines, "", "done:",
        *(f"    f->v_{it.name} = v_{it.name};" for it in names), *written, "    return PALS_GOES;", "trap:",
        "    f->halt = halt;", "    return halt;", "}", ""])
