"""C of what nodes need of a design: a table and the memory for each component, and the design as a whole."""

from ..language.listing import FORM, name_of_link
from .c_step import HEAD, c_names

# The bounds of the platform, in the order of a listing.
BOUNDS = ("skew", "execution_least", "execution_most", "network_least", "network_most")


def flag(kind):
    """Whether a kind is that of Booleans, in C."""
    return "true" if kind == "Boolean" else "false"


def table(kind, name, rows):
    """A table, or nothing if it has no rows."""
    return [f"static const {kind} {name}[] = {{", *(f"    {row}," for row in rows), "};"] if rows else []


def adaptor(text, source, target):
    """The place and the name of an adaptor between two rates."""
    group = max(source, target) // min(source, target)
    word, _, place = (text or "same").partition(" ")
    places = {"first": 1, "last": group, "at": int(place or 0)}
    return f"{places[word] - 1}, PALS_AT" if word in places else f"0, PALS_{word.upper()}"


class Tables:
    """The C of the tables of one design."""

    def __init__(self, design, identity, chosen=None, short=False):
        self.design, self.identity, self.names = design, identity, c_names(design, short)
        self.chosen = range(len(design.components)) if chosen is None else chosen
        self.inputs = list(dict.fromkeys(it.name for it in design.inputs))

    def links_to(self, number):
        """The links to a component, with their numbers."""
        return [(at, it) for at, it in enumerate(self.design.links) if it.target[0] == number]

    def rate(self, number):
        """The rate of a component."""
        return self.design.components[number].rate

    def kind_of(self, end):
        """The kind of an in port."""
        return self.design.components[end[0]].ins[end[1]].kind

    def node_header(self, number):
        """The header of a component's node."""
        component, name = self.design.components[number], self.names[number]
        rates = [self.rate(link.source[0]) for _, link in self.links_to(number)]
        slots, links = max(1, sum(rates)), max(1, len(rates))
        ins, outs = (max(1, component.rate * len(ports)) for ports in (component.ins, component.outs))
        return "\n".join([
            f"{HEAD}#ifndef PALS_{name.upper()}_NODE_H", f"#define PALS_{name.upper()}_NODE_H",
            f'#include "{name}.h"', '#include "pals_lines.h"', '#include "pals_node.h"', "",
            f"extern const pals_component {name}_component;", "",
            f"/* All that the node of {component.path} keeps. */", "typedef struct {", "    pals_node node;",
            f"    {name}_frame frame;", f"    pals_value slots[{slots}];", f"    bool full[{links}];",
            f"    pals_value ins[{ins}];", f"    pals_value outs[{outs}];",
            f"    pals_value values[{max(1, component.rate, len(component.outs))}];", f"}} {name}_node;", "",
            f"/* What the node of {component.path} saves of a round: only for {name}_save_at. */",
            "typedef struct {", "    pals_checkpoint of;", f"    {name}_frame frame;",
            f"    pals_value slots[{slots}];", f"}} {name}_saved;", "",
            "/* Lets the node save what a round begins with (pals_save_at), for pals_resume. */",
            f"static inline void {name}_save_at({name}_node *of, {name}_saved *to, uint64_t round)", "{",
            "    to->of = (pals_checkpoint){.frame = &to->frame, .slots = to->slots};",
            "    pals_save_at(&of->node, &to->of, round);", "}", "",
            "/* The node before its first round, of a run of `rounds` rounds; 0: no end. */",
            f"pals_node *{name}_open({name}_node *of, const pals_hooks *hooks, void *user, uint64_t rounds);", "",
            "#endif", ""])

    def rows(self, number):
        """The tables of a component: the kind, the name and the rows of each."""
        component, rate = self.design.components[number], self.rate(number)
        links = [(at, link, self.rate(link.source[0])) for at, link in self.links_to(number)]
        inputs = [it for it in self.design.inputs if it.target[0] == number]
        targets = [(at, it) for at, it in enumerate(self.design.links) if it.source[0] == number]
        taps = [(at, it) for at, it in enumerate(self.design.outputs) if it.source[0] == number]
        return {
            "links": ("pals_source", [
                f"{{{at}, {it.target[1]}, {sent}, {adaptor(it.adaptor, sent, rate)}, {flag(self.kind_of(it.target))}}}"
                for at, it, sent in links]),
            "inputs": ("pals_source", [
                f"{{{self.inputs.index(it.name)}, {it.target[1]}, 1, {adaptor(it.adaptor, 1, rate)}, "
                f"{flag(self.kind_of(it.target))}}}" for it in inputs]),
            "targets": ("pals_target", [f"{{{at}, {it.source[1]}}}" for at, it in targets]),
            "outputs": ("pals_target", [f"{{{at}, {it.source[1]}}}" for at, it in taps]),
            "taps": ("pals_tap", [f'{{"{it.name}", {it.source[1]}, {flag(component.outs[it.source[1]].kind)}, {at}}}'
                                  for at, it in taps]),
            "states": ("char *const", [f'"{it.name}"' for it in component.states]),
            "variables": ("pals_variable", [f'{{"{it.name}", {flag(it.kind)}}}' for it in component.variables]),
        }

    def node_source(self, number):
        """The source of a component's node."""
        component, rows = self.design.components[number], self.rows(number)
        name, period = self.names[number], self.design.period
        tables = [line for word, (kind, lines) in rows.items() for line in table(kind, f"{name}_{word}", lines)]
        at = {word: f"{name}_{word}" if lines else "NULL" for word, (_, lines) in rows.items()}
        many = {word: len(lines) for word, (_, lines) in rows.items()}
        return "\n".join([
            f'{HEAD}#include "{name}_node.h"', "#include <stddef.h>", "", *tables, "", *accessors(component, name),
            f"static const pals_names {name}_names = {{",
            f"    {at['states']}, {at['variables']}, {many['taps']}, {at['taps']},",
            f"    {name}_state_of, {name}_value_of", "};", "",
            f"const pals_component {name}_component = {{",
            f'    "{component.path}", UINT64_C(0x{self.identity}), {component.rate}, {component.sent},',
            f"    INT64_C({period}), INT64_C({period // component.rate}), INT64_C({component.release}),",
            f"    {len(component.ins)}, {len(component.outs)}, {len(component.variables)},",
            f"    {many['links']}, {many['inputs']}, {many['targets']},",
            f"    {at['links']}, {at['inputs']}, {at['targets']}, {at['outputs']}, {many['outputs']},",
            f"    (uint32_t)sizeof({name}_frame),",
            f"    {name}_init_of, {name}_step_of, &{name}_names", "};", "",
            f"pals_node *{name}_open({name}_node *of, const pals_hooks *hooks, void *user, uint64_t rounds)", "{",
            "    const pals_memory memory = {&of->frame, of->slots, of->full, of->ins, of->outs,",
            "                                of->values};",
            f"    pals_open(&of->node, &{name}_component, &memory, hooks, user, rounds);", "    return &of->node;", "}",
            ""])

    def is_near(self, link):
        """Whether a link begins or ends at a chosen component."""
        return link.source[0] in self.chosen or link.target[0] in self.chosen

    def link_rows(self):
        """The rows of the links by their numbers; the rows of other links are empty."""
        return [f'{{"{name_of_link(self.design, it)}", {it.source[0]}, {it.target[0]}, {self.rate(it.source[0])}}}'
                if self.is_near(it) else "{NULL, 0, 0, 0}" for it in self.design.links]

    def paths(self):
        """The paths of the components by their numbers: the chosen ones, and those at the other end of their links."""
        ends = {end for it in self.design.links if self.is_near(it) for end in (it.source[0], it.target[0])}
        return [f'"{it.path}"' if number in ends or number in self.chosen else "NULL"
                for number, it in enumerate(self.design.components)]

    def links_of(self):
        """The function with the links of each chosen component."""
        yield from ("const uint32_t *pals_links_of(uint32_t number, uint32_t *count)", "{")
        found = {number: [str(at) for at, it in enumerate(self.design.links) if number in (it.source[0], it.target[0])]
                 for number in self.chosen}
        found = {number: links for number, links in found.items() if links}
        yield from (f"    static const uint32_t LINKS_OF_{number}[] = {{{', '.join(links)}}};"
                    for number, links in found.items())
        yield from ("    *count = 0;", "    switch (number) {")
        yield from (f"    case {number}: *count = {len(links)}; return LINKS_OF_{number};"
                    for number, links in found.items())
        yield from ("    default: return NULL;", "    }", "}")

    def design_source(self):
        """The source of the whole design, or of the parts that the chosen components need."""
        design = self.design
        names = {at: self.names[at] for at in self.chosen}
        kinds = {it.name: self.kind_of(it.target) for it in design.inputs}
        inputs = [f'{{"{name}", {flag(kinds[name])}}}' for name in self.inputs]
        counts = {"nodes": design.components, "links": design.links, "inputs": inputs, "outputs": design.outputs}
        numbers = [("uint32_t", name, len(found)) for name, found in counts.items()]
        times = (design.skew, *design.execution, *design.network)
        numbers += [("int64_t", *it) for it in zip(BOUNDS, times)]
        components = [f"&{names[at]}_component" if at in names else "NULL" for at in range(len(design.components))]
        outputs = [f'"{it.name}"' for it in design.outputs]
        return "\n".join([
            f'{HEAD}#include "design.h"', *(f'#include "{name}_node.h"' for name in names.values()),
            "#include <stddef.h>", "", f"const uint64_t pals_design = UINT64_C(0x{self.identity});",
            *(f"const {kind} pals_{name} = {number};" for kind, name, number in numbers),
            "const pals_component *const pals_component_of[] = {", *(f"    {it}," for it in components), "};",
            "const char *const pals_path_of[] = {", *(f"    {it}," for it in self.paths()), "};",
            "const pals_link pals_link_of[] = {", *(f"    {row}," for row in self.link_rows() or ["{NULL, 0, 0, 0}"]),
            "};",
            "const pals_input pals_input_of[] = {", *(f"    {row}," for row in inputs or ["{NULL, false}"]), "};",
            "const char *const pals_output_of[] = {", *(f"    {it}," for it in outputs or ["NULL"]), "};",
            "", *self.links_of(), "",
            "pals_node *pals_open_node(uint32_t number, const pals_hooks *hooks, void *user, uint64_t rounds)", "{",
            *(f"    static {name}_node node_of_{name};" for name in names.values()),
            "    switch (number) {",
            *(f"    case {at}: return {name}_open(&node_of_{name}, hooks, user, rounds);"
              for at, name in names.items()),
            "    default: return NULL;", "    }", "}", ""])


DESIGN_HEADER = f"""{HEAD}#ifndef PALS_DESIGN_H
#define PALS_DESIGN_H
#include "pals_lines.h"
#include "pals_node.h"

/* A link, named by the in port that it goes to, with the numbers of the nodes at its ends, and how many values its
   messages have. */
typedef struct {{
    const char *name;
    uint32_t source;
    uint32_t target;
    uint32_t rate;
}} pals_link;

/* An in port of the root. */
typedef struct {{
    const char *name;
    bool boolean;
}} pals_input;

/* The identity of the design: the first 64 bits of the SHA-256 of its listing, whose form is PALS_LISTING. */
#define PALS_LISTING "{FORM}"
extern const uint64_t pals_design;

/* With tools/code2c --for the tables have the rows of the components that were chosen and of their links, and NULL for
   all others; the numbers are those of the whole design. */
extern const uint32_t pals_nodes;
extern const uint32_t pals_links;
extern const uint32_t pals_inputs;
extern const uint32_t pals_outputs;
extern const pals_component *const pals_component_of[];
extern const char *const pals_path_of[];
extern const char *const pals_output_of[];
extern const pals_link pals_link_of[];
extern const pals_input pals_input_of[];

/* The bounds of the platform, in nanoseconds. */
extern const int64_t pals_skew;
extern const int64_t pals_execution_least;
extern const int64_t pals_execution_most;
extern const int64_t pals_network_least;
extern const int64_t pals_network_most;

/* The numbers of the links from and to the node of a number, and how many there are. */
const uint32_t *pals_links_of(uint32_t number, uint32_t *count);

/* The node of the component of a number, in memory of its own; NULL where there is none. */
pals_node *pals_open_node(uint32_t number, const pals_hooks *hooks, void *user, uint64_t rounds);

#endif
"""


def accessors(component, name):
    """The adapters between a component's own calls and the calls of any node."""
    own, shown = f"({name}_frame *)frame", f"((const {name}_frame *)frame)"
    values = [f"    case {at}: return {shown}->v_{it.name};" for at, it in enumerate(component.variables)]
    of_variables = ["    switch (variable) {", *values, "    default: return 0;", "    }"]
    return [
        f"static void {name}_init_of(void *frame)", "{", f"    {name}_init({own});", "}", "",
        f"static int32_t {name}_step_of(void *frame, const pals_value in[], pals_value out[])", "{",
        f"    return {name}_step({own}, in, out);", "}", "",
        f"static int32_t {name}_state_of(const void *frame, int32_t *halt)", "{",
        f"    *halt = {shown}->halt;", f"    return {shown}->state;", "}", "",
        f"static int64_t {name}_value_of(const void *frame, uint32_t variable)", "{",
        *(of_variables if values else ["    (void)frame;", "    (void)variable;", "    return 0;"]), "}", ""]
