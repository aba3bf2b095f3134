"""C that runs many scenarios of a design: its step code, inputs at random and its properties, in one program."""

from ..nodes.c_step import c_name, c_number
from ..nodes.c_tables import adaptor, flag

MASK = 2**64 - 1
# The constants of the generator of random numbers (SplitMix64).
GAMMA, MIX = 0x9E3779B97F4A7C15, (0xBF58476D1CE4E5B9, 0x94D049BB133111EB)
OPERATORS = ("not", "and", "or", "previous", "once", "historically", "since")
HEAD = """#include <inttypes.h>
#include <stdio.h>
#include <stdlib.h>
#include <string.h>

static uint64_t state;

static uint64_t mixed(uint64_t z)
{
    z = (z ^ (z >> 30)) * UINT64_C(0xBF58476D1CE4E5B9);
    z = (z ^ (z >> 27)) * UINT64_C(0x94D049BB133111EB);
    return z ^ (z >> 31);
}

static inline uint64_t draw(void)
{
    state += UINT64_C(0x9E3779B97F4A7C15);
    return mixed(state);
}
"""
MAIN = """
int main(int count, char **words)
{
    if (count == 5 && strcmp(words[1], "search") == 0) {
        const uint64_t first = strtoull(words[2], NULL, 10);
        const uint64_t end = strtoull(words[3], NULL, 10);
        const uint64_t stride = strtoull(words[4], NULL, 10);
        for (uint64_t number = first; number < end; number += stride) {
            make(number);
            const int round = run(false);
            if (round >= 0) {
                printf("%" PRIu64 " %s %d\\n", number, names[which], round);
                return 0;
            }
        }
        return 0;
    }
    for (int at = 2; at < count; at++) {
        make(strtoull(words[at], NULL, 10));
        run(true);
        printf("end\\n");
    }
    return 0;
}
"""


def mixed(number):
    """The function of the generator that mixes a number."""
    number = (number ^ number >> 30) * MIX[0] & MASK
    number = (number ^ number >> 27) * MIX[1] & MASK
    return number ^ number >> 31


def inputs_of(ports, rounds, seed, number):
    """The inputs of a scenario by its number, as the program makes them."""
    state, found = mixed(seed ^ mixed(number)), {}
    for name, values in ports.items():
        row = []
        for _ in range(rounds):
            state = (state + GAMMA) & MASK
            row.append(values.take(mixed(state) % values.count))
        found[name] = row
    return found


def value_text(value):
    """A value of an input in C."""
    return "PALS_ABSENT" if value is None else f"{{{c_number(int(value))}, true}}"


class Program:
    """The text of the program of one design. `ports` has the values of the inputs that vary, `given` the others."""

    def __init__(self, design, ports, given, rounds, seed, properties):
        self.design, self.ports, self.given, self.rounds, self.seed = design, ports, given, rounds, seed
        self.properties, self.names = properties, [c_name(it.path) for it in design.components]
        self.inputs = list(ports) + [it for it in dict.fromkeys(it.name for it in design.inputs) if it not in ports]
        self.bits, self.updates, self.count = [], [], 0

    def text(self):
        """The whole text."""
        includes = [f'#include "{name}.c"' for name in self.names]
        return "\n".join(['#include "pals_adaptor.c"', *includes, HEAD, f"enum {{ ROUNDS = {self.rounds} }};", "",
                          *self.inputs_text(), *self.data(), *self.show(), *self.run(), MAIN])

    def inputs_text(self):
        """The inputs of a scenario, and how they are made."""
        found = [f"static pals_value inputs[{max(1, len(self.inputs))}][ROUNDS];"]
        for at, values in enumerate(self.ports.values()):
            found += ["", f"static pals_value take_{at}(uint64_t at)", "{"]
            for part in values.parts[:-1]:
                found += [f"    if (at < UINT64_C({part.count})) {{ {self.taken(part)} }}",
                          f"    at -= UINT64_C({part.count});"]
            found += ["    (void)at;", f"    {self.taken(values.parts[-1])}", "}"]
        for at, name in enumerate(self.inputs[len(self.ports):], len(self.ports)):
            row = (list(self.given.get(name, [])) + [None] * self.rounds)[: self.rounds]
            found.append(f"static const pals_value given_{at}[ROUNDS] = {{{', '.join(map(value_text, row))}}};"
                         .replace("PALS_ABSENT", "{0, false}"))
        found += ["", "static void make(uint64_t number)", "{",
                  f"    state = mixed(UINT64_C({self.seed}) ^ mixed(number));"]
        for at, values in enumerate(self.ports.values()):
            found.append(f"    for (int r = 0; r < ROUNDS; r++) {{ inputs[{at}][r] = "
                         f"take_{at}(draw() % UINT64_C({values.count})); }}")
        found += [f"    memcpy(inputs[{at}], given_{at}, sizeof given_{at});"
                  for at in range(len(self.ports), len(self.inputs))]
        return found + ["}", ""]

    @staticmethod
    def taken(part):
        """The value at a place of a part of values."""
        if hasattr(part, "first"):
            return f"return (pals_value){{(int64_t)((uint64_t){c_number(part.first)} + at), true}};"
        return "return PALS_ABSENT;" if part.value is None else f"return (pals_value){{{int(part.value)}, true}};"

    def data(self):
        """The frames, the values that each component sends, and the messages of the round before."""
        found = []
        for name, it in zip(self.names, self.design.components):
            found += [f"static {name}_frame f_{name};",
                      f"static pals_value out_{name}[{it.rate}][{max(1, len(it.outs))}];",
                      f"static pals_value old_{name}[{max(1, len(it.outs))}][{it.rate}];"]
        names = "{" + ", ".join(f'"{name}"' for name in sorted(self.properties)) + "}"
        return found + [f"static const char *const names[] = {names};", "static int which;", ""]

    def show(self):
        """The row of a round, as `sync` writes it."""
        found = ["static void show_value(const char *name, int64_t value, bool boolean)", "{",
                 "    if (boolean) { printf(\"%s%s\", name, value ? \"true\" : \"false\"); }",
                 "    else { printf(\"%s%\" PRId64, name, value); }", "}", "", "static void show(int round)", "{",
                 "    static const char *const halts[] = {\"\", \"halted(overflow)\", \"halted(zero-divisor)\", \"\"};",
                 '    printf("round %d\\n", round);']
        for name, it in zip(self.names, self.design.components):
            states = ", ".join(f'"{state.name}"' for state in it.states)
            found += ["    {", f"        static const char *const states[] = {{{states}}};",
                      f"        const {name}_frame *f = &f_{name};",
                      f'        printf("{it.path} %s", f->halt ? halts[f->halt] : states[f->state]);']
            found += [f'        show_value(" {var.name}=", f->v_{var.name}, {flag(var.kind)});' for var in it.variables]
            found += ['        printf("\\n");', "    }"]
        for it in self.design.outputs:
            number, port = it.source
            component = self.design.components[number]
            found += [f"    for (int i = 0; i < {component.rate}; i++) {{",
                      f'        const char *before = i ? "," : "out {it.name} (";',
                      f"        const pals_value *v = &out_{self.names[number]}[i][{port}];",
                      '        if (!v->present) { printf("%s_", before); }',
                      f"        else {{ show_value(before, v->number, {flag(component.outs[port].kind)}); }}",
                      "    }", '    printf(")\\n");']
        return found + ["}", ""]

    def run(self):
        """One scenario: the first round in which a property is false, or -1."""
        checks = self.checks()
        found = ["static int run(bool shows)", "{"]
        found += [f"    {name}_init(&f_{name});\n    memset(old_{name}, 0, sizeof old_{name});" for name in self.names]
        found += [f"    bool {name} = {str(first).lower()};" for name, first in self.bits]
        found += ["    for (int r = 0; r < ROUNDS; r++) {"]
        for number in range(len(self.names)):
            found += self.steps(number)
        for name, it in zip(self.names, self.design.components):
            for port in range(len(it.outs)):
                moved = f"old_{name}[{port}][i] = out_{name}[i][{port}];"
                found.append(f"        for (int i = 0; i < {it.sent}; i++) {{ {moved} }}")
        return found + ["        if (shows) { show(r); continue; }", *checks, *self.updates, "    }", "    return -1;",
                        "}"]

    def steps(self, number):
        """The steps of a component in a round."""
        name, it = self.names[number], self.design.components[number]
        reads, sources = [], []
        for port in range(len(it.ins)):
            source, message, rate = self.source(number, port)
            if source is None:
                reads.append(f"            in[{port}] = PALS_ABSENT;")
            else:
                made = f"{{0, {port}, {rate}, {source}, false}}"
                sources.append(f"            static const pals_source s{port} = {made};")
                reads.append(f"            in[{port}] = pals_read(&s{port}, {it.rate}, (uint32_t)i, {message});")
        return [f"        for (int i = 0; i < {it.rate}; i++) {{", f"            pals_value in[{max(1, len(it.ins))}];",
                *sources, *reads, f"            {name}_step(&f_{name}, in, out_{name}[i]);", "        }"]

    def source(self, number, port):
        """What an in port reads: place and adaptor, the message, and the rate of its source."""
        design = self.design
        for link in design.links:
            if link.target == (number, port):
                sender, out = link.source
                rate = design.components[sender].rate
                return (adaptor(link.adaptor, rate, design.components[number].rate),
                        f"old_{self.names[sender]}[{out}]", rate)
        for it in design.inputs:
            if it.target == (number, port):
                return (adaptor(it.adaptor, 1, design.components[number].rate),
                        f"&inputs[{self.inputs.index(it.name)}][r]", 1)
        return None, None, None

    def checks(self):
        """The statements that compute the properties after a round; the first false one by its name counts."""
        found = []
        for at, name in enumerate(sorted(self.properties)):
            value = self.formula(self.properties[name], found)
            found.append(f"        const bool p{at} = {value};")
        return found + [f"        if (!p{at}) {{ which = {at}; return r; }}" for at in range(len(self.properties))]

    def formula(self, form, found):
        """The value of a formula; its parts are computed before it, and its bit is stored for the next round."""
        op = form[0]
        if op not in OPERATORS:
            return self.leaf(form)
        parts = [self.formula(it, found) for it in form[1:]]
        self.count += 1
        value, bit = f"t{self.count}", f"b{self.count}"
        text = {"not": "!{0}", "and": "({0} & {1})", "or": "({0} | {1})", "previous": bit, "once": f"({bit} | {{0}})",
                "historically": f"({bit} & {{0}})", "since": f"({{1}} | ({{0}} & {bit}))"}[op].format(*parts)
        found.append(f"        const bool {value} = {text};")
        if op not in ("not", "and", "or"):
            self.bits.append((bit, op == "historically"))
            self.updates.append(f"        {bit} = {parts[0] if op == 'previous' else value};")
        return value

    @staticmethod
    def leaf(form):
        """A formula without parts that are formulas."""
        frame = f"f_{c_name(form[1])}"
        if form[0] == "halted":
            return f"({frame}.halt != PALS_GOES)"
        return f"({frame}.v_{form[2]} {'==' if form[3] == '=' else form[3]} {c_number(form[4])})"
