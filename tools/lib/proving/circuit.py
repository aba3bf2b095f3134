"""A machine as a circuit of bits: the graph that engines get, in the form AIGER."""

from ..language.listing import GREATEST, LEAST
from .vectors import TRUE, Graph


class Query:
    """A question on a machine: which of the `bad` terms can be true in some round, while the `assumed` terms have been
    true in each round up to it.

    `facts` has the ranges of inputs, and the ranges and strides of variables of the state, which are assumed before
    each round. With `paths` the circuit has only those components: the variables of others are free within their
    ranges. With `leaves` the question is whether a round can leave the ranges and strides."""

    def __init__(self, bad, assumed, facts, paths=None, leaves=False):
        self.bad, self.assumed, self.facts, self.paths, self.leaves = bad, assumed, facts, paths, leaves


class Facts:
    """Ranges (smallest and largest value) and strides (divisor and rest) of variables."""

    def __init__(self, ranges, strides=None):
        self.ranges, self.strides = ranges, strides or {}

    def __contains__(self, variable):
        return variable in self.ranges or variable in self.strides

    def hold(self, variable, value):
        """Whether a value is one that a variable may have."""
        low, high = self.ranges.get(variable, (value, value))
        divisor, rest = self.strides.get(variable, (1, 0))
        return low <= value <= high and (value - rest) % divisor == 0


class Circuit:
    """The graph of a query: a latch for each bit of the state and one that is set when an assumption has failed; an
    output for each bad term. `stem` is the path of its files, without an ending."""

    def __init__(self, machine, query, stem=None):
        self.machine, self.terms, self.query, self.stem, self.graph = machine, machine.terms, query, stem, Graph()
        self.bits = {}
        roots = [*query.bad, *query.assumed]
        self.kept = self.variables([it for it in machine.next if it in query.facts] if query.leaves else roots)
        self.constant = {it for it in self.kept if len(set(query.facts.ranges.get(it, (0, 1)))) == 1}
        self.order = self.terms.below([machine.next[it] for it in self.kept] + roots)
        self.make_latches()
        for term in self.order:
            if term not in self.bits:
                self.bits[term] = self.blasted(term)
        self.connect()

    def is_cut(self, variable):
        """Whether a variable of the state is free, since its component is omitted."""
        paths, owner = self.query.paths, self.machine.owner[variable]
        return paths is not None and owner is not None and owner not in paths

    def variables(self, roots):
        """The variables of the state that some terms depend on, without cut variables and the variables before them."""
        found, todo = set(), list(roots)
        while todo:
            new = [it for it in self.terms.below(todo)
                   if it in self.machine.next and it not in found and not self.is_cut(it)]
            found.update(new)
            todo = [self.machine.next[it] for it in new]
        return sorted(found)

    def first_bits(self, variable):
        """The bits of the first value of a variable."""
        first = self.terms.constant(self.machine.first[variable])
        if self.terms.sort(variable) == "B":
            return [int(first)]
        return [(first >> at) & 1 for at in range(self.width(variable))]

    def first_bit(self, name, bit):
        """The first value of a bit of the state, by its name."""
        return self.firsts.get((name, bit), 0)

    def width(self, variable):
        """How many bits a number has."""
        bounds = self.machine.bounds.get(variable, (LEAST, GREATEST))
        return 1 + max((it if it >= 0 else ~it).bit_length() for it in self.query.facts.ranges.get(variable, bounds))

    def make_latches(self):
        """Makes the latches of the state; they are 0 at first, so a latch whose first bit is 1 is stored negated."""
        graph, terms = self.graph, self.terms
        self.firsts = {}
        for variable in self.kept:
            first = self.first_bits(variable)
            self.firsts.update({(terms.name(variable), at): bit for at, bit in enumerate(first)})
            if variable in self.constant:
                self.bits[variable] = first[0] if terms.sort(variable) == "B" else graph.short(first)
                continue
            found = [graph.latch((terms.name(variable), at)) ^ bit for at, bit in enumerate(first)]
            self.bits[variable] = found[0] if terms.sort(variable) == "B" else found
        self.failed = graph.latch(("failed", 0))

    def connect(self):
        """Makes the outputs, and the next value of each latch."""
        graph, machine = self.graph, self.machine
        here = [self.in_range(it, self.bits[it]) for it in machine.next if it in self.bits]
        good = graph.every([self.failed ^ 1, *here, *(self.bits[it] for it in self.query.assumed)])
        bad = [self.bits[it] for it in self.query.bad]
        if self.query.leaves:
            after = graph.every(self.in_range(it, self.bits[machine.next[it]]) for it in self.kept)
            bad.append(after ^ 1)
        self.outputs = [graph.both(good, it) for it in bad]
        self.nexts = []
        for variable in self.kept:
            if variable not in self.constant:
                after = self.bits[machine.next[variable]]
                after = [after] if self.terms.sort(variable) == "B" else graph.wide(after, self.width(variable))
                self.nexts += [bit ^ first for bit, first in zip(after, self.first_bits(variable))]
        self.nexts.append(good ^ 1)
        self.prune()

    def prune(self):
        """Drops the latches and the gates that no output depends on."""
        graph = self.graph
        parts = {node: (one >> 1, two >> 1) for node, one, two in graph.gates}
        parts.update((node, (after >> 1,)) for (node, _), after in zip(graph.latches, self.nexts))
        needed, todo = set(), [it >> 1 for it in self.outputs]
        while todo:
            node = todo.pop()
            if node not in needed:
                needed.add(node)
                todo += parts.get(node, ())
        kept = [(latch, after) for latch, after in zip(graph.latches, self.nexts) if latch[0] in needed]
        graph.latches, self.nexts = [latch for latch, _ in kept], [after for _, after in kept]
        graph.gates = [gate for gate in graph.gates if gate[0] in needed]

    def in_range(self, variable, bits):
        """Whether a value lies in the range of a variable, and has its stride."""
        facts = self.query.facts
        if self.terms.sort(variable) == "B":
            low, high = facts.ranges.get(variable, (0, 1))
            return TRUE if low != high else bits ^ 1 ^ int(low)
        found = TRUE
        if variable in facts.ranges:
            found = self.graph.within(bits, *facts.ranges[variable])
        if variable in facts.strides:
            divisor, rest = facts.strides[variable]
            above = self.graph.difference(bits, self.graph.number(rest))
            left = self.graph.divided(above, self.graph.number(divisor))[1]
            found = self.graph.both(found, self.graph.same(left, [0]))
        return found

    def blasted(self, term):
        """The bits of a term by the bits of its parts: a literal of a truth value, a vector of a number."""
        graph, node = self.graph, self.terms.nodes[term]
        sort, op, args = node[0], node[1], node[2:]
        if op == "const":
            return int(args[0]) if sort == "B" else graph.number(args[0])
        if op == "var":
            if sort == "B":
                return graph.input((term, 0))
            return [graph.input((term, at)) for at in range(self.width(term))]
        parts = [self.bits[it] for it in args]
        if op == "not":
            return parts[0] ^ 1
        if op == "and":
            return graph.every(parts)
        if op == "ite":
            return graph.pick(*parts) if sort == "B" else graph.choice(*parts)
        if op == "average":
            return self.average(parts)
        if sort == "B":
            return self.condition(op, parts, self.terms.sort(args[0]))
        return self.number(op, *parts)

    def condition(self, op, parts, sort):
        """A comparison, or whether an operator overflows."""
        graph = self.graph
        if op == "eq":
            return graph.differ(*parts) ^ 1 if sort == "B" else graph.same(*parts)
        if op == "lt":
            return graph.less(*parts)
        if op == "le":
            return graph.less(parts[1], parts[0]) ^ 1
        result = self.number(f"exact_{op[len('overflow_'):]}", *parts)
        return graph.fits(result, 64) ^ 1 if len(result) > 64 else 0

    def number(self, op, left, right):
        """An arithmetic operator."""
        graph = self.graph
        exact = {"add": graph.sum, "sub": graph.difference, "mul": graph.product}
        if op.startswith("exact_"):
            return exact[op[len("exact_"):]](left, right)
        if op in exact:
            return graph.short(exact[op](left, right)[:64])
        quotient, rest = graph.divided(left, right)
        if op == "quot":
            return graph.short(quotient[:64])
        if op == "mod":
            other = graph.both(graph.same(rest, [0]) ^ 1, graph.differ(left[-1], right[-1]))
            rest = graph.choice(other, graph.sum(rest, right), rest)
        return graph.short(rest[:64])

    def average(self, parts):
        """The average of the values that are present."""
        graph = self.graph
        total, count = [0], [0]
        for present, value in zip(parts[::2], parts[1::2]):
            total = graph.sum(total, graph.choice(present, value, [0]))
            count = graph.sum(count, [present, 0])
        found = total
        for number in range(2, len(parts) // 2 + 1):
            divided = graph.divided(total, graph.number(number))[0]
            found = graph.choice(graph.same(count, graph.number(number)), divided, found)
        return graph.short(found[:64])

    def numbered(self):
        """The number of each node in AIGER: inputs, then latches, then gates."""
        graph = self.graph
        found = {0: 0}
        for node, _ in graph.inputs + graph.latches:
            found[node] = len(found)
        for node, _, _ in graph.gates:
            found[node] = len(found)
        return found

    def aiger(self):
        """The graph in the binary form of AIGER."""
        graph, number = self.graph, self.numbered()

        def literal(bit):
            return 2 * number[bit >> 1] + (bit & 1)

        sizes = (len(number) - 1, len(graph.inputs), len(graph.latches), len(self.outputs), len(graph.gates))
        found = bytearray("aig {} {} {} {} {}\n".format(*sizes).encode())
        for bit in self.nexts + self.outputs:
            found += f"{literal(bit)}\n".encode()
        for node, one, two in graph.gates:
            own, one, two = 2 * number[node], literal(one), literal(two)
            one, two = max(one, two), min(one, two)
            for difference in (own - one, one - two):
                while difference > 127:
                    found.append(difference & 127 | 128)
                    difference >>= 7
                found.append(difference)
        return bytes(found)

    def write(self):
        """Writes the graph to its file."""
        with open(f"{self.stem}.aig", "wb") as file:
            file.write(self.aiger())

    def inputs_of(self, rows):
        """The inputs of the root in a counterexample, by port: `rows` has a text of bits for each round."""
        found = {}
        for port, (kind, present, value) in self.machine.inputs.items():
            places = {it: [(bit, at) for at, (_, (term, bit)) in enumerate(self.graph.inputs) if term == it]
                      for it in (present, value)}
            found[port] = [self.value_in(row, kind, places[present], places[value]) for row in rows]
            while found[port] and found[port][-1] is None:
                found[port].pop()
        return found

    @staticmethod
    def value_in(row, kind, present, value):
        """The value of an input in a round; None if it is absent."""
        if not any(row[at] == "1" for _, at in present):
            return None
        number = sum((row[at] == "1") << bit for bit, at in value)
        if kind == "Boolean":
            return bool(number)
        return number - (2 << (len(value) - 1)) * (bool(value) and row[value[-1][1]] == "1")
