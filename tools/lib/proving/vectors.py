"""And-inverter graphs, and arithmetic on vectors of bits.

A literal is twice the number of a node, plus 1 if it is negated: 0 is false, 1 is true. A vector is a list of literals,
the lowest bit first; the last one is the sign. Vectors are as short as their values allow, so no operation overflows.
"""

from ..scenarios.bundles import Refused

FALSE, TRUE = 0, 1
# A graph with more gates than this is rejected before memory runs out: a gate takes some 250 bytes.
MOST_GATES = 6_000_000


class Graph:
    """A graph with inputs, latches and gates, each gate stored once."""

    def __init__(self):
        self.count, self.table, self.gates, self.inputs, self.latches = 1, {}, [], [], []

    def leaf(self, leaves, name):
        """A new input or latch."""
        found = 2 * self.count
        leaves.append((self.count, name))
        self.count += 1
        return found

    def input(self, name):
        """A new input."""
        return self.leaf(self.inputs, name)

    def latch(self, name):
        """A new latch, which is 0 at first."""
        return self.leaf(self.latches, name)

    def both(self, one, two):
        """The conjunction of two literals."""
        if one > two:
            one, two = two, one
        if one == FALSE or one == two ^ 1:
            return FALSE
        if one == TRUE or one == two:
            return two
        found = self.table.get((one, two))
        if found is None:
            if len(self.gates) >= MOST_GATES:
                raise Refused(f"the design is too large: its graph has more than {MOST_GATES:,} gates")
            found = self.table[one, two] = 2 * self.count
            self.gates.append((self.count, one, two))
            self.count += 1
        return found

    def either(self, one, two):
        """The disjunction of two literals."""
        return self.both(one ^ 1, two ^ 1) ^ 1

    def differ(self, one, two):
        """Whether two literals differ."""
        if one < 2 or two < 2:
            return one ^ two
        return self.either(self.both(one, two ^ 1), self.both(one ^ 1, two))

    def pick(self, test, one, two):
        """The first literal if the test is true, else the second one."""
        if one == two or test < 2:
            return one if test or one == two else two
        return self.either(self.both(test, one), self.both(test ^ 1, two))

    def every(self, literals):
        """The conjunction of literals."""
        found = TRUE
        for literal in literals:
            found = self.both(found, literal)
        return found

    def some(self, literals):
        """The disjunction of literals."""
        return self.every(literal ^ 1 for literal in literals) ^ 1

    @staticmethod
    def wide(vector, width):
        """A vector with a given width: extended by its sign, or cut."""
        return vector + [vector[-1]] * (width - len(vector)) if len(vector) < width else vector[:width]

    @staticmethod
    def short(vector):
        """A vector without repeated signs."""
        while len(vector) > 1 and vector[-1] == vector[-2]:
            vector = vector[:-1]
        return vector

    def number(self, value):
        """The vector of a number."""
        return self.short([(value >> at) & 1 for at in range(value.bit_length() + 1)])

    def sum(self, left, right, subtract=0):
        """The sum or the difference of two vectors."""
        width = max(len(left), len(right)) + 1
        found, carry = [], subtract
        for one, two in zip(self.wide(left, width), self.wide(right, width)):
            two ^= subtract
            half = self.differ(one, two)
            found.append(self.differ(half, carry))
            carry = self.either(self.both(one, two), self.both(half, carry))
        return self.short(found)

    def difference(self, left, right):
        """The difference of two vectors."""
        return self.sum(left, right, 1)

    def product(self, left, right):
        """The product of two vectors: a row for each bit of the one with fewer variable bits."""
        if sum(it > 1 for it in right) > sum(it > 1 for it in left):
            left, right = right, left
        width = len(left) + len(right)
        found = [FALSE]
        for at, bit in enumerate(right):
            if bit == FALSE:
                continue
            row = [FALSE] * at + [self.both(bit, it) for it in self.wide(left, width - at)]
            # The sign's row counts negative.
            found = self.wide(self.sum(found, row, int(at == len(right) - 1)), width)
        return self.short(found)

    def choice(self, test, left, right):
        """The first vector if the test is true, else the second one."""
        width = max(len(left), len(right))
        return self.short([self.pick(test, one, two)
                           for one, two in zip(self.wide(left, width), self.wide(right, width))])

    def same(self, left, right):
        """Whether two vectors are equal."""
        width = max(len(left), len(right))
        return self.every(self.differ(one, two) ^ 1
                          for one, two in zip(self.wide(left, width), self.wide(right, width)))

    def less(self, left, right):
        """Whether a vector is less than another."""
        return self.difference(left, right)[-1]

    def within(self, vector, low, high):
        """Whether a vector lies between two numbers."""
        return self.both(self.less(vector, self.number(low)) ^ 1, self.less(self.number(high), vector) ^ 1)

    def fits(self, vector, width):
        """Whether the value of a vector has at most so many bits."""
        return self.every(self.differ(it, vector[width - 1]) ^ 1 for it in vector[width:])

    def size(self, vector):
        """The absolute value of a vector."""
        return self.choice(vector[-1], self.difference([FALSE], vector), vector)

    def divided(self, left, right):
        """The quotient, cut towards zero, and the remainder: a bit of the quotient a row, by subtraction. By a divisor
        of 0 the results have no meaning."""
        numerator, divisor = self.size(left), self.size(right)
        rest, quotient = [FALSE], [FALSE] * len(numerator)
        for at in reversed(range(len(numerator))):
            rest = self.short([numerator[at]] + rest) if rest != [FALSE] else [numerator[at], FALSE]
            less = self.difference(rest, divisor)
            quotient[at] = less[-1] ^ 1
            rest = self.short(self.wide(self.choice(less[-1], rest, less), len(divisor) + 1))
        quotient = self.short(quotient + [FALSE])
        negative = self.differ(left[-1], right[-1])
        return (self.choice(negative, self.difference([FALSE], quotient), quotient),
                self.choice(left[-1], self.difference([FALSE], rest), rest))

    def simulate(self, literals, inputs, latches):
        """The values of literals by the values of inputs and latches, by node."""
        values = {0: 0, **inputs, **latches}
        for node, one, two in self.gates:
            values[node] = (values[one >> 1] ^ one & 1) & (values[two >> 1] ^ two & 1)
        return [values[it >> 1] ^ it & 1 for it in literals]
