"""Strides of the variables of a machine: the numbers that a variable takes leave one rest by one divisor. Like ranges
they are guessed here, and shown by a query before another query assumes them."""

from math import gcd

from .terms import computed, quotient

# A stride (divisor, rest): divisor 0 is the one number `rest`, divisor 1 any number.
ANY = (1, 0)
MOST_DIVISOR = 2**16


def stride(divisor, rest):
    """A stride with the smallest rest."""
    return divisor, rest % divisor if divisor else rest


def joined(one, two):
    """The stride of the numbers of two strides; None has no number."""
    if one is None or two is None:
        return one if two is None else two
    return stride(gcd_of(one[0], two[0], one[1] - two[1]), one[1])


def gcd_of(*numbers):
    """The greatest common divisor of numbers."""
    found = 0
    for number in numbers:
        found = gcd(found, number)
    return found


class Strides:
    """The strides of the Integer variables of a machine, from their first values on."""

    def __init__(self, machine):
        self.machine, self.terms = machine, machine.terms
        self.state = [it for it in machine.next if self.terms.sort(it) == "I"]
        self.strides = {it: (0, self.terms.constant(machine.first[it])) for it in self.state}
        order = self.terms.below(machine.next[it] for it in self.state)
        self.order = [it for it in order if self.terms.sort(it) == "I"]
        while self.round():
            pass

    def round(self):
        """Joins what a round adds; gives whether a stride has changed. A divisor only goes to one of its divisors."""
        found = dict(self.strides)
        for term in self.order:
            if term not in found:
                found[term] = self.stride_of(self.terms.nodes[term], found)
        new = {it: joined(self.strides[it], found[self.machine.next[it]]) for it in self.state}
        changed, self.strides = new != self.strides, new
        return changed

    def stride_of(self, node, found):
        """The stride of a term by the strides of its parts."""
        op = node[1]
        if op == "const":
            return 0, node[2]
        if op == "ite":
            return joined(found[node[3]], found[node[4]])
        if op in ("var", "average"):
            return ANY
        return result_stride(op, found[node[2]], found[node[3]])


def result_stride(op, left, right):
    """The stride of the result of an operator."""
    op = op.split("_")[-1]
    (m, r), (n, s) = left, right
    if not m and not n and (op in ("add", "sub", "mul") or s):
        return 0, computed(op, r, s)
    if op == "add":
        return stride(gcd(m, n), r + s)
    if op == "sub":
        return stride(gcd(m, n), r - s)
    if op == "mul":
        return stride(gcd_of(m * n, m * s, n * r), r * s)
    if n or not s:
        return ANY
    if op == "quot":
        return stride(m // abs(s), quotient(r, s)) if m % s == 0 and r % s == 0 else ANY
    return stride(gcd(m, s), r)


def strides_of(machine):
    """The strides that are worth a query: divisors from 2 on that are not too large."""
    return {it: found for it, found in Strides(machine).strides.items() if 2 <= found[0] <= MOST_DIVISOR}


def aligned(bounds, found):
    """A range without the numbers at its ends that a stride does not have."""
    divisor, rest = found
    return bounds[0] + (rest - bounds[0]) % divisor, bounds[1] - (bounds[1] - rest) % divisor
