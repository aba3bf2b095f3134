"""Terms over integers and truth values, each stored once and simplified when it is made."""

from ..language.listing import GREATEST, LEAST
from ..scenarios.bundles import Refused

# The two sorts of terms.
INTEGER, BOOLEAN = "I", "B"
# A design with more terms than this is rejected before memory runs out: a term takes some 300 bytes.
MOST_TERMS = 3_000_000
FLIPPED = {"ne": "eq", "gt": "le", "ge": "lt"}


def quotient(x, y):
    """The quotient of two numbers, cut towards zero."""
    return abs(x) // abs(y) * (1 if (x < 0) == (y < 0) else -1)


def computed(op, x, y):
    """The exact result of an operator on two numbers, of which a divisor is not 0."""
    if op in ("add", "sub", "mul"):
        return {"add": x + y, "sub": x - y, "mul": x * y}[op]
    return {"quot": quotient(x, y), "mod": x % y, "rem": x - y * quotient(x, y)}[op]


def compared(op, x, y):
    """The result of a comparison of two values."""
    return {"eq": x == y, "lt": x < y, "le": x <= y}[op]


def compared_words(op, x, y):
    """The result of any of the six comparisons."""
    return not compared(FLIPPED[op], x, y) if op in FLIPPED else compared(op, x, y)


class Terms:
    """The table of terms. A term is its number; the parts of a term have lower numbers."""

    def __init__(self):
        self.table, self.nodes = {}, []

    def make(self, sort, op, *args):
        """The term with a sort, an operator and parts."""
        key = (sort, op) + args
        found = self.table.get(key)
        if found is None:
            if len(self.nodes) >= MOST_TERMS:
                raise Refused(f"the design is too large: its round has more than {MOST_TERMS:,} terms")
            found = self.table[key] = len(self.nodes)
            self.nodes.append(key)
        return found

    def sort(self, term):
        """The sort of a term."""
        return self.nodes[term][0]

    def op(self, term):
        """The operator of a term."""
        return self.nodes[term][1]

    def parts(self, term):
        """The terms that a term is made of."""
        node = self.nodes[term]
        return () if node[1] in ("const", "var") else node[2:]

    def name(self, variable):
        """The name of a variable."""
        return self.nodes[variable][2]

    def constant(self, term):
        """The value of a constant, or None."""
        node = self.nodes[term]
        return node[2] if node[1] == "const" else None

    def number(self, value):
        """A constant number."""
        return self.make(INTEGER, "const", value)

    def truth(self, value):
        """A constant truth value."""
        return self.make(BOOLEAN, "const", bool(value))

    def zero(self, kind):
        """The value 0 or false of a kind of a listing."""
        return self.number(0) if kind == "Integer" else self.truth(False)

    def variable(self, kind, name):
        """A variable of a kind of a listing."""
        return self.make(INTEGER if kind == "Integer" else BOOLEAN, "var", name)

    def as_bool(self, term):
        """A term as a truth value: a number is true if it is not 0."""
        if self.sort(term) == BOOLEAN:
            return term
        value, node = self.constant(term), self.nodes[term]
        if value is not None:
            return self.truth(value != 0)
        if node[1] == "ite":
            first, second = (self.constant(it) for it in node[3:])
            if first is not None and second is not None:
                return self.ite(node[2], self.truth(first), self.truth(second))
        return self.compare("ne", term, self.number(0))

    def as_int(self, term):
        """A term as a number: true is 1."""
        return term if self.sort(term) == INTEGER else self.ite(term, self.number(1), self.number(0))

    def no(self, term):
        """The negation of a truth value."""
        node = self.nodes[term]
        if node[1] == "const":
            return self.truth(not node[2])
        return node[2] if node[1] == "not" else self.make(BOOLEAN, "not", term)

    def all(self, *terms):
        """The conjunction of truth values."""
        found = set()
        for term in terms:
            value = self.constant(term)
            if value is False:
                return term
            if value is None:
                found.add(term)
        if any(self.op(term) == "not" and self.nodes[term][2] in found for term in found):
            return self.truth(False)
        if not found:
            return self.truth(True)
        return found.pop() if len(found) == 1 else self.make(BOOLEAN, "and", *sorted(found))

    def any(self, *terms):
        """The disjunction of truth values."""
        return self.no(self.all(*map(self.no, terms)))

    def ite(self, test, first, second):
        """The first term if the test is true, else the second one."""
        value = self.constant(test)
        if value is not None:
            return first if value else second
        if first == second:
            return first
        if self.sort(first) != self.sort(second):
            first, second = self.as_int(first), self.as_int(second)
        if self.op(test) == "not":
            return self.ite(self.nodes[test][2], second, first)
        if self.sort(first) == BOOLEAN:
            found = self.boolean_ite(test, first, second)
            if found is not None:
                return found
        one, two = self.nodes[first], self.nodes[second]
        if one[1] == "ite" and one[2] == test:
            return self.ite(test, one[3], second)
        if two[1] == "ite" and two[2] == test:
            return self.ite(test, first, two[4])
        if two[1] == "ite" and two[3] == first:
            return self.ite(self.any(test, two[2]), first, two[4])
        return self.make(self.sort(first), "ite", test, first, second)

    def boolean_ite(self, test, first, second):
        """A choice between truth values of which one is constant, or None."""
        if self.constant(first) is not None:
            return self.any(test, second) if self.constant(first) else self.all(self.no(test), second)
        if self.constant(second) is not None:
            return self.any(self.no(test), first) if self.constant(second) else self.all(test, first)
        return None

    def compare(self, op, left, right):
        """A comparison: eq, ne, lt, le, gt or ge."""
        if self.sort(left) != self.sort(right) or (self.sort(left) == BOOLEAN and op not in ("eq", "ne")):
            left, right = self.as_int(left), self.as_int(right)
        if op in FLIPPED:
            return self.no(self.compare(FLIPPED[op], left, right))
        x, y = self.constant(left), self.constant(right)
        if x is not None and y is not None:
            return self.truth(compared(op, x, y))
        if left == right:
            return self.truth(op != "lt")
        if self.sort(left) == BOOLEAN and (x is not None or y is not None):
            return self.ite(left, right, self.no(right))
        return self.make(BOOLEAN, op, left, right)

    def exact(self, op, left, right):
        """The exact result of add, sub or mul, of any size."""
        x, y = self.constant(left), self.constant(right)
        if x is not None and y is not None:
            return self.number(computed(op, x, y))
        return self.make(INTEGER, f"exact_{op}", left, right)

    def arithmetic(self, op, left, right):
        """The result of add, sub, mul, quot, mod or rem in 64 bits, and whether it traps."""
        x, y = self.constant(left), self.constant(right)
        if x is not None and y is not None:
            if op in ("quot", "mod", "rem") and y == 0:
                return left, self.truth(True)
            result = computed(op, x, y)
            fits = LEAST <= result <= GREATEST
            return self.number(result if fits else 0), self.truth(not fits)
        result = self.make(INTEGER, op, left, right)
        if op in ("add", "sub", "mul"):
            if y == (1 if op == "mul" else 0):
                return left, self.truth(False)
            return result, self.make(BOOLEAN, f"overflow_{op}", left, right)
        trap = self.compare("eq", right, self.number(0))
        if op == "quot":
            trap = self.any(trap, self.all(self.compare("eq", left, self.number(LEAST)),
                                           self.compare("eq", right, self.number(-1))))
        return result, trap

    def below(self, roots):
        """All terms that some terms are made of, those included, parts first."""
        seen, todo = set(), list(roots)
        while todo:
            term = todo.pop()
            if term not in seen:
                seen.add(term)
                todo += self.parts(term)
        return sorted(seen)
