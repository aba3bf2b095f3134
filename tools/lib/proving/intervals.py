"""Ranges of the variables of a machine, guessed by interval arithmetic. Nothing depends on their being right: a query
shows that no round leaves them before any other query assumes them."""

import time

from ..language.listing import GREATEST, LEAST
from .interval_arithmetic import EITHER, WIDEST, arithmetic, comparison, hull, meet

# A bound moves this often before it moves to the next threshold, and this often in total before it moves to the end.
MOVES, MOST_MOVES = 4, 40
NARROWING = 40
# How deep conditions refine the values under them, and how many terms a pass evaluates in refined environments.
DEEPEST, MOST_REFINED = 40, 20_000
# How many levels of terms are gone through in a refined environment.
MOST_LEVELS = 60
# A disjunction of more conditions than this refines nothing.
MOST_SIDES = 8


class Environment:
    """Ranges that conditions have given to some terms, and the ranges of terms found under them."""

    def __init__(self, known, depth):
        self.known, self.depth, self.memo = known, depth, {}


class Intervals:
    """The ranges of the variables of a machine, with the ranges of its inputs. When the seconds are over, conditions
    refine nothing any more, and a bound that grows goes to the end."""

    def __init__(self, machine, inputs, seconds):
        self.machine, self.terms = machine, machine.terms
        self.end, self.late = time.process_time() + seconds, False
        self.ranges = dict(inputs)
        self.state = list(machine.next)
        self.below = {it: self.terms.below([after]) for it, after in machine.next.items()}
        self.order = self.terms.below(machine.next.values())
        for variable, first in machine.first.items():
            value = int(self.terms.constant(first))
            self.ranges[variable] = (value, value)
        self.thresholds = self.all_thresholds()
        self.widen()
        self.narrow()

    def all_thresholds(self):
        """The numbers at which a growing bound is likely to end."""
        found = {0, *WIDEST}
        ends = [end for it in self.ranges.values() for end in it]
        constants = [self.terms.constant(it) for it in self.order if self.terms.sort(it) == "I"]
        for number in ends + [it for it in constants if it is not None]:
            found |= {number - 1, number, number + 1, -number - 1, -number, 1 - number}
        for bits in (8, 16, 32):
            found |= {2**bits - 1, -(2**bits)}
        return sorted(it for it in found if LEAST <= it <= GREATEST)

    def widen(self):
        """Runs rounds on ranges until no range grows; a bound that keeps growing goes to a threshold."""
        moves, grown = dict.fromkeys(self.state, 0), set(self.state)
        while grown:
            found, changed = self.round(grown), set()
            for variable, after in found.items():
                old, new = self.ranges[variable], hull(self.ranges[variable], after)
                if new != old:
                    changed.add(variable)
                    moves[variable] += 1
                    self.ranges[variable] = self.widened(old, new, moves[variable])
            grown = changed

    def widened(self, old, new, moves):
        """A range that has grown so often."""
        if self.is_boolean(old, new) or not self.late and moves <= MOST_MOVES and moves % MOVES:
            return new
        if self.late or moves > MOST_MOVES:
            return (new[0] if new[0] == old[0] else LEAST, new[1] if new[1] == old[1] else GREATEST)
        low = new[0] if new[0] == old[0] else max(it for it in self.thresholds if it <= new[0])
        high = new[1] if new[1] == old[1] else min(it for it in self.thresholds if it >= new[1])
        return low, high

    @staticmethod
    def is_boolean(old, new):
        """Whether a range has only 0 and 1."""
        return old[0] >= 0 and new[1] <= 1 and new[0] >= 0

    def narrow(self):
        """Runs rounds that make ranges smaller: what a round gives of closed ranges is closed."""
        shrunk = set(self.state)
        for _ in range(NARROWING):
            if self.late:
                return
            found, shrunk = self.round(shrunk), set()
            for variable, after in found.items():
                first = int(self.terms.constant(self.machine.first[variable]))
                new = meet(self.ranges[variable], hull((first, first), after))
                if new != self.ranges[variable]:
                    shrunk.add(variable)
                self.ranges[variable] = new
            if not shrunk:
                return

    def round(self, changed):
        """The ranges after a round of the variables that depend on changed ones."""
        self.spent, self.level, self.late = 0, 0, time.process_time() > self.end
        self.base = Environment({}, 0)
        affected = [it for it in self.state if not changed.isdisjoint(self.below[it])]
        for term in sorted(set().union(*(self.below[it] for it in affected))):
            self.range_of(term, self.base)
        return {it: self.range_of(self.machine.next[it], self.base) for it in affected}

    def range_of(self, term, under):
        """The range of a term in an environment; None if no value is possible. Truth values are 0 and 1."""
        found = under.memo.get(term, under)
        if found is not under:
            return found
        if under is not self.base:
            self.spent += 1
            if self.late or under.depth > DEEPEST or self.spent > MOST_REFINED or self.level > MOST_LEVELS:
                return self.base.memo.get(term, WIDEST)
        self.level += 1
        found = self.computed(term, under)
        self.level -= 1
        if term in under.known:
            found = meet(found, under.known[term])
        under.memo[term] = found
        return found

    def computed(self, term, under):
        """The range of a term by its parts."""
        node = self.terms.nodes[term]
        sort, op = node[0], node[1]
        if op == "const":
            return int(node[2]), int(node[2])
        if op == "var":
            return self.ranges.get(term, WIDEST if sort == "I" else EITHER)
        if op == "ite":
            return self.choice(node, under)
        parts = [self.range_of(it, under) for it in node[2:]]
        if None in parts:
            return None
        if op == "not":
            return 1 - parts[0][1], 1 - parts[0][0]
        if op == "and":
            return min(it[0] for it in parts), min(it[1] for it in parts)
        if op in ("eq", "lt", "le"):
            return comparison(op, *parts)
        if op == "average":
            return min(it[0] for it in parts[1::2]), max(it[1] for it in parts[1::2])
        if op in ("add", "sub", "mul") and self.fits(op, node[2:], under):
            return meet(arithmetic(f"exact_{op}", *parts), WIDEST)
        return arithmetic(op, *parts)

    def fits(self, op, args, under):
        """Whether an operator is known not to overflow."""
        overflow = self.terms.table.get(("B", f"overflow_{op}", *args))
        return overflow is not None and self.range_of(overflow, under) == (0, 0)

    def choice(self, node, under):
        """The range of a choice: each side under its condition."""
        found = None
        test = self.range_of(node[2], under)
        for wanted, side in ((1, node[3]), (0, node[4])):
            if test is None or test[0] <= wanted <= test[1]:
                inner = self.refined(node[2], wanted, under)
                if inner is not None:
                    found = hull(found, self.range_of(side, inner))
        return found

    def refined(self, term, wanted, under):
        """The environment in which a condition has a value; None if it cannot have it."""
        if under.depth > DEEPEST:
            return under
        known = dict(under.known)
        if not self.learn(term, wanted, known, under):
            return None
        return under if known == under.known else Environment(known, under.depth + 1)

    def learn(self, term, wanted, known, under):
        """Adds the consequences of the value of a condition; false if it cannot have it."""
        if self.level > MOST_LEVELS:
            return True
        self.level += 1
        found = self.learned(term, wanted, known, under)
        self.level -= 1
        return found

    def learned(self, term, wanted, known, under):
        """The same, unless the condition has too many levels."""
        node = self.terms.nodes[term]
        op, args = node[1], node[2:]
        if op == "not":
            return self.learn(args[0], 1 - wanted, known, under)
        if op == "and" and wanted:
            return all(self.learn(it, 1, known, under) for it in args)
        if op == "and" and len(args) <= MOST_SIDES:
            return self.learn_some(args, known, under)
        if op in ("lt", "le", "eq") and self.terms.sort(args[0]) == "I":
            return self.learn_order(op, args, wanted, known, under)
        return self.add(term, (wanted, wanted), known, under)

    def learn_some(self, terms, known, under):
        """Adds the consequences of one of some conditions being false: the hull of all cases."""
        sides = []
        for term in terms:
            side = dict(known)
            if self.learn(term, 0, side, under):
                sides.append(side)
        for term in set.intersection(*(set(side) for side in sides)) if sides else ():
            for side in sides:
                known[term] = side[term] if side is sides[0] else hull(known[term], side[term])
        return bool(sides)

    def learn_order(self, op, args, wanted, known, under):
        """Adds the consequences for both sides of a comparison of numbers."""
        (left, right), strict = args, int(op == "lt")
        if op != "eq" and not wanted:
            left, right, strict = right, left, 1 - strict
        low, high = self.now(left, known, under), self.now(right, known, under)
        if low is None or high is None:
            return False
        if op == "eq":
            both = meet(low, high)
            if wanted:
                return self.add(left, both, known, under) and self.add(right, both, known, under)
            return self.add_other(left, low, high, known, under) and self.add_other(right, high, low, known, under)
        return (self.add(left, meet(low, (low[0], high[1] - strict)), known, under)
                and self.add(right, meet(high, (low[0] + strict, high[1])), known, under))

    def add_other(self, term, own, other, known, under):
        """Adds that a term is not the one value of another."""
        if other[0] != other[1]:
            return True
        low, high = own[0] + (own[0] == other[0]), own[1] - (own[1] == other[0])
        return low <= high and self.add(term, (low, high), known, under)

    def now(self, term, known, under):
        """The range of a term by the ranges learned so far."""
        found = self.range_of(term, under)
        return meet(found, known[term]) if term in known else found

    def add(self, term, value, known, under):
        """Adds a range of a term, and of the term in it if it is a sum with a constant."""
        if value is None:
            return False
        if self.terms.constant(term) is not None:
            return True
        old = self.now(term, known, under)
        new = meet(old, value)
        if new is None:
            return False
        if new == old:
            return True
        known[term] = new
        node = self.terms.nodes[term]
        if node[1] in ("add", "sub"):
            constant = self.terms.constant(node[3])
            if constant is not None and self.level <= MOST_LEVELS:
                shift = constant if node[1] == "sub" else -constant
                self.level += 1
                found = self.add(node[2], (new[0] + shift, new[1] + shift), known, under)
                self.level -= 1
                return found
        return True
