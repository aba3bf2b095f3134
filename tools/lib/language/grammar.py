"""Parses a design's text into its tree, or finds the first unexpected token, and the expected ones."""

from ..editing.cursor import NAME, WHOLE, Fault
from . import tree
from .declarations import Declarations
from .tokens import word_of

LOGICAL = ("and", "or", "xor")
COMPARING = ("=", "!=", "<", "<=", ">", ">=")
MULTIPLYING = ("*", "/", "mod", "rem")


class Grammar(Declarations):
    """The whole language: declarations, and behaviours with their variables, states, transitions and actions."""

    def body(self):
        """The body of a behaviour annex."""
        variables, states, transitions = [], [], []
        if self.may("variables"):
            while self.sees(NAME):
                variables.extend(self.variables())
        if self.may("states"):
            while self.sees(NAME):
                states.extend(self.states())
        if self.may("transitions"):
            while self.sees(NAME):
                transitions.append(self.transition())
        return tree.Behaviour(variables, states, transitions)

    def names(self):
        """Names with commas between them."""
        found = [self.name()]
        while self.may(","):
            found.append(self.name())
        return found

    def variables(self):
        """Variables of one declaration."""
        names = self.names()
        self.take(":")
        ref = self.reference()
        props = self.braces()
        self.take(";")
        return [tree.Variable(name, ref, props) for name in names]

    def states(self):
        """States of one declaration."""
        names = self.names()
        self.take(":")
        initial, complete = bool(self.may("initial")), bool(self.may("complete"))
        self.take("state")
        self.take(";")
        return [tree.State(name, initial, complete) for name in names]

    def transition(self):
        """A transition, with its label or without."""
        offset, source = self.offset(), self.name()
        if self.may(":"):
            source = self.name()
        self.take("-[")
        self.enter()
        guard = self.guard()
        self.take("]->")
        self.leave()
        target, acts = self.name(), []
        if self.sees("{"):
            acts = self.block()
        self.take(";")
        return tree.Transition(source, target, guard, acts, offset)

    def guard(self):
        """What a transition waits for."""
        if self.may("on"):
            self.take("dispatch")
            return "dispatch"
        if self.may("otherwise"):
            return "otherwise"
        if self.sees("]->"):
            return "none"
        return self.expression()

    def block(self):
        """Actions in braces."""
        self.next()
        self.enter()
        found = [] if self.sees("}") else self.acts()
        self.take("}")
        self.leave()
        return found

    def acts(self):
        """Actions, separated and perhaps followed by `;`."""
        found = [self.act()]
        while self.may(";") and self.sees(NAME, "if", "for"):
            found.append(self.act())
        return found

    def act(self):
        """One action."""
        here = self.sees(NAME, "if", "for")
        if here == "if":
            return self.choice()
        if here == "for":
            return self.loop()
        target = self.name()
        if self.may("!"):
            return tree.Send(target, self.bracketed(self.expression))
        self.take(":=")
        return tree.Assign(target, self.expression())

    def choice(self):
        """`if` to `end if`."""
        self.next()
        self.enter()
        branches, otherwise = [(self.bracketed(self.expression), self.acts())], []
        while self.may("elsif"):
            condition = self.bracketed(self.expression)
            branches.append((condition, self.acts()))
        if self.may("else"):
            otherwise = self.acts()
        self.take("end")
        self.take("if")
        self.leave()
        return tree.If(branches, otherwise)

    def loop(self):
        """A loop."""
        self.next()
        self.take("(")
        self.enter()
        variable = self.name()
        self.take(":")
        self.reference()
        self.take("in")
        low = self.whole()
        self.take("..")
        high = self.whole()
        self.take(")")
        self.leave()
        if not self.sees("{"):
            self.take("{")
        return tree.For(variable, low, high, self.block())

    def whole(self):
        """A whole number with its sign."""
        sign = -1 if self.may("-") else 1
        return sign * number_of(self.take(WHOLE))

    def expression(self):
        """An expression with its logical operators."""
        offset, reads, chains, words = self.offset(), [], [], []
        root = self.relation(reads, chains)
        ends = [self.end()]
        while self.sees(*LOGICAL):
            at, word = self.offset(), word_of(self.next()).lower()
            second = {"and": "then", "or": "else"}.get(word)
            if second and self.may(second):
                word = f"{word} {second}"
            words.append(word)
            root = tree.Binary(word, at, root, self.relation(reads, chains))
            ends.append(self.end())
        return tree.Expr(reads, [tree.Chain(words, offset, ends)] + chains if words else chains, offset, root)

    def relation(self, reads, chains):
        """A comparison, or only a sum."""
        left = self.sum(reads, chains)
        sign = self.may(*COMPARING)
        return binary(sign, left, self.sum(reads, chains)) if sign else left

    def sum(self, reads, chains):
        """Terms that are added; a sign before them is that of the first term."""
        sign = self.may("+", "-")
        found = self.term(reads, chains)
        if sign:
            found = tree.Unary(word_of(sign), sign.offset, found)
        sign = self.may("+", "-")
        while sign:
            found = binary(sign, found, self.term(reads, chains))
            sign = self.may("+", "-")
        return found

    def term(self, reads, chains):
        """Factors that are multiplied."""
        found = self.factor(reads, chains)
        sign = self.may(*MULTIPLYING)
        while sign:
            found = binary(sign, found, self.factor(reads, chains))
            sign = self.may(*MULTIPLYING)
        return found

    def factor(self, reads, chains):
        """An operand by itself, or after `abs` or `not`."""
        before = self.may("abs", "not")
        found = self.operand(reads, chains)
        return tree.Unary(word_of(before).lower(), before.offset, found) if before else found

    def operand(self, reads, chains):
        """A literal, a name, or an expression in brackets."""
        literal = self.may(WHOLE, "true", "false")
        if literal:
            word = word_of(literal).lower()
            value = word == "true" if literal.kind == "word" else number_of(literal)
            return tree.Literal(value, literal.offset)
        if self.sees("("):
            inner = self.bracketed(self.expression)
            reads.extend(inner.reads)
            chains.extend(inner.chains)
            return inner.root
        name = self.name()
        fresh = bool(self.may("'"))
        if fresh:
            self.take("fresh")
        reads.append(tree.Read(name, fresh))
        return reads[-1]


def binary(sign, left, right):
    """An operator between two operands."""
    return tree.Binary(word_of(sign).lower(), sign.offset, left, right)


def number_of(token):
    """The value of a whole number; a number that is too long for any reader counts as the maximum."""
    digits = word_of(token).replace("_", "")
    return int(digits) if len(digits) < 1_000 else 10**1_000


def read(text):
    """The tree of a text; it stops with a fault."""
    return Grammar(text).package()


def package_of(text):
    """The tree of a text, or None if it has a syntax error."""
    try:
        return read(text)
    except Fault:
        return None
