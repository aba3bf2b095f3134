"""Reads the functions of pals_step.h: their statements, and their values as terms over whole numbers in SMT-LIB.

A value of C is a whole number in the range of its type. An operation whose result is outside of it, or a division by 0,
is undefined in C: each path has the conditions under which all its operations are defined."""

import re
from collections import namedtuple

from ..scenarios.bundles import Refused

# A function: the names of its numbers, and its statements. Each returns a trap and sets `*to`.
Function = namedtuple("Function", "numbers body")
# A way through a function: its condition, the trap that it returns, the value of `*to` after it, and the conditions
# under which its operations are defined.
Way = namedtuple("Way", "condition trap to defined")
HEAD = re.compile(r"static inline int32_t pals_(\w+)\(((?:int64_t \w+, )+)int64_t \*to\)\n\{\n(.*?)\n\}\n", re.DOTALL)
TOKEN = re.compile(r"\s*(?:/\*.*?\*/\s*)*([A-Za-z_]\w*|\d+|\+=|&&|\|\||[=!<>]=|[-+*/%<>=!?:;(){},])", re.DOTALL)
FIXED = {"INT64_MAX": str(2**63 - 1), "INT64_MIN": f"(- {2**63})", "true": "true", "false": "false", "PALS_GOES": "0",
         "PALS_OVERFLOW": "1", "PALS_ZERO_DIVISOR": "2"}
# The operators of two operands, from the weakest binding on.
LEVELS = (("||",), ("&&",), ("==", "!="), ("<", "<=", ">", ">="), ("+", "-"), ("*", "/", "%"))
TRUTHS = ("||", "&&", "==", "!=", "<", "<=", ">", ">=")


def functions_in(text):
    """The functions of a header, by their names without `pals_`."""
    return {found[1]: Function(re.findall(r"int64_t (\w+)", found[2]), Reader(found[3]).all())
            for found in HEAD.finditer(text)}


class Reader:
    """Reads statements and expressions, as nested tuples."""

    def __init__(self, text):
        self.words, end = [], 0
        while text[end:].strip():
            found = TOKEN.match(text, end)
            if not found:
                raise Refused(f"pals_step.h cannot be read at {text[end:end + 40]!r}")
            self.words.append(found[1])
            end = found.end()
        self.words, self.at = [*self.words, ""], 0

    def may(self, *words):
        """Takes the next words if they are these."""
        if self.words[self.at : self.at + len(words)] == [*words]:
            self.at += len(words)
            return True
        return False

    def take(self, *words):
        """Takes words that have to be next."""
        if not self.may(*words):
            raise Refused(f"pals_step.h: {' '.join(self.words[self.at : self.at + 6])} in place of {' '.join(words)}")

    def name(self):
        """Takes the next word."""
        self.at += 1
        return self.words[self.at - 1]

    def all(self):
        """The statements up to the end of a block."""
        found = []
        while self.words[self.at] not in ("", "}"):
            found.append(self.statement())
        return found

    def block(self):
        """The statements of a block in braces."""
        self.take("{")
        found = self.all()
        self.take("}")
        return found

    def statement(self):
        """A statement."""
        if self.may("if", "("):
            condition = self.expression()
            self.take(")")
            then, other = self.block(), []
            if self.may("else"):
                other = [self.statement()] if self.words[self.at] == "if" else self.block()
            return ("if", condition, then, other)
        if self.may("return"):
            found = ("return", self.expression())
        else:
            self.may("const")
            _ = self.may("bool") or self.may("int32_t")
            name = "*to" if self.may("*", "to") else self.name()
            if self.may("+="):
                found = ("set", name, ("+", ("name", name), self.expression()))
            else:
                self.take("=")
                found = ("set", name, self.expression())
        self.take(";")
        return found

    def expression(self):
        """An expression."""
        condition = self.level(0)
        if not self.may("?"):
            return condition
        one = self.expression()
        self.take(":")
        return ("?", condition, one, self.expression())

    def level(self, number):
        """An expression of the operators from a level on."""
        if number == len(LEVELS):
            return self.unary()
        found = self.level(number + 1)
        while self.words[self.at] in LEVELS[number]:
            found = (self.name(), found, self.level(number + 1))
        return found

    def unary(self):
        """An operand."""
        if self.may("-"):
            return ("neg", self.unary())
        if self.may("("):
            found = self.expression()
            self.take(")")
            return found
        if self.may("*", "to"):
            return ("name", "*to")
        name = self.name()
        if not self.may("("):
            return ("name", name)
        given = [self.expression()]
        while self.may(","):
            given.append(self.expression())
        self.take(")")
        return ("call", name, given)


class Ways:
    """The ways through the functions of a header."""

    def __init__(self, functions):
        self.functions = functions

    def of(self, name, numbers, to):
        """The ways of a function at given numbers, and at a value of `*to` before it."""
        if name not in self.functions:
            raise Refused(f"pals_step.h has no function pals_{name}")
        function = self.functions[name]
        yield from self.run(function.body, {**dict(zip(function.numbers, numbers)), "*to": to}, [], [])

    def run(self, lines, values, conditions, defined):
        """The ways through statements, from values on."""
        if not lines:
            raise Refused("pals_step.h: a function ends without a return")
        (kind, *parts), rest = lines[0], lines[1:]
        if kind == "set" and parts[1][0] == "?":
            (name, (_, truth, one, other)) = parts
            (kind, *parts) = ("if", truth, [("set", name, one)], [("set", name, other)])
        if kind == "if":
            truth = self.value(parts[0], values, conditions, defined)
            for found, branch in ((truth, parts[1]), (f"(not {truth})", parts[2])):
                yield from self.run([*branch, *rest], dict(values), [*conditions, found], [*defined])
        elif kind == "return" or parts[1][0] != "call":
            expression = parts[-1]
            if expression[0] == "call":
                yield from self.called(expression, values, conditions, defined, None, [])
                return
            value = self.value(expression, values, conditions, defined)
            if kind == "return":
                yield Way(under(conditions), value, values["*to"], defined)
            else:
                yield from self.run(rest, {**values, parts[0]: value}, conditions, defined)
        else:
            yield from self.called(parts[1], values, conditions, defined, parts[0], rest)

    def called(self, call, values, conditions, defined, name, rest):
        """The ways through a call, whose trap is returned or is the value of a name in further statements."""
        numbers = [self.value(it, values, conditions, defined) for it in call[2][:-1]]
        for way in self.of(call[1].replace("pals_", "", 1), numbers, values["*to"]):
            here, known = [*conditions, way.condition], [*defined, *(f"(=> {under(conditions)} {it})"
                                                                     for it in way.defined)]
            if name is None:
                yield Way(under(here), way.trap, way.to, known)
            else:
                yield from self.run(rest, {**values, name: way.trap, "*to": way.to}, here, known)

    def value(self, expression, values, conditions, defined):
        """The term of an expression; adds the conditions under which it is defined."""
        kind, *parts = expression
        if kind == "name":
            name = parts[0]
            return values[name] if name in values else FIXED.get(name, name)
        if kind == "neg" and parts[0][0] == "name" and parts[0][1].isdigit():
            return f"(- {parts[0][1]})"
        if kind == "?":
            truth = self.value(parts[0], values, conditions, defined)
            one = self.value(parts[1], values, [*conditions, truth], defined)
            other = self.value(parts[2], values, [*conditions, f"(not {truth})"], defined)
            return f"(ite {truth} {one} {other})"
        one = self.value(parts[0], values, conditions, defined)
        if kind == "neg":
            return self.known(f"(- {one})", "true", conditions, defined)
        more = {"&&": one, "||": f"(not {one})"}.get(kind)
        other = self.value(parts[1], values, [*conditions, more] if more else conditions, defined)
        if kind in TRUTHS:
            sign = {"&&": "and", "||": "or", "==": "=", "!=": "distinct"}.get(kind, kind)
            return f"({sign} {one} {other})"
        if kind in "/%":
            self.known(f"(quotient {one} {other})", f"(distinct {other} 0)", conditions, defined)
            return f"({'quotient' if kind == '/' else 'remainder'} {one} {other})"
        return self.known(f"({kind} {one} {other})", "true", conditions, defined)

    def known(self, term, condition, conditions, defined):
        """A term that is defined under a condition if it is in range."""
        defined.append(f"(=> {under(conditions)} (and {condition} (fits {term})))")
        return term


def under(conditions):
    """The conjunction of conditions."""
    return f"(and true {' '.join(conditions)})"
