"""Likely causes that a few tokens determine: pairs of a test on the position of an error, and a sentence."""

from ..editing.cursor import NAME, WHOLE
from ..language.words import LEFT_OUT

COMPARING = ("=", "!=", "<", "<=", ">", ">=")
CONDITION = "a condition is in parentheses: `if (x > 0) .. end if`"
CONNECTION = "a connection is written `c1: port a.o -> b.i {Timing => Delayed;};`"
TRANSITION = "a transition is written `s -[on dispatch]-> t {x := 1};`"
STATE = "a state is written `s: initial complete state;`, `initial` before `complete`, either or none of them"
PORT = "a port is written `p: in data port Base_Types::Integer;`, or with `out`"
LOOP = "a loop is written `for (i : Base_Types::Integer in 0 .. 3) {x := x + i}`"
SUBCOMPONENT = "a subcomponent is written `a: thread Counter.impl;`, with `system`, `process` or `thread`"
VARIABLE = "a variable is written `x: Base_Types::Integer;`, its name first"
RANGE = "a range is written `0 ms .. 3 ms`, each end with its unit"
PROPERTY = "a property has `=>`, as `Period => 9 ms;`"
COMMENT = "a comment begins with `--` and ends with its line"
NUMBERS = ("whole", "real")
FIRST_VALUE = 'an initial value is a property: `x: Base_Types::Integer {Data_Model::Initial_Value => ("5");};`'


def pair(first, second):
    """A test on two symbols that touch."""
    return lambda place: place.last == first and place.word == second and place.touches


def expecting(what, *words):
    """A test on the expected tokens, and on the actual one."""
    return lambda place: place.wants(what) and place.word in words


def behind(*words):
    """A test on the word before a token that sets nothing and sends nothing."""
    return lambda place: place.wants(":=", "!") and place.last in words


def alone(what):
    """A test for a position at which only one token is expected."""
    return lambda place: place.wanted == [what]


def in_expression(place):
    """Whether an expression could continue here."""
    return place.wants("and", "or", "xor")


def wants_operand(place):
    """Whether an operand is expected here, and a sign is not allowed."""
    return place.wants(NAME, WHOLE, "(", "true") and not place.wants("-")


def else_if_before(place):
    """Whether an `else if` precedes this in the same transition, and an `end if` is expected."""
    if not (place.wants("end") and place.here.inside) and not (place.last == "if" and place.wants(";")):
        return False
    at = place.number - 1
    while at > 0 and place.low(at) != "]->":
        if place.low(at) == "if" and place.low(at - 1) == "else" and place.low(at - 2) != "or":
            return True
        at -= 1
    return False


def lacks_section(place):
    """The word that opens a section, where one is missing; or None."""
    after = place.low(place.number + 2)
    if place.here.kind != "word":
        return None
    if place.next == ":" and place.wants("features") and after in ("in", "out"):
        return "features"
    if place.next == ":" and place.wants("subcomponents") and after in ("system", "process", "thread"):
        return "subcomponents"
    if place.next == ":" and place.wants("connections") and after == "port":
        return "connections"
    if place.next in ("=>", "::") and place.wants("properties"):
        return "properties"
    if place.next in (":", ",") and place.wants("variables"):
        return "states" if after in ("initial", "complete", "state") else "variables"
    return None


PATTERNS = [
    (lambda place: place.wanted == ["none", NAME] and place.word not in ("system", "process", "thread",
                                                                         "port") and place.next != ":",
     "omit an empty section, or write `none;` in it"),
    (lacks_section, lambda place: f"the word `{lacks_section(place)}` is missing before this"),
    (lambda place: place.word == "=>" and place.wanted == [":"], "the word `properties` is missing before this"),
    (lambda place: place.word == "-[" and place.wants(",", ":"), "the word `transitions` is missing before this"),
    (lambda place: place.word in ("initial", "complete", "state") and place.last == ":" and place.here.inside,
     "the word `states` is missing before this"),
    (lambda place: place.word in ("initial", "complete") and place.wants(NAME), STATE),
    (lambda place: place.word == "/" and place.next in ("/", "*"), COMMENT),
    (lambda place: place.wants(":=", "!") and place.word in ("+", "-", "*", "/") and place.next in ("+", "-", "="),
     "an action sets with `:=`, as `x := x + 1`"),
    (lambda place: place.last == "end" and place.wanted == [NAME],
     "`end` is followed by the name of its declaration, as `end Counter;`"),
    (lambda place: place.word == ";" and place.wants("end", "annex") and not place.here.inside,
     "the name of a type or an implementation has no `;` after it"),
    (lambda place: place.word in ("import", "use", "using", "include") and place.wants("with"),
     "`with` names other packages"),
    (lambda place: place.word == "." and place.wants("annex", "end"),
     "`implementation` is missing, as in `thread implementation Counter.impl`"),
    (lambda place: place.word == "implementation" and place.wants("thread"),
     "an implementation begins with its category, as `thread implementation Counter.impl`"),
    (lambda place: place.wants("{**"), "an annex opens with `{**` and ends with `**};`"),
    (lambda place: place.word == "}" and place.wants("**}"), "an annex ends with `**};`"),
    (lambda place: place.wanted in ([",", ":"],
                                    [":"]) and (place.word == "::" or place.last in ("int", "integer", "bool",
                                                                                     "boolean"))
     and place.here.inside, VARIABLE),
    (lambda place: place.word == "dispatch", "a step begins with `on dispatch`"),
    (lambda place: place.word == "when", "a guard is one of `on dispatch`, `otherwise` or a condition"),
    (lambda place: place.word == "on" and place.wants(NAME, "**}"), TRANSITION),
    (lambda place: place.wanted in (["-", WHOLE], [WHOLE]) and place.here.inside,
     "the ends of a loop are whole numbers, not variables"),
    (lambda place: place.wanted == [NAME] and place.last == "]->",
     "the target state of a transition follows `]->`"),
    (lambda place: place.wants("{", ";") and place.low(place.number - 2) == "]->",
     "the actions of a transition are in braces: `{x := 1; o!(x)}`"),
    (lambda place: place.word in ("system", "process", "thread") and place.wants(NAME)
     and (place.wants("none") or place.low(place.number + 3) in (".", ";")) and place.next != "implementation",
     SUBCOMPONENT),
    (lambda place: place.word == "port" and place.wants(NAME), f"{CONNECTION}, with a name of its own"),
    (lambda place: place.word == "[" and place.wants(";", "{"),
     "there are no arrays: declare each by a name of its own"),
    (lambda place: place.next == "=>" and place.wants(";", "{"),
     "properties are in braces here: `{Timing => Delayed;}`"),
    (lambda place: place.word in ("to", "-", "until", "through") and place.wants("..", ";"), RANGE),
    (lambda place: place.last in ("[",
                                  "..") and (place.here.kind in NUMBERS or place.here.kind == "word")
                                  and not place.here.inside, RANGE),
    (lambda place: place.word == ":" and place.wants("::"), "`::` separates a property set and its property"),
    (lambda place: place.wants("=>") and place.here.kind != "end", PROPERTY),
    (lambda place: place.word == "endif", "`end if` is two words"),
    (pair("=", "="), "`=` compares: one sign is enough"),
    (pair("=", "<"), "write `<=`"),
    (pair("<", ">"), "write `!=` for different values"),
    (pair("/", "/"), COMMENT),
    (pair("/", "*"), COMMENT),
    (pair("*", "*"), "there is no power: multiply"),
    (pair("+", "="), "there is no `+=`: write `x := x + 1`"),
    (pair("-", "="), "there is no `-=`: write `x := x - 1`"),
    (pair("+", "+"), "there is no `++`: write `x := x + 1`"),
    (lambda place: place.word == "=>" and in_expression(place), "write `>=`"),
    (lambda place: place.word == ":=" and in_expression(place), "`=` compares; `:=` sets, and is only for actions"),
    (lambda place: place.word == "!" and wants_operand(place), "`not` negates a condition"),
    (lambda place: place.word == "!" and place.wants("not"), "`not` negates a condition"),
    (lambda place: place.word == ":=" and place.wants(";", "{"), FIRST_VALUE),
    (lambda place: place.word == "=" and place.wants(";", "{", "::"), FIRST_VALUE),
    (lambda place: place.word == "=>" and place.wants(";", "{", "::") and place.here.inside, FIRST_VALUE),
    (behind("endif"), "`end if` is two words"),
    (behind("elseif", "elif", "elsif", "elsf"), "write `elsif`, before any `else`"),
    (behind("while", "loop", "do"), "there is no `while`: use `for`, or continue in the next step"),
    (behind("return", "break", "skip", "null"),
     "the only actions are `:=`, `!`, `if` and `for`"),
    (behind("then"), "a condition has no `then` after it: `if (x > 0) .. end if`"),
    (expecting(":=", "=", "<", ":", "=>", "+", "-", "=="),
     "an action sets with `:=`, as `x := 1`, and sends with `!`, as `o!(x)`"),
    (expecting(":=", "(", "[", ".", ";", "}", "->"),
     "an action sets with `:=`, as `x := 1`, and sends with `!`, as `o!(x)`"),
    (lambda place: place.last == "if" and place.wanted == ["("], CONDITION),
    (lambda place: place.last == "elsif" and place.wanted == ["("], CONDITION),
    (lambda place: place.last == "for" and place.wanted == ["("], LOOP),
    (lambda place: place.word == "," and place.wanted == [":"], "each has a declaration of its own, with its own type"),
    (lambda place: place.wanted == [":"] and place.word == "in" and place.here.inside, LOOP),
    (lambda place: place.wanted == ["in", "::", "."] or place.wanted == ["::", ".", "in"], LOOP),
    (lambda place: place.wanted == ["{"], LOOP),
    (lambda place: place.last == "!" and place.wanted == ["("], "the sent value is in parentheses: `o!(x)`"),
    (lambda place: place.word == "then" and place.here.inside,
     "a condition has no `then` after it: `if (x > 0) .. end if`"),
    (lambda place: place.word == "{" and place.last == ")" and place.here.inside,
     "the actions of an `if` have no braces, and end with `end if`"),
    (lambda place: place.word == "in" and place.last == "event", PORT),
    (else_if_before, "`else if` opens a second `if`, which needs its own `end if`: `elsif` is likely meant"),
    (lambda place: place.wants("elsif", "else", "end") and place.word in ("}", "]->"), "an `if` ends with `end if`"),
    (lambda place: place.last == "end" and place.wanted == ["if"], "an `if` ends with `end if`"),
    (lambda place: place.word in COMPARING and in_expression(place),
     "a comparison has two sides: write `a < b and b < c`, or use parentheses"),
    (lambda place: place.word in ("+", "-") and wants_operand(place),
     "a sign after an operator needs parentheses: `x * (-1)`"),
    (lambda place: place.word in ("not", "abs") and wants_operand(place),
     "write parentheses: `not (not a)`, `abs (-x)`"),
    (lambda place: place.word == "(" and place.before and place.before.kind == "word" and in_expression(place),
     "there are no functions: only `abs` and `not` precede a value"),
    (lambda place: place.word == "[" and in_expression(place), "there are no arrays: a variable has one value"),
    (lambda place: place.word == "." and in_expression(place),
     "a behaviour names its own ports and variables, without a dot"),
    (lambda place: place.word == "," and in_expression(place),
     "one value is allowed here; send each value on its own port"),
    (lambda place: place.wanted == ["fresh"],
     "only `fresh` follows `'`: `p'fresh` is true if a value arrived in this step"),
    (lambda place: place.here.kind == "real" and place.here.inside,
     "numbers are whole: count in smaller units, as 15 tenths for 1.5"),
    (lambda place: place.here.kind == "string" and place.here.inside,
     "there are no texts: values are whole numbers, `true` and `false`"),
    (expecting("-[", "-", "->", "[", "--"), f"{TRANSITION}; `-[` is one symbol"),
    (lambda place: place.word == "]" and place.wants("]->"), "`]->` is one symbol, without a blank"),
    (alone("dispatch"), "a step begins with `on dispatch`"),
    (lambda place: place.wants("-[") and place.here.kind != "end", TRANSITION),
    (alone("port"), lambda place: PORT if place.last == "data" else CONNECTION),
    (alone("data"), PORT),
    (lambda place: place.wanted == ["in", "out"], PORT),
    (lambda place: place.wants("->") and place.word == ".",
     "an end has at most one dot, as `a.o`: each component has its own connections"),
    (lambda place: place.wants("->"), f"{CONNECTION}, with `->`"),
    (lambda place: place.word == "." and place.wants(";", "{") and not place.wants("::"),
     "an end has at most one dot, as `a.o`: each component has its own connections"),
    (lambda place: place.wants("state"), STATE),
    (lambda place: place.word in ("state", "complete", "initial") and place.wants(";"), STATE),
    (lambda place: place.wanted == ["package"], "a design begins with `package NAME public`"),
    (lambda place: place.wants("public"), "`public` follows the package's name, without a `;` before it"),
    (lambda place: place.word == "}" and place.last == "{" and place.wanted == [NAME],
     "omit braces without a property"),
    (lambda place: place.word == "," and place.wants(";") and not in_expression(place),
     "this ends with `;`, not with `,`"),
    (lambda place: place.last == "implementation" or place.wanted == ["."],
     "an implementation has its type's name and its own, as `Counter.impl`"),
    (lambda place: place.wants("system", "process", "thread") and place.last == ":", SUBCOMPONENT),
    (lambda place: place.word == ")" and in_expression(place) and not place.wants(")"), "this `)` closes nothing"),
    (lambda place: place.wants(")") and place.word in (";", "}", "]->", "{"), "a `)` is missing before this"),
    (lambda place: place.wants("]->") and place.word not in LEFT_OUT and place.here.kind != "real",
     "a guard ends with `]->`"),
]
