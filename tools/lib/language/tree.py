"""The declarations of a design's text: the trees of the grammar. Offsets are byte offsets, from 0."""

from collections import namedtuple

# A word with its place.
Name = namedtuple("Name", "text offset")
# A package: its name, its types and implementations in text order, and the name after its `end`.
Package = namedtuple("Package", "name types impls end")
Type = namedtuple("Type", "category name offset ports props annexes end")
Impl = namedtuple("Impl", "category name offset parts connections props annexes end")
Port = namedtuple("Port", "name direction ref props")
Part = namedtuple("Part", "name category ref props")
Connection = namedtuple("Connection", "name source target props")
# A property: its name, its value, whether it has `applies to`. A value has a kind and, by it, a text or parts.
Property = namedtuple("Property", "name value applies")
Value = namedtuple("Value", "kind text parts")
# An annex, with its behaviour if it is one.
Annex = namedtuple("Annex", "offset name behaviour")
Behaviour = namedtuple("Behaviour", "variables states transitions")
Variable = namedtuple("Variable", "name ref props")
State = namedtuple("State", "name initial complete")
# A transition: its guard is dispatch, otherwise, none, or an expression.
Transition = namedtuple("Transition", "source target guard acts offset")
Assign = namedtuple("Assign", "target value")
Send = namedtuple("Send", "target value")
# Branches are pairs of a condition and actions.
If = namedtuple("If", "branches otherwise")
For = namedtuple("For", "variable low high body")
# An expression: the names that it reads, its chains of logical operators, those in brackets included, and its operands
# and operators as a tree of Literal, Read, Unary and Binary.
Expr = namedtuple("Expr", "reads chains offset root")
Read = namedtuple("Read", "name fresh")
Literal = namedtuple("Literal", "value offset")
# An operator: its word in lower case, its place, and its operands.
Unary = namedtuple("Unary", "word offset inner")
Binary = namedtuple("Binary", "word offset left right")
# The operators of one chain, in order, the place of its first operand, and the end of each operand.
Chain = namedtuple("Chain", "words offset ends")


def acts_in(acts):
    """All actions of a list, nested ones included, each before its parts."""
    for act in acts:
        yield act
        if isinstance(act, If):
            for _, inner in act.branches:
                yield from acts_in(inner)
            yield from acts_in(act.otherwise)
        elif isinstance(act, For):
            yield from acts_in(act.body)


def exprs_in(transition):
    """All expressions of a transition: its guard, and the expressions of its actions."""
    if isinstance(transition.guard, Expr):
        yield transition.guard
    for act in acts_in(transition.acts):
        if isinstance(act, (Assign, Send)):
            yield act.value
        elif isinstance(act, If):
            yield from (condition for condition, _ in act.branches)


def nodes_in(node):
    """All operands and operators of an expression's tree, outer ones before inner ones."""
    todo = [node]
    while todo:
        node = todo.pop()
        yield node
        todo.extend([node.inner] if isinstance(node, Unary) else
                    [node.right, node.left] if isinstance(node, Binary) else [])


def spine(node):
    """The first operand of operators that are read from the left, and these operators from the first one on. A long
    sum is as deep as it is long, so whoever walks a tree takes it in this form."""
    operators = []
    while isinstance(node, Binary):
        operators.append(node)
        node = node.left
    return node, operators[::-1]


def behaviour_of(impl):
    """The behaviour of an implementation, or None."""
    return next((annex.behaviour for annex in impl.annexes if annex.behaviour), None)


def property_of(props, name):
    """The value of a property in a list, or None: the names without regard to case, and without `applies to`."""
    for prop in props:
        if prop.name.text.lower() == name.lower() and not prop.applies:
            return prop.value
    return None
