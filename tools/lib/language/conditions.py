"""What conditions mean by themselves: constants, parts joined by `and` or `or`, and comparisons with a number."""

from collections import namedtuple

from . import tree
from .interpreter import COMPARED, COMPUTED, DIVIDING, GREATEST, LEAST

# A name with the numbers that a comparison allows, as the two ends of a range; `not_at` is the one number of `!=`.
Range = namedtuple("Range", "name low high not_at")
MIRRORED = {"<": ">", "<=": ">=", ">": "<", ">=": "<=", "=": "=", "!=": "!="}
DENIED = {"<": ">=", "<=": ">", ">": "<=", ">=": "<", "=": "!=", "!=": "="}
# How many pairs of parts are compared at most.
MOST_PARTS = 400
JOINED = {"and": "and", "and then": "and", "or": "or", "or else": "or"}


def key(node):
    """An expression without its places: equal keys mean equal texts."""
    node, operators = tree.spine(node)
    if isinstance(node, tree.Literal):
        first = ("literal", int(node.value))
    elif isinstance(node, tree.Read):
        first = ("read", node.name.text.lower(), node.fresh)
    else:
        first = (node.word, key(node.inner))
    return (first, *((JOINED.get(it.word, it.word), key(it.right)) for it in operators)) if operators else first


def constant(node):
    """The value of an expression without names, or None; an operator that would trap has none."""
    node, operators = tree.spine(node)
    if isinstance(node, tree.Read):
        return None
    if isinstance(node, tree.Literal):
        found = int(node.value)
    else:
        value = constant(node.inner)
        if value is None:
            return None
        found = {"-": -value, "+": value, "abs": abs(value), "not": int(not value)}[node.word]
    for operator in operators:
        right = None if found is None else constant(operator.right)
        if right is None or (operator.word in DIVIDING and right == 0):
            return None
        word = JOINED.get(operator.word, operator.word)
        found = int(COMPARED[word](found, right)) if word in COMPARED else COMPUTED[word](found, right)
        if not LEAST <= found <= GREATEST:
            return None
    return found


def parts(node, word):
    """The operands of a chain of `and` or of `or`."""
    found = []
    while isinstance(node, tree.Binary) and JOINED.get(node.word) == word:
        found.append(node.right)
        node = node.left
    return [it for part in [node, *reversed(found)] for it in (parts(part, word) if found else [part])]


def range_of(node, denied=False):
    """The range that a comparison of a name with a number allows, or its denial; None for another expression."""
    if not isinstance(node, tree.Binary) or node.word not in COMPARED:
        return None
    left, right, word = node.left, node.right, node.word
    if not isinstance(left, tree.Read):
        left, right, word = right, left, MIRRORED[word]
    number = constant(right)
    if not isinstance(left, tree.Read) or left.fresh or number is None:
        return None
    word = DENIED[word] if denied else word
    low, high = {"<": (LEAST, number - 1), "<=": (LEAST, number), ">": (number + 1, GREATEST), ">=": (number, GREATEST),
                 "=": (number, number), "!=": (LEAST, GREATEST)}[word]
    return Range(left.name.text.lower(), low, high, number if word == "!=" else None)


def is_empty(ranges):
    """Whether no number is in all ranges of some name."""
    names = {}
    for it in ranges:
        low, high = names.get(it.name, (LEAST, GREATEST))
        names[it.name] = (max(low, it.low), min(high, it.high))
    return any(low > high for low, high in names.values()) or any(
        names[it.name] == (it.not_at, it.not_at) for it in ranges if it.not_at is not None)


def verdict(node):
    """True or False for a condition that always is, or None."""
    value = constant(node)
    if value is not None:
        return bool(value)
    if isinstance(node, tree.Unary) and node.word == "not":
        inner = verdict(node.inner)
        return None if inner is None else not inner
    if not isinstance(node, tree.Binary):
        return None
    if node.word in COMPARED and key(node.left) == key(node.right):
        return node.word in ("=", "<=", ">=")
    if node.word in JOINED:
        return joined_verdict(node, JOINED[node.word])
    own = range_of(node)
    if own is not None and own.not_at is None:
        return False if own.low > own.high else True if (own.low, own.high) == (LEAST, GREATEST) else None
    return None


def joined_verdict(node, word):
    """The verdict on a chain of `and` or of `or`: by one part, by a part and its denial, or by ranges."""
    operands, decides = parts(node, word), word == "or"
    verdicts = [verdict(it) for it in operands]
    if decides in verdicts:
        return decides
    if all(it is (not decides) for it in verdicts):
        return not decides
    ranges = [it for it in (range_of(part, denied=decides) for part in operands) if it]
    keys = {key(it) for it in operands}
    denied = any(isinstance(it, tree.Unary) and it.word == "not" and key(it.inner) in keys for it in operands)
    return decides if denied or is_empty(ranges) else None


def implies(first, second):
    """Whether the second condition is true whenever the first one is, by the parts of both."""
    given, wanted = parts(first, "and"), parts(second, "and")
    if len(given) * len(wanted) > MOST_PARTS:
        return False
    return all(any(part_implies(it, part) for it in given) for part in wanted) or any(
        implies(first, part) for part in parts(second, "or") if part is not second)


def part_implies(first, second):
    """Whether one part implies another: they are equal, or one range is in the other."""
    if key(first) == key(second):
        return True
    one, two = range_of(first), range_of(second)
    if one is None or two is None or one.name != two.name:
        return False
    if two.not_at is not None:
        return not one.low <= two.not_at <= one.high or one.not_at == two.not_at
    return one.not_at is None and two.low <= one.low and one.high <= two.high
