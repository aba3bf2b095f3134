"""Conditions that decide: when a condition of a decision determines its outcome (masking MC/DC).

A condition is a comparison or a truth value in a guard or in the condition of an `if`. It decides while it is true, and
while it is false, if the other conditions let its value through to the outcome. A side that `and then` or `or else`
omits does not matter."""


def leaves_of(tree):
    """The places of the conditions of a decision."""
    return [tree[1]] if tree[0] == "leaf" else [place for part in tree[1:] for place in leaves_of(part)]


def value_of(terms, tree, values):
    """The term of the value of a tree, by the terms of its conditions."""
    op = tree[0]
    if op == "leaf":
        return values[tree[1]]
    parts = [value_of(terms, part, values) for part in tree[1:]]
    if op == "not":
        return terms.no(parts[0])
    if op == "xor":
        return terms.ite(parts[0], terms.no(parts[1]), parts[1])
    return (terms.all if op in ("and", "and then") else terms.any)(*parts)


def deciding(terms, tree, values):
    """For each condition of a decision and each of its values the term that it has this value and decides."""
    if tree[0] == "leaf":
        value = values[tree[1]]
        return {(tree[1], True): value, (tree[1], False): terms.no(value)}
    found = {}
    for at, part in enumerate(tree[1:]):
        lets = through(terms, tree, at, values)
        found.update((key, terms.all(term, lets)) for key, term in deciding(terms, part, values).items())
    return found


def through(terms, tree, at, values):
    """The term that the value of a part of a tree is let through by the other part."""
    op = tree[0]
    if op in ("not", "xor"):
        return terms.truth(True)
    other = value_of(terms, tree[2 - at], values)
    lets = other if op in ("and", "and then") else terms.no(other)
    if at == 0 and op in ("and then", "or else"):
        own = value_of(terms, tree[1], values)
        # The right side is omitted if the left one is false before `and then`, or true before `or else`.
        return terms.any(terms.no(own) if op == "and then" else own, lets)
    return lets
