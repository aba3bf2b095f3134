"""Names that are near to one another, so that a likely one can be suggested."""


def is_near(one, two):
    """Whether two words are equal, but for one letter that is missing, added, another, or two that are swapped."""
    return distance(one, two, 1) <= 1


def distance(one, two, most):
    """How many letters are missing, added, other or swapped between two words; above `most` any number above it."""
    if abs(len(one) - len(two)) > most:
        return most + 1
    before, row = None, list(range(len(two) + 1))
    for i, letter in enumerate(one, 1):
        line = [i]
        for j, other in enumerate(two, 1):
            cost = min(row[j] + 1, line[j - 1] + 1, row[j - 1] + (letter != other))
            if before and j > 1 and letter == two[j - 2] and one[i - 2] == other:
                cost = min(cost, before[j - 2] + 1)
            line.append(cost)
        before, row = row, line
        if min(row) > most and min(before) > most:
            return most + 1
    return row[-1]


def near_names(name, known, most=3):
    """Those of some names that are near to one: equal but for case or a path before, else the nearest."""
    low = name.lower()
    limit = 0 if len(low) < 2 else 1 if len(low) < 5 else 2 if len(low) < 9 else 3
    rated = [(rate(low, other.lower(), limit), order, other) for order, other in enumerate(dict.fromkeys(known))]
    near = [(cost, other) for cost, _, other in sorted(rated) if cost <= limit and other != name]
    # If one is the same but for case or its qualifier, the others are not meant.
    same = [other for cost, other in near if cost == 0]
    return (same or [other for _, other in near])[:most]


def rate(one, two, limit):
    """The distance of two names. A name that ends the other, after a dot, has distance 0."""
    if one.endswith("." + two) or two.endswith("." + one):
        return 0
    return distance(one, two, limit)


def choice(names, joint="or"):
    """Names as a sentence has them: `a, b or c`."""
    names = list(names)
    return names[0] if len(names) == 1 else f"{', '.join(names[:-1])} {joint} {names[-1]}" if names else ""


def meant(name, known):
    """A sentence on the likely intended name, or nothing."""
    near = near_names(name, known)
    return f"{choice(near)} is likely meant" if near else ""
