"""The crates of the program: their dependencies (crates.txt), and the group and purpose of each (docs/crates.md)."""

import re

# The sections of docs/crates.md in four groups, each of which has a colour in the picture.
GROUPS = {
    "programs, analyses and output": ("Programs", "Analyses", "Output"),
    "nodes and time": ("Threads and traces", "Worlds", "Laws of runs", "Nodes and the bus", "Step code"),
    "language and checks": ("From an instance to a design", "From a package to its instance", "Names of a package",
                            "The language"),
    "composition, scenarios and foundations": ("Scenarios", "The composition and its times", "Foundations"),
}


def dependencies(text):
    """The crates that each crate depends on, by the text of crates.txt; ported crates are omitted."""
    lines = [line.partition(":") for line in text.split("\n") if line.strip() and not line.startswith("#")]
    below = {name.strip(): rest.split() for name, _, rest in lines}
    return {name: [one for one in rest if one in below] for name, rest in below.items()}


def purposes(page):
    """The group and the purpose of each crate that is not a test, by the text of docs/crates.md."""
    found = {}
    for section in re.split(r"(?m)^## ", page)[1:]:
        group = next((order for order, titles in enumerate(GROUPS.values()) if section.split("\n")[0] in titles), None)
        for name, text in re.findall(r"(?ms)^- \*\*`(\w+)`\*\*\s\([^)]*\):\s(.*?)(?=^- |\Z)", section):
            if group is not None:
                found[name] = group, " ".join(re.sub("[`*]", "", text).split())
    return found


def chains(below):
    """The length of the longest chain of dependencies from each crate down."""
    length = {}

    def measure(name):
        if name not in length:
            length[name] = 1 + max((measure(one) for one in below[name]), default=0)
        return length[name]

    for name in below:
        measure(name)
    return length


def direct(below):
    """The dependencies that do not follow from others (the transitive reduction)."""
    reached = {}

    def all_below(name):
        if name not in reached:
            reached[name] = set(below[name]).union(*(all_below(one) for one in below[name]))
        return reached[name]

    return {name: [one for one in rest if not any(one in all_below(other) for other in rest)]
            for name, rest in below.items()}
