"""The properties of a command: from its scenario, and written as text."""

from ..scenarios.bundles import Refused, read
from .formula_text import read_properties, read_property


def properties_of(opened, texts, path=None):
    """All properties by their names: of the scenario, of a file if there is a path, and of texts. A later one replaces
    an earlier one of its name."""
    found = opened.scenario().get("properties")
    found = dict(found) if isinstance(found, dict) else {}
    if path:
        found.update(read_properties(read(path).decode("utf-8", "replace"), opened.listing))
    for text in texts:
        name, form = read_property(text, opened.listing)
        found[name] = form
    if not found:
        raise Refused("there is no property: give --property, --properties, or some in the scenario (docs/monitors.md)")
    return found
