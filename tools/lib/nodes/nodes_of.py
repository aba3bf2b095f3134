"""The nodes and the links below the root of a design, as tools that look at traces need them."""

import json
from collections import namedtuple

from ..language.model import Model, declared_in, root_of
from ..scenarios.bundles import Refused

# The components' paths in order, the root out ports in order, the ends of each link (two paths) by its name, the rate
# of each path and how many of its steps it sends, the period, and the bounds of the platform.
Nodes = namedtuple("Nodes", "paths outputs links rates sent period bounds")


def nodes_of(bundle, root):
    """The nodes of a bundle's design below the root of a name, or below the only one."""
    declared = declared_in(bundle.design)
    if declared is None:
        raise Refused(f"{bundle.path}: not a text of the language; ./pals check reports the position")
    model = Model(declared, root_of(declared, root))
    rates = {thread.path: model.rate(thread) for thread in model.by_path.values()}
    if model.bounds is None or not model.period or None in rates.values():
        raise Refused(f"{bundle.path}: its periods and bounds are not known; ./pals check reports the reason")
    links = {f"{thread.path}.{port.name.text}": thread.path for thread, port in model.in_ports()}
    links = {link: (model.source(link), target) for link, target in links.items() if model.source(link)}
    outputs = [port.name.text for port in model.root_ports("out") if model.came_from(port.name.text)]
    sent = {path: model.steps_sent(rate) for path, rate in rates.items()}
    return Nodes(model.threads, outputs, links, rates, sent, model.period, model.bounds)


def scenario_of(bundle):
    """The scenario of a bundle, as an object."""
    try:
        found = json.loads(bundle.scenario.decode("utf-8"))
    except ValueError as error:
        raise Refused(f"{bundle.path}: the scenario cannot be read") from error
    if not isinstance(found, dict):
        raise Refused(f"{bundle.path}: the scenario is not an object")
    return found
