"""What is likely not meant in who hears whom: links that are dead, steps that are not sent, ports without a source."""

from ..commands.times import in_ms
from ..language.model import ports_of
from .finding import Found


def find(model, scenario):
    """All of it, in any order."""
    yield from steps(model)
    yield from links(model)
    yield from sources(model)
    yield from takers(model)
    yield from inputs(model, scenario)
    yield from shared_inputs(model)


def steps(model):
    """Components that send fewer steps than they make."""
    senders = {source(model, thread, port) for thread, port in model.in_ports()}
    for thread in model.by_path.values():
        rate = model.rate(thread)
        sent = model.steps_sent(rate)
        if thread.path in senders and sent is not None and sent < rate:
            yield Found(
                "unsent-steps", thread.path, thread.part.name.offset,
                f"{thread.path} makes {rate} steps in a round, and sends what the first {sent} of them give",
                longer(model, rate),
            )


def source(model, thread, port):
    """The path of the thread that sends to a port, or None."""
    return model.source(f"{thread.path}.{port.name.text}")


def longer(model, rate):
    """The changes with which all steps are sent."""
    bounds = model.bounds
    least = rate * (bounds.slowest + 2 * bounds.skew + bounds.longest)
    return f"all {rate} are sent with a period of {in_ms(least)} or more at the root; see docs/bound.md"


def links(model):
    """Links whose adaptor reads places that are never sent, or fewer values than it seems to have."""
    for thread, port in model.in_ports():
        came = model.came_from(f"{thread.path}.{port.name.text}")
        if not came or not came.thread or not came.adaptor:
            continue
        high, low = model.rate(came.thread), model.rate(thread)
        sent = model.steps_sent(high)
        if sent is None or not low or high <= low or high % low or sent == high:
            continue
        found = link(f"{thread.path}.{port.name.text}", came, (high, low, sent))
        if found:
            rule, what = found
            mend = better(came.adaptor, high // low, sent)
            yield Found(rule, f"{thread.path}.{port.name.text}", came.carrier.name.offset, what, mend,
                        longer(model, high))


def link(name, came, rates):
    """The finding for one link: the rule, and the sentence."""
    high, low, sent = rates
    group = high // low
    read = places(came.adaptor, group)
    if read is None:
        return None
    heard = [[at for at in read if number * group + at < sent] for number in range(low)]
    sends = f"{came.thread.path} sends {sent} of its {high} steps"
    silent = sum(not it for it in heard)
    if silent == low:
        return "dead-link", f'the link to {name} is dead: {sends}, and "{came.adaptor}" reads none of them'
    if silent:
        return "thin-adaptor", f"nothing ever comes to {name} in {silent} of its {low} steps a round: {sends}"
    if any(len(it) < len(read) for it in heard):
        fewest = min(map(len, heard))
        return "thin-adaptor", f'"{came.adaptor}" at {name} is of {fewest} values, not of {len(read)}: {sends}'
    return None


def places(adaptor, group):
    """The places of a group that an adaptor to a lower rate reads; None if it is not such an adaptor."""
    if adaptor in ("first", "last"):
        return [0 if adaptor == "first" else group - 1]
    if adaptor.startswith("at ") and adaptor[3:].isascii() and adaptor[3:].isdigit() and len(adaptor) < 6:
        return [int(adaptor[3:]) - 1] if 1 <= int(adaptor[3:]) <= group else None
    return list(range(group)) if adaptor in ("latest", "max", "min", "average") else None


def better(adaptor, group, sent):
    """The adaptor that is likely meant."""
    if adaptor == "last" or adaptor.startswith("at "):
        return f'"latest" reads the last one that is sent, and so does "at {min(sent, group)}" in the first group'
    return ""


def sources(model):
    """In ports of threads, and out ports of the root, that nothing comes into."""
    for thread, port in model.in_ports():
        name = f"{thread.path}.{port.name.text}"
        if model.came_from(name) is None:
            value = "false" if port.ref and port.ref.text.lower() == "base_types::boolean" else "0"
            yield Found(
                "no-source", name, thread.part.name.offset,
                f"{name} has no source: it always holds {value}", "connect it, or remove the port from its type",
            )
    for port in model.root_ports("out"):
        if model.came_from(port.name.text) is None:
            yield Found("no-source", port.name.text, port.name.offset,
                        f"the root's out port {port.name.text} has no source",
                        "connect it, or remove it")


def takers(model):
    """Out ports of threads, and in ports of the root, that nothing takes."""
    ends = [f"{thread.path}.{port.name.text}" for thread, port in model.in_ports()]
    ends += [port.name.text for port in model.root_ports("out")]
    came = [found for found in map(model.came_from, ends) if found]
    taken = {(found.thread.type.offset, found.port.lower()) for found in came if found.thread and found.thread.type}
    by_type = {thread.type.offset: thread for thread in model.by_path.values() if thread.type}
    for offset, thread in by_type.items():
        for port in ports_of(thread, "out"):
            if (offset, port.name.text.lower()) not in taken:
                yield unread(port, f"nothing reads the messages of {thread.type.name.text} on {port.name.text}")
    heard = {found.port for found in came if not found.thread}
    for port in model.root_ports("in"):
        if port.name.text.lower() not in heard:
            yield unread(port, f"the root's in port {port.name.text} leads nowhere")


def unread(port, what):
    """A port that nothing takes."""
    return Found("unread-port", port.name.text, port.name.offset, what, "connect it, or remove the port")


def inputs(model, scenario):
    """Root in ports for which the scenario has no value."""
    if not isinstance(scenario, dict):
        return
    given = scenario.get("inputs", {})
    given = given if isinstance(given, dict) else {}
    for port in model.root_ports("in"):
        values = given.get(port.name.text)
        if not isinstance(values, list) or all(value is None for value in values):
            yield Found(
                "no-input", port.name.text, port.name.offset,
                f"the scenario has no value for the root's in port {port.name.text}",
                f'give some, as "inputs": {{"{port.name.text}": [..]}}: element r is the value of round r',
            )


def shared_inputs(model):
    """Root in ports that several components read: on nodes of their own each would sample a value of its own."""
    readers = {}
    for thread, port in model.in_ports():
        found = model.came_from(f"{thread.path}.{port.name.text}")
        if found and not found.thread:
            readers.setdefault(found.port, {})[thread.path] = None
    for port in model.root_ports("in"):
        paths = list(readers.get(port.name.text.lower(), ()))
        if len(paths) > 1:
            yield Found(
                "shared-input", port.name.text, port.name.offset,
                f"{' and '.join(paths)} read the root's in port {port.name.text}: the composition has one value for "
                f"all",
                "let one component sample it and send it to the others, or give all nodes the same sample",
            )
