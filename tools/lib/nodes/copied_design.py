"""Copies of a design that begin where a round of it begins (docs/traces.md, Long runs).

Each component has a type and an implementation of its own. In the first rounds of the copy, the **entry**, components
send what the design has sent: so the in ports hold what they held, and the messages of the last round are on their way.
After the entry, each component is in its state and runs the design's own transitions. Out ports of the root can show
each out port that a link reads: then the rows have the messages."""

from ..language.model import adaptor_of, ports_of
from ..language.tokens import tokens_of, word_of
from ..language.tree import property_of
from .copied_thread import ThreadMaker, section


class CopiedDesign:
    """The copy of a design, below a root, that begins with a round. `shows` states whether the root shows all messages.
    """

    def __init__(self, design, model, start, shows=True):
        self.model, self.start, self.texts, self.count = model, start, [], 0
        words = {word_of(token).lower() for token in tokens_of(design)}
        self.prefix = next(prefix for prefix in ("x" * more + "entry" for more in range(60))
                           if not any(word.startswith(prefix) for word in words))
        self.threads = ThreadMaker(design, model, start, self.prefix)
        # The root out ports that show the out ports of threads, by thread and port.
        self.shown = {}
        for thread, port in model.in_ports():
            source = model.came_from(f"{thread.path}.{port.name.text}")
            if shows and source and source.thread:
                key = (source.thread.path.lower(), source.port.lower())
                self.shown.setdefault(key, f"{self.prefix}_{len(self.shown)}")

    def text(self):
        """The text of the copy. Its root has the name of the design's."""
        self.composite(self.model.root, ())
        name = f"{self.prefix}_copy"
        return "\n".join([f"package {name} public", *self.texts, f"end {name};", ""]).encode()

    def composite(self, impl, path):
        """Writes a system or a process at a path, after its parts; returns its name."""
        below = "".join(f"{name}." for name in path).lower()
        shown = {port: name for port, name in self.shown.items() if port[0].startswith(below)}
        name, declared = self.named(impl, path), self.model.declared
        parts = [self.part(part, path) for part in impl.parts]
        wires = [f" {it.name.text}: port {it.source.text} -> {it.target.text}{carried(it)};" for it in impl.connections]
        for (thread, port), shown_as in shown.items():
            inner, _, rest = thread[len(below) :].partition(".")
            wires.append(f" {shown_as}_wire: port {inner}.{shown_as if rest else port} -> {shown_as};")
        ports = [*map(port_text, declared.ports_of(impl)),
                 *(f" {shown_as}: out data port {self.kind(port)};" for port, shown_as in shown.items())]
        self.declare(impl.category, name, ports, [], [*section("subcomponents", parts), *section("connections", wires),
                                                      *([] if path else self.bounds())])
        return name

    def part(self, part, path):
        """Writes what a subcomponent is, and returns its line."""
        path += (part.name.text,)
        thread = self.model.by_path.get(".".join(path).lower()) if part.category == "thread" else None
        if thread is None:
            name = self.composite(self.model.declared.impl_of(part.ref), path)
            return f" {part.name.text}: {part.category} {name};"
        name = self.named(thread.impl, path)
        self.declare("thread", name, map(port_text, thread.type.ports), ["properties Dispatch_Protocol => Periodic;"],
                     ["annex behavior_specification {**", *self.threads.behaviour(thread), "**};"])
        return f" {part.name.text}: thread {name} {{Period => {thread.period} ns;}};"

    def declare(self, category, name, ports, of_type, of_impl):
        """Writes a type and its implementation."""
        kind = name.partition(".")[0]
        self.texts += [f"{category} {kind}", *section("features", [*ports]), *of_type, f"end {kind};",
                       f"{category} implementation {name}", *of_impl, f"end {name};"]

    def named(self, impl, path):
        """The name of the implementation at a path: the root's own, or a new one."""
        self.count += 1
        return f"{self.prefix}_{self.count}.i" if path else impl.name.text

    def kind(self, port):
        """The type of an out port, by its thread and name."""
        outs = ports_of(self.model.by_path[port[0]], "out")
        return next(it.ref.text for it in outs if it.name.text.lower() == port[1])

    def bounds(self):
        """The properties of the root."""
        bounds = self.model.bounds
        return ["properties", f" Period => {self.model.period} ns;", f" PALS_Profile::Skew => {bounds.skew} ns;",
                f" PALS_Profile::Execution => {bounds.shortest} ns .. {bounds.longest} ns;",
                f" PALS_Profile::Network => {bounds.fastest} ns .. {bounds.slowest} ns;"]


def port_text(port):
    """The declaration of a port."""
    return f" {port.name.text}: {port.direction} data port {port.ref.text};"


def carried(wire):
    """The properties of a connection."""
    timing, adaptor = property_of(wire.props, "Timing"), adaptor_of(wire)
    props = [f"Timing => {timing.text};"] if timing else []
    props += [f'PALS_Profile::Input_Adaptor => "{adaptor}";'] if adaptor is not None else []
    return f" {{{' '.join(props)}}}" if props else ""
