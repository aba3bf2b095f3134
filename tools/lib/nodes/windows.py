"""A run of any length in windows, each of which an audit takes (docs/traces.md, Long runs).

The first window begins with round 0. Each other one is a trace of a copy of the design that begins with the window's
first round: its entry has the last round before, and earlier rounds if in ports hold values of them."""

from collections import Counter, namedtuple

from ..language.model import Model, declared_in, root_of
from ..language.round_start import Course
from ..language.tree import behaviour_of
from ..scenarios.bundles import MOST_BYTES, Bundle, Refused
from .copied_design import CopiedDesign
from .entry_lines import Entry
from .joined_bundle import MOST_LINES, MOST_ROUNDS, bundle_text
from .joining import Joined
from .nodes_of import nodes_of
from .record_parts import moved_line

# A window: its first round and the one after its last, how many rounds its entry has, and the bytes of its bundle.
Window = namedtuple("Window", "first end entry text")
# What a window takes: bytes, lines, rounds, and output values of the run; and the most that it may take.
Size = namedtuple("Size", "bytes lines rounds cells")
MOST = Size(MOST_BYTES * 49 // 50, MOST_LINES, MOST_ROUNDS, 1_000_000)
# The bytes of a line, of an out line, of a value and of a delay in a bundle at most, besides their texts.
OF_LINE, OF_OUT, OF_VALUE, OF_DELAY = 6, 24, 21, 16


class Windows:
    """The windows of a run, from what its nodes have recorded. `joined` is the whole run, as far as an audit can judge
    it."""

    def __init__(self, bundle, root, scenario, records, joined):
        declared = declared_in(bundle.design)
        self.bundle, self.root, self.scenario, self.records, self.joined = bundle, root, scenario, records, joined
        self.model = Model(declared, root_of(declared, root))
        self.nodes, self.course = joined.nodes, Course(self.model, scenario)
        self.total = joined.whole()[1] if joined.rounds is None else min(joined.rounds, joined.whole()[1])
        # The lines of each node by their rounds.
        self.lines = {path: {} for path in records}
        for path, record in records.items():
            for line in record.lines:
                self.lines[path].setdefault(line.round, []).append(line)
        self.last = max((number for lines in self.lines.values() for number in lines), default=0)

    def each(self):
        """The windows, in order."""
        sizes = self.sizes()
        while self.course.round < self.total:
            start = self.course.start()
            copied = CopiedDesign(self.bundle.design, self.model, start)
            design = copied.text()
            outs = self.filled(len(design), len(start.sent), sizes)
            yield self.window(copied, design, outs)

    def sizes(self):
        """The bytes and the lines that a bundle has of each round, without what the copy adds."""
        size, lines = Counter(), Counter()
        for record in self.records.values():
            for line in record.lines:
                length = sum(map(len, line.words)) + len(line.words) + OF_LINE
                size[line.round] += length + (len(str(line.reading)) + 1 if line.kind == "arrive" else 0)
                lines[line.round] += 1
            for number, row in [*record.rows.items(), *((number, out) for (number, _), out in record.outs.items())]:
                size[number] += len(row) + OF_LINE
                lines[number] += 1
        return size, lines

    def filled(self, design, entry, sizes):
        """Computes the rounds of a window, as many as fit; returns what the out ports send in each of them."""
        ports = [node.rate for node in self.course.nodes.values() for _ in node.machine.outs]
        most, cells = sum(OF_OUT + OF_VALUE * rate for rate in ports), self.cells()
        size, outs, first = Size(design, 0, 0, 0), [], self.course.round

        def after(number, shown):
            """The size with one more round."""
            length = sizes[0][number] + shown + OF_DELAY * (len(self.nodes.links) + 1)
            return Size(*map(sum, zip(size, (length, sizes[1][number] + len(ports) + 1, 1, cells))))

        for number in range(first - entry, first):
            size = after(number, most)
        while self.course.round < self.total:
            if any(one > most_of for one, most_of in zip(after(self.course.round, most), MOST)):
                break
            self.course.advance()
            outs.append(self.course.whole)
            size = after(self.course.round - 1, size_of(self.course.whole))
        if not outs:
            raise Refused(f"round {first} does not fit into a bundle")
        return outs

    def cells(self):
        """How many output values a round of a copy has at most."""
        nodes = self.course.nodes.values()
        variables = sum(len(behaviour_of(node.thread.impl).variables) for node in nodes)
        outs = sum(node.rate * len(node.machine.outs) for node in nodes)
        links = sum(self.nodes.rates[source] for source, _ in self.nodes.links.values())
        own = sum(self.model.rate(self.model.came_from(name).thread) for name in self.nodes.outputs)
        return 1 + 2 * sum(node.rate for node in nodes) + variables + links + outs + own

    def window(self, copied, design, outs):
        """The window of a copy, with what the out ports have sent in its rounds."""
        first, entry = copied.start.round, len(copied.start.sent)
        moved, end = first - entry, first + len(outs)
        continues = end < self.total or not self.joined.last
        bundle = Bundle(self.bundle.path, design)
        nodes = nodes_of(bundle, self.root)
        made = Entry(copied, self.model, nodes)
        rounds = range(first - min(entry, 1), end if continues else self.last + 1)
        records = {path: self.record(path, made, rounds, outs) for path in nodes.paths}
        joined = Joined(nodes, records, end - moved if continues else None)
        if joined.notes:
            raise Refused(f"the window from round {first} on: {joined.notes[-1]}")
        text, _ = bundle_text(bundle, self.inputs(copied.start), joined, rounds.stop - moved + (not continues))
        if len(text) > MOST_BYTES:
            raise Refused(f"the window from round {first} on has {len(text):,} bytes")
        return Window(first, end, entry, text)

    def record(self, path, made, rounds, outs):
        """What a node did in the entry, of whose rounds only the last one is recorded, and in the rounds of a
        window."""
        record, start, lines = self.records[path], made.start, self.lines[path]
        moved, unseen = start.round - len(start.sent), max(len(start.sent) - 1, 0)
        own = [moved_line(line, moved, self.nodes.period) for number in rounds for line in lines.get(number, ())]
        rows = {number - moved: record.rows[number] for number in rounds if number in record.rows}
        shown = {(number - moved, name): record.outs[number, name] for number in rounds for name in self.nodes.outputs
                 if (number, name) in record.outs}
        for name in set(made.outputs_of(path)).difference(self.nodes.outputs):
            shown.update(((number, name), made.out(name, sent)) for number, sent in enumerate([*start.sent, *outs]))
        return made.entered(path, record._replace(lines=own, rows=rows, outs=shown, held=None, notes=[]), unseen)

    def inputs(self, start):
        """The inputs of a window."""
        given = self.scenario.get("inputs")
        if not isinstance(given, dict):
            return {}
        return {"inputs": {name: [*(entry.get(name.lower()) for entry in start.inputs), *values[start.round :]]
                           for name, values in given.items() if isinstance(values, list)}}


def size_of(sent):
    """The bytes of the out lines of a round at most."""
    return sum(OF_OUT + sum(len(str(value)) + 1 for value in places) for places in sent.values())
