"""The parts of a run between restarts of all nodes (docs/c_nodes.md, Lost messages).

A part that begins with a saved round is a trace of a copy of the design that begins where that round began."""

from collections import namedtuple

from ..language.model import Model, declared_in, root_of
from ..language.round_start import Course
from ..scenarios.bundles import Bundle, Refused
from .copied_design import CopiedDesign
from .entry_lines import Entry
from .joined_bundle import from_round
from .nodes_of import nodes_of
from .record_parts import moved_line, part_of, saved_of
from .records import read_record

# A part: a bundle with its design, its scenario, its nodes and records, the round of the run at which it begins, how
# many rounds its entry has, and the saved round that it continues (None if it begins with the initial frames).
Part = namedtuple("Part", "bundle scenario nodes records first entry saved")


class Parts:
    """The parts of a run by the texts of its records."""

    def __init__(self, bundle, root, scenario, texts):
        self.bundle, self.root, self.scenario, self.texts = bundle, root, scenario, texts
        self.nodes = nodes_of(bundle, root)

    def of(self, number):
        """A part by its number, from 0."""
        found = {path: part_of(text, number, path, self.nodes.period) for path, text in self.texts.items()}
        firsts = {first for _, first in found.values()}
        saves = {saved_of(text, number, path) for path, text in self.texts.items()}
        if len(firsts) > 1:
            raise Refused(f"the nodes restarted at different rounds: {', '.join(map(str, sorted(firsts)))}")
        if len(saves) > 1:
            raise Refused(f"in part {number} the nodes continue different saved rounds, or some of them none")
        texts = {path: text for path, (text, _) in found.items()}
        first, saved = max(firsts, default=0), max(saves, default=None)
        if saved is not None:
            return self.resumed(texts, first, *saved)
        records = {path: read_record(text, path, self.nodes) for path, text in texts.items()}
        return Part(self.bundle, from_round(self.scenario, first), self.nodes, records, first, 0, None)

    def resumed(self, texts, first, number, saved):
        """A part that continues a round that was saved in an earlier part."""
        start = self.start(number, saved)
        declared = declared_in(self.bundle.design)
        model = Model(declared, root_of(declared, self.root))
        copied = CopiedDesign(self.bundle.design, model, start, shows=False)
        bundle, entry = Bundle(self.bundle.path, copied.text()), len(start.sent)
        nodes = nodes_of(bundle, self.root)
        made, records = Entry(copied, model, nodes), {}
        for path, text in texts.items():
            record = read_record(text, path, nodes)
            lines = [moved_line(line, -entry, nodes.period) for line in record.lines]
            records[path] = made.entered(path, record._replace(
                lines=lines, rows={at + entry: row for at, row in record.rows.items()},
                outs={(at + entry, name): out for (at, name), out in record.outs.items()},
                held=None if record.held is None else record.held + entry), entry)
        return Part(bundle, self.inputs(first, start), nodes, records, first, entry, saved)

    def start(self, number, saved):
        """What a round begins with that was saved in an earlier part."""
        source = self.of(number)
        rounds = saved - source.first + source.entry
        held = [path for path, record in source.records.items() if record.held is not None and record.held < rounds]
        if held:
            raise Refused(f"{held[0]} held a value before the saved round {saved}: it is not a round of the design")
        declared = declared_in(source.bundle.design)
        course = Course(Model(declared, root_of(declared, self.root)), source.scenario)
        for _ in range(rounds):
            course.advance()
        return course.start(continues=False)

    def inputs(self, first, start):
        """The scenario of a part that continues a round."""
        made, entry = from_round(self.scenario, first), len(start.sent)
        if "rounds" in made:
            made["rounds"] += entry
        for name, values in made.get("inputs", {}).items():
            if isinstance(values, list):
                made["inputs"][name] = [*(it.get(name.lower()) for it in start.inputs), *values]
        return made
