"""Joins what several nodes have recorded to one trace (docs/traces.md, Join).

The trace has the form that a law of pals gives to every run within the bounds: each arrival is at the start that reads
it, with the reading of this start and in the order of the links; a message that no start reads is in flight; the delays
are the minimum of the network. A message that needs another delay, since it was late or lost, has one."""

from ..scenarios.bundles import Refused
from .joined_delays import Delays, NotShown
from .records import Line, before, started_round, whole_rounds

# The maximum reading that an audit takes.
MOST_READING = 2**59


class Joined:
    """One trace of records: its lines, and the delays of its messages. `rounds` is the number of rounds to which the
    records are cut, or None; `notes` are sentences on the parts that the trace does not show; `left_out` counts second
    copies."""

    def __init__(self, nodes, records, rounds=None):
        self.nodes, self.given, self.rounds = nodes, records, rounds
        self.notes = [note for record in records.values() for note in record.notes]
        self.left_out = sum(it.end == "ignored" for record in records.values() for it in record.lines)
        while True:
            try:
                self.records = records if self.rounds is None else \
                    {path: before(record, self.rounds) for path, record in records.items()}
                self.make()
                break
            except NotShown as why:
                self.notes.append(why.why)
                self.rounds = why.rounds
            if self.rounds < 1:
                raise Refused(f"no round can be audited: {self.notes[-1]}")

    def make(self):
        """Makes the journal and the delays."""
        self.own = {path: [it for it in record.lines if it.end != "ignored"] for path, record in self.records.items()}
        self.sends = {(path, it.round): it.reading for path, lines in self.own.items() for it in lines
                      if it.kind == "send"}
        self.cut_at_holds()
        self.cut_at_readings()
        self.last = self.take_stops()
        self.cut_at_ends()
        self.arrivals = {(it.what, it.round): it.reading for lines in self.own.values() for it in lines
                         if it.kind == "arrive"}
        self.taken = set()
        for path in self.own:
            self.put_at_starts(path)
        self.journal = self.ordered()
        self.delays = Delays(self).chosen()

    def sent(self, message):
        """The reading of the send of a message, by its link and its round; None if it was not sent."""
        link, number = message
        return self.sends.get((self.nodes.links[link][0], number))

    def whole(self):
        """The node with the fewest whole rounds, and their number."""
        counts = {path: whole_rounds(record, self.nodes.rates[path]) for path, record in self.records.items()}
        path = min(counts, key=counts.get)
        return path, counts[path]

    def cut_at_readings(self):
        """A reading that is too large for a trace."""
        for path, lines in self.own.items():
            wild = next((it for it in lines if it.reading is not None and it.reading > MOST_READING), None)
            if wild:
                raise NotShown(min(self.whole()[1], started_round(wild) if wild.kind == "stop" else wild.round),
                               f"{path} has a reading above 2^59 ns in round {wild.round}")

    def cut_at_holds(self):
        """A round that a node began with a held value is not of the composition."""
        path, held = min(((path, record.held) for path, record in self.given.items() if record.held is not None),
                         key=lambda it: it[1], default=(None, None))
        if held is not None and (self.rounds is None or held < self.rounds):
            raise NotShown(held, f"{path} began round {held} with a held value: an audit can judge the rounds before "
                           f"it")

    def take_stops(self):
        """Takes all stops out of the lines, and returns the lines of the first one by its round."""
        ends = {}
        for path, lines in self.own.items():
            if lines and lines[-1].kind == "stop":
                count = 2 if lines[-1].end == "early" else 1
                ends[path], self.own[path] = lines[-count:], lines[:-count]
        first = min(ends, key=lambda path: (started_round(ends[path][-1]), ends[path][-1].reading, path), default=None)
        return ends.get(first, [])

    def cut_at_ends(self):
        """Without a stop, all nodes have to have finished the same rounds."""
        path, whole = self.whole()
        more = any(it.round >= whole for lines in self.own.values() for it in lines if it.kind != "arrive")
        if not self.last and (more or (self.rounds or 0) > whole):
            later = any(it.round > whole for it in self.records[path].lines if it.kind != "arrive")
            raise NotShown(whole, f"the record of {path} {'lacks lines of' if later else 'ends in'} round {whole}"
                                  f"{'' if later else ' without a stop'}")

    def put_at_starts(self, path):
        """Moves each arrival to the start that reads it, or to the missed stop, in the order of the links. Arrivals
        that neither reads are omitted."""
        links = [link for link, (_, target) in self.nodes.links.items() if target == path]
        arrived = {(it.what, it.round) for it in self.own[path] if it.kind == "arrive"}
        lines = []
        for line in self.own[path]:
            if line.kind == "start":
                lines += self.read_at(links, arrived, line.round, line.reading)
            if line.kind != "arrive":
                lines.append(line)
        self.own[path] = lines
        stop = self.last[-1] if self.last and self.nodes.links[self.last[-1].what][1] == path else None
        if stop and stop.end == "missed":
            self.own[path] = [*lines, *self.read_at(links, arrived, started_round(stop), stop.reading)]

    def read_at(self, links, arrived, number, reading):
        """The arrivals that the start of a round reads."""
        for link in links:
            key = (link, number - 1)
            if key not in arrived:
                continue
            if self.sent(key) is None:
                source = self.nodes.links[link][0]
                raise NotShown(number - 1, f"the message of round {number - 1} to {link} arrived, and the record of "
                                           f"{source} has no send of it")
            self.taken.add(key)
            words = ["arrive", link, str(number - 1), str(reading), "kept"]
            yield Line("arrive", link, number - 1, reading, "kept", words)

    def ordered(self):
        """The lines of all nodes: a send only if no other line can be taken, and then one of the minimum round."""
        left = {path: list(reversed(lines)) for path, lines in self.own.items()}
        journal, sent = [], set()
        while any(left.values()):
            count = len(journal)
            for lines in left.values():
                while lines and self.goes_on(lines[-1], sent):
                    journal.append(lines.pop())
            heads = [(lines[-1].round, lines[-1].reading, path) for path, lines in left.items()
                     if lines and lines[-1].kind == "send"]
            if heads:
                path = min(heads)[2]
                journal.append(left[path].pop())
                sent.add((path, journal[-1].round))
            elif len(journal) == count:
                stuck = next(lines[-1] for lines in left.values() if lines)
                raise NotShown(stuck.round, f"no order has each arrival after its send: {' '.join(stuck.words)}")
        return journal

    def goes_on(self, line, sent):
        """Whether a line can be taken without a send."""
        if line.kind == "arrive":
            return (self.nodes.links[line.what][0], line.round) in sent
        return line.kind != "send"

    def stop_lines(self):
        """The lines of the retained stop, a missed one with its cause."""
        for line in self.last:
            words = list(line.words)
            if line.kind == "stop" and line.end == "missed":
                sent = self.sent((line.what, line.round)) is not None
                words = words[:5] + ["in-transit" if sent else "not-sent"]
            yield " ".join(words)

    def rows(self):
        """The rows of the rounds that all nodes have finished."""
        count = min((len(record.rows) for record in self.records.values()), default=0)
        for number in range(count):
            yield f"round {number}"
            yield from (self.row(path, number) for path in self.nodes.paths)
            for name in self.nodes.outputs:
                found = [record.outs[number, name] for record in self.records.values() if (number, name) in record.outs]
                if len(found) != 1:
                    raise Refused(f"{len(found)} nodes recorded the output {name} of round {number}; expected one")
                yield found[0]

    def row(self, path, number):
        """The state that a round of a node has left."""
        if number not in self.records[path].rows:
            raise Refused(f"{path}: its rows are not of all rounds from 0 on")
        return self.records[path].rows[number]

    def lines(self):
        """The trace."""
        return [*self.rows(), *(" ".join(it.words) for it in self.journal), *self.stop_lines()]

    def raw_arrivals(self):
        """The recorded readings of the arrivals that the trace does not have with them, by link and round. A message
        that its node took only for a round that is cut off has none: it may have arrived long before."""
        in_trace = {(it.what, it.round): it.reading for it in self.journal if it.kind == "arrive"}
        cut = None if self.rounds is None else (self.rounds + 1) * self.nodes.period
        return {key: reading for key, reading in self.arrivals.items() if in_trace.get(key) != reading
                and (key[1] + 1 != self.rounds or reading < cut)}
