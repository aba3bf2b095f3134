"""Reads the record of one node: its lines of the journal, and the rows of its rounds."""

import re
from collections import Counter, namedtuple

from ..running.answers import NUMBER
from ..scenarios.bundles import Refused

# A line: its kind, its path or link, its round, its reading (None of a finish), the result of an arrival or the kind of
# a stop, its words, and the number of the line in its record.
Line = namedtuple("Line", "kind what round reading end words at", defaults=(None,))
# A record: the lines in the node's own order, its rows by round, what root out ports show by round and name, the
# identity of the design that the node ran (None if it recorded none), the first round that it started with a held value
# (None if it held none), and sentences on damage of the record.
Record = namedtuple("Record", "lines rows outs design held notes")

FORMS = [
    re.compile(rf"(?P<kind>start|send) (?P<what>\S+) (?P<round>{NUMBER}) (?P<reading>{NUMBER})"),
    re.compile(rf"(?P<kind>step) (?P<what>\S+) (?P<round>{NUMBER}) {NUMBER} (?P<reading>{NUMBER})"),
    re.compile(rf"(?P<kind>finish) (?P<what>\S+) (?P<round>{NUMBER})"),
    re.compile(rf"(?P<kind>arrive) (?P<what>\S+) (?P<round>{NUMBER}) (?P<reading>{NUMBER}) "
               rf"(?P<end>kept|ignored|early)"),
    re.compile(rf"(?P<kind>stop) (?P<end>early|missed) (?P<what>\S+) (?P<round>{NUMBER}) (?P<reading>{NUMBER})"
               rf"(?: (?:not-sent|in-transit|lost))?"),
]
ROW = re.compile(rf"row (?P<round>{NUMBER}) (?P<path>\S+) \S.*")
OUT = re.compile(rf"out (?P<round>{NUMBER}) (?P<name>\w+) \(.*\)")
DESIGN = re.compile(r"design (?P<path>\S+) (?P<sum>[0-9a-f]{16})")
SAVE = re.compile(rf"save (?P<path>\S+) {NUMBER} {NUMBER}")
HOLD = re.compile(rf"hold (?P<link>\S+) (?P<round>{NUMBER}) {NUMBER}")


def line_of(text):
    """A line of a journal, or None."""
    for form in FORMS:
        match = form.fullmatch(text)
        if match:
            parts = match.groupdict()
            reading = int(parts["reading"]) if "reading" in parts else None
            return Line(parts["kind"], parts["what"], int(parts["round"]), reading, parts.get("end"), text.split(" "))
    return None


class Reader:
    """Takes the lines of a node's record one by one."""

    def __init__(self, path, nodes):
        self.path, self.nodes = path, nodes
        self.lines, self.rows, self.outs, self.design, self.held = [], {}, {}, None, None

    def begins_again(self, text):
        """Whether a line is the first one of a node that was started again."""
        return bool(self.lines) and (DESIGN.fullmatch(text) is not None or
                                     re.fullmatch(rf"start {re.escape(self.path)} 0 {NUMBER}", text) is not None)

    def take(self, text, number):
        """Takes a line with its number; returns False if it is not a line of this node."""
        row, out, line = ROW.fullmatch(text), OUT.fullmatch(text), line_of(text)
        design, hold = DESIGN.fullmatch(text), HOLD.fullmatch(text)
        if row and row["path"] == self.path:
            self.rows[int(row["round"])] = text.split(" ", 2)[2]
        elif out and out["name"] in self.nodes.outputs:
            self.outs[int(out["round"]), out["name"]] = "out " + text.split(" ", 2)[2]
        elif line and owner(line, self.nodes) == self.path:
            self.lines.append(line._replace(at=number))
        elif design and design["path"] == self.path:
            self.design = design["sum"]
        elif hold and self.nodes.links.get(hold["link"], (None, None))[1] == self.path:
            self.held = int(hold["round"]) + 1 if self.held is None else self.held
        else:
            save = SAVE.fullmatch(text)
            return text.startswith("#") or bool(save and save["path"] == self.path)
        return True


def read_record(text, path, nodes):
    """The record of the node of a path. Damage that a crash leaves is cut off, and noted: an incomplete last line, and
    the lines of a node that was started again."""
    reader, notes = Reader(path, nodes), []
    lines = text.split("\n")
    if lines.pop():
        notes.append(f"the last line of {path} has no end and is omitted")
    for number, one in enumerate(lines, 1):
        if reader.begins_again(one):
            notes.append(f"{path} was started again at line {number} of its record: the lines from there on are "
                         f"omitted")
            break
        if reader.lines and reader.lines[-1].kind == "stop" and one and not one.startswith("#"):
            raise Refused(f"{path}, line {number}: a line after the stop")
        if one and not reader.take(one, number):
            raise Refused(f"{path}, line {number}: not a line of this node: {one[:60]}")
    record = Record(reader.lines, reader.rows, reader.outs, reader.design, reader.held, notes)
    return without_open_finish(record, nodes.rates[path])


def without_open_finish(record, rate):
    """A record whose last finish has no row loses this finish: the node was cut off between the two lines."""
    last = max((at for at, line in enumerate(record.lines) if line.kind == "finish"), default=None)
    if last is None:
        return record
    number = record.lines[last].round
    finishes = sum(line.kind == "finish" and line.round == number for line in record.lines)
    if finishes < rate or (number in record.rows and shown(record, number) >= shown(record, 0)):
        return record
    record.rows.pop(number, None)
    for key in [key for key in record.outs if key[0] == number]:
        del record.outs[key]
    return record._replace(lines=record.lines[:last])


def shown(record, number):
    """The names of the root out ports whose values of a round the record has."""
    return {name for at, name in record.outs if at == number}


def owner(line, nodes):
    """The path of the node that a line is of."""
    return nodes.links.get(line.what, (None, None))[1] if line.kind in ("arrive", "stop") else line.what


def started_round(stop):
    """The round at whose start a node has stopped, or that it had not yet started."""
    return stop.round + (stop.end == "missed")


def whole_rounds(record, rate):
    """How many rounds from 0 on a record has with all their lines."""
    count = Counter((line.kind, line.round) for line in record.lines if line.kind in ("start", "finish", "send"))
    number = 0
    while count["start", number] and count["send", number] and count["finish", number] == rate \
            and number in record.rows:
        number += 1
    return number


def before(record, rounds):
    """A record with its first rounds only."""
    def stays(line):
        return (started_round(line) if line.kind == "stop" else line.round) < rounds

    return record._replace(lines=[line for line in record.lines if stays(line)],
                           rows={number: row for number, row in record.rows.items() if number < rounds},
                           outs={key: out for key, out in record.outs.items() if key[0] < rounds})
