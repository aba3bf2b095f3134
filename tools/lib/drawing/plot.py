"""Variables, states and outputs over rounds as a picture (SVG): a strip for each, and one for each property."""

import fnmatch
from collections import namedtuple

from ..language.names import choice, near_names
from ..running.rows import uncollected
from ..scenarios.bundles import Refused
from .svg import DARK, LIGHT, WRONG, Sheet, ticks, wide

# What is plotted: its name, its kind (number, truth, state or verdict), and its pieces. A piece is where it begins and
# ends, in rounds, and its value.
Signal = namedtuple("Signal", "name kind pieces")
Piece = namedtuple("Piece", "begin end value")

HEIGHTS = {"number": 58, "truth": 26, "state": 22, "verdict": 20}
LEAST_WIDTH, MOST_WIDTH, PER_ROUND, TOP, GAP = 700, 5000, 7, 60, 8
STYLE = f"""
.grid {{stroke: #ddd}}
.frame {{stroke: #bbb; fill: none}}
.steps {{stroke: {DARK[0]}; stroke-width: 1.5; fill: none}}
.truth {{fill: {LIGHT[0]}; stroke: {DARK[0]}; stroke-width: .7}}
.state {{stroke: #456; stroke-width: .5}}
{''.join(f'.s{turn} {{fill: {colour}}} ' + chr(10) for turn, colour in enumerate(LIGHT))}
.halted {{fill: #f6c6cd; stroke: {WRONG}; stroke-width: 1}}
.holds {{stroke: #1d7a55; stroke-width: 3}}
.fails {{fill: {WRONG}}}
.halt {{stroke: {WRONG}; stroke-width: 2; stroke-dasharray: 4 2}}
"""


def signals_of(report, names=()):
    """What the rows of a report have, in their order: states, variables and outputs; only some if there are names."""
    known = names_in(report)
    wanted = chosen(list(known), names)
    with uncollected():
        columns = columns_of(report, {known[name] for name in wanted})
        found = [(name, known[name], columns[known[name]]) for name in wanted]
        return [Signal(name, kind_of(key, column), pieces_of(column)) for name, key, column in found]


def names_in(report):
    """The names of states, variables and outputs in their order, each with its owner and its own name. The owner is the
    path of a component, or None for an output; a state has no name of its own."""
    found = {}
    shapes = dict.fromkeys((path, tuple(values)) for row in report.rows for path, _, values in row.components)
    for path, names in shapes:
        found[path] = (path, None)
        found.update((f"{path}.{name}", (path, name)) for name in names)
    outs = dict.fromkeys(name for row in report.rows for name, _ in row.outs)
    return {**found, **{f"out {name}": (None, name) for name in outs}}


def columns_of(report, keys):
    """The values of some states, variables and outputs, each a round and the values of its places."""
    found, wanted = {key: [] for key in keys}, {}
    for owner, name in keys:
        wanted.setdefault(owner, []).append((name, found[owner, name]))
    for row in report.rows:
        for path, state, values in row.components:
            for name, column in wanted.get(path, ()):
                value = state if name is None else values.get(name)
                if value is not None:
                    column.append((row.number, (value,)))
        for name, places in row.outs:
            if (None, name) in found:
                found[None, name].append((row.number, places))
    return found


def kind_of(key, column):
    """The kind of a state, a variable or an output: for the last two the kind of the first value that is not absent."""
    if key[1] is None:
        return "state"
    first = next((value for _, places in column for value in places if value != "_"), "true")
    return "truth" if first in ("true", "false") else "number"


def pieces_of(column):
    """The pieces of a signal: the values of a round share it evenly, and absent ones have none."""
    return [Piece(at + order / len(places), at + (order + 1) / len(places), value)
            for at, places in column for order, value in enumerate(places) if value != "_"]


def verdicts_of(report):
    """The verdicts of a report, each property as pieces."""
    found = {}
    for row, verdicts in zip(report.rows, report.verdicts):
        for name, value in verdicts.items():
            found.setdefault(name, []).append(Piece(row.number, row.number + 1, value))
    return [Signal(name, "verdict", pieces) for name, pieces in found.items()]


def chosen(signals, names):
    """The signals of some names: a name, a component with everything that it has, or with `*` for any letters."""
    if not names:
        return signals
    taken = []
    for name in names:
        known = [it for it in signals if it.startswith(f"{name}.")
                 or any(fnmatch.fnmatchcase(it, form) for form in (name, f"out {name}"))]
        if not known:
            near = near_names(name, signals) or signals[:6]
            raise Refused(f"nothing is named {name}; there is {choice(near)}" if near else f"nothing is named {name}")
        taken.extend(it for it in known if it not in taken)
    return taken


def merged(pieces):
    """Pieces of one value that follow one another, as one."""
    found = []
    for piece in pieces:
        if found and found[-1].value == piece.value and abs(found[-1].end - piece.begin) < 1e-9:
            found[-1] = found[-1]._replace(end=piece.end)
        else:
            found.append(piece)
    return found


class Plot:
    """Draws signals over rounds."""

    def __init__(self, signals, title, halts=()):
        self.signals, self.title = signals, title
        self.halts = {halt.path: halt for halt in halts}
        ends = [end for signal in signals for piece in (signal.pieces[:1] + signal.pieces[-1:]) for end in piece[:2]]
        self.first, self.last = int(min(ends, default=0)), max(ends, default=1)
        rounds = max(self.last - self.first, 1)
        self.width = min(max(LEAST_WIDTH, PER_ROUND * rounds), MOST_WIDTH)
        self.left = 24 + max([wide(signal.name) for signal in signals] + [40]) + 96
        self.scale = self.width / rounds
        layers = ["grid", "frame", "state", "truth", "halted", "holds", "fails", "steps", "halt"]
        self.sheet = Sheet("plot", STYLE, layers)

    def x(self, at):
        """The position of a time, in rounds."""
        return self.left + (at - self.first) * self.scale

    def draw(self):
        """The whole picture."""
        self.sheet.text(24, 24, self.title, "title")
        heading = 24 + wide(self.title) * 1.2
        if self.halts:
            self.sheet.text(heading + 12, 24, self.halted_words(), "red")
            heading += wide(self.halted_words()) + 24
        bottom = TOP
        for signal in self.signals:
            height = HEIGHTS[signal.kind]
            self.sheet.text(24, bottom + height / 2 + 4, signal.name)
            self.sheet.box("frame", (self.left, bottom), (self.width, height))
            getattr(self, f"draw_{signal.kind}")(signal, bottom, height)
            self.draw_halt(signal, bottom, height)
            bottom += height + GAP
        self.draw_axis(bottom - GAP)
        return self.sheet.whole(max(self.left + self.width + 40, heading), bottom + 24, self.title)

    def halted_words(self):
        """The components that halt, the first three of them by name."""
        words = ", ".join(f"{it.path} in round {it.round} ({it.kind})" for it in list(self.halts.values())[:3])
        return f"halted: {words}" + (f" and {len(self.halts) - 3} more" if len(self.halts) > 3 else "")

    def draw_halt(self, signal, top, height):
        """A red line in the strip of a variable where its component halts."""
        halt = self.halts.get(signal.name.rpartition(".")[0])
        if halt and self.first <= halt.round <= self.last:
            x = self.x(halt.round)
            self.sheet.line("halt", [(x, top), (x, top + height)], f"{halt.path} halts in round {halt.round}")
            self.sheet.text(x + 4, top + height - 4, "halted", "small red", rank=1)

    def draw_axis(self, bottom):
        """The numbers of rounds, above and below, each at its round's beginning."""
        for y in (TOP - 8, bottom + 16):
            self.sheet.text(self.left - 50, y, "round", "small", "end")
        for at in ticks(self.first, max(int(self.last) - 1, self.first), max(int(self.width / 50), 1)):
            self.sheet.line("grid", [(self.x(at), TOP - 4), (self.x(at), bottom + 4)])
            for y in (TOP - 8, bottom + 16):
                self.sheet.text(self.x(at), y, str(at), "small", "middle", rank=2)

    def draw_number(self, signal, top, height):
        """Numbers as steps, with the minimum and the maximum at the left."""
        values = [int(piece.value) for piece in signal.pieces]
        least, most = min(values), max(values)
        span, low, high = max(most - least, 1), top + height - 7, top + 7
        self.sheet.text(self.left - 5, (high if least != most else (low + high) / 2) + 4, str(most), "small", "end")
        if least != most:
            self.sheet.text(self.left - 5, low + 3, str(least), "small", "end")
        path, until = [], None
        for piece in merged(signal.pieces):
            y = low - (int(piece.value) - least) * (low - high) / span if least != most else (low + high) / 2
            begin, end = self.x(piece.begin), self.x(piece.end)
            path.append(f"{'V' if until == begin else f'M{begin:.1f} '}{y:.1f} H{end:.1f}")
            until = end
            if end - begin > wide(piece.value, True):
                below = y - 3 if y > high + 9 else y + 11
                self.sheet.text((begin + end) / 2, below, piece.value, "small", "middle", rank=4)
        note = f"{signal.name}: from {least} to {most}"
        self.sheet.path("steps", " ".join(path), note)

    def draw_truth(self, signal, top, height):
        """Truth values: a bar while it is true, a line while it is false."""
        for piece in merged(signal.pieces):
            size = height - 10 if piece.value == "true" else 2
            corner = (self.x(piece.begin), top + height - 5 - size)
            self.sheet.box("truth", corner, (self.x(piece.end) - corner[0], size), self.note(signal, piece))

    def draw_state(self, signal, top, height):
        """States, each in a colour; a component that is halted stays so."""
        names = list(dict.fromkeys(piece.value for piece in signal.pieces))
        for piece in merged(signal.pieces):
            halted = piece.value.startswith("halted(")
            corner = (self.x(piece.begin), top + 3)
            size = (self.x(piece.end) - corner[0], height - 6)
            turn = names.index(piece.value) % len(LIGHT)
            kind = "" if halted else f"s{turn}"
            self.sheet.box("halted" if halted else "state", corner, size, self.note(signal, piece), kind)
            if size[0] > wide(piece.value, True) + 4 or halted:
                self.sheet.text(corner[0] + 3, top + height / 2 + 4, piece.value, "inner red" if halted else "inner",
                                rank=1 if halted else 4)

    def draw_verdict(self, signal, top, height):
        """A property: a line while it holds, a block while it is false."""
        pieces = merged(signal.pieces)
        for piece in pieces:
            begin, end, middle = self.x(piece.begin), self.x(piece.end), top + height / 2
            if piece.value == "true":
                self.sheet.line("holds", [(begin, middle), (end, middle)], self.note(signal, piece))
            else:
                self.sheet.box("fails", (begin, top + 3), (max(end - begin, 2), height - 6), self.note(signal, piece))
        first = next((piece for piece in pieces if piece.value == "false"), None)
        said = f"false first: {int(first.begin)}" if first else "always true"
        self.sheet.text(self.left - 5, top + height / 2 + 4, said, "small red" if first else "small", "end")

    def note(self, signal, piece):
        """A piece in words."""
        first, last = int(piece.begin), int(-(-piece.end // 1)) - 1
        return f"{signal.name}, round {first}{f' to {last}' if last > first else ''}: {piece.value}"
