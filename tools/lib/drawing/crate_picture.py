"""The architecture as a picture (SVG): a box for each crate, the program at the top, and lines to its dependencies."""

from collections import defaultdict

from ..project.crates import GROUPS, chains, direct
from .svg import DARK, LIGHT, Sheet, wide

HIGH, APART, BETWEEN, SIDE, TOP = 24, 62, 14, 24, 70
# The number of times that each row is sorted by its neighbours.
SWEEPS = 24
STYLE = f"""
.box {{stroke: #456}}
{''.join(f'.k{turn} {{fill: {colour}}} ' + chr(10) for turn, colour in enumerate(LIGHT))}
.wire {{fill: none; stroke-width: 1; opacity: .6}}
{''.join(f'.w{turn} {{stroke: {colour}}} ' + chr(10) for turn, colour in enumerate(DARK))}
"""


class CratePicture:
    """Draws the crates in rows, by the length of their longest chain of dependencies."""

    def __init__(self, below, purposes):
        self.purposes = purposes
        below = {name: [one for one in rest if one in purposes] for name, rest in below.items() if name in purposes}
        self.direct = direct(below)
        length = chains(below)
        rows = defaultdict(list)
        for name in sorted(below):
            rows[length[name]].append(name)
        self.rows = self.sorted_rows([rows[at] for at in sorted(rows, reverse=True)])
        self.width = max(self.wide_row(row) for row in self.rows) + 2 * SIDE
        self.places = {}
        for order, row in enumerate(self.rows):
            x = (self.width - self.wide_row(row)) / 2
            for name in row:
                self.places[name] = x, TOP + order * (HIGH + APART)
                x += self.wide_box(name) + BETWEEN

    def wide_box(self, name):
        """The width of the box of a crate."""
        return wide(name) + 12

    def wide_row(self, row):
        """The width of a row with its gaps."""
        return sum(self.wide_box(name) + BETWEEN for name in row) - BETWEEN

    def sorted_rows(self, rows):
        """The rows, each sorted by the mean position of the crates that its crates are joined to."""
        near = defaultdict(list)
        for name, rest in self.direct.items():
            for one in rest:
                near[name].append(one)
                near[one].append(name)
        for _ in range(SWEEPS):
            at = {name: (order + 0.5) / len(row) for row in rows for order, name in enumerate(row)}
            mean = {name: sum(at[one] for one in near[name]) / len(near[name]) if near[name] else 0.5 for name in at}
            rows = [sorted(row, key=lambda name: (mean[name], name)) for row in rows]
        return rows

    def draw(self):
        """The text of the picture."""
        sheet = Sheet("crates", STYLE, ["wire", "box"])
        sheet.text(SIDE, 26, "The crates: each depends on the crates below that a line joins to it", "title")
        x = SIDE
        for turn, group in enumerate(GROUPS):
            sheet.box("box", (x, 38), (12, 12), kind=f"k{turn}")
            sheet.text(x + 18, 48, group)
            x += 18 + wide(group) + 18
        for name, rest in self.direct.items():
            for one in rest:
                self.draw_line(sheet, name, one)
        for name, (x, y) in self.places.items():
            group, purpose = self.purposes[name]
            sheet.box("box", (x, y), (self.wide_box(name), HIGH), f"{name}: {purpose}", f"k{group}")
            sheet.text(x + self.wide_box(name) / 2, y + 16, name, anchor="middle")
        return sheet.whole(self.width, TOP + len(self.rows) * (HIGH + APART) - APART + SIDE, "The crates")

    def draw_line(self, sheet, name, one):
        """The line from a crate to one that it depends on."""
        (x, y), (left, low) = self.places[name], self.places[one]
        x, y, left = x + self.wide_box(name) / 2, y + HIGH, left + self.wide_box(one) / 2
        bend = min((low - y) / 2, APART)
        data = f"M{x:.0f} {y:.0f} C{x:.0f} {y + bend:.0f} {left:.0f} {low - bend:.0f} {left:.0f} {low:.0f}"
        sheet.path("wire", data, f"{name} depends on {one}", f"w{self.purposes[name][0]}")
