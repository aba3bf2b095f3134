"""Pictures (SVG): shapes by layers, words that do not touch one another, texts that are well-formed for any name."""

import re
from xml.sax.saxutils import escape

from ..explaining.show import visible

# Characters that XML does not allow, in addition to the ones that `visible` shows.
NO_XML = re.compile("[\ud800-\udfff\ufffe\uffff]")
# Words are dropped by cells of this size, in pixels, where they would touch.
CELL = 48
# The rank of words that are always there; the higher a rank, the sooner words are dropped.
KEPT = 0
# The rounds' colours, in turn: dark ones for lines, light ones for areas; and the colours of errors and of ignored
# parts. They can be distinguished without seeing red or green.
DARK = ("#1f5fa8", "#a35a00", "#1d7a55", "#85408f")
LIGHT = ("#a8cbec", "#f4d19a", "#a5dcc3", "#dfbce4")
WRONG, ASIDE, INK, SOFT = "#c8102e", "#8a8a8a", "#222", "#555"
FONTS = """
text {font: 12px sans-serif; fill: #222}
.small {font-size: 10px; fill: #555; stroke: #fff; stroke-width: 2px; paint-order: stroke}
.inner {font-size: 10px; fill: #333}
.title {font-size: 14px; font-weight: bold}
.red {fill: #c8102e; font-weight: bold}
"""


def plain(text):
    """A text as XML may have it: control characters are shown, and what XML lacks is replaced."""
    return escape(NO_XML.sub("\ufffd", visible(str(text))), {'"': "&quot;"})


def number(value):
    """A number of pixels, in short."""
    return f"{value:.1f}".rstrip("0").rstrip(".") if value % 1 else str(int(value))


def tip(note):
    """Words that show where a pointer rests on a shape."""
    return f"<title>{plain(note)}</title>" if note else ""


def wide(words, small=False):
    """How many pixels words take, about."""
    return len(words) * (6 if small else 7.2) + 2


class Sheet:
    """A picture that is drawn: layers from back to front, and the words over them."""

    def __init__(self, kind, style, layers):
        self.kind, self.style, self.defs = kind, style + FONTS, ""
        self.layers = {name: [] for name in layers}
        self.words, self.taken = [], {}

    def line(self, layer, points, note="", kind=""):
        """A straight line through points."""
        self.path(layer, "M" + " L".join(f"{number(x)} {number(y)}" for x, y in points), note, kind)

    def path(self, layer, data, note="", kind=""):
        """A path."""
        named = f' class="{kind}"' if kind else ""
        self.shape(layer, f'path{named} d="{data}"', note)

    def box(self, layer, corner, size, note="", kind=""):
        """A rectangle, by its corner above on the left and its size."""
        named = f' class="{kind}"' if kind else ""
        place = f'x="{number(corner[0])}" y="{number(corner[1])}"'
        self.shape(layer, f'rect{named} {place} width="{number(size[0])}" height="{number(size[1])}"', note)

    def dot(self, layer, centre, radius, note="", kind=""):
        """A circle."""
        named = f' class="{kind}"' if kind else ""
        place = f'cx="{number(centre[0])}" cy="{number(centre[1])}" r="{number(radius)}"'
        self.shape(layer, f"circle{named} {place}", note)

    def shape(self, layer, inside, note):
        """A shape with its note."""
        name = inside.split(" ", 1)[0]
        self.layers[layer].append(f"<{inside}>{tip(note)}</{name}>" if note else f"<{inside}/>")

    def text(self, x, y, words, kind="", anchor="start", rank=KEPT, others=()):
        """Words. Words with a rank are dropped if they would touch others of a lower or the same rank, here and at
        other positions."""
        self.words.append((rank, len(self.words), [(x, y), *others], str(words), kind, anchor))

    def place_words(self):
        """The words that have room."""
        for rank, _, places, words, kind, anchor in sorted(self.words):
            small = "small" in kind or "inner" in kind
            width, height = wide(words, small), 10 if small else 13
            before = {"start": 0, "middle": width / 2, "end": width}[anchor]
            free = (it for it in places if self.take(it[0] - before, it[1] - height, it[0] - before + width, it[1] + 2))
            place = next(free, places[0] if rank == KEPT else None)
            if place:
                x, y = place
                named = f' class="{kind}"' if kind else ""
                turned = f' text-anchor="{anchor}"' if anchor != "start" else ""
                yield f'<text x="{number(x)}" y="{number(y)}"{named}{turned}>{plain(words)}</text>'

    def take(self, left, top, right, bottom):
        """Reserves a position for words if it is free; returns whether it was."""
        cells = [(column, row) for column in range(int(left // CELL), int(right // CELL) + 1)
                 for row in range(int(top // CELL), int(bottom // CELL) + 1)]
        for cell in cells:
            for one in self.taken.get(cell, ()):
                if left < one[2] and one[0] < right and top < one[3] and one[1] < bottom:
                    return False
        for cell in cells:
            self.taken.setdefault(cell, []).append((left, top, right, bottom))
        return True

    def whole(self, width, height, title):
        """The text of the picture. Its styles apply only to it, also inside a page."""
        style = "\n".join(f"svg.{self.kind} {line}" for line in self.style.split("\n") if line)
        there = [(name, shapes) for name, shapes in self.layers.items() if shapes]
        drawn = [f'<g class="{name}">\n' + "\n".join(shapes) + "\n</g>" for name, shapes in there]
        size = f'width="{number(width)}" height="{number(height)}" viewBox="0 0 {number(width)} {number(height)}"'
        parts = "\n".join([*drawn, *self.place_words()])
        return (
            f'<svg xmlns="http://www.w3.org/2000/svg" class="{self.kind}" {size} role="img">\n'
            f"<title>{plain(title)}</title>\n<style>\n{style}\n</style>\n{self.defs}"
            f'<rect width="100%" height="100%" fill="#fff"/>\n{parts}\n</svg>\n'
        )


def ticks(first, last, most=9):
    """Some round numbers from the first to the last."""
    steps = (digit * 10**zeros for zeros in range(20) for digit in (1, 2, 5))
    step = next((it for it in steps if (last - first) / it <= most), 10**20)
    return range(-(-first // step) * step, last + 1, step)
