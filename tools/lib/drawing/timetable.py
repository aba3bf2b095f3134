"""The timetables of processors as a picture (SVG): lanes for components, boxes for steps, idle times cut short."""

from collections import namedtuple

from ..commands.times import in_ms
from ..running.answers import PROCESSOR
from .svg import DARK, LIGHT, WRONG, Sheet, wide

# A processor: its name, the sum of its steps' times, their limit, whether they fit, and its slots.
Processor = namedtuple("Processor", "name sum most fits slots")
# A stretch in which some processor is busy, from one time to another, and where it is drawn.
Stretch = namedtuple("Stretch", "begin end x width")

BUSY_WIDTH, LEAST_STRETCH, IDLE_WIDTH, LANE, HEAD, TOP = 900, 56, 70, 20, 26, 66
STYLE = f"""
.lane {{stroke: #ddd}}
.idle {{fill: #f2f2f2}}
.slot {{stroke: #345; stroke-width: .6}}
{''.join(f'.c{turn} {{fill: {colour}}} ' + chr(10) for turn, colour in enumerate(LIGHT))}
.room {{fill: #e6e6e6}}
.used {{fill: {DARK[2]}}}
.over {{fill: {WRONG}}}
"""


def processors_of(report, text):
    """The processors of an answer of `budget`."""
    found = []
    for line in text.split("\n"):
        match = PROCESSOR.fullmatch(line)
        if match:
            slots = [slot for slot in report.slots if slot.processor == match["name"]]
            times = int(match["sum"]), int(match["most"])
            found.append(Processor(match["name"], *times, match["fits"] == "fits", slots))
    return found


def stretches_of(slots, left):
    """The stretches in which slots lie, each with its place. Between two of them idle time takes a fixed width."""
    joined = []
    for slot in sorted(slots, key=lambda it: it.begin):
        if joined and slot.begin <= joined[-1][1]:
            joined[-1][1] = max(joined[-1][1], slot.done)
        else:
            joined.append([slot.begin, slot.done])
    busy, found, x = max(sum(end - begin for begin, end in joined), 1), [], left
    for begin, end in joined:
        if found:
            x += IDLE_WIDTH
        width = max((end - begin) * BUSY_WIDTH / busy, LEAST_STRETCH)
        found.append(Stretch(begin, end, x, width))
        x += width
    return found


class Timetable:
    """Draws the timetables of a round."""

    def __init__(self, processors):
        self.processors = processors
        paths = [slot.path for processor in processors for slot in processor.slots]
        self.left = 40 + max([wide(path) for path in paths] + [60])
        self.stretches = stretches_of([slot for processor in processors for slot in processor.slots], self.left)
        self.right = self.stretches[-1].x + self.stretches[-1].width if self.stretches else self.left + BUSY_WIDTH
        self.sheet = Sheet("timetable", STYLE, ["idle", "lane", "slot", "room", "used", "over"])

    def x(self, at):
        """The position of a time."""
        here = next(it for it in reversed(self.stretches) if it.begin <= at)
        return here.x + (at - here.begin) * here.width / max(here.end - here.begin, 1)

    def draw(self):
        """The whole picture."""
        title = "The timetable of each round, from its alarm on"
        self.sheet.text(24, 24, title, "title")
        y = TOP
        for processor in self.processors:
            y = self.draw_processor(processor, y)
        self.draw_axis(y)
        width = max(self.right + 60, 24 + max(wide(self.said(it)) for it in self.processors) * 1.1 + 200)
        return self.sheet.whole(width, y + 30, title)

    def said(self, processor):
        """The text of a processor."""
        fits = "fits" if processor.fits else "over: it has no timetable"
        return f"{processor.name}: one step of each takes {in_ms(processor.sum)} of {in_ms(processor.most)}, {fits}"

    def draw_processor(self, processor, y):
        """A processor: its load, and a lane for each component; returns the position of its end."""
        self.sheet.text(24, y + 14, self.said(processor), "" if processor.fits else "red")
        x, share = 24 + wide(self.said(processor)) * 1.05 + 16, processor.sum / max(processor.most, 1)
        self.sheet.box("room", (x, y + 5), (120, 10), f"{share:.1%} of its time")
        self.sheet.box("used" if processor.fits else "over", (x, y + 5), (max(min(share, 1) * 120, 1), 10))
        y += HEAD
        paths = list(dict.fromkeys(slot.path for slot in processor.slots))
        for order, path in enumerate(paths):
            self.sheet.line("lane", [(self.left, y + LANE - 2), (self.right, y + LANE - 2)])
            self.sheet.text(self.left - 8, y + 14, path, anchor="end")
            for slot in (it for it in processor.slots if it.path == path):
                self.draw_slot(slot, y, order % len(LIGHT))
            y += LANE
        return y + 10

    def draw_slot(self, slot, y, turn):
        """One step."""
        begin, end = self.x(slot.begin), self.x(slot.done)
        note = f"{slot.path}, step {slot.step}: {in_ms(slot.begin)} to {in_ms(slot.done)}"
        self.sheet.box("slot", (begin, y + 2), (max(end - begin, 1.5), LANE - 5), note, f"c{turn}")
        if end - begin > wide(f"step {slot.step}", True) + 4:
            self.sheet.text(begin + 3, y + 13, f"step {slot.step}", "inner", rank=3)

    def draw_axis(self, bottom):
        """The times at which stretches begin and end, above and below, and how long the idle times are."""
        for before, after in zip(self.stretches, self.stretches[1:]):
            x = before.x + before.width
            self.sheet.box("idle", (x + 1, TOP - 6), (after.x - x - 2, bottom - TOP + 6), "no step is made")
            idle = f"{in_ms(after.begin - before.end)} idle"
            self.sheet.text((x + after.x) / 2, TOP - 26, idle, "small", "middle", rank=2)
        for y in (TOP - 10, bottom + 12):
            for stretch in self.stretches:
                self.sheet.text(stretch.x, y, in_ms(stretch.begin), "small", "middle", rank=1)
                self.sheet.text(stretch.x + stretch.width, y, in_ms(stretch.end), "small", "middle", rank=3)
