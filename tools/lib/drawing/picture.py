"""A run as a picture (SVG): a lane for each node, a bar for each step, an arrow for each message."""

from collections import defaultdict

from ..commands.times import in_ms
from ..nodes.journal import node_of
from .picture_style import LAYERS, LEGEND, heads, style_of
from .svg import DARK, LIGHT, Sheet, ticks, wide

LEFT_PAD, RIGHT_PAD, LEAST_WIDTH, MOST_WIDTH = 24, 40, 1000, 6000
# The height of a lane, of all lanes together about, and the width of an event and of a round, in pixels.
LANE, LEAST_LANE, LANES, PER_EVENT, PER_ROUND = 64, 15, 1000, 46, 90
# A round with fewer pixels than this is drawn too small to be read.
SMALL_ROUND = 60


class Picture:
    """Draws one run."""

    def __init__(self, run, title):
        self.run, self.title = run, title
        self.row = {lane: order for order, lane in enumerate(run.lanes)}
        self.lane = max(min(LANE, LANES / max(len(run.lanes), 1)), LEAST_LANE)
        self.high = max(self.lane * 0.36, 5)
        moments = [event.at for event in run.events] + ([run.end.at] if run.end else [])
        self.first, self.last = min(moments, default=0), max(moments, default=1)
        self.span = max(self.last - self.first, 1)
        self.rounds = sorted({event.round for event in run.events})
        self.left = LEFT_PAD + max(7 * max((len(lane) for lane in run.lanes), default=0), 68) + 10
        self.width = self.width_of(len(self.rounds))
        self.per_round = self.width / max(len(self.rounds), 1)
        thick = min(1.3, self.per_round / 60, self.lane / 25)
        self.sheet = Sheet("timeline", style_of(thick), LAYERS)
        self.sheet.defs = heads()
        self.top = 94 + (18 if run.end else 0)
        self.bottom = self.top + self.lane * len(run.lanes)
        self.senders = {event.what for event in run.events if event.kind == "send"}
        self.sources, self.ways = {}, {}

    def width_of(self, rounds):
        """How wide the lanes are: longer runs are drawn wider, up to a limit."""
        wished = min(max(PER_ROUND * rounds, LEAST_WIDTH), MOST_WIDTH)
        return min(PER_EVENT * (self.span + 1), max(wished, PER_EVENT * 40)) if self.run.axis == "events" else wished

    def x(self, at):
        """The position of a moment."""
        return self.left + 14 + (at - self.first) * (self.width - 28) / self.span

    def y(self, lane):
        """The middle of a lane."""
        return self.top + self.lane * (self.row.get(lane, 0) + 0.5)

    def draw(self):
        """The whole picture."""
        self.draw_lanes()
        self.draw_axis()
        self.draw_bars()
        self.draw_messages()
        self.draw_halts()
        if self.run.end:
            self.draw_end()
        said = wide(self.run.end.text) if self.run.end else 0
        width = self.left + max(self.width, said, self.draw_heading()) + RIGHT_PAD
        if self.is_wide():
            width += wide(max(self.run.lanes, key=len, default=""))
        return self.sheet.whole(width, self.bottom + 46, self.title)

    def is_wide(self):
        """Whether the names of the lanes are also on the right."""
        return self.width > 1.5 * LEAST_WIDTH

    def draw_lanes(self):
        """A line and a name for each node."""
        right = self.left + self.width
        for lane in self.run.lanes:
            y = self.y(lane)
            self.sheet.line("lane", [(self.left, y), (right, y)])
            self.sheet.text(self.left - 8, y + 4, lane, anchor="end")
            if self.is_wide():
                self.sheet.text(right + 8, y + 4, lane)

    def draw_axis(self):
        """What the axis counts, above and below, and the rounds' grid."""
        above, below = self.top - 10, self.bottom + 14
        events = self.run.axis == "events"
        word = "event" if events else "time" if self.run.axis == "time" else "reading"
        most = max(9, int(self.width / 130))
        moments = ticks(self.first, self.last, most)
        if events:
            # Events are counted from 0, and their places from 1.
            moments = [at + 1 for at in ticks(self.first - 1, self.last - 1, max(int(self.width / 40), 1))]
        for y in (above, below):
            self.sheet.text(self.left - 8, y, word, "small", "end")
            for at in moments:
                self.sheet.text(self.x(at), y, str(at - 1) if events else in_ms(at), "small", "middle", rank=3)
        self.draw_grid("round" if events else "alarm of round")

    def draw_grid(self, word):
        """A line at the alarm of each round; where the events are counted, at its first start."""
        marks = self.starts() if self.run.axis == "events" else self.alarms()
        apart = self.per_round > wide(f"{word} 99", True) + 8
        for at, order in marks:
            x = self.x(at)
            self.sheet.line("grid", [(x, self.top - 6), (x, self.bottom)], f"{word} {order}")
            for y in (self.top - 24, self.bottom + 28):
                self.sheet.text(x, y, f"{word} {order}" if apart else str(order), "small", "middle", rank=2)
        if marks and not apart:
            for y in (self.top - 24, self.bottom + 28):
                self.sheet.text(self.left - 8, y, word, "small", "end")

    def alarms(self):
        """The alarms of the rounds that are drawn, each with its round."""
        period = self.run.period
        if not period or self.span / period > 4 * max(len(self.rounds), 1) + 4:
            return []
        numbers = range(max(self.first // period - 1, 0), self.last // period)
        return [((order + 1) * period, order) for order in numbers if self.first <= (order + 1) * period <= self.last]

    def starts(self):
        """The first start of each round, where there are several."""
        first = {}
        for event in self.run.events:
            if event.kind == "start":
                first.setdefault(event.round, event.at)
        return [(at, order) for order, at in sorted(first.items())] if len(first) > 1 else []

    def draw_bars(self):
        """A bar for each step, from its start to its finish."""
        running = {}
        for event in self.run.events:
            if event.kind in ("start", "step"):
                running[event.what] = event
            elif event.kind == "finish" and event.what in running:
                self.bar(running.pop(event.what), event.at)
        for event in running.values():
            self.bar(event, self.last, "open")

    def bar(self, event, until, kind=""):
        """The bar of one step."""
        x, y = self.x(event.at), self.y(event.what)
        width = max(self.x(until) - x, min(3, self.per_round / 20))
        note = f"{event.what}, round {event.round}, step {event.step}: {self.moment(event.at)} to {self.moment(until)}"
        self.sheet.box(f"bar b{event.round % len(LIGHT)}", (x, y - self.high / 2), (width, self.high), note, kind)
        name = f"round {event.round}" if event.kind == "start" else f"step {event.step}"
        if width > 44 and self.high >= 11:
            self.sheet.text(x + 4, y + 4, name, "inner", rank=4)
        elif event.kind == "start" and width < 12 and self.lane >= 32 and self.per_round > 150:
            self.sheet.text(x + 5, y - self.high / 2 + 7, name, "small", rank=4)

    def moment(self, at):
        """A moment in words."""
        return f"event {at - 1}" if self.run.axis == "events" else in_ms(at)

    def draw_messages(self):
        """An arrow for each message that arrived, a cross for each that was lost, and the messages still in flight."""
        sends, copies = {}, defaultdict(int)
        radius = min(3.5, self.high / 5)
        for event in self.run.events:
            if event.kind == "send":
                sends[event.what, event.round] = event
                self.sheet.dot("send", (self.x(event.at), self.y(event.what)), radius, event.note)
        for event in self.run.events:
            if event.kind == "repeat":
                copies[event.what, event.round] += 1
                self.sheet.text(self.x(event.at), self.between(event.what)[1], "+1 copy", "small", "middle", rank=1)
            elif event.kind in ("arrive", "drop"):
                copies[event.what, event.round] -= 1
                self.message(event, sends.get((self.source(event.what), event.round)))
        sent = defaultdict(list)
        for (sender, order), send in sends.items():
            sent[sender].append((order, send))
        for link in self.links():
            for order, send in sent[self.source(link)]:
                if copies[link, order] + 1 > 0:
                    self.in_flight(link, order, send)

    def links(self):
        """The links of the run."""
        seen = {event.what for event in self.run.events if event.kind in ("arrive", "drop", "repeat")} | self.run.links
        if self.run.end and self.run.end.missing:
            seen.add(self.run.end.what)
        return sorted(seen)

    def source(self, link):
        """The source of a link; without a design, the only other node that has sent; or None."""
        if link not in self.sources:
            others = self.senders - {node_of(link)}
            self.sources[link] = self.run.source(link) or (min(others) if len(others) == 1 else None)
        return self.sources[link]

    def between(self, link):
        """The heights between which a message goes: where it leaves, its middle, and where it arrives."""
        if link not in self.ways:
            source, end = self.source(link), self.y(node_of(link))
            start = self.y(source or node_of(link))
            side = self.high / 2 if end >= start else -self.high / 2
            leaves = start if source else end - self.lane / 2
            self.ways[link] = leaves, (leaves + end - side) / 2, end - side
        return self.ways[link]

    def message(self, event, send):
        """A message that arrives, or is lost."""
        leaves, middle, arrives = self.between(event.what)
        x = self.x(event.at)
        start = (self.x(send.at) if send else x, leaves)
        if event.kind == "drop":
            self.sheet.line("flight", [start, (x, middle)], event.note)
            self.cross(x, middle, event.note)
            self.sheet.text(x + 8, middle + 4, "lost", "red small", rank=1)
            return
        if event.result == "early":
            self.sheet.line("wrong", [start, (x, arrives)], event.note, "early")
            self.sheet.dot("ring", (x, arrives), 9, event.note)
            self.sheet.text(x + 12, (middle + arrives) / 2, "early", "red small", rank=1)
            return
        ignored = event.result == "ignored"
        layer = "ignored" if ignored else f"message r{event.round % len(DARK)}"
        self.sheet.line(layer, [start, (x, arrives)], event.note)
        if ignored:
            self.sheet.text(x + 4, (middle + arrives) / 2, "ignored", "small", rank=3)

    def in_flight(self, link, order, send):
        """A message that has not arrived."""
        leaves, middle, arrives = self.between(link)
        end = self.run.end
        missed = end is not None and end.missing and end.what == link and end.round == order
        goal = (self.x(end.at if missed else self.last), arrives if missed else middle)
        note = f"{'missed' if missed else 'in flight'}: {link} {order}"
        self.sheet.line("missing" if missed else "flight", [(self.x(send.at), leaves), goal], note)
        if missed:
            self.sheet.text(goal[0] - 12, (middle + arrives) / 2, "missed", "red small", "end", rank=1)

    def cross(self, x, y, note):
        """A cross."""
        self.sheet.line("wrong", [(x - 5, y - 5), (x + 5, y + 5)], note)
        self.sheet.line("wrong", [(x - 5, y + 5), (x + 5, y - 5)], note)

    def draw_end(self):
        """The stop of the run, or the event that is refused."""
        end, x = self.run.end, self.x(self.run.end.at)
        lane = next((it for it in (end.what, node_of(end.what or "")) if it in self.row), None)
        half = max(self.lane / 2 - 6, 8)
        top, bottom = (self.y(lane) - half, self.y(lane) + half) if lane else (self.top, self.bottom)
        self.sheet.line("wrong", [(x, top), (x, bottom)], end.text)
        self.cross(x, self.y(lane) if lane else self.top, end.text)
        if lane:
            self.sheet.dot("ring", (x, self.y(lane)), max(half, 9), end.text)
        self.sheet.text(LEFT_PAD, self.top - 48, end.text, "red")

    def draw_halts(self):
        """A red cross at each step that a trap has ended, or at the first step after it that is drawn."""
        for halt in self.run.halts:
            event = next((it for it in self.run.events if it.kind in ("start", "step") and it.what == halt.path and
                          (it.round, it.step) >= (halt.round, halt.step or 0)), None)
            if event is None:
                continue
            x, y = self.x(event.at), self.y(event.what)
            since = "" if event.round == halt.round else f" since round {halt.round}"
            words = f"halted{since}: {halt.kind}"
            self.sheet.dot("ring", (x, y), 9, f"{halt.path} {words}")
            self.cross(x, y, f"{halt.path} {words}")
            self.sheet.text(x + 12, y - self.high / 2 - 3, words, "red small", rank=1)

    def draw_heading(self):
        """The title, a remark if only some rounds would be drawn larger, and the legend; returns their width."""
        title = self.title
        if self.per_round < SMALL_ROUND and len(self.rounds) > 1:
            first = self.rounds[0]
            title += f". {len(self.rounds)} rounds are small: --rounds {first}..{first + 19} draws 20 larger"
        self.sheet.text(LEFT_PAD, 24, title, "title")
        return max(1.15 * wide(title), self.draw_legend(46)) - self.left

    def draw_legend(self, y):
        """The legend of the shapes in the picture; returns the position of its end."""
        x = LEFT_PAD
        for layers, words in LEGEND:
            there = [layer for layer in layers if self.sheet.layers[layer]]
            for layer in there:
                if layer.startswith("bar"):
                    self.sheet.box(layer, (x, y - 9), (16, 10))
                elif layer == "send":
                    self.sheet.dot(layer, (x + 8, y - 4), 3.5)
                else:
                    self.sheet.line(layer, [(x, y - 4), (x + 18, y - 4)])
                x += 21
            if there:
                self.sheet.text(x + 4, y, words, "small")
                x += wide(words, True) + 20
        return x
