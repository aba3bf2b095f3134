"""A design as a picture (SVG): components with their rates, links with adaptors and steps sent, feeds and taps."""

from collections import defaultdict, namedtuple

from .svg import DARK, LIGHT, Sheet, number, wide

# A box: its name, a line below, its kind. A wire between two boxes, with its label and its whole description.
Box = namedtuple("Box", "name below kind")
Wire = namedtuple("Wire", "source target label note kind")

HIGH, TAG, BETWEEN, APART, TOP, SIDE = 46, 24, 26, 150, 56, 64
# How often each column is put in the order of its neighbours.
SWEEPS = 6
STYLE = f"""
.box {{fill: #eef3f8; stroke: #456}}
{''.join(f'.k{turn} {{fill: {colour}}} ' + chr(10) for turn, colour in enumerate(LIGHT))}
.tag {{fill: #fff; stroke: #777; stroke-dasharray: 4 2}}
.wire {{fill: none; stroke-width: 1.3; opacity: .85; marker-end: url(#to)}}
{''.join(f'.w{turn} {{stroke: {colour}}} ' + chr(10) for turn, colour in enumerate(DARK))}
.outer {{fill: none; stroke: #777; stroke-dasharray: 4 2; marker-end: url(#to)}}
.name {{font-weight: bold}}
"""
DEFS = ('<defs><marker id="to" viewBox="0 0 8 8" refX="7" refY="4" markerWidth="7" markerHeight="7" orient="auto">'
        '<path d="M0 0 L8 4 L0 8 z" fill="#333"/></marker></defs>\n')


class Graph:
    """The boxes and wires of a design below its root."""

    def __init__(self, model):
        self.model, self.boxes, self.wires = model, {}, []
        rates = sorted({model.rate(thread) or 0 for thread in model.by_path.values()})
        for thread in model.by_path.values():
            rate = model.rate(thread)
            turn = rates.index(rate or 0) % len(LIGHT)
            self.boxes["thread", thread.path] = Box(thread.path, self.rate_of(thread), f"k{turn}")
        for direction in ("in", "out"):
            for port in model.root_ports(direction):
                self.boxes[direction, port.name.text.lower()] = Box(port.name.text, "", "tag")
        for thread, port in model.in_ports():
            self.wire(f"{thread.path}.{port.name.text}", ("thread", thread.path))
        for port in model.root_ports("out"):
            self.wire(port.name.text, ("out", port.name.text.lower()))

    def rate_of(self, thread):
        """The text in a box about the steps of its thread."""
        rate = self.model.rate(thread)
        sent = self.model.steps_sent(rate)
        words = f"rate {rate}" if rate else "rate unknown"
        return words if sent is None else f"{words}, k' {sent}"

    def wire(self, end, target):
        """What comes into an end."""
        came = self.model.came_from(end)
        if came is None:
            return
        adaptor = came.adaptor or ""
        if came.thread is None:
            note = f"input {came.port} -> {end} {adaptor}".rstrip()
            self.wires.append(Wire(("in", came.port), target, adaptor, note, "outer"))
            return
        rate = self.model.rate(came.thread)
        sent = self.model.steps_sent(rate)
        cut = f"{sent} of {rate}" if sent is not None and sent != rate and target[0] == "thread" else ""
        kind = "outer" if target[0] == "out" else "wire"
        source = f"{came.thread.path}.{came.port}"
        word, steps = "output" if kind == "outer" else "link", f"{cut} steps are sent" if cut else ""
        note = f"{word} {source} -> {end} {adaptor} {steps}"
        label = ", ".join(it for it in (adaptor, cut) if it)
        self.wires.append(Wire(("thread", came.thread.path), target, label, note.rstrip(), kind))


def columns_of(graph):
    """The boxes in columns, from inputs to outputs: by the longest path, without links that lead back. If that makes
    one long path, the boxes are in lines, in their order."""
    names = [key for key in graph.boxes if key[0] == "thread"]
    after = defaultdict(list)
    for wire in graph.wires:
        if wire.source[0] == wire.target[0] == "thread":
            after[wire.source].append(wire.target)
    depth = depths(names, after)
    deepest = max(depth.values(), default=0) + 1
    root = max(round(len(names) ** 0.5), 1)
    in_lines = deepest > 2 * root + 2
    if in_lines:
        columns = [[names[at] for at in range(column, len(names), root)] for column in range(root)]
    else:
        columns = [[name for name in names if depth[name] == column] for column in range(deepest)]
    columns = [[key for key in graph.boxes if key[0] == "in"], *columns,
               [key for key in graph.boxes if key[0] == "out"]]
    columns = [column for column in columns if column]
    return columns if in_lines else ordered(graph, columns)


def depths(names, after):
    """How far each box is from where ways begin, not counting links that close a circle."""
    order, state = [], {}
    for name in names:
        todo = [(name, False)]
        while todo:
            at, left = todo.pop()
            if left:
                order.append(at)
                state[at] = "left"
            elif at not in state:
                state[at] = "entered"
                todo.append((at, True))
                todo.extend((one, False) for one in reversed(after[at]) if one not in state)
    place = {name: at for at, name in enumerate(reversed(order))}
    depth = dict.fromkeys(names, 0)
    for name in reversed(order):
        for one in after[name]:
            if place[one] > place[name]:
                depth[one] = max(depth[one], depth[name] + 1)
    return depth


def ordered(graph, columns):
    """The columns, each in the order of the boxes that its boxes are joined to."""
    near = defaultdict(list)
    for wire in graph.wires:
        near[wire.source].append(wire.target)
        near[wire.target].append(wire.source)
    for _ in range(SWEEPS):
        at = {key: (order + 0.5) / len(column) for column in columns for order, key in enumerate(column)}
        for column in columns:
            middle = {key: sum(at[one] for one in near[key]) / max(len(near[key]), 1) for key in column}
            column.sort(key=lambda key: middle[key])
    return columns


class GraphPicture:
    """Draws a design."""

    def __init__(self, graph, title):
        self.graph, self.title, self.places = graph, title, {}
        self.sheet = Sheet("graph", STYLE, ["outer", "wire", "box"])
        self.sheet.defs = DEFS
        self.place(columns_of(graph))
        self.leaving, self.coming = defaultdict(list), defaultdict(list)
        for order, wire in enumerate(graph.wires):
            self.leaving[wire.source].append(order)
            self.coming[wire.target].append(order)

    def place(self, columns):
        """Gives each box its corner and its size."""
        heights = [sum(self.high(key) + BETWEEN for key in column) for column in columns]
        x, tallest = SIDE, max(heights, default=0)
        for column, height in zip(columns, heights):
            boxes = [self.graph.boxes[key] for key in column]
            width = max(max(wide(box.name) * 1.08, wide(box.below, True)) for box in boxes) + 20
            y = TOP + (tallest - height) / 2
            for key in column:
                self.places[key] = (x, y, width, self.high(key))
                y += self.high(key) + BETWEEN
            x += width + APART
        self.width, self.height = x - APART + SIDE, TOP + tallest + SIDE / 2

    def high(self, key):
        """How high a box is."""
        return HIGH if key[0] == "thread" else TAG

    def draw(self):
        """The whole picture."""
        self.sheet.text(24, 24, self.title, "title")
        for key, box in self.graph.boxes.items():
            self.draw_box(box, self.places[key])
        for order, wire in enumerate(self.graph.wires):
            self.draw_wire(order, wire)
        return self.sheet.whole(max(self.width, wide(self.title) * 1.2 + 48), self.height, self.title)

    def draw_box(self, box, place):
        """A component, or a port of the root."""
        x, y, width, height = place
        self.sheet.box("box", (x, y), (width, height), f"{box.name} {box.below}".strip(), box.kind)
        middle = x + width / 2
        if box.kind == "tag":
            self.sheet.text(middle, y + height / 2 + 4, box.name, anchor="middle")
        else:
            self.sheet.text(middle, y + 20, box.name, "name", "middle")
            self.sheet.text(middle, y + 36, box.below, "inner", "middle")

    def draw_wire(self, order, wire):
        """A connection: from the right of its source to the left of its target, or round below if it leads back."""
        start, end = self.side(wire.source, order, self.leaving, 1), self.side(wire.target, order, self.coming, 0)
        bend = max(min((end[0] - start[0]) / 2, 120), 50)
        if end[0] > start[0]:
            turns = [(start[0] + bend, start[1]), (end[0] - bend, end[1])]
            middle = [(start[0] + (end[0] - start[0]) * part, start[1] + (end[1] - start[1]) * bent)
                      for part, bent in ((0.5, 0.5), (0.3, 0.22), (0.7, 0.78))]
            data = f"M{point(start)} C{point(turns[0])} {point(turns[1])} {point(end)}"
        else:
            low = self.below(wire) + order % 5 * 7 - 14
            middle = [(start[0] + (end[0] - start[0]) * part, low) for part in (0.5, 0.2, 0.8)]
            right, left = (start[0] + 34, low), (end[0] - 34, low)
            data = (f"M{point(start)} C{point((right[0], start[1]))} {point(right)} {point((start[0] - 6, low))} "
                    f"L{point((end[0] + 6, low))} C{point(left)} {point((left[0], end[1]))} {point(end)}")
        turn = list(self.graph.boxes).index(wire.source) % len(DARK)
        self.sheet.path(wire.kind, data, wire.note, f"w{turn}" if wire.kind == "wire" else "")
        if wire.label:
            places = [(x, y - 3) for x, y in middle]
            self.sheet.text(*places[0], wire.label, "small", "middle", rank=2, others=places[1:])

    def below(self, wire):
        """The path of a wire that leads back: between its boxes if one is below the other, else below both."""
        tops = sorted(self.places[key][1] for key in (wire.source, wire.target))
        ends = sorted(self.places[key][1] + self.places[key][3] for key in (wire.source, wire.target))
        return (ends[0] + tops[1]) / 2 if tops[1] > ends[0] else ends[1] + BETWEEN / 2

    def side(self, key, order, orders, right):
        """The points where wires meet the side of a box: wires of one side are apart."""
        x, y, width, height = self.places[key]
        there = orders[key]
        return x + width * right, y + height * (there.index(order) + 1) / (len(there) + 1)


def point(place):
    """A place in a path."""
    return f"{number(place[0])} {number(place[1])}"
