"""A design as text of Graphviz (DOT), with processes and systems as clusters, and its picture by `dot`."""

import re
import subprocess

from ..explaining.show import visible
from .graph import GraphPicture
from .svg import DARK, LIGHT, NO_XML, plain

# The seconds that `dot` may take.
WITHIN = 30
HEAD = """\
    rankdir=LR; nodesep=0.25; ranksep=0.9; fontname="sans-serif"; fontsize=11; labeljust=l; tooltip=" ";
    node [shape=box, style=filled, color="#445566", fontname="sans-serif", fontsize=11, margin="0.12,0.06"];
    edge [fontname="sans-serif", fontsize=9, arrowsize=0.7];"""


def quoted(text):
    """A text as DOT takes it: no letter of it is a command."""
    text = NO_XML.sub("\ufffd", visible(text)).replace("\\", "\\\\").replace('"', '\\"')
    return f'"{text}"'


def dot_text(graph, title):
    """The text: a node for each component, in the clusters of its path, and an edge for each wire."""
    lines = [f"digraph {quoted(title)} {{", HEAD, f"    label=<<b>{plain(title)}</b>>; labelloc=t;"]
    lines += clusters(graph, [(key, box.name.split(".")) for key, box in graph.boxes.items() if key[0] == "thread"], 0)
    lines += [f"    {quoted(box.name)} [{port_words(box)}];" for key, box in graph.boxes.items() if key[0] != "thread"]
    order = {key: number for number, key in enumerate(graph.boxes)}
    lines += [f"    {quoted(graph.boxes[it.source].name)} -> {quoted(graph.boxes[it.target].name)} "
              f"[{wire_words(it, order[it.source])}];" for it in graph.wires]
    return "\n".join([*lines, "}"]) + "\n"


def clusters(graph, threads, depth):
    """The nodes of components whose paths begin with the same names, each level of a path in a cluster of its own."""
    pad, groups = "    " * (depth + 1), {}
    for key, path in threads:
        groups.setdefault(path[depth] if len(path) > depth + 1 else None, []).append((key, path))
    for name, inside in groups.items():
        if name is None:
            yield from (f"{pad}{quoted(graph.boxes[key].name)} [{thread_words(path[-1], graph.boxes[key])}];"
                        for key, path in inside)
            continue
        above = ".".join(inside[0][1][: depth + 1])
        yield f"{pad}subgraph {quoted('cluster_' + above)} {{"
        yield f'{pad}    label={quoted(name)}; style=rounded; color="#8a8a8a"; tooltip={quoted(above)};'
        yield from clusters(graph, inside, depth + 1)
        yield f"{pad}}}"


def thread_words(name, box):
    """The attributes of a component."""
    label = f'<<b>{plain(name)}</b><br/><font point-size="9">{plain(box.below)}</font>>'
    return f'label={label}, fillcolor="{LIGHT[int(box.kind[1:])]}", tooltip={quoted(f"{box.name} {box.below}")}'


def port_words(box):
    """The attributes of a port of the root."""
    look = 'style="dashed,filled", fillcolor="#ffffff", color="#777777", height=0.3'
    return f"label={quoted(box.name)}, {look}, tooltip={quoted(box.name)}"


def wire_words(wire, turn):
    """The attributes of a link, an input or an output."""
    look = 'style=dashed, color="#777777"' if wire.kind == "outer" else f'color="{DARK[turn % len(DARK)]}"'
    label = f'label={quoted(wire.label)}, fontcolor="#555555", ' if wire.label else ""
    return f"{label}{look}, tooltip={quoted(wire.note)}, labeltooltip={quoted(wire.note)}"


def drawn_by_dot(text):
    """The picture (SVG) that `dot` draws, as an element of a page; None if `dot` is not installed, fails, or takes too
    long."""
    try:
        ran = subprocess.run(["dot", "-Tsvg"], input=text.encode(), stdout=subprocess.PIPE, stderr=subprocess.DEVNULL,
                             timeout=WITHIN, check=False)
    except (OSError, subprocess.TimeoutExpired):
        return None
    found = re.search(r"<svg.*</svg>", ran.stdout.decode("utf-8", "replace"), re.DOTALL)
    if not found or ran.returncode:
        return None
    # A link without a target has the text under the pointer; viewers show a title in its place.
    drawn = re.sub(r'<a xlink:title="([^"]*)">', r"<title>\1</title>", found[0]).replace("</a>\n", "")
    drawn = drawn.replace("&#39;", "'").replace("&#45;", "-")
    return re.sub(r' id="[^"]*"', "", drawn) + "\n"


def design_picture(graph, title):
    """The picture of a design: by `dot` if that can draw it, and else by the layout of this library."""
    return drawn_by_dot(dot_text(graph, title)) or GraphPicture(graph, title).draw()
