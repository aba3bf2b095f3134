"""How a run is drawn: the layers of its picture, their style, and their text in the legend."""

from .svg import ASIDE, DARK, LIGHT, WRONG, number

LAYERS = ["lane", "grid", *[f"bar b{turn}" for turn in range(len(DARK))], "ignored", "flight",
          *[f"message r{turn}" for turn in range(len(DARK))], "send", "missing", "wrong", "ring"]
HEADS = {**{f"head{turn}": colour for turn, colour in enumerate(DARK)}, "grey": ASIDE, "red": WRONG}

# The texts of layers in the legend.
LEGEND = [
    ([f"bar b{turn}" for turn in range(len(DARK))], "steps, in the colour of their round"),
    (["send"], "a round is sent"),
    ([f"message r{turn}" for turn in range(len(DARK))], "messages, in the colour of their round"),
    (["ignored"], "message that is ignored"), (["flight"], "lost, or in flight at the end"),
    (["missing"], "message that is missed"), (["wrong"], "what is wrong, and what ends the run"),
]


def style_of(thick):
    """The style of a picture whose lines are so thick."""
    thin = number(max(thick, 0.4))
    return "\n".join([
        ".lane {stroke: #ccc}", ".grid {stroke: #bbb; stroke-dasharray: 2 3}",
        f".bar {{stroke: #456; stroke-width: {number(max(thick / 2, 0.2))}}}", ".open {stroke-dasharray: 3 2}",
        *[f".b{turn} {{fill: {colour}}}" for turn, colour in enumerate(LIGHT)],
        *[f".{layer} {{stroke-width: {thin}; fill: none}}" for layer in ("message", "ignored", "flight")],
        *[f".r{turn} {{stroke: {colour}; marker-end: url(#head{turn})}}" for turn, colour in enumerate(DARK)],
        f".ignored {{stroke: {ASIDE}; marker-end: url(#grey)}}", ".flight {stroke: #444; stroke-dasharray: 5 3}",
        ".send {fill: #333}", f".wrong {{stroke: {WRONG}; stroke-width: 2; fill: none}}",
        f".missing {{stroke: {WRONG}; stroke-width: 2; fill: none; stroke-dasharray: 6 3}}",
        ".early {marker-end: url(#red)}", f".ring {{stroke: {WRONG}; stroke-width: 2; fill: none}}",
    ])


def heads():
    """The heads of arrows."""
    return "<defs>" + "".join(
        f'<marker id="{name}" viewBox="0 0 8 8" refX="7" refY="4" markerWidth="7" markerHeight="7" orient="auto">'
        f'<path d="M0 0 L8 4 L0 8 z" fill="{fill}"/></marker>' for name, fill in HEADS.items()) + "</defs>\n"
