"""The complete output of the program for one design and one scenario, as one self-contained page (HTML)."""

import base64
import contextlib
import hashlib
import io
import os
from itertools import chain, repeat
from string import Template

from ..explaining.outputs import explain
from ..explaining.show import show_found
from ..explaining.traps import halted_in, rounds_words, short, traps_of
from ..linting.rules import lint
from ..running.answers import STOP, WATCHED
from ..running.rows import Report
from ..scenarios.bundles import Refused
from .drawn import AXES, cut, run_of
from .graph import Graph
from .graph_dot import design_picture
from .picture import Picture
from .plot import Plot, signals_of, verdicts_of
from .svg import plain
from .timetable import Timetable, processors_of

HERE = os.path.dirname(os.path.abspath(__file__))
# A table of more cells or a timeline of more events than these shows only some rounds.
MOST_CELLS, MOST_EVENTS = 150_000, 40_000
ZOOM = (
    '<div class="zoom"><p><button value="larger">Larger (+)</button><button value="smaller">Smaller (-)</button>'
    '<button value="same">As drawn (0)</button><button value="whole">Whole (f)</button><output>100 %</output></p>'
    "$pane</div>"
)


def section(name, title, *parts):
    """A section of the page."""
    inside = "\n".join(part for part in parts if part)
    return f'<section aria-labelledby="{name}"><h2 id="{name}" tabindex="-1">{plain(title)}</h2>\n{inside}\n</section>'


def note(words):
    """A remark."""
    return f'<p class="note">{plain(words)}</p>'


def pane(inside, label, kind="scroll"):
    """A part that is scrolled on its own, by keys too."""
    return f'<div class="{kind}" tabindex="0" role="region" aria-label="{plain(label)}">{inside}</div>'


def lines(text, label):
    """Several lines of text, each as a page may have it."""
    inside = "\n".join(map(plain, text.split("\n")))
    return pane(f"<pre>{inside}</pre>", label, "scroll short")


def folded(title, inside):
    """A part that is opened by its title."""
    return f"<details><summary>{plain(title)}</summary>{inside}</details>"


def table(names, rows, label):
    """A table. A cell is a text, or a text with its kind."""
    kinds = chain(["first"], repeat(""))
    head = "".join(f'<th scope="col" class="{kind}">{plain(name)}</th>' for kind, name in zip(kinds, names))
    body = []
    for line in rows:
        cells = [cell if isinstance(cell, tuple) else (cell, "") for cell in line]
        kinds = ["first", *(kind for _, kind in cells[1:])]
        body.append("<tr>" + "".join(f'<td class="{kind}">{plain(text)}</td>' if kind else f"<td>{plain(text)}</td>"
                                     for (text, _), kind in zip(cells, kinds)) + "</tr>")
    return pane(f"<table><thead><tr>{head}</tr></thead><tbody>\n" + "\n".join(body) + "\n</tbody></table>", label)


class Page:
    """The page of a study."""

    def __init__(self, study, model, names=()):
        self.study, self.model, self.names, self.chips, self.parts = study, model, list(names), [], []
        self.traps = self.find_traps()

    def whole(self):
        """The text of the page."""
        for name, title, make in (
            ("design", "Design", self.design), ("findings", "Findings", self.findings),
            ("verdicts", "Verdicts", self.verdicts), ("values", "Values over the rounds", self.values),
            ("rows", "Rows", self.rows), ("run", "Run of the nodes", self.run), ("budget", "Processors", self.budget),
            ("answers", "Answers", self.answers),
        ):
            made = make()
            if made:
                self.parts.append((name, title, section(name, title, *made)))
        with open(os.path.join(HERE, "report_page.html"), encoding="utf-8") as file:
            page = Template(file.read())
        with open(os.path.join(HERE, "report_page.js"), encoding="utf-8") as file:
            script = file.read()
        bundle = self.study.bundle
        return page.substitute(
            title=plain(f"Report on {self.study.root}"), script=script,
            script_sum=base64.b64encode(hashlib.sha256(script.encode()).digest()).decode(),
            files=plain(" and ".join(it for it in (bundle.path, bundle.scenario_path) if it)),
            chips="".join(f'<li class="{kind}">{plain(words)}</li>' for kind, words in self.chips),
            links="".join(f'<a href="#{name}">{plain(title)}</a>' for name, title, _ in self.parts),
            sections="\n".join(made for _, _, made in self.parts),
        )

    def find_traps(self):
        """The traps of all outputs: the traps of one component in one round only once."""
        found = {}
        for place in ("sync", "vote", "fuse", "run", "watch"):
            text = self.text_of(place)
            traps = traps_of(self.study.bundle, text, self.study.root) if text is not None else None
            for remark, halt in zip(traps.found, traps.halts) if traps else ():
                found.setdefault((halt.path, halt.round), (remark, halt))
            if place == "watch" and traps and not found and rounds_words(traps):
                self.chip("bad", rounds_words(traps))
        return list(found.values())

    @property
    def halts(self):
        """Whether a component halts."""
        return bool(self.traps)

    def chip(self, kind, words):
        """A word at the top of the page."""
        self.chips.append((kind, words))

    def text_of(self, place):
        """The text of an answer, or None."""
        told = self.study.told.get(place)
        return told.text if told else None

    def report_of(self, place):
        """The report of an output, or None if there is none."""
        try:
            return Report(self.text_of(place) or "rejected")
        except Refused:
            return None

    def design(self):
        """The picture of the design, and the remarks on the accepted design."""
        if self.model is None:
            return [note("The design is not a text of the language.")]
        graph = Graph(self.model)
        title = f"The design of {self.study.root}"
        drawn = pane(design_picture(graph, title), title) if graph.boxes else ""
        checked = self.text_of("check") or ""
        facts = ""
        if checked.startswith("accepted"):
            facts = folded("What it is accepted with", lines(checked, "Report of check"))
        text = self.study.bundle.design.decode("utf-8", "replace")
        return [drawn, facts, folded("Its text", lines(text, "The design's text"))]

    def findings(self):
        """What is wrong, or accepted and likely not meant."""
        told = self.study.told.get("check")
        accepted = told is not None and told.status == 0
        self.chip(*(("good", "the design is accepted") if accepted else ("bad", "the design is rejected") if told
                    else ("plain", "the design was not checked")))
        found, parts = lint(self.model, self.study.scenario) if self.model and accepted else [], []
        for place, (words, status, text) in self.study.told.items():
            if status:
                parts.append(lines(self.explained(text, place), f"Output of pals {' '.join(words)}"))
        if self.traps:
            many = f"{len(self.traps)} components halted by traps"
            self.chip("bad", short(self.traps[0][1]) if len(self.traps) == 1 else many)
            parts.append(lines(self.said(lambda: [show_found(self.study.bundle, it) for it, _ in self.traps]), "Traps"))
        if found:
            self.chip("plain", f"{len(found)} suspicious")
            parts.append(note(f"Accepted, but suspicious: {len(found)}. docs/tools.md has the rules."))
            parts.append(lines(self.said(lambda: [show_found(self.study.bundle, it) for it in found]), "Lint"))
        return parts or [note("No errors, no halted components and no suspicious constructs.")]

    def said(self, work):
        """What some work writes."""
        with contextlib.redirect_stdout(io.StringIO()) as written:
            work()
        return written.getvalue()

    def explained(self, text, place):
        """The explanation of an output."""
        try:
            return self.said(lambda: explain(self.study.bundle, text, "world" if place == "run" else "", passes=False))
        except Refused as why:
            return str(why)

    def verdicts(self):
        """Each property with the first round in which it is false."""
        report = self.report_of("watch")
        if report is None or not report.watched:
            return None
        rounds, shown, false = len(report.rows), [], 0
        for name in report.verdicts[0]:
            first = next((row.number for row, it in zip(report.rows, report.verdicts) if it.get(name) == "false"), None)
            count = sum(it.get(name) == "false" for it in report.verdicts)
            false += first is not None
            verdict = ("true in every round", "left") if first is None else (f"false first in round {first}", "false")
            shown.append([name, verdict, f"{rounds - count} of {rounds}", (self.study.formula(name), "left")])
        self.chip("bad" if false else "good", f"{len(shown) - false} of {len(shown)} properties always hold")
        return [table(["property", "verdict", "rounds in which it holds", "formula"], shown, "Verdicts")]

    def values(self):
        """The plots."""
        report, watched = self.report_of("sync"), self.report_of("watch")
        signals = signals_of(report, self.names) if report else []
        signals = [it for it in signals + (verdicts_of(watched) if watched else []) if it.pieces]
        halts = halted_in(report) if report else []
        drawn = Plot(signals, "Values over the rounds", halts)
        return [pane(drawn.draw(), "Values over the rounds")] if signals else None

    def rows(self):
        """The rows of the composition, and of replicas and plants where the scenario has some."""
        made = []
        for place, words in (("sync", ""), ("vote", "With replicas"), ("fuse", "With plants that respond at once")):
            report = self.report_of(place)
            if report and report.rows:
                made += [f"<h3>{words}</h3>" if words else "", *self.table_of(report)]
        return made or None

    def table_of(self, report):
        """Rows as a table; what a round has changed is tinted."""
        cells = [cells_of(row) for row in report.rows]
        names = list(dict.fromkeys(name for line in cells for name in line))
        most = max(MOST_CELLS // max(len(names), 1), 1)
        shown, before = [], {}
        for row, line in list(zip(report.rows, cells))[:most]:
            changed = ((line.get(name, ""), mark(line.get(name, ""), before.get(name))) for name in names)
            shown.append([str(row.number), *changed])
            before = line
        cut_off = note(f"The first {most} of {len(cells)} rounds.") if len(cells) > most else ""
        return [cut_off, table(["round", *names], shown, "Rows")]

    def run(self):
        """The timeline of the run."""
        told = self.study.told.get("run")
        if told is None:
            long = "sync" in self.study.told and not self.study.told["sync"].status and "check" in self.study.told
            return [note("A run in threads of this length is omitted: pals run --trace prints it.")] if long else None
        try:
            drawn = run_of(told.text, self.study.bundle)
        except Refused as why:
            return [note(f"pals {' '.join(told.words)} has no run to draw: {why}")]
        self.chip(*(("bad", drawn.end.text) if drawn.end else ("good", "the run is never stopped")))
        words = ""
        if len(drawn.events) > MOST_EVENTS:
            rounds = sorted({event.round for event in drawn.events})
            count = max(len(rounds) * MOST_EVENTS // len(drawn.events), 1)
            taken = rounds[-count:] if drawn.end else rounds[:count]
            cut(drawn, (taken[0], taken[-1]))
            told_of = f"The rounds {taken[0]} to {taken[-1]} of {len(rounds)}"
            words = note(f"{told_of}: tools/timeline --rounds draws others.")
        drawn.halts = [halt for _, halt in self.traps]
        svg = Picture(drawn, f"pals {' '.join(told.words)}, {AXES[drawn.axis]}").draw()
        return [words, Template(ZOOM).substitute(pane=pane(svg, "Run of the nodes; + and - zoom"))]

    def budget(self):
        """The timetables."""
        text = self.text_of("budget") or ""
        report = self.report_of("budget")
        processors = processors_of(report, text) if report else []
        if not processors:
            return None
        over = [it.name for it in processors if not it.fits]
        self.chip("bad" if over else "good", f"over: {', '.join(over)}" if over else "each processor fits")
        return [pane(Timetable(processors).draw(), "Timetables")]

    def answers(self):
        """What was asked, and the last line of each answer."""
        shown = []
        for told in self.study.told.values():
            last = next((line for line in reversed(told.text.split("\n")) if line), "")
            ending = last if told.status or WATCHED.fullmatch(last) or STOP.fullmatch(last) else ""
            status = (str(told.status), "false" if told.status else "")
            asked = f"pals {' '.join(told.words)} {self.study.root}"
            shown.append([asked, status, f"{len(told.text):,}", (ending[:120], "left")])
        return [table(["asked", "status", "bytes", "last line"], shown, "Answers"),
                note("docs/formats.md lists the meaning of each status. This page is not proved: the answers count.")]


def cells_of(row):
    """The cells of a round by the names of their columns."""
    cells = {}
    for component in row.components:
        cells[component.path] = component.state
        cells.update((f"{component.path}.{name}", value) for name, value in component.values.items())
    cells.update((f"out {name}", ", ".join(places)) for name, places in row.outs)
    return cells


def mark(text, before):
    """How a cell is shown: halted, or changed since the round before."""
    return "stopped" if text.startswith("halted(") else "new" if before is not None and text != before else ""
