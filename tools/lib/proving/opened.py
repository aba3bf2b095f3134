"""The design and the scenario that a command names: its listing, its machine and the values of its inputs."""

import json

from ..commands.ranges import named_ranges, values_of
from ..language.listing import GREATEST, LEAST, read_listing
from ..language.model import declared_in, root_of
from ..linting.rules import scenario_of
from ..running.answers import WATCHED
from ..running.program import ask_program, code_program_at, program_at
from ..running.rows import Report
from ..scenarios.bundles import DIVIDER, Refused, bundle_of, read, without_mark
from .evaluate import Run
from .machine import Machine


class Opened:
    """A design and its scenario, with the programs that are asked about them."""

    def __init__(self, design, scenario, where, root=None, program=None, code=None):
        self.design, self.given = design if design.endswith(b"\n") else design + b"\n", scenario
        self.declared = declared_in(self.design)
        if self.declared is None:
            raise Refused(f"{where}: not a text of the language; ./pals check reports the position")
        self.root = root_of(self.declared, root).name.text
        self.program = program_at(program)
        self.listing = read_listing(listing_of(code_program_at(code), self.root, self.design))
        self.machine = Machine(self.listing)

    def scenario(self):
        """The scenario, which has to be an object; an empty one if there is none."""
        found = scenario_of(self.given) if self.given.strip() else {}
        if not isinstance(found, dict):
            raise Refused("the scenario is not a JSON object")
        return found

    def values(self, words):
        """The values of the inputs that the words of --input name, by port."""
        ports = list(self.machine.inputs)
        found = {name: values_of(word) for name, word in named_ranges(words, ports, "in port of the root").items()}
        for name, values in found.items():
            boolean = self.machine.inputs[name][0] == "Boolean"
            for part in values.parts:
                if (hasattr(part, "first") if boolean else isinstance(getattr(part, "value", None), bool)):
                    raise Refused(f"{name} takes {'true and false' if boolean else 'whole numbers'}, or null")
                if hasattr(part, "first") and not LEAST <= part.first <= part.last <= GREATEST:
                    raise Refused(f"a value of {name} has more than 64 bits")
        return found

    def component(self, path):
        """The component of a path."""
        return next(it for it in self.listing.components if it.path == path)

    def position(self, offset):
        """The line and the column of an offset in the design, from 1."""
        before = self.design[:offset]
        return before.count(b"\n") + 1, offset - before.rfind(b"\n")

    def agrees(self, rows, inputs):
        """Whether rows of `sync` have the states, the halts and the values that the machine has at some inputs."""
        run, names = Run(self.machine, inputs), {self.machine.terms.name(it): it for it in self.machine.next}
        for row in Report(rows).rows:
            run.step()
            for it in row.components:
                component, halted = self.component(it.path), run.state[names[f"{it.path} halted"]]
                state = component.states[run.state[names[f"{it.path} state"]]].name
                values = {var.name: shown(var.kind, run.state[names[f"{it.path}.{var.name}"]])
                          for var in component.variables}
                if it.state.startswith("halted(") != halted or values != it.values or not halted and state != it.state:
                    return False
        return True

    def watch(self, scenario, design=None):
        """The first false property and its round by `pals watch`, or None. It runs the proved program."""
        status, text = self.ask("watch", scenario, design)
        last = WATCHED.fullmatch(text.rstrip("\n").rpartition("\n")[2])
        if status not in (0, 1) or last is None:
            raise Refused(f"pals watch {self.root} ended with {status}: {text[:120].strip()}")
        return (last["name"], int(last["round"])) if status else None

    def ask(self, command, scenario, design=None):
        """The status and the text of a command of the program on the design, or a copy of it, and a scenario."""
        data = (self.design if design is None else design) + DIVIDER + b"\n" + json.dumps(scenario).encode()
        return ask_program(self.program, [command, self.root], data)


def shown(kind, value):
    """A value as `sync` writes it."""
    return str(bool(value)).lower() if kind == "Boolean" else str(int(value))


def opened_files(files, root=None, program=None, code=None):
    """The design and the scenario in one file or in two. A design has no scenario if its file has only it."""
    if len(files) == 1 and files[0].endswith(".aadl"):
        return Opened(without_mark(read(files[0])), b"", files[0], root, program, code)
    bundle = bundle_of(*files)
    return Opened(bundle.design, bundle.scenario, files[0], root, program, code)


def listing_of(code, root, design):
    """The listing of a design; or a refusal with the answer of the program."""
    status, text = ask_program(code, [root], design + DIVIDER + b"\n{}")
    if status:
        raise Refused(f"pals code {root} ended with {status}: {text[:120].strip()}")
    return text
