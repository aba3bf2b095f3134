"""The complete output of the program for one design and one scenario."""

import json
from collections import namedtuple

from ..linting.rules import scenario_of
from ..scenarios.bundles import Refused
from .kinds import Answer
from .program import ask_program

# One output: the command, the status, and the text.
Told = namedtuple("Told", "words status text")
# Which given outputs replace the output of which command. Rows with messages or a journal belong to a run.
PLACE_OF = {"check": "check", "text": "check", "fault": "check", "findings": "check", "code": "check",
            "scenario": "sync", "watch": "watch", "budget": "budget", "rows": "sync", "stop": "run", "event": "run",
            "clock": "run", "wrong": "run", "sound": "run"}
# A run in threads with more rounds of nodes than this is not asked for.
MOST_NODE_ROUNDS = 50_000
# The commands of some fields of a scenario.
COMMANDS = {"properties": "watch", "processors": "budget", "replicas": "vote", "plants": "fuse"}


class Study:
    """The answers to all commands that a scenario has something for."""

    def __init__(self, bundle, root):
        self.bundle, self.root, self.told = bundle, root, {}
        found = scenario_of(bundle.scenario)
        self.scenario = found if isinstance(found, dict) else {}

    def ask(self, command):
        """Asks the program for all of it; of a design or a scenario that is refused the first answer is enough."""
        for place, words in self.commands():
            if words[0] == "run" and self.is_long():
                continue
            self.told[place] = Told(words, *ask_program(command, [*words, self.root], self.bundle.data))
            if place in ("check", "sync") and self.told[place].status:
                return

    def is_long(self):
        """Whether a run in threads would have more rounds of nodes than a page has use for."""
        nodes = self.told["check"].text.count("\ncomponent ")
        rounds = self.scenario.get("rounds")
        return isinstance(rounds, int) and rounds * nodes > MOST_NODE_ROUNDS

    def commands(self):
        """What there is to ask, in order."""
        yield "check", ["check"]
        yield "sync", ["sync"]
        for field, command in COMMANDS.items():
            if self.scenario.get(field):
                yield command, [command]
        yield "run", self.run_words()

    def run_words(self):
        """The arguments for a run: by the events of the scenario or its trace if it has some, else in threads."""
        events = self.scenario.get("events")
        if isinstance(events, list) and events:
            timed = any(isinstance(event, list) and event[:1] == ["pass"] for event in events)
            return ["world"] if timed else ["world", "--loose"]
        return ["audit"] if self.scenario.get("trace") else ["run", "--trace"]

    def take(self, path, text):
        """Uses a given output."""
        answer = Answer(text)
        if answer.kind not in PLACE_OF:
            raise Refused(f"{path}: a report cannot show this answer")
        of_run = answer.kind == "rows" and any(line.startswith(("sent ", "start ", "arrive ")) for line in answer.lines)
        place = "run" if of_run else PLACE_OF[answer.kind]
        words = self.run_words() if place == "run" else [place]
        self.told[place] = Told(words, answer.status, text)

    def formula(self, name):
        """The formula of a property, as the scenario has it."""
        properties = self.scenario.get("properties")
        return json.dumps(properties.get(name)) if isinstance(properties, dict) else ""
