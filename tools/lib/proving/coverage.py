"""Scenarios that take each transition, branch, trap and adaptor group of a design, or the proof that none does."""

import random
import time

from .circuit import Query
from .engine import bounded, first_of, induction
from .evaluate import Run

# Scenarios at random, which reach the easy goals, and their rounds.
TRIES, ROUNDS = 40, 16
NUMBERS = (0, 1, -1, 2, 3, 5, 7, 10, 100, 2**31, 2**62, 2**63 - 1, -(2**63))


class Coverage:
    """The goals of a machine by their keys (path, kind, place or port, side): `tests` has the scenarios that reach some
    (inputs, rounds, goals), `dead` the goals that no scenario reaches, `unknown` those without an answer."""

    def __init__(self, questions, values, keys=None):
        self.questions, self.machine, self.values = questions, questions.machine, values
        terms = self.machine.terms
        goals = {key: terms.any(*parts) for key, parts in self.machine.goals.items() if keys is None or key in keys}
        self.goals = {key: term for key, term in goals.items() if terms.constant(term) is not False}
        self.tests, self.unknown = [], []
        self.dead = [key for key in goals if key not in self.goals]
        self.left = list(self.goals)

    def take(self, inputs, rounds):
        """Keeps a scenario if it reaches remaining goals, cut after the last round that reaches one first."""
        run = Run(self.machine, inputs, self.goals.values())
        reached, last = [], 0
        for number in range(rounds):
            values = run.step()
            new = [key for key in self.left if key not in reached and values[self.goals[key]]]
            reached += new
            last = number if new else last
        if reached:
            cut = {port: row[: last + 1] for port, row in inputs.items()}
            self.tests.append((cut, last + 1, reached))
            self.left = [key for key in self.left if key not in reached]
        return bool(reached)

    def at_random(self, seed):
        """Tries some scenarios at random."""
        chance = random.Random(seed)
        for _ in range(TRIES):
            if not self.left:
                return
            self.take({port: [self.value(chance, port) for _ in range(ROUNDS)] for port in self.machine.inputs}, ROUNDS)

    def value(self, chance, port):
        """A value of an input."""
        if port in self.values:
            return self.values[port].take(chance.randrange(self.values[port].count))
        if chance.random() < 0.2:
            return None
        return chance.random() < 0.5 if self.machine.inputs[port][0] == "Boolean" else chance.choice(NUMBERS)

    def search(self, seconds, tell=lambda text: None):
        """Asks the engine for the remaining goals: first whether any of them can be reached, traps apart since an
        overflow may be out of reach, then for each."""
        begun = time.monotonic()

        def remaining():
            return seconds - (time.monotonic() - begun)

        for traps in (False, True):
            keys = [key for key in self.left if (key[1] == "trap") == traps]
            while keys and remaining() > 0:
                result = self.ask(keys, max(remaining() / 2, 1), tell)
                if result.verdict == "proved":
                    self.dead += keys
                    self.left = [key for key in self.left if key not in keys]
                elif result.verdict == "open" or not self.take(result.inputs, result.rounds + 1):
                    break
                keys = [key for key in keys if key in self.left]
        while self.left and remaining() > 0:
            self.one(self.left[0], max(remaining() / len(self.left), 1), tell)
        self.unknown += self.left

    def one(self, key, seconds, tell):
        """Asks for one goal."""
        result = self.ask([key], seconds, tell)
        if result.verdict == "false" and self.take(result.inputs, result.rounds + 1) and key not in self.left:
            return
        self.left.remove(key)
        (self.dead if result.verdict == "proved" else self.unknown).append(key)

    def ask(self, keys, seconds, tell):
        """The answer to the question whether one of some goals can be reached."""
        bad = self.machine.terms.any(*(self.goals[key] for key in keys))
        query = Query([bad], [self.questions.allowed], self.questions.facts)
        circuit = self.questions.circuit(query)
        return first_of([induction(circuit, seconds), bounded(circuit, seconds)],
                        lambda: tell(f"{len(self.goals) - len(self.left)} of {len(self.goals)} goals"))

    def reduce(self):
        """Drops each scenario whose goals the others reach too."""
        needed, kept = set(self.goals) - set(self.dead) - set(self.unknown), []
        for inputs, rounds, _ in sorted(self.tests, key=lambda it: -len(it[2])):
            reached = self.reached(inputs, rounds) & needed
            if reached:
                kept.append((inputs, rounds, sorted(reached, key=str)))
                needed -= reached
        self.tests = kept

    def reached(self, inputs, rounds):
        """All goals that a scenario reaches."""
        run, found = Run(self.machine, inputs, self.goals.values()), set()
        for _ in range(rounds):
            values = run.step()
            found |= {key for key, term in self.goals.items() if values[term]}
        return found
