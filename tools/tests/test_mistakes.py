"""A table of mistakes: the program's output for each, and its explanation."""

import os
import re
import subprocess

from lib.scenarios.bundles import read
from tests.common import TOP, WITHIN, built, expect, explained, page

# The minimum number of mistakes, and the share of explanations that name the fix itself.
LEAST, SHARE = 100, 0.75


class Mistake:
    """One block of the table."""

    def __init__(self, block):
        lines = block.split("\n")
        self.command = lines[0][2:]
        self.changes, self.scenario = {}, None
        for line in lines[1:]:
            number, bar, text = line.partition("|")
            if not bar or line[0] in "<>+":
                continue
            if not number:
                self.scenario = text
            elif number.strip():
                last = int(number)
                self.changes[last] = text
            else:
                self.changes[last] += "\n" + text
        self.answer = "".join(line[2:] + "\n" for line in lines if line.startswith("< "))
        self.first = next(line[2:] for line in lines if line[:2] in ("> ", "+ "))
        self.mend = next((line[2:] for line in lines if line.startswith("+ ")), None)

    def bundle(self):
        """The two counters with the mistake in them."""
        lines = page("examples/two_counters.pals").split("\n")
        if self.scenario is not None:
            lines[44:] = [self.scenario]
        return "\n".join(self.changes.get(number + 1, line) for number, line in enumerate(lines)).encode()


def mistakes():
    """The table."""
    blocks = read(os.path.join(TOP, "tools", "tests", "mistakes.txt")).decode().rstrip("\n").split("\n\n")[1:]
    return [Mistake(block) for block in blocks]


def test_mistakes_are_told():
    """For each mistake the user gets the first line that the table has, and the fix if it has one."""
    table = mistakes()
    for it in table:
        text = explained(it.bundle(), it.answer)[1]
        first = next((line[len("b.pals:") :] for line in text.split("\n") if re.match(r"b\.pals:\d+:\d+: ", line)), "")
        expect(first, it.first, f"{it.answer}\n{text}")
        if it.mend != it.first:
            expect(it.mend is None or f"\n    {it.mend}\n" in text, True, f"{it.mend}\n{text}")
    named = sum(it.mend is not None for it in table)
    expect((len(table) >= LEAST, named >= SHARE * len(table)), (True, True),
           f"{len(table)} mistakes, {named} with their mends")


def test_the_program_answers_as_the_table_says():
    """If the program is built, its outputs are the table's."""
    program = built()
    for it in mistakes():
        words = [program, *it.command.split(), "Top.impl"]
        ran = subprocess.run(words, input=it.bundle(), stdout=subprocess.PIPE, timeout=WITHIN, check=False)
        expect(ran.stdout.decode(), it.answer, f"pals {it.command}: {it.changes or it.scenario}")
