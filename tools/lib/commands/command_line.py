"""The command line of a tool: one table makes its parser, its help, its usage line, and the completions of shells."""

import argparse
import re
from typing import Any, Callable, NamedTuple, Optional, Tuple

# The values of an option that are files, for the completions of shells.
FILES = ("FILE", "HEADER", "LOG", "MODEL.aadl", "OTHER.aadl", "PATH", "PROGRAM", "SCENARIO.json", "WATCH_ANSWER")
FOLDERS = ("DIR", "FOLDER")
WIDTH, INDENTED = 100, 26


class Misused(Exception):
    """The arguments are not the tool's."""


class Option(NamedTuple):
    """An option. `value` is the word for its value in the help, empty for a flag. An option that is `repeated` may be
    given several times, and has a list. Options of one `group` exclude each other."""

    name: str
    value: str
    meaning: str
    choices: Tuple[str, ...] = ()
    convert: Callable[[str], Any] = str
    default: Any = None
    repeated: bool = False
    group: str = ""

    def usage(self):
        """The option in a usage line, without brackets."""
        words = "|".join(self.choices) or self.value
        return f"{self.name} {words}" if self.value else self.name

    def add_to(self, parser):
        """Adds the option to a parser."""
        meaning = self.meaning.replace("%", "%%")
        if not self.value:
            parser.add_argument(self.name, action="store_true", help=meaning)
            return
        parser.add_argument(self.name, action="append" if self.repeated else "store", metavar=self.value, help=meaning,
                            choices=self.choices or None, type=self.convert,
                            default=[] if self.repeated else self.default)


def flag(name, meaning, group=""):
    """An option without a value."""
    return Option(name, "", meaning, group=group)


def option(name, value, meaning, **more):
    """An option with a value."""
    return Option(name, value, meaning, **more)


def several(name, value, meaning, **more):
    """An option with a value, which may be given several times."""
    return Option(name, value, meaning, repeated=True, **more)


def whole(least, most):
    """Converts a word to a whole number within two ends."""

    def convert(word):
        if not (word.isascii() and word.isdigit() and len(word) <= 18 and least <= int(word) <= most):
            raise argparse.ArgumentTypeError(f"{word[:40]} is not a number from {least:,} to {most:,}")
        return int(word)

    return convert


def seconds(word):
    """Converts a word to a number of seconds."""
    if not re.fullmatch(r"[0-9]{1,6}(\.[0-9]{1,9})?", word):
        raise argparse.ArgumentTypeError(f"{word[:40]} is not a number of seconds")
    return float(word)


class Parser(argparse.ArgumentParser):
    """A parser that raises its errors."""

    def error(self, message):
        raise Misused(message)


class CommandLine(NamedTuple):
    """The arguments of a tool: its operands, with the smallest and the largest number of them, and its options.

    `streams` shows the standard input and output in the usage line, `forms` are further usage lines. A tool that
    `passes` options takes unknown ones as operands; if it `runs` a command, everything from the first operand on."""

    options: Tuple[Option, ...] = ()
    operands: str = ""
    number: Tuple[int, Optional[int]] = (0, 0)
    streams: str = ""
    forms: Tuple[str, ...] = ()
    passes: bool = False
    runs: bool = False

    def usage(self, name):
        """The usage lines, without the word `usage:`."""
        groups = {}
        for it in self.options:
            groups.setdefault(it.group or it.name, []).append(it)
        words = [f"[{' | '.join(it.usage() for it in group)}]" + (".." if group[0].repeated else "")
                 for group in groups.values()]
        words += [word for word in (self.operands, self.streams) if word]
        lines = [" ".join([f"tools/{name}", *words]), *(f"tools/{name} {form}" for form in self.forms)]
        return "\n       ".join(lines)

    def parser(self, name, text):
        """The parser, with the text as its description."""
        parser = Parser(usage=self.usage(name).replace("%", "%%"), description=text.strip(), add_help=False,
                        allow_abbrev=False, formatter_class=lambda prog: argparse.RawDescriptionHelpFormatter(
                            prog, max_help_position=INDENTED, width=WIDTH))
        rows = parser.add_argument_group("options")
        groups = {it.group: rows.add_mutually_exclusive_group() for it in self.options if it.group}
        for it in self.options:
            it.add_to(groups.get(it.group, rows))
        rows.add_argument("-h", "--help", action="store_true", help="show this text")
        if self.runs:
            parser.add_argument("operands", nargs=argparse.REMAINDER, help=argparse.SUPPRESS)
        return parser

    def help(self, name, text):
        """What --help shows."""
        return self.parser(name, text).format_help()

    def read(self, name, words):
        """The values of a command line: each option by its name, and the operands. None if it asks for help."""
        given, rest = self.parser(name, "").parse_known_args(words)
        if given.help:
            return None
        given.operands = self.operands_in(rest) + (given.operands if self.runs else [])
        least, most = self.number
        if len(given.operands) < least:
            raise Misused(f"expected {self.operands}" if not given.operands else "too few arguments")
        if most is not None and len(given.operands) > most:
            raise Misused(f"unexpected argument {given.operands[most][:80]}")
        return given

    def operands_in(self, words):
        """The words that are not options of the tool, of which none may look like an option, except after `--`."""
        end = words.index("--") if "--" in words else len(words)
        stray = next((it for it in words[:end] if it.startswith("-") and it != "-"), None)
        if stray and not self.passes:
            raise Misused(f"unknown option {stray[:80]}")
        return words[:end] + words[end + 1:]


# Options that several tools take.
ROOT = option("--root", "ROOT", "the root system; by default the one that no other system contains")
STRICT = flag("--strict", "status 1 instead of 0 if a trap halts a component")
PROGRAM = option("--program", "FILE", "run this program in place of the one that ./pals runs")
CODE = option("--code", "FILE", "run this program for listings in place of the one that ./pals code runs")
SECONDS = option("--seconds", "N", "the seconds that the search may take (60)", default=60.0, convert=seconds)
INPUT = several("--input", "PORT=VALUES", "the values of an in port of the root, as 0..9, true,false or 1,5,null; PORT "
                "may have * for any letters")
PROPERTY = several("--property", "'NAME: FORMULA'", "a property as text (docs/monitors.md)")
PROPERTIES = option("--properties", "FILE", "properties as text, one a line")
