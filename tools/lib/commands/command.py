"""How each tool runs: its arguments, its rejections, and its behaviour if it can neither read nor write."""

import io
import os
import sys

from ..scenarios.bundles import Refused
from .command_line import Misused

# The statuses of a tool for invalid arguments, and for a request that it cannot fulfil.
MISUSED, UNABLE, INTERRUPTED = 2, 1, 130


def run(work, line):
    """Runs a tool on the values of its command line, and ends with its status."""
    name = os.path.basename(sys.argv[0])
    for stream in (sys.stdout, sys.stderr):
        if hasattr(stream, "reconfigure"):
            # A character that the output cannot encode is written as its number.
            stream.reconfigure(errors="backslashreplace")
    try:
        if sys.stdout is None:
            raise Refused("standard output is closed")
        status = answered(work, line, name)
        sys.stdout.flush()
    except Misused as why:
        say(f"{name}: {why}\nusage: {line.usage(name)}")
        status = MISUSED
    except Refused as why:
        say(f"{name}: {why}")
        status = UNABLE
    except OSError as why:
        if not isinstance(why, BrokenPipeError):
            say(f"{name}: {why.strerror}")
        forget_output()
        status = UNABLE
    except (ValueError, OverflowError, RecursionError, MemoryError) as why:
        say(f"{name}: this cannot be read: {str(why)[:80] or type(why).__name__}")
        status = UNABLE
    except KeyboardInterrupt:
        forget_output()
        status = INTERRUPTED
    sys.exit(status)


def answered(work, line, name):
    """The status of a tool; with --help it shows its help."""
    given = line.read(name, sys.argv[1:])
    if given is not None:
        return work(given)
    sys.stdout.write(line.help(name, sys.modules["__main__"].__doc__ or ""))
    return 0


def say(text):
    """Writes to standard error, where that is open and takes it."""
    try:
        print(text, file=sys.stderr or io.StringIO(), flush=True)
    except OSError:
        pass


def forget_output():
    """Discards the unwritten output, so that the exit of the program does not try it again."""
    try:
        os.dup2(os.open(os.devnull, os.O_WRONLY), sys.stdout.fileno())
    except (OSError, ValueError):
        pass


def answer():
    """The answer on standard input."""
    if sys.stdin is None:
        raise Refused("standard input is closed")
    return sys.stdin.buffer.read().decode("utf-8", "replace")
