"""Measures the program on bundles: processor time, memory, and instructions if valgrind is installed."""

import os
import re
import resource
import shutil
import signal
import subprocess
import tempfile

# The memory that a command may take, in bytes.
MOST_MEMORY = 4_000_000_000
# The growth of a doubling that is reported, and the seconds and MiB below which it is chance.
MOST_GROWTH = 2.3
LEAST_SECONDS = 0.1
LEAST_MEMORY = 32
# The statuses of a command that was ended, or had too little memory.
ENDED = ("-", "11")
REFERENCES = re.compile(rb"I\s+refs:\s+([\d,]+)")


def file_of(make):
    """A file with the bytes that a function makes. Another process makes them, so that their memory is not counted."""
    file = tempfile.TemporaryFile()
    child = os.fork()
    if child == 0:
        status = 1
        try:
            file.write(make())
            file.flush()
            status = 0
        finally:
            os._exit(status)
    if os.waitpid(child, 0)[1]:
        raise MemoryError("the bundle could not be made")
    return file


def size_of(file):
    """The bytes of a file."""
    return os.fstat(file.fileno()).st_size


def measured(program, words, given, most):
    """The status of a command on a file, its processor seconds and MiB, and the beginning of its answer."""
    with tempfile.TemporaryFile() as taken:
        child = os.fork()
        if child == 0:
            os.lseek(given.fileno(), 0, os.SEEK_SET)
            os.dup2(given.fileno(), 0)
            os.dup2(taken.fileno(), 1)
            resource.setrlimit(resource.RLIMIT_CPU, (most, most))
            resource.setrlimit(resource.RLIMIT_AS, (MOST_MEMORY, MOST_MEMORY))
            signal.signal(signal.SIGXCPU, signal.SIG_DFL)
            os.execv(program, [program, *words])
        _, end, used = os.wait4(child, 0)
        taken.seek(0)
        first = taken.read(60).split(b"\n")[0].decode("utf-8", "replace")
    status = str(os.WEXITSTATUS(end)) if os.WIFEXITED(end) else "-"
    return status, used.ru_utime + used.ru_stime, used.ru_maxrss / 1024, first


def instructions(program, words, given):
    """The instructions that a command executes on a file, or None without valgrind. Other work does not change them."""
    command = shutil.which("valgrind")
    if command is None:
        return None
    os.lseek(given.fileno(), 0, os.SEEK_SET)
    words = [command, "--tool=cachegrind", "--cache-sim=no", "--cachegrind-out-file=/dev/null", program, *words]
    ran = subprocess.run(words, stdin=given, stdout=subprocess.DEVNULL, stderr=subprocess.PIPE, check=False)
    found = REFERENCES.search(ran.stderr)
    return int(found.group(1).replace(b",", b"")) if found else None


def grows(before, after, least):
    """Whether a quantity grows by more than a doubling may, and is more than chance."""
    return after > least and after > MOST_GROWTH * max(before, least / 2)


def has_grown(before, after):
    """Whether the seconds, and whether the memory, of a doubling grow by too much."""
    return [grows(*them) for them in zip(before, after, (LEAST_SECONDS, LEAST_MEMORY))]


def instructions_grow(program, words, before, after):
    """Whether the instructions of a doubling grow by too much; true if they cannot be counted."""
    counts = [instructions(program, words, file) for file in (before, after)]
    return None in counts or grows(*counts, 0)
