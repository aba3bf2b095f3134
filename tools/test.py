#!/usr/bin/env python3
"""Tests the tools, ./pals and the pages: tools/test.py [WORD ..]

It runs the tests whose names have one of the words, or all, and ends with status 0 if and only if none fails. The
programs are the ones that ./pals runs: built here, or in prebuilt/. A test whose program or package is missing is
reported as left out. Each file of tests gets a line with its seconds. Without a word the files run side by side, as
many as there are processors. --more makes long tests longer. --write-pictures makes the pictures of the docs anew.
"""

import glob
import importlib
import os
import re
import subprocess
import sys
import time
from concurrent.futures import ThreadPoolExecutor, as_completed

sys.dont_write_bytecode = True
HERE = os.path.dirname(os.path.abspath(__file__))
sys.path.insert(0, HERE)
from tests.common import Skipped, Wrong

# The files whose nodes or editors have to answer in time: each runs by itself, after the others.
ALONE = ("test_demo", "test_language_server", "test_udp")
TOTAL = re.compile(r"tools: (\d+) passed, (\d+) failed\n\Z")


def files():
    """The names of the files of tests."""
    return [os.path.basename(path)[:-3] for path in sorted(glob.glob(os.path.join(HERE, "tests", "test_*.py")))]


def tests_named(words):
    """The tests whose names have one of the words, by file."""
    for file in files():
        module = importlib.import_module(f"tests.{file}")
        found = [test for name, test in vars(module).items()
                 if name.startswith("test_") and any(word in f"{module.__name__}.{name}" for word in words)]
        if found:
            yield file, found


def passes(test):
    """Whether a test passes; None if it is left out."""
    try:
        test()
        return True
    except Skipped as why:
        print(f"left out {test.__name__}: {why}", flush=True)
        return None
    except (Wrong, subprocess.TimeoutExpired, OSError, KeyError, ValueError) as why:
        print(f"FAILED {test.__name__}: {why}\n", flush=True)
        return False


def run_here(words):
    """Runs the tests with one of the words in this process: how many passed, and how many failed."""
    results = []
    for file, tests in tests_named(words):
        begin = time.monotonic()
        found = [passes(test) for test in tests]
        print(f"{file}: {found.count(True)} of {len(found)} passed, {time.monotonic() - begin:.0f} s", flush=True)
        results += found
    return results.count(True), results.count(False)


def run_file(file, flags):
    """Runs a file of tests in a process of its own, and prints its output: how many passed, and how many failed."""
    ran = subprocess.run([sys.executable, os.path.abspath(__file__), f"tests.{file}.", *flags], stdout=subprocess.PIPE,
                         stderr=subprocess.STDOUT, text=True, check=False)
    total = TOTAL.search(ran.stdout)
    print(ran.stdout[:total.start()] if total else f"FAILED {file}: status {ran.returncode}\n{ran.stdout}", end="",
          flush=True)
    return (int(total.group(1)), int(total.group(2))) if total else (0, 1)


def run_all(flags):
    """Runs all files, side by side or each by itself: how many tests passed, and how many failed."""
    with ThreadPoolExecutor(os.cpu_count()) as pool:
        runs = [pool.submit(run_file, file, flags) for file in files() if file not in ALONE]
        counts = [run.result() for run in as_completed(runs)]
    counts += [run_file(file, flags) for file in ALONE]
    return sum(passed for passed, _ in counts), sum(failed for _, failed in counts)


def main(args):
    if "--help" in args:
        print(__doc__.strip())
        return 0
    words = [word for word in args if not word.startswith("--")]
    passed, failed = run_here(words) if words else run_all([word for word in args if word.startswith("--")])
    print(f"tools: {passed} passed, {failed} failed")
    return 1 if failed else 0


if __name__ == "__main__":
    sys.exit(main(sys.argv[1:]))
