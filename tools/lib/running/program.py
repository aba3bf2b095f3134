"""Runs the program, and reports if it cannot be run."""

import os
import subprocess

from ..explaining.page import TOP
from ..scenarios.bundles import Refused


PALS = os.path.join(TOP, "pals")


def program_at(path=None):
    """The program that is asked: a file, or else the program that ./pals runs, if that needs no compilation."""
    return executable(found_by_pals() if path is None else path)


def code_program_at(path=None):
    """The program that writes listings: a file, or else the program that ./pals code runs, as for program_at."""
    return executable(found_by_pals("code") if path is None else path)


def executable(path):
    """The path of a program, if it can be run."""
    if not (os.path.isfile(path) and os.access(path, os.X_OK)):
        raise Refused(f"{path} is not a program that can be run")
    return os.path.abspath(path)


def found_by_pals(*words):
    """The path of the built program, or of the unpacked program of prebuilt/; with the word `code`, of pals_code."""
    ran = subprocess.run([PALS, "--program", *words], stdout=subprocess.PIPE, stderr=subprocess.PIPE, check=False)
    path = os.fsdecode(ran.stdout[:-1])
    if ran.returncode or not path:
        said = ran.stderr.decode("utf-8", "replace").strip().split("\n")[-1].replace("pals: ", "", 1)
        raise Refused(f"{said}, and --program FILE names another program")
    return path


def ask_program(command, words, data):
    """The status and the text of the program for some words and a bundle."""
    how = {"input": data, "stdout": subprocess.PIPE, "stderr": subprocess.PIPE, "check": False}
    try:
        ran = subprocess.run([command, *words], **how)
    except OSError as error:
        raise Refused(f"{command}: {error.strerror}") from error
    if ran.returncode < 0 or ran.returncode >= 126:
        said = ran.stderr.decode("utf-8", "replace").strip().split("\n")[-1]
        raise Refused(f"{command} {' '.join(words)} was ended: {said or ran.returncode}")
    return ran.returncode, ran.stdout.decode("utf-8", "replace")
