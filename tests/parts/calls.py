"""Worked calls: what the program asserts call by call, and the lines of tests/worked, tests/types and tests/methods."""
import subprocess
import sys

from common import ROOT, compare, told, words_of


def asserts(program):
    """What tests/program/asserts says of each call holds, else the program ends there."""
    return compare("asserts", told(program, "asserts", []), [""])


def folder(part):
    """The lines of a folder of tests/, and what was worked for them."""
    place = f"{ROOT}/tests/{part}"
    return lambda program: compare(part, told(program, part, words_of(f"{place}/stdin")), words_of(f"{place}/stdout"))


def methods(program):
    """The lines of tests/methods; a block of them is what tests/methods/make writes."""
    return folder("methods")(program) + (subprocess.run([sys.executable, f"{ROOT}/tests/methods/make", "--check"]).returncode != 0)


PARTS = {"asserts": asserts, "worked": folder("worked"), "types": folder("types"), "methods": methods}
