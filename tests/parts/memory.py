"""Each allocation is refused in turn."""
import os
import tempfile

from common import CHECK, ROOT, script, words_of
from lists import SOME, different_types

# How a group of ten types begins, in a line of tests/types/stdin.
GROUP_OF_TEN = "4e0a"


def run(program):
    """Refuses each allocation of the groups of ten types, and of some types alone, in turn; how many of the two answer otherwise than by
    out of memory or by the line's own answer."""
    refused = script("tests/refused-memory")
    tens = [line for line in words_of(f"{ROOT}/tests/types/stdin") if GROUP_OF_TEN in line]
    differ = 0
    twice = [line for line in words_of(f"{ROOT}/tests/types/stdin") if line.startswith("types WASM3 024e02")]
    for name, lines in (("groups of ten types", tens), ("types alone", [f"types WASM3 {different_types(SOME)}"]), ("a group twice", twice)):
        runs = [([program, "types"], f"{line}\n") for line in lines]
        differ += not (runs and refused.sweep_all(name, runs, refused.is_told_of_line))
    lists = [line for line in words_of(f"{ROOT}/tests/methods/stdin") if " list:" in line]
    runs = [([program, "methods"], f"{line}\n") for line in lists]
    differ += not (runs and refused.sweep_all("modules one after the other", runs, refused.is_told_of_line))
    return differ + refuse_to_program(program, refused) + refuse_to_calls(program, refused)


# Modules whose judging takes memory in most of the ways there are: a constant, a field of a subtype, each kind of section, an operator of 2^32 - 1
# operands in code that is not reached.
TAKING = ["m42", "struct-get-of-subtype", "module-information", "array-new-fixed-of-many-unreached"]


def refuse_to_program(program, refused):
    """The same of the program, on a header, on modules whole and in pieces, on one that is refused and explained, and on two files of which the second
    is invalid: no file of which memory ran out has a line, and the status is 2. No growth is refused without this answer; only a list that shrinks may stay as it is."""
    # 101 is this program's own status, if there is no memory for its words
    is_told = lambda line, status, told, fault: status in (2, 101) and told in ("", "m42.wasm: valid\n") and "out of memory" in fault
    ways = [[], ["--pieces=1"], ["--pieces=4"]]
    with tempfile.TemporaryDirectory(prefix="tests-") as room:
        with open(f"{room}/a.wasm", "wb") as it:
            it.write(bytes.fromhex("0061736d01000000"))
        # `i32.const`, and a conversion that refuses it
        with open(f"{room}/b.wasm", "wb") as it:
            it.write(bytes.fromhex("0061736d01000000010401600000030201000a0801060041008c1a0b"))
        files = [f"{room}/a.wasm", *(f"{CHECK}/data/{name}.wasm" for name in TAKING)]
        runs = [([program, "run", *way, file], "") for way in ways for file in files]
        runs += [([program, "run", *way, f"{room}/b.wasm"], "") for way in (["--explain"], ["--explain", "--json"])]
        differ = not refused.sweep_all("modules whole and in pieces", runs, is_told, must_tell=True)
    here = os.getcwd()
    os.chdir(f"{CHECK}/data")
    try:
        runs = [([program, "run", *way, "m42.wasm", "bad.wasm"], "") for way in ways]
        return differ + (not refused.sweep_all("two files", runs, is_told, must_tell=True))
    finally:
        os.chdir(here)


def refuse_to_calls(program, refused):
    """The same of attempts of operators, and of bodies and expressions that are read: what is refused leaves no trace, and no answer changes."""
    differ = 0
    for part, has in (("methods", " try:"), ("worked", " 010300010b"), ("worked", " 1f400102000b0b")):
        lines = [line for line in words_of(f"{ROOT}/tests/{part}/stdin") if has in line]
        runs = [([program, part], f"{line}\n") for line in lines]
        differ += not (runs and refused.sweep_all(f"{part} with{has}", runs, refused.is_told_of_line))
    return differ
