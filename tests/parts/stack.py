#!/usr/bin/env python3
"""The least stack with which the program ends as it should, and the page's figure for it.

usage: tests/parts/stack.py PROGRAM      measures another program, as `wasm-check` itself

For each way of a run the least stack is searched, in steps of 4 KB: a file of 1.5 million nested blocks (4.5 MB, judged as it comes), one of 32
bytes (read whole), the same as standard input, in pieces, and with explanations. A smaller stack ends the process by a signal. The page's
figure has to be enough for each of them, and not more than 96 KB above the greatest. It is the figure of the proved program, which is measured
if the gate has made it; the program of the worked calls has a trap at each step, and takes more.
"""
import os
import re
import resource
import subprocess
import sys
import tempfile

sys.path.insert(0, os.path.dirname(os.path.abspath(__file__)))
from common import ROOT, compare

BLOCKS, STEP, MOST, SLACK = 1_500_000, 4, 1024, 96
PROVED = f"{ROOT}/crates/wasm_check/out/wasm_check"
PAGE, FIGURE = "docs/PERFORMANCE.md", re.compile(r"<!-- stack -->(\d+)<!-- end of stack -->")


def leb(number):
    """A number as bytes, by LEB128."""
    low = number & 0x7F
    return bytes([low]) if number < 0x80 else bytes([low | 0x80]) + leb(number >> 7)


def module(body):
    """A module with one function, which takes and gives nothing."""
    entry = leb(len(body) + 1) + b"\0" + body
    return b"\0asm\1\0\0\0" + bytes.fromhex("010401600000" + "03020100" + "0a") + leb(len(entry) + 1) + b"\1" + entry


# The words of each run, its input, and the verdict.
DEEP, SMALL = module(b"\x02\x40" * BLOCKS + b"\x0b" * (BLOCKS + 1)), module(b"\x01" * 8 + b"\x0b")
WRONG = module(b"\x02\x40" * BLOCKS + b"\x6a" + b"\x0b" * (BLOCKS + 1))
FILES = {"deep.wasm": DEEP, "small.wasm": SMALL, "wrong.wasm": WRONG, "empty.wasm": SMALL[:-2] + b"\x6a\x0b"}
RUNS = {
    "nested blocks": (["deep.wasm"], 0), "a small file": (["small.wasm"], 0), "standard input": (["-"], 0),
    "nested blocks in pieces": (["--pieces=65536", "deep.wasm"], 0), "a small file in pieces": (["--pieces=65536", "small.wasm"], 0),
    "nested blocks explained": (["--explain", "wrong.wasm"], 1), "a small file explained": (["--explain", "empty.wasm"], 1),
    "JSON": (["--json", "small.wasm", "empty.wasm"], 1), "features": (["--needs", "small.wasm"], 0),
}


def ends(program, words, kilobytes, cwd):
    """The status of a run that has so much stack."""
    most = kilobytes << 10
    ran = subprocess.run([*program, *words], input=SMALL, stdout=subprocess.DEVNULL, stderr=subprocess.DEVNULL, cwd=cwd, env={},
                         preexec_fn=lambda: resource.setrlimit(resource.RLIMIT_STACK, (most, most)))
    return ran.returncode


def least(program, words, status, cwd):
    """The least number of kilobytes with which a run ends so."""
    low, high = 0, MOST
    while high - low > STEP:
        middle = (low + high) // 2 // STEP * STEP
        low, high = (low, middle) if ends(program, words, middle, cwd) == status else (middle, high)
    return high


def measured(program):
    """The least stack of each run."""
    with tempfile.TemporaryDirectory(prefix="tests-") as room:
        for name, contents in FILES.items():
            with open(f"{room}/{name}", "wb") as it:
                it.write(contents)
        return {what: least(program, words, status, room) for what, (words, status) in RUNS.items()}


def run(program):
    """The least stack of each run, beside the page's figure."""
    is_proved = os.access(PROVED, os.X_OK)
    found = measured([PROVED] if is_proved else [program, "run"])
    with open(f"{ROOT}/{PAGE}", encoding="utf-8") as it:
        told = [int(number) for number in FIGURE.findall(it.read())]
    print("tests/run: the least stack, in KB: " + ", ".join(f"{what} {number}" for what, number in found.items()))
    if not is_proved:
        return 0
    greatest = max(found.values())
    return compare(f"the stack of {PAGE}", [str(len(told) == 1 and greatest <= told[0] <= greatest + SLACK)], ["True"])


if __name__ == "__main__":
    if len(sys.argv) != 2:
        sys.exit(__doc__)
    for what, number in measured([os.path.abspath(sys.argv[1])]).items():
        print(f"{number:4} {what}")
