"""Standard streams that are closed, and such as take nothing."""
import os
import subprocess
import tempfile

from common import answered, compare, kinds


def unread(program, words, cwd):
    """What `wasm-check` writes to standard error, and its status, if its standard output is a pipe that nobody reads any more."""
    ours, theirs = os.pipe()
    os.close(ours)
    ran = subprocess.run([program, "run", *words], stdout=theirs, stderr=subprocess.PIPE, cwd=cwd)
    os.close(theirs)
    return [*ran.stderr.decode().splitlines(), str(ran.returncode)]


def full(program, words, cwd):
    """The same, if standard output is a device that is full."""
    with open("/dev/full", "wb") as out:
        ran = subprocess.run([program, "run", *words], stdout=out, stderr=subprocess.PIPE, cwd=cwd)
    return [*ran.stderr.decode().splitlines(), str(ran.returncode)]


def written_input(program, closed, words, cwd):
    """What `wasm-check` answers if its standard input is a file that is open to be written, and these descriptors are closed."""
    def before():
        os.dup2(os.open("written", os.O_WRONLY | os.O_CREAT), 0)
        for descriptor in closed:
            os.close(descriptor)

    ran = subprocess.run([program, "run", *words], capture_output=True, cwd=cwd, preexec_fn=before)
    return [*ran.stdout.decode().splitlines(), "--", *ran.stderr.decode().splitlines(), str(ran.returncode)]


def run(program):
    """Standard streams that are closed: no file is read or written in their place."""
    header = bytes.fromhex("0061736d01000000")
    unwritten = ["--", "wasm-check: cannot write", "2"]
    differ = 0

    def want(what, closed, words, lines):
        nonlocal differ
        differ += compare(what, answered(program, words, cwd=room, closed=closed), lines)

    with tempfile.TemporaryDirectory(prefix="tests-") as room:
        for name, contents in (("a.wasm", header), ("wrong.wasm", header + b"\x63")):
            with open(f"{room}/{name}", "wb") as it:
                it.write(contents)
        shut = "wasm-check: -: cannot open"
        for words in (["-"], ["-", "a.wasm"], ["a.wasm", "-", "-"], ["--quiet", "a.wasm", "-"], ["--pieces=4", "-"], ["--needs", "-"]):
            want(f"standard input closed, {words}", [0], words, ["--", shut, "2"])
        got = kinds(answered(program, ["--keep-going", "wrong.wasm", "-", "a.wasm"], cwd=room, closed=[0]))
        differ += compare("standard input closed, going on", got, ["wrong.wasm: invalid", "a.wasm: valid", "--", shut, "2"])
        want("standard input closed, as JSON", [0], ["--json", "-"], ["--", shut, '{"fault":"cannot open","file":"-"}', "2"])
        want("standard input closed, and no input is read", [0], ["a.wasm"], ["a.wasm: valid", "--", "0"])
        want("standard input closed, for a list", [0], ["--files0-from=-"], ["--", shut, "2"])
        want("standard input and error closed", [0, 2], ["-", "a.wasm"], ["--", "2"])
        want("standard output closed", [1], ["a.wasm"], unwritten)
        want("standard input and output closed", [0, 1], ["a.wasm", "-"], ["--", shut, "2"])
        want("standard input and output closed, and no input is read", [0, 1], ["a.wasm"], unwritten)
        want("standard error closed", [2], ["a.wasm"], ["a.wasm: valid", "--", "0"])
        want("standard error closed, a file gone", [2], ["a.wasm", "gone.wasm"], ["--", "2"])
        for words in (["a.wasm"], ["--json", "a.wasm"], ["--keep-going", "a.wasm"], ["--pieces=4", "a.wasm"], ["--needs", "a.wasm"], ["--help"]):
            differ += compare(f"a pipe that nobody reads, {words}", unread(program, words, room), ["2"])
        differ += compare("a full device", full(program, ["a.wasm"], room), ["wasm-check: cannot write", "2"])
        told = ["wasm-check: cannot write", '{"fault":"cannot write","hint":"no space left"}', "2"]
        differ += compare("a full device, as JSON", full(program, ["--json", "a.wasm"], room), told)
        # Three files hold the standard streams: if the system lets fewer be open beside these, another may be read in the place of `-`.
        differ += compare("streams that can be held", answered(program, ["-"], given=header, most_open=6), ["-: valid", "--", "0"])
        for words in (["-"], ["--keep-going", "-"], ["--quiet", "-"]):
            got = answered(program, words, given=header, most_open=5)
            differ += compare(f"streams that cannot be held, {words}", got, ["--", "wasm-check: /dev/null: cannot open", "2"])
        # A stream that is open to be written and not to be read is no input either; and what is written goes nowhere else.
        for closed, lines in (([], ["--", shut, "2"]), ([1], ["--", shut, "2"])):
            differ += compare("standard input that is written", written_input(program, closed, ["-", "a.wasm"], room), lines)
        differ += compare("standard input that is written, and no output", written_input(program, [1], ["a.wasm"], room), unwritten)
    return differ
