"""Files as the system gives them: standard input, more than may be open at once, and why one cannot be opened or read."""
import os
import resource
import subprocess
import tempfile
import time

from common import answered, compare


def reads_its_input(process):
    """Waits until the program reads standard input, if the system tells; else for two seconds."""
    for _ in range(200):
        try:
            with open(f"/proc/{process.pid}/syscall", encoding="ascii") as it:
                if it.read().startswith("0 0x0 "):
                    return
        except OSError:
            time.sleep(2)
            return
        time.sleep(0.01)


def lose_file(program, room, names, header, told="cannot open", most_open=None):
    """A file past those that are kept open goes while standard input is read: the lines before it stay."""
    before = (lambda: resource.setrlimit(resource.RLIMIT_NOFILE, (most_open, most_open))) if most_open else None
    with open(f"{room}/later.wasm", "wb") as it:
        it.write(header)
    streams = {"stdin": subprocess.PIPE, "stdout": subprocess.PIPE, "stderr": subprocess.PIPE}
    with subprocess.Popen([program, "run", "-", *names, "later.wasm"], cwd=room, preexec_fn=before, **streams) as process:
        reads_its_input(process)
        os.remove(f"{room}/later.wasm")
        out, err = process.communicate(header)
    got = [*out.decode().splitlines(), "--", *err.decode().splitlines(), str(process.returncode)]
    valid = [f"{name}: valid" for name in ["-", *names]]
    return compare("a file that goes", got, [*valid, "--", f"wasm-check: later.wasm: {told}", "2"])


def name_by_list(room, want):
    """Files that a list names: each name ends with the byte 0, which the last one may lack."""
    def listed(names):
        with open(f"{room}/names", "wb") as it:
            it.write(names)
        return ["--files0-from=names"]

    usage = ["", "For more information, try '--help'.", "2"]
    want("names in a list", listed(b"0.wasm\0001.wasm\000"), ["0.wasm: valid", "1.wasm: valid", "--", "0"], cwd=room)
    want("the last name without the byte 0", listed(b"1.wasm\0000.wasm"), ["1.wasm: valid", "0.wasm: valid", "--", "0"], cwd=room)
    want("names from standard input", ["--files0-from", "-"], ["2.wasm: valid", "--", "0"], given=b"2.wasm\000", cwd=room)
    given = "wasm-check: -: cannot open"
    want("a list that names the input that it comes from", ["--files0-from=-"], ["--", given, "2"], given=b"0.wasm\000-\0002.wasm", cwd=room)
    want("the same, as JSON", ["--json", "--keep-going", "--files0-from=-"],
         ["--", given, '{"fault":"cannot open","file":"-","hint":"the list comes from standard input"}', "2"], given=b"-", cwd=room)
    want("a file whose list names standard input", listed(b"-\0002.wasm"), ["-: valid", "2.wasm: valid", "--", "0"], given=b"\0asm\1\0\0\0", cwd=room)
    want("an empty list", listed(b""), ["--", "0"], cwd=room)
    want("the list for a file", listed(b"names"), ["names: invalid at 0x0: magic header not detected: bad magic number", "--", "1"], cwd=room)
    want("an empty name", listed(b"0.wasm\000\0001.wasm\000"), ["--", "wasm-check: : cannot open", "2"], cwd=room)
    want("an empty name, going on", ["--keep-going", *listed(b"0.wasm\000\0001.wasm\000")],
         ["0.wasm: valid", "1.wasm: valid", "--", "wasm-check: : cannot open", "2"], cwd=room)
    want("a name that is no UTF-8 in a list", ["--keep-going", *listed(b"\xe9\000-x.wasm\000")],
         ["--", "wasm-check: \\u{0}e9: cannot open", "wasm-check: -x.wasm: cannot open", "2"], cwd=room)
    many = "\0".join(f"{number}.wasm" for number in range(1100)).encode()
    want("1,100 names in a list", listed(many), [*(f"{number}.wasm: valid" for number in range(1100)), "--", "0"], cwd=room, most_open=64)
    want("a list that is gone", ["--files0-from=gone"], ["--", "wasm-check: gone: cannot open", "2"], cwd=room)
    want("a directory for a list", ["--files0-from=."], ["--", "wasm-check: .: cannot read", "2"], cwd=room)
    want("a list and a file", ["--files0-from=names", "0.wasm"],
         ["--", "error: the argument '[FILE]...' cannot be used with '--files0-from <FILE>'", *usage], cwd=room)
    want("no files", [], ["--", "error: FILE or --files0-from is required", *usage])


def run(program):
    """Files as the system gives them: standard input, more than may be open at once, and why one cannot be opened or read."""
    header, empty = bytes.fromhex("0061736d01000000"), "invalid at 0x0: unexpected end-of-file"
    differ = 0

    def want(what, words, lines, **given):
        nonlocal differ
        differ += compare(what, answered(program, words, **given), lines)

    want("standard input", ["-"], ["-: valid", "--", "0"], given=header)
    want("standard input, twice", ["-", "-"], ["-: valid", f"-: {empty}", "--", "1"], given=header)
    want("standard input, empty", ["-"], [f"-: {empty}", "--", "1"])
    with tempfile.TemporaryDirectory(prefix="tests-") as room:
        names = [f"{number}.wasm" for number in range(1100)]
        for name in names:
            with open(f"{room}/{name}", "wb") as it:
                it.write(header)
        valid = [f"{name}: valid" for name in names]
        want("1,100 files", names, [*valid, "--", "0"], cwd=room, most_open=1024)
        want("1,100 files, the last gone", [*names, "gone.wasm"], ["--", "wasm-check: gone.wasm: cannot open", "2"], cwd=room, most_open=1024)
        want("standard input behind 1,100 files", [*names, "-"], [*valid, "-: valid", "--", "0"], given=header, cwd=room, most_open=1024)
        want("70 files, of which 64 may be open", names[:70], [*valid[:70], "--", "0"], cwd=room, most_open=64)
        want("1,100 files, of which 12 may be open", [*names, "-"], [*valid, "-: valid", "--", "0"], given=header, cwd=room, most_open=12)
        want("70 files, the last gone, of which 64 may be open", [*names[:69], "gone.wasm"], ["--", "wasm-check: gone.wasm: cannot open", "2"],
             cwd=room, most_open=64)
        want("a directory", ["0.wasm", "."], ["0.wasm: valid", "--", "wasm-check: .: cannot read", "2"], cwd=room)
        want("a file as a directory", ["0.wasm/a"], ["--", "wasm-check: 0.wasm/a: cannot open", "2"], cwd=room)
        want("a long name", ["a" * 300], ["--", f"wasm-check: {'a' * 300}: cannot open", "2"], cwd=room)
        os.symlink("around", f"{room}/around")
        want("a link to itself", ["around"], ["--", "wasm-check: around: cannot open", "2"], cwd=room)
        with open(f"{room}/long.wasm", "wb") as it:
            it.truncate(2**30 + 1)
        name_by_list(room, want)
        differ += lose_file(program, room, names[:100], header)
        differ += lose_file(program, room, names[:70], header, told="cannot read", most_open=64)
        # The byte e9 is no UTF-8. A file with that name is there, and so is one whose name is what is written for it.
        for name in (b"caf\xe9.wasm", b"caf\\u{0}e9.wasm", b"cafe9.wasm"):
            with open(room.encode() + b"/" + name, "wb") as it:
                it.write(header)
        lost = "wasm-check: caf\\u{0}e9.wasm: cannot open"
        want("a name that is no UTF-8", ["0.wasm", b"caf\xe9.wasm", "1.wasm"], ["--", lost, "2"], cwd=room)
        want("a name that is no UTF-8, going on", ["--keep-going", "0.wasm", b"caf\xe9.wasm", "1.wasm"],
             ["0.wasm: valid", "1.wasm: valid", "--", lost, "2"], cwd=room)
        want("a name that is no UTF-8, as JSON", ["--json", b"caf\xe9.wasm"],
             ["--", lost, '{"fault":"cannot open","file":"caf\\u0000e9.wasm","hint":"a name has to be UTF-8"}', "2"], cwd=room)
        want("a name that is cut in a character", ["--keep-going", b"\xc3", "caf\u00e9.wasm"],
             ["--", "wasm-check: \\u{0}c3: cannot open", "wasm-check: caf\u00e9.wasm: cannot open", "2"], cwd=room)
        want("a list that is no UTF-8", [b"--features=\xff", "0.wasm"], ["--", "wasm-check: unknown feature `\\u{0}ff`", "2"], cwd=room)
        want("a file too long", ["0.wasm", "long.wasm"], ["0.wasm: valid", "--", "wasm-check: long.wasm: too long", "2"], cwd=room)
    return differ
