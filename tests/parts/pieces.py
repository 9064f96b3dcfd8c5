"""Worked modules in pieces, and what `--pieces` may be."""
import tempfile

from common import CHECK, answered, compare, kinds, words_of, worked_names


HEADER = bytes.fromhex("0061736d01000000")

# a module with a function, a body and a data segment
PARTS = [bytes.fromhex(text) for text in ("010401600000", "03020100", "0503010001", "0a040102000b", "0b08010041000b027879")]


def number(value):
    """A number in LEB128."""
    return bytes([value]) if value < 128 else bytes([value & 127 | 128]) + number(value >> 7)


def section(name, contents):
    """A custom section."""
    front = number(len(name)) + name
    return b"\0" + number(len(front) + len(contents)) + front + contents


def customs():
    """Modules with custom sections of many bytes between any two other sections, and such as are refused within one."""
    long = section(b"name", bytes(20_000))
    whole = HEADER + b"".join(part + long for part in [b"", *PARTS])
    yield "everywhere", whole
    yield "alone", HEADER + long
    yield "one after the other", HEADER + 3 * long
    for less in (1, 2, 19_999, 20_000, 20_001, 20_004, 20_005, 20_007, 20_008):
        yield f"{less} bytes less", whole[:-less]
    yield "one byte more", whole + b"\0"
    yield "a section out of order", HEADER + PARTS[1] + long + PARTS[0]
    yield "functions without bodies", HEADER + PARTS[0] + PARTS[1] + long
    yield "a name that is no UTF-8", HEADER + section(b"\xff" * 9, bytes(20_000))
    yield "a name that is too long", HEADER + section(b"a" * 100_001, bytes(20_000))
    yield "a name as long as may be", HEADER + section(b"a" * 100_000, bytes(20_000))
    yield "a name past its section", HEADER + b"\0" + number(2_000) + number(2_001) + b"a" * 2_000
    yield "no header", long
    yield "nearly a header", b"\0asm" + long


def compare_customs(program):
    """Each of these modules has in pieces the line that it has as a whole; and the contents of a custom section are not held."""
    differ = 0
    with tempfile.TemporaryDirectory(prefix="tests-") as room:
        for name, module in customs():
            with open(f"{room}/it.wasm", "wb") as it:
                it.write(module)
            wanted = answered(program, ["it.wasm"], cwd=room)
            for piece in (1, 7, 4096, 65536):
                differ += compare(f"custom sections, {name}, in pieces of {piece}", answered(program, [f"--pieces={piece}", "it.wasm"], cwd=room), wanted)
    held = HEADER + section(b"name", bytes(2**27))
    return differ + compare("contents that are not held", answered(program, ["--pieces=4096", "-"], given=held, most_bytes=2**26), ["-: valid", "--", "0"])


def run(program):
    """Each worked module in pieces of one byte and of 4,096: the verdicts are those of the whole. What `--pieces` may not be is refused."""
    differ = 0
    names = worked_names()
    wanted = kinds(words_of(f"{CHECK}/stdout"))[: len(names)]
    for piece in ("1", "4096"):
        got = answered(program, ["--pieces", piece, *names], cwd=f"{CHECK}/data")
        differ += compare(f"pieces of {piece}", kinds(got), [*wanted, "--", "1"])
    for piece in ("0", "1048577", "4k", ""):
        got = answered(program, [f"--pieces={piece}", "--features=nope", "gone.wasm"])
        differ += compare(f"pieces of {piece}", got, ["--", f"error: invalid value '{piece}' for '--pieces <N>': it is not in 1..=1048576", "", "For more information, try '--help'.", "2"])
    differ += compare("a directory in pieces", answered(program, ["--pieces=7", "/"]), ["--", "wasm-check: /: cannot read", "2"])
    # refused long before the end: the rest is not read
    header = bytes.fromhex("0061736d02000000")
    differ += compare("a long input in pieces", kinds(answered(program, ["--pieces=1048576", "-"], given=header + bytes(2**24))), ["-: invalid", "--", "1"])
    return differ + compare_customs(program)
