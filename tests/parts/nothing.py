"""Operators that name an index, in a module in which nothing is declared."""
from common import compare, told


def naming():
    """Each operator that names an index of the module, naming the first, with an opcode of one byte, of a prefix, or of atomic accesses."""
    one = "1000 110000 1200 130000 1400 1500 0200 0300 0400 0600 1f0000 0800 06400700 2300 2400 2500 2600 3f00 4000 1c016300 d000 d200"
    yield from one.split()
    yield from (f"{op:02x}0000" for op in range(0x28, 0x3F))
    yield from (f"fc{op}" for op in "080000 0900 0a0000 0b00 0c0000 0d00 0e0000 0f00 1000 1100 1200".split())
    alone, with_another = [0x00, 0x01, *range(0x06, 0x08), *range(0x0B, 0x0F), 0x10, *range(0x14, 0x18)], [*range(0x02, 0x06), *range(0x08, 0x0B), *range(0x11, 0x14)]
    described = [*range(0x20, 0x25)]
    yield from (f"fb{op:02x}00" for op in alone + described)
    yield from (f"fb{op:02x}0000" for op in with_another)
    yield from (f"fb{op:02x}00000000" for op in (0x18, 0x19, 0x25, 0x26))
    yield from (f"fe{op:02x}0{align}00" for op, align in zip([0, 1, 2, *range(0x10, 0x4F)], [2, 2, 3] + 9 * [2, 3, 0, 1, 0, 1, 2]))
    yield from (f"fe{op:02x}0000" for op in [*range(0x4F, 0x5C), *range(0x67, 0x72)])
    yield from (f"fe{op:02x}000000" for op in range(0x5C, 0x67))
    yield from "e000 e10000 e200 e30000 e4000000 e50000 e60000".split()
    yield from (f"fd{op:02x}0000" for op in [*range(0x00, 0x0C), 0x5C, 0x5D])
    yield from (f"fd{op:02x}000000" for op in range(0x54, 0x5C))


def run(program):
    """Each of them behind `unreachable` in a module in which nothing is declared: it is refused as invalid."""
    ops = list(naming())
    lines = told(program, "methods", [f"body all+vectors 00{op}0b" for op in ops])
    kinds = [f"{op}: kind {line.rpartition(', kind ')[2].split(',')[0]}" for op, line in zip(ops, lines[1::2], strict=True)]
    return compare("nothing declared", kinds, [f"{op}: kind 5" for op in ops])
