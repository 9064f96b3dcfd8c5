"""Lists of many types, and types of many levels."""
from common import compare, told

# How many types are interned where chunks of 512 ids are cut more than once, and where the first is.
MANY, SOME = 1300, 530


def different_types(count):
    """The contents of a type section: different functions of six numbers, none beside the one that is next in their order."""
    scattered = [577 * i % 4096 for i in range(count)]
    values = lambda n: bytes(0x7C + (n >> 2 * place & 3) for place in range(6))
    size = bytes([count & 0x7F | 0x80, count >> 7])
    return (size + b"".join(b"\x60\x06" + values(n) + b"\x00" for n in scattered)).hex()


def leb(number):
    """A number below 2^14 by LEB128."""
    return bytes([number]) if number < 0x80 else bytes([number & 0x7F | 0x80, number >> 7])


def chain(count):
    """Struct types, each declared below the one before it."""
    return [b"\x50\x00\x5f\x00"] + [b"\x50\x01" + leb(above) + b"\x5f\x00" for above in range(count - 1)]


def intern_many(program):
    """Many types in two modules that share a list: each has the next id, and the same one in the second."""
    section = different_types(MANY)
    line, ids = f"types WASM3 {section} {section}", " ".join(map(str, range(MANY)))
    return compare("many types", told(program, "types", [line]), [f"{line} -> {ids} -> {ids}; {MANY} types in {MANY} groups, more: true"])


def intern_deep(program):
    """Types below one another under the greatest limit of depth: as many as it allows, and one more."""
    most = 254
    types = chain(most + 2)
    section = lambda some: (leb(len(some)) + b"".join(some)).hex()
    fits, deep = (f"deepest WASM3 {section(some)}" for some in (types[:-1], types))
    ids, place = " ".join(map(str, range(most + 1))), len(section(types)) // 2 - len(types[-1])
    return compare("deep types", told(program, "types", [fits, deep]), [
        f"{fits} -> {ids}; {most + 1} types in {most + 1} groups, more: true",
        f"{deep} -> sub type hierarchy too deep: found depth {most + 1}, cannot exceed depth {most} (at offset {place:#x}), kind 5, lacks 0x0",
    ])


def run(program):
    return intern_many(program) + intern_deep(program)
