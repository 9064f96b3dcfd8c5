"""What valid modules import and export, as tests/library/entries.c tells it: read by the format alone, and not by the library.

usage: entries.py FILE.. ; entries.py --make FILE
With --make it writes a valid module of several hundred entries of each kind, with long names, and numbers that are longer than they need be.
"""
import sys


class Reader:
    def __init__(self, data):
        self.data, self.at = data, 0

    def byte(self):
        self.at += 1
        return self.data[self.at - 1]

    def number(self):
        value = shift = 0
        while True:
            byte = self.byte()
            value |= (byte & 0x7F) << shift
            shift += 7
            if byte < 0x80:
                return value

    def name(self):
        length = self.number()
        self.at += length
        return self.data[self.at - length : self.at]

    def heap_type(self):
        """A number with a sign, or a word of one byte, behind prefixes for shared and exact."""
        if self.data[self.at] in (0x62, 0x65):
            self.byte()
        self.number()

    def value_type(self):
        code = self.byte()
        if code in (0x63, 0x64):
            self.heap_type()
        elif code == 0x65:
            self.byte()

    def limits(self):
        flags = self.byte()
        self.number()
        if flags & 1:
            self.number()
        if flags & 8:
            self.number()

    def external(self):
        """The kind, behind what it asks for."""
        kind = self.byte()
        if kind in (0x00, 0x20):
            self.number()
        elif kind == 1:
            self.value_type()
            self.limits()
        elif kind == 2:
            self.limits()
        elif kind == 3:
            self.value_type()
            self.byte()
        else:
            self.byte()
            self.number()
        return 0 if kind == 0x20 else kind


def sections(data):
    reader, found = Reader(data), {}
    reader.at = 8
    while reader.at < len(data):
        number = reader.byte()
        content = reader.name()
        if number:
            found[number] = content
    return found


def entries(data):
    """The imports and the exports of a module, in their order."""
    found, imports, exports, taken = sections(data), [], [], [0] * 5
    reader = Reader(found.get(2, b"\0"))
    for _ in range(reader.number()):
        module, name, kind = reader.name(), reader.name(), reader.external()
        imports.append((module, name, kind, taken[kind]))
        taken[kind] += 1
    reader = Reader(found.get(7, b"\0"))
    for _ in range(reader.number()):
        name, kind = reader.name(), reader.byte()
        exports.append((name, 0 if kind == 0x20 else kind, reader.number()))
    return imports, exports


def lines(imports, exports):
    for module, name, kind, index in imports:
        yield f"import {module.hex() or '-'} {name.hex() or '-'} {kind} {index}"
    for name, kind, index in exports:
        yield f"export {name.hex() or '-'} {kind} {index}"


def number(value, width=0):
    """LEB128, of at least so many bytes."""
    out = bytearray()
    while value > 0x7F or len(out) + 1 < width:
        out.append(value & 0x7F | 0x80)
        value >>= 7
    return bytes(out) + bytes([value])


def made():
    """A module that imports all kinds in turn, and exports each of its imports."""
    what = [b"\0" + number(0, 3), b"\1\x63\x70\1" + number(1, 4) + number(900), b"\2\1" + number(1, 2) + number(2), b"\3\x7e\0", b"\4\0" + number(0, 2)]
    imports, exports = [], []
    for i in range(500):
        kind = (0, 3, 1, 0, 3, 2, 0, 3, 4, 0)[i % 10]
        module, name = b"m" * (i * 7 % 400), "ü".encode() * (i % 200) + str(i).encode()
        imports.append(number(len(module), 1 + i % 5) + module + number(len(name), 1 + i % 3) + name + what[kind])
    for i in range(300):
        name = b"e" * (i * 3 % 290) + str(i).encode()
        exports.append(number(len(name), 1 + i % 4) + name + bytes([i % 3]) + number(i % 50, 1 + i % 5))
    listed = lambda items: number(len(items), 2) + b"".join(items)
    parts = [(0, b"\1x"), (1, b"\1\x60\0\0"), (2, listed(imports)), (0, b"\0" * 200), (7, listed(exports))]
    return b"\0asm\1\0\0\0" + b"".join(bytes([i]) + number(len(part), 5) + part for i, part in parts)


if sys.argv[1:2] == ["--make"]:
    with open(sys.argv[2], "wb") as it:
        it.write(made())
elif __name__ == "__main__":
    for path in sys.argv[1:]:
        with open(path, "rb") as it:
            for line in lines(*entries(it.read())):
                print(line)
