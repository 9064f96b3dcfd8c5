#!/usr/bin/env python3
"""A second reading of a module's types, which shares nothing with the library: writes of each file what tests/library/types.c does. The files are
accepted ones. It numbers types by a canonical form of recursion groups of its own.

usage: typed.py FILE..
"""
import os
import sys

HEAPS = {0x70: "func", 0x6f: "extern", 0x6e: "any", 0x71: "none", 0x72: "noextern", 0x73: "nofunc", 0x6d: "eq", 0x6b: "struct", 0x6a: "array",
         0x6c: "i31", 0x69: "exn", 0x74: "noexn", 0x68: "cont", 0x75: "nocont"}
NUMBERS = {0x7f: "i32", 0x7e: "i64", 0x7d: "f32", 0x7c: "f64", 0x7b: "v128"}


class Reader:
    def __init__(self, data, at=0):
        self.data, self.at = data, at

    def byte(self):
        self.at += 1
        return self.data[self.at - 1]

    def u(self):
        value = shift = 0
        while True:
            b = self.byte()
            value |= (b & 127) << shift
            shift += 7
            if b < 128:
                return value

    def s(self):
        value = shift = 0
        while True:
            b = self.byte()
            value |= (b & 127) << shift
            shift += 7
            if b < 128:
                return value - (1 << shift) if b & 64 else value

    def name(self):
        n = self.u()
        self.at += n
        return bytes(self.data[self.at - n:self.at])


def heap(r):
    if r.data[r.at] == 0x65:
        r.byte()
        return ("shared", HEAPS[r.byte()])
    if r.data[r.at] == 0x62:
        r.byte()
        return ("exact", r.u())
    if r.data[r.at] & 0xc0 == 0x40 and r.data[r.at] in HEAPS:
        return ("abstract", HEAPS[r.byte()])
    return ("type", r.s())


def val(r):
    b = r.byte()
    if b in NUMBERS:
        return NUMBERS[b]
    if b in (0x63, 0x64):
        return (b == 0x63, heap(r))
    if b == 0x65:
        return (True, ("shared", HEAPS[r.byte()]))
    return (True, ("abstract", HEAPS[b]))


def field(r):
    b = r.data[r.at]
    if b in (0x78, 0x77):
        r.byte()
        ty = "i8" if b == 0x78 else "i16"
    else:
        ty = val(r)
    return (r.byte() & 1, ty)


def comp(r):
    shared = describes = descriptor = None
    b = r.byte()
    if b == 0x65:
        shared, b = True, r.byte()
    if b == 0x4c:
        describes, b = r.u(), r.byte()
    if b == 0x4d:
        descriptor, b = r.u(), r.byte()
    if b == 0x60:
        inner = ("func", [val(r) for _ in range(r.u())], [val(r) for _ in range(r.u())])
    elif b == 0x5f:
        inner = ("struct", [field(r) for _ in range(r.u())])
    elif b == 0x5e:
        inner = ("array", [field(r)])
    elif b == 0x5d:
        inner = ("cont", r.s())
    else:
        raise ValueError(f"composite {b:#x}")
    return (bool(shared), describes, descriptor, inner)


def sub(r):
    b = r.data[r.at]
    if b in (0x50, 0x4f):
        r.byte()
        above = [r.u() for _ in range(r.u())]
        return (b == 0x4f, above[0] if above else None, comp(r))
    return (True, None, comp(r))


class Module:
    def __init__(self, data):
        self.ids, self.types, self.known = [], [], {}
        self.spaces = [[], [], [], [], []]
        self.imports, self.exports, self.start = [], [], None
        r = Reader(data, 8)
        while r.at < len(data):
            ident, size = r.byte(), r.u()
            end = r.at + size
            getattr(self, f"section{ident}", lambda r: None)(Reader(data, r.at))
            r.at = end

    # an index of the module, seen from a group that begins at `first`: inside it by its place, else by its id
    def named(self, x, first):
        return ("own", x - first) if x >= first else ("id", self.ids[x])

    def re_val(self, t, f):
        if isinstance(t, str):
            return t
        null, (kind, x) = t
        return (null, (kind, f(x) if kind in ("type", "exact") else x))

    def re_sub(self, t, f):
        final, above, (shared, describes, descriptor, inner) = t
        opt = lambda x: None if x is None else f(x)
        if inner[0] == "func":
            inner = ("func", tuple(self.re_val(v, f) for v in inner[1]), tuple(self.re_val(v, f) for v in inner[2]))
        elif inner[0] == "cont":
            inner = ("cont", f(inner[1]))
        else:
            inner = (inner[0], tuple((m, self.re_val(v, f)) for m, v in inner[1]))
        return (final, opt(above), (shared, opt(describes), opt(descriptor), inner))

    def section1(self, r):
        for _ in range(r.u()):
            if r.data[r.at] == 0x4e:
                r.byte()
                group = [sub(r) for _ in range(r.u())]
            else:
                group = [sub(r)]
            first = len(self.ids)
            key = tuple(self.re_sub(t, lambda x: self.named(x, first)) for t in group)
            if key not in self.known:
                at = len(self.types)
                self.known[key] = at
                for t in key:
                    self.types.append((at, len(key), self.re_sub(t, lambda n: at + n[1] if n[0] == "own" else n[1])))
            at = self.known[key]
            self.ids += range(at, at + len(group))

    def ids_in(self, t):
        return self.re_val(t, lambda x: self.ids[x])

    def limits(self, r, page):
        flags = r.byte()
        out = f"min {r.u()}"
        if flags & 1:
            out += f" max {r.u()}"
        if flags & 2:
            out += " shared"
        if flags & 4:
            out += " 64"
        if page and flags & 8:
            out += f" page {r.u()}"
        return out

    def table(self, r):
        ty = val(r)
        return f"{show(self.ids_in(ty))} {self.limits(r, False)}"

    def glob(self, r):
        ty = self.ids_in(val(r))
        flags = r.byte()
        return ("mut " if flags & 1 else "") + ("shared " if flags & 2 else "") + show(ty)

    def external(self, r):
        kind = r.byte()
        if kind in (0, 0x20):
            # only an exact import under custom descriptors is told as exact
            return 0, f"#{self.ids[r.u()]}" + (" exact" if kind else "")
        if kind == 1:
            return 1, self.table(r)
        if kind == 2:
            return 2, self.limits(r, True)
        if kind == 3:
            return 3, self.glob(r)
        r.byte()
        return 4, f"#{self.ids[r.u()]}"

    def add_import(self, module, name, kind, ty):
        self.imports.append((module, name, kind, len(self.spaces[kind])))
        self.spaces[kind].append(ty)

    def section2(self, r):
        n = r.u()
        while n > 0:
            module, name = r.name(), r.name()
            if r.data[r.at] in (0x7e, 0x7f) and not name:
                raise ValueError("compact imports")
            self.add_import(module, name, *self.external(r))
            n -= 1

    def section3(self, r):
        for _ in range(r.u()):
            self.spaces[0].append(f"#{self.ids[r.u()]} exact")

    def section4(self, r):
        for _ in range(r.u()):
            init = r.data[r.at] == 0x40
            if init:
                r.byte(), r.byte()
            self.spaces[1].append(self.table(r))
            if init:
                skip(r)

    def section5(self, r):
        for _ in range(r.u()):
            self.spaces[2].append(self.limits(r, True))

    def section13(self, r):
        for _ in range(r.u()):
            r.byte()
            self.spaces[4].append(f"#{self.ids[r.u()]}")

    def section6(self, r):
        for _ in range(r.u()):
            self.spaces[3].append(self.glob(r))
            skip(r)

    def section7(self, r):
        for _ in range(r.u()):
            name, kind = r.name(), r.byte()
            self.exports.append((name, 0 if kind == 0x20 else kind, r.u()))

    def section8(self, r):
        self.start = r.u()


def skip(r):
    """A constant expression."""
    while True:
        b = r.byte()
        if b == 0x0b:
            return
        if b in (0x41, 0x42):
            r.s()
        elif b == 0x43:
            r.at += 4
        elif b == 0x44:
            r.at += 8
        elif b in (0x23, 0xd2):
            r.u()
        elif b == 0xd0:
            heap(r)
        elif b in (0x6a, 0x6b, 0x6c, 0x7c, 0x7d, 0x7e):
            pass
        elif b == 0xfb:
            o = r.u()
            if o in (0, 1, 6, 7, 32, 33):
                r.u()
            elif o == 8:
                r.u(), r.u()
            elif o in (26, 27, 28):
                pass
            else:
                raise ValueError(f"constant fb {o}")
        elif b == 0xfd:
            if r.u() != 12:
                raise ValueError("constant fd")
            r.at += 16
        else:
            raise ValueError(f"constant {b:#x}")


def show(t):
    if isinstance(t, str):
        return t
    null, (kind, x) = t
    words = ("null " if null else "") + ("exact " if kind == "exact" else "") + ("shared " if kind == "shared" else "")
    return f"(ref {words}{'#' + str(x) if kind in ('type', 'exact') else x})"


NAMES = ["func", "table", "memory", "global", "tag"]


def lines(data):
    m = Module(data)
    out = []
    for i, (first, count, (final, above, (shared, describes, descriptor, inner))) in enumerate(m.types):
        s = f"id {i}: group {first}+{count}" + (" final" if final else "") + (" shared" if shared else "")
        for word, x in (("sub", above), ("describes", describes), ("descriptor", descriptor)):
            if x is not None:
                s += f" {word} #{x}"
        if inner[0] == "func":
            s += f" func ({' '.join(map(show, inner[1]))}) -> ({' '.join(map(show, inner[2]))})"
        elif inner[0] == "cont":
            s += f" cont #{inner[1]}"
        else:
            s += f" {inner[0]} ({', '.join(('mut ' if x else '') + show(v) for x, v in inner[1])})"
        out.append(s.encode())
    out += [f"type {i}: #{x}".encode() for i, x in enumerate(m.ids)]
    for k in range(5):
        out += [f"{NAMES[k]} {i}: {x}".encode() for i, x in enumerate(m.spaces[k])]
    for module, name, kind, index in m.imports:
        out.append(b"import " + module + b" " + name + f" {NAMES[kind]} {index}: {m.spaces[kind][index]}".encode())
    for name, kind, index in m.exports:
        out.append(b"export " + name + f" {NAMES[kind]} {index}: {m.spaces[kind][index]}".encode())
    if m.start is not None:
        out.append(f"start {m.start}".encode())
    return out


def main():
    for name in sys.argv[1:]:
        with open(name, "rb") as it:
            data = it.read()
        sys.stdout.buffer.write(b"\n".join([b"== " + os.fsencode(name), *lines(data)]) + b"\n")


if __name__ == "__main__":
    main()
