"""A whole module that is drawn, perhaps with one fault (WebAssembly 3.0, binary format, modules).

An old module keeps to WebAssembly 2.0, vectors, atomic accesses and tail calls, which every engine knows. A new one has what 3.0 adds:
structures, arrays, casts, typed references, exceptions, several memories, and 64-bit memories and tables.
"""
import random

from bodies import Body, CONSTANTS, END
from drawing import Drawing
from encoding import function_type, heap, limits, listed, name, section, signed, unsigned, value
from types_of import Types

HEADER = b"\0asm\1\0\0\0"
ONE_VALUE = {"i32": b"\x41\x05", "i64": b"\x42\x05"}


class Module:
    """What a module declares, as far as bodies need it."""

    def __init__(self, drawing, is_new):
        self.d, self.is_new = drawing, is_new
        self.t = Types(drawing, is_new)
        d, kinds = drawing, self.t.of_kind("func")
        self.imported = [d.one(kinds) for _ in range(d.below(3))]
        self.own = [d.one(kinds) for _ in range(4 + d.below(14))]  # four bodies and more, so that fast ways are met
        self.functions = self.imported + self.own
        self.declared = list(range(0, len(self.functions), 2))
        self.memories = [self.address() for _ in range(d.one([0, 1, 1, 1, 2, 3]) if is_new else d.one([0, 1, 1, 1]))]
        references = [(True, "func"), (True, "extern")] + ([(True, "any"), *((True, x) for x in kinds)] if is_new else [])
        self.tables = [(d.one(references), self.address()) for _ in range(d.below(4))]
        self.tags = [d.one(fits) for _ in range(d.below(3))] if is_new and (fits := [x for x in kinds if not self.t.types[x].results]) else []
        self.globals = [(self.global_type(), d.is_so(0.6)) for _ in range(d.below(7))]
        self.elements = [d.one([(True, "func"), (False, "func") if is_new else (True, "func")]) for _ in range(d.below(4))]
        self.data = d.below(4)

    def address(self):
        return "i64" if self.is_new and self.d.is_so(0.3) else "i32"

    def global_type(self):
        t = self.t.value([it.kind for it in self.t.types])
        return t if isinstance(t, str) or t[0] else (True, t[1])

    # ---- sections

    def types(self):
        at, groups = 0, []
        for many in self.t.groups:
            parts = [self.subtype(it) for it in self.t.types[at:at + many]]
            groups.append(parts[0] if many == 1 and self.d.is_so(0.8) or not self.is_new else b"\x4e" + listed(parts))
            at += many
        return listed(groups)

    def subtype(self, it):
        if it.kind == "func":
            text = function_type(it.params, it.results)
        else:
            fields = [value(s) + bytes([mutable]) for s, mutable in it.fields]
            text = b"\x5f" + listed(fields) if it.kind == "struct" else b"\x5e" + fields[0]
        if it.is_final and it.above is None:
            return text
        above = [] if it.above is None else [unsigned(it.above)]
        return (b"\x4f" if it.is_final else b"\x50") + listed(above) + text if self.is_new else text

    def imports(self):
        return listed(name("m") + name(f"f{i}") + b"\0" + unsigned(self.d.at(x, len(self.t.types), "type")) for i, x in enumerate(self.imported))

    def limits_of(self, address):
        least = self.d.below(3)
        most = None if self.d.is_so(0.5) else least + self.d.below(3)
        if most is not None and self.d.is_wrong("a maximum below the minimum"):
            least, most = most + 1, most
        return limits(least, most, address == "i64")

    def memory_section(self):
        text = [self.limits_of(it) for it in self.memories]
        if not self.is_new and text and self.d.is_so(0.2):
            text[0] = limits(1, 2, is_shared=True)
        return listed(text)

    def constant(self, t, known):
        """A constant expression for a value of a type."""
        d = self.d
        if d.is_wrong("a constant of another type"):
            t = "f32" if t != "f32" else "i32"
        if d.is_wrong("what is no constant"):
            return b"\x41\x00\x45\x1a" + self.constant(t, known)
        fits = [i for i, (s, mutable) in enumerate(self.globals[:known]) if self.t.is_below(s, t) and not mutable]
        if self.is_new and fits and d.is_so(0.4):
            return b"\x23" + unsigned(d.at(d.one(fits), len(self.globals), "global")) + END
        if isinstance(t, str):
            if t in ("i32", "i64") and self.is_new and d.is_so(0.3):
                return CONSTANTS[t] * 2 + (b"\x6a" if t == "i32" else b"\x7c") + END
            return CONSTANTS[t] + END
        funcs = [i for i in self.declared if self.t.is_heap_below(self.functions[i] if self.is_new else "func", t[1])]
        if funcs and (d.is_so(0.5) or not t[0]):
            return b"\xd2" + unsigned(d.at(d.one(funcs), len(self.functions), "function")) + END
        objects = [x for x in self.t.of_kind("struct", "array") if self.t.is_heap_below(x, t[1])
                   and all(isinstance(s, str) or s[0] for s, _ in self.t.types[x].fields)]
        if objects and d.is_so(0.5):
            x = d.one(objects)
            return (b"\xfb\x01" if self.t.types[x].kind == "struct" else b"\x41\x03\xfb\x07") + unsigned(x) + END
        return b"\xd0" + heap(t[1]) + END

    def global_section(self):
        return listed(value(t) + bytes([mutable]) + self.constant(t, i) for i, (t, mutable) in enumerate(self.globals))

    def exports(self):
        d, found = self.d, []
        for kind, many in ((0, len(self.functions)), (1, len(self.tables)), (2, len(self.memories)), (3, len(self.globals)), (4, len(self.tags))):
            found += [bytes([kind]) + unsigned(d.index(many, "item to export")) for _ in range(d.below(3)) if many]
        found += [b"\0" + unsigned(i) for i in self.declared]
        names = [name(f"e{i}") for i in range(len(found))]
        if len(names) > 1 and d.is_wrong("two exports of one name"):
            names[1] = names[0]
        return listed(n + it for n, it in zip(names, found))

    def element_section(self):
        d, out = self.d, []
        for t in self.elements:
            fits = [i for i, (s, _) in enumerate(self.tables) if self.t.is_below(t, s)]
            if d.is_wrong("a table that a segment does not fit"):
                fits = [i for i, (s, _) in enumerate(self.tables) if not self.t.is_below(t, s)]
            items = [d.one(self.declared) for _ in range(d.below(4))]
            expressions = listed(b"\xd2" + unsigned(d.at(i, len(self.functions), "function")) + END for i in items)
            way = d.below(3) if fits else d.one([1, 2])
            mode = {0: 6, 1: 5, 2: 7}[way]
            place = b""
            if way == 0:
                y = d.one(fits)
                place = unsigned(y) + self.constant(self.tables[y][1], 0)
            out.append(bytes([mode]) + place + value(t) + expressions)
        return listed(out)

    def data_section(self):
        out = []
        for _ in range(self.data):
            if self.memories and self.d.is_so(0.5):
                x = self.d.below(len(self.memories))
                out.append((b"\0" if x == 0 else b"\2" + unsigned(x)) + self.constant(self.memories[x], 0) + listed([b"a"] * 3))
            else:
                out.append(b"\1" + listed([b"b"] * 4))
        return listed(out)

    def bodies(self):
        return [Body(self, self.t.types[x].params, self.t.types[x].results).whole() for x in self.own]

    def whole(self):
        d = self.d
        starts = [i for i, x in enumerate(self.functions) if not self.t.types[x].params and not self.t.types[x].results]
        if d.is_wrong("a start function with a type"):
            starts = [i for i, x in enumerate(self.functions) if self.t.types[x].params or self.t.types[x].results]
        own = self.own[1:] if d.is_wrong("a body too many") else self.own
        count = self.data + 1 if d.is_wrong("another count of data segments") else self.data
        sections = [(1, self.types()), (2, self.imports()), (3, listed(unsigned(d.at(x, len(self.t.types), "type")) for x in own)),
                    (4, listed(value(t) + self.limits_of(i) for t, i in self.tables)), (5, self.memory_section()),
                    (13, listed(b"\0" + unsigned(d.at(x, len(self.t.types), "type")) for x in self.tags)), (6, self.global_section()),
                    (7, self.exports())]
        if starts and d.is_so(0.3):
            sections.append((8, unsigned(d.one(starts))))
        sections += [(9, self.element_section()), (12, unsigned(count)), (10, listed(self.bodies())), (11, self.data_section())]
        sections = [it for it in sections if it[0] in (1, 3, 10) or it[1] != b"\0" or (it[0] == 12 and self.data)]
        if d.is_wrong("sections in another order"):
            i = d.below(len(sections) - 1)
            sections[i], sections[i + 1] = sections[i + 1], sections[i]
        if d.is_wrong("no count of data segments"):
            sections = [it for it in sections if it[0] != 12]
        return HEADER + b"".join(section(*it) for it in sections)


def drawn(seed, only_old=False):
    """A module by its number: whether it is new, what its fault is (nothing in half of them), and its bytes."""
    rng = random.Random(f"which {seed}")
    is_new, way = rng.random() < 0.6 and not only_old, rng.random()
    wanted = rng.random()
    right = Drawing(seed)
    whole = Module(right, is_new).whole()
    if way < 0.5:
        return is_new, None, whole
    if way < 0.85:
        wrong = Drawing(seed, int(wanted * right.places))
        whole = Module(wrong, is_new).whole()
        return is_new, wrong.made, whole
    at = 8 + int(wanted * (len(whole) - 8))
    return is_new, "a byte turned", whole[:at] + bytes([whole[at] ^ rng.choice([1, 2, 4, 8, 16, 32, 64, 128])]) + whole[at + 1:]
