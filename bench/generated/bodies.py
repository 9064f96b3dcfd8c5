"""Bodies that are drawn: each expression is made for a type, so what is drawn is valid except at the one place of the fault."""
from encoding import heap, listed, signed, sized, unsigned, value
from types_of import BOTTOM, unpacked

# operators on numbers: the first code, what they take and give, and how many follow one another
NUMERIC = [(0x45, ["i32"], "i32", 1), (0x46, ["i32"] * 2, "i32", 10), (0x50, ["i64"], "i32", 1), (0x51, ["i64"] * 2, "i32", 10),
           (0x5B, ["f32"] * 2, "i32", 6), (0x61, ["f64"] * 2, "i32", 6), (0x67, ["i32"], "i32", 3), (0x6A, ["i32"] * 2, "i32", 15),
           (0x79, ["i64"], "i64", 3), (0x7C, ["i64"] * 2, "i64", 15), (0x8B, ["f32"], "f32", 7), (0x92, ["f32"] * 2, "f32", 7),
           (0x99, ["f64"], "f64", 7), (0xA0, ["f64"] * 2, "f64", 7), (0xA7, ["i64"], "i32", 1), (0xA8, ["f32"], "i32", 2),
           (0xAA, ["f64"], "i32", 2), (0xAC, ["i32"], "i64", 2), (0xAE, ["f32"], "i64", 2), (0xB0, ["f64"], "i64", 2),
           (0xB2, ["i32"], "f32", 2), (0xB4, ["i64"], "f32", 2), (0xB6, ["f64"], "f32", 1), (0xB7, ["i32"], "f64", 2),
           (0xB9, ["i64"], "f64", 2), (0xBB, ["f32"], "f64", 1), (0xBC, ["f32"], "i32", 1), (0xBD, ["f64"], "i64", 1),
           (0xBE, ["i32"], "f32", 1), (0xBF, ["i64"], "f64", 1), (0xC0, ["i32"], "i32", 2), (0xC2, ["i64"], "i64", 3)]
# .. on vectors, behind fd
VECTOR = [(0x0E, ["v128"] * 2, "v128", 1), (0x0F, ["i32"], "v128", 3), (0x12, ["i64"], "v128", 1), (0x13, ["f32"], "v128", 1),
          (0x14, ["f64"], "v128", 1), (0x23, ["v128"] * 2, "v128", 42), (0x4D, ["v128"], "v128", 1), (0x4E, ["v128"] * 2, "v128", 4),
          (0x52, ["v128"] * 3, "v128", 1), (0x53, ["v128"], "i32", 1), (0x60, ["v128"], "v128", 3), (0x63, ["v128"], "i32", 2),
          (0x6B, ["v128", "i32"], "v128", 3), (0x6E, ["v128"] * 2, "v128", 6), (0x8B, ["v128", "i32"], "v128", 3),
          (0x8E, ["v128"] * 2, "v128", 6), (0xC3, ["v128"], "i32", 2), (0xD5, ["v128"] * 2, "v128", 1), (0xDC, ["v128"] * 2, "v128", 4),
          (0xE3, ["v128"], "v128", 1), (0xE4, ["v128"] * 2, "v128", 8), (0xEF, ["v128"], "v128", 1), (0xF0, ["v128"] * 2, "v128", 8),
          (0xF8, ["v128"], "v128", 8)]
# codes of loads and stores, the type of the value, and the logarithm of the bytes
LOADS = [(0x28, "i32", 2), (0x29, "i64", 3), (0x2A, "f32", 2), (0x2B, "f64", 3), (0x2C, "i32", 0), (0x2D, "i32", 0), (0x2E, "i32", 1),
         (0x2F, "i32", 1), (0x30, "i64", 0), (0x31, "i64", 0), (0x32, "i64", 1), (0x33, "i64", 1), (0x34, "i64", 2), (0x35, "i64", 2)]
STORES = [(0x36, "i32", 2), (0x37, "i64", 3), (0x38, "f32", 2), (0x39, "f64", 3), (0x3A, "i32", 0), (0x3B, "i32", 1), (0x3C, "i64", 0),
          (0x3D, "i64", 1), (0x3E, "i64", 2)]
# atomic operators come in sevens of these
SEVENS = [("i32", 2), ("i64", 3), ("i32", 0), ("i32", 1), ("i64", 0), ("i64", 1), ("i64", 2)]
CONSTANTS = {"i32": b"\x41\x07", "i64": b"\x42\x09", "f32": b"\x43\0\0\x80\x3f", "f64": b"\x44\0\0\0\0\0\0\xf0\x3f",
             "v128": b"\xfd\x0c" + bytes(range(16))}
DROP, END, UNREACHABLE = b"\x1a", b"\x0b", b"\x00"


class Body:
    """A function's body that is being drawn: its locals, which of them are set, and the types of the labels around."""

    def __init__(self, module, params, results):
        self.m, self.d, self.t = module, module.d, module.t
        self.results, self.left = results, 8 + self.d.below(60)
        self.own = [self.t.value([it.kind for it in self.t.types]) for _ in range(self.d.below(6))]
        self.locals = list(params) + self.own
        self.set = set(range(len(params))) | {i for i, t in enumerate(self.locals) if isinstance(t, str) or t[0]}
        self.labels = [results]

    def whole(self):
        """The entry of the code section."""
        text = self.sequence(self.results)
        groups = [b"\x01" + value(t) for t in self.own]
        return sized(listed(groups) + text + END)

    # ---- what is around

    def sequence(self, results):
        """Statements, and then values of these types; or code that ends before, and perhaps code that is never reached."""
        text = b"".join(self.statement() for _ in range(self.d.below(5)))
        if self.d.is_so(0.1):
            return text + self.leave() + self.dead(results)
        text += b"".join(self.value(t) for t in results)
        if self.d.is_wrong("a value too many"):
            text += self.constant()
        if results and self.d.is_wrong("a value too few"):
            text += DROP
        return text

    def constant(self):
        return CONSTANTS[self.d.one(self.t.numbers)]

    def leave(self):
        """What code ends with: a branch, a return, a throw, a tail call, or `unreachable`."""
        ways = [lambda: UNREACHABLE, lambda: self.branch(), lambda: self.values(self.results) + b"\x0f", lambda: self.table_of_labels()]
        if self.m.is_new and self.m.tags:
            ways.append(self.throw)
        same = [i for i, f in enumerate(self.m.functions) if self.t.types[f].results == self.results]
        if same:
            ways.append(lambda: self.tail_call(self.d.one(same)))
        return self.d.one(ways)()

    def dead(self, results):
        """Code that is never reached: operators without their operands, each dropped; then some of the values."""
        text = b""
        for _ in range(self.d.below(3)):
            text += self.operator(*self.d.one(NUMERIC)) + DROP
        first = self.d.below(len(results) + 1)
        return text + (b"" if self.d.is_so(0.5) else self.values(results[first:]))

    def table_of_labels(self):
        depth = self.d.below(len(self.labels))
        types = self.labels[-1 - depth]
        alike = [i for i in range(len(self.labels)) if self.labels[-1 - i] == types]
        targets = [unsigned(self.d.at(self.d.one(alike), len(self.labels), "label")) for _ in range(self.d.below(4))]
        return self.values(types) + self.value("i32") + b"\x0e" + listed(targets) + unsigned(depth)

    def branch(self):
        depth = self.d.below(len(self.labels))
        return self.values(self.labels[-1 - depth]) + b"\x0c" + unsigned(self.d.at(depth, len(self.labels), "label"))

    def throw(self):
        x = self.d.below(len(self.m.tags))
        return self.values(self.t.types[self.m.tags[x]].params) + b"\x08" + unsigned(self.d.at(x, len(self.m.tags), "tag"))

    def tail_call(self, x):
        kind = self.t.types[self.m.functions[x]]
        return self.values(kind.params) + b"\x12" + unsigned(self.d.at(x, len(self.m.functions), "function"))

    def values(self, types):
        return b"".join(self.value(t) for t in types)

    def nested(self, label, work):
        """Code in a block: locals that are set there are not set behind it."""
        before = set(self.set)
        self.labels.append(label)
        text = work()
        self.labels.pop()
        self.set = before
        return text

    def block_type(self, results):
        if not results:
            return b"\x40"
        if len(results) == 1 and self.d.is_so(0.9):
            return value(results[0])
        fits = [i for i, t in enumerate(self.t.types) if t.kind == "func" and not t.params and t.results == results]
        return signed(self.d.one(fits)) if fits else value(results[0]) if len(results) == 1 else None

    def block(self, results):
        """A block, a loop, two arms or a `try_table` with these results."""
        kind = self.block_type(results)
        if kind is None:
            return self.values(results)
        way = self.d.below(4 if self.m.is_new else 3)
        if way == 0:
            return b"\x02" + kind + self.nested(results, lambda: self.sequence(results)) + END
        if way == 1:
            return b"\x03" + kind + self.nested([], lambda: self.sequence(results)) + END
        if way == 2:
            text = self.value("i32") + b"\x04" + kind + self.nested(results, lambda: self.sequence(results))
            has_else = bool(results) or self.d.is_so(0.5)
            if results and self.d.is_wrong("no else"):
                has_else = False
            return text + (b"\x05" + self.nested(results, lambda: self.sequence(results)) if has_else else b"") + END
        clauses = [c for c in (self.clause() for _ in range(self.d.below(3))) if c]
        return b"\x1f" + kind + listed(clauses) + self.nested(results, lambda: self.sequence(results)) + END

    def clause(self):
        """A clause of `try_table` that some label around fits."""
        exception, found = (False, "exn"), []
        for depth in range(len(self.labels)):
            types = self.labels[-1 - depth]
            fits = [(0, []), (2, [])] if not types else [(3, [])] if len(types) == 1 and self.t.is_below(exception, types[0]) else []
            for x, tag in enumerate(self.m.tags):
                if self.t.types[tag].params == types:
                    fits.append((0, [x]))
            found += [(form, xs, depth) for form, xs in fits if form != 0 or xs]
        if not found:
            return None
        form, xs, depth = self.d.one(found)
        return bytes([form]) + b"".join(map(unsigned, xs)) + unsigned(self.d.at(depth, len(self.labels), "label of a clause"))

    # ---- values

    def value(self, t):
        """Code that gives a value of this type, or of one below it."""
        self.left -= 1
        if self.d.is_wrong("a value of another type"):
            others = [it for it in [*self.t.numbers, (True, "func"), (True, "extern")] if it != t]
            t = self.d.one(others)
        if self.left <= 0 or self.d.is_so(0.25):
            return self.leaf(t)
        ways = [self.leaf, lambda t: self.block([t]), self.selected, self.called]
        ways += [self.numeric] * 6 if isinstance(t, str) else [self.reference] * 4
        return self.d.one(ways)(t) or self.leaf(t)

    def leaf(self, t):
        found = [b"\x20" + unsigned(i) for i, s in enumerate(self.locals) if i in self.set and self.t.is_below(s, t)]
        if self.d.is_wrong("a local that is not set"):
            found = [b"\x20" + unsigned(i) for i, s in enumerate(self.locals) if i not in self.set] or [b"\x20" + unsigned(len(self.locals))]
        found += [b"\x23" + unsigned(i) for i, (s, _) in enumerate(self.m.globals) if self.t.is_below(s, t)]
        if found and self.d.is_so(0.7):
            return self.d.one(found)
        return CONSTANTS[t] if isinstance(t, str) else self.made(t)

    def made(self, t):
        """A reference out of nothing."""
        nullable, h = t
        if nullable and (not self.m.is_new or self.d.is_so(0.6)):
            return b"\xd0" + heap(self.d.one([h, BOTTOM[self.t.top(h)]]) if self.m.is_new else h)
        if self.t.top(h) == "func":
            fits = [i for i in self.m.declared if self.t.is_heap_below(self.m.functions[i], h)]
            if fits:
                return b"\xd2" + unsigned(self.d.at(self.d.one(fits), len(self.m.functions), "function"))
        elif h in ("any", "eq", "i31") and self.d.is_so(0.5):
            return self.value("i32") + b"\xfb\x1c"
        else:
            fits = [i for i in self.t.of_kind("struct", "array") if self.t.is_heap_below(i, h) and (self.left > 0 or self.has_defaults(i))]
            if fits:
                return self.new(self.d.one(fits))
        if h == "extern" and self.left > 0:
            return self.value((False, "any")) + b"\xfb\x1b"
        return b"\xd0" + heap(h) + b"\xd4"

    def has_defaults(self, x):
        return all(isinstance(s, str) or s[0] for s, _ in self.t.types[x].fields)

    def new(self, x):
        """A structure or an array of a type."""
        it = self.t.types[x]
        if self.has_defaults(x) and (self.left <= 0 or self.d.is_so(0.5)):
            return (b"" if it.kind == "struct" else self.value("i32")) + (b"\xfb\x01" if it.kind == "struct" else b"\xfb\x07") + unsigned(x)
        if it.kind == "struct":
            return self.values([unpacked(s) for s, _ in it.fields]) + b"\xfb\x00" + unsigned(self.d.at(x, len(self.t.types), "type"))
        if self.d.is_so(0.5):
            many = self.d.below(3)
            return self.values([unpacked(it.fields[0][0])] * many) + b"\xfb\x08" + unsigned(x) + unsigned(many)
        return self.values([unpacked(it.fields[0][0]), "i32"]) + b"\xfb\x06" + unsigned(x)

    def selected(self, t):
        if isinstance(t, str) and self.d.is_so(0.7):
            return self.values([t, t, "i32"]) + b"\x1b"
        return self.values([t, t, "i32"]) + b"\x1c\x01" + value(t)

    def called(self, t):
        fits = [i for i, f in enumerate(self.m.functions) if [t] == self.t.types[f].results]
        if not fits:
            return None
        x = self.d.one(fits)
        kind = self.m.functions[x]
        params = self.values(self.t.types[kind].params)
        tables = [i for i, (e, _) in enumerate(self.m.tables) if self.t.is_below(e, (True, "func"))]
        if tables and self.d.is_so(0.3):
            y = self.d.one(tables)
            return params + self.value(self.m.tables[y][1]) + b"\x11" + unsigned(self.d.at(kind, len(self.t.types), "type")) + unsigned(y)
        if self.m.is_new and self.d.is_so(0.3):
            return params + self.value((True, kind)) + b"\x14" + unsigned(self.d.at(kind, len(self.t.types), "type"))
        return params + b"\x10" + unsigned(self.d.at(x, len(self.m.functions), "function"))

    def operator(self, first, takes, gives, many):
        return bytes([first + self.d.below(many)])

    def numeric(self, t):
        ways = [self.arithmetic, self.arithmetic, self.tee, self.loaded]
        if t == "i32":
            ways += [self.told] * 2
        if t in ("i32", "i64") and self.m.memories:
            ways.append(self.size)
        ways.append(self.read)
        return self.d.one(ways)(t)

    def arithmetic(self, t):
        from_vectors = [it for it in VECTOR if it[2] == t and it[0] != 0x52]
        if from_vectors and self.d.is_so(1.0 if t == "v128" else 0.1):
            first, takes, _, many = self.d.one(from_vectors)
            return self.values(takes) + b"\xfd" + unsigned(first + self.d.below(many))
        fits = [it for it in NUMERIC if it[2] == t]
        if not fits:
            return None
        it = self.d.one(fits)
        return self.values(it[1]) + self.operator(*it)

    def tee(self, t):
        fits = [i for i, s in enumerate(self.locals) if s == t]
        if not fits:
            return None
        x = self.d.one(fits)
        return self.value(t) + b"\x22" + unsigned(self.d.at(x, len(self.locals), "local"))

    def argument(self, log, x):
        """A memory argument: a memory by its index, perhaps padded."""
        align = log + 1 if self.d.is_wrong("too large an alignment") else self.d.below(log + 1)
        offset = self.d.one([0, 1, 8, 200, 70000])
        if x or self.m.is_new and self.d.is_so(0.1):
            return unsigned(align | 0x40) + unsigned(self.d.at(x, len(self.m.memories), "memory")) + unsigned(offset)
        return unsigned(align) + unsigned(offset)

    def memory(self):
        return self.d.below(len(self.m.memories)) if self.m.memories else None

    def loaded(self, t):
        x = self.memory()
        if x is None:
            return None
        address = self.value(self.m.memories[x])
        if t == "v128":
            code, log = self.d.one([(0, 4), (1, 3), (2, 3), (7, 0), (8, 1), (9, 2), (10, 3), (0x5C, 2), (0x5D, 3)])
            return address + b"\xfd" + unsigned(code) + self.argument(log, x)
        fits = [it for it in LOADS if it[1] == t]
        if t in ("i32", "i64") and self.d.is_so(0.15):
            number = self.d.one([i for i, it in enumerate(SEVENS) if it[0] == t])
            log = SEVENS[number][1]
            group = self.d.below(7)
            taken = [t] * (0 if group == 0 else 1)
            code = 0x10 + number if group == 0 else 0x1E + 7 * (group - 1) + number
            return address + self.values(taken) + b"\xfe" + unsigned(code) + self.exact(log, x)
        code, _, log = self.d.one(fits)
        return address + bytes([code]) + self.argument(log, x)

    def exact(self, log, x):
        """The argument of an atomic access, whose alignment is that of its bytes."""
        align = log + self.d.one([1, -1]) if log and self.d.is_wrong("another alignment") else log
        return (unsigned(align | 0x40) + unsigned(x) if x else unsigned(align)) + unsigned(self.d.below(300))

    def size(self, t):
        fits = [i for i, it in enumerate(self.m.memories) if it == t]
        if not fits:
            return None
        x = self.d.one(fits)
        index = unsigned(self.d.at(x, len(self.m.memories), "memory"))
        return b"\x3f" + index if self.d.is_so(0.5) else self.value(t) + b"\x40" + index

    def told(self, t):
        """A number that tells something of a reference."""
        if not self.m.is_new:
            return self.value(self.d.one([(True, "func"), (True, "extern")])) + b"\xd1"
        way = self.d.below(5)
        if way == 0:
            return self.value((True, self.d.one(["any", "func", "extern", "struct"]))) + b"\xd1"
        if way == 1:
            return self.values([(True, "eq"), (True, "eq")]) + b"\xd3"
        if way == 2:
            return self.value((True, "i31")) + b"\xfb" + self.d.one([b"\x1d", b"\x1e"])
        if way == 3:
            return self.value((True, "array")) + b"\xfb\x0f"
        top = self.d.one(["any", "func", "extern"])
        return self.value((True, top)) + b"\xfb" + self.d.one([b"\x14", b"\x15"]) + self.target(top)

    def target(self, top):
        """A heap type of a hierarchy; if it is made wrong, of another."""
        if self.d.is_wrong("a cast to another hierarchy"):
            top = self.d.one([it for it in ("any", "func", "extern") if it != top])
        kinds = {"any": ["struct", "array"], "func": ["func"], "extern": []}[top]
        names = {"any": ["any", "eq", "i31", "struct", "array", "none"], "func": ["func", "nofunc"], "extern": ["extern", "noextern"]}[top]
        return heap(self.d.one([*names, *self.t.of_kind(*kinds)]))

    def read(self, t):
        """A field or an element, or what a table has."""
        found = []
        for x in self.t.of_kind("struct", "array"):
            it = self.t.types[x]
            found += [(x, i) for i, (s, _) in enumerate(it.fields) if self.t.is_below(unpacked(s), t)]
        tables = [i for i, (e, _) in enumerate(self.m.tables) if self.t.is_below(e, t)]
        if tables and (not found or self.d.is_so(0.3)):
            y = self.d.one(tables)
            return self.value(self.m.tables[y][1]) + b"\x25" + unsigned(self.d.at(y, len(self.m.tables), "table"))
        if not found:
            return None
        x, i = self.d.one(found)
        it = self.t.types[x]
        is_short = it.fields[i][0] in ("i8", "i16")
        if self.d.is_wrong("a packed field read as whole"):
            is_short = not is_short
        form = self.d.one([1, 2]) if is_short else 0
        if it.kind == "struct":
            return self.value((True, x)) + bytes([0xFB, 2 + form]) + unsigned(x) + unsigned(self.d.at(i, len(it.fields), "field"))
        return self.values([(True, x), "i32"]) + bytes([0xFB, 0x0B + form]) + unsigned(x)

    def reference(self, t):
        nullable, h = t
        if not self.m.is_new:
            return self.read(t)
        top = self.t.top(h)
        way = self.d.below(6)
        if way == 0 and top in ("any", "func", "extern"):
            return self.value((True, top)) + bytes([0xFB, 0x17 if nullable else 0x16]) + heap(h)
        if way == 1 and not nullable:
            return self.value((True, h)) + b"\xd4"
        if way == 2 and top == "any" and h == "any":
            return self.value((nullable, "extern")) + b"\xfb\x1a"
        if way == 3 and top in ("any", "func", "extern"):
            return self.cast_in_block(t, top)
        if way == 4 and not nullable:
            # a null leaves by its branch to the end of the block around, which is never reached behind it
            return b"\x02" + value(t) + self.nested([t], lambda: b"\x02\x40" + self.nested([], lambda: self.value((True, h)) + b"\xd5\x00"
                   + b"\x0c\x01") + END + UNREACHABLE) + END
        return self.read(t)

    def cast_in_block(self, t, top):
        """A branch on a cast to the type of a block, whose end is the other way."""
        nullable, h = t
        source = (True, top)
        inner = self.nested([t], lambda: self.value(source) + b"\xfb\x18" + bytes([1 + 2 * nullable]) + self.depth(0) + heap(top) + heap(h)
                            + DROP + self.leaf(t))
        return b"\x02" + value(t) + inner + END

    def depth(self, n):
        return unsigned(self.d.at(n, len(self.labels), "label"))

    # ---- statements

    def statement(self):
        self.left -= 1
        if self.left <= 0:
            return b"\x01"
        ways = [self.set_local] * 3 + [self.set_global, self.stored, self.dropped, self.block_of_nothing, self.branch_if, self.called_for_nothing,
                self.filled, self.of_table]
        if self.m.is_new:
            ways += [self.written] * 2 + [self.of_array]
        return self.d.one(ways)() or b"\x01"

    def set_local(self):
        if not self.locals:
            return None
        x = self.d.below(len(self.locals))
        text = self.value(self.locals[x])
        self.set.add(x)
        return text + b"\x21" + unsigned(self.d.at(x, len(self.locals), "local"))

    def set_global(self):
        fits = [i for i, (_, mutable) in enumerate(self.m.globals) if mutable]
        if self.d.is_wrong("an immutable global that is set"):
            fits = [i for i, (_, mutable) in enumerate(self.m.globals) if not mutable]
        if not fits:
            return None
        x = self.d.one(fits)
        return self.value(self.m.globals[x][0]) + b"\x24" + unsigned(self.d.at(x, len(self.m.globals), "global"))

    def stored(self):
        x = self.memory()
        if x is None:
            return None
        address = self.value(self.m.memories[x])
        if self.d.is_so(0.1):
            number = self.d.below(7)
            return address + self.value(SEVENS[number][0]) + b"\xfe" + unsigned(0x17 + number) + self.exact(SEVENS[number][1], x)
        if "v128" in self.t.numbers and self.d.is_so(0.2):
            lane = self.d.below(4)
            text = address + self.value("v128") + b"\xfd"
            if self.d.is_so(0.5):
                return text + b"\x0b" + self.argument(4, x)
            return text + unsigned(0x58 + lane) + self.argument(lane, x) + bytes([self.d.at(self.d.below(16 >> lane), 16 >> lane, "lane")])
        code, t, log = self.d.one(STORES)
        return address + self.value(t) + bytes([code]) + self.argument(log, x)

    def dropped(self):
        return self.value(self.t.value([it.kind for it in self.t.types])) + DROP

    def block_of_nothing(self):
        return self.block([])

    def branch_if(self):
        depth = self.d.below(len(self.labels))
        types = self.labels[-1 - depth]
        return self.values(types) + self.value("i32") + b"\x0d" + self.depth(depth) + DROP * len(types)

    def called_for_nothing(self):
        x = self.d.below(len(self.m.functions))
        kind = self.t.types[self.m.functions[x]]
        return self.values(kind.params) + b"\x10" + unsigned(self.d.at(x, len(self.m.functions), "function")) + DROP * len(kind.results)

    def filled(self):
        """Operators on whole memories."""
        x = self.memory()
        if x is None:
            return None
        y, way = self.memory(), self.d.below(4)
        i, j = self.m.memories[x], self.m.memories[y]
        if way == 0:
            return self.values([i, "i32", i]) + b"\xfc\x0b" + unsigned(self.d.at(x, len(self.m.memories), "memory"))
        if way == 1:
            return self.values([i, j, "i32" if "i32" in (i, j) else "i64"]) + b"\xfc\x0a" + unsigned(x) + unsigned(y)
        if not self.m.data:
            return None
        d = unsigned(self.d.index(self.m.data, "data segment"))
        return b"\xfc\x09" + d if way == 2 else self.values([i, "i32", "i32"]) + b"\xfc\x08" + d + unsigned(x)

    def of_table(self):
        if not self.m.tables:
            return None
        x, way = self.d.below(len(self.m.tables)), self.d.below(7)
        (t, i), at = self.m.tables[x], unsigned(self.d.at(x, len(self.m.tables), "table"))
        if way == 0:
            return self.values([i, t]) + b"\x26" + at
        if way == 1:
            return self.values([t, i]) + b"\xfc\x0f" + at + DROP
        if way == 2:
            return b"\xfc\x10" + at + DROP
        if way == 3:
            return self.values([i, t, i]) + b"\xfc\x11" + at
        if way == 4:
            fits = [y for y, (s, _) in enumerate(self.m.tables) if self.t.is_below(s, t)]
            y = self.d.one(fits)
            j = self.m.tables[y][1]
            return self.values([i, j, "i32" if "i32" in (i, j) else "i64"]) + b"\xfc\x0e" + at + unsigned(y)
        fits = [e for e, s in enumerate(self.m.elements) if self.t.is_below(s, t)]
        if self.d.is_wrong("a segment that does not fit"):
            fits = [e for e, s in enumerate(self.m.elements) if not self.t.is_below(s, t)]
        if not fits:
            return None
        e = unsigned(self.d.one(fits))
        return b"\xfc\x0d" + e if way == 5 else self.values([i, "i32", "i32"]) + b"\xfc\x0c" + e + unsigned(x)

    def written(self):
        """A field or an element that is written."""
        is_right = not self.d.is_wrong("an immutable field that is written")
        found = [(x, i) for x in self.t.of_kind("struct", "array") for i, (_, mutable) in enumerate(self.t.types[x].fields) if mutable == is_right]
        if not found:
            return None
        x, i = self.d.one(found)
        it = self.t.types[x]
        t = unpacked(it.fields[i][0])
        if it.kind == "struct":
            return self.values([(True, x), t]) + b"\xfb\x05" + unsigned(x) + unsigned(self.d.at(i, len(it.fields), "field"))
        return self.values([(True, x), "i32", t]) + b"\xfb\x0e" + unsigned(self.d.at(x, len(self.t.types), "type"))

    def of_array(self):
        """Operators on whole arrays."""
        arrays = [x for x in self.t.of_kind("array") if self.t.types[x].fields[0][1]]
        if not arrays:
            return None
        x = self.d.one(arrays)
        s = self.t.types[x].fields[0][0]
        way = self.d.below(4)
        if way == 0:
            return self.values([(True, x), "i32", unpacked(s), "i32"]) + b"\xfb\x10" + unsigned(x)
        if way == 1:
            fits = [y for y in self.t.of_kind("array") if self.t.types[y].fields[0][0] == s]
            y = self.d.one(fits)
            from_type = unsigned(self.d.at(y, len(self.t.types), "type"))
            return self.values([(True, x), "i32", (True, y), "i32", "i32"]) + b"\xfb\x11" + unsigned(x) + from_type
        operands = [(True, x), "i32", "i32", "i32"]
        if isinstance(s, str) and self.m.data:
            return self.values(operands) + b"\xfb\x12" + unsigned(x) + unsigned(self.d.index(self.m.data, "data segment"))
        fits = [] if isinstance(s, str) else [e for e, r in enumerate(self.m.elements) if self.t.is_below(r, s)]
        return self.values(operands) + b"\xfb\x13" + unsigned(x) + unsigned(self.d.one(fits)) if fits else None
