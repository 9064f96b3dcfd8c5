"""Types of a module that is drawn: functions, structures and arrays, some below others, in groups; and which matches which."""
from dataclasses import dataclass, field

NUMBERS = ["i32", "i64", "f32", "f64"]
TOP = {"func": "func", "nofunc": "func", "extern": "extern", "noextern": "extern", "exn": "exn", "noexn": "exn"}
ABOVE = {"none": {"i31", "struct", "array", "eq", "any"}, "i31": {"eq", "any"}, "struct": {"eq", "any"}, "array": {"eq", "any"},
         "eq": {"any"}, "nofunc": {"func"}, "noextern": {"extern"}, "noexn": {"exn"}}
BOTTOM = {"any": "none", "func": "nofunc", "extern": "noextern", "exn": "noexn"}


@dataclass
class Type:
    """A type: what it is, its parameters and results or its fields (storage, mutable), what it is below, and whether it is final."""
    kind: str
    params: list = field(default_factory=list)
    results: list = field(default_factory=list)
    fields: list = field(default_factory=list)
    above: int | None = None
    is_final: bool = True


def unpacked(storage):
    return "i32" if storage in ("i8", "i16") else storage


class Types:
    """The types of a module, and the lengths of its groups."""

    def __init__(self, drawing, is_new):
        self.d, self.is_new, self.types, self.groups = drawing, is_new, [], []
        self.numbers = NUMBERS + ["v128"]
        if not is_new:
            self.types = [self.function() for _ in range(3 + drawing.below(4))]
            self.groups = [1] * len(self.types)
            return
        kinds = ["func"] * 3 + ["struct"] * 3 + ["array"] * 2 + [drawing.one(["func", "struct", "array"]) for _ in range(drawing.below(5))]
        drawing.rng.shuffle(kinds)
        while len(self.types) < len(kinds):
            many = min(len(kinds) - len(self.types), 1 + drawing.below(3))
            end = len(self.types) + many
            for kind in kinds[len(self.types):end]:
                self.types.append(self.drawn(kind, kinds[:end]))
            self.groups.append(many)

    def value(self, known=()):
        """A value type; known are the kinds of types that it may refer to."""
        d = self.d
        if not self.is_new:
            return d.one(self.numbers + [(True, "func"), (True, "extern")])
        if d.is_so(0.55):
            return d.one(self.numbers)
        if known and d.is_so(0.6):
            return (d.is_so(0.7), d.below(len(known)))
        return (d.is_so(0.8), d.one(["func", "extern", "any", "eq", "i31", "struct", "array", "exn"]))

    def function(self, known=()):
        d = self.d
        return Type("func", [self.value(known) for _ in range(d.below(4))], [self.value(known) for _ in range(d.one([0, 1, 1, 1, 2, 3]))])

    def storage(self, known):
        return self.d.one(["i8", "i16"]) if self.d.is_so(0.2) else self.value(known)

    def drawn(self, kind, known):
        """A type that is drawn: below another of its kind if there is one that is not final."""
        d = self.d
        open_ones = [i for i, it in enumerate(self.types) if it.kind == kind and not it.is_final and self.depth(i) < 5]
        above = d.one(open_ones) if open_ones and d.is_so(0.6) else None
        if kind == "func":
            it = self.function(known) if above is None else Type("func", self.types[above].params, self.types[above].results)
        else:
            own = [(self.storage(known), d.is_so(0.6)) for _ in range(1 if kind == "array" else d.below(4))]
            inherited = [] if above is None else list(self.types[above].fields)
            it = Type(kind, fields=inherited if kind == "array" and inherited else inherited + own)
            if inherited and d.is_wrong("a field that does not match"):
                it.fields[0] = ("f64" if it.fields[0][0] != "f64" else "f32", it.fields[0][1])
        it.above, it.is_final = above, d.is_so(0.3)
        if above is None and d.is_wrong("a final supertype"):
            it.above = next((i for i, other in enumerate(self.types) if other.kind == kind and other.is_final), None)
        return it

    def depth(self, i):
        above = self.types[i].above
        return 0 if above is None else 1 + self.depth(above)

    def of_kind(self, *kinds):
        return [i for i, it in enumerate(self.types) if it.kind in kinds]

    def top(self, h):
        if isinstance(h, str):
            return TOP.get(h, "any")
        return "func" if self.types[h].kind == "func" else "any"

    def is_heap_below(self, h, k):
        if h == k:
            return True
        if isinstance(h, str):
            return k in ABOVE.get(h, ()) or (not isinstance(k, str) and h == BOTTOM[self.top(k)])
        it = self.types[h]
        return self.is_heap_below(it.kind, k) if it.above is None and isinstance(k, str) else it.above is not None and self.is_heap_below(it.above, k)

    def is_below(self, s, t):
        if isinstance(s, str) or isinstance(t, str):
            return s == t
        return (t[0] or not s[0]) and self.is_heap_below(s[1], t[1])
