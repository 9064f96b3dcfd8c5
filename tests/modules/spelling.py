"""Spells modules in bytes, for the worked modules: each function gives bytes or lists of what spells them.

A piece is a number (one byte), hexadecimal digits, bytes, or a list of pieces; AT marks the offset at which a module is refused. The
sections and their numbers are those of chapter 5 of the WebAssembly specification, 3.0.
"""


class Mark:
    """Where a module is refused; it has no bytes."""


AT = Mark()


def leb(n):
    """An unsigned number in LEB128."""
    out = []
    while True:
        byte = n & 0x7F
        n >>= 7
        if not n:
            return out + [byte]
        out.append(byte | 0x80)


def sleb(n):
    """A signed number in LEB128."""
    out = []
    while True:
        byte = n & 0x7F
        n >>= 7
        if (n == 0 and not byte & 0x40) or (n == -1 and byte & 0x40):
            return out + [byte]
        out.append(byte | 0x80)


def flat(piece):
    """The bytes of a piece, one by one, and the mark where it has one."""
    if isinstance(piece, int) or piece is AT:
        return [piece]
    if isinstance(piece, str):
        return list(bytes.fromhex(piece))
    if isinstance(piece, bytes):
        return list(piece)
    return [byte for part in piece for byte in flat(part)]


def size(piece):
    return sum(byte is not AT for byte in flat(piece))


def vec(items):
    """How many items there are, and the items."""
    return [leb(len(items)), list(items)]


def sized(piece):
    """How many bytes there are, and the bytes."""
    return [leb(size(piece)), piece]


def sec(number, contents):
    return [number, sized(contents)]


def name(text):
    raw = text.encode() if isinstance(text, str) else text
    return [leb(len(raw)), raw]


TYPES = {
    "i32": "7f",
    "i64": "7e",
    "f32": "7d",
    "f64": "7c",
    "v128": "7b",
    "funcref": "70",
    "externref": "6f",
    "(ref func)": "6470",
    "(ref extern)": "646f",
}


def vt(ty):
    """A value type by its name, or as it is spelled."""
    return TYPES.get(ty, ty)


def ft(params, results):
    """A function type."""
    return ["60", vec([vt(ty) for ty in params]), vec([vt(ty) for ty in results])]


ORDER = {
    "types": 1,
    "imports": 2,
    "funcs": 3,
    "tables": 4,
    "mems": 5,
    "tags": 13,
    "globals": 6,
    "exports": 7,
    "start": 8,
    "elems": 9,
    "datacount": 12,
    "code": 10,
    "data": 11,
}


def contents_of(section, given):
    if section in ("start", "datacount"):
        return given
    if section == "code":
        return vec([sized(entry) for entry in given])
    if section == "funcs":
        return vec([leb(it) if isinstance(it, int) else it for it in given])
    return vec(given)


def mod(**sections):
    """A module of these sections, in their order."""
    assert sections.keys() <= ORDER.keys(), sections.keys()
    return ["0061736d01000000"] + [sec(ORDER[it], contents_of(it, sections[it])) for it in ORDER if it in sections]


def body(*ops, locals=()):
    return [vec([[leb(count), vt(ty)] for count, ty in locals]), list(ops)]


def fn(*ops, p=(), r=(), locals=(), types=(), funcs=(0,), more=(), **sections):
    """A module of one function, of parameters p and results r at type 0, and what else is named."""
    return mod(types=[ft(p, r)] + list(types), funcs=list(funcs), code=[body(*ops, locals=locals)] + list(more), **sections)


def exp(export, kind, index):
    return [name(export), kind, leb(index)]


def imp(module, field, kind, *described):
    return [name(module), name(field), kind, list(described)]


# Names of worked modules, their bytes, and the line that is to be written of each.
ROWS = []


def row(title, module, text="valid"):
    """A worked module: valid, or refused at its mark with this text."""
    pieces = flat(module)
    marks = [at for at, byte in enumerate(pieces) if byte is AT]
    assert len(marks) == (text != "valid"), (title, marks, text)
    assert title not in [known for known, *_ in ROWS], title
    verdict = "valid" if text == "valid" else f"invalid at {marks[0]:#x}: {text}"
    ROWS.append((title, bytes(byte for byte in pieces if byte is not AT), f"{title}.wasm: {verdict}\n"))


# ---- what many rows use

E = "0b"  # end


def i32(n):
    return ["41", sleb(n)]


def i64(n):
    return ["42", sleb(n)]


F32 = "4300000000"  # f32.const 0
F64 = "440000000000000000"
MEM = "0001"  # a memory of at least a page
MEM64 = "0401"
TAB = "700001"  # a table of functions
TABX = "6f0001"
TAB64 = "700401"
SM = "type mismatch: "
LEFT = SM + "values remaining on stack at end of block"


def none(ty):
    return f"{SM}expected {ty} but nothing on stack"


def mis(expected, found):
    return f"{SM}expected {expected}, found {found}"
