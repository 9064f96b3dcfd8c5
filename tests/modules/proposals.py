"""Modules with operators of proposals that are off by default, each valid or refused at a place and for a reason: custom descriptors,
shared everything, stack switching. tests/methods/make writes them into tests/methods, where features may be named."""

from spelling import *

E = "0b"
LINES = []


def case(title, piece, message="", types=0, functions=1, tables=0, memories=0, tags=0, globals=0, elements=0):
    """A module that is valid with every feature on, or is refused at its mark with this message."""
    counts = f"{types} types, {functions} functions, {tables} tables, {memories} memories, {tags} tags, {globals} globals, {elements} elements"
    LINES.append((title, flat(piece), message, counts))


def mismatch(wanted, found):
    return f"type mismatch: expected {wanted}, found {found}"


def in_module(before, types, count, **sections):
    """What makes a case of a function's operators: its type is the last of the types."""

    def one(title, *ops, message="", locals=()):
        case(
            title,
            mod(types=types, funcs=[before], code=[body(*ops, locals=locals)], **sections),
            message,
            types=count,
            tables=len(sections.get("tables", [])),
            tags=len(sections.get("tags", [])),
            globals=len(sections.get("globals", [])),
        )

    return one


# ---- custom descriptors: 0 is described by 1; 2 by 3, with a field that has no default; 4 is a struct alone; 5 takes references to them

STRUCT = "5f00"
PAIR = ["4e02", "4d01", STRUCT, "4c00", STRUCT]
FULL = ["4e02", "4d03", "5f01646e00", "4c02", STRUCT]
OF_ALL = ft(["6300", "6301", "636201", "636203", "636200", "6e"], [])
desc = in_module(5, [PAIR, FULL, STRUCT, OF_ALL], 6)

desc("struct.new_desc", "d06e", "d4", "2003", "fb2002", "1a", E)
desc("struct.new_desc of an inexact descriptor", "2001", AT, "fb2000", "1a", E, message=mismatch("(ref null (exact $type))", "(ref null $type)"))
desc("struct.new_desc without a descriptor", "2002", AT, "fb2004", "1a", E, message="expected a type with a descriptor")
desc("struct.new of a type with a descriptor", AT, "fb0000", "1a", E, message="a type with a descriptor requires an allocation with the descriptor")
desc("struct.new_default_desc", "2002", "fb2100", "1a", E)
desc("struct.new_default_desc without a default", "2003", AT, "fb2102", "1a", E, message="a field or an element is not defaultable")
desc("ref.get_desc, of a type and exactly of it", "2000", "fb2200", "1a", "2004", "fb2200", "fb2000", "1a", E)
desc("ref.get_desc of a type without one", "2000", AT, "fb2204", "1a", E, message="expected a type with a descriptor")
desc("ref.cast_desc_eq", "2005", "2001", "fb2300", "1a", "2005", "2002", "fb246200", "1a", E)
desc("ref.cast_desc_eq to a type without one", "2005", "2001", AT, "fb2304", "1a", E, message="expected a type with a descriptor")
desc("br_on_cast_desc_eq", "026400", "2005", "2001", "fb2501006e00", "00", E, "1a", E)
desc("br_on_cast_desc_eq to another label", "0240", "2005", "2001", AT, "fb2501006e00", "1a", E, E, message="type mismatch: br_on_cast to label with empty types, must have a reference type")
desc("br_on_cast_desc_eq_fail", "026e", "2005", "2001", "fb2601006e00", "1a", "00", E, "1a", E)

# ---- shared everything: globals of a number, of references, of references of the host, and one that may not be written; tables of
# references that can be compared, and of references of the host; 0 is a struct of a number and a byte, 1 an array of numbers, 2 of bytes

shared = in_module(
    3,
    [["5f02", "7f01", "7801"], ["5e", "7e01"], ["5e", "7801"], ft(["6300", "6301", "6302", "6d", "6e"], [])],
    4,
    globals=[["7f01", "41000b"], ["6e01", "d06e0b"], ["6f01", "d06f0b"], ["7f00", "41000b"]],
    tables=["6d0001", "6f0001"],
)
ANY = "invalid type: only `i32`, `i64` and subtypes of `anyref` can be accessed atomically"
EQ = "invalid type: only `i32`, `i64` and subtypes of `eqref` can be compared atomically"
NUMBERS = "invalid type: only `i32` and `i64` have atomic arithmetic operations"

shared("global.atomic.get", "fe4f0000", "1a", "fe4f0101", "1a", E)
shared("global.atomic.get of a reference of the host", AT, "fe4f0002", "1a", E, message=ANY)
shared("global.atomic.set", "4100", "fe500000", "2004", "fe500101", E)
shared("global.atomic.set of a constant", "4100", AT, "fe500003", E, message="global is immutable: cannot modify it with `global.set`")
for code, text in [("51", "add"), ("52", "sub"), ("53", "and"), ("54", "or"), ("55", "xor")]:
    shared(f"global.atomic.rmw.{text}", "4100", f"fe{code}0000", "1a", E)
    shared(f"global.atomic.rmw.{text} of a reference", "2004", AT, f"fe{code}0001", "1a", E, message=NUMBERS)
shared("global.atomic.rmw.xchg", "2004", "fe560001", "1a", E)
shared("global.atomic.rmw.xchg of a reference of the host", "d06f", AT, "fe560002", "1a", E, message=ANY)
shared("global.atomic.rmw.cmpxchg", "4100", "4101", "fe570000", "1a", E)
shared("global.atomic.rmw.cmpxchg of what cannot be compared", "2004", "2004", AT, "fe570001", "1a", E, message=EQ)
shared("table.atomic.get", "4100", "fe580000", "1a", E)
shared("table.atomic.get of a reference of the host", "4100", AT, "fe580001", "1a", E, message=ANY)
shared("table.atomic.set", "4100", "2003", "fe590000", E)
shared("table.atomic.set of something else", "4100", "2004", AT, "fe590000", E, message=mismatch("eqref", "anyref"))
shared("table.atomic.rmw.xchg", "4100", "2003", "fe5a0000", "1a", E)
shared("table.atomic.rmw.xchg of no table", "4100", "2003", AT, "fe5a0002", "1a", E, message="unknown table 2: table index out of bounds")
shared("table.atomic.rmw.cmpxchg", "4100", "2003", "2003", "fe5b0000", "1a", E)
shared("table.atomic.rmw.cmpxchg of a reference of the host", "4100", "d06f", "d06f", AT, "fe5b0001", "1a", E, message=EQ)
shared("struct.atomic.get", "2000", "fe5c000000", "1a", E)
shared("struct.atomic.get of a byte", "2000", AT, "fe5c000001", "1a", E, message=ANY)
for code, text in [("5d", "get_s"), ("5e", "get_u")]:
    shared(f"struct.atomic.{text}", "2000", f"fe{code}000001", "1a", E)
    shared(f"struct.atomic.{text} of what is not packed", "2000", AT, f"fe{code}000000", "1a", E, message="cannot extend a non-packed storage type to 32 bits")
shared("struct.atomic.set", "2000", "4100", "fe5f000001", E)
shared("struct.atomic.set of no field", "2000", "4100", AT, "fe5f000002", E, message="unknown field: field index out of bounds")
for code, text in [("60", "add"), ("61", "sub"), ("62", "and"), ("63", "or"), ("64", "xor")]:
    shared(f"struct.atomic.rmw.{text}", "2000", "4100", f"fe{code}000000", "1a", E)
    shared(f"struct.atomic.rmw.{text} of a byte", "2000", "4100", AT, f"fe{code}000001", "1a", E, message=NUMBERS)
shared("struct.atomic.rmw.xchg", "2000", "4100", "fe65000000", "1a", E)
shared("struct.atomic.rmw.xchg of a byte", "2000", "4100", AT, "fe65000001", "1a", E, message=ANY)
shared("struct.atomic.rmw.cmpxchg", "2000", "4100", "4100", "fe66000000", "1a", E)
shared("struct.atomic.rmw.cmpxchg of a byte", "2000", "4100", "4100", AT, "fe66000001", "1a", E, message=EQ)
shared("array.atomic.get", "2001", "4100", "fe670001", "1a", E)
shared("array.atomic.get of bytes", "2002", "4100", AT, "fe670002", "1a", E, message=ANY)
for code, text in [("68", "get_s"), ("69", "get_u")]:
    shared(f"array.atomic.{text}", "2002", "4100", f"fe{code}0002", "1a", E)
    shared(f"array.atomic.{text} of what is not packed", "2001", "4100", AT, f"fe{code}0001", "1a", E, message="cannot extend a non-packed storage type to 32 bits")
shared("array.atomic.set", "2002", "4100", "4100", "fe6a0002", E)
shared("array.atomic.set of a struct", "2000", "4100", "4100", AT, "fe6a0000", E, message="expected array type at index 0")
for code, text in [("6b", "add"), ("6c", "sub"), ("6d", "and"), ("6e", "or"), ("6f", "xor")]:
    shared(f"array.atomic.rmw.{text}", "2001", "4100", "4200", f"fe{code}0001", "1a", E)
    shared(f"array.atomic.rmw.{text} of bytes", "2002", "4100", "4100", AT, f"fe{code}0002", "1a", E, message=NUMBERS)
shared("array.atomic.rmw.xchg", "2001", "4100", "4200", "fe700001", "1a", E)
shared("array.atomic.rmw.xchg with a number of 32 bits", "2001", "4100", "4100", AT, "fe700001", "1a", E, message=mismatch("i64", "i32"))
shared("array.atomic.rmw.cmpxchg", "2001", "4100", "4200", "4200", "fe710001", "1a", E)
shared("array.atomic.rmw.cmpxchg of bytes", "2002", "4100", "4100", "4100", AT, "fe710002", "1a", E, message=EQ)
shared("ref.i31_shared", "4100", "fe72", "1a", E)
shared("ref.i31_shared of a reference", "2004", AT, "fe72", "1a", E, message=mismatch("i32", "anyref"))

# ---- stack switching: 0 gives an i32, 1 is its continuation; 2 goes from a float to an i32, 3 is its continuation; 4 takes an i64 before
# that, 5 is its continuation; 6 takes a 3, 7 is its continuation; the tags carry an i32, an i64 for a float, and nothing for an i32

cont = in_module(
    11,
    [
        ft([], ["i32"]), "5d00", ft(["f64"], ["i32"]), "5d02", ft(["i64", "f64"], ["i32"]), "5d04", ft(["i64", "6303"], ["i32"]), "5d06",
        ft(["i32"], []), ft(["i64"], ["f64"]), ft([], ["i64", "6403"]),
        ft(["6300", "6301", "6303", "6305", "6307", "69"], ["i32"]),
    ],
    12,
    tags=[["00", leb(8)], ["00", leb(9)], ["00", leb(0)]],
)
F = "44" + "00" * 8

cont("cont.new", "2000", "e001", "1a", "4100", E)
cont("cont.new of a function type", "2000", AT, "e000", "1a", "4100", E, message="non-continuation type 0")
cont("cont.bind", "4200", "2003", "e10503", "1a", "4100", E)
cont("cont.bind to other parameters", "4200", "2003", AT, "e10301", "1a", "4100", E, message=mismatch("(ref null $type)", "(ref null $type)"))
cont("cont.bind to more parameters", "2002", AT, "e10305", "1a", "4100", E, message="type mismatch in continuation arguments")
cont("suspend", "4200", "e201", "1a", "4100", E)
cont("suspend by no tag", AT, "e203", "4100", E, message="unknown tag 3: tag index out of bounds")
cont("resume", "020a", "2001", "e30101000100", "0f", E, "1a", "1a", "4100", E)
cont("resume of a label that takes something else", "0240", "2001", AT, "e30101000100", "0f", E, "4100", E, message="type mismatch: a handler's label must end with a continuation type")
cont("resume with a handler of switches", "2001", "e301010102", E)
cont("resume with a handler of switches that gives something else", "2001", AT, "e301010101", E, message="type mismatch: non-empty tag parameter type")
cont("resume_throw", "4100", "2001", "e4010000", E)
cont("resume_throw of a tag that gives something", "4200", "2001", AT, "e4010100", E, message="invalid exception type: non-empty tag result type")
cont("resume_throw_ref", "2005", "2001", "e50100", E)
cont("resume_throw_ref of something else", "2000", "2001", AT, "e50100", E, message=mismatch("exnref", "(ref null $type)"))
cont("switch", "4200", "2004", "e60702", "1a", "4100", E)
cont("switch to a continuation that takes none", F, "2002", AT, "e60302", "1a", "4100", E, message="type mismatch: non-continuation type as the last parameter")
