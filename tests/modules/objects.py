"""Structs, arrays, small numbers, tests and casts, conversions."""

from spelling import *

# types 0 to 6: a struct of a mutable i32, a mutable i8 and an i64; arrays of mutable i64, of mutable i8, of mutable references to the
# struct, of references to it that are never null and stay, and of i32 that stay; a struct of a reference that is never null
TYPES = [
    ["5f", vec(["7f01", "7801", "7e00"])],
    ["5e", "7e01"],
    ["5e", "7801"],
    ["5e", "630001"],
    ["5e", "640000"],
    ["5e", "7f00"],
    ["5f", vec(["640000"])],
]
DATA = ["01", leb(1), "2a"]  # a passive segment of one byte
NULLS = ["05", "6300", vec([["d000", "0b"]])]  # a passive segment of a null of the struct
STRUCT, INTEGERS, BYTES, REFS, FULL, KEPT = "6300", "6301", "6302", "6303", "6304", "6305"
FIXED_FIELD = "invalid struct modification: struct field is immutable"
FIXED_ARRAY = "invalid array modification: array is immutable"
PACKED = "can only get a packed storage type with an extension to 32 bits"
UNPACKED = "cannot extend a non-packed storage type to 32 bits"
NO_DEFAULT = "a field or an element is not defaultable"
REFERENCES = "array data can only hold elements of numeric, vector or packed types"


def obj(*ops, p=(), r=(), **more):
    """A module of one function, at type 7, of these parameters and results."""
    return mod(types=TYPES + [ft(p, r)], funcs=[7], code=[body(*ops)], **more)


def bytewise(*ops, **more):
    return obj(*ops, datacount=leb(1), data=[DATA], **more)


def nulls(*ops, **more):
    return obj(*ops, elems=[NULLS], **more)


# ---- structs

row("struct-new", obj(i32(1), i32(2), i64(3), "fb0000", E, r=["6400"]))
row("struct-new-lacks-field", obj(i32(1), i64(3), AT, "fb0000", E, r=["6400"]), none("i32"))
row("struct-new-of-array", obj(AT, "fb0001", "1a", E), "expected struct type at index 1")
row("struct-new-default", obj("fb0100", E, r=["6400"]))
row("struct-new-default-without-default", obj(AT, "fb0106", "1a", E), NO_DEFAULT)
row("struct-get", obj("2000", "fb020000", E, p=[STRUCT], r=["i32"]))
row("struct-get-packed", obj("2000", AT, "fb020001", E, p=[STRUCT], r=["i32"]), "can only use struct `get` with non-packed storage types")
row("struct-get-unknown-field", obj("2000", AT, "fb020003", E, p=[STRUCT], r=["i32"]), "unknown field: field index out of bounds")
row("struct-get-of-number", obj(i32(0), AT, "fb020000", E, r=["i32"]), mis("(ref null $type)", "i32"))
row("struct-get-signed", obj("2000", "fb030001", E, p=[STRUCT], r=["i32"]))
row("struct-get-signed-of-value", obj("2000", AT, "fb030000", E, p=[STRUCT], r=["i32"]), "cannot use struct.get_s with non-packed storage types")
row("struct-get-unsigned", obj("2000", "fb040001", E, p=[STRUCT], r=["i32"]))
row("struct-get-unsigned-of-value", obj("2000", AT, "fb040002", "1a", E, p=[STRUCT]), "cannot use struct.get_u with non-packed storage types")
row("struct-set", obj("2000", i32(1), "fb050000", E, p=[STRUCT]))
row("struct-set-immutable", obj("2000", i64(1), AT, "fb050002", E, p=[STRUCT]), FIXED_FIELD)
row("struct-set-immutable-unreached", obj("00", AT, "fb050002", E), FIXED_FIELD)
row("struct-set-another-type", obj("2000", i64(1), AT, "fb050000", E, p=[STRUCT]), mis("i32", "i64"))
row(
    "struct-get-of-subtype",
    ["0061736d01000000", "011603", "50005f017f00", "5001005f027f007e00", "60016301017f", "03020102", "0a0a0108002000fb0200000b"],
)

# ---- arrays

row("array-new", obj(i64(1), i32(2), "fb0601", E, r=["6401"]))
row("array-new-of-another-type", obj(i32(1), i32(2), AT, "fb0601", E, r=["6401"]), mis("i64", "i32"))
row("array-new-of-struct", obj(AT, "fb0600", "1a", E), "expected array type at index 0")
row("array-new-default", obj(i32(2), "fb0701", E, r=["6401"]))
row("array-new-default-without-default", obj(i32(2), AT, "fb0704", E, r=["6404"]), NO_DEFAULT)
row("array-new-fixed", obj(i64(1), i64(2), "fb080102", E, r=["6401"]))
row("array-new-fixed-lacks-one", obj(i64(1), AT, "fb080102", E, r=["6401"]), none("i64"))
row("array-new-fixed-of-many", obj(i64(1), AT, "fb0801ffffffff0f", E, r=["6401"]), none("i64"))
row(
    "array-new-fixed-of-many-unreached",
    mod(types=["5e7f00", ft([], ["6400"])], funcs=[1], code=[body("00", "fb0800ffffffff0f", "00", "fb0800ffffffff0f", E)]),
)
row("array-new-data", bytewise(i32(0), i32(1), "fb090200", E, r=["6402"]))
row("array-new-data-of-references", bytewise(i32(0), i32(0), AT, "fb090300", E, r=["6403"]), "type mismatch: array.new_data can only create arrays with numeric and vector elements")
row("array-new-data-of-unknown-segment", bytewise(i32(0), i32(0), AT, "fb090201", E, r=["6402"]), "unknown data segment 1")
row("array-new-elem", nulls(i32(0), i32(1), "fb0a0300", E, r=["6403"]))
row("array-new-elem-that-may-be-null", nulls(i32(0), i32(1), AT, "fb0a0400", E, r=["6404"]), "type mismatch")
row("array-get", obj("2000", i32(0), "fb0b01", E, p=[INTEGERS], r=["i64"]))
row("array-get-packed", obj("2000", i32(0), AT, "fb0b02", E, p=[BYTES], r=["i32"]), "cannot use array.get with packed storage types")
row("array-get-signed", obj("2000", i32(0), "fb0c02", E, p=[BYTES], r=["i32"]))
row("array-get-signed-of-value", obj("2000", i32(0), AT, "fb0c01", E, p=[INTEGERS], r=["i32"]), "cannot use array.get_s with non-packed storage types")
row("array-get-unsigned", obj("2000", i32(0), "fb0d02", E, p=[BYTES], r=["i32"]))
row("array-get-unsigned-of-value", obj("2000", i32(0), AT, "fb0d05", E, p=[KEPT], r=["i32"]), "cannot use array.get_u with non-packed storage types")
row("array-set", obj("2000", i32(0), i32(1), "fb0e02", E, p=[BYTES]))
row("array-set-immutable", obj("2000", i32(0), i32(1), AT, "fb0e05", E, p=[KEPT]), FIXED_ARRAY)
row("array-len", obj("2000", "fb0f", E, p=[KEPT], r=["i32"]))
row("array-len-of-struct", obj("2000", AT, "fb0f", E, p=[STRUCT], r=["i32"]), "type mismatch: expected subtype of arrayref, found (ref null (id 0))")
row("array-fill", obj("2000", i32(0), i64(1), i32(2), "fb1001", E, p=[INTEGERS]))
row("array-fill-immutable", obj("2000", i32(0), i32(1), i32(2), AT, "fb1005", E, p=[KEPT]), FIXED_ARRAY)
row("array-copy", obj("2000", i32(0), "2001", i32(0), i32(1), "fb110304", E, p=[REFS, FULL]))
row("array-copy-of-another-type", obj("2000", i32(0), "2001", i32(0), i32(1), AT, "fb110102", E, p=[INTEGERS, BYTES]), "type mismatch")
row("array-copy-immutable", obj("2000", i32(0), "2000", i32(0), i32(1), AT, "fb110505", E, p=[KEPT]), FIXED_ARRAY)
row("array-init-data", bytewise("2000", i32(0), i32(0), i32(1), "fb120200", E, p=[BYTES]))
row("array-init-data-immutable", bytewise("2000", i32(0), i32(0), i32(1), AT, "fb120500", E, p=[KEPT]), FIXED_ARRAY)
row("array-init-data-of-references", bytewise("2000", i32(0), i32(0), i32(1), AT, "fb120300", E, p=[REFS]), "invalid array.init_data: array type is not numeric or vector")
row("array-init-elem", nulls("2000", i32(0), i32(0), i32(1), "fb130300", E, p=[REFS]))
row("array-init-elem-of-numbers", nulls("2000", i32(0), i32(0), i32(1), AT, "fb130100", E, p=[INTEGERS]), "type mismatch")

# ---- small numbers, equality

row("ref-i31", obj(i32(0), "fb1c", E, r=["646c"]))
row("ref-i31-of-i64", obj(i64(0), AT, "fb1c", E, r=["646c"]), mis("i32", "i64"))
row("i31-get-signed", obj("2000", "fb1d", E, p=["6c"], r=["i32"]))
row("i31-get-signed-of-any", obj("2000", AT, "fb1d", E, p=["6e"], r=["i32"]), "type mismatch: expected subtype of i31ref, found anyref")
row("i31-get-unsigned", obj("2000", "fb1e", E, p=["646c"], r=["i32"]))
row("i31-get-unsigned-of-nothing", obj(AT, "fb1e", E, r=["i32"]), none("a type"))
row("ref-eq", obj("2000", "2001", "d3", E, p=[STRUCT, "6c"], r=["i32"]))
row("ref-eq-of-host", obj("2000", "2001", AT, "d3", E, p=["6d", "externref"], r=["i32"]), "type mismatch: expected subtype of eqref, found externref")
row("ref-eq-of-any-below", obj("2000", "2001", AT, "d3", E, p=["6e", "6d"], r=["i32"]), "type mismatch: expected subtype of eqref, found anyref")

# ---- tests and casts

row("ref-test", obj("2000", "fb1400", E, p=["6e"], r=["i32"]))
row("ref-test-of-function", obj("2000", AT, "fb1400", E, p=["funcref"], r=["i32"]), mis("anyref", "funcref"))
row("ref-test-null", obj("2000", "fb156c", E, p=["6d"], r=["i32"]))
row("ref-test-null-of-number", obj(i32(0), AT, "fb156c", E, r=["i32"]), mis("anyref", "i32"))
row("ref-cast", obj("2000", "fb1600", E, p=["6e"], r=["6400"]))
row("ref-cast-to-unknown-type", obj("2000", AT, "fb1609", "1a", E, p=["6e"]), "unknown type 9: type index out of bounds")
row("ref-cast-to-exact", obj("2000", "fb166200", "1a", E, p=["6e"]))
row("ref-test-of-continuation", obj("2000", AT, "fb1468", "1a", E, p=["6e"]), "cannot cast or test continuation types")
row("ref-cast-null", obj("2000", "fb176c", E, p=["6e"], r=["6c"]))
row("ref-cast-null-stays-null", obj("2000", "fb176c", AT, E, p=["6e"], r=["646c"]), mis("(ref i31)", "i31ref"))
row("br-on-cast", obj("026400", "2000", "fb1801006e00", "1a", "00", E, "1a", E, p=["6e"]))
row("br-on-cast-exchanged", obj("026e", "2000", AT, "fb180300006e", E, "1a", E, p=[STRUCT]), "type mismatch: expected (ref null (id 0)), found anyref")
row("br-on-cast-carries-another", obj("027f", "2000", AT, "fb1801006e00", "1a", "00", E, "1a", E, p=["6e"]), "type mismatch: casting to type (ref (id 0)), but it does not match label result type i32")
row("br-on-cast-to-nothing", obj("0240", "2000", AT, "fb1801006e00", "1a", E, E, p=["6e"]), "type mismatch: br_on_cast to label with empty types, must have a reference type")
row("br-on-cast-leaves-no-null", obj("026300", "2000", "fb1803006e00", "d1", "1a", "00", E, "1a", E, p=["6e"]))
row("br-on-cast-fail", obj("026e", "2000", "fb1901006e00", "fb020000", "1a", "00", E, "1a", E, p=["6e"]))
row("br-on-cast-fail-carries-second", obj("026400", "2000", AT, "fb1901006e00", E, "1a", E, p=["6e"]), "type mismatch: expected label result type (ref (id 0)), found anyref")
row("br-on-cast-fail-to-unknown-label", obj("2000", AT, "fb1901056e00", "1a", E, p=["6e"]), "unknown label: branch depth too large")

# ---- conversions

row("any-convert-extern", obj("2000", "fb1a", E, p=["externref"], r=["6e"]))
row("any-convert-extern-not-null", obj("2000", "fb1a", E, p=["646f"], r=["646e"]))
row("any-convert-extern-of-any", obj("2000", AT, "fb1a", E, p=["6e"], r=["6e"]), "type mismatch: expected subtype of externref, found anyref")
row("extern-convert-any", obj("2000", "fb1b", E, p=[STRUCT], r=["externref"]))
row("extern-convert-any-stays-null", obj("2000", "fb1b", AT, E, p=["6e"], r=["646f"]), mis("(ref extern)", "externref"))
row("extern-convert-any-of-function", obj("2000", AT, "fb1b", E, p=["funcref"], r=["externref"]), "type mismatch: expected subtype of anyref, found funcref")
row("any-convert-extern-unreached", obj("00", "fb1a", E, r=["646e"]))
row("any-convert-extern-is-a-reference", obj("00", "fb1a", AT, "45", E, r=["i32"]), SM + "expected subtype of i32, found (ref any)")

# ---- constants

row("array-in-constant", mod(types=["5e7801"], globals=[["6300", "00", i32(3), "fb0700", E]]))
row("struct-in-constant", mod(types=["5f017f00"], globals=[["6400", "00", i32(3), "fb0000", E]]))
row("struct-in-constant-lacks-field", mod(types=["5f017f00"], globals=[["6400", "00", AT, "fb0000", E]]), none("i32"))
row("host-number-in-constant", mod(globals=[["646f", "00", i32(3), "fb1c", "fb1b", E]]))
