"""The first worked modules, in bytes: name, bytes, and what is written of them, by the offset and the text of a refusal."""

from spelling import AT, row

HEADER = "00 61 73 6d 01 00 00 00"


def told(title, text, offset=None, why="valid"):
    """A worked module in hexadecimal digits, refused at this offset, if it is."""
    raw = bytes.fromhex(text)
    row(title, raw if offset is None else [raw[:offset], AT, raw[offset:]], why)


told("m42", HEADER + "01 05 01 60 00 01 7f 03 02 01 00 0a 06 01 04 00 41 2a 0b")
told("bad", HEADER + "01 05 01 60 00 01 7f 03 02 01 00 0a 04 01 02 00 0b", 0x18, "type mismatch: expected i32 but nothing on stack")

# the header
told("bare-header", HEADER)
told("no-byte", "", 0x0, "unexpected end-of-file")
told("seven-bytes", "00 61 73 6d 01 00 00", 0x4, "unexpected end-of-file")
told("other-magic", "00 61 73 6e 01 00 00 00", 0x0, "magic header not detected: bad magic number")
told("version-two", "00 61 73 6d 02 00 00 00", 0x0, "unknown binary version: 0x2")

# sections
told("padded-size", HEADER + "01 84 80 00 01 60 00 00")
told("size-of-six-bytes", HEADER + "01 84 80 80 80 80 00 01 60 00 00", 0xd, "invalid var_u32: integer representation too long")
told("section-cut", HEADER + "01 08 01 60 00 00", 0xa, "unexpected end-of-file")
told("byte-behind-types", HEADER + "01 05 01 60 00 00 00", 0xe, "section size mismatch: unexpected data at the end of the section")
told("types-behind-functions", HEADER + "03 01 00 01 04 01 60 00 00", 0xd, "section out of order")
told("custom-section", HEADER + "00 05 04 6e 61 6d 65")
told("memory-section", HEADER + "05 03 01 00 00")
told("tag-section", HEADER + "0d 01 00")
told("section-14", HEADER + "0e 00", 0xa, "malformed section id: 14")

# types and functions
told("too-many-types", HEADER + "01 03 c1 84 3d", 0xa, "types count exceeds limit of 1000000")
told("struct-type", HEADER + "01 03 01 5f 00")
told("vector-parameter", HEADER + "01 05 01 60 01 7b 00")
told("unknown-type", HEADER + "01 04 01 60 00 00 03 02 01 01 0a 04 01 02 00 0b", 0x11, "unknown type 1: type index out of bounds")
told("missing-code", HEADER + "01 04 01 60 00 00 03 02 01 00", 0x12, "function section has non-zero count but code section is absent")
told(
    "two-bodies-for-one",
    HEADER + "01 04 01 60 00 00 03 02 01 00 0a 07 02 02 00 0b 02 00 0b",
    0x14,
    "function and code section have inconsistent lengths",
)
told("two-functions", HEADER + "01 04 01 60 00 00 03 03 02 00 00 0a 08 02 02 00 0b 03 00 01 0b")
told(
    "first-of-two-wrong",
    HEADER + "01 04 01 60 00 00 03 03 02 00 00 0a 09 02 04 00 41 2a 0b 02 00 0b",
    0x1a,
    "type mismatch: values remaining on stack at end of block",
)
told(
    "second-of-two-wrong",
    HEADER + "01 04 01 60 00 00 03 03 02 00 00 0a 09 02 02 00 0b 04 00 41 2a 0b",
    0x1d,
    "type mismatch: values remaining on stack at end of block",
)
told("three-functions", HEADER + "01 09 02 60 00 00 60 01 7e 01 7e 03 04 03 00 01 00 0a 0d 03 02 00 0b 04 00 20 00 0b 03 00 01 0b")
told(
    "second-of-three-wrong",
    HEADER + "01 09 02 60 00 00 60 01 7e 01 7e 03 04 03 00 01 00 0a 0b 03 02 00 0b 02 00 0b 03 00 01 0b",
    0x21,
    "type mismatch: expected i64 but nothing on stack",
)
told(
    "third-of-three-wrong",
    HEADER + "01 09 02 60 00 00 60 01 7e 01 7e 03 04 03 00 01 00 0a 11 03 02 00 0b 04 00 20 00 0b 07 00 41 01 42 02 6a 0b",
    0x2a,
    "type mismatch: expected i32, found i64",
)

# bodies
told(
    "no-end",
    HEADER + "01 04 01 60 00 00 03 02 01 00 0a 04 01 02 00 01",
    0x18,
    "control frames remain at end of function body or expression",
)
told(
    "code-behind-end",
    HEADER + "01 04 01 60 00 00 03 02 01 00 0a 05 01 03 00 0b 01",
    0x18,
    "operators remaining after end of function body or expression",
)
told("body-cut", HEADER + "01 04 01 60 00 00 03 02 01 00 0a 05 01 03 00 20 80", 0x19, "unexpected end-of-file")
told("unreachable-add", HEADER + "01 04 01 60 00 00 03 02 01 00 0a 07 01 05 00 00 6a 1a 0b")
told(
    "reachable-add",
    HEADER + "01 04 01 60 00 00 03 02 01 00 0a 06 01 04 00 6a 1a 0b",
    0x17,
    "type mismatch: expected i32 but nothing on stack",
)
told(
    "unreachable-i64",
    HEADER + "01 05 01 60 00 01 7f 03 02 01 00 0a 07 01 05 00 00 42 00 0b",
    0x1b,
    "type mismatch: expected i32, found i64",
)
told(
    "dropped-nothing",
    HEADER + "01 04 01 60 00 00 03 02 01 00 0a 05 01 03 00 1a 0b",
    0x17,
    "type mismatch: expected a type but nothing on stack",
)
told("i64-sum", HEADER + "01 05 01 60 00 01 7f 03 02 01 00 0a 0c 01 0a 00 42 01 42 02 7c 1a 41 7f 0b")
told(
    "constant-too-large",
    HEADER + "01 04 01 60 00 00 03 02 01 00 0a 0a 01 08 00 41 80 80 80 80 10 0b",
    0x1c,
    "invalid var_i32: integer too large",
)
told("parameters", HEADER + "01 07 01 60 02 7f 7f 01 7f 03 02 01 00 0a 0e 01 0c 01 01 7e 20 02 1a 20 00 20 01 6a 0b")
told(
    "unknown-local",
    HEADER + "01 07 01 60 02 7f 7f 01 7f 03 02 01 00 0a 06 01 04 00 20 02 0b",
    0x1a,
    "unknown local 2: local index out of bounds",
)
told(
    "parameter-of-another-type",
    HEADER + "01 07 01 60 02 7f 7e 01 7f 03 02 01 00 0a 09 01 07 00 20 00 20 01 6a 0b",
    0x1e,
    "type mismatch: expected i32, found i64",
)
told("vector-local", HEADER + "01 04 01 60 00 00 03 02 01 00 0a 06 01 04 01 01 7b 0b")
told("many-locals", HEADER + "01 04 01 60 00 00 03 02 01 00 0a 08 01 06 01 d0 86 03 7f 0b")
told(
    "too-many-locals",
    HEADER + "01 04 01 60 00 00 03 02 01 00 0a 08 01 06 01 d1 86 03 7f 0b",
    0x17,
    "too many locals: locals exceed maximum",
)
told("block", HEADER + "01 04 01 60 00 00 03 02 01 00 0a 07 01 05 00 02 40 0b 0b")
told("vector-operator", HEADER + "01 04 01 60 00 00 03 02 01 00 0a 06 01 04 00 fd 0c 0b", 0x17, "unexpected SIMD opcode: 0xfd")
told("no-operator", HEADER + "01 04 01 60 00 00 03 02 01 00 0a 05 01 03 00 16 0b", 0x17, "illegal opcode: 0x16")

# order, globals, types, memories
told("section-order", HEADER + "05 03 01 00 00 04 04 01 70 00 00", 0xf, "section out of order")
told("global-constant", HEADER + "06 06 01 7f 00 41 2a 0b")
told("global-constant-of-i64", HEADER + "06 06 01 7f 00 42 2a 0b", 0xf, "type mismatch: expected i32, found i64")
told("supertype-mismatch", HEADER + "01 0e 02 50 00 5f 01 7f 00 50 01 00 5f 01 7e 00", 0x11, "sub type must match super type")
told("contravariant-parameter", HEADER + "01 1b 04 50 00 5f 00 50 01 00 5f 01 7f 00 50 00 60 01 64 01 00 50 01 02 60 01 64 00 00")
told(
    "covariant-parameter",
    HEADER + "01 1b 04 50 00 5f 00 50 01 00 5f 01 7f 00 50 00 60 01 64 00 00 50 01 02 60 01 64 01 00",
    0x1d,
    "sub type must match super type",
)
told("empty-group", HEADER + "01 03 01 4e 00")
told(
    "simd-body",
    HEADER + "01 04 01 60 00 00 03 02 01 00 0a 17 01 15 00 fd 0c 00 00 00 00 00 00 00 00 00 00 00 00 00 00 00 00 1a 0b",
    0x17,
    "unexpected SIMD opcode: 0xfd",
)
told("memory-too-large", HEADER + "05 05 01 00 81 80 04", 0xb, "memory size must be at most 0x10000 65536-byte pages")
told("memory-largest", HEADER + "05 05 01 00 80 80 04")

# exports, what a module holds
told(
    "duplicate-export",
    HEADER + "01 04 01 60 00 00 03 02 01 00 07 09 02 01 61 00 00 01 61 00 00 0a 04 01 02 00 0b",
    0x19,
    "duplicate export name `a` already defined",
)
# the name would be a line of its own, `v: valid`
told(
    "export-name-of-several-lines",
    HEADER + "01 04 01 60 00 00 02 05 01 00 00 00 00 07 1b 02 0a 0a 76 3a 20 76 61 6c 69 64 0a 00 00 0a 0a 76 3a 20 76 61 6c 69 64 0a 00 00",
    0x25,
    r"duplicate export name `\u{a}v: valid\u{a}` already defined",
)
told("module-information", HEADER + "01 0c 02 60 02 7f 7e 01 7f 60 02 7e 7f 00 03 02 01 00 04 04 01 70 00 0a 05 04 01 01 01 05 0d 03 01 00 01 06 06 01 7f 01 41 00 0b 09 07 01 05 70 01 d2 00 0b 0a 06 01 04 00 41 00 0b")
told(
    "continuation-type-off",
    HEADER + "01 06 02 60 00 00 5d 00",
    0xe,
    "cannot define continuation types when stack switching is disabled",
)

# references, data, start
told("undeclared-ref-func", HEADER + "01 04 01 60 00 00 03 02 01 00 0a 07 01 05 00 d2 00 1a 0b", 0x17, "undeclared function reference")
told("exported-ref-func", HEADER + "01 04 01 60 00 00 03 02 01 00 07 05 01 01 61 00 00 0a 07 01 05 00 d2 00 1a 0b")
told("data-count", HEADER + "01 04 01 60 00 00 03 02 01 00 0c 01 01 0a 07 01 05 00 fc 09 00 0b 0b 03 01 01 00")
told(
    "no-data-count",
    HEADER + "01 04 01 60 00 00 03 02 01 00 0a 07 01 05 00 fc 09 00 0b 0b 03 01 01 00",
    0x17,
    "data count section required",
)
told(
    "wrong-data-count",
    HEADER + "01 04 01 60 00 00 03 02 01 00 0c 01 02 0a 07 01 05 00 fc 09 00 0b 0b 03 01 01 00",
    0x23,
    "data count and data section have inconsistent lengths",
)
told("start", HEADER + "01 04 01 60 00 00 03 02 01 00 08 01 00 0a 04 01 02 00 0b")
told(
    "start-with-result",
    HEADER + "01 05 01 60 00 01 7f 03 02 01 00 08 01 00 0a 06 01 04 00 41 2a 0b",
    0x15,
    "invalid start function type",
)
told("global-of-earlier-global", HEADER + "06 0b 02 7f 00 41 2a 0b 7f 00 23 00 0b")
told("global-of-itself", HEADER + "06 0b 02 7f 00 41 2a 0b 7f 00 23 01 0b", 0x12, "unknown global 1: global index out of bounds")
told("table-not-defaultable", HEADER + "04 05 01 64 70 00 00", 0xb, "type mismatch: non-defaultable element type")
told(
    "ref-func-as-data-offset",
    HEADER + "01 04 01 60 00 00 03 02 01 00 05 03 01 00 00 0a 04 01 02 00 0b 0b 06 01 00 d2 00 0b 00",
    0x23,
    "type mismatch: expected i32, found (ref $type)",
)

# branches, calls, exceptions
told("br-table-two-results", HEADER + "01 06 01 60 00 02 7f 7f 03 02 01 00 0a 0e 01 0c 00 41 00 41 01 41 02 0e 01 00 00 0b")
told("if-without-else", HEADER + "01 0c 02 60 02 7e 7f 01 7e 60 01 7e 01 7e 03 02 01 00 0a 0e 01 0c 00 20 00 20 01 04 01 1a 42 7f 0b 0b")
told("repeated-imports", HEADER + "01 04 01 60 00 00 02 14 03 01 61 01 62 00 00 01 61 01 63 03 7f 00 01 61 01 62 00 00")
told(
    "return-call-of-another-result",
    HEADER + "01 09 02 60 00 01 7f 60 00 01 7e 03 03 02 01 00 0a 0b 02 04 00 42 00 0b 04 00 12 00 0b",
    0x22,
    "type mismatch: current function and callee have different results",
)
told("return-call-of-itself", HEADER + "01 09 02 60 00 01 7f 60 00 01 7e 03 03 02 01 00 0a 0b 02 04 00 42 00 0b 04 00 12 01 0b")
told(
    "legacy-try-off",
    HEADER + "01 09 02 60 00 01 7f 60 01 7f 00 03 02 01 00 0d 03 01 00 01 0a 0d 01 0b 00 06 7f 41 07 08 00 07 00 0b 0b",
    0x21,
    "legacy_exceptions feature required for try instruction",
)
