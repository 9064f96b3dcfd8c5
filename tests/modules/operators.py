"""Operators: operands, indices, memory arguments, locals, branches, calls, features."""

from spelling import *

BEYOND = "operators remaining after end of function body or expression"
REMAIN = "control frames remain at end of function body or expression"

# ---- operands

row("eqz-of-f32", fn(F32, AT, "45", "1a", E), mis("i32", "f32"))
row("f64-from-nothing", fn(AT, "9a", "1a", E), none("f64"))
row("second-operand-i64", fn(i64(0), i32(0), AT, "6a", "1a", E), mis("i32", "i64"))
row("funcref-for-externref", fn("d070", AT, E, r=["externref"]), mis("externref", "funcref"))
row("result-left-twice", fn(i32(0), i32(1), AT, E, r=["i32"]), LEFT)
row("results-swapped", fn(i64(0), i32(0), AT, E, r=["i32", "i64"]), mis("i64", "i32"))
row("block-leaves-operand", fn("0240", i32(0), AT, E, "1a", E), LEFT)
row("block-hides-operand", fn(i32(0), "0240", AT, "1a", E, "1a", E), none("a type"))
row("block-without-result", fn("027f", AT, E, "1a", E), none("i32"))
row("block-result-of-another-type", fn("027f", i64(0), AT, E, "1a", E), mis("i32", "i64"))
row(
    "block-lacks-parameter",
    fn("0201", AT, E, E, types=[ft(["i32"], [])]) if 0 else fn(AT, "0201", "1a", E, E, types=[ft(["i32"], [])]),
    none("i32"),
)
row("nested-operands", fn(i32(1), "027f", i32(2), "027f", i32(3), E, "6a", E, "6a", E, r=["i32"]))
row("drop-vector-free", fn(F64, "1a", "d06f", "1a", E))

# ---- unknown indices

row("unknown-label", fn(AT, "0c01", E), "unknown label: branch depth too large")
row("unknown-label-of-br-if", fn("0240", i32(0), AT, "0d02", E, E), "unknown label: branch depth too large")
row("unknown-label-of-br-table", fn(i32(0), AT, "0e01", "0300", E), "unknown label: branch depth too large")
row("unknown-default-of-br-table", fn(i32(0), AT, "0e01", "0003", E), "unknown label: branch depth too large")
row("outermost-label", fn("0240", "0240", "0c02", E, E, E))
row("unknown-local-set", fn(i32(0), AT, "2101", E, locals=[(1, "i32")]), "unknown local 1: local index out of bounds")
row("unknown-local-tee", fn(i32(0), AT, "2200", "1a", E), "unknown local 0: local index out of bounds")
row("last-local", fn("2003", "1a", E, p=["i64"], locals=[(2, "i32"), (1, "f64")]))
row("unknown-global", fn(AT, "2300", "1a", E), "unknown global: global index out of bounds")
row("unknown-global-set", fn(i32(0), AT, "2401", E, globals=[["7f01", i32(0), E]]), "unknown global: global index out of bounds")
row("unknown-table", fn(i32(0), AT, "2500", "1a", E), "unknown table 0: table index out of bounds")
row("unknown-table-size", fn(AT, "fc1001", "1a", E, tables=[TAB]), "unknown table 1: table index out of bounds")
row("unknown-table-of-call", fn(i32(0), AT, "110000", E), "unknown table 0: table index out of bounds")
row("unknown-memory", fn(i32(0), AT, "280200", "1a", E), "unknown memory 0")
row("unknown-second-memory", fn(i32(0), AT, "28420100", "1a", E, mems=[MEM]), "unknown memory 1")
row("memory-size-without-memory", fn(AT, "3f00", "1a", E), "unknown memory 0")
row("memory-grow-without-memory", fn(i32(0), AT, "4000", "1a", E), "unknown memory 0")
row("memory-fill-without-memory", fn(i32(0), i32(0), i32(0), AT, "fc0b00", E), "unknown memory 0")
row(
    "unknown-data-segment",
    fn(i32(0), i32(0), i32(0), AT, "fc080100", E, mems=[MEM], datacount=leb(1), data=[["01", leb(0)]]),
    "unknown data segment 1",
)
row("unknown-data-segment-dropped", fn(AT, "fc0902", E, datacount=leb(1), data=[["01", leb(0)]]), "unknown data segment 2")
row(
    "memory-init-without-data-count",
    fn(i32(0), i32(0), i32(0), AT, "fc080000", E, mems=[MEM], data=[["01", leb(0)]]),
    "data count section required",
)
row("unknown-element-segment", fn(AT, "fc0d00", E), "unknown elem segment 0: segment index out of bounds")
row(
    "unknown-element-segment-of-init",
    fn(i32(0), i32(0), i32(0), AT, "fc0c0100", E, tables=[TAB], elems=[["0100", vec([])]]),
    "unknown elem segment 1: segment index out of bounds",
)
row("unknown-function", fn(AT, "1005", E), "unknown function 5: function index out of bounds")
row("unknown-function-of-tail-call", fn(AT, "1201", E), "unknown function 1: function index out of bounds")
row("unknown-function-of-ref-func", fn(AT, "d203", "1a", E), "unknown function 3: function index out of bounds")
row("unknown-type-of-call", fn(i32(0), AT, "110700", E, tables=[TAB]), "unknown type: type index out of bounds")
row("unknown-type-of-block", fn(AT, "0209", E, E), "unknown type: type index out of bounds")
row("unknown-type-of-ref-null", fn(AT, "d005", "1a", E), "unknown type 5: type index out of bounds")
row(
    "unknown-type-of-local",
    mod(types=[ft([], [])], funcs=[0], code=[["01", AT, "01", "6305", E]]),
    "unknown type 5: type index out of bounds",
)
row("unknown-type-of-block-result", fn(AT, "026304", "00", E, "1a", E), "unknown type 4: type index out of bounds")

# ---- memory arguments

ALIGN = "malformed memop alignment: alignment must not be larger than natural"
OFF = "offset out of range: must be <= 2**32"
ATOM = "atomic instructions must always specify maximum alignment"
row("load-alignment-too-large", fn(i32(0), AT, "280300", "1a", E, mems=[MEM]), "invalid memop alignment: alignment must not be larger than natural")
row("load-byte-alignment-too-large", fn(i32(0), AT, "2c0100", "1a", E, mems=[MEM]), "invalid memop alignment: alignment must not be larger than natural")
row("store-alignment-too-large", fn(i32(0), F64, AT, "390400", E, mems=[MEM]), "invalid memop alignment: alignment must not be larger than natural")
row("alignment-natural-or-less", fn(i32(0), "280200", "1a", i32(0), "280000", "1a", i32(0), "2b0300", "1a", E, mems=[MEM]))
row("alignment-flag-too-large", fn(i32(0), "28", AT, "1000", "1a", E, mems=[MEM]), "malformed memop alignment: alignment too large")
row("atomic-alignment-too-small", fn(i32(0), AT, "fe100100", "1a", E, mems=["030101"]), ATOM)
row("atomic-alignment-too-large", fn(i32(0), AT, "fe120100", "1a", E, mems=["030101"]), ATOM)
row("offset-past-32-bits", fn(i32(0), AT, "2802", "8080808010", "1a", E, mems=[MEM]), OFF)
row("largest-offset", fn(i32(0), "2802", "ffffffff0f", "1a", E, mems=[MEM]))
row("offset-past-32-bits-of-64", fn(i64(0), "2802", "8080808010", "1a", E, mems=[MEM64]))
row("atomic-offset-past-32-bits", fn(i32(0), AT, "fe1002", "8080808010", "1a", E, mems=["030101"]), OFF)
row("memory-by-i64", fn(i64(0), AT, "280200", "1a", E, mems=[MEM]), mis("i32", "i64"))
row("memory64-by-i32", fn(i32(0), AT, "280200", "1a", E, mems=[MEM64]), mis("i64", "i32"))
row("store64-by-i32", fn(i32(0), i32(0), AT, "360200", E, mems=[MEM64]), mis("i64", "i32"))
row("memory64-size-is-i64", fn("3f00", AT, "45", "1a", E, mems=[MEM64]), mis("i32", "i64"))
row("memory64-grown-by-i32", fn(i32(0), AT, "4000", "1a", E, mems=[MEM64]), mis("i64", "i32"))
row("store-of-another-type", fn(i32(0), i64(0), AT, "360200", E, mems=[MEM]), mis("i32", "i64"))
row("store-swapped", fn(i64(0), i32(0), AT, "370300", E, mems=[MEM]), mis("i64", "i32"))

# ---- locals and globals

NN = "(ref func)"
row("uninitialised-local", fn(AT, "2000", "1a", E, locals=[(1, NN)]), "uninitialized local: 0")
row("second-local-uninitialised", fn(AT, "2001", "1a", E, locals=[(1, "funcref"), (1, NN)]), "uninitialized local: 1")
row("initialised-local", fn("d200", "2100", "2000", "1a", E, locals=[(1, NN)], exports=[exp("a", "00", 0)]))
row("local-initialised-by-tee", fn("d200", "2200", "1a", "2000", "1a", E, locals=[(1, NN)], exports=[exp("a", "00", 0)]))
row(
    "local-initialised-in-block",
    fn("0240", "d200", "2100", E, AT, "2000", "1a", E, locals=[(1, NN)], exports=[exp("a", "00", 0)]),
    "uninitialized local: 0",
)
row("local-initialised-before-block", fn("d200", "2100", "0240", "2000", "1a", E, E, locals=[(1, NN)], exports=[exp("a", "00", 0)]))
row(
    "local-initialised-in-then",
    fn(i32(0), "0440", "d200", "2100", "05", AT, "2000", "1a", E, E, locals=[(1, NN)], exports=[exp("a", "00", 0)]),
    "uninitialized local: 0",
)
row("uninitialised-in-unreachable", fn("00", AT, "2000", "1a", E, locals=[(1, NN)]), "uninitialized local: 0")
row("set-in-unreachable", fn("00", "2100", "2000", "1a", E, locals=[(1, NN)]))
row("non-null-parameter", fn("2000", "1a", E, p=[NN]))
row(
    "immutable-global-set",
    fn(i32(0), AT, "2400", E, globals=[["7f00", i32(0), E]]),
    "global is immutable: cannot modify it with `global.set`",
)
row(
    "immutable-global-in-unreachable",
    fn("00", AT, "2400", E, globals=[["7f00", i32(0), E]]),
    "global is immutable: cannot modify it with `global.set`",
)
row("global-set-of-another-type", fn(i64(0), AT, "2400", E, globals=[["7f01", i32(0), E]]), mis("i32", "i64"))
row("global-get-type", fn("2300", AT, "45", "1a", E, globals=[["7e00", i64(0), E]]), mis("i32", "i64"))
row(
    "tee-gives-type-of-local",
    fn("d200", "2200", AT, E, r=[NN], locals=[(1, "funcref")], exports=[exp("a", "00", 0)]),
    mis("(ref func)", "funcref"),
)
row("tee-of-another-type", fn(i32(0), AT, "2200", "1a", E, p=["i64"]), mis("i64", "i32"))

# ---- select

row("select-of-two-types", fn(i32(0), i64(0), i32(0), AT, "1b", "1a", E), SM + "select operands have different types")
row("select-of-references", fn("d070", "d070", i32(0), AT, "1b", "1a", E), SM + "select only takes integral types")
row("select-of-one-reference", fn("00", "d070", i32(0), AT, "1b", "1a", E), SM + "select only takes integral types")
row("select-typed-reference", fn("d070", "d070", i32(0), "1c0170", "1a", E))
row("select-typed-subtype", fn("d200", "d070", i32(0), "1c0170", "1a", E, exports=[exp("a", "00", 0)]))
row("select-typed-mismatch", fn(i64(0), i64(0), i32(0), AT, "1c017f", "1a", E), mis("i32", "i64"))
row("select-typed-without-type", fn(i32(0), i32(0), i32(0), AT, "1c00", "1a", E), "invalid result arity")
row("select-typed-with-two-types", fn(i32(0), i32(0), i32(0), AT, "1c027f7f", "1a", E), "invalid result arity")
row("select-condition-i64", fn(i32(0), i32(0), i64(0), AT, "1b", "1a", E), mis("i32", "i64"))
row("select-in-unreachable", fn("00", "1b", E, r=["i32"]))
row("select-known-under-unknown", fn("00", i64(0), i32(0), "1b", AT, E, r=["i32"]), mis("i32", "i64"))

# ---- structure

row(
    "br-table-lengths-differ",
    fn("0240", "027f", i32(0), i32(0), AT, "0e01", "0001", E, "1a", E, E),
    SM + "br_table target labels have different number of types",
)
row("br-table-types-differ", fn("027e", "027f", i64(0), i32(0), AT, "0e01", "0001", E, "1a", i64(0), E, "1a", E), mis("i32", "i64"))
row("br-table-by-i64", fn(i64(0), AT, "0e0000", E), mis("i32", "i64"))
ELSE = "`else` found outside `if` block"
row("else-without-if", fn("0240", "05", AT, E, E), "`else` found outside `If` block")
row("else-in-function", fn("05", AT, E), "`else` found outside `If` block")
row("second-else", fn(i32(0), "0440", "05", "05", AT, E, E), "`else` found outside `If` block")
row("if-without-else-with-result", fn(i32(0), "047f", i32(0), AT, E, "1a", E), none("i32"))
row(
    "if-without-else-types-differ",
    fn(i32(0), i32(0), "0401", "1a", i64(0), AT, E, "1a", E, types=[ft(["i32"], ["i64"])]),
    mis("i64", "i32"),
)
row("if-condition-i64", fn(i64(0), AT, "0440", E, E), mis("i32", "i64"))
row("if-without-condition", fn(AT, "0440", E, E), none("i32"))
row("then-of-another-type", fn(i32(0), "047f", i64(0), AT, "05", i32(0), E, "1a", E), mis("i32", "i64"))
row("else-of-another-type", fn(i32(0), "047f", i32(0), "05", i64(0), AT, E, "1a", E), mis("i32", "i64"))
row("then-leaves-operand", fn(i32(0), "0440", i32(0), AT, "05", E, E), LEFT)
row("block-without-end", mod(types=[ft([], [])], funcs=[0], code=[["00", "0240", E, AT]]), REMAIN)
row("operators-behind-end", fn(E, AT, "01", E), BEYOND)

# ---- unreachable code

row("return-leaves-operand", fn("0f", i32(1), AT, E), LEFT)
row("return-drops-operands", fn(i64(0), i32(1), "0f", E, r=["i32"]))
row("return-without-operand", fn(AT, "0f", E, r=["i32"]), none("i32"))
row("return-of-another-type", fn(i64(0), AT, "0f", E, r=["i32"]), mis("i32", "i64"))
row("br-drops-operands", fn("0240", i64(0), "0c00", E, E))
row("br-then-anything", fn("027f", i32(1), "0c00", "6a", E, "1a", E))
row("br-lacks-value", fn("027f", AT, "0c00", E, "1a", E), none("i32"))
row("unreachable-block-ends", fn("0240", "00", E, AT, "6a", "1a", E), none("i32"))
row("unreachable-frame-only", fn("00", "0240", AT, "6a", "1a", E, E), none("i32"))
row("unreachable-two-results", fn("00", E, r=["i32", "i64"]))
row("unreachable-drop-twice", fn("00", "1a", "1a", "1a", E))
row("unreachable-value-over-unknown", fn("00", i64(0), AT, "6a", "1a", E), mis("i32", "i64"))
row("unreachable-unknown-below", fn("00", i32(0), "6a", "1a", E))
row("unreachable-result-over-unknown", fn("00", i32(0), i64(0), AT, E, r=["i32"]), mis("i32", "i64"))
row("unreachable-too-many", fn("00", i32(0), i32(0), AT, E, r=["i32"]), LEFT)
row("unreachable-br-if", fn("027f", "00", "0d00", E, "1a", E))
row("unreachable-br-if-gives-type", fn("027f", "00", "0d00", AT, "a7", E, "1a", E), mis("i64", "i32"))
row("unreachable-br-table-of-two-types", fn("027e", "027f", "00", "0e01", "0001", E, "1a", i64(0), E, "1a", E))
row(
    "unreachable-br-table-lengths-differ",
    fn("0240", "027f", "00", AT, "0e01", "0001", E, "1a", E, E),
    SM + "br_table target labels have different number of types",
)
row("unreachable-if", fn("00", "047f", i32(0), "05", i32(1), E, "1a", E))
row("unreachable-call", fn("00", "1000", E, p=["i32", "i64"], r=["i32"]))
row("unreachable-ref-is-null", fn("00", "d1", E, r=["i32"]))
row("unreachable-local-set", fn("00", "2100", E, locals=[(1, "i64")]))
row("unreachable-tee-gives-type", fn("00", "2200", AT, "45", "1a", E, locals=[(1, "i64")]), mis("i32", "i64"))

# ---- calls

row("call-lacks-argument", fn(AT, "1001", E, types=[ft(["i32"], [])], funcs=[0, 1], more=[body(E)]), none("i32"))
row(
    "call-argument-of-another-type",
    fn(F32, AT, "1001", E, types=[ft(["i32"], [])], funcs=[0, 1], more=[body(E)]),
    mis("i32", "f32"),
)
row(
    "call-arguments-swapped",
    fn(i64(0), i32(0), AT, "1001", E, types=[ft(["i32", "i64"], [])], funcs=[0, 1], more=[body(E)]),
    mis("i64", "i32"),
)
row(
    "call-result-type",
    fn("1001", AT, "a7", "1a", E, types=[ft([], ["f64"])], funcs=[0, 1], more=[body(F64, E)]),
    mis("i64", "f64"),
)
row(
    "call-indirect-of-externref",
    fn(i32(0), AT, "110000", E, tables=[TABX]),
    "type mismatch: indirect calls must go through a table with type <= funcref",
)
row("call-indirect-by-i64", fn(i64(0), AT, "110000", E, tables=[TAB]), mis("i32", "i64"))
row("call-indirect-64-by-i32", fn(i32(0), AT, "110000", E, tables=[TAB64]), mis("i64", "i32"))
row("call-indirect-64", fn(i64(0), "110000", E, tables=[TAB64]))
row("call-indirect-lacks-argument", fn(i32(0), AT, "110100", E, types=[ft(["i32"], [])], tables=[TAB]), none("i32"))
RET = SM + "current function and callee have different results"
row("tail-call-lacks-result", fn(AT, "1201", E, r=["i32"], types=[ft([], [])], funcs=[0, 1], more=[body(E)]), RET.format("i32", ""))
row(
    "tail-call-indirect-of-another-result",
    fn(i32(0), AT, "130100", E, r=["i32"], types=[ft([], ["i64"])], tables=[TAB]),
    RET.format("i32", "i64"),
)
row("tail-call-of-subtype-result", fn("1201", E, r=["funcref"], types=[ft([], [NN])], funcs=[0, 1], more=[body("1201", E)]))
row(
    "tail-call-of-supertype-result",
    fn(AT, "1201", E, r=[NN], types=[ft([], ["funcref"])], funcs=[0, 1], more=[body("d070", E)]),
    RET.format("(ref func)", "funcref"),
)
row("tail-call-lacks-argument", fn(AT, "1201", E, types=[ft(["i32"], [])], funcs=[0, 1], more=[body(E)]), none("i32"))

# ---- branches that take parameters, loops

SAME_I32 = [ft(["i32"], ["i32"])]
row(
    "loop-label-takes-parameters",
    fn(i32(0), "0301", "0c00", E, "1a", E, types=[ft(["i32"], ["i64"])]),
)
row("loop-label-takes-no-result", fn("037f", i32(0), "0c00", E, "1a", E))
row(
    "loop-label-of-result-type",
    fn(i32(0), "0301", "1a", i64(0), AT, "0c00", E, "1a", E, types=[ft(["i32"], ["i64"])]),
    mis("i32", "i64"),
)
row("loop-br-if", fn("0340", i32(0), "0d00", E, E))
row("loop-br-if-lacks-parameter", fn(i32(0), "0301", "1a", i32(0), AT, "0d00", i32(0), E, "1a", E, types=SAME_I32), none("i32"))
row("block-label-takes-results", fn(i32(0), "0201", "1a", i64(0), "0c00", E, "1a", E, types=[ft(["i32"], ["i64"])]))
row("block-label-of-parameter-type", fn(i32(0), "0201", AT, "0c00", E, "1a", E, types=[ft(["i32"], ["i64"])]), mis("i64", "i32"))
row("br-if-keeps-operands", fn("027f", i32(1), i32(2), "0d00", E, "1a", E))
row("br-if-lacks-condition", fn(AT, "0d00", E), none("i32"))
row("br-if-value-of-another-type", fn("027f", i64(1), i32(2), AT, "0d00", E, "1a", E), mis("i32", "i64"))
row("br-to-function", fn(i32(7), "0c00", E, r=["i32"]))
row("br-to-function-of-another-type", fn(i64(7), AT, "0c00", E, r=["i32"]), mis("i32", "i64"))

# ---- tables, references

row("table-get-by-i64", fn(i64(0), AT, "2500", "1a", E, tables=[TAB]), mis("i32", "i64"))
row("table64-get-by-i32", fn(i32(0), AT, "2500", "1a", E, tables=[TAB64]), mis("i64", "i32"))
row("table64-size-is-i64", fn("fc1000", AT, "45", "1a", E, tables=[TAB64]), mis("i32", "i64"))
row("table64-grown-by-i32", fn("d070", i32(0), AT, "fc0f00", "1a", E, tables=[TAB64]), mis("i64", "i32"))
row("table-set-of-another-type", fn(i32(0), "d06f", AT, "2600", E, tables=[TAB]), mis("funcref", "externref"))
row("table-grow-swapped", fn(i32(1), "d070", AT, "fc0f00", "1a", E, tables=[TAB]), mis("i32", "funcref"))
row("table-fill-of-another-type", fn(i32(0), "d070", i32(0), AT, "fc1100", E, tables=[TABX]), mis("externref", "funcref"))
row(
    "table-init-of-another-type",
    fn(i32(0), i32(0), i32(0), AT, "fc0c0000", E, tables=[TABX], elems=[["0100", vec([])]]),
    "type mismatch",
)
row("table-init-by-i64", fn(i64(0), i32(0), i32(0), AT, "fc0c0000", E, tables=[TAB], elems=[["0100", vec([])]]), mis("i32", "i64"))
row("table-init-64", fn(i64(0), i32(0), i32(0), "fc0c0000", E, tables=[TAB64], elems=[["0100", vec([])]]))
row("table-copy-of-another-type", fn(i32(0), i32(0), i32(0), AT, "fc0e0001", E, tables=[TAB, TABX]), "type mismatch")
row("table-copy-of-subtype", fn(i32(0), i32(0), i32(0), "fc0e0001", E, tables=[TAB, ["4000", "64700001", "d200", E]]))
row(
    "table-copy-to-subtype",
    fn(i32(0), i32(0), i32(0), AT, "fc0e0100", E, tables=[TAB, ["4000", "64700001", "d200", E]]),
    "type mismatch",
)
row("table-copy-64-to-32", fn(i32(0), i64(0), i32(0), "fc0e0001", E, tables=[TAB, TAB64]))
row("table-copy-length-of-64", fn(i32(0), i64(0), i64(0), AT, "fc0e0001", E, tables=[TAB, TAB64]), mis("i32", "i64"))
row("memory-copy-of-i64", fn(i32(0), i64(0), i32(0), AT, "fc0a0000", E, mems=[MEM]), mis("i32", "i64"))
row("memory-copy-64-to-32", fn(i32(0), i64(0), i32(0), "fc0a0001", E, mems=[MEM, MEM64]))
row("memory-copy-32-to-64", fn(i32(0), i64(0), i32(0), AT, "fc0a0100", E, mems=[MEM, MEM64]), mis("i32", "i64"))
row("memory-copy-64-by-i32", fn(i64(0), i64(0), i32(0), AT, "fc0a0000", E, mems=[MEM64]), mis("i64", "i32"))
row("memory-fill-of-i64", fn(i32(0), i64(0), i32(0), AT, "fc0b00", E, mems=[MEM]), mis("i32", "i64"))
row("memory-fill-64", fn(i64(0), i32(0), i64(0), "fc0b00", E, mems=[MEM64]))
row("memory-fill-64-by-i32", fn(i32(0), i32(0), i64(0), AT, "fc0b00", E, mems=[MEM64]), mis("i64", "i32"))
row("memory-init-64", fn(i64(0), i32(0), i32(0), "fc080000", E, mems=[MEM64], datacount=leb(1), data=[["01", leb(0)]]))
row(
    "memory-init-64-by-i32",
    fn(i32(0), i32(0), i32(0), AT, "fc080000", E, mems=[MEM64], datacount=leb(1), data=[["01", leb(0)]]),
    mis("i64", "i32"),
)
row(
    "memory-init-length-i64",
    fn(i64(0), i32(0), i64(0), AT, "fc080000", E, mems=[MEM64], datacount=leb(1), data=[["01", leb(0)]]),
    mis("i32", "i64"),
)
row("ref-is-null-of-number", fn(i32(0), AT, "d1", "1a", E), SM + "expected ref but found i32")
row("ref-is-null-of-nothing", fn(AT, "d1", "1a", E), none("a type"))
row("ref-null-of-type", fn("d000", "d1", "1a", E))
row(
    "ref-func-is-non-null",
    fn("d200", E, r=["6400"], funcs=[1], types=[ft([], ["6400"])], exports=[exp("a", "00", 0)]) if 0 else mod(types=[ft([], ["(ref func)"])], funcs=[0], exports=[exp("a", "00", 0)], code=[body("d200", E)]),
)
row(
    "ref-func-of-its-type",
    mod(types=[ft([], []), ft([], ["6400"])], funcs=[0, 1], exports=[exp("a", "00", 0)], code=[body(E), body("d200", E)]),
)
row(
    "ref-func-of-another-type",
    mod(types=[ft([], []), ft([], ["6401"])], funcs=[0, 1], exports=[exp("a", "00", 0)], code=[body(E), body("d200", AT, E)]),
    mis("(ref $type)", "(ref $type)"),
)
row("ref-null-for-non-null", fn("d070", AT, E, r=[NN]), mis("(ref func)", "funcref"))
row(
    "undeclared-ref-func-of-import",
    mod(types=[ft([], [])], imports=[imp("a", "b", "00", 0)], funcs=[0], code=[body(AT, "d200", "1a", E)]),
    "undeclared function reference",
)

# ---- features that are off

row("memory-discard-off", fn(i32(0), i32(0), AT, "fc1200", E, mems=[MEM]), "memory control support is not enabled")
row("wide-arithmetic-off", fn(i64(0), i64(0), i64(0), i64(0), AT, "fc13", "1a", "1a", E), "wide arithmetic support is not enabled")
row("wide-multiplication-off", fn(i64(0), i64(0), AT, "fc16", "1a", "1a", E), "wide arithmetic support is not enabled")
row("continuation-operator-off", fn(AT, "e200", E), "stack switching support is not enabled")
row(
    "shared-global-operator-off",
    fn(AT, "fe4f0000", "1a", E, globals=[["7f01", i32(0), E]]),
    "shared-everything-threads support is not enabled",
)
row("descriptor-operator-off", fn(AT, "fb2000", "1a", E), "custom descriptors operations support is not enabled")
row("legacy-rethrow-off", fn(AT, "0900", E), "legacy exceptions support is not enabled")

# ---- malformed operators

row("unknown-code-behind-fb", fn(AT, "fb1f", E), "unknown 0xfb subopcode: 0x1f")
row("unknown-code-behind-fc", fn(AT, "fc18", E), "unknown 0xfc subopcode: 0x18")
row("unknown-code-behind-fe", fn(AT, "fe73", E), "unknown 0xfe subopcode: 0x73")
row("fence-of-another-byte", fn(AT, "fe0301", E), "nonzero byte after `atomic.fence`")
row("operator-cut", mod(types=[ft([], [])], funcs=[0], code=[["00", "28", "02", AT]]), "unexpected end-of-file")
row("br-table-too-long", fn(i32(0), "0e", AT, "b297d303", E), "br_table size is out of bounds")
row("select-of-eleven-types", fn("1c", AT, "0b", "7f" * 11, E), "select types size is out of bounds")
row("select-of-ten-types", fn(AT, "1c", "0a", "7f" * 10, E), "invalid result arity")
row(
    "local-index-too-long",
    fn("20", AT if 0 else [], "8080808080", "00", E) if 0 else fn("20", "80808080", AT, "8000", "1a", E, locals=[(1, "i32")]),
    "invalid var_u32: integer representation too long",
)
row("i64-constant-too-large", fn("42", "80808080808080808080"[:18], AT, "01", "1a", E), "invalid var_i64: integer too large")
row("block-type-unknown", fn("02", AT, "60", E, E), "invalid value type")
row("local-type-unknown", mod(types=[ft([], [])], funcs=[0], code=[["01", "01", AT, "40", E]]), "invalid value type")
