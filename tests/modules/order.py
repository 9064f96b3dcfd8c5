"""Which of several faults is told; subtypes, names of types, vectors."""

from spelling import *
from groups import *


# ---- order of faults

row("memory-before-segment", fn(AT, "fc080500", E), "unknown memory 0")
row("segment-before-operands", fn(AT, "fc080500", E, mems=[MEM], datacount=leb(0)), "unknown data segment 5")
row("table-before-type", fn(AT, "110902", E), "unknown table 2: table index out of bounds")
row("table-index-before-type", fn(AT, "110900", E, tables=[TAB]), none("i32"))
row("block-type-before-condition", fn(AT, "0409", E, E), "unknown type: type index out of bounds")
row("condition-before-label", fn(AT, "0d05", E), none("i32"))
row("condition-before-labels", fn(AT, "0e010506", E), none("i32"))
row("type-of-select-before-operands", fn(AT, "1c016305", E), "unknown type 5: type index out of bounds")
row(
    "mutability-before-operand",
    fn(AT, "2400", E, globals=[["7f00", i32(0), E]]),
    "global is immutable: cannot modify it with `global.set`",
)
row("local-before-operand", fn(AT, "2100", E), "unknown local 0: local index out of bounds")
row("table-before-segment", fn(AT, "fc0c0700", E), "unknown table 0: table index out of bounds")
row("element-types-before-operands", fn(AT, "fc0c0000", E, tables=[TABX], elems=[["0100", vec([])]]), "type mismatch")
row("source-table-first", fn(AT, "fc0e0506", E), "unknown table 6: table index out of bounds")
row("target-memory-first", fn(AT, "fc0a0506", E), "unknown memory 5")
row("memory-before-alignment", fn(AT, "280500", E), "unknown memory 0")
row("alignment-before-offset", fn(AT, "2805", "8080808010", E, mems=[MEM]), "invalid memop alignment: alignment must not be larger than natural")
row("alignment-before-address", fn(AT, "280500", E, mems=[MEM]), "invalid memop alignment: alignment must not be larger than natural")
row("atomic-alignment-before-memory", fn(AT, "fe100100", E), ATOM)
row("results-before-arguments", fn(AT, "1201", E, r=["i32"], types=[ft(["i32"], [])], funcs=[0, 1], more=[body(E)]), RET)
row("feature-before-operands", fn(AT, "fc13", E), "wide arithmetic support is not enabled")
row("results-before-height", fn(i32(1), i32(2), i64(3), AT, E, r=["i32"]), mis("i32", "i64"))
row("last-operand-first", fn(F32, F64, AT, "6a", E), mis("i32", "f64"))
row(
    "default-label-first",
    fn("0240", "027e", i32(0), i32(0), AT, "0e020001", "05", E, "1a", E, E),
    "unknown label: branch depth too large",
)
row(
    "element-type-before-offset",
    mod(tables=[TAB], elems=[[AT, "0600", i64(0), E, "6f", vec([])]]),
    SM + "invalid element type `externref` for table type `funcref`",
)
row("element-offset-before-items", mod(tables=[TAB], elems=[["00", i64(0), AT, E, ["01", "05"]]]), mis("i32", "i64"))
row(
    "element-items-read-before-table",
    mod(elems=[["00", i32(0), E, ["01", "ffffffff", AT, "1f"]]]),
    "invalid var_u32: integer too large",
)
row("element-type-before-table", mod(elems=[[AT, "0605", i32(0), E, "6307", vec([])]]), "unknown type 7: type index out of bounds")
row("data-memory-before-offset", mod(data=[[AT, "00", i64(0), E, sized("")]]), "unknown memory 0: memory index out of bounds")
row("table-type-before-default", mod(tables=[[AT, "6305000000"[:4], "0101", "00"]]), "unknown type 5: type index out of bounds")
row(
    "table-limits-before-default",
    mod(tables=[[AT, "6470", "010201"[:2], "0201"]]),
    "size minimum must not be greater than maximum",
)
row("global-type-before-value", mod(globals=[[AT, "6305", "00", i32(0), E]]), "unknown type 5: type index out of bounds")
row(
    "sections-before-bodies",
    mod(types=[ft([], [])], funcs=[0], code=[body("6a", E)], data=[[AT, "00", i32(0), E, sized("")]]),
    "unknown memory 0: memory index out of bounds",
)
row("bodies-in-order", mod(types=[ft([], [])], funcs=[0, 0], code=[body(E), body(AT, "1a", E)]), none("a type"))
row(
    "undeclared-by-later-data",
    mod(types=[ft([], [])], funcs=[0], mems=[MEM], code=[body("1a", E)], data=[["00", "d200", AT, E, sized("")]]),
    mis("i32", "(ref $type)"),
)
row("limits-read-before-type", mod(tables=[["6305", "00", AT]]), "unexpected end-of-file")
row("memory-section-cut", mod(mems=[["00", AT]]), "unexpected end-of-file")

# ---- subtypes in places

row(
    "call-argument-of-subtype",
    fn("d200", "1001", E, types=[ft(["funcref"], [])], funcs=[0, 1], exports=[exp("a", "00", 0)], more=[body(E)]),
)
row("call-argument-of-supertype", fn("d070", AT, "1001", E, types=[ft([NN], [])], funcs=[0, 1], more=[body(E)]), mis(NN, "funcref"))
row("global-set-of-subtype", fn("d200", "2400", E, globals=[["7001", "d070", E]], exports=[exp("a", "00", 0)]))
row("table-set-of-subtype", fn(i32(0), "d200", "2600", E, tables=[TAB], exports=[exp("a", "00", 0)]))
row("block-result-of-subtype", fn("0270", "d200", E, "1a", E, exports=[exp("a", "00", 0)]))
row("branch-of-subtype", fn("0270", "d200", "0c00", E, "1a", E, exports=[exp("a", "00", 0)]))
row("br-table-of-subtype", fn("0270", "026470", "d200", i32(0), "0e010001", E, E, "1a", E, exports=[exp("a", "00", 0)]))
row("br-table-of-supertype", fn("026470", "0270", "d070", i32(0), AT, "0e010001", E, "00", E, "1a", E), mis(NN, "funcref"))
row("struct-subtype-null", mod(types=["50005f00", "5001005f017f00"], globals=[["6300", "00", "d001", E]]))
row(
    "struct-supertype-null",
    mod(types=["50005f00", "5001005f017f00"], globals=[["6301", "00", "d000", AT, E]]),
    mis("(ref null $type)", "(ref null $type)"),
)
row(
    "struct-null-below-struct",
    mod(
        types=["5f00", "5e7f00", ft([], [])],
        globals=[["6b00", "d000", E], ["6a00", "d001", E], ["7000", "d002", E], ["6d00", "d000", E], ["6e00", "d001", E]],
    ),
)
row("struct-null-above-i31", mod(types=["5f00"], globals=[["6c00", "d000", AT, E]]), mis("i31ref", "(ref null $type)"))
row(
    "bottom-null-below-all",
    mod(
        types=["5f00", ft([], [])],
        globals=[
                    ["6300", "00", "d071", E],
                    ["6301", "00", "d073", E],
                    ["6d00", "d071", E],
                    ["6900", "d074", E],
                    ["6f00", "d072", E],
                ],
    ),
)

# ---- names of types in messages

for h, n in [('70', 'func'), ('6f', 'extern'), ('6e', 'any'), ('6d', 'eq'), ('6c', 'i31'), ('6b', 'struct'), ('6a', 'array'), ('69', 'exn'), ('71', 'none'), ('72', 'noextern'), ('73', 'nofunc'), ('74', 'noexn')]:
    wat = {'none': 'nullref', 'noextern': 'nullexternref', 'nofunc': 'nullfuncref', 'noexn': 'nullexnref'}.get(n, n + 'ref')
    row(f'null-for-ref-{n}', mod(globals=[['64', h, '00', 'd0', h, AT, E]]), mis(f'(ref {n})', wat))
row("number-for-type-reference", mod(types=[ft([], [])], globals=[["6300", "00", i32(0), AT, E]]), mis("(ref null $type)", "i32"))
row("number-for-vector", mod(globals=[["7b00", i32(0), AT, E]]), mis("v128", "i32"))

# ---- vectors without their operators

row("vector-drop-and-select", fn("2000", "2000", i32(0), "1b", "1a", E, p=["v128"]))
row("vector-local-copied", fn("2000", "2101", "2001", E, p=["v128"], r=["v128"], locals=[(1, "v128")]))
row("vector-for-i32", fn("2000", AT, "45", "1a", E, p=["v128"]), mis("i32", "v128"))
