"""Constants, and the items of each section."""

from spelling import *
from operators import *


# ---- constants


def glob(t, *ops, m='00', **k):
    return mod(globals=[[vt(t), m, list(ops)]], **k)

NC = "constant expression required: non-constant operator: "
row(
    "constant-of-each-type",
    mod(
        globals=[
                    ["7f00", i32(-1), E],
                    ["7e00", i64(-1), E],
                    ["7d00", F32, E],
                    ["7c00", F64, E],
                    ["7000", "d070", E],
                    ["6f00", "d06f", E],
                ],
    ),
)
row("constant-without-operand", glob("i32", AT, E), none("i32"))
row("constant-of-two-operands", glob("i32", i32(0), i32(0), AT, E), LEFT)
row("constant-null-for-non-null", glob(NN, "d070", AT, E), mis(NN, "funcref"))
row("constant-sum", glob("i32", i32(1), i32(2), "6a", i32(3), "6c", i32(4), "6b", E))
row("constant-sum-of-i64", glob("i64", i64(1), i64(2), "7c", i64(3), "7e", i64(4), "7d", E))
row("constant-sum-lacks-operand", glob("i32", i32(1), AT, "6a", E), none("i32"))
row("constant-quotient", glob("i32", i32(1), i32(1), AT, "6d", E), "constant expression required: non-constant operator: visit_i32_div_s")
row("constant-of-nop", glob("i32", AT, "01", i32(1), E), "constant expression required: non-constant operator: visit_nop")
row(
    "constant-of-call",
    mod(types=[ft([], ["i32"])], funcs=[0], globals=[["7f00", AT, "1000", E]], code=[body(i32(0), E)]),
    "constant expression required: non-constant operator: visit_call",
)
row("constant-of-unreachable", glob("i32", AT, "00", E), "constant expression required: non-constant operator: visit_unreachable")
row("constant-of-local", glob("i32", AT, "2000", E), "constant expression required: non-constant operator: visit_local_get")
row("constant-of-ref-is-null", glob("i32", "d070", AT, "d1", E), "constant expression required: non-constant operator: visit_ref_is_null")
row("constant-of-block", glob("i32", "027f", i32(0), E, AT, E), "control frames remain at end of expression")
row("constant-of-imported-global", mod(imports=[imp("a", "b", "03", "7f00")], globals=[["7f00", "2300", E]]))
row("constant-of-global-plus-one", mod(imports=[imp("a", "b", "03", "7f00")], globals=[["7f00", "2300", i32(1), "6a", E]]))
row(
    "constant-of-mutable-global",
    mod(imports=[imp("a", "b", "03", "7f01")], globals=[["7f00", AT, "2300", E]]),
    "constant expression required: global.get of mutable global",
)
row(
    "constant-of-mutable-local-global",
    mod(globals=[["7f01", i32(0), E], ["7f00", AT, "2300", E]]),
    "constant expression required: global.get of mutable global",
)
row("constant-of-global-of-i64", mod(imports=[imp("a", "b", "03", "7e00")], globals=[["7f00", "2300", AT, E]]), mis("i32", "i64"))
row("constant-of-unknown-global", mod(globals=[["7f00", AT, "2305", E]]), "unknown global 5: global index out of bounds")
row(
    "constant-of-later-global",
    mod(globals=[["7f00", AT, "2301", E], ["7f00", i32(0), E]]),
    "unknown global 1: global index out of bounds",
)
row("constant-of-function", mod(types=[ft([], [])], funcs=[0], globals=[["7000", "d200", E]], code=[body(E)]))
row(
    "constant-of-function-declares",
    mod(types=[ft([], [])], funcs=[0], globals=[["7000", "d200", E]], code=[body("d200", "1a", E)]),
)
row("constant-of-function-of-its-type", mod(types=[ft([], [])], funcs=[0], globals=[["640000", "d200", E]], code=[body(E)]))
row("constant-of-unknown-function", mod(globals=[["7000", AT, "d200", E]]), "unknown function 0: function index out of bounds")
row("constant-null-of-unknown-type", mod(globals=[["7000", AT, "d003", E]]), "unknown type 3: type index out of bounds")
row("constant-without-end", mod(globals=[["7f00", i32(0), AT]]), "unexpected end-of-file")
row("constant-vector", mod(globals=[["7b00", AT, "fd0c", "00" * 16, E]]), "unexpected SIMD opcode: 0xfd")

# ---- globals, tables, memories

row("global-of-unknown-type", mod(globals=[[AT, "6305", "00", "d070", E]]), "unknown type 5: type index out of bounds")
row("global-of-other-mutability", mod(globals=[["7f", AT, "02", i32(0), E]]), "malformed global flags") if 0 else None
row("shared-global-off", mod(globals=[[AT, "7f02", i32(0), E]]), "shared globals require the shared-everything-threads proposal")
row("table-of-externref", mod(tables=["6f0001"]))
row("table-with-maximum", mod(tables=["70010102"]))
row("table-minimum-past-maximum", mod(tables=[[AT, "70010201"]]), "size minimum must not be greater than maximum")
row("second-table-wrong", mod(tables=["700001", [AT, "6f010100"]]), "size minimum must not be greater than maximum")
row("table-of-unknown-type", mod(tables=[[AT, "6304", "0001"]]), "unknown type 4: type index out of bounds")
row("table-of-non-null-filled", mod(types=[ft([], [])], funcs=[0], tables=[["4000", "64700001", "d200", E]], code=[body(E)]))
row("table-filled-by-null", mod(tables=[["4000", "64700001", "d070", AT, E]]), mis(NN, "funcref"))
row("table-filled-by-another-type", mod(tables=[["4000", "6f0001", "d070", AT, E]]), mis("externref", "funcref"))
row("table-form-unknown", mod(tables=[["40", AT, "01", "700001", "d070", E]]), "invalid table encoding")
row("table64", mod(tables=[["7005", "00", leb(2 ** 64 - 1)]]))
row(
    "table64-minimum-past-maximum",
    mod(tables=[[AT, "7005", leb(2 ** 33), leb(2 ** 32)]]),
    "size minimum must not be greater than maximum",
)
row("table32-past-32-bits", mod(tables=[["7000", "ffffffff", AT, "1f"]]), "invalid var_u32: integer too large")
row("table-flag-unknown", mod(tables=[["70", AT, "0801"]]), "invalid table resizable limits flags")
row("shared-table-off", mod(tables=[[AT, "70030101"]]), "shared tables require the shared-everything-threads proposal")
row("two-memories", mod(mems=["0001", "0101ffff03"[:6] + "01"]) if 0 else mod(mems=["0001", "010101"]))
row("memory-minimum-past-maximum", mod(mems=[[AT, "010201"]]), "size minimum must not be greater than maximum")
row("memory-maximum-too-large", mod(mems=[[AT, "0100", "818004"]]), "memory size must be at most 0x10000 65536-byte pages")
row("second-memory-too-large", mod(mems=["0001", [AT, "00", "818004"]]), "memory size must be at most 0x10000 65536-byte pages")
row("memory64-largest", mod(mems=[["04", leb(2 ** 48)]]))
row("memory64-too-large", mod(mems=[[AT, "04", leb(2 ** 48 + 1)]]), "memory size must be at most 0x1000000000000 65536-byte pages")
row("shared-memory", mod(mems=["030101"]))
row("shared-memory-without-maximum", mod(mems=[[AT, "0201"]]), "shared memory must have maximum size")
row("shared-memory64", mod(mems=["070101"]))
row('page-size-off', mod(mems=[[AT, '080100']]), "the custom page sizes proposal must be enabled to customize a memory's page size")
row("memory-flag-unknown", mod(mems=[[AT, "1001"]]), "invalid memory limits flags")

# ---- tags

row("tag-of-parameters", mod(types=[ft(["i32", "i64"], [])], tags=["0000"]))
row("tag-with-result", mod(types=[ft([], ["i32"])], tags=[[AT, "0000"]]), "invalid exception type: non-empty tag result type")
row("tag-of-unknown-type", mod(tags=[[AT, "0000"]]), "unknown type 0: type index out of bounds")
row("tag-of-struct", mod(types=["5f00"], tags=[[AT, "0000"]]), "type index 0 is not a function type")
row("tag-attribute", mod(types=[ft([], [])], tags=[[AT, "0100"]]), "invalid tag attributes")
row("function-of-struct", mod(types=["5f00"], funcs=[[AT, "00"]], code=[body(E)]), "type index 0 is not a function type")

# ---- imports

row(
    "import-of-each-kind",
    mod(
        types=[ft([], [])],
        imports=[
                    imp("a", "f", "00", "00"),
                    imp("a", "t", "01", "700001"),
                    imp("a", "m", "02", "0001"),
                    imp("a", "g", "03", "7f01"),
                    imp("a", "e", "04", "0000"),
                ],
    ),
)
row(
    "imports-come-first",
    mod(types=[ft([], []), ft([], ["i32"])], imports=[imp("", "", "00", "01")], funcs=[0], code=[body("1000", "1a", "1001", E)]),
)
row(
    "imported-items",
    fn(
        "2300",
        AT if 0 else [],
        "280200",
        "2500",
        "1a",
        E,
        imports=[imp("a", "t", "01", "700001"), imp("a", "m", "02", "0001"), imp("a", "g", "03", "7f00")],
    ),
)
row("import-of-unknown-type", mod(imports=[[AT, imp("a", "b", "00", "03")]]), "unknown type 3: type index out of bounds")
row(
    "second-import-wrong",
    mod(types=[ft([], [])], imports=[imp("a", "b", "00", "00"), [AT, imp("a", "b", "00", "01")]]),
    "unknown type 1: type index out of bounds",
)
row("import-of-struct", mod(types=["5f00"], imports=[[AT, imp("a", "b", "00", "00")]]), "type index 0 is not a function type")
row(
    "import-of-table-past-maximum",
    mod(imports=[[AT, imp("a", "b", "01", "70010201")]]),
    "size minimum must not be greater than maximum",
)
row(
    "import-of-memory-too-large",
    mod(imports=[[AT, imp("a", "b", "02", "00818004")]]),
    "memory size must be at most 0x10000 65536-byte pages",
)
row(
    "import-of-tag-with-result",
    mod(types=[ft([], ["i32"])], imports=[[AT, imp("a", "b", "04", "0000")]]),
    "invalid exception type: non-empty tag result type",
)
row("import-of-unknown-kind", mod(imports=[[name("a"), name("b"), AT, "05", "00"]]), "invalid leading byte (0x5) for external kind")
row(
    "import-of-compact-group",
    mod(imports=[[name("a"), name(""), AT, "7f", "00"]]),
    "invalid leading byte (0x7f) for external kind",
)
row(
    "import-of-exact-function-off",
    mod(types=[ft([], [])], imports=[[AT, imp("a", "b", "20", "00")]]),
    "custom descriptors required for exact function imports",
)
row("import-name-not-utf8", mod(types=[ft([], [])], imports=[[name("a"), "01", AT, "ff", "0000"]]), "malformed UTF-8 encoding")
row("import-without-table-init", mod(imports=[imp("a", "b", "01", "64700001")]))

# ---- exports

row(
    "export-of-each-kind",
    mod(
        types=[ft([], [])],
        funcs=[0],
        tables=["700001"],
        mems=["0001"],
        tags=["0000"],
        globals=[["7f01", i32(0), E]],
        exports=[exp("f", "00", 0), exp("t", "01", 0), exp("m", "02", 0), exp("g", "03", 0), exp("e", "04", 0)],
        code=[body(E)],
    ),
)
row(
    "export-of-import",
    mod(types=[ft([], [])], imports=[imp("a", "b", "00", "00")], exports=[exp("a", "00", 0), exp("b", "00", 0)]),
)
row("export-empty-name", mod(mems=["0001"], exports=[exp("", "02", 0), exp("é", "02", 0)]))
for k, (nm, w) in enumerate([('function', 'func'), ('table', 'table'), ('memory', 'memory'), ('global', 'global'), ('tag', 'tag')]):
    row(f'export-of-unknown-{nm}', mod(exports=[[AT, exp('a', f'0{k}', 0)]]), f'unknown {nm} 0: exported {nm} index out of bounds')
row(
    "second-export-wrong",
    mod(mems=["0001"], exports=[exp("a", "02", 0), [AT, exp("b", "02", 1)]]),
    "unknown memory 1: exported memory index out of bounds",
)
row(
    "export-of-unknown-kind",
    mod(mems=["0001"], exports=[[name("a"), AT, "05", "00"]]),
    "invalid leading byte (0x5) for external kind",
)
row(
    "duplicate-export-of-two-kinds",
    mod(mems=["0001"], globals=[["7f00", i32(0), E]], exports=[exp("a", "02", 0), [AT, exp("a", "03", 0)]]),
    "duplicate export name `a` already defined",
)

# ---- start

row("start-of-import", mod(types=[ft([], [])], imports=[imp("a", "b", "00", "00")], start=leb(0)))
row(
    "start-with-parameter",
    mod(types=[ft(["i32"], [])], imports=[imp("a", "b", "00", "00")], start=[AT, "00"]),
    "invalid start function type",
)
row("start-of-unknown-function", mod(start=[AT, "00"]), "unknown function 0: func index out of bounds")

# ---- elements

FT = dict(types=[ft([], [])], funcs=[0], code=[body(E)])
row("element-0", mod(**FT, tables=[TAB], elems=[["00", i32(0), E, vec(["00"])]]))
row("element-1", mod(**FT, elems=[["0100", vec(["00", "00"])]]))
row("element-2", mod(**FT, tables=[TABX, TAB], elems=[["0201", i32(0), E, "00", vec(["00"])]]))
row("element-3", mod(**FT, elems=[["0300", vec(["00"])]]))
row("element-4", mod(**FT, tables=[TAB], elems=[["04", i32(0), E, vec([["d200", E], ["d070", E]])]]))
row("element-5", mod(elems=[["056f", vec([["d06f", E]])]]))
row("element-6", mod(tables=[TAB, TABX], elems=[["0601", i32(0), E, "6f", vec([["d06f", E]])]]))
row("element-7", mod(**FT, elems=[["0770", vec([["d200", E]])]]))
row("element-8", mod(elems=[[AT, "08", vec([])]]), "invalid flags byte in element segment")
row("element-kind", mod(elems=[["01", AT, "01", vec([])]]), "only the function external type is supported in elem segment")
row("element-without-table", mod(elems=[[AT, "00", i32(0), E, vec([])]]), "unknown table 0: table index out of bounds")
row(
    "element-of-unknown-table",
    mod(tables=[TAB], elems=[[AT, "0201", i32(0), E, "00", vec([])]]),
    "unknown table 1: table index out of bounds",
)
row(
    "element-of-unknown-function",
    mod(**FT, tables=[TAB], elems=[["00", i32(0), E, ["02", "00", AT, "01"]]]),
    "unknown function 1: func index out of bounds",
)
row("element-offset-i64", mod(tables=[TAB], elems=[["00", i64(0), AT, E, vec([])]]), mis("i32", "i64"))
row("element-offset-of-table64", mod(tables=[TAB64], elems=[["00", i64(0), E, vec([])]]))
row("element-offset-of-table64-i32", mod(tables=[TAB64], elems=[["00", i32(0), AT, E, vec([])]]), mis("i64", "i32"))
row(
    "element-functions-for-externref",
    mod(tables=[TABX], elems=[[AT, "00", i32(0), E, vec([])]]),
    SM + "invalid element type `(ref func)` for table type `externref`",
)
row(
    "element-of-another-type",
    mod(tables=[TAB], elems=[[AT, "0600", i32(0), E, "6f", vec([])]]),
    SM + "invalid element type `externref` for table type `funcref`",
)
row("element-null-for-non-null", mod(elems=[["05", "6470", vec([["d070", AT, E]])]]), mis(NN, "funcref"))
row("element-item-of-another-type", mod(elems=[["0570", vec([["d06f", AT, E]])]]), mis("funcref", "externref"))
row("element-item-of-number", mod(elems=[["0570", vec([[i32(0), AT, E]])]]), mis("funcref", "i32"))
row("element-of-unknown-type", mod(elems=[[AT, "05", "6305", vec([])]]), "unknown type 5: type index out of bounds")
row("element-declares-function", mod(types=[ft([], [])], funcs=[0], elems=[["0300", vec(["00"])]], code=[body("d200", "1a", E)]))
row(
    "element-expression-declares",
    mod(types=[ft([], [])], funcs=[0], elems=[["0770", vec([["d200", E]])]], code=[body("d200", "1a", E)]),
)
row("second-element-wrong", mod(elems=[["0100", vec([])], ["0570", vec([["d06f", AT, E]])]]), mis("funcref", "externref"))
row("element-dropped", mod(types=[ft([], [])], funcs=[0], elems=[["0300", vec([])]], code=[body("fc0d00", E)]))
row(
    "element-functions-are-non-null",
    fn(i32(0), i32(0), i32(0), "fc0c0000", E, tables=[["4000", "64700001", "d200", E]], elems=[["0100", vec(["00"])]]),
)

# ---- data

row("data-0", mod(mems=["0001"], data=[["00", i32(0), E, sized("aabb")]]))
row("data-1", mod(data=[["01", sized("aa")]]))
row("data-2", mod(mems=["0001", "0001"], data=[["0201", i32(0), E, sized("")]]))
row("data-3", mod(data=[[AT, "03", sized("")]]), "invalid flags byte in data segment")
row("data-without-memory", mod(data=[[AT, "00", i32(0), E, sized("")]]), "unknown memory 0: memory index out of bounds")
row(
    "data-of-unknown-memory",
    mod(mems=["0001"], data=[[AT, "0201", i32(0), E, sized("")]]),
    "unknown memory 1: memory index out of bounds",
)
row("data-offset-i64", mod(mems=["0001"], data=[["00", i64(0), AT, E, sized("")]]), mis("i32", "i64"))
row("data-offset-of-memory64", mod(mems=[MEM64], data=[["00", i64(0), E, sized("")]]))
row("data-offset-of-memory64-i32", mod(mems=[MEM64], data=[["00", i32(0), AT, E, sized("")]]), mis("i64", "i32"))
row("data-offset-of-global", mod(imports=[imp("a", "b", "03", "7f00")], mems=["0001"], data=[["00", "2300", E, sized("")]]))
row("data-offset-of-operator", mod(mems=["0001"], data=[["00", AT, "3f00", E, sized("")]]), "constant expression required: non-constant operator: visit_memory_size")
row("data-cut", mod(data=[["01", "05", AT, "aabb"]]), "unexpected end-of-file")
row("data-count-without-data", mod(datacount=leb(0)))
