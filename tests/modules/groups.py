"""A valid module for each group of operators; numbers, types and sections in bytes."""

from spelling import *
from items import *


def g(k):
    return ['20', leb(k)]


def s(k):
    return ['21', leb(k)]


# ---- a yes for each group

TWO_RESULTS = [ft(["i32", "i64"], ["i64", "i32"])]
row(
    "blocks-of-several-values",
    fn(
        i32(1),
        i64(2),
        "0201",
        s(0),
        s(1),
        g(1),
        g(0),
        E,
        "1a",
        "1a",
        i32(1),
        i64(2),
        "0301",
        s(0),
        s(1),
        g(1),
        g(0),
        E,
        "1a",
        "1a",
        E,
        types=[ft(["i32", "i64"], ["i32", "i64"])],
        locals=[(1, "i64"), (1, "i32")],
    ),
)
row(
    "if-of-several-values",
    fn(
        i32(1),
        i64(2),
        i32(0),
        "0401",
        s(0),
        "1a",
        g(0),
        i32(3),
        "05",
        s(0),
        "1a",
        g(0),
        i32(4),
        E,
        "1a",
        "1a",
        E,
        types=TWO_RESULTS,
        locals=[(1, "i64")],
    ),
)
row("branches", fn("0240", "0340", i32(0), "0d01", i32(0), "0d00", i32(0), "0e020001", "02", "0c01", E, E, E))
row("branches-with-values", fn("027f", "027f", i32(1), i32(0), "0d00", i32(0), "0e010001", E, E, E, r=["i32"]))
row("if-in-loop", fn("0340", g(0), "45", "0440", "0c02", "05", g(0), i32(1), "6b", s(0), "0c01", E, E, E, p=["i32"]))
row(
    "calls",
    fn(
        g(0),
        "1001",
        g(0),
        "110100",
        "0f",
        E,
        p=["i32"],
        r=["i32"],
        types=[ft(["i32"], ["i32"])],
        funcs=[0, 1],
        tables=[TAB],
        more=[body(g(0), E)],
    ),
)
row(
    "calls-of-several-results",
    fn(
        "1001",
        "1a",
        "1001",
        "a7",
        "6a",
        "6a",
        "1a",
        E,
        types=[ft([], ["i32", "i64"])],
        funcs=[0, 1],
        more=[body(i32(0), i64(0), E)],
    ),
)
row(
    "tail-calls",
    fn(
        g(0),
        "04",
        "40",
        g(0),
        "1201",
        E,
        g(0),
        g(0),
        "130000",
        E,
        p=["i32"],
        r=["i64"],
        types=[ft(["i32"], ["i64"])],
        funcs=[0, 1],
        tables=[TAB],
        more=[body(i64(0), E)],
    ),
)
row(
    "variables",
    fn(
        g(0),
        s(1),
        g(1),
        "2200",
        s(0),
        "2300",
        "2401",
        "2301",
        "1a",
        E,
        p=["i32"],
        locals=[(1, "i32"), (1, "f64")],
        globals=[["7f00", i32(1), E], ["7f01", i32(2), E]],
    ),
)
FOUR_NUMBERS = dict(p=["i32", "i64", "f32", "f64"])
NUM = {"i32": 0, "i64": 1, "f32": 2, "f64": 3}
loads = [
    (40, "i32", 2),
    (41, "i64", 3),
    (42, "f32", 2),
    (43, "f64", 3),
    (44, "i32", 0),
    (45, "i32", 0),
    (46, "i32", 1),
    (47, "i32", 1),
    (48, "i64", 0),
    (49, "i64", 0),
    (50, "i64", 1),
    (51, "i64", 1),
    (52, "i64", 2),
    (53, "i64", 2),
]
stores = [
    (54, "i32", 2),
    (55, "i64", 3),
    (56, "f32", 2),
    (57, "f64", 3),
    (58, "i32", 0),
    (59, "i32", 1),
    (60, "i64", 0),
    (61, "i64", 1),
    (62, "i64", 2),
]

def accesses(a):
    return [[g(a), op, al, '00', s(NUM[t])] for op, t, al in loads] + [[g(a), g(NUM[t]), op, al, '00'] for op, t, al in stores]

row("loads-and-stores", fn(accesses(0), "3f00", "4000", s(0), E, mems=[MEM], **FOUR_NUMBERS))
row("loads-and-stores-64", fn(accesses(1), "3f00", "4000", s(1), E, mems=[MEM64], **FOUR_NUMBERS))
row(
    "access-to-second-memory",
    fn(g(0), "28420100", s(0), g(1), "280200", s(0), g(0), g(3), "39430108", "3f01", "4001", s(0), E, mems=[MEM64, MEM], **FOUR_NUMBERS),
)

def chain(a, un, bi, cmp_):
    k = NUM[a]
    out = []
    if un or bi:
        out.append([g(k), [[o] for o in un], [[g(k), o] for o in bi], s(k)])
    out += [[g(k), g(k), o, s(0)] for o in cmp_]
    return out

R = lambda a, b: list(range(a, b + 1))
row("numbers-i32", fn(g(0), "45", s(0), chain("i32", R(103, 105), R(106, 120), R(70, 79)), E, **FOUR_NUMBERS))
row("numbers-i64", fn(g(1), "50", s(0), chain("i64", R(121, 123), R(124, 138), R(81, 90)), E, **FOUR_NUMBERS))
row("numbers-f32", fn(chain("f32", R(139, 145), R(146, 152), R(91, 96)), E, **FOUR_NUMBERS))
row("numbers-f64", fn(chain("f64", R(153, 159), R(160, 166), R(97, 102)), E, **FOUR_NUMBERS))
conv = [
    (167, "i64", "i32"),
    (168, "f32", "i32"),
    (169, "f32", "i32"),
    (170, "f64", "i32"),
    (171, "f64", "i32"),
    (172, "i32", "i64"),
    (173, "i32", "i64"),
    (174, "f32", "i64"),
    (175, "f32", "i64"),
    (176, "f64", "i64"),
    (177, "f64", "i64"),
    (178, "i32", "f32"),
    (179, "i32", "f32"),
    (180, "i64", "f32"),
    (181, "i64", "f32"),
    (182, "f64", "f32"),
    (183, "i32", "f64"),
    (184, "i32", "f64"),
    (185, "i64", "f64"),
    (186, "i64", "f64"),
    (187, "f32", "f64"),
    (188, "f32", "i32"),
    (189, "f64", "i64"),
    (190, "i32", "f32"),
    (191, "i64", "f64"),
]
row("conversions", fn([[g(NUM[a]), o, s(NUM[b])] for o, a, b in conv], E, **FOUR_NUMBERS))
sat = [
    (0, "f32", "i32"),
    (1, "f32", "i32"),
    (2, "f64", "i32"),
    (3, "f64", "i32"),
    (4, "f32", "i64"),
    (5, "f32", "i64"),
    (6, "f64", "i64"),
    (7, "f64", "i64"),
]
row("saturating-conversions", fn([[g(NUM[a]), "fc", o, s(NUM[b])] for o, a, b in sat], E, **FOUR_NUMBERS))
row("sign-extensions", fn(g(0), "c0", "c1", s(0), g(1), "c2", "c3", "c4", s(1), E, **FOUR_NUMBERS))
row("conversion-of-another-type", fn(g(2), AT, "a7", s(0), E, **FOUR_NUMBERS), mis("i64", "f32"))
row("conversion-to-another-type", fn(g(1), "b4", AT, s(3), E, **FOUR_NUMBERS), mis("f64", "f32"))
row("saturating-of-another-type", fn(g(3), AT, "fc00", s(0), E, **FOUR_NUMBERS), mis("f32", "f64"))
row("sign-extension-of-i64", fn(g(1), AT, "c0", s(0), E, **FOUR_NUMBERS), mis("i32", "i64"))
row("shift-of-i64-by-i32", fn(g(1), g(0), AT, "86", s(1), E, **FOUR_NUMBERS), mis("i64", "i32"))
row("comparison-gives-i32", fn(g(3), g(3), "63", AT, s(3), E, **FOUR_NUMBERS), mis("f64", "i32"))
row(
    "bulk-memory",
    fn(
        g(0),
        g(0),
        g(0),
        "fc080000",
        "fc0900",
        g(0),
        g(0),
        g(0),
        "fc0a0000",
        g(0),
        g(0),
        g(0),
        "fc0b00",
        E,
        p=["i32"],
        mems=[MEM],
        datacount=leb(1),
        data=[["01", sized("")]],
    ),
)
row(
    "tables",
    fn(
        g(0),
        "2500",
        s(1),
        g(0),
        g(1),
        "2600",
        g(1),
        g(0),
        "fc0f00",
        s(0),
        "fc1000",
        s(0),
        g(0),
        g(1),
        g(0),
        "fc1100",
        g(0),
        g(0),
        g(0),
        "fc0c0000",
        "fc0d00",
        g(0),
        g(0),
        g(0),
        "fc0e0000",
        E,
        p=["i32"],
        locals=[(1, "funcref")],
        tables=[TAB],
        elems=[["0100", vec([])]],
    ),
)
row(
    "references",
    fn(
        "d070",
        s(0),
        "d06f",
        s(1),
        g(0),
        "d1",
        s(2),
        g(1),
        "d1",
        s(2),
        "d200",
        s(0),
        g(0),
        g(0),
        g(2),
        "1c0170",
        s(0),
        E,
        locals=[(1, "funcref"), (1, "externref"), (1, "i32")],
        exports=[exp("a", "00", 0)],
    ),
)
row(
    "null-of-each-heap",
    fn([["d0", h, "1a"] for h in ["70", "6f", "6e", "6d", "6c", "6b", "6a", "69", "71", "72", "73", "74", "00"]], E),
)
row("null-of-subtype", fn("d073", E, r=["funcref"]))
row("null-of-any-for-funcref", fn("d06e", AT, E, r=["funcref"]), mis("funcref", "anyref"))
SH = "030101"
sev = [("i32", 2), ("i64", 3), ("i32", 0), ("i32", 1), ("i64", 0), ("i64", 1), ("i64", 2)]

def atomics(a):
    out = []
    for i, (t, al) in enumerate(sev):
        k = NUM[t]
        out.append([g(a), 'fe', 16 + i, al, '00', s(k)])
        out.append([g(a), g(k), 'fe', 23 + i, al, '00'])
        for b in (30, 37, 44, 51, 58, 65):
            out.append([g(a), g(k), 'fe', b + i, al, '00', s(k)])
        out.append([g(a), g(k), g(k), 'fe', 72 + i, al, '00', s(k)])
    out.append([g(a), g(0), 'fe000200', s(0), g(a), g(0), g(1), 'fe010200', s(0), g(a), g(1), g(1), 'fe020300', s(0), 'fe0300'])
    return out

row("atomic-operators", fn(atomics(0), E, p=["i32", "i64"], mems=[SH]))
row("atomic-operators-64", fn(atomics(1), E, p=["i32", "i64"], mems=["070101"]))
row("atomic-on-unshared-memory", fn(g(0), "fe100200", s(0), g(0), g(0), "fe000200", "1a", E, p=["i32"], mems=[MEM]))
row("atomic-without-memory", fn(g(0), AT, "fe100200", s(0), E, p=["i32"]), "unknown memory 0")
row("atomic-by-i64", fn(g(1), AT, "fe100200", s(0), E, p=["i32", "i64"], mems=[SH]), mis("i32", "i64"))
row(
    "atomic-exchange-of-another-type",
    fn(g(0), g(1), g(0), AT, "fe490300", s(1), E, p=["i32", "i64"], mems=[SH]),
    mis("i64", "i32"),
)
row("atomic-wait-timeout-i32", fn(g(0), g(0), g(0), AT, "fe010200", s(0), E, p=["i32", "i64"], mems=[SH]), mis("i64", "i32"))
row("atomic-wait-gives-i32", fn(g(0), g(1), g(1), "fe020300", AT, s(1), E, p=["i32", "i64"], mems=[SH]), mis("i64", "i32"))
row("atomic-store-of-another-type", fn(g(0), g(1), AT, "fe170200", E, p=["i32", "i64"], mems=[SH]), mis("i32", "i64"))
row("fence-without-memory", fn("fe0300", E))
row("atomic-on-second-memory", fn(g(0), "fe10420100", s(0), E, p=["i32"], mems=[MEM, SH]))
row(
    "bulk-on-two-memories",
    fn(
        g(0),
        g(0),
        g(0),
        "fc0a0100",
        g(0),
        g(0),
        g(0),
        "fc0a0001",
        g(0),
        g(0),
        g(0),
        "fc0b01",
        g(0),
        g(0),
        g(0),
        "fc080001",
        E,
        p=["i32"],
        mems=[MEM, MEM],
        datacount=leb(1),
        data=[["01", sized("")]],
    ),
)

# ---- numbers in bytes

row("smallest-i32", fn("418080808078", "1a", "42808080808080808080", "7f", "1a", E))
row("i32-constant-below", fn("4180808080", AT, "70", "1a", E), "invalid var_i32: integer too large")
row("padded-index", fn("208000", "1a", E, locals=[(1, "i32")]))
row("index-of-32-bits", fn(AT, "20ffffffff0f", "1a", E), "unknown local 4294967295: local index out of bounds")
row("index-past-32-bits", fn("20ffffffff", AT, "10", "1a", E), "invalid var_u32: integer too large")
row("index-cut", mod(types=[ft([], [])], funcs=[0], code=[["00", "1080", AT]]), "unexpected end-of-file")
row("largest-reference-index", mod(globals=[[AT, "64ffff3f", "00", i32(0), E]]), "unknown type 1048575: type index out of bounds")
row("reference-index-too-large", mod(globals=[[AT, "648080c000", "00", i32(0), E]]), "type index too large")

# ---- types

row("subtype-depth-63", mod(types=["50005f00"] + [["5001", leb(i), "5f00"] for i in range(63)]))
row(
    "subtype-depth-64",
    mod(types=["50005f00"] + [["5001", leb(i), "5f00"] for i in range(63)] + [[AT, "50013f5f00"]]),
    "sub type hierarchy too deep: found depth 64, cannot exceed depth 63",
)
row("equal-groups", mod(types=["4e025f016401005f01640000", "4e025f016403005f01640200"], globals=[["6300", "01", "d002", E]]))
row(
    "other-groups",
    mod(types=["4e025f016401005f01640000", "4e025f016403005f01640201"], globals=[["6300", "01", "d002", AT, E]]),
    mis("(ref null $type)", "(ref null $type)"),
)
row("mutable-field-covariant", mod(types=["50005f01636e01", [AT, "5001005f01636d01"]]), "sub type must match super type")
row("field-covariant", mod(types=["50005f01636e00", "5001005f01636d00"]))
row("final-supertype", mod(types=["5f00", [AT, "5001005f00"]]), "sub type cannot have a final super type")
row("unknown-supertype", mod(types=[[AT, "5001055f00"]]), "supertypes must be defined before subtypes")
row("two-supertypes", mod(types=["50005f00", "50005f00", ["50", AT, "0200015f00"]]), "supertype idxs size is out of bounds")
row("unknown-parameter-type", mod(types=[[AT, "6001630300"]]), "unknown type 3: type index out of bounds")
row("parameter-of-own-type", mod(types=[["6001630000"]]))
row("later-type-of-group", mod(types=["4e0260016301005f00"]))
row("type-behind-group", mod(types=[[AT, "4e0160016301005f00"[:-4]], "5f00"]), "unknown type 1: type index out of bounds")
row("array-of-packed", mod(types=["5e7801", "5e7700", "5e6b00"]))
row("struct-fields", mod(types=["5f047800770179007f01".replace("7900", "7e00")]))
row("field-mutability", mod(types=[["5f017f", AT, "02"]]), "malformed mutability") if 0 else None
row("packed-parameter", mod(types=[["6001", AT, "7800"]]), "invalid value type")
row("composite-unknown", mod(types=[[AT, "61"]]), "invalid leading byte (0x61) for type")
row(
    "descriptor-off",
    mod(types=[[AT, "4e024d015f004c005f00"]]),
    "custom descriptors proposal must be enabled to use descriptor and describes",
)
row("shared-type-off", mod(types=[[AT, "655f00"]]), "shared composite types require the shared-everything-threads proposal")
row("vector-parameters", mod(types=[ft(["v128"], ["v128"])], imports=[imp("a", "b", "03", "7b00")]))

# ---- sections

row("two-memory-sections", ["0061736d01000000", "05030100", "01", "0503", AT, "010001"], "section out of order")
row("data-before-code", [mod(types=[ft([], [])], funcs=[0]), "0b0100", "0a04", AT, "010200", "0b"], "section out of order")
row("data-count-behind-code", [fn(E), "0c01", AT, "00"], "section out of order")
row("tag-before-memory", [mod(types=[ft([], [])], tags=["0000"]), "0503", AT, "010001"], "section out of order")
row(
    "sections-in-order",
    mod(
        types=[ft([], [])],
        imports=[],
        funcs=[0],
        tables=[],
        mems=[],
        tags=[],
        globals=[],
        exports=[],
        start=leb(0),
        elems=[],
        datacount=leb(0),
        code=[body(E)],
        data=[],
    ),
)
row("custom-between-sections", ["0061736d01000000", "00020161", "05030100", "01", "00020161", "00020161"])
row("custom-name-cut", ["0061736d01000000", "000205", AT, "61"], "unexpected end-of-file")
row("body-past-section", [mod(types=[ft([], [])], funcs=[0]), "0a0301", AT, "0400", "0b0100"], "unexpected end-of-file")
row("empty-start", ["0061736d01000000", "0800", AT], "unexpected end-of-file")
row(
    "start-of-two-bytes",
    [mod(types=[ft([], [])], imports=[imp("a", "b", "00", "00")]), "080200", AT, "00"],
    "unexpected content in the start section",
)
msg = "duplicate export name `" + "a" * 300
row(
    "duplicate-export-of-long-name",
    mod(mems=["0001"], exports=[exp("a" * 300, "02", 0), [AT, exp("a" * 300, "02", 0)]]),
    msg[:256],
)
