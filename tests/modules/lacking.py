"""Types that a feature is lacking for; locals."""

from spelling import *
from order import *


# ---- types that a feature is lacking for

GX = "custom descriptors required for exact reference types"
GS = "shared reference types require the shared-everything-threads proposal"
GC_ = "continuation refs not supported without the stack switching feature"
row("exact-reference-off", mod(types=["5f00"], globals=[[AT, "636200", "00", "d000", E]]), GX)
row("shared-reference-off", mod(globals=[[AT, "6570", "00", "d070", E]]), GS)
row("continuation-reference-off", mod(globals=[[AT, "68", "00", "d068", E]]), GC_)
row("null-of-continuation-off", fn(AT, "d068", "1a", E), GC_)
row("null-of-exact-off", fn(AT, "d06200", "1a", E), GX)
row("null-of-shared-off", fn(AT, "d06570", "1a", E), GS)
row("local-of-continuation-off", mod(types=[ft([], [])], funcs=[0], code=[["01", AT, "01", "68", E]]), GC_)
row("local-of-shared-off", mod(types=[ft([], [])], funcs=[0], code=[["02", "017f", AT, "01", "656f", E]]), GS)
row("block-of-shared-off", fn(AT, "026570", "00", E, "1a", E), GS)
row("select-of-shared-off", fn("00", AT, "1c016570", "1a", E), GS)
row("table-of-continuation-off", mod(tables=[[AT, "680001"]]), GC_)
row("element-of-shared-off", mod(elems=[[AT, "056570", vec([])]]), GS)
row("parameter-of-exact-type", mod(types=["5f00", [AT, ft(["636200"], [])]]), GX) if 0 else None

# ---- locals

row("locals-of-no-number", fn(E, locals=[(0, "i32"), (0, "(ref func)"), (1, "i64")]))
row(
    "second-group-too-many",
    mod(types=[ft([], [])], funcs=[0], code=[["02", leb(50000), "7f", AT, "01", "7e", E]]),
    "too many locals: locals exceed maximum",
)
row(
    "parameters-and-locals-too-many",
    mod(types=[ft(["i32"], [])], funcs=[0], code=[["01", AT, leb(50000), "7f", E]]),
    "too many locals: locals exceed maximum",
)
row("local-groups-cut", mod(types=[ft([], [])], funcs=[0], code=[["02", "017f", AT]]), "unexpected end-of-file")
row(
    "global-initial-of-later-function",
    mod(types=[ft([], [])], funcs=[0, 0], globals=[["7000", "d201", E]], code=[body("d201", "1a", E), body(E)]),
)
row(
    "start-declares-nothing",
    mod(types=[ft([], [])], funcs=[0], start=leb(0), code=[body(AT, "d200", "1a", E)]),
    "undeclared function reference",
)
row(
    "call-declares-nothing",
    mod(types=[ft([], [])], funcs=[0, 0], code=[body("1001", AT, "d201", "1a", E), body(E)]),
    "undeclared function reference",
)
row(
    "table-initial-declares",
    mod(types=[ft([], [])], funcs=[0], tables=[["4000", "700001", "d200", E]], code=[body("d200", "1a", E)]),
)
row("data-declares-nothing", mod(types=[ft([], [])], funcs=[0], mems=[MEM], code=[body(E)], data=[["00", "d200", AT, E, sized("")]]), mis("i32", "(ref $type)")) if 0 else None
row(
    "functions-without-code",
    mod(types=[ft([], [])], funcs=[0, 0], code=[body(E)]) and [mod(types=[ft([], [])], funcs=[0, 0]), "0a04", AT, "010200", "0b"],
    "function and code section have inconsistent lengths",
)
row(
    "code-without-functions",
    [mod(types=[ft([], [])]), "0a04", AT, "010200", "0b"],
    "function section is absent but code section has non-zero count",
)
row("data-count-without-segments", [mod(datacount=leb(1)), AT], "data count is non-zero but data section is absent")
row("empty-code-section", mod(types=[ft([], [])], code=[]))
row("if-parameter-passes-through", fn(i32(7), i32(1), "0401", "1a", i32(8), E, "1a", E, types=[ft(["i32"], ["i32"])]))
row("fence-cut", mod(types=[ft([], [])], funcs=[0], code=[["00", "fe03", AT]]), "unexpected end-of-file")
row(
    "shared-memory64-init",
    fn("2000", i32(0), i32(0), "fc080000", E, p=["i64"], mems=["070101"], datacount=leb(1), data=[["01", sized("")]]),
)
row("data-count-zero-init", fn(i32(0), i32(0), i32(0), AT, "fc080000", E, mems=[MEM], datacount=leb(0)), "unknown data segment 0")
row(
    "elements-of-two-tables",
    mod(tables=[TAB, TABX], elems=[["0201", i32(0), E, "00", vec([])]]) if 0 else mod(tables=[TABX, TAB], elems=[["0601", i32(0), E, "70", vec([["d073", E]])]]),
)
