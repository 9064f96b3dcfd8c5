"""Limits, told from a count alone; subtypes."""

from spelling import *
from lacking import *

H = "0061736d01000000"

# ---- limits, told from a count alone


def cnt(i, n, *rest):
    return [H, [i], sized([AT, leb(n), list(rest)])]

M = "{} count exceeds limit of {}"
row("too-many-imports", cnt(2, 1000001), M.format("imports", 1000000))
row("too-many-functions", cnt(3, 1000001), M.format("functions", 1000000))
row("too-many-tables", cnt(4, 101), M.format("tables", 100))
row("too-many-memories", cnt(5, 101), M.format("memories", 100))
row("too-many-tags", cnt(13, 1000001), M.format("tags", 1000000))
row("too-many-globals", cnt(6, 1000001), M.format("globals", 1000000))
row("too-many-exports", cnt(7, 1000001), M.format("exports", 1000000))
row("too-many-element-segments", cnt(9, 100001), M.format("element segments", 100000))
row("too-many-data-segments", cnt(11, 100001), M.format("data segments", 100000))
row("data-count-too-large", [H, "0c", sized([AT, leb(100001)])], "data count section specifies too many data segments")
row(
    "too-many-tables-with-imported",
    [mod(imports=[imp("a", "b", "01", "700001")]), "04", sized([AT, leb(100)])],
    M.format("tables", 100),
)
row(
    "too-many-functions-with-imported",
    [mod(types=[ft([], [])], imports=[imp("a", "b", "00", 0)]), "03", sized([AT, leb(1000000)])],
    M.format("functions", 1000000),
)
row("hundred-tables", mod(tables=["700000"] * 100))
row(
    "imported-past-hundred-memories",
    mod(imports=[imp("", "", "02", "0000")] * 100 + [[AT, imp("", "", "02", "0000")]]),
    M.format("memories", 100),
)
row("count-in-limit-without-items", [H, "03", sized([leb(1000000)]), AT], "unexpected end-of-file")
row("too-many-parameters", mod(types=[["60", AT, leb(1001)]]), "function params size is out of bounds")
row("too-many-results", mod(types=[["6000", AT, leb(1001)]]), "function returns size is out of bounds")
row("too-many-fields", mod(types=[["5f", AT, leb(10001)]]), "struct fields size is out of bounds")
row("too-many-types-of-group", mod(types=[["4e", AT, leb(1000001)]]), "rec group types size is out of bounds")
row("name-too-long", mod(imports=[["a18d", AT, "06"]]), "string size out of bounds")
row("size-of-five-bytes", [H, "018480808000", "01600000"])
row(
    "export-of-exact-kind",
    mod(types=[ft([], [])], funcs=[0], exports=[[name("a"), "20", AT, leb(0)]], code=[body(E)]),
    "Exact type is not allowed in the exports",
)
row("types-alone", mod(types=[ft(["i32", "i64"], ["i32"])]))
row("sub-final", mod(types=["50005f00", "4f01005f00", [AT, "5001015f00"]]), "sub type cannot have a final super type")
row("field-dropped-by-subtype", mod(types=["50005f017f00", [AT, "5001005f00"]]), "sub type must match super type")
row("array-below-struct", mod(types=["50005f00", [AT, "5001005e7f00"]]), "sub type must match super type")
row("result-covariant", mod(types=["50006000016300", "5001006000016301".replace("6301", "6400")]))
row("result-contravariant", mod(types=["50006000016400", [AT, "50010060000163" + "00"]]), "sub type must match super type")
row(
    "function-of-subtype-in-table",
    mod(types=["5000600000", "500100600000"], funcs=[1], tables=[["4000", "63000001", "d200", E]], code=[body(E)]),
)
row(
    "function-of-supertype-in-table",
    mod(types=["5000600000", "500100600000"], funcs=[0], tables=[["4000", "63010001", "d200", AT, E]], code=[body(E)]),
    mis("(ref null $type)", "(ref $type)"),
)
row("call-indirect-of-typed-table", fn(i32(0), "110000", E, tables=["63000001"]))
row(
    "call-indirect-of-struct-table",
    mod(types=[ft([], []), "5f00"], funcs=[0], tables=["63010001"], code=[body(i32(0), AT, "110000", E)]),
    "type mismatch: indirect calls must go through a table with type <= funcref",
)

# ---- what is deep, or large

row("blocks-nested-deep", fn("0240" * 100000, E * 100000, E))
row("group-of-ten-types", mod(types=[["4e0a", [["5f0163", leb((i + 1) % 10), "00"] for i in range(10)]]]))
row(
    "group-of-ten-types-and-its-like",
    mod(types=[["4e0a", [["5f0163", leb(at + (i + 1) % 10), "00"] for i in range(10)]] for at in (0, 10)], globals=[["630300", "d00d", E]]),
)
