"""Typed function references: calls by reference, references without null, branches on null; operators without a rule."""

from operators import RET
from spelling import *

# from an i32 to an i64; and the type of the function, which takes a reference to the first that may be null
WIDENS = ft(["i32"], ["i64"])
NULLABLE = "6300"


def by_reference(*ops, p=(NULLABLE,), r=(), locals=()):
    """A module of one function of the second type, with a type before it that widens."""
    return mod(types=[WIDENS, ft(p, r)], funcs=[1], code=[body(*ops, locals=locals)])


# ---- calls

row("call-ref", by_reference(i32(5), "2000", "1400", E, r=["i64"]))
row("call-ref-not-null", by_reference(i32(5), "2000", "1400", E, p=["6400"], r=["i64"]))
row("call-ref-of-number", by_reference(i32(5), i32(0), AT, "1400", E, r=["i64"]), mis("(ref null $type)", "i32"))
row("call-ref-lacks-argument", by_reference("2000", AT, "1400", E, r=["i64"]), none("i32"))
row("call-ref-gives-another-type", by_reference(i32(5), "2000", "1400", AT, E, r=["i32"]), mis("i32", "i64"))
row(
    "call-ref-of-another-type",
    mod(types=[WIDENS, ft([], []), ft(["6301"], ["i64"])], funcs=[2], code=[body(i32(5), "2000", AT, "1400", E)]),
    mis("(ref null $type)", "(ref null $type)"),
)
row("call-ref-of-any-function", by_reference(i32(5), "2000", AT, "1400", E, p=["funcref"], r=["i64"]), mis("(ref null $type)", "funcref"))
row("call-ref-of-unknown-type", fn("00", AT, "1405", E), "unknown type 5: type index out of bounds")
row("return-call-ref", by_reference(i32(5), "2000", "1500", E, r=["i64"]))
row("return-call-ref-over-operands", by_reference(F32, i32(5), "2000", "1500", E, r=["i64"]))
row("return-call-ref-of-another-result", by_reference(i32(5), "2000", AT, "1500", E, r=["i32"]), RET)
row("return-call-ref-of-number", by_reference(i32(5), i32(0), AT, "1500", E, r=["i64"]), mis("(ref null $type)", "i32"))
row("return-call-ref-of-another-argument", by_reference(i64(5), "2000", AT, "1500", E, r=["i64"]), mis("i32", "i64"))

# ---- null

row("as-non-null", by_reference("2000", "d4", E, r=["6400"]))
row("as-non-null-of-number", by_reference(i32(0), AT, "d4", "1a", E), SM + "expected ref but found i32")
row("as-non-null-of-nothing", by_reference(AT, "d4", "1a", E), none("a type"))
row("as-non-null-is-a-reference", by_reference("00", "d4", AT, "45", "1a", E), mis("i32", "heap type"))
row("as-non-null-left-out", by_reference("2000", AT, E, r=["6400"]), mis("(ref $type)", "(ref null $type)"))
row("br-on-null", by_reference("0240", "2000", "d500", "2101", E, E, locals=[(1, "6400")]))
row("br-on-null-carries", by_reference("027f", i32(5), "2000", "d500", "1a", E, "1a", E))
row("br-on-null-lacks-what-it-carries", by_reference("027f", "2000", AT, "d500", "1a", i32(0), E, "1a", E), none("i32"))
row("br-on-null-of-number", by_reference("0240", i32(0), AT, "d500", "1a", E, E), SM + "expected ref but found i32")
row("br-on-null-to-unknown-label", by_reference("2000", AT, "d501", "1a", E), "unknown label: branch depth too large")
row("br-on-non-null", by_reference("026400", "2000", "d600", "00", E, "1a", E))
row("br-on-non-null-carries", mod(types=[WIDENS, ft([NULLABLE], []), ft([], ["i32", NULLABLE])], funcs=[1], code=[body("0202", i32(5), "2000", "d600", "d000", E, "1a", "1a", E)]))
row("br-on-non-null-drops-null", by_reference("026400", "2000", "d600", AT, E, "1a", E), none("(ref $type)"))
row(
    "br-on-non-null-to-number",
    by_reference("027f", "2000", AT, "d600", i32(0), E, "1a", E),
    SM + "br_on_non_null target does not end with heap type",
)
row("br-on-non-null-to-nothing", by_reference("0240", "2000", AT, "d600", E, E), SM + "br_on_non_null target has no label types")
row("br-on-non-null-of-number", by_reference("026400", i32(0), AT, "d600", "00", E, "1a", E), mis("(ref null $type)", "i32"))
