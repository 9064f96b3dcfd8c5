"""Exceptions: what is thrown, `try_table` and its clauses; the older form is lacking."""

from spelling import *

EXN = "69"  # (ref null exn)
SOME_EXN = "6469"  # (ref exn)
BLOCK = "unknown label: branch depth too large"
CAUGHT = SM + "what is caught does not fit the label of its clause"


def thrower(*ops, p=(), r=(), locals=()):
    """A module of one function of the first type, with a tag that carries an i32."""
    return mod(types=[ft(p, r), ft(["i32"], [])], funcs=[0], tags=["0001"], code=[body(*ops, locals=locals)])


def try_table(*clauses, ty="40"):
    return ["1f", ty, vec(clauses)]


def catch(label):
    return ["0000", leb(label)]


def catch_ref(label):
    return ["0100", leb(label)]


def catch_all(label):
    return ["02", leb(label)]


def catch_all_ref(label):
    return ["03", leb(label)]


# ---- what is thrown

row("throw", thrower(i32(5), "0800", E))
row("throw-over-operands", thrower(F32, i32(5), "0800", E))
row("throw-then-unreached", thrower(i32(5), "0800", "6a", "1a", E))
row("throw-of-another-type", thrower(i64(5), AT, "0800", E), mis("i32", "i64"))
row("throw-of-nothing", thrower(AT, "0800", E), none("i32"))
row("throw-of-unknown-tag", thrower(i32(5), AT, "0801", E), "unknown tag 1: tag index out of bounds")
row("throw-ref", fn("2000", "0a", E, p=[EXN]))
row("throw-ref-not-null", fn("2000", "0a", E, p=[SOME_EXN]))
row("throw-ref-of-number", fn(i32(0), AT, "0a", E), mis("exnref", "i32"))
row("throw-ref-of-nothing", fn(AT, "0a", E), none("exnref"))

# ---- clauses, whose labels count from around the frame

row("try-table-catches", thrower(try_table(catch(0)), i32(7), "0800", E, i32(0), E, r=["i32"]))
row("try-table-catches-outwards", thrower("0240", try_table(catch(1)), E, E, i32(0), E, r=["i32"]))
row("try-table-label-too-far", thrower(AT, try_table(catch(1)), i32(7), "0800", E, i32(0), E, r=["i32"]), BLOCK)
row("try-table-catches-another-type", thrower(AT, try_table(catch(0)), E, i64(0), E, r=["i64"]), "type mismatch: expected i64, found i32")
row("try-table-catches-to-nothing", thrower(AT, try_table(catch(0)), E, E), "type mismatch: catch label must have same number of types as tag")
row("try-table-catches-unknown-tag", thrower(AT, try_table(["0001", leb(0)]), E, i32(0), E, r=["i32"]), "unknown tag 1: tag index out of bounds")
row("try-table-catches-with-reference", thrower(try_table(catch_ref(0)), E, "00", E, r=["i32", SOME_EXN]))
row("try-table-catches-with-null", thrower(try_table(catch_ref(0)), E, "00", E, r=["i32", EXN]))
row("try-table-catches-reference-alone", thrower(AT, try_table(catch_ref(0)), E, "00", E, r=[EXN]), "type mismatch: catch_ref label must have one more type than tag types")
row("try-table-catches-without-reference", thrower(AT, try_table(catch_ref(0)), E, "00", E, r=["i32"]), "type mismatch: catch_ref label must have one more type than tag types")
row("try-table-catches-all", thrower(try_table(catch_all(0)), E, E))
row("try-table-catches-all-to-number", thrower(AT, try_table(catch_all(0)), E, i32(0), E, r=["i32"]), "type mismatch: catch_all label must have no result types")
row("try-table-catches-all-references", thrower(try_table(catch_all_ref(0)), E, "00", E, r=[SOME_EXN]))
row("try-table-catches-all-as-function", thrower(AT, try_table(catch_all_ref(0)), E, "00", E, r=["funcref"]), "type mismatch: catch_all_ref label must a subtype of (ref exn)")
row("try-table-second-clause-too-far", thrower(AT, try_table(catch_all(0), catch_all(1)), E, E), BLOCK)

# ---- the frame

row("try-table-takes", thrower(i32(1), try_table(ty="01"), "1a", E, E))
row("try-table-takes-nothing", thrower(AT, try_table(ty="01"), "1a", E, E), none("i32"))
row("try-table-gives", thrower(try_table(ty="7f"), i32(1), E, E, r=["i32"]))
row("try-table-gives-nothing", thrower(try_table(ty="7f"), AT, E, E, r=["i32"]), none("i32"))
row("try-table-branch-to-itself", thrower(try_table(ty="7f"), i32(1), "0c00", E, E, r=["i32"]))

# ---- the older form is a feature of its own

row("older-try-off", thrower(AT, "0640", E, E), "legacy_exceptions feature required for try instruction")
row("rethrow-off", thrower(AT, "0900", E), "legacy exceptions support is not enabled")
