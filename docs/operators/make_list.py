"""Writes the list of all operators from a page that describes them in prose.

    make_list.py PAGE > operators.csv

PAGE is a table of the standard's opcodes, made from the standard's chapter on the binary format of instructions and from
the texts of the proposals that are not in it. It has one paragraph for each group, as '**Control.** 00 unreachable; ..',
in which codes are hexadecimal, 'a to b' is a range, and a family is spelled out once. The list that is checked in was
made so, by hand over the page's words and not from the code of this repository: it is what the rows of
`wasm_operators_tests::list` compare the tables with.

Columns: group, proposal, prefix (or -), code, text name, variant, immediates as NAME:KIND with spaces between.
"""

import re
import sys

ROWS = []


def paragraph(page, title):
    """The text behind a title in bold, up to the next empty line, without code marks."""
    found = re.search(r"^\*\*" + re.escape(title) + r".*?\*\* (.*?)\n\n", page + "\n\n", re.S | re.M)
    assert found, title
    return found.group(1).replace("\n", " ")


def expect(text, words):
    """Each of these phrases stands in the paragraph: what is expanded below is what the page says."""
    for word in words:
        assert word in text, (word, text)


CAPITALS = {"andnot": "AndNot", "pmin": "PMin", "pmax": "PMax"}


def variant_of(name):
    parts = []
    for part in re.split(r"[._]", name):
        if part in CAPITALS:
            parts.append(CAPITALS[part])
        elif part.startswith("extadd") or part.startswith("extmul"):
            parts.append("Ext" + part[3:].capitalize())
        elif part == "q15mulr" and "sat" in name:
            parts.append("Q15Mulr")
        else:
            parts.append(part[0].upper() + part[1:])
    return "".join(parts)


def add(group, proposal, prefix, code, name, immediates="", variant=None):
    ROWS.append((group, proposal, prefix, code, name, variant or variant_of(name), immediates))


def pairs(text, wanted):
    """The codes that the page gives to these names: 'CODE NAME'."""
    codes = {}
    text = re.sub(r"\([^()]*\)", "", text)
    for name in wanted:
        found = re.findall(r"(?<![0-9a-z_.])([0-9a-f]{1,2}) " + re.escape(name) + r"(?![\w.])", text)
        assert len(found) == 1, (name, found)
        codes[name] = int(found[0], 16)
    return codes


def in_order(group, proposal, prefix, first, last, names, immediates=""):
    assert last - first + 1 == len(names), (hex(first), hex(last), len(names))
    for i, name in enumerate(names):
        add(group, proposal, prefix, first + i, name, immediates)


def control(text):
    mvp = {
        "unreachable": "", "nop": "", "block": "blockty:block_type", "loop": "blockty:block_type",
        "if": "blockty:block_type", "else": "", "end": "", "br": "relative_depth:u32", "br_if": "relative_depth:u32",
        "br_table": "targets:br_table", "return": "", "call": "function_index:u32",
        "call_indirect": "type_index:u32 table_index:u32", "drop": "", "select": "",
    }
    text = text.replace("1b select (", "1b select; (").replace("1c select with", "1c typed_select with")
    for name, code in pairs(text, mvp).items():
        add("control", "mvp", None, code, name, mvp[name])
    expect(text, ["1c typed_select with one type, REFERENCE_TYPES"])
    add("control", "reference_types", None, 0x1C, "select", "ty:val_type", "TypedSelect")
    add("control", "reference_types", None, 0x1C, "select", "tys:val_types", "TypedSelectMulti")
    tail = text.split("TAIL_CALL:")[1].split("FUNCTION_REFERENCES:")[0]
    calls = {"return_call": "function_index:u32", "return_call_indirect": "type_index:u32 table_index:u32",
             "return_call_ref": "type_index:u32"}
    for name, code in pairs(tail, calls).items():
        add("control", "tail_call", None, code, name, calls[name])
    refs = text.split("FUNCTION_REFERENCES:")[1]
    typed = {"call_ref": "type_index:u32", "ref.as_non_null": "", "br_on_null": "relative_depth:u32",
             "br_on_non_null": "relative_depth:u32"}
    for name, code in pairs(refs, typed).items():
        add("control", "function_references", None, code, name, typed[name])


def exceptions(text):
    new, legacy = text.split("LEGACY_EXCEPTIONS:")
    now = {"throw": "tag_index:u32", "throw_ref": "", "try_table": "try_table:try_table"}
    for name, code in pairs(new, now).items():
        add("exceptions", "exceptions", None, code, name, now[name])
    old = {"try": "blockty:block_type", "catch": "tag_index:u32", "catch_all": "", "rethrow": "relative_depth:u32",
           "delegate": "relative_depth:u32"}
    for name, code in pairs(legacy, old).items():
        add("exceptions", "legacy_exceptions", None, code, name, old[name])


def variables(text):
    for name, code in pairs(text, ["local.get", "local.set", "local.tee"]).items():
        add("memory", "mvp", None, code, name, "local_index:u32")
    for name, code in pairs(text, ["global.get", "global.set"]).items():
        add("memory", "mvp", None, code, name, "global_index:u32")
    expect(text, ["28 i32, 29 i64, 2a f32, 2b f64, 2c 2d i32 8_s 8_u, 2e 2f i32 16_s 16_u, 30 31 i64 8, 32 33 i64 16, 34 35 i64 32"])
    loads = ["i32.load", "i64.load", "f32.load", "f64.load"]
    widths = [2, 3, 2, 3]
    for number, bits in [("i32", 8), ("i32", 16), ("i64", 8), ("i64", 16), ("i64", 32)]:
        for sign in "su":
            loads.append(f"{number}.load{bits}_{sign}")
            widths.append({8: 0, 16: 1, 32: 2}[bits])
    for i, name in enumerate(loads):
        add("memory", "mvp", None, 0x28 + i, name, f"memarg:memarg:{widths[i]}")
    expect(text, ["36 i32, 37 i64, 38 f32, 39 f64, 3a i32 8, 3b i32 16, 3c i64 8, 3d i64 16, 3e i64 32"])
    stores = [("i32.store", 2), ("i64.store", 3), ("f32.store", 2), ("f64.store", 3), ("i32.store8", 0),
              ("i32.store16", 1), ("i64.store8", 0), ("i64.store16", 1), ("i64.store32", 2)]
    for i, (name, width) in enumerate(stores):
        add("memory", "mvp", None, 0x36 + i, name, f"memarg:memarg:{width}")
    for name, code in pairs(text, ["memory.size", "memory.grow"]).items():
        add("memory", "mvp", None, code, name, "mem:u32")


def numbers(text):
    expect(text, ["41 i32.const, 42 i64.const (signed LEB), 43, 44 f32, f64.const", "45 i32.eqz",
                  "46 to 4f i32 eq ne lt_s lt_u gt_s gt_u le_s le_u ge_s ge_u; 50, 51 to 5a i64",
                  "5b to 60 f32 eq ne lt gt le ge; 61 to 66 f64",
                  "i32 67 to 69 clz ctz popcnt, 6a to 78 add sub mul div_s div_u rem_s rem_u and or xor shl shr_s shr_u rotl rotr; i64 79 to 7b, 7c to 8a",
                  "f32 8b to 91 abs neg ceil floor trunc nearest sqrt, 92 to 98 add sub mul div min max copysign; f64 99 to 9f, a0 to a6",
                  "a7 i32.wrap_i64; a8 to ab i32.trunc f32_s f32_u f64_s f64_u; ac ad i64.extend_i32_s _u; ae to b1 i64.trunc",
                  "b2 to b5 f32.convert i32_s i32_u i64_s i64_u; b6 f32.demote_f64; b7 to ba f64.convert; bb f64.promote_f32",
                  "bc i32, bd i64, be f32, bf f64 reinterpret", "SIGN_EXTENSION: c0 c1 i32 8 16, c2 to c4 i64 8 16 32",
                  "SATURATING_FLOAT_TO_INT: fc 0 to 3 i32.trunc_sat, 4 to 7 i64, as a8",
                  "WIDE_ARITHMETIC: fc 13, 14 add128, sub128", "fc 15, 16 mul_wide_s, _u"])
    for i, (number, kind) in enumerate([("i32", "s32"), ("i64", "s64"), ("f32", "f32"), ("f64", "f64")]):
        add("numbers", "mvp", None, 0x41 + i, f"{number}.const", f"value:{kind}")
    integer = "eqz eq ne lt_s lt_u gt_s gt_u le_s le_u ge_s ge_u".split()
    float_tests = "eq ne lt gt le ge".split()
    g = "numbers"
    in_order(g, "mvp", None, 0x45, 0x4F, ["i32." + n for n in integer])
    in_order(g, "mvp", None, 0x50, 0x5A, ["i64." + n for n in integer])
    in_order(g, "mvp", None, 0x5B, 0x60, ["f32." + n for n in float_tests])
    in_order(g, "mvp", None, 0x61, 0x66, ["f64." + n for n in float_tests])
    unary = "clz ctz popcnt".split()
    binary = "add sub mul div_s div_u rem_s rem_u and or xor shl shr_s shr_u rotl rotr".split()
    in_order(g, "mvp", None, 0x67, 0x78, ["i32." + n for n in unary + binary])
    in_order(g, "mvp", None, 0x79, 0x8A, ["i64." + n for n in unary + binary])
    unary = "abs neg ceil floor trunc nearest sqrt".split()
    binary = "add sub mul div min max copysign".split()
    in_order(g, "mvp", None, 0x8B, 0x98, ["f32." + n for n in unary + binary])
    in_order(g, "mvp", None, 0x99, 0xA6, ["f64." + n for n in unary + binary])
    floats = "f32_s f32_u f64_s f64_u".split()
    ints = "i32_s i32_u i64_s i64_u".split()
    in_order(g, "mvp", None, 0xA7, 0xAB, ["i32.wrap_i64"] + ["i32.trunc_" + n for n in floats])
    in_order(g, "mvp", None, 0xAC, 0xB1, ["i64.extend_i32_s", "i64.extend_i32_u"] + ["i64.trunc_" + n for n in floats])
    in_order(g, "mvp", None, 0xB2, 0xB6, ["f32.convert_" + n for n in ints] + ["f32.demote_f64"])
    in_order(g, "mvp", None, 0xB7, 0xBB, ["f64.convert_" + n for n in ints] + ["f64.promote_f32"])
    in_order(g, "mvp", None, 0xBC, 0xBF,
             ["i32.reinterpret_f32", "i64.reinterpret_f64", "f32.reinterpret_i32", "f64.reinterpret_i64"])
    in_order(g, "sign_extension", None, 0xC0, 0xC4,
             ["i32.extend8_s", "i32.extend16_s", "i64.extend8_s", "i64.extend16_s", "i64.extend32_s"])
    in_order(g, "saturating_float_to_int", 0xFC, 0, 7,
             ["i32.trunc_sat_" + n for n in floats] + ["i64.trunc_sat_" + n for n in floats])
    in_order(g, "wide_arithmetic", 0xFC, 0x13, 0x16,
             ["i64.add128", "i64.sub128", "i64.mul_wide_s", "i64.mul_wide_u"])


def bulk(text):
    expect(text, ["fc 8 memory.init d m", "9 data.drop d", "a memory.copy to from", "b memory.fill",
                  "(both BULK_MEMORY_OPT)", "c table.init e t", "d elem.drop", "e table.copy to from",
                  "others BULK_MEMORY", "MEMORY_CONTROL: fc 12 memory.discard", "REFERENCE_TYPES: 25 table.get",
                  "26 table.set", "fc f table.grow", "10 table.size", "11 table.fill", "d0 ref.null ht",
                  "d1 ref.is_null", "d2 ref.func f"])
    g = "bulk"
    add(g, "bulk_memory", 0xFC, 8, "memory.init", "data_index:u32 mem:u32")
    add(g, "bulk_memory", 0xFC, 9, "data.drop", "data_index:u32")
    add(g, "bulk_memory_opt", 0xFC, 0xA, "memory.copy", "dst_mem:u32 src_mem:u32")
    add(g, "bulk_memory_opt", 0xFC, 0xB, "memory.fill", "mem:u32")
    add(g, "bulk_memory", 0xFC, 0xC, "table.init", "elem_index:u32 table:u32")
    add(g, "bulk_memory", 0xFC, 0xD, "elem.drop", "elem_index:u32")
    add(g, "bulk_memory", 0xFC, 0xE, "table.copy", "dst_table:u32 src_table:u32")
    add(g, "memory_control", 0xFC, 0x12, "memory.discard", "mem:u32")
    add(g, "reference_types", None, 0x25, "table.get", "table:u32")
    add(g, "reference_types", None, 0x26, "table.set", "table:u32")
    add(g, "reference_types", 0xFC, 0xF, "table.grow", "table:u32")
    add(g, "reference_types", 0xFC, 0x10, "table.size", "table:u32")
    add(g, "reference_types", 0xFC, 0x11, "table.fill", "table:u32")
    add(g, "reference_types", None, 0xD0, "ref.null", "hty:heap_type")
    add(g, "reference_types", None, 0xD1, "ref.is_null")
    add(g, "reference_types", None, 0xD2, "ref.func", "function_index:u32")


def gc(text):
    expect(text, ["d3 ref.eq", "0 struct.new x", "1 struct.new_default", "2, 3, 4 struct.get, _s, _u x i",
                  "5 struct.set", "6 array.new ", "7 new_default", "8 new_fixed x n", "9 new_data x d",
                  "a new_elem x e", "b, c, d array.get, _s, _u", "e array.set", "f array.len", "10 fill", "11 copy x y",
                  "12 init_data x d", "13 init_elem x e", "14, 15 ref.test, 16, 17 ref.cast",
                  "18 br_on_cast, 19 br_on_cast_fail: flags", "l, h1, h2", "1a any.convert_extern",
                  "1b extern.convert_any", "1c ref.i31, 1d, 1e i31.get_s, _u"])
    g, p = "gc", "gc"
    add(g, p, None, 0xD3, "ref.eq")
    struct, field, array = "struct_type_index:u32", "struct_type_index:u32 field_index:u32", "array_type_index:u32"
    add(g, p, 0xFB, 0, "struct.new", struct)
    add(g, p, 0xFB, 1, "struct.new_default", struct)
    in_order(g, p, 0xFB, 2, 5, ["struct.get", "struct.get_s", "struct.get_u", "struct.set"], field)
    add(g, p, 0xFB, 6, "array.new", array)
    add(g, p, 0xFB, 7, "array.new_default", array)
    add(g, p, 0xFB, 8, "array.new_fixed", array + " array_size:u32")
    add(g, p, 0xFB, 9, "array.new_data", array + " array_data_index:u32")
    add(g, p, 0xFB, 0xA, "array.new_elem", array + " array_elem_index:u32")
    in_order(g, p, 0xFB, 0xB, 0xE, ["array.get", "array.get_s", "array.get_u", "array.set"], array)
    add(g, p, 0xFB, 0xF, "array.len")
    add(g, p, 0xFB, 0x10, "array.fill", array)
    add(g, p, 0xFB, 0x11, "array.copy", "array_type_index_dst:u32 array_type_index_src:u32")
    add(g, p, 0xFB, 0x12, "array.init_data", array + " array_data_index:u32")
    add(g, p, 0xFB, 0x13, "array.init_elem", array + " array_elem_index:u32")
    for i, (name, variant) in enumerate([("ref.test", "RefTestNonNull"), ("ref.test", "RefTestNullable"),
                                         ("ref.cast", "RefCastNonNull"), ("ref.cast", "RefCastNullable")]):
        add(g, p, 0xFB, 0x14 + i, name, "hty:heap_type", variant)
    cast = "relative_depth:u32 from_ref_type:ref_type to_ref_type:ref_type"
    add(g, p, 0xFB, 0x18, "br_on_cast", cast)
    add(g, p, 0xFB, 0x19, "br_on_cast_fail", cast)
    in_order(g, p, 0xFB, 0x1A, 0x1E,
             ["any.convert_extern", "extern.convert_any", "ref.i31", "i31.get_s", "i31.get_u"])


def descriptors(text):
    expect(text, ["20 struct.new_desc", "21 default", "22 ref.get_desc x", "23, 24 ref.cast_desc_eq",
                  "25, 26 br_on_cast_desc_eq, _fail as 18, 19"])
    g, p = "descriptors", "custom_descriptors"
    add(g, p, 0xFB, 0x20, "struct.new_desc", "struct_type_index:u32")
    add(g, p, 0xFB, 0x21, "struct.new_default_desc", "struct_type_index:u32")
    add(g, p, 0xFB, 0x22, "ref.get_desc", "type_index:u32")
    add(g, p, 0xFB, 0x23, "ref.cast_desc_eq", "hty:heap_type", "RefCastDescEqNonNull")
    add(g, p, 0xFB, 0x24, "ref.cast_desc_eq", "hty:heap_type", "RefCastDescEqNullable")
    cast = "relative_depth:u32 from_ref_type:ref_type to_ref_type:ref_type"
    add(g, p, 0xFB, 0x25, "br_on_cast_desc_eq", cast)
    add(g, p, 0xFB, 0x26, "br_on_cast_desc_eq_fail", cast)


def simd(text):
    g = "simd"

    def op(code, name, immediates=""):
        add(g, "relaxed_simd" if code >= 0x100 else "simd", 0xFD, code, name, immediates)

    def memory(code, name, width, lane=False):
        op(code, "v128." + name, f"memarg:memarg:{width}" + (" lane:u8" if lane else ""))

    expect(text, ["v128 00 load, 01 to 06 load8x8_s _u 16x4_s _u 32x2_s _u, 07 to 0a load8_splat 16 32 64, 0b store, 5c 5d load32_zero 64",
                  "54 to 57 load8_lane 16 32 64, 58 to 5b store8_lane 16 32 64", "0c v128.const, 16 bytes",
                  "0d i8x16.shuffle, 16 bytes below 32"])
    memory(0, "load", 4)
    for i, shape in enumerate(["8x8", "16x4", "32x2"]):
        memory(1 + 2 * i, f"load{shape}_s", 3)
        memory(2 + 2 * i, f"load{shape}_u", 3)
    for i, bits in enumerate([8, 16, 32, 64]):
        memory(7 + i, f"load{bits}_splat", i)
        memory(0x54 + i, f"load{bits}_lane", i, True)
        memory(0x58 + i, f"store{bits}_lane", i, True)
    memory(0xB, "store", 4)
    memory(0x5C, "load32_zero", 2)
    memory(0x5D, "load64_zero", 3)
    op(0xC, "v128.const", "value:v128")
    op(0xD, "i8x16.shuffle", "lanes:lanes")
    expect(text, ["extract_lane_s, extract_lane_u, replace_lane: 15 to 17 i8x16, 18 to 1a i16x8; extract_lane, replace_lane: 1b i32x4, 1d i64x2, 1f f32x4, 21 f64x2"])
    for i, shape in enumerate(["i8x16", "i16x8"]):
        for j, name in enumerate(["extract_lane_s", "extract_lane_u", "replace_lane"]):
            op(0x15 + 3 * i + j, f"{shape}.{name}", "lane:u8")
    for code, shape in [(0x1B, "i32x4"), (0x1D, "i64x2"), (0x1F, "f32x4"), (0x21, "f64x2")]:
        op(code, f"{shape}.extract_lane", "lane:u8")
        op(code + 1, f"{shape}.replace_lane", "lane:u8")
    expect(text, ["0e i8x16.swizzle; 0f to 14 splat of i8x16 i16x8 i32x4 i64x2 f32x4 f64x2",
                  "23 i8x16, 2d i16x8, 37 i32x4: the ten comparisons of i32; 41 f32x4, 47 f64x2: the six of f32",
                  "4d to 53 v128 not and andnot or xor bitselect any_true",
                  "5e f32x4.demote_f64x2_zero, 5f f64x2.promote_low_f32x4"])
    op(0xE, "i8x16.swizzle")
    for i, shape in enumerate("i8x16 i16x8 i32x4 i64x2 f32x4 f64x2".split()):
        op(0xF + i, f"{shape}.splat")
    for code, shape in [(0x23, "i8x16"), (0x2D, "i16x8"), (0x37, "i32x4")]:
        for i, name in enumerate("eq ne lt_s lt_u gt_s gt_u le_s le_u ge_s ge_u".split()):
            op(code + i, f"{shape}.{name}")
    for code, shape in [(0x41, "f32x4"), (0x47, "f64x2")]:
        for i, name in enumerate("eq ne lt gt le ge".split()):
            op(code + i, f"{shape}.{name}")
    for i, name in enumerate("not and andnot or xor bitselect any_true".split()):
        op(0x4D + i, f"v128.{name}")
    op(0x5E, "f32x4.demote_f64x2_zero")
    op(0x5F, "f64x2.promote_low_f32x4")
    expect(text, ["Families at 60 i8x16, 80 i16x8, a0 i32x4, c0 i64x2: +0 abs, +1 neg, +3 all_true, +4 bitmask, +b to +d shl shr_s shr_u, +e add, +11 sub",
                  "the last three +7 to +a extend_low_s high_s low_u high_u, +15 mul, +1c to +1f extmul in the same order (both of the half shape, named after low or high)",
                  "the first three +16 to +19 min_s min_u max_s max_u",
                  "the first two +5 +6 narrow_s _u of the double shape, +f +10 add_sat_s _u, +12 +13 sub_sat_s _u, +1b avgr_u"])
    shapes = ["i8x16", "i16x8", "i32x4", "i64x2"]
    for i, shape in enumerate(shapes):
        base = 0x60 + 0x20 * i
        for offset, name in [(0, "abs"), (1, "neg"), (3, "all_true"), (4, "bitmask"), (0xB, "shl"), (0xC, "shr_s"),
                             (0xD, "shr_u"), (0xE, "add"), (0x11, "sub")]:
            op(base + offset, f"{shape}.{name}")
        if i > 0:
            half = shapes[i - 1]
            for j, (part, sign) in enumerate([("low", "s"), ("high", "s"), ("low", "u"), ("high", "u")]):
                op(base + 7 + j, f"{shape}.extend_{part}_{half}_{sign}")
                op(base + 0x1C + j, f"{shape}.extmul_{part}_{half}_{sign}")
            op(base + 0x15, f"{shape}.mul")
        if i < 3:
            for j, name in enumerate(["min_s", "min_u", "max_s", "max_u"]):
                op(base + 0x16 + j, f"{shape}.{name}")
        if i < 2:
            double = shapes[i + 1]
            op(base + 5, f"{shape}.narrow_{double}_s")
            op(base + 6, f"{shape}.narrow_{double}_u")
            for offset, name in [(0xF, "add_sat_s"), (0x10, "add_sat_u"), (0x12, "sub_sat_s"), (0x13, "sub_sat_u"),
                                 (0x1B, "avgr_u")]:
                op(base + offset, f"{shape}.{name}")
    expect(text, ["62 i8x16.popcnt, 82 i16x8.q15mulr_sat_s, ba i32x4.dot_i16x8_s, d6 to db i64x2 eq ne lt_s gt_s le_s ge_s",
                  "67 to 6a f32x4 ceil floor trunc nearest, 74 75 7a 94 f64x2 the same",
                  "7c 7d i16x8.extadd_pairwise_i8x16_s _u, 7e 7f i32x4.extadd_pairwise_i16x8_s _u",
                  "abs neg sqrt: e0 e1 e3 f32x4, ec ed ef f64x2",
                  "add sub mul div min max pmin pmax: e4 f32x4, f0 f64x2",
                  "f8 f9 i32x4.trunc_sat_f32x4_s _u, fa fb f32x4.convert_i32x4_s _u, fc fd i32x4.trunc_sat_f64x2_s_zero _u_zero, fe ff f64x2.convert_low_i32x4_s _u"])
    op(0x62, "i8x16.popcnt")
    op(0x82, "i16x8.q15mulr_sat_s")
    op(0xBA, "i32x4.dot_i16x8_s")
    for i, name in enumerate("eq ne lt_s gt_s le_s ge_s".split()):
        op(0xD6 + i, f"i64x2.{name}")
    for i, name in enumerate("ceil floor trunc nearest".split()):
        op(0x67 + i, f"f32x4.{name}")
        op([0x74, 0x75, 0x7A, 0x94][i], f"f64x2.{name}")
    for i, sign in enumerate("su"):
        op(0x7C + i, f"i16x8.extadd_pairwise_i8x16_{sign}")
        op(0x7E + i, f"i32x4.extadd_pairwise_i16x8_{sign}")
        op(0xF8 + i, f"i32x4.trunc_sat_f32x4_{sign}")
        op(0xFA + i, f"f32x4.convert_i32x4_{sign}")
        op(0xFC + i, f"i32x4.trunc_sat_f64x2_{sign}_zero")
        op(0xFE + i, f"f64x2.convert_low_i32x4_{sign}")
    for i, name in enumerate(["abs", "neg", "sqrt"]):
        op([0xE0, 0xE1, 0xE3][i], f"f32x4.{name}")
        op([0xEC, 0xED, 0xEF][i], f"f64x2.{name}")
    for i, name in enumerate("add sub mul div min max pmin pmax".split()):
        op(0xE4 + i, f"f32x4.{name}")
        op(0xF0 + i, f"f64x2.{name}")
    expect(text, ["100 i8x16.relaxed_swizzle, 101 102 i32x4.relaxed_trunc_f32x4_s _u, 103 104 i32x4.relaxed_trunc_f64x2_s_zero _u_zero",
                  "relaxed_madd, relaxed_nmadd: 105 f32x4, 107 f64x2", "109 to 10c relaxed_laneselect of i8x16 i16x8 i32x4 i64x2",
                  "relaxed_min, relaxed_max: 10d f32x4, 10f f64x2", "111 i16x8.relaxed_q15mulr_s",
                  "112 i16x8.relaxed_dot_i8x16_i7x16_s, 113 i32x4.relaxed_dot_i8x16_i7x16_add_s"])
    op(0x100, "i8x16.relaxed_swizzle")
    for i, sign in enumerate("su"):
        op(0x101 + i, f"i32x4.relaxed_trunc_f32x4_{sign}")
        op(0x103 + i, f"i32x4.relaxed_trunc_f64x2_{sign}_zero")
    for i, shape in enumerate(["f32x4", "f64x2"]):
        op(0x105 + 2 * i, f"{shape}.relaxed_madd")
        op(0x106 + 2 * i, f"{shape}.relaxed_nmadd")
        op(0x10D + 2 * i, f"{shape}.relaxed_min")
        op(0x10E + 2 * i, f"{shape}.relaxed_max")
    for i, shape in enumerate(shapes):
        op(0x109 + i, f"{shape}.relaxed_laneselect")
    op(0x111, "i16x8.relaxed_q15mulr_s")
    op(0x112, "i16x8.relaxed_dot_i8x16_i7x16_s")
    op(0x113, "i32x4.relaxed_dot_i8x16_i7x16_add_s")


SEVENS = [("i32", "", 2), ("i64", "", 3), ("i32", "8", 0), ("i32", "16", 1), ("i64", "8", 0), ("i64", "16", 1),
          ("i64", "32", 2)]


def threads(text):
    expect(text, ["0 notify", "1 wait32", "2 wait64", "3 fence 00",
                  "In sevens (i32, i64, i32 8, i32 16, i64 8, i64 16, i64 32): 10 load, 17 store, 1e add, 25 sub, 2c and, 33 or, 3a xor, 41 xchg",
                  "48 cmpxchg"])
    g, p = "threads", "threads"
    add(g, p, 0xFE, 0, "memory.atomic.notify", "memarg:memarg:2")
    add(g, p, 0xFE, 1, "memory.atomic.wait32", "memarg:memarg:2")
    add(g, p, 0xFE, 2, "memory.atomic.wait64", "memarg:memarg:3")
    add(g, p, 0xFE, 3, "atomic.fence")
    for i, (number, bits, width) in enumerate(SEVENS):
        argument = f"memarg:memarg:{width}"
        add(g, p, 0xFE, 0x10 + i, f"{number}.atomic.load{bits}" + ("_u" if bits else ""), argument)
        add(g, p, 0xFE, 0x17 + i, f"{number}.atomic.store{bits}", argument)
        for j, name in enumerate("add sub and or xor xchg cmpxchg".split()):
            add(g, p, 0xFE, 0x1E + 7 * j + i, f"{number}.atomic.rmw{bits}.{name}" + ("_u" if bits else ""), argument)


def shared(text):
    expect(text, ["Globals 4f get, 50 set, 51 to 57 rmw add sub and or xor xchg cmpxchg",
                  "tables 58 get, 59 set, 5a xchg, 5b cmpxchg",
                  "structs 5c get, 5d _s, 5e _u, 5f set, 60 to 66 rmw; arrays 67 to 6a, 6b to 71", "72 ref.i31_shared"])
    g, p = "shared", "shared_everything_threads"
    rmw = ["rmw." + name for name in "add sub and or xor xchg cmpxchg".split()]
    in_order(g, p, 0xFE, 0x4F, 0x57, ["global.atomic." + n for n in ["get", "set"] + rmw],
             "ordering:ordering global_index:u32")
    in_order(g, p, 0xFE, 0x58, 0x5B, ["table.atomic." + n for n in ["get", "set", "rmw.xchg", "rmw.cmpxchg"]],
             "ordering:ordering table_index:u32")
    accesses = ["get", "get_s", "get_u", "set"] + rmw
    in_order(g, p, 0xFE, 0x5C, 0x66, ["struct.atomic." + n for n in accesses],
             "ordering:ordering struct_type_index:u32 field_index:u32")
    in_order(g, p, 0xFE, 0x67, 0x71, ["array.atomic." + n for n in accesses],
             "ordering:ordering array_type_index:u32")
    add(g, p, 0xFE, 0x72, "ref.i31_shared")


def stacks(text):
    wanted = {
        "cont.new": "cont_type_index:u32", "cont.bind": "argument_index:u32 result_index:u32",
        "suspend": "tag_index:u32", "resume": "cont_type_index:u32 resume_table:resume_table",
        "resume_throw": "cont_type_index:u32 tag_index:u32 resume_table:resume_table",
        "resume_throw_ref": "cont_type_index:u32 resume_table:resume_table",
        "switch": "cont_type_index:u32 tag_index:u32",
    }
    for name, code in pairs(text, wanted).items():
        add("stacks", "stack_switching", None, code, name, wanted[name])


def main():
    page = open(sys.argv[1], encoding="utf-8").read()
    page = page[page.index("## 6. Operators"):]
    control(paragraph(page, "Control."))
    exceptions(paragraph(page, "Exceptions."))
    variables(paragraph(page, "Variables, memory."))
    numbers(paragraph(page, "Numbers."))
    bulk(paragraph(page, "Bulk, tables."))
    gc(paragraph(page, "GC (fb)."))
    descriptors(paragraph(page, "CUSTOM_DESCRIPTORS (fb, own)."))
    simd(paragraph(page, "SIMD (fd, a u32 code; read, never validated)."))
    threads(paragraph(page, "THREADS (fe)."))
    shared(paragraph(page, "SHARED_EVERYTHING_THREADS (fe, own)."))
    stacks(paragraph(page, "STACK_SWITCHING (own)."))
    groups = list(dict.fromkeys(row[0] for row in ROWS))
    rows = sorted(ROWS, key=lambda row: (groups.index(row[0]), row[2] or 0, row[3]))
    assert len({row[5] for row in rows}) == len(rows)
    assert len({row[2:4] for row in rows}) == len(rows) - 1
    print("group,proposal,prefix,code,name,variant,immediates")
    for group, proposal, prefix, code, name, variant, immediates in rows:
        shown = "-" if prefix is None else f"{prefix:02x}"
        print(f"{group},{proposal},{shown},{code:02x},{name},{variant},{immediates}")


main()
