"""Writes the rows of `wasm_operators_tests::list`: each operator of the checked-in list, with its row of the table of opcodes
and the kinds of what it carries; and each that carries something, with what stands behind its opcode.

    make_list_rows.py operators.csv CRATES

CRATES is the folder of crates. One file of `specs/` for each group, a row a line. What an operator carries stands for any
value (`Carried` in `specs/Listed.antt`); beside what stands behind the opcode its numbers are 1, 2 and so on, and of two references
only the second may be null. The kind of a field follows from its name and its type in the list, which are the standard's.
"""

import csv
import re
import sys

# the list's group, with fields or without or both (None) => the file, the group's constructor of `Op`, its enum, its crate and module
GROUPS = {
    ("control", None): ("Control", "Control", "ControlOperator", "groups", "control"),
    ("parametric", None): ("Control", "Parametric", "", "", ""),
    ("exceptions", None): ("Control", "Exception", "", "", ""),
    ("stacks", None): ("Control", "Continuation", "", "", ""),
    ("memory", None): ("Memory", "Memory", "MemoryOperator", "groups", "memory"),
    ("numbers", True): ("Memory", "Const", "ConstOperator", "groups", "constant"),
    ("bulk", None): ("Memory", "Bulk", "BulkOperator", "groups", "bulk"),
    ("numbers", False): ("Numbers", "Numeric", "NumericOperator", "groups", "numeric"),
    ("gc", None): ("Gc", "Gc", "GcOperator", "groups", "gc"),
    ("descriptors", None): ("Gc", "Descriptor", "DescriptorOperator", "groups", "gc"),
    ("threads", None): ("Threads", "Atomic", "AtomicOperator", "groups", "atomic"),
    ("shared", None): ("Threads", "Shared", "SharedOperator", "groups", "atomic"),
    ("simd", True): ("Vectors", "Simd", "SimdOperator", "vectors", "vector"),
    ("simd", False): ("VectorNumbers", "SimdNumeric", "SimdNumericOperator", "vectors", "vector_numeric"),
}
TITLES = {
    "Control": "of control, exceptions and continuations", "Memory": "of variables, memories, constants, tables and references",
    "Numbers": "on numbers", "Gc": "of aggregates, casts and descriptors", "Threads": "of atomic accesses",
    "Vectors": "on vectors, with immediates", "VectorNumbers": "on vectors, without immediates",
}
PARAMETRIC = {"drop", "select"}
KINDS = [
    "Index", "IndexOrZero", "Label", "Block", "BranchTable", "MemoryArgument", "MemoryOrdering", "Heap", "CastBranch", "ValueTypes",
    "I32Constant", "I64Constant", "F32Constant", "F64Constant", "V128Constant", "Lane", "Lanes", "Count", "TryTable", "Handlers", "ZeroByte",
    "Types", "Functions", "Tables", "Memories", "Globals", "Locals", "Tags", "Elements", "DataSegments", "Fields",
    "Plain", "Atomic", "ReadModifyWrite",
]

# a field's name => what its index counts
SPACES = [
    (r"function_index", "Functions"), (r"global_index", "Globals"), (r"local_index", "Locals"), (r"tag_index", "Tags"),
    (r"(dst_|src_)?table(_index)?", "Tables"), (r"(dst_|src_)?mem", "Memories"), (r"(array_)?elem_index", "Elements"),
    (r"(array_)?data_index", "DataSegments"), (r"field_index", "Fields"),
    (r"(struct_|array_|cont_)?type_index(_src|_dst)?|argument_index|result_index", "Types"),
]
# where the first release reserved a byte
OR_ZERO = {("memory.size", "mem"), ("memory.grow", "mem"), ("call_indirect", "table_index")}
SAME = {
    "block_type": ("Block", "block"), "br_table": ("BranchTable", "labels"), "heap_type": ("Heap", "heap"),
    "ordering": ("MemoryOrdering", "ordering"), "s32": ("I32Constant", "signed"), "s64": ("I64Constant", "signed"),
    "f32": ("F32Constant", "float32"), "f64": ("F64Constant", "float64"), "v128": ("V128Constant", "vector"),
    "lanes": ("Lanes", "lanes"), "val_type": ("ValueTypes", "value"), "val_types": ("ValueTypes", "values"),
    "try_table": ("TryTable", "clauses"), "resume_table": ("Handlers", "handlers"),
}
LANES = {"i8x16": 16, "i16x8": 8, "i32x4": 4, "i64x2": 2, "f32x4": 4, "f64x2": 2, "8": 16, "16": 8, "32": 4, "64": 2}


def camel(name):
    return "".join(part.capitalize() for part in name.split("_"))


def uses(module, names):
    """Lines that use these names of a module, each of at most 190 columns; none if there are no names."""
    lines = []
    for name in names:
        if lines and len(f"use {module}.{{{', '.join([*lines[-1], name])}}}") <= 190:
            lines[-1].append(name)
        else:
            lines.append([name])
    return "".join(f"use {module}.{{{', '.join(it)}}}\n" for it in lines)


def access_of(row):
    if ".rmw" in row["name"]:
        return "ReadModifyWrite"
    return "Atomic" if "atomic" in row["name"] else "Plain"


def field_of(row, name, kind):
    """The kind of an immediate, and what of `Carried` stands for it."""
    if kind.startswith("memarg"):
        return f"MemoryArgument {access_of(row)} {kind[-1]}", "memarg"
    if kind == "u8":
        shape = re.match(r"v128\.(?:load|store)(\d+)_lane", row["name"]) or re.match(r"(\w+)\.", row["name"])
        return f"Lane {LANES[shape[1]]}", "number"
    if kind == "u32":
        if name == "relative_depth":
            return "Label", "number"
        if name == "array_size":
            return "Count", "number"
        space = next(space for form, space in SPACES if re.fullmatch(form, name))
        return f"{'IndexOrZero' if (row['name'], name) in OR_ZERO else 'Index'} {space}", "number"
    return SAME[kind]


def row_of(row, constructor, alias):
    fields = [it.split(":", 1) for it in row["immediates"].split()]
    if any(kind == "ref_type" for _, kind in fields):
        # a branch on a cast is one immediate
        kinds, values = ["CastBranch"], ["number", "reference", "reference"]
    else:
        found = [field_of(row, *it) for it in fields]
        kinds, values = [it[0] for it in found], [it[1] for it in found]
    if row["name"] == "atomic.fence":
        kinds = ["ZeroByte"]
    op = " ".join([f"{alias}.{row['variant']}", *(f"c.{it}" for it in values)])
    op = f"({op})" if values else op
    prefix = "None" if row["prefix"] == "-" else f"(Some 0x{row['prefix']})"
    kinds = f"({' ∷ '.join([*kinds, '[]'])})" if kinds else "[]"
    return f"listed (op.{constructor} {op}) proposal.{camel(row['proposal'])} (codes \"{row['name']}\") {prefix} 0x{row['code']} {kinds}"


def group_of(row):
    group = "parametric" if row["group"] == "control" and row["name"] in PARAMETRIC else row["group"]
    carries = bool(row["immediates"])
    return (group, None) if (group, None) in GROUPS else (group, carries)


def alias_of(constructor):
    return re.sub(r"(?<!^)(?=[A-Z])", "_", constructor).lower()


def text_of(file, groups):
    """The file of these groups: its rows, and the imports that they need."""
    body, aliases = "", ""
    for key in (it for it in GROUPS if it in groups):
        _, constructor, enum, crate, module = GROUPS[key]
        alias = alias_of(constructor)
        if crate:
            aliases += f"use Rattle.wasm_operators_enums.specs.declared.{module}.{enum}.TheVariants as {alias}\n"
        rows = [row_of(row, constructor, alias if crate else "op") for row in groups[key]]
        body += f"\nabbrev pub {alias}_rows : Carried → List Listed\n{alias}_rows c =\n    " + " ∷\n    ".join(rows) + " ∷ []\n"
    unnamed = re.sub(r'"[^"]*"|\w+\.\w+', "", body)
    kinds = [it for it in KINDS if re.search(rf"\b{it}\b", unnamed)]
    prelude = ["List", "[]", "◌∷◌", "codes", *(it for it in ("Some", "None") if re.search(rf"\b{it}\b", unnamed))]
    text = f"-- Operators {TITLES[file]}, as the list has them (written by docs/operators/make_list_rows.py).\n"
    text += f"use Rattle.std.specs.Prelude.{{{', '.join(prelude)}}}\n"
    text += "use Rattle.wasm_operators_immediates.specs.declared.proposal.Proposal.TheVariants as proposal\n"
    text += uses("Rattle.wasm_operators_immediates.specs.Kinds", kinds)
    text += aliases + "use Rattle.wasm_operators_enums.specs.Op as op\n"
    return text + "use Rattle.wasm_operators_tests.specs.list.Listed.{Carried, Listed, listed}\n" + body


def carried_of(row, constructor, alias):
    """An operator of distinct values, and these values behind its opcode, in the order of the bytes."""
    fields = [it.split(":", 1) for it in row["immediates"].split()]
    numbers, values = iter("123"), []
    for name, kind in fields:
        if kind == "ref_type":
            values.append("(to_non_null c)" if name == "from_ref_type" else "(to_null c)")
            continue
        value = field_of(row, name, kind)[1]
        values.append(next(numbers) if value == "number" else f"c.{value}")
    if any(kind == "ref_type" for _, kind in fields):
        immediates = [f"CastBranch {' '.join(values)}"]
    else:
        kinds = [field_of(row, *it)[0] for it in fields]
        immediates = [f"{kind} {f'({value} ∷ [])' if value == 'c.value' else value}" for kind, value in zip(kinds, values)]
    if row["name"] == "atomic.fence":
        immediates = ["ZeroByte"]
    op = " ".join([f"{alias}.{row['variant']}", *values])
    return f"carries (op.{constructor} {f'({op})' if values else op}) ({' ∷ '.join([*immediates, '[]'])})"


def carried_text(groups):
    """The file of what each operator carries, by groups."""
    body, aliases = "", ""
    for key in (it for it in GROUPS if it in groups):
        _, constructor, enum, crate, module = GROUPS[key]
        rows = [it for it in groups[key] if it["immediates"] or it["name"] == "atomic.fence"]
        if not rows:
            continue
        alias = alias_of(constructor)
        if crate:
            aliases += f"use Rattle.wasm_operators_enums.specs.declared.{module}.{enum}.TheVariants as {alias}\n"
        lines = [carried_of(row, constructor, alias if crate else "op") for row in rows]
        body += f"\nabbrev pub {alias}_carries : Carried → List Carries\n{alias}_carries c =\n    " + " ∷\n    ".join(lines) + " ∷ []\n"
    unnamed = re.sub(r"\w+\.\w+", "", body)
    found = [it for it in KINDS if re.search(rf"\b{it}\b", unnamed)]
    spaces = [it for it in found if KINDS.index(it) > KINDS.index("ZeroByte")]
    text = "-- What each operator carries behind its opcode, in the order of the bytes, as the list has it (written by\n"
    text += "-- docs/operators/make_list_rows.py).\nuse Rattle.std.specs.Prelude.{List, [], ◌∷◌}\n"
    text += uses("Rattle.wasm_operators_immediates.specs.Kinds", spaces)
    text += uses("Rattle.wasm_operators_immediates.specs.Immediates", [it for it in found if it not in spaces])
    text += aliases + "use Rattle.wasm_operators_enums.specs.Op as op\n"
    return text + "use Rattle.wasm_operators_tests.specs.list.Listed.{Carried, Carries, carries, to_non_null, to_null}\n" + body


def main(list_file, crates):
    with open(list_file, encoding="utf-8") as it:
        rows = list(csv.DictReader(it))
    files = {}
    for row in rows:
        key = group_of(row)
        files.setdefault(GROUPS[key][0], {}).setdefault(key, []).append(row)
    for file, groups in files.items():
        with open(f"{crates}/wasm_operators_tests/specs/list/{file}Rows.antt", "w", encoding="utf-8") as it:
            it.write(text_of(file, groups))
    groups = {key: found for by_file in files.values() for key, found in by_file.items()}
    with open(f"{crates}/wasm_operators_tests/specs/list/CarriedRows.antt", "w", encoding="utf-8") as it:
        it.write(carried_text(groups))


main(*sys.argv[1:])
