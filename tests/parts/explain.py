"""What `--explain` says below the line of a refusal, and in JSON."""
import json

from common import compare
from refused import BAD, THROW, VECTORS, room

# The last line about a refusal in a body.
RULES, SPELLING = "rules: WebAssembly 3.0, validation, instructions", "rules: WebAssembly 3.0, binary format, instructions"

# The members of a function that takes and gives nothing; of `i32.add`; and of an empty stack.
PLAIN = {"section": "code", "function": 0, "params": [], "results": []}
ADD = {"takes": ["i32", "i32"], "takes_count": 2, "gives": ["i32"], "gives_count": 1}
EMPTY = {"frame": "function", "unreachable": False, "stack": [], "stack_height": 0, "stack_below": 0}
# What is wrong in each of these modules, the lines below it, and the members of the object.
EXPLAINED = [
    ("mixed.wasm", [], "0x3e: type mismatch: expected i32, found f64", [
        "in the code section, function 2 `mix`", "of type (param i32 i64) (result f32)", "operator 8 of the body, i32.add at 0x3e",
        "it takes 2 operands, top first: i32 i32; gives 1", "on the stack of the block, top first: f64 i32 i64; below the block: 3 more", RULES],
        {"section": "code", "function": 2, "name": "mix", "params": ["i32", "i64"], "results": ["f32"],
        "operator": "i32.add", "operator_number": 8, "operator_offset": 0x3e, **ADD,
        "frame": "block", "unreachable": False, "stack": ["f64", "i32", "i64"], "stack_height": 3, "stack_below": 3}),
    ("dead.wasm", [], "0x1b: type mismatch: expected i32, found i64", [
        "in the code section, function 0", "of type (func)", "operator 3 of the body, i32.add at 0x1b",
        "it takes 2 operands, top first: i32 i32; gives 1", "on the stack of the function (unreachable), top first: i64 unknown", RULES],
        {**PLAIN, "operator": "i32.add", "operator_number": 3, "operator_offset": 0x1b, **ADD,
        "frame": "function", "unreachable": True, "stack": ["i64", "unknown"], "stack_height": 2, "stack_below": 0}),
    ("local.wasm", [], "0x17: unknown local 5: local index out of bounds", [
        "in the code section, function 0", "of type (func)", "operator 0 of the body, local.get at 0x17",
        "it takes 0 operands; gives 1", "on the stack of the function, top first: nothing", RULES],
        {**PLAIN, "operator": "local.get", "operator_number": 0, "operator_offset": 0x17,
        "takes": [], "takes_count": 0, "gives_count": 1, **EMPTY}),
    ("table.wasm", [], "0x2d: type mismatch: br_table target labels have different number of types", [
        "in the code section, function 0", "of type (func)", "operator 11 of the body, br_table at 0x2d",
        "it takes 2 operands, top first: i32 i32; gives 0", "on the stack of the block, top first:" + " i32" * 8 + " ..", RULES],
        {**PLAIN, "operator": "br_table", "operator_number": 11, "operator_offset": 0x2d,
        "takes": ["i32", "i32"], "takes_count": 2, "gives": [], "gives_count": 0,
        "frame": "block", "unreachable": False, "stack": [*["i32"] * 8, ".."], "stack_height": 9, "stack_below": 0}),
    ("null.wasm", [], "0x1e: type mismatch: expected i32, found (ref null $type)", [
        "in the code section, function 0", "of type (param (ref null 0))", "operator 1 of the body, i32.eqz at 0x1e",
        "it takes 1 operand, top first: i32; gives 1", "on the stack of the function, top first: (ref null 0)", RULES],
        {"section": "code", "function": 0, "params": ["(ref null 0)"], "results": [],
        "operator": "i32.eqz", "operator_number": 1, "operator_offset": 0x1e, "takes": ["i32"], "takes_count": 1, "gives": ["i32"], "gives_count": 1,
        "frame": "function", "unreachable": False, "stack": ["(ref null 0)"], "stack_height": 1, "stack_below": 0}),
    ("opcode.wasm", [], "0x18: illegal opcode: 0xff", [
        "in the code section, function 0", "of type (func)", "operator 1 of the body, at 0x18, is misspelt or out of place", SPELLING],
        {**PLAIN, "operator_number": 1, "operator_offset": 0x18}),
    ("open.wasm", [], "0x1a: control frames remain at end of function body or expression", [
        "in the code section, function 0", "of type (func)", "the body ends within the function", SPELLING],
        {**PLAIN, "body": "not ended", "frame": "function"}),
    ("late.wasm", [], "0x18: operators remaining after end of function body or expression", [
        "in the code section, function 0", "of type (func)", "operator 1 of the body, at 0x18, is misspelt or out of place", SPELLING],
        {**PLAIN, "operator_number": 1, "operator_offset": 0x18}),
    ("less.wasm", [], "0x15: function and code section have inconsistent lengths", [
        "after the function section", "rules: WebAssembly 3.0, binary format, modules"],
        {"after": "function"}),
    ("more.wasm", [], "0x14: function and code section have inconsistent lengths", [
        "after the function section", "rules: WebAssembly 3.0, binary format, modules"],
        {"after": "function"}),
    ("short.wasm", [], "0x19: unexpected end-of-file", [
        "in the code section (0x15 to 0x19)", "rules: WebAssembly 3.0, binary format, modules, code section"],
        {"section": "code", "section_offset": 0x15, "section_end": 0x19}),
    ("kind.wasm", [], "0x10: invalid value type", [
        "in the type section (0xa to 0x12), item 1 of 2, counted from 0", "rules: WebAssembly 3.0, binary format, modules, type section"],
        {"section": "type", "section_offset": 0xa, "section_end": 0x12, "item": 1, "items": 2}),
    ("long.wasm", [], f"0x123: {BAD}", [
        "in the code section, function 0 `" + "x" * 254 + "`..", "of type (func)", "operator 0 of the body, i32.add at 0x123",
        "it takes 2 operands, top first: i32 i32; gives 1", "on the stack of the function, top first: nothing", RULES],
        {**PLAIN, "name": "x" * 254 + "\u20ac" * 2, "operator": "i32.add", "operator_number": 0, "operator_offset": 0x123, **ADD, **EMPTY}),
    ("indirect.wasm", [], "0x1f: unknown table 0: table index out of bounds", [
        "in the code section, function 0", "of type (func)", "operator 2 of the body, call_indirect at 0x1f",
        "it takes 2 operands; gives 0", "on the stack of the function, top first: i32 i32", RULES],
        {**PLAIN, "operator": "call_indirect", "operator_number": 2, "operator_offset": 0x1f,
        "takes_count": 2, "gives": [], "gives_count": 0,
        "frame": "function", "unreachable": False, "stack": ["i32", "i32"], "stack_height": 2, "stack_below": 0}),
    ("locals.wasm", ["--limits=locals=1"], "0x17: too many locals: locals exceed maximum", [
        "--limits locals=N sets this limit", "in the code section, function 0", "of type (func)", "its locals are misspelt or too many",
        "rules: WebAssembly 3.0, appendix, implementation limitations"],
        {**PLAIN, "body": "locals unread"}),
    ("mixed.wasm", ["--limits=locals=1"], "0x29: too many locals: locals exceed maximum", [
        "--limits locals=N sets this limit", "in the code section, function 2 `mix`", "of type (param i32 i64) (result f32)",
        "its parameters are more than it may have locals", "rules: WebAssembly 3.0, appendix, implementation limitations"],
        {"section": "code", "function": 2, "name": "mix", "params": ["i32", "i64"], "results": ["f32"], "body": "params refused"}),
    ("fill.wasm", [], "0x22: type mismatch: expected i32, found i64", [
        "in the code section, function 0", "of type (func)", "operator 3 of the body, memory.fill at 0x22",
        "it takes 3 operands, top first: i32 i32 i32; gives 0", "on the stack of the function, top first: i32 i64 i32", RULES],
        {**PLAIN, "operator": "memory.fill", "operator_number": 3, "operator_offset": 0x22,
        "takes": ["i32", "i32", "i32"], "takes_count": 3, "gives": [], "gives_count": 0,
        "frame": "function", "unreachable": False, "stack": ["i32", "i64", "i32"], "stack_height": 3, "stack_below": 0}),
    ("refs.wasm", [], "0x24: type mismatch: expected (ref null $type), found (ref null $type)", [
        "in the code section, function 0", "of type (param (ref null 0)) (result (ref null 1))", "operator 1 of the body, end at 0x24",
        "it takes 1 operand, top first: (ref null 1); gives 1", "on the stack of the function, top first: (ref null 0)", RULES],
        {"section": "code", "function": 0, "params": ["(ref null 0)"], "results": ["(ref null 1)"],
        "operator": "end", "operator_number": 1, "operator_offset": 0x24,
        "takes": ["(ref null 1)"], "takes_count": 1, "gives": ["(ref null 1)"], "gives_count": 1,
        "frame": "function", "unreachable": False, "stack": ["(ref null 0)"], "stack_height": 1, "stack_below": 0}),
    ("field.wasm", [], "0x21: type mismatch: expected i32, found i64", [
        "in the code section, function 0", "of type (param (ref null 0))", "operator 2 of the body, struct.set at 0x21",
        "it takes 2 operands, top first: i32 (ref null 0); gives 0", "on the stack of the function, top first: i64 (ref null 0)", RULES],
        {"section": "code", "function": 0, "params": ["(ref null 0)"], "results": [],
        "operator": "struct.set", "operator_number": 2, "operator_offset": 0x21,
        "takes": ["i32", "(ref null 0)"], "takes_count": 2, "gives": [], "gives_count": 0,
        "frame": "function", "unreachable": False, "stack": ["i64", "(ref null 0)"], "stack_height": 2, "stack_below": 0}),
    ("callref.wasm", [], "0x21: type mismatch: expected i64, found i32", [
        "in the code section, function 0", "of type (param (ref null 0))", "operator 2 of the body, call_ref at 0x21",
        "it takes 2 operands, top first: (ref null 0) i64; gives 0", "on the stack of the function, top first: (ref null 0) i32", RULES],
        {"section": "code", "function": 0, "params": ["(ref null 0)"], "results": [],
        "operator": "call_ref", "operator_number": 2, "operator_offset": 0x21,
        "takes": ["(ref null 0)", "i64"], "takes_count": 2, "gives": [], "gives_count": 0,
        "frame": "function", "unreachable": False, "stack": ["(ref null 0)", "i32"], "stack_height": 2, "stack_below": 0}),
    ("store.wasm", [], "0x20: type mismatch: expected i64, found i32", [
        "in the code section, function 0", "of type (func)", "operator 2 of the body, i64.store at 0x20",
        "it takes 2 operands, top first: i64 i32; gives 0", "on the stack of the function, top first: i32 i32", RULES],
        {**PLAIN, "operator": "i64.store", "operator_number": 2, "operator_offset": 0x20,
        "takes": ["i64", "i32"], "takes_count": 2, "gives": [], "gives_count": 0,
        "frame": "function", "unreachable": False, "stack": ["i32", "i32"], "stack_height": 2, "stack_below": 0}),
]


def run(program):
    with room(program) as it:
        explain_each(it)
        explain_more(it)
        return it.differ


def explain_each(it):
    """The rows of EXPLAINED, as lines and as JSON."""
    for name, words, fault, notes, _ in EXPLAINED:
        it.want(f"{name} explained", ["--explain", *words, name], [f"{name}: invalid at {fault}", *[f"  {line}" for line in notes], "--", "1"])
    for name, words, _, notes, members in EXPLAINED:
        told = json.loads(it.answered(["--json", "--explain", *words, name])[0])["explanation"]
        wanted = {"rules": notes[-1].removeprefix("rules: "), **members}
        it.differ += compare(f"{name} explained in JSON", *[[f"{key}: {value}" for key, value in sorted(one.items())] for one in (told, wanted)])


def explain_more(it):
    """Several files, names, items of sections, and what helps a person."""
    body = ["  rules: WebAssembly 3.0, validation, instructions"]
    lacking = ["  it takes 1 operand, top first: i32; gives 1", "  on the stack of the function, top first: nothing", *body]
    it.want("explained", ["--explain", "good.wasm", "bad.wasm"], [
        "good.wasm: valid", f"bad.wasm: invalid at 0x18: {BAD}", "  in the code section, function 0",
        "  of type (result i32)", "  operator 0 of the body, end at 0x18", *lacking, "--", "1"])
    it.want("explained by an export", ["--explain", "exported.wasm"], [
        f"exported.wasm: invalid at 0x20: {BAD}", "  in the code section, function 0 `f\\u{a}`",
        "  of type (result i32)", "  operator 0 of the body, end at 0x20", *lacking, "--", "1"])
    it.want("explained by the name section", ["--explain", "named.wasm"], [
        f"named.wasm: invalid at 0x1f: {BAD}", "  in the code section, function 0 `m\\u{a}`",
        "  of type (result i32)", "  operator 0 of the body, end at 0x1f", *lacking, "--", "1"])
    it.want("an item explained", ["--explain", "export.wasm"], [
        "export.wasm: invalid at 0x19: unknown function 5: exported function index out of bounds",
        "  in the export section (0x14 to 0x1d), item 1 of 2, counted from 0", "  rules: WebAssembly 3.0, validation, modules, exports", "--", "1"])
    mismatch = "stack.wasm: invalid at 0x1d: type mismatch: expected i32, found i64"
    stack = ["in the code section, function 0", "of type (func)", "operator 3 of the body, i32.add at 0x1d",
             "it takes 2 operands, top first: i32 i32; gives 1", "on the stack of the block, top first: i64 i32",
             "rules: WebAssembly 3.0, validation, instructions"]
    it.want("an operator explained", ["--explain", "stack.wasm"], [mismatch, *[f"  {line}" for line in stack], "--", "1"])
    in_body = ["  in the code section, function 0", "  of type (func)"]
    it.want("what helps with vectors", ["--explain", "vector.wasm"], [
        f"vector.wasm: invalid at 0x17: {VECTORS}", "  --vectors judges operators on vectors", *in_body,
        "  operator 0 of the body, v128.const at 0x17", "  on the stack of the function, top first: nothing", *body, "--", "1"])
    it.want("what helps in pieces", ["--explain", "--pieces=1", "--features=no-exceptions", "throw.wasm"], [
        f"throw.wasm: invalid at 0x17: {THROW}", "  --features exceptions allows it", "--", "1"])
    it.want("what helps with a text", ["--explain", "text.wasm"], [
        "text.wasm: invalid at 0x0: magic header not detected: bad magic number", "  this is the text format; wasm-check judges the binary format",
        "  in the header", "  rules: WebAssembly 3.0, binary format, modules", "--", "1"])
    it.want("no explanation in pieces", ["--explain", "--pieces=1", "stack.wasm"], [mismatch, "--", "1"])
    it.want("no section", ["--explain", "cut.wasm"], [
        "cut.wasm: invalid at 0xa: unexpected end-of-file", "  after the header", "  rules: WebAssembly 3.0, binary format, modules", "--", "1"])
    it.want("quiet and explained", ["--quiet", "--explain", "stack.wasm"], ["--", "1"])
