"""Small modules, most of them refused, that the forms of lines and explanations are tried on."""
import contextlib
import os
import tempfile

from common import answered, compare

# Worked modules in the forms of lines: one that is valid, a body that lacks an operand (refused at 0x18), a vector that is dropped (its operator
# is at 0x17), a `throw` (at 0x17), and a module in the text format. Of those that are explained: a body that lacks an operand (its `end` at 0x20)
# of a function that is exported as `f` and a line feed; the same that the name section calls `m` and a line feed (at 0x1f); an export of function 5,
# where there is one function (the second item, at 0x19, of a section from 0x14 to 0x1d); and in a block `i32.add` of an i32 and an i64, at 0x1d.
# mixed: function 1 + 1 (after one that is imported and one with an empty body), of type (i32, i64) -> f32, with locals f32, f64, f64, that the name section
# calls `mix`: `i32.const 7`, `local.get 1`, `loop`, `local.get 2`, `block`, `local.get` of 1, 0 and 3, and at 0x3e `i32.add`. dead: `unreachable`, `select`,
# `i64.const`, and at 0x1b `i32.add`. local: `local.get 5` at 0x17. table: `block (result i32)`, `block`, nine `i32.const`, and at 0x2d `br_table 0 1`. null:
# `i32.eqz` at 0x1e of a parameter (ref null 0). opcode: 0xff at 0x18, after a `nop`. open: a body whose one `end` is that of a block. locals: two i32.
# late: an `end` at 0x18, after that of the body. less, more: a body less than functions, one more. short: a body less than the code section says.
# refs: a parameter (ref null 0) where a result (ref null 1) is wanted, by the `end` at 0x24. field: an i64 for a field i32 of struct 0, by the `struct.set` at 0x21.
# callref: an i32 for a parameter i64 of function type 0, by the `call_ref` at 0x21. store: an i32 for the value of `i64.store` at 0x20.
# fill: an i64 for the value of `memory.fill` at 0x22.
# kind: a parameter of type 0x55 at 0x10. long: an export's name of 254 bytes and two characters of three bytes. indirect: `call_indirect`, no table.
MODULES = {
    "good.wasm": "0061736d01000000",
    "bad.wasm": "0061736d010000000105016000017f030201000a040102000b",
    "vector.wasm": "0061736d01000000010401600000030201000a17011500fd0c" + "00" * 16 + "1a0b",
    "throw.wasm": "0061736d01000000010401600000030201000a0601040008000b",
    "text.wasm": b"  (module)".hex(),
    "exported.wasm": "0061736d010000000105016000017f0302010007060102660a00000a040102000b",
    "named.wasm": "0061736d010000000105016000017f03020100070501016600000a040102000b000c046e616d6501050100026d0a",
    "export.wasm": "0061736d01000000010401600000030201000709020161000001620005" + "0a040102000b",
    "stack.wasm": "0061736d01000000010401600000030201000a0d010b00027f410142026a0b1a0b",
    "cut.wasm": "0061736d010000000100",
    "mixed.wasm": "0061736d01000000010a0260000060027f7e017d020701016d0166000003030200010a1e0202000b19"
                  "02017d027c410720010340200202402001200020036a0b0b0b000d046e616d6501060102036d6978",
    "dead.wasm": "0061736d01000000010401600000030201000a0a010800001b42006a1a0b",
    "local.wasm": "0061736d01000000010401600000030201000a0701050020051a0b",
    "table.wasm": "0061736d01000000010401600000030201000a20011e00027f0240" + "4100" * 9 + "0e0100010b0b0b",
    "null.wasm": "0061736d010000000109026000006001630000030201010a080106002000451a0b",
    "opcode.wasm": "0061736d01000000010401600000030201000a0601040001ff0b",
    "open.wasm": "0061736d01000000010401600000030201000a0601040002400b",
    "memories.wasm": "0061736d010000000505020000" + "0000",
    "component.wasm": "0061736d0d000100",
    "padded.wasm": "0061736d010000000104016000000302010005030100010a08010600" + "3f80001a0b",
    "group.wasm": "0061736d01000000010601" + "6001640000",
    "locals.wasm": "0061736d01000000010401600000030201000a06010401027f0b",
    "late.wasm": "0061736d01000000010401600000030201000a050103000b0b",
    "less.wasm": "0061736d0100000001040160000003030200000a040102000b",
    "more.wasm": "0061736d01000000010401600000030201000a070202000b02000b",
    "short.wasm": "0061736d0100000001040160000003030200000a040202000b",
    "kind.wasm": "0061736d010000000108026000006001550003020100",
    "long.wasm": "0061736d010000000104016000000302010007890201" + "8402" + "78" * 254 + "e282ac" * 2 + "0000" + "0a05010300" + "6a0b",
    "indirect.wasm": "0061736d0100000001080260017f00600000030201010a0b0109004100410011" + "00000b",
    "refs.wasm": "0061736d01000000010f03" + "600000" + "60017f00" + "6001630001" + "6301" + "03020102" + "0a0601040020000b",
    "field.wasm": "0061736d01000000010a02" + "5f017f01" + "6001630000" + "03020101" + "0a0c010a0020004200fb0500000b",
    "callref.wasm": "0061736d01000000010a02" + "60017e00" + "6001630000" + "03020101" + "0a0a010800410020001400" + "0b",
    "store.wasm": "0061736d01000000" + "010401600000" + "03020100" + "0503010001" + "0a0b010900410041003703000b",
    "fill.wasm": "0061736d01000000" + "010401600000" + "03020100" + "0503010001" + "0a0d010b00410042004100fc0b000b",
}
BAD = "type mismatch: expected i32 but nothing on stack"
VECTORS = "unexpected SIMD opcode: 0xfd"
THROW = "exceptions support is not enabled"


class Room:
    """A folder with the modules, in which the program is started; it counts the lines that differ."""

    def __init__(self, program, folder):
        self.program, self.folder, self.differ = program, folder, 0

    def answered(self, words):
        return answered(self.program, words, cwd=self.folder)

    def want(self, what, words, lines):
        self.differ += compare(what, self.answered(words), lines)


@contextlib.contextmanager
def room(program):
    with tempfile.TemporaryDirectory(prefix="tests-") as folder:
        for name, module in MODULES.items():
            with open(os.path.join(folder, name), "wb") as it:
                it.write(bytes.fromhex(module))
        yield Room(program, folder)
