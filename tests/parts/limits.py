"""Each limit is named by the refusal of a module that is past it, and the chapter on limits by its explanation."""
import json
import os
import tempfile

from common import CHECK, answered, compare

# For each limit a number past which these modules are, all of them valid under the limits by default: two types; a function of a parameter and a
# result, a table, a memory, a tag, a global, an element segment and a body; a structure; an exported function; a type below another; an import;
# a data segment; a typed select, a local, and a clause of try_table.
STEM, EIGHT = "0061736d01000000" + "0104016000000302" + "0100", "module-information"

EXPORTING, IMPORTING = STEM + "07050101610000" + "0a040102000b", "0061736d01000000" + "010401600000" + "020701016101620000"

LIMITED = {
    "types": (1, "0061736d01000000" + "010702600000600000"), "params": (1, EIGHT), "results": (0, EIGHT), "functions": (0, EIGHT), "tables": (0, EIGHT),
    "memories": (0, EIGHT), "tags": (0, EIGHT), "globals": (0, EIGHT), "element-segments": (0, EIGHT), "segment-items": (0, EIGHT),
    "body-bytes": (1, EIGHT), "fields": (0, "0061736d01000000" + "0105015f017f00"), "string-bytes": (0, EXPORTING), "exports": (0, EXPORTING),
    "subtyping-depth": (0, "0061736d01000000" + "010a0250005f005001005f00"), "type-size": (1, IMPORTING), "imports": (0, IMPORTING),
    "data-segments": (0, "0061736d01000000" + "0b03010100"), "select-types": (0, STEM + "0a0e010c004100410041001c017f1a0b"),
    "locals": (0, STEM + "0a06010401017f0b"), "catches": (0, STEM + "0a0a0108001f400102000b0b"),
}


# More parameters and more results than a limit may allow: no option helps. A function type of 1,001 numbers, in a section of 1,007 bytes.
NUMBERS = b"\xe9\x07" + b"\x7f" * 1001
PAST = {"params": b"\x60" + NUMBERS + b"\x00", "results": b"\x60\x00" + NUMBERS}


def run(program):
    """Each limit is named by the refusal of a module that is past it."""
    differ = 0
    with tempfile.TemporaryDirectory(prefix="tests-") as room:
        for limit, (number, module) in LIMITED.items():
            path = f"{CHECK}/data/{module}.wasm"
            if not os.path.exists(path):
                path = f"{room}/{limit}.wasm"
                with open(path, "wb") as it:
                    it.write(bytes.fromhex(module))
            differ += compare(f"by default, {limit}", answered(program, ["--quiet", path]), ["--", "0"])
            told_of = json.loads(answered(program, ["--json", "--explain", f"--limits={limit}={number}", path])[0])
            differ += compare(f"the limit {limit}", [str(told_of.get(it)) for it in ("kind", "limit", "hint")], ["limit", limit, f"--limits {limit}=N sets this limit"])
            differ += compare(f"the chapter of {limit}", [told_of["explanation"]["rules"]], ["WebAssembly 3.0, appendix, implementation limitations"])
        for limit, function in PAST.items():
            with open(f"{room}/past.wasm", "wb") as it:
                it.write(b"\0asm\1\0\0\0\1\xee\x07\1" + function)
            told_of = json.loads(answered(program, ["--json", f"{room}/past.wasm"])[0])
            wanted = ["limit", limit, "no option raises this limit"]
            differ += compare(f"{limit} past their ceiling", [str(told_of.get(it)) for it in ("kind", "limit", "hint")], wanted)
    return differ
