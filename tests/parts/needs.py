"""Which features a file needs: the list that is told, and that no word of it can be left out."""
import subprocess

from common import CHECK, compare, worked_names
from refused import BAD, room

MODULES = {
    # `i32.extend8_s` of a constant; `memory.copy` in a memory; a table index of `call_indirect` in two bytes; a global that is exported and mutable
    "sign.wasm": "0061736d0100000001040160000003020100" + "0a08010600" + "4100c01a0b",
    "copy.wasm": "0061736d0100000001040160000003020100" + "0503010001" + "0a0e010c00" + "410041004100fc0a00000b",
    "padded.wasm": "0061736d0100000001040160000003020100" + "040401700000" + "0a0a010800" + "41001100" + "80000b",
    "global.wasm": "0061736d01000000" + "0606017f0141000b" + "0705010167" + "0300",
}


def is_valid(it, name, listed, switch=("--vectors",)):
    """Whether a worked module is valid by a list of features, with operators on vectors or without."""
    words = [it.program, "run", "--quiet", *switch, "--features", listed, name]
    return subprocess.run(words, capture_output=True, cwd=f"{CHECK}/data").returncode == 0


def tell_worked(it):
    """Each worked module: by the list that is told it is valid, and by the list without any one of its words it is not."""
    names = worked_names()
    ran = subprocess.run([it.program, "run", "--needs", "--keep-going", *names], capture_output=True, text=True, cwd=f"{CHECK}/data")
    lists = [line.split(": needs ") for line in ran.stdout.splitlines() if ": needs " in line]
    it.differ += compare("some are valid", [len(lists) > 100], [True])
    for name, needed in lists:
        listed, *switch = needed.split(" ")
        words = listed.split(",")
        it.differ += compare(f"{name} needs {needed}", [str(is_valid(it, name, listed, given)) for given in (switch, [])], ["True", str(not switch)])
        tried = [listed] + [",".join(words[:k] + words[k + 1:]) for k in range(1, len(words))]
        wanted = [words[0] == "mvp"] + [True] + [False] * (len(words) - 1)
        it.differ += compare(f"{name} needs {listed}", [words[0] == "mvp"] + [is_valid(it, name, each) for each in tried], wanted)


def run(program):
    with room(program) as it:
        for name, module in MODULES.items():
            with open(f"{it.folder}/{name}", "wb") as out:
                out.write(bytes.fromhex(module))
        it.want("needs", ["--needs", "good.wasm", "bad.wasm", "vector.wasm", "memories.wasm"], [
            "good.wasm: needs mvp", f"bad.wasm: invalid at 0x18: {BAD}", "vector.wasm: needs mvp,simd --vectors", "memories.wasm: needs mvp,multi-memory", "--", "1"])
        it.want("needs of single features", ["--needs", *MODULES], [
            "sign.wasm: needs mvp,sign-extension", "copy.wasm: needs mvp,bulk-memory-opt", "padded.wasm: needs mvp,call-indirect-overlong",
            "global.wasm: needs mvp,mutable-global", "--", "0"])
        it.want("needs, as JSON", ["--needs", "--json", "vector.wasm", "bad.wasm"], [
            '{"file":"vector.wasm","valid":true,"needs":"mvp,simd","vectors":true}',
            f'{{"file":"bad.wasm","valid":false,"offset":24,"kind":"types","message":"{BAD}"}}', "--", "1"])
        it.want("needs, quiet", ["--needs", "--quiet", "vector.wasm"], ["--", "0"])
        it.want("needs, explained", ["--needs", "--explain", "vector.wasm"], ["vector.wasm: needs mvp,simd --vectors", "--", "0"])
        it.want("needs under a limit", ["--needs", "--limits=locals=1", "locals.wasm"], [
            "locals.wasm: invalid at 0x17: too many locals: locals exceed maximum", "--", "1"])
        for other, told in (("--features=gc", "--features <LIST>"), ("--pieces=3", "--pieces <N>")):
            it.want(f"needs and {other}", ["--needs", other, "good.wasm"], [
                "--", f"error: the argument '--needs' cannot be used with '{told}'", "", "For more information, try '--help'.", "2"])
        tell_worked(it)
        return it.differ
