"""Each front of a module."""
import tempfile

from common import answered, compare, kinds


def run(program):
    """Each front of a module with eight sections, whole and in pieces of one byte: the header, the header with the types and all of it alone
    are modules. Then what the command line says of features and limits."""
    module = bytes.fromhex("0061736d01000000010c0260027f7e017f60027e7f000302010004040170000a0504010101050d030100010606017f0141000b090701057001d2000b0a0601040041000b")
    differ = 0
    with tempfile.TemporaryDirectory(prefix="tests-") as room:
        names = [f"{length}.wasm" for length in range(len(module) + 1)]
        for length, name in enumerate(names):
            with open(f"{room}/{name}", "wb") as it:
                it.write(module[:length])
        wanted = [f"{name}: {'valid' if length in (8, 22, len(module)) else 'invalid'}" for length, name in enumerate(names)]
        for words in ([], ["--pieces=1"]):
            differ += compare(f"fronts {' '.join(words)}", kinds(answered(program, [*words, *names], cwd=room)), [*wanted, "--", "1"])
        with open(f"{room}/throw.wasm", "wb") as it:
            it.write(bytes.fromhex("0061736d01000000010401600000030201000a0601040008000b"))
        for words, said in ((["--features=nope"], "unknown feature `nope`"), (["--limits=nope=1"], "unknown limit `nope=1`"), (["--limits=locals=1000001"], "bad limit `locals=1000001`")):
            out, fault, status = answered(program, [*words, "8.wasm"], cwd=room)
            differ += compare(words[0], [out, fault, status], ["--", f"wasm-check: {said}", "2"])
        got = answered(program, ["--features", "no-exceptions", "throw.wasm"], cwd=room)
        differ += compare("no exceptions", kinds(got), ["throw.wasm: invalid", "--", "1"])
    return differ
