"""Modules at the limits, and one past them."""
import re
import tempfile

from common import answered, compare, script


def run(program):
    """The modules of tests/sizes, at a limit and one past it: the body of the greatest length, as many items of each kind as may be."""
    differ = 0
    with tempfile.TemporaryDirectory(prefix="tests-") as room:
        for name, text, wanted in script("tests/sizes").modules():
            with open(f"{room}/a.wasm", "wb") as it:
                it.write(text)
            for words in ([], ["--pieces=4096"]):
                got = answered(program, [*words, "a.wasm"], cwd=room)[0].removeprefix("a.wasm: ")
                is_right = re.fullmatch(re.escape(wanted).replace(r"\*", "0x[0-9a-f]+") + ".*", got)
                differ += compare(f"{name} {' '.join(words)}", [got if not is_right else wanted], [wanted])
    return differ
