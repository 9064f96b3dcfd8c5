"""The fast loop over bodies changes no line, and the pass over constants no verdict."""
import tempfile

from common import CHECK, ROOT, answered, compare, kinds, script, words_of, worked_names

# By this limit the fast loop over bodies is not used, since it takes a `try_table` of 100 clauses. No module here has so many.
WITHOUT_LOOP = ["--limits=catches=99"]

NUMBER, ANY, ARRAY = b"\x5f\1\x7f\0", b"\x5f\1\x6e\0", b"\x5e\x7f\0"

# A value, the types that it names, its type and another, and the feature without which it is refused. The last two the pass leaves.
CONSTANTS = [
    ("4100", [], "7f", "7e", None),
    ("4200", [], "7e", "7f", None),
    ("4300000000", [], "7d", "7c", None),
    ("440000000000000000", [], "7c", "7d", None),
    ("410041016a", [], "7f", "7e", "extended-const"),
    ("4200420142027c7d", [], "7e", "7f", "extended-const"),
    ("2300", [], "7f", "7e", "gc"),
    ("d070", [], "70", "7f", None),
    ("d06e", [], "6e", "6f", "gc"),
    ("d000", [NUMBER], "6300", "6400", "gc"),
    ("4100fb1c", [], "6c", "7f", "gc"),
    ("4100fb0000", [NUMBER], "6400", "6c", "gc"),
    ("fb0100", [NUMBER], "6400", "6c", "gc"),
    ("d06efb0000", [ANY], "6400", "6c", "gc"),
    ("41004105fb0600", [ARRAY], "6400", "6c", "gc"),
    ("4105fb0700", [ARRAY], "6400", "6c", "gc"),
    ("41004100fb080002", [ARRAY], "6400", "6c", "gc"),
    ("4100fb0000fb0001", [NUMBER, ANY], "6401", "6400", "gc"),
    ("d06ffb1a", [], "6e", "6f", "gc"),
    ("43000000004300000000", [], "7d", "7d", ""),
]


def with_constant(value, types, ty):
    """A module with a global of this type that has the value, and with elements that have it if it is a reference."""
    made = script("bench/hostile-families")
    value, ty = bytes.fromhex(value) + b"\x0b", bytes.fromhex(ty)
    sections = [made.section(6, b"\2\x7f\0\x41\0\x0b" + ty + b"\0" + value)]
    if ty[0] < 0x7c:
        sections.append(made.section(9, b"\1\5" + ty + b"\3" + value * 3))
    return made.module(made.section(1, made.number(len(types)) + b"".join(types)), *sections)


def constants(program):
    """Each constant of CONSTANTS is valid as its own type alone, by the features that it needs. With descriptors the pass leaves structures."""
    differ = 0
    with tempfile.TemporaryDirectory(prefix="tests-") as room:
        names = []
        for value, types, *both, _ in CONSTANTS:
            for ty in both:
                names.append(f"{len(names)}.wasm")
                with open(f"{room}/{names[-1]}", "wb") as file:
                    file.write(with_constant(value, types, ty))
        for word in ("default", "custom-descriptors", "no-extended-const", "no-gc"):
            wanted = [f"{name}: {'valid' if place % 2 == 0 and need not in ('', word[3:]) else 'invalid'}"
                      for place, (name, need) in enumerate(zip(names, [row[-1] for row in CONSTANTS for _ in range(2)]))]
            differ += compare(f"constants, {word}", kinds(answered(program, [f"--features={word}", *names], cwd=room)), [*wanted, "--", "1"])
    return differ


def run(program):
    """Constants, and bodies."""
    return constants(program) + bodies(program)


def bodies(program):
    """The rows of tests/rules and the worked modules, each alone and with 100 bodies more: the fast loop over bodies changes no line."""
    padded = script("bench/hostile-families").padded
    rows = [row.split("\t") for row in words_of(f"{ROOT}/tests/rules/rows.tsv")]
    texts = [bytes.fromhex(digits) for *_, features, _, digits in rows if features == "default"]
    texts += [open(f"{CHECK}/data/{name}", "rb").read() for name in worked_names()]
    with tempfile.TemporaryDirectory(prefix="tests-") as room:
        names = [f"{number}.wasm" for number in range(2 * len(texts))]
        for number, text in enumerate(texts):
            for name, it in zip(names[2 * number :], (text, padded(text, 100))):
                with open(f"{room}/{name}", "wb") as file:
                    file.write(it)
        return compare("without the loop", answered(program, [*WITHOUT_LOOP, *names], cwd=room), answered(program, names, cwd=room))
