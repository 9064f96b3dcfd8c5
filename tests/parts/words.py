"""Words of the command line: such as would break or turn a line, such as are nearly right, and the tables of words."""
import os
import subprocess

from common import ROOT, answered, compare, words_of


def told_at_terminal(program, words, cwd=None):
    """What `wasm-check` writes to standard error, if that is a terminal, and its status."""
    ours, theirs = os.openpty()
    ran = subprocess.run([program, "run", *words], stdout=subprocess.DEVNULL, stderr=theirs, cwd=cwd)
    os.close(theirs)
    told = b""
    try:
        while chunk := os.read(ours, 4096):
            told += chunk
    except OSError:
        # The other end is closed.
        pass
    os.close(ours)
    return [*told.decode().splitlines(), str(ran.returncode)]


def show_words(program):
    """Words that would break or turn a line: a file's name, a word that is refused, and the program's own name."""
    broken, shown = "a\u2028b\u202e\u061c\u2069", r"a\u{2028}b\u{202e}\u{61c}\u{2069}"
    differ = compare("a name that breaks a line", answered(program, [broken]), ["--", f"wasm-check: {shown}: cannot open", "2"])
    differ += compare("a list that breaks a line", answered(program, [f"--features={broken}", "a"]), ["--", f"wasm-check: unknown feature `{shown}`", "2"])
    kept = "a\u2027\u202f\u200d\u2010\u2065\u206a"
    differ += compare("a name that does not", answered(program, [kept]), ["--", f"wasm-check: {kept}: cannot open", "2"])
    for name, told in (("x\ny: valid", r"x\u{a}y: valid"), ("x\u2029y", r"x\u{2029}y"), ("wasm-check", "wasm-check")):
        got = answered(program, ["--help"], own_name=name)[2:4]
        differ += compare("the program's own name", got, [f"Usage: {told} [OPTIONS] [FILE]...", ""])
    return differ


def tell_words(program):
    """Words that are nearly right, and the tables of words."""
    differ = 0
    for words, lines in (
        (["--features=GC", "a"], ["--", "wasm-check: unknown feature `GC`", "2"]),
        (["--features=mvp,reference_types", "a"], ["--", "wasm-check: unknown feature `reference_types`", "2"]),
        (["--features=vectors", "a"], ["--", "wasm-check: unknown feature `vectors`", "2"]),
        (["--limits=nope=1", "a"], ["--", "wasm-check: unknown limit `nope=1`", "2"]),
        (["--limits=locals=1000001", "a"], ["--", "wasm-check: bad limit `locals=1000001`", "2"]),
        (["--limits=tags=1", "--limits=tags", "a"], ["--", "wasm-check: bad limit `tags`", "2"]),
    ):
        differ += compare(" ".join(words), answered(program, words), lines)
    for words, lines in (
        (["--features=GC", "a"], ["wasm-check: unknown feature `GC`", "  did you mean `gc`?", "2"]),
        (["--features=mvp,reference_types", "a"], ["wasm-check: unknown feature `reference_types`", "  did you mean `reference-types`?", "2"]),
        (["--features=nope", "a"], ["wasm-check: unknown feature `nope`", "2"]),
        (["--limits=locals=1000001", "a"], ["wasm-check: bad limit `locals=1000001`", "  at most 1000000", "2"]),
        (["--limits=tags=1", "--limits=tags", "a"], ["wasm-check: bad limit `tags`", "  at most 1000000", "2"]),
        (["gone.wasm"], ["wasm-check: gone.wasm: cannot open", "  no such file", "2"]),
        (["/dev/null/a"], ["wasm-check: /dev/null/a: cannot open", "  not a directory", "2"]),
        (["a" * 300], [f"wasm-check: {'a' * 300}: cannot open", "  name too long", "2"]),
        (["/"], ["wasm-check: /: cannot read", "  is a directory", "2"]),
        (["--keep-going", "gone.wasm", "/"], ["wasm-check: gone.wasm: cannot open", "  no such file", "wasm-check: /: cannot read", "  is a directory", "2"]),
    ):
        differ += compare(f"{' '.join(words)}, at a terminal", told_at_terminal(program, words), lines)
    features = answered(program, ["--features", "help"])
    differ += compare("--features help", features[-2:], ["--", "0"])
    rows = [line.split()[:2] for line in features[1:29]]
    on = 0x64BFDFF
    differ += compare("the features by default", [it[1] for it in rows], ["yes" if on >> bit & 1 else "no" for bit in range(28)])
    for word, _ in rows:
        differ += compare(f"the feature {word}", answered(program, [f"--features={word}", "gone.wasm"])[1:2], ["wasm-check: gone.wasm: cannot open"])
    limits = answered(program, ["--limits=help"])
    differ += compare("--limits help", limits[-2:], ["--", "0"])
    told_rows = {line.split()[0]: line.split()[1:3] for line in limits[1:22]}
    for line in words_of(f"{ROOT}/docs/LIMITS.md"):
        cells = [cell.strip() for cell in line.split("|")]
        if len(cells) > 5 and cells[1].startswith("`") and cells[3].replace(",", "").isdigit():
            for name in cells[1].replace("`", "").split(", "):
                differ += compare(f"the limit {name}", told_rows.get(name.replace("_", "-"), []), [cells[3].replace(",", ""), cells[4].replace(",", "")])
    return differ


def run(program):
    return show_words(program) + tell_words(program)
