"""What the parts of tests/run share: the program is called, and what it writes is compared with what was worked."""
import importlib.machinery
import importlib.util
import os
import resource
import subprocess
import sys

ROOT = os.path.dirname(os.path.dirname(os.path.dirname(os.path.abspath(__file__))))

CHECK = f"{ROOT}/crates/wasm_check"


def script(path):
    """A script of the repository as a module."""
    name = os.path.basename(path).replace("-", "_")
    loader = importlib.machinery.SourceFileLoader(name, f"{ROOT}/{path}")
    made = importlib.util.module_from_spec(importlib.util.spec_from_loader(loader.name, loader))
    loader.exec_module(made)
    return made


def told(program, part, lines):
    ran = subprocess.run([program, part], input="".join(f"{line}\n" for line in lines), capture_output=True, text=True)
    if ran.returncode:
        sys.exit(f"tests/run: the program ended with {ran.returncode}\n{ran.stdout[-500:]}{ran.stderr[-2000:]}")
    return ran.stdout.splitlines()


def compare(what, got, wanted):
    """How many lines differ; the first of them are written."""
    differ = [(g, w) for g, w in zip(got, wanted) if g != w]
    for g, w in differ[:5]:
        print(f"{what}:\n  {g[-300:]}\nand not\n  {w[-300:]}")
    if len(got) != len(wanted):
        print(f"{what}: {len(got)} lines in place of {len(wanted)}")
    return len(differ) + abs(len(got) - len(wanted))


def words_of(path):
    with open(path, encoding="utf-8") as it:
        return it.read().splitlines()


def answered(program, words, given=b"", cwd=None, most_open=None, most_bytes=None, closed=(), own_name=None):
    """What `wasm-check` writes to standard output and to standard error, line by line, and its status. It may have so many files open, and
    so much memory, and is started without these descriptors, and by this name."""
    def before():
        if most_open:
            resource.setrlimit(resource.RLIMIT_NOFILE, (most_open, most_open))
        if most_bytes:
            resource.setrlimit(resource.RLIMIT_AS, (most_bytes, most_bytes))
        for descriptor in closed:
            os.close(descriptor)

    part = ["named", own_name] if own_name else ["run"]
    ran = subprocess.run([program, *part, *words], input=given, capture_output=True, cwd=cwd, preexec_fn=before)
    return [*ran.stdout.decode().splitlines(), "--", *ran.stderr.decode().splitlines(), str(ran.returncode)]


def kinds(lines):
    """Of each line what it says but for the fault: which of several faults is told first depends on how the module is read."""
    return [line.replace(": invalid at ", ": invalid: ").split(": invalid: ")[0] + (": invalid" if ": invalid at " in line else "") for line in lines]


def worked_names():
    """The files of the worked modules, as wasm-check is given them."""
    return [name for name in words_of(f"{CHECK}/args") if not name.startswith("-")]
