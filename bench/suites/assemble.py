"""Assembles the scripts of a suite. What the assembler does not know is done by Binaryen's `wasm-as`, if there is one.

Binaryen writes no code that is never reached, and reads types more finely than the standard does. So a module with the word
`unreachable` that has to be refused is not given to it, and faults in the text stay faults in the text.
"""
import fnmatch
import json
import pathlib
import re
import subprocess
import tempfile

import from_js

DRAFTS = {"compact-imports", "custom-descriptors", "fp16", "multibyte", "relaxed-atomics", "shared-everything", "stack-switching",
          "strings"}
# the draft of Binaryen that a suite is about
DRAFT_OF = {"custom-descriptors": "custom-descriptors", "shared-everything-threads": "shared-everything",
            "stack-switching": "stack-switching"}
TOKEN = re.compile(r'\(;.*?;\)|;;[^\n]*|"(?:[^"\\]|\\.)*"|[()]', re.S)


def expressions(text, at=0):
    """The start and the end of each expression at the top of the text."""
    depth = 0
    for found in TOKEN.finditer(text, at):
        if found[0] == "(":
            start, depth = (found.start() if depth == 0 else start), depth + 1
        elif found[0] == ")" and depth > 0:
            depth -= 1
            if depth == 0:
                yield start, found.end()


def parts_of(command):
    """A command's kind, its module and the message that it expects."""
    if not command.startswith("(assert_"):
        return "module", command, ""
    first, last = next(expressions(command, 1))
    return re.match(r"\((\w+)", command)[1], command[first:last], command[last:-1].strip().strip('"')


def by_binaryen(wasm_as, draft, script, target):
    """Assembles what is left of a script, and completes its rows."""
    told, text = json.loads(target.read_text()), script.read_bytes().decode()
    left = {row["line"]: row for row in told["commands"] if row["type"] == "not-assembled"}
    flags = ["--all-features", "--validate", "none"] + [f"--disable-{it}" for it in sorted(DRAFTS - {draft})]
    for start, end in expressions(text) if left else []:
        row = left.get(text.count("\n", 0, start) + 1)
        kind, module, message = parts_of(text[start:end]) if row else ("", "", "")
        if not module.startswith("(module") or kind in ("assert_invalid", "assert_malformed") and "unreachable" in module:
            continue
        wasm = target.with_suffix(f".{row['line']}.wasm")
        with tempfile.NamedTemporaryFile("w", suffix=".wat") as wat:
            wat.write(module.replace("(module definition", "(module", 1))
            wat.flush()
            run = subprocess.run([wasm_as, *flags, wat.name, "-o", str(wasm)], capture_output=True)
        if run.returncode == 0:
            row.update(type=kind, filename=wasm.name, text=message, module_type="binary")
    target.write_text(json.dumps(told))


def files_of(folder, patterns, taken):
    """The scripts of a folder that fit a pattern and are not taken yet, each with its name in the suite."""
    found = []
    for path in sorted([*folder.rglob("*.wast"), *folder.rglob("*.wast.js")]):
        inside = str(path.relative_to(folder))
        if path not in taken and "harness" not in path.parts and any(fnmatch.fnmatch(inside, it) for it in patterns):
            taken.add(path)
            found.append((path, inside.removesuffix(".js")))
    return found


def assemble(assembler, wasm_as, suite, scripts, room):
    """Assembles the scripts of a suite into a folder. Gives for each its name and list of commands, or None and why there is none."""
    for path, inside in scripts:
        script = room / suite / inside
        script.parent.mkdir(parents=True, exist_ok=True)
        text = path.read_bytes()
        script.write_bytes(from_js.script_of(text.decode()).encode() if path.suffix == ".js" else text)
        target = pathlib.Path(script).with_suffix(".json")
        run = subprocess.run([assembler, str(script), "-o", str(target)], capture_output=True, text=True)
        if run.returncode:
            yield inside, None, (run.stderr.strip().splitlines() or ["no message"])[0]
            continue
        if wasm_as:
            by_binaryen(wasm_as, DRAFT_OF.get(suite.rpartition("/")[2]), script, target)
        yield inside, target, None
