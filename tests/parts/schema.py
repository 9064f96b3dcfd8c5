"""Each line that is written with --json is one of docs/lines.schema.json, and each member and word of the schema is in some line, except those of NOT_MET."""
import json
import re
import subprocess

from common import CHECK, ROOT, compare, worked_names
from refused import MODULES, room

TYPES = {"object": dict, "array": list, "string": str, "integer": int, "boolean": bool, "null": type(None)}


class Schema:
    """What of JSON Schema that file uses. It keeps which members and words were met."""

    def __init__(self, text):
        self.whole, self.met = json.loads(text), set()

    def fits(self, value, rule, name=""):
        """Whether a value is one of this rule, which is of a member or a definition of this name."""
        if "$ref" in rule:
            at = rule["$ref"].rsplit("/", 1)[1]
            return self.fits(value, self.whole["$defs"][at], at)
        if "oneOf" in rule:
            return sum(self.fits(value, it, name) for it in rule["oneOf"]) == 1
        if "const" in rule:
            return value is rule["const"]
        if "enum" in rule:
            self.met.add((name, value))
            return value in rule["enum"]
        kinds = rule["type"] if isinstance(rule["type"], list) else [rule["type"]]
        if not any(type(value) is TYPES[it] for it in kinds):
            return False
        if isinstance(value, list):
            return all(self.fits(it, rule["items"]) for it in value)
        if isinstance(value, dict):
            return self.fits_members(value, rule, name)
        return value is None or bool(re.search(rule.get("pattern", ""), str(value))) and ("minimum" not in rule or value >= rule["minimum"])

    def fits_members(self, value, rule, name):
        known = rule["properties"]
        if not (value.keys() <= known.keys() and set(rule["required"]) <= value.keys()):
            return False
        if not all(self.fits(it, known[member], member) for member, it in value.items()):
            return False
        self.met.update((name, member) for member in value)
        return True

    def named(self):
        """The members of each object, and the words of each list of words."""
        found = set()
        for name, rule in self.whole["$defs"].items():
            found |= {(name, it) for it in [*rule.get("properties", []), *rule.get("enum", [])]}
            for member, inner in rule.get("properties", {}).items():
                found |= {(member, it) for it in inner.get("enum", [])}
        return found


# Parts of which no module here has a fault that is told as theirs.
NOT_MET = {("section", "custom"), ("section", "end")}


def lines(program, words, folder):
    ran = subprocess.run([program, "run", "--json", *words], capture_output=True, text=True, cwd=folder)
    return [it for it in [*ran.stdout.splitlines(), *ran.stderr.splitlines()] if it.startswith("{")]


def run(program):
    with open(f"{ROOT}/docs/lines.schema.json", encoding="utf-8") as it:
        schema = Schema(it.read())
    with room(program) as it:
        told = lines(program, ["--version"], it.folder)
        for words in ([], ["--explain"], ["--needs"], ["--explain", "--features=mvp"], ["--explain", "--limits=locals=0"]):
            told += lines(program, ["--keep-going", *words, *MODULES, "gone.wasm"], it.folder)
            told += lines(program, ["--keep-going", *words, *worked_names()], f"{CHECK}/data")
        for words in (["--limits=locals=1000001", "good.wasm"], ["--features=gone", "good.wasm"], ["--pieces=0", "good.wasm"]):
            told += lines(program, words, it.folder)
        wrong = [line for line in told if not schema.fits(json.loads(line), schema.whole)]
        it.differ += compare("lines that the schema does not have", wrong, [])
        it.differ += compare("what no line has", sorted(map(str, schema.named() - schema.met - NOT_MET)), [])
        return it.differ
