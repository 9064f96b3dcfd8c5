"""Judges the modules of a script by the program, and finds the reasons for what comes out otherwise than the script expects."""
import collections
import dataclasses
import json
import pathlib
import re
import subprocess

VALID = {"module", "assert_unlinkable", "assert_uninstantiable", "assert_trap"}
INVALID = {"assert_invalid", "assert_malformed"}
REASONS = pathlib.Path(__file__).with_name("reasons.txt")

# What an earlier edition, or a proposal of its time, refuses may be valid by now: what the script expects, the feature that made it
# valid, and how the program's message begins if it judges without that feature.
LATER = [
    ("invalid result arity", "multi-value", "func type returns multiple values"),
    ("multiple tables", "reference-types", "multiple tables"),
    ("unknown global", "gc", "constant expression required: global.get of locally defined global"),
    ("integer representation too long", "memory64", "invalid var_u32: integer representation too long"),
    ("multiple memories", "multi-memory", "multiple memories"),
    ("zero flag expected", "multi-memory", "zero byte expected"),
]


@dataclasses.dataclass
class Case:
    """A module, what the script expects of it, and what came out."""
    script: str
    line: int
    kind: str
    expected: str
    path: str
    verdict: dict | None = None
    reason: str | None = None

    def is_otherwise(self):
        return self.verdict is not None and self.verdict["valid"] != (self.kind in VALID)


def read_reasons():
    """Rows `kind | expected text | script | lines | reason`; `*` is any, lines are numbers with commas between."""
    lines = REASONS.read_text().splitlines()
    return [[cell.strip() for cell in line.split("|")] for line in lines if line.strip() and not line.startswith("#")]


def cases_of(script, commands):
    """The cases of a script; how many of its commands are in the text format; and those that are not assembled.

    A script whose name ends in `.fail.wast` is one module that has to be refused; if it is not assembled, its fault is one of the text.
    """
    cases, texts, left = [], 0, []
    fails = script.endswith(".fail.wast")
    for row in json.loads(commands.read_text())["commands"]:
        if row["type"] == "not-assembled" and fails:
            texts += 1
        elif row["type"] == "not-assembled":
            left.append((script, row["line"], row["text"]))
        elif row["type"] in VALID | INVALID and row["module_type"] == "text":
            texts += 1
        elif row["type"] in VALID | INVALID:
            path = str(commands.with_name(row["filename"]))
            kind = "assert_invalid" if fails else row["type"]
            cases.append(Case(script, row["line"], kind, row["text"], path))
    return cases, texts, left


def verdicts(program, features, files):
    """The program's verdict on each file, an object of its JSON, or None."""
    found = {}
    for at in range(0, len(files), 500):
        call = program + ["--json", "--keep-going", "--vectors", "--features", features, "--"] + files[at:at + 500]
        for line in subprocess.run(call, capture_output=True, text=True).stdout.splitlines():
            verdict = json.loads(line)
            found[verdict["file"]] = verdict
    return [found.get(file) for file in files]


def known_reason(case, reasons):
    for kind, text, script, lines, reason in reasons:
        if (kind in ("*", case.kind) and text in ("*", case.expected) and (script == "*" or case.script.endswith(script))
                and (lines == "*" or str(case.line) in re.split(r"[ ,]+", lines))):
            return reason
    return None


def explain(program, features, otherwise, reasons):
    """Gives each case its reason, if one is known: by the table, or since the feature is known that made it valid."""
    for case in otherwise:
        case.reason = known_reason(case, reasons)
    for text, word, message in LATER:
        left = [it for it in otherwise if it.reason is None and it.kind in INVALID and it.expected == text]
        without = verdicts(program, f"{features},no-{word}", [it.path for it in left])
        for case, verdict in zip(left, without):
            if verdict and not verdict["valid"] and verdict["message"].startswith(message):
                case.reason = f"valid since `{word}`; without it: {verdict['message']}"


def judge(program, features, cases, reasons):
    """Judges the cases. Gives the counts of those judged and of those otherwise."""
    for case, verdict in zip(cases, verdicts(program, features, [case.path for case in cases])):
        case.verdict = verdict
    otherwise = [case for case in cases if case.is_otherwise()]
    explain(program, features, otherwise, reasons)
    return collections.Counter(judged=sum(case.verdict is not None for case in cases), otherwise=len(otherwise))
