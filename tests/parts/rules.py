"""Modules that pin a rule which nothing else pins."""
import subprocess
import sys

from common import ROOT, compare, told, words_of


def run(program):
    """The rows of tests/rules: each verdict is the rule's. The rows are those that tests/rules/make writes."""
    rows = [row.split("\t") for row in words_of(f"{ROOT}/tests/rules/rows.tsv")]
    lines = told(program, "methods", [f"whole {features} {digits}" for *_, features, _, digits in rows])
    got = [f"{name}, {tried}: {line.split()[0]}" for (name, tried, *_), line in zip(rows, lines[1::2], strict=True)]
    differ = compare("rules", got, [f"{name}, {tried}: {verdict}" for name, tried, _, verdict, _ in rows])
    return differ + (subprocess.run([sys.executable, f"{ROOT}/tests/rules/make", "--check"]).returncode != 0)
