"""Modules with operators on vectors, by the features of the standard and by those before them."""
from common import ROOT, compare, told, words_of


def has_vectors(digits):
    """Whether a row of tests/vectors has an operator on vectors: no other byte of those modules is theirs."""
    return "fd" in (digits[at : at + 2] for at in range(0, len(digits), 2))


def run(program):
    """The rows of tests/vectors where operators on vectors are judged, by the features of the standard and by those before them, and where not."""
    rows = [row.split("\t") for row in words_of(f"{ROOT}/tests/vectors/rows.tsv")]

    def verdicts(features):
        lines = told(program, "methods", [f"whole {features} {digits}" for *_, digits in rows])
        return [line.split()[0] for line in lines[1::2]]

    def wanted(name, verdict, digits, features):
        if features == "default+vectors":
            return verdict
        lacking = has_vectors(digits) if features != "WASM2+vectors" else ".relaxed" in name or "_relaxed" in name
        return "invalid" if lacking else None

    differ = 0
    for features in ("default+vectors", "default", "all", "WASM1+vectors", "WASM2+vectors"):
        found = [(f"{name}, {tried}", got, wanted(name, verdict, digits, features)) for (name, tried, verdict, digits), got in zip(rows, verdicts(features), strict=True)]
        found = [(what, got, want) for what, got, want in found if want]
        differ += compare(f"vectors by {features}", [f"{what}: {got}" for what, got, _ in found], [f"{what}: {want}" for what, _, want in found])
    return differ
