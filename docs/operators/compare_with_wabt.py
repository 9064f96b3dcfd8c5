#!/usr/bin/env python3
"""Compares the list of operators with the opcode table of wabt, which is made by others.

usage: compare_with_wabt.py OPCODE_DEF, the file include/wabt/opcode.def of wabt's sources (apt-get source wabt).
Prints how many rows have the same name, prefix and code, and each row that differs or that one side alone has.
"""
import csv
import os
import re
import sys


def ours():
    rows = {}
    with open(os.path.join(os.path.dirname(os.path.abspath(__file__)), "operators.csv")) as file:
        for row in csv.DictReader(file):
            rows.setdefault((row["prefix"], int(row["code"], 16)), set()).add(row["name"])
    return rows


def theirs(path):
    rows = {}
    with open(path) as file:
        for match in re.finditer(r"WABT_OPCODE\(([^)]*)\)", file.read()):
            fields = [field.strip() for field in match.group(1).split(",")]
            if not fields[5].startswith("0"):
                continue
            prefix = "-" if int(fields[5], 16) == 0 else fields[5][2:]
            rows[prefix, int(fields[6], 16)] = fields[8].strip('"')
    return rows


def main():
    mine, other = ours(), theirs(sys.argv[1])
    equal = [place for place, name in other.items() if name in mine.get(place, ())]
    print(f"{len(equal)} rows are the same")
    for (prefix, code), name in other.items():
        if (prefix, code) not in equal:
            print(f"{prefix} {code:02x}: {name} in wabt, {sorted(mine.get((prefix, code), []))} here")
    for (prefix, code), names in mine.items():
        if (prefix, code) not in other:
            print(f"{prefix} {code:02x}: {sorted(names)} here alone")


main()
