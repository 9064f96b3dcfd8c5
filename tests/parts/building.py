"""Builds the program of tests/program over the crates, without a proof."""
import os
import shutil
import tempfile

from common import ROOT, script

SOURCES = f"{ROOT}/tests/program"

OVER = """wasm_types wasm_sections wasm_operators_immediates wasm_operators_visit_memory wasm_operators wasm_operator_validator_state
    wasm_operator_validator wasm_module_validator_type_storage wasm_module_validator_type_list wasm_module_validator_type_alloc wasm_module_validator_canonical_types wasm_module_validator_type_groups
    wasm_module_validator_resources wasm_module_validator wasm_module_validator_streaming wasm_check_program""".split()

OF_KIT = ["std", "bitflags", "hex", "clap"]


def build(program):
    build_unproved = script("tools/build-unproved")
    known = build_unproved.crates_of(ROOT)
    needed = {}
    for name in OVER:
        needed.update(dict.fromkeys([*known[name].below(), known[name]]))
    with tempfile.TemporaryDirectory(prefix="tests-") as room:
        for folder, _, names in os.walk(SOURCES):
            to = f"{room}/src/{os.path.relpath(folder, SOURCES)}"
            os.makedirs(to, exist_ok=True)
            for name in names:
                shutil.copy(f"{folder}/{name}", f"{to}/{name[:-len('.txt')]}")
        build_unproved.build(room, "worked", list(needed), OF_KIT, program)
