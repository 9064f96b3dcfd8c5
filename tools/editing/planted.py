"""Tries the wrong bodies of tools/planted on demand: the prover must refuse each crate with each of its edits.

usage: tools/edits planted [--jobs N] [CRATE..]

An edit of tools/planted/CRATE is written as those of crates/CRATE/must-fail are, which the gate tries. These stand apart because their
crates are dear to check, so the gate tries none of them: run this when such a crate changes. With no CRATE all of tools/planted are tried,
N crates side by side (1).

The crates below have to be built (tools/kit kept, or tools/build-proved). Each crate is checked once as it stands, over a copy of what
crates/CRATE/out/incremental holds, and each edit over a copy of what that check left. Prints the CPU seconds of each, and ends with 1 if an
edit is not refused.
"""
import argparse
import os
import shutil
import sys
import tempfile
from concurrent.futures import ProcessPoolExecutor

from kit import ROOT, copied, is_proved, load_rt, spent

PLANTED = f"{ROOT}/tools/planted"


def timed(call, *given):
    """What the call gives, and the CPU seconds of the processes that it ran."""
    before = spent()
    return call(*given), spent() - before


def edits_of(name):
    return [f"{PLANTED}/{name}/{it}" for it in sorted(os.listdir(f"{PLANTED}/{name}")) if it.endswith(".edit")]


def over_copy(rt, crate, edit, seed):
    """Whether the prover refuses the edit, tried over a copy of the seed, and what to say."""
    over = f"{os.path.dirname(seed)}/tried"
    copied(seed, over)
    try:
        kind, said = rt.must_fail(crate, edit, ["--jobs", "1"], over)
        # kit 13b says whether it is refused, kit 13f how
        return kind is True or kind in (getattr(rt, "REFUSED", None), getattr(rt, "AT_LIMIT", None)), said
    finally:
        shutil.rmtree(over)


def try_crate(name):
    """Tries a crate's edits, and returns how many were refused and how many not. If the crate itself is not proved, none is tried."""
    rt = load_rt()
    rt.rtlib.guarded()
    crate, edits = next(it for it in rt.rtlib.crates_below(ROOT) if it.name == name), edits_of(name)
    lacking = [it.name for it in crate.below() if not it.is_built()]
    if lacking:
        print(f"{name}: NOT TRIED: build first what lies below it: {' '.join(lacking)}", flush=True)
        return 0, len(edits)
    kept, refused = f"{crate.folder}/out/incremental", 0
    with tempfile.TemporaryDirectory(prefix="planted-") as room:
        seed = f"{room}/seed"
        if os.path.isdir(kept):
            copied(kept, seed)
        well, seconds = timed(is_proved, rt, crate, seed)
        print(f"{seconds:6.1f} s  {name}: {'proved' if well else 'NOT PROVED'} as it stands", flush=True)
        if not well:
            return 0, len(edits)
        for edit in edits:
            (was_refused, said), seconds = timed(over_copy, rt, crate, edit, seed)
            refused += was_refused
            print(f"{seconds:6.1f} s  {said.removeprefix('must-fail ')}", flush=True)
    return refused, len(edits) - refused


def main():
    parser = argparse.ArgumentParser(usage=__doc__.split("\n\n")[1].removeprefix("usage: "))
    parser.add_argument("crate", nargs="*")
    parser.add_argument("--jobs", type=int, default=1)
    asked = parser.parse_args()
    planted = sorted(it.name for it in os.scandir(PLANTED) if it.is_dir())
    lacking = [it for it in asked.crate if it not in planted]
    if lacking:
        sys.exit(f"tools/edits planted: tools/planted has no edits of {lacking[0]}")
    os.chdir(ROOT)
    with ProcessPoolExecutor(asked.jobs) as lanes:
        found = list(lanes.map(try_crate, asked.crate or planted))
    missed = sum(it for _, it in found)
    print(f"{sum(it for it, _ in found)} refused, {missed} not")
    return 1 if missed else 0
