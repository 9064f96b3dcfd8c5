"""Puts wrong rules of operators in the place of the right ones, one at a time, and says which proofs notice.

usage: tools/edits wrong [NAME..]

An edit of tools/wrong is written as those of crates/NAME/must-fail are, and changes files of crates/wasm_operator_validator_rules/specs. With it
that crate and wasm_operator_validator_soundness are checked in one run, both from their sources, except for the module `accepted`, which stands
on crates above the rules. Each edit of tools/wrong has to be refused by a law of the runs, so that it does not rest on the worked rows of the
rules alone. Those in tools/wrong/unseen are known to be noticed by no law of the runs, and say why; a worked row or a law of the rules has
to refuse each. Those in tools/wrong/store change
crates/wasm_operator_validator_store/specs: that crate is checked alone, and a law or a row of it has to refuse each. NAME is the name of an
edit without `.edit`, as ref_eq-of-any or store/ref_eq-always; with none all are tried.

The crates below have to be built (tools/kit kept, or tools/build-proved). Nothing in the clone is changed. An edit takes some 10 CPU
seconds. Ends with 1 where an edit comes to something else.
"""
import os
import re
import shutil
import subprocess
import sys
import tempfile

from kit import ROOT, copied, load_rt, spent

WRONG = f"{ROOT}/tools/wrong"
RULES, RUNS, STORE = "wasm_operator_validator_rules", "wasm_operator_validator_soundness", "wasm_operator_validator_store"


def leave_out(part, folder):
    """Removes a module of the crate in this folder."""
    for path, line in (("src/lib.rt", f"pub mod {part};\n"), ("specs/Lib.antt", f"pub mod {part}\n")):
        with open(f"{folder}/{path}", encoding="utf-8") as it:
            text = it.read()
        with open(f"{folder}/{path}", "w", encoding="utf-8") as it:
            it.write(text.replace(line, ""))
    for path in (f"src/{part}.rt", f"specs/{part}.antt"):
        os.remove(f"{folder}/{path}")
    for path in (f"specs/{part}", f"proofs/{part}"):
        shutil.rmtree(f"{folder}/{path}")


def words_of(rt, rules, runs, room):
    """The words by which the prover checks the runs with the rules as source, both in this folder."""
    words = runs.words(["--jobs", "1"], keeps=False)
    for it in (rules, *[dep for dep in runs.deps if RULES in {below.name for below in dep.below()}]):
        at = words.index(f"{it.name}={it.rlib}")
        del words[at - 1 : at + 1]
    uses = ["core", *rules.of_kit, *[it.name for it in rules.deps]]
    words += ["--lib", f"{RULES}:{','.join(dict.fromkeys(uses))}={room}/{RULES}/src/lib.rt"]
    words += ["--extern", f"core={rt.rtlib.KIT}/rlibs/core.rlib"]
    for dep in rules.deps:
        given = f"{dep.name}={dep.rlib}"
        if given not in words:
            words += ["--extern", given]
    return words


def check(rt, words, folder, kept):
    """The functions of each crate that are not proved, all verdicts, what the prover said, and the CPU seconds."""
    before = spent()
    how = {"cwd": folder, "stdin": subprocess.DEVNULL, "stdout": subprocess.PIPE, "stderr": subprocess.STDOUT, "errors": "replace"}
    said = subprocess.run([*rt.rtlib.guarded(), rt.rtlib.RATTLE, "check", *words, "--incremental", kept], text=True, **how).stdout
    verdicts = re.findall(r"^fn (\w+)::(\S+): (.*)$", said, re.M)
    broken = {name: [it for crate, it, verdict in verdicts if crate == name and verdict != "proved"] for name in (RULES, RUNS, STORE)}
    return broken, verdicts, said, spent() - before


def tried(rt, name, crate, words, room, folder):
    """One edit: what came of it, or nothing for an edit that is none; what was broken, and the CPU seconds."""
    texts, why = rt.read_edit(f"{WRONG}/{name}.edit", crate.folder)
    if not texts:
        return None, why, 0
    for path, text in texts.items():
        with open(f"{room}/{crate.name}/{path}", "w", encoding="utf-8") as it:
            it.write(text)
    copied(f"{room}/seed", f"{room}/tried")
    broken, verdicts, said, seconds = check(rt, words, folder, f"{room}/tried")
    shutil.rmtree(f"{room}/tried")
    for path in texts:
        shutil.copy2(f"{crate.folder}/{path}", f"{room}/{crate.name}/{path}")
    unread = [line for line in said.split("\n") if re.search(rf"({crate.name}|^\.)/specs/\w+\.antt:\d+:\d+: error", line)]
    if unread or not verdicts:
        return None, (unread or [said])[0][:300], seconds
    return broken, said, seconds


def kind_of(broken, said, laws, rows):
    """How an edit was refused, if it was."""
    lemmas = dict.fromkeys(re.findall(r"^\./proofs/(\w+)\.antt:\d+:\d+: error: `(\w+)`", said, re.M))
    if broken[laws]:
        return "refused by " + (", ".join(f"{lemma} ({file})" for file, lemma in lemmas) or ", ".join(broken[laws]))
    if rows and broken[rows]:
        return "refused in the rules alone: " + ", ".join(broken[rows])
    return "not noticed"


def is_as_wanted(name, broken, laws, rows):
    """Whether an edit is refused by what has to refuse it."""
    if name.startswith("unseen/"):
        return bool(broken[rows]) and not broken[laws]
    return bool(broken[laws])


def try_all(rt, names, crate, words, room, folder, laws, rows):
    """Tries these edits of a crate, once all is proved as it stands. Returns how many came to something else."""
    broken, verdicts, said, seconds = check(rt, words, folder, f"{room}/seed")
    if not verdicts or any(broken.values()):
        sys.exit(f"{said}\ntools/edits wrong: {crate.name} is not proved as it stands")
    print(f"{seconds:6.1f} s  all is proved as it stands", flush=True)
    wrong = 0
    for name in names:
        broken, said, seconds = tried(rt, name, crate, words, room, folder)
        if broken is None:
            print(f"          {name}: BAD EDIT: {said}", flush=True)
            wrong += 1
            continue
        wrong += not is_as_wanted(name, broken, laws, rows)
        print(f"{seconds:6.1f} s  {name}: {kind_of(broken, said, laws, rows)}", flush=True)
    return wrong


def rules_tried(rt, crates, names):
    """Wrong rules, which the laws of the runs have to notice."""
    rules, runs = crates[RULES], crates[RUNS]
    with tempfile.TemporaryDirectory(prefix="wrong-") as room:
        for crate in (rules, runs):
            for part in ("src", "specs", "proofs"):
                shutil.copytree(f"{crate.folder}/{part}", f"{room}/{crate.name}/{part}")
        leave_out("accepted", f"{room}/{RUNS}")
        return try_all(rt, names, rules, words_of(rt, rules, runs, room), room, f"{room}/{RUNS}", RUNS, RULES)


def store_tried(rt, crates, names):
    """Wrong lines of what a store gives, which the laws or the rows of that crate have to notice."""
    store = crates[STORE]
    with tempfile.TemporaryDirectory(prefix="wrong-") as room:
        for part in ("src", "specs", "proofs"):
            shutil.copytree(f"{store.folder}/{part}", f"{room}/{STORE}/{part}")
        return try_all(rt, names, store, store.words(["--jobs", "1"], keeps=False), room, f"{room}/{STORE}", STORE, None)


def main():
    asked = sys.argv[1:]
    rt = load_rt()
    crates = {it.name: it for it in rt.rtlib.crates_below(ROOT)}
    edits = []
    for part in ("", "unseen/", "store/"):
        edits += [f"{part}{it.removesuffix('.edit')}" for it in sorted(os.listdir(f"{WRONG}/{part}")) if it.endswith(".edit")]
    unknown = [it for it in asked if it not in edits]
    if unknown:
        sys.exit(f"tools/edits wrong: there is no tools/wrong/{unknown[0]}.edit")
    parts = [[it for it in asked or edits if it.startswith("store/") is of_store] for of_store in (False, True)]
    below = [*(crates[RULES].below() if parts[0] else []), *(crates[STORE].below() if parts[1] else [])]
    lacking = dict.fromkeys(it.name for it in below if not it.is_built())
    if lacking:
        sys.exit(f"tools/edits wrong: build first what lies below: {' '.join(lacking)}")
    wrong = rules_tried(rt, crates, parts[0]) if parts[0] else 0
    wrong += store_tried(rt, crates, parts[1]) if parts[1] else 0
    return 1 if wrong else 0
