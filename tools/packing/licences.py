"""The licences of the kit's libraries whose code is in program and library."""
import os
import re


def own_and_others(tree):
    """The crates of crates.txt, and what they take of the kit."""
    with open(f"{tree}/crates.txt", encoding="utf-8") as it:
        rows = [line.split("#")[0].partition(":") for line in it if ":" in line.split("#")[0]]
    own = {name.split()[0] for name, _, _ in rows}
    return own, sorted({it for _, _, below in rows for it in below.split() if it not in own})


def with_below(kit, names):
    """These libraries of the kit and those that they stand on, as far as the kit tells."""
    for name in names:
        path = f"{kit}/rlibs/{name}.rlib/format"
        if not os.path.isfile(path):
            continue
        with open(path, encoding="utf-8") as it:
            names += [below for below in re.findall(r"^dep (\w+)$", it.read(), re.M) if below not in names]
    return sorted(names)


def files_of(kit, name):
    """The files of the kit with the licence of a library, if it has any."""
    folder = f"{kit}/rattle/{name}"
    names = sorted(os.listdir(folder)) if os.path.isdir(folder) else []
    return [f"{folder}/{it}" for it in names if it.upper().startswith(("LICENSE", "LICENCE", "COPYING"))]


def lacking(tree, kit):
    """The libraries of the kit that are linked, and of which it has no licence."""
    return [name for name in with_below(kit, own_and_others(tree)[1]) if not files_of(kit, name)]


def page(tree, kit):
    """One page with all of them, which also names the libraries that have none."""
    text = "Program and library hold code of libraries of Rattle's kit, which are ports of Rust crates. Their licences:\n"
    without = lacking(tree, kit)
    if without:
        text += f"The kit has no licence beside: {', '.join(without)}\n"
    for name in with_below(kit, own_and_others(tree)[1]):
        for path in files_of(kit, name):
            with open(path, encoding="utf-8", errors="replace") as held:
                text += f"\n==== {name}: {os.path.basename(path)}\n\n{held.read().strip()}\n"
    return text
