"""The archive that holds program and library as they run in any folder."""
import os
import shutil

import files
import needs

HERE = os.path.dirname(os.path.abspath(__file__))
PC = """prefix=${{pcfiledir}}/../..
libdir=${{prefix}}/lib
includedir=${{prefix}}/include

Name: durskeyl
Description: {about}
Version: {version}
Libs: -L${{libdir}} -Wl,-rpath,${{libdir}} -ldurskeyl
Cflags: -I${{includedir}}
"""


def read(path):
    with open(path, encoding="utf-8") as it:
        return it.read()


def write(path, text):
    os.makedirs(os.path.dirname(path), exist_ok=True)
    with open(path, "w", encoding="utf-8") as it:
        it.write(text)


def needs_of(tree):
    """Lines on what program and library ask of the machine."""
    program, library = (needs.least_glibc(f"{tree}/{it}") for it in ("bin/wasm-check", "lib/libdurskeyl.so.0"))
    processor = max(needs.least_processor(f"{tree}/{it}")[0] for it in ("bin/wasm-check", "lib/libdurskeyl.so.0"))
    shown = ["GNU C library {}.{}".format(*it) for it in (program, library)]
    return (
        f"The program needs the {shown[0]} or newer, the library the {shown[1]}; both a processor of the level {processor}, which has\n"
        "SSE4.2 and POPCNT, as nearly all since 2009 (`/lib64/ld-linux-x86-64.so.2 --help` tells the levels of yours).\n"
    )


def make(release, target):
    """Lays the archive's files out, and packs them."""
    name = f"durskeyl-{release.version}-x86_64-linux"
    tree = f"{release.room}/archive"
    shutil.copytree(release.installed, tree, symlinks=True)
    about = f"A validator of WebAssembly core modules that is proved right{'' if release.is_proved else ' (this build is not proved)'}"
    write(f"{tree}/lib/pkgconfig/durskeyl.pc", PC.format(about=about, version=release.version))
    for it in ("USAGE", "LIBRARY", "LIMITS", "DIFFERENCES"):
        shutil.copy(f"{release.tree}/docs/{it}.md", f"{tree}/share/doc/durskeyl/{it}.md")
    write(f"{tree}/RELEASE", release.page)
    own = [it for it in files.below(tree) if it != "RELEASE"]
    removed = "".join(f" \\\n        {it}" for it in own)
    text = read(f"{HERE}/texts/README.archive").replace("VERSION", release.version).replace("NEEDS\n", needs_of(tree) + "\n")
    # the program that the page on C has
    page = read(f"{release.tree}/bindings/c/README.md")
    text = text.replace("EXAMPLE\n", page[page.index("```c\n") : page.index("```\n", page.index("```c\n") + 5) + 4])
    write(f"{tree}/README.md", text.replace(" FILES_ALL", removed))
    write(f"{tree}/SHA256SUMS", files.sums(tree, ["SHA256SUMS"]))
    files.tar_gz(tree, name, f"{target}/{name}.tar.gz", release.time)
