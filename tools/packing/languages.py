"""The packages for Python, Rust and Go, each with the library in it."""
import importlib.util
import os
import re
import shutil
import subprocess
import sys

import files
import needs
from archive import read, write

# The least glibc that old versions of pip know by a name of its own.
OLD_NAMES = {(2, 5): "manylinux1", (2, 12): "manylinux2010", (2, 17): "manylinux2014"}


def tag(library):
    """The tag of the wheel: it runs where glibc is at least so new."""
    wanted = needs.least_glibc(library)
    known = min((it for it in OLD_NAMES if it >= wanted), default=wanted)
    names = ["manylinux_{}_{}_x86_64".format(*known)] + [f"{OLD_NAMES[known]}_x86_64"] * (known in OLD_NAMES)
    return f"py3-none-{'.'.join(names)}"


def tracked(release, folder):
    """What git has of this folder."""
    listed = subprocess.run(["git", "ls-files", "-z", "."], cwd=f"{release.tree}/{folder}", capture_output=True, text=True, check=True).stdout
    return [it for it in listed.split("\0") if it]


def copied(release, folder, name):
    """A copy of what git has of this folder of bindings/, with the pages that say what is in it."""
    to = f"{release.room}/{name}"
    for it in tracked(release, folder):
        os.makedirs(os.path.dirname(f"{to}/{it}"), exist_ok=True)
        shutil.copy2(f"{release.tree}/{folder}/{it}", f"{to}/{it}")
    shutil.copy(f"{release.installed}/share/doc/durskeyl/PROVED", f"{to}/PROVED")
    write(f"{to}/RELEASE", release.page)
    write(f"{to}/LICENCES-KIT", release.licences)
    return to


def make_wheel(release, target):
    """As `pip wheel` would, with the library beside the module."""
    folder = copied(release, "bindings/python", "python")
    sys.dont_write_bytecode = True
    spec = importlib.util.spec_from_file_location("wheel_of_durskeyl", f"{folder}/backend/wheel_of_durskeyl.py")
    backend = importlib.util.module_from_spec(spec)
    spec.loader.exec_module(backend)
    library = f"{release.installed}/lib/libdurskeyl.so.0"
    notices = {it: f"{folder}/{it}" for it in ("PROVED", "RELEASE", "LICENCES-KIT")}
    backend.build_wheel(target, {"library": library, "tag": tag(library), "notices": notices})


def make_rust(release, target):
    """The crate, with the archive where its build.rs looks first."""
    folder = copied(release, "bindings/rust", "rust")
    os.makedirs(f"{folder}/lib")
    shutil.copy(f"{release.installed}/lib/libdurskeyl.a", f"{folder}/lib/libdurskeyl.a")
    name = f"durskeyl-{release.version}"
    files.tar_gz(folder, name, f"{target}/durskeyl-rust-{release.version}-x86_64-linux.tar.gz", release.time)


def make_go(release, target):
    """The module, with archive and header in the package's folder, where `go mod vendor` takes them along."""
    folder = copied(release, "bindings/go", "go")
    shutil.copy(f"{release.installed}/lib/libdurskeyl.a", f"{folder}/libdurskeyl_linux_amd64.a")
    shutil.copy(f"{release.installed}/include/durskeyl.h", f"{folder}/durskeyl.h")
    # the go command looks at no archive to tell whether a package changed, so this file has its sum
    sum = files.sum_of(f"{folder}/libdurskeyl_linux_amd64.a")
    text = read(f"{folder}/link.go")
    linked = f"#cgo linux,amd64 CFLAGS: -I${{SRCDIR}}\n#cgo linux,amd64 LDFLAGS: ${{SRCDIR}}/libdurskeyl_linux_amd64.a\n// sha256 {sum}\n#if !defined(__x86_64__) || !defined(__linux__)\n#error \"this release of the package has the library for x86_64 Linux alone\"\n#endif"
    changed, count = re.subn(r"(?m)^#cgo pkg-config: durskeyl$", lambda _: linked, text)
    if count != 1:
        sys.exit("tools/release: bindings/go/link.go has no line for pkg-config")
    write(f"{folder}/link.go", changed)
    name = f"durskeyl-go-{release.version}"
    files.tar_gz(folder, name, f"{target}/{name}-x86_64-linux.tar.gz", release.time)


def make(release, target):
    make_wheel(release, target)
    make_rust(release, target)
    make_go(release, target)
