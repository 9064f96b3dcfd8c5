"""Three packages for Debian and what is made of it: the program, the shared library, and what building against it takes."""
import gzip
import os
import re
import shutil
import subprocess

import files
import needs
from archive import HERE, read, write

TRIPLET = "x86_64-linux-gnu"
PC = """prefix=/usr
libdir=${{prefix}}/lib/x86_64-linux-gnu
includedir=${{prefix}}/include

Name: durskeyl
Description: {about}
Version: {version}
Libs: -L${{libdir}} -ldurskeyl
Cflags: -I${{includedir}}
"""
SAYS = """ It says of bytes whether they are a valid module of WebAssembly 3.0 and of the
 proposals that you allow. Its source is proved: the verdict is valid exactly if
 the module is valid by written rules, on all bytes.
 .
"""
# name: section, place in the installed folder to place in the package, what it says in a line and beyond
PROGRAM = {
    "bin/wasm-check": "usr/bin/wasm-check",
    "share/bash-completion/completions/wasm-check": "usr/share/bash-completion/completions/wasm-check",
    "share/zsh/site-functions/_wasm-check": "usr/share/zsh/vendor-completions/_wasm-check",
    "share/fish/vendor_completions.d/wasm-check.fish": "usr/share/fish/vendor_completions.d/wasm-check.fish",
    "share/doc/wasm-check/PROVED": "usr/share/doc/wasm-check/PROVED",
}
SHARED = {
    "lib/libdurskeyl.so.0": f"usr/lib/{TRIPLET}/libdurskeyl.so.0",
    "share/doc/durskeyl/PROVED": "usr/share/doc/libdurskeyl0/PROVED",
}
DEVELOPMENT = {
    "include/durskeyl.h": "usr/include/durskeyl.h",
    "lib/libdurskeyl.a": f"usr/lib/{TRIPLET}/libdurskeyl.a",
    "lib/libdurskeyl.so": f"usr/lib/{TRIPLET}/libdurskeyl.so",
    "share/doc/durskeyl/PROVED": "usr/share/doc/libdurskeyl-dev/PROVED",
}


def packed(path, text):
    os.makedirs(os.path.dirname(path), exist_ok=True)
    with open(path, "wb") as out, gzip.GzipFile("", "wb", 9, out, mtime=0) as it:
        it.write(text.encode())


def licence(tree):
    """The licence's page as Debian wants it: the exception's text, and where the Apache License lies."""
    exception = read(f"{tree}/LICENSE").split("--- LLVM Exceptions to the Apache 2.0 License ----")[1].strip()
    lines = "".join(f" {line.strip() or '.'}\n" for line in exception.splitlines())
    return read(f"{HERE}/texts/copyright").replace("EXCEPTION\n", lines)


def changelog(release, name):
    return f"{name} ({release.version}) unstable; urgency=medium\n\n  * Release {release.version}.\n\n -- {release.maintainer}  {release.date_of_mail}\n"


class Package:
    def __init__(self, release, name, section, moved):
        self.release, self.name, self.folder = release, name, f"{release.room}/{name}"
        self.depends, self.section, self.more = [], section, ""
        for source, place in moved.items():
            os.makedirs(os.path.dirname(f"{self.folder}/{place}"), exist_ok=True)
            shutil.copy2(f"{release.installed}/{source}", f"{self.folder}/{place}", follow_symlinks=False)
        doc = f"{self.folder}/usr/share/doc/{name}"
        write(f"{doc}/copyright", licence(release.tree))
        shutil.copy(f"{release.tree}/NOTICE", f"{doc}/NOTICE")
        write(f"{doc}/RELEASE", release.page)
        write(f"{doc}/LICENCES-KIT", release.licences)
        packed(f"{doc}/changelog.gz", changelog(release, name))

    def add_libc(self, path):
        self.depends.append("libc6 (>= {}.{})".format(*needs.least_glibc(f"{self.folder}/{path}")))

    def control(self, says, beyond):
        size = sum(-(-os.lstat(f"{self.folder}/{it}").st_size // 1024) for it in files.below(self.folder))
        depends = f"Depends: {', '.join(self.depends)}\n" if self.depends else ""
        proved = " This build is proved: PROVED says by what.\n" if self.release.is_proved else " THIS BUILD IS NOT PROVED: PROVED says why.\n"
        return (
            f"Package: {self.name}\nVersion: {self.release.version}\nArchitecture: amd64\nMaintainer: {self.release.maintainer}\n"
            f"Installed-Size: {size}\n{depends}{self.more}Section: {self.section}\nPriority: optional\nDescription: {says}\n{SAYS}{beyond}{proved}"
        )

    def build(self, says, beyond, target, **beside):
        """Writes the control files, and packs."""
        control = f"{self.folder}/DEBIAN"
        write(f"{control}/control", self.control(says, beyond))
        for name, text in beside.items():
            write(f"{control}/{name}", text)
        rows = [it for it in files.below(self.folder) if not it.startswith("DEBIAN/") and not os.path.islink(f"{self.folder}/{it}")]
        listed = ((subprocess.run(["md5sum", it], cwd=self.folder, capture_output=True, text=True, check=True).stdout) for it in rows)
        write(f"{control}/md5sums", "".join(listed))
        for at, folders, names in os.walk(self.folder):
            for it in folders:
                os.chmod(f"{at}/{it}", 0o755)
            for it in names:
                full = f"{at}/{it}"
                if not os.path.islink(full):
                    os.chmod(full, 0o755 if "/bin/" in full else 0o644)
        os.chmod(self.folder, 0o755)
        words = ["dpkg-deb", "--root-owner-group", "-Zxz", "-z6", "--build", self.folder, f"{target}/{self.name}_{self.release.version}_amd64.deb"]
        subprocess.run(words, check=True, stdout=subprocess.DEVNULL, env={**os.environ, "SOURCE_DATE_EPOCH": str(self.release.time), "DPKG_DEB_THREADS_MAX": "1"})


def make(release, target):
    version = release.version
    program = Package(release, "wasm-check", "utils", PROGRAM)
    page = read(f"{release.installed}/share/man/man1/wasm-check.1")
    packed(f"{program.folder}/usr/share/man/man1/wasm-check.1.gz", page)
    program.add_libc("usr/bin/wasm-check")
    program.build("validator of WebAssembly modules that is proved right (program)", " This package has the program wasm-check.\n", target)

    shared = Package(release, "libdurskeyl0", "libs", SHARED)
    shared.add_libc(f"usr/lib/{TRIPLET}/libdurskeyl.so.0")
    shared.more = "Multi-Arch: same\n"
    first, second = re.match(r"(\d+)\.(\d+)", version).groups()
    next_one = f"{first}.{int(second) + 1}"
    # before 1.0.0 a new second number may change calls, and the packages for languages refuse another one
    shlibs = f"libdurskeyl 0 libdurskeyl0 (>= {first}.{second}~), libdurskeyl0 (<< {next_one}~)\n"
    shared.build("validator of WebAssembly modules that is proved right (library)", " This package has the shared library.\n", target, shlibs=shlibs,
                 triggers="activate-noawait ldconfig\n")

    development = Package(release, "libdurskeyl-dev", "libdevel", DEVELOPMENT)
    development.depends.append(f"libdurskeyl0 (= {version})")
    development.more = "Multi-Arch: same\nSuggests: pkg-config\n"
    about = "A validator of WebAssembly core modules that is proved right" + ("" if release.is_proved else " (this build is not proved)")
    shutil.copy(f"{release.tree}/bindings/c/README.md", f"{development.folder}/usr/share/doc/libdurskeyl-dev/README.md")
    write(f"{development.folder}/usr/lib/{TRIPLET}/pkgconfig/durskeyl.pc", PC.format(about=about, version=version))
    development.build("validator of WebAssembly modules that is proved right (for building)", " This package has the header and the archive, for C and C++.\n", target)
