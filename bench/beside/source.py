"""Brings the crate `wasmparser` from a folder, from cargo's registry, or from Debian's source package of rustc, and builds `judge` over it.

A folder is that of the crate itself, with its Cargo.toml. The crates that it needs are taken from beside it, as they lie in a vendor/ folder, or
from the registry. Debian's package of rustc 1.95 has release 0.245.1 in its vendor/ folder, with all that it needs.
"""
import dataclasses
import pathlib
import re
import shutil
import subprocess
import sys
import tarfile

HERE = pathlib.Path(__file__).resolve().parent
sys.path.insert(0, str(HERE.parent / "suites"))
import sources
from sources import Missing

RELEASE = "0.263.0"
RUSTC = ("rustc", "1.95.0+dfsg1-2", "sid", "rustc_1.95.0+dfsg1.orig.tar.xz",
         "fee0a232c32b6f919b2166efc441a7c37884905bdcc2170163579eeed5feee6b")
# what is taken out of the archive: the crate and those that it needs
VENDORED = re.compile(r"[^/]+/vendor/(wasmparser-0\.245\.1|bitflags-2\.|hashbrown-0\.16\.|foldhash-0\.2\.|indexmap-2\.|equivalent-1\.)")


@dataclasses.dataclass
class Crate:
    """A release of the crate, and the two programs over it."""
    version: str
    plain: pathlib.Path
    vectors: pathlib.Path

    def judge(self, vectors):
        return str(self.vectors if vectors else self.plain)


def version_of(folder):
    found = re.search(r'^version = "([^"]+)"', (folder / "Cargo.toml").read_text(), re.M)
    if not found:
        raise Missing(f"{folder}/Cargo.toml names no version")
    return found[1]


def from_debian(folder):
    """The folder of the crate of Debian's source package of rustc, which apt brings into FOLDER."""
    target = folder / "vendor"
    if not target.exists():
        sources.fetch(folder, [RUSTC])
        print(f"unpacking {RUSTC[3]}", flush=True)
        part = folder / "vendor.part"
        shutil.rmtree(part, ignore_errors=True)
        with tarfile.open(folder / RUSTC[3]) as archive:
            for member in archive:
                if member.isfile() and VENDORED.match(member.name):
                    to = part / member.name.split("/vendor/", 1)[1]
                    to.parent.mkdir(parents=True, exist_ok=True)
                    to.write_bytes(archive.extractfile(member).read())
        part.rename(target)
    return target / "wasmparser-0.245.1"


def build(folder, dependency, version, vendor):
    """Builds both programs over the crate that a line of Cargo.toml names; `vendor` is a folder of crates in place of the registry, or nothing."""
    if not shutil.which("cargo"):
        raise Missing("cargo is not installed, which builds the crate")
    room, target = folder / "judge", folder / f"target-{version}"
    shutil.copytree(HERE / "judge", room, dirs_exist_ok=True)
    manifest = room / "Cargo.toml"
    manifest.write_text(manifest.read_text().replace('version = "VERSION"', dependency))
    words = ["cargo", "build", "--release", "--quiet", "--target-dir", str(target)]
    if vendor:
        for setting in ('source.crates-io.replace-with="vendored"', f'source.vendored.directory="{vendor}"'):
            words += ["--config", setting]
        words.append("--offline")
    built = []
    for name, more in (("judge-plain", []), ("judge-vectors", ["--features", "vectors"])):
        run = subprocess.run(words + more, cwd=room, capture_output=True, text=True)
        if run.returncode:
            raise Missing(f"wasmparser {version} cannot be built: {run.stderr.strip()[-600:]}")
        program = target / name
        shutil.copy2(target / "release/judge", program)
        built.append(program)
    return Crate(version, *built)


def from_folder(folder, crate):
    crate = crate.resolve()
    if not (crate / "Cargo.toml").exists():
        raise Missing(f"{crate} has no Cargo.toml: name the folder of the crate itself")
    vendor = crate.parent if any(crate.parent.glob("bitflags*/Cargo.toml")) else None
    return build(folder, f'path = "{crate}"', version_of(crate), vendor)


def brought(folder, crate, release):
    """The crate of a folder or of a release if one is named; else that of the registry if it is reached, and else Debian's."""
    folder.mkdir(parents=True, exist_ok=True)
    if crate:
        return from_folder(folder, crate)
    if release != "debian":
        try:
            return build(folder, f'version = "={release or RELEASE}"', release or RELEASE, None)
        except Missing as why:
            if release or not shutil.which("cargo"):
                raise
            print(f"the registry of cargo is not reached, so Debian's release is taken ({str(why).splitlines()[-1].strip()})", flush=True)
    return from_folder(folder, from_debian(folder))
