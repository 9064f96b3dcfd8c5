"""Brings the source packages of the system that carry copies of the standard's tests, by apt, and takes out what is needed of them.

Nothing of the system is changed: apt reads its own list of sources, with the system's archive and keys, from a folder of ours.
"""
import fnmatch
import hashlib
import os
import pathlib
import re
import shutil
import subprocess
import tarfile

HERE = pathlib.Path(__file__).parent
# what is taken out of an archive: paths below its first folder
WANTED = {"mozjs128": ["js/src/jit-test/tests/wasm/spec/*", "third_party/rust/*"], "binaryen_108": ["test/spec/*"],
          "binaryen_131": ["test/spec/*"]}


class Missing(Exception):
    """Something that is needed is not there; the text says what, and what helps."""


def rows(name):
    """The rows of a table of this folder, each a list of its cells."""
    lines = (HERE / name).read_text().splitlines()
    return [line.split("\t") for line in lines if line and not line.startswith("#")]


def asked(words):
    run = subprocess.run(words, capture_output=True, text=True)
    if run.returncode:
        raise Missing(f"`{' '.join(words)}` fails: {(run.stderr or run.stdout).strip().splitlines()[-1:]}")
    return run.stdout


def apt_options(folder, releases):
    """The options that give apt a list of sources of its own, after an update of it."""
    told = asked(["apt-get", "indextargets", "Created-By: Packages", "--format", "$(REPO_URI)\t$(ORIGIN)\t$(LABEL)"])
    archives = sorted({line.split("\t")[0] for line in told.splitlines() if line.split("\t")[1:] == ["Debian", "Debian"]})
    if not archives:
        raise Missing("apt knows no archive of Debian; put the archives of bench/suites/packages.tsv into the folder by hand")
    room = folder / "apt"
    for part in ("etc", "lists/partial", "cache/archives/partial"):
        (room / part).mkdir(parents=True, exist_ok=True)
    key = "/usr/share/keyrings/debian-archive-keyring.gpg"
    signed = f"Signed-By: {key}\n" if os.path.exists(key) else ""
    source = f"Types: deb-src\nURIs: {archives[0]}\nSuites: {' '.join(releases)}\nComponents: main\n{signed}"
    (room / "etc/suites.sources").write_text(source)
    options = [f"Dir::Etc::sourceparts={room}/etc", "Dir::Etc::sourcelist=/dev/null", f"Dir::State::lists={room}/lists",
               f"Dir::Cache={room}/cache", "APT::Get::Only-Source=true", "APT::Sandbox::User=root"]
    words = [word for option in options for word in ("-o", option)]
    asked(["apt-get", *words, "update"])
    return words


def digest(path):
    total = hashlib.sha256()
    with path.open("rb") as it:
        while block := it.read(1 << 20):
            total.update(block)
    return total.hexdigest()


def fetch(folder, packages):
    """Brings the archives that are not in the folder yet, and compares each with its checksum."""
    folder.mkdir(parents=True, exist_ok=True)
    lacking = [row for row in packages if not (folder / row[3]).exists()]
    if lacking:
        words = apt_options(folder, sorted({row[2] for row in lacking}))
        for name, version, release, archive, _ in lacking:
            print(f"fetching {name} {version} ({release})", flush=True)
            run = subprocess.run(["apt-get", *words, "source", "--download-only", f"{name}={version}"], cwd=folder,
                                 capture_output=True, text=True)
            if not (folder / archive).exists():
                why = (run.stderr.strip().splitlines() or ["no message"])[-1]
                raise Missing(f"{name} {version} does not come: {why}; if the archive has only another version by now, "
                              f"put {archive} into {folder} by hand")
    for _, _, _, archive, checksum in packages:
        if digest(folder / archive) != checksum:
            raise Missing(f"{folder / archive} is not the file that bench/suites/packages.tsv names (its SHA-256 differs)")


def folder_of(archive):
    """The name of the folder that an archive is unpacked to."""
    return re.sub(r"(_128\.14\.0)?\.orig\.tar\..*", "", archive)


def unpack(folder, archive):
    """The folder of what is wanted of an archive, without the archive's own first folder."""
    name = folder_of(archive)
    target = folder / name
    if not target.exists():
        print(f"unpacking {archive}", flush=True)
        part = folder / f"{name}.part"
        shutil.rmtree(part, ignore_errors=True)
        with tarfile.open(folder / archive) as it:
            for member in it:
                path = member.name.partition("/")[2]
                if member.isfile() and any(fnmatch.fnmatch(path, each) for each in WANTED[name]):
                    to = part / path
                    to.parent.mkdir(parents=True, exist_ok=True)
                    to.write_bytes(it.extractfile(member).read())
        part.rename(target)
    return target


def build_assembler(folder, vendored):
    """The assembler, built of `assembler/` and the crates of a source package."""
    program = folder / "target/release/assembler"
    if not shutil.which("cargo"):
        raise Missing("cargo is not installed, which builds the assembler")
    room = folder / "assembler"
    shutil.copytree(HERE / "assembler", room, dirs_exist_ok=True)
    vendor = ['source.crates-io.replace-with="vendored"', f'source.vendored.directory="{vendored}"']
    words = ["cargo", "build", "--release", "--offline", "--quiet", "--target-dir", str(folder / "target")]
    run = subprocess.run(words + [word for it in vendor for word in ("--config", it)], cwd=room, capture_output=True, text=True)
    if run.returncode or not program.exists():
        raise Missing(f"the assembler cannot be built: {run.stderr.strip()}")
    return program
