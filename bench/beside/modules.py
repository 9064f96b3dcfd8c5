"""The modules that wasm-check and the crate are compared over: groups, each with the files of its modules, no two of which are equal."""
import hashlib
import pathlib
import random
import sys

ROOT = pathlib.Path(__file__).resolve().parent.parent.parent
for part in ("suites", "generated"):
    sys.path.insert(0, str(ROOT / "bench" / part))
import assemble
import judge
import module
import sources

NAMES = ("repository", "suites", "changed", "drawn")
# of larger modules none is changed: a byte of a large body says little
LARGEST = 20_000
FIRST_DRAWN = 5_000_000


class Room:
    """A folder of modules, in which each module lies once."""

    def __init__(self, folder):
        self.folder, self.seen = folder, set()

    def put(self, group, bytes_of):
        """The files of a group, of modules that are not there yet."""
        folder, files = self.folder / group, []
        folder.mkdir(parents=True, exist_ok=True)
        for whole in bytes_of:
            digest = hashlib.sha256(whole).digest()
            if digest not in self.seen:
                self.seen.add(digest)
                path = folder / f"{len(files)}.wasm"
                path.write_bytes(whole)
                files.append(str(path))
        return files


def repository():
    """The modules of this repository: files, and rows of tables that end in a module's digits."""
    for folder in ("crates", "examples"):
        for path in sorted((ROOT / folder).rglob("*.wasm")):
            yield path.read_bytes()
    for table in ("rules", "vectors"):
        for row in (ROOT / f"tests/{table}/rows.tsv").read_text().splitlines():
            yield bytes.fromhex(row.split("\t")[-1])


def suites(folder, room):
    """The modules of the conformance suites, as bench/conformance assembles them."""
    packages = sources.rows("packages.tsv")
    sources.fetch(folder, packages)
    unpacked = {sources.folder_of(row[3]): sources.unpack(folder, row[3]) for row in packages}
    assembler = sources.build_assembler(folder, unpacked["mozjs128"] / "third_party/rust")
    taken = set()
    for name, archive, inside, patterns, _, _ in sources.rows("suites.tsv"):
        scripts = assemble.files_of(unpacked[archive] / inside, patterns.split(), taken)
        for script, commands, _ in assemble.assemble(str(assembler), None, name, scripts, room):
            if commands is not None:
                for case in judge.cases_of(script, commands)[0]:
                    yield pathlib.Path(case.path).read_bytes()


def changed(files, times):
    """Each module of some files so many times with one byte changed, left out or put in. The same files give the same modules."""
    draw = random.Random(7)
    for path in files:
        whole = pathlib.Path(path).read_bytes()
        for _ in range(times if 8 < len(whole) <= LARGEST else 0):
            out, way, at = bytearray(whole), draw.randrange(4), draw.randrange(8, len(whole))
            if way == 0:
                out[at] = draw.randrange(256)
            elif way == 1:
                out[at] ^= 1 << draw.randrange(8)
            elif way == 2:
                del out[at]
            else:
                out.insert(at, draw.randrange(256))
            yield bytes(out)


def drawn(many):
    """Modules as bench/differential draws them."""
    for seed in range(FIRST_DRAWN, FIRST_DRAWN + many):
        yield module.drawn(seed)[2]
