"""Archives whose bytes are decided by what is in them: names in order, one owner, one time, and modes of two kinds."""
import gzip
import hashlib
import io
import os
import tarfile
import zipfile


def sum_of(path):
    """The sha256 of a file."""
    with open(path, "rb") as it:
        return hashlib.file_digest(it, "sha256").hexdigest() if hasattr(hashlib, "file_digest") else hashlib.sha256(it.read()).hexdigest()


def below(folder):
    """The files and links below a folder, by their names from there, in order."""
    found = []
    for at, folders, names in os.walk(folder):
        links = [it for it in folders if os.path.islink(f"{at}/{it}")]
        found += [os.path.relpath(f"{at}/{name}", folder) for name in names + links]
    return sorted(found)


def tar_gz(folder, name, target, time):
    """Packs a folder's files as NAME/.. into a file that gzip reads, all with this time."""
    held = io.BytesIO()
    with tarfile.open(fileobj=held, mode="w", format=tarfile.USTAR_FORMAT) as tar:
        for path in below(folder):
            row = tarfile.TarInfo(f"{name}/{path}")
            row.mtime = time
            full = f"{folder}/{path}"
            if os.path.islink(full):
                row.type, row.linkname, row.mode = tarfile.SYMTYPE, os.readlink(full), 0o777
                tar.addfile(row)
                continue
            row.mode = 0o755 if os.access(full, os.X_OK) else 0o644
            row.size = os.path.getsize(full)
            with open(full, "rb") as it:
                tar.addfile(row, it)
    with open(target, "wb") as out, gzip.GzipFile("", "wb", 9, out, mtime=0) as packed:
        packed.write(held.getvalue())


def zip_of(folder, names, target):
    """Packs files of a folder, in this order. The time is the first that the form can tell."""
    with zipfile.ZipFile(target, "w") as out:
        for name in names:
            row = zipfile.ZipInfo(name, (1980, 1, 1, 0, 0, 0))
            row.compress_type, row.create_system = zipfile.ZIP_DEFLATED, 3
            row.external_attr = (0o100755 if os.access(f"{folder}/{name}", os.X_OK) else 0o100644) << 16
            with open(f"{folder}/{name}", "rb") as it:
                out.writestr(row, it.read(), compresslevel=9)


def sums(folder, skipped=()):
    """A list of the sums of the files of a folder, as `sha256sum -c` reads it."""
    return "".join(f"{sum_of(f'{folder}/{it}')}  {it}\n" for it in below(folder) if it not in skipped and not os.path.islink(f"{folder}/{it}"))
