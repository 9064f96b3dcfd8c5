"""Packs the module as a wheel (PEP 517, PEP 427), with nothing but Python: so `pip install` asks no registry for a tool that builds.

A release packs the library too: `config_settings` then has the file `library`, the `tag` of the machines on which it runs, and `notices`, more
files for the folder of licences, by their names.
"""
import base64
import hashlib
import os
import re
import zipfile

ROOT = os.path.dirname(os.path.dirname(os.path.abspath(__file__)))
FILES = ["durskeyl/__init__.py", "durskeyl/__main__.py", "durskeyl/py.typed"]
NOTICES = ["LICENSE", "NOTICE"]


def read(name):
    with open(f"{ROOT}/{name}", "rb") as it:
        return it.read()


def said(name):
    """What pyproject.toml says of this name, in a line of its own."""
    return re.search(rf'^{name} = "(.*)"$', read("pyproject.toml").decode(), re.M)[1]


def get_requires_for_build_wheel(config_settings=None):
    return []


def build_wheel(wheel_directory, config_settings=None, metadata_directory=None):
    asked = config_settings or {}
    version, tag, library = said("version"), asked.get("tag", "py3-none-any"), asked.get("library")
    info = f"durskeyl-{version}.dist-info"
    about = f"Metadata-Version: 2.4\nName: durskeyl\nVersion: {version}\nSummary: {said('description')}\nLicense-Expression: {said('license')}\n"
    about += "".join(f"License-File: {name}\n" for name in NOTICES)
    about += f"Requires-Python: {said('requires-python')}\nDescription-Content-Type: text/markdown\n\n"
    pure = "false" if library else "true"
    held = {"durskeyl.pth": f"{asked['path']}\n".encode()} if "path" in asked else {name: read(name) for name in FILES}
    held.update({f"{info}/licenses/{name}": read(name) for name in NOTICES})
    if library:
        with open(library, "rb") as it:
            held["durskeyl/libdurskeyl.so.0"] = it.read()
    for name, path in sorted(asked.get("notices", {}).items()):
        with open(path, "rb") as it:
            held[f"{info}/licenses/{name}"] = it.read()
    held[f"{info}/METADATA"] = about.encode() + read("README.md")
    tags = "".join(f"Tag: py3-none-{it}\n" for it in tag.removeprefix("py3-none-").split("."))
    held[f"{info}/WHEEL"] = f"Wheel-Version: 1.0\nGenerator: wheel_of_durskeyl\nRoot-Is-Purelib: {pure}\n{tags}".encode()
    record = ""
    for name, data in held.items():
        sum = base64.urlsafe_b64encode(hashlib.sha256(data).digest()).rstrip(b"=").decode()
        record += f"{name},sha256={sum},{len(data)}\n"
    held[f"{info}/RECORD"] = f"{record}{info}/RECORD,,\n".encode()
    wheel = f"durskeyl-{version}-{tag}.whl"
    with zipfile.ZipFile(f"{wheel_directory}/{wheel}", "w", zipfile.ZIP_DEFLATED) as it:
        for name, data in held.items():
            row = zipfile.ZipInfo(name, (1980, 1, 1, 0, 0, 0))
            row.compress_type, row.external_attr, row.create_system = zipfile.ZIP_DEFLATED, 0o100644 << 16, 3
            it.writestr(row, data)
    return wheel


def get_requires_for_build_editable(config_settings=None):
    return []


def build_editable(wheel_directory, config_settings=None, metadata_directory=None):
    """A wheel that has no module, and a line by which Python looks for it here (PEP 660)."""
    return build_wheel(wheel_directory, {"path": ROOT})


def build_sdist(sdist_directory, config_settings=None):
    raise NotImplementedError("the repository is the source")
