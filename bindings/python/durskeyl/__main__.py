"""Says of each file whether it is a valid WebAssembly module, by lines as those of wasm-check.

usage: python3 -m durskeyl [--vectors] [--entries] FILE...
       python3 -m durskeyl --help | --version

The file `-` is standard input. With --vectors operators on vectors are judged like all others, and after --entries it says what each file
imports and exports. Ends with 0 if all are valid, 1 if some file is not, and 2 if there is no verdict on some file, or no file. At a terminal it
says below a refusal what may help.
"""
import io
import os
import sys

import durskeyl


# below the line of a module with vectors; no line of a file begins so
HINT = "  --vectors judges operators on vectors"


def complain(line: str) -> None:
    """Writes a line on standard error, which may be closed. It is never written anywhere else."""
    try:
        if sys.stderr is not None:
            print(line, file=sys.stderr, flush=True)
    except OSError:
        pass


def read(name: str) -> bytes:
    try:
        name.encode()
    except UnicodeEncodeError:
        raise OSError("a name has to be UTF-8") from None
    if name != "-":
        with open(name, "rb") as it:
            return it.read()
    if sys.stdin is None:
        raise OSError("standard input is closed")
    return sys.stdin.buffer.read()


def hexed(text: str) -> str:
    return text.encode().hex() or "-"


def told(name: str, lists: bool, features: durskeyl.Features) -> "tuple[int, list[str]]":
    """The status of a file, and its lines."""
    data = read(name)
    try:
        if not lists:
            durskeyl.validate(data, features=features)
            return 0, [f"{durskeyl.shown(name)}: valid"]
        imports = [f"import {hexed(it.module)} {hexed(it.name)} {it.kind:d} {it.index}" for it in durskeyl.imports(data, features=features)]
        return 0, imports + [f"export {hexed(it.name)} {it.kind:d} {it.index}" for it in durskeyl.exports(data, features=features)]
    except durskeyl.InvalidModule as fault:
        return 1, [f"{durskeyl.shown(name)}: {fault.line}"] + [HINT] * (fault.hint is not None)


def judge(names: "list[str]", lists: bool, features: durskeyl.Features) -> int:
    """Writes the lines of all files, and gives the status."""
    status = 0
    for name in names:
        try:
            found, lines = told(name, lists, features)
        except Exception as error:  # whatever it is, it is no verdict
            why = error.strerror if isinstance(error, OSError) and error.strerror else str(error)
            complain(f"durskeyl: {durskeyl.shown(name)}: {durskeyl.shown(why)}")
            status = 2
            continue
        status = max(status, found)
        for line in lines:
            if line != HINT:
                print(line)
            elif sys.stderr is not None and sys.stderr.isatty():
                sys.stdout.flush()
                complain(line)
    return status


def write_utf8(stream: object) -> None:
    """Has a stream write UTF-8, whatever the language of the machine."""
    if isinstance(stream, io.TextIOWrapper):
        stream.reconfigure(encoding="utf-8")


def main() -> int:
    words = sys.argv[1:]
    if words[:1] in (["--help"], ["-h"], ["--version"]) and sys.stdout is not None:
        print(f"durskeyl {durskeyl.version_text()}" if words[0] == "--version" else __doc__.strip())
        sys.stdout.flush()
        return 0
    features = durskeyl.named_features("default")
    if words[:1] == ["--vectors"]:
        features, words = features | durskeyl.Features.VECTORS, words[1:]
    lists = words[:1] == ["--entries"]
    names = words[lists:]
    if not names:
        complain("usage: python3 -m durskeyl [--vectors] [--entries] FILE... (--help has more)")
        return 2
    if sys.stdout is None:
        complain("durskeyl: cannot write: standard output is closed")
        return 2
    try:
        write_utf8(sys.stdout)
        status = judge(names, lists, features)
        sys.stdout.flush()
        return status
    except OSError as error:
        complain(f"durskeyl: cannot write: {error.strerror or error}")
        # what is left in the buffer is not tried again at the end, which would change the status
        os._exit(2)


if __name__ == "__main__":
    write_utf8(sys.stderr)
    sys.exit(main())
