"""Makes scripts of the standard's tests again of what Mozilla makes of them, calls in JavaScript.

Only commands that have a module are kept, each at about its line in the script.
"""
import re

CALL = re.compile(r"(?:(assert_\w+)\(\s*\(\) =>\s*)?\b(?:instantiate|module)\(\s*`((?:[^`\\]|\\.)*)`\s*\)"
                  r"(?:\s*,\s*`((?:[^`\\]|\\.)*)`)?", re.S)
LINE = re.compile(r"^// \S+\.wast:(\d+)", re.M)


def plain(template):
    return re.sub(r"\\(.)", r"\1", template, flags=re.S)


def quoted(text):
    return re.sub(r"[^ !#-\[\]-~]", lambda c: "".join(f"\\{byte:02x}" for byte in c[0].encode()), text)


def script_of(calls):
    """The script of a file of calls."""
    out, line = [], 1
    places = [(found.start(), int(found[1])) for found in LINE.finditer(calls)]
    for found in CALL.finditer(calls):
        module = plain(found[2]).strip()
        if found[1] == "assert_malformed" and not re.match(r"\(module\s+(\$\S+\s+)?binary", module):
            module = f'(module quote "{quoted(module)}")'  # in the calls its quotes are gone
        elif not module.startswith("(module"):
            module = f"(module {module})"
        command = f'({found[1]} {module} "{found[3] or ""}")' if found[1] else module
        wanted = max((number for at, number in places if at < found.start()), default=0)
        out.append("\n" * (wanted - line) + command + "\n")
        line = max(line, wanted) + command.count("\n") + 1
    return "".join(out)
