"""Each worked module, once for each way in which operators are visited."""
from common import CHECK, compare, told, words_of, worked_names

# By `expression` nothing tells at which offset an operator was refused.
WAYS = ["expression", "offsets", "operators", "lent", "owned", "bytes"]
# A caller that reads each operator before it visits it is told what its reading met.
READ_FIRST = {"vector-operator.wasm": "invalid at 0x19: unexpected end-of-file"}


def verdict(line, way):
    """The verdict as it is told where operators are visited in this way."""
    name, text = line.split(": ", 1)
    if way in ("lent", "owned"):
        text = READ_FIRST.get(name, text)
    if way == "expression" and text.startswith("invalid"):
        return "invalid: " + text.split(": ", 1)[1]
    return text


def judge(program, way):
    names = worked_names()
    modules = [open(f"{CHECK}/data/{name}", "rb").read().hex() for name in names]
    lines = told(program, "methods", [f"visits default {way} {it}" for it in modules])
    got = [verdict(f": {line.strip()}", way) for line in lines[1::2]]
    return compare(way, [f"{n}: {g}" for n, g in zip(names, got)], [f"{n}: {verdict(line, way)}" for n, line in zip(names, words_of(f"{CHECK}/stdout"))])


def run(program):
    return sum(judge(program, way) for way in WAYS)
