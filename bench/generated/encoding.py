"""Bytes of a module: numbers, types, sections (WebAssembly 3.0, binary format)."""

NUMBERS = {"i32": 0x7F, "i64": 0x7E, "f32": 0x7D, "f64": 0x7C, "v128": 0x7B, "i16": 0x77, "i8": 0x78}
HEAPS = {"func": 0x70, "extern": 0x6F, "any": 0x6E, "eq": 0x6D, "i31": 0x6C, "struct": 0x6B, "array": 0x6A, "exn": 0x69,
         "none": 0x71, "noextern": 0x72, "nofunc": 0x73, "noexn": 0x74}


def unsigned(n):
    text = bytearray()
    while n > 0x7F:
        text.append(n & 0x7F | 0x80)
        n >>= 7
    return bytes(text) + bytes([n])


def signed(n):
    text = bytearray()
    while not -64 <= n < 64:
        text.append(n & 0x7F | 0x80)
        n >>= 7
    return bytes(text) + bytes([n & 0x7F])


def listed(parts):
    parts = list(parts)
    return unsigned(len(parts)) + b"".join(parts)


def sized(content):
    return unsigned(len(content)) + content


def name(text):
    return sized(text.encode())


def heap(h):
    return bytes([HEAPS[h]]) if isinstance(h, str) else signed(h)


def value(t):
    """A value type: the name of a number, or whether it is nullable and its heap type."""
    if isinstance(t, str):
        return bytes([NUMBERS[t]])
    nullable, h = t
    return heap(h) if nullable and isinstance(h, str) else bytes([0x63 if nullable else 0x64]) + heap(h)


def function_type(params, results):
    return b"\x60" + listed(map(value, params)) + listed(map(value, results))


def limits(least, most, is_wide=False, is_shared=False):
    flag = (most is not None) + 2 * is_shared + 4 * is_wide
    return bytes([flag]) + unsigned(least) + (b"" if most is None else unsigned(most))


def section(number, content):
    return bytes([number]) + sized(content)
