"""Durskeyl from Python: a validator of WebAssembly core modules that is proved right.

    import durskeyl

    durskeyl.validate(data)                       # None, or raises InvalidModule with offset, kind and message
    durskeyl.is_valid(data)                       # True or False
    for it in durskeyl.imports(data): print(it.module, it.name)
    types = durskeyl.types(data)                  # of its functions, tables, memories, globals and tags
    with durskeyl.Validator() as validator:       # a module that comes in pieces
        for piece in pieces: validator.feed(piece)
        validator.finish()                        # None, or raises InvalidModule

Operators on vectors (SIMD) are judged only if you ask for them: features="vectors".

The calls are those of the library: the one that lies beside this file, if the package was released with it; else the one that
`./install-library` installs. DURSKEYL_LIBRARY names another file. What is proved is the library, and only if is_proved(). Calls may come from any
number of threads, and let other threads run.
"""
from __future__ import annotations

import concurrent.futures
import ctypes
import enum
import operator
import os
import sys
import threading
from collections.abc import Mapping
from typing import Any, NamedTuple, Optional, Union

__version__ = "0.2.0"
__all__ = [
    "ENGINES", "Entity", "Export", "External", "Features", "Import", "InvalidModule", "Kind", "LIMITS", "MOST_HELD", "TooLong", "Type", "Types",
    "Validator", "ValueType", "exports", "imports", "is_proved", "is_valid", "named_features", "parse_features", "shown", "types", "validate", "version",
    "version_text",
]
#: how many bytes a Validator holds at most between two pieces, unless it is told otherwise: more than a function's body may have
MOST_HELD = 16 << 20
LIMITS = """types params results fields string_bytes imports exports functions globals tags tables memories element_segments data_segments
    segment_items body_bytes select_types locals catches subtyping_depth type_size""".split()
_SETS = {"all": 0, "mvp": 1, "wasm1": 2, "wasm2": 3, "wasm3": 4, "lime1": 5, "default": 6}
_PLACES, _NO_MODULE, _NOT_PROVED = 24, 2**64 - 1, 1 << 31
# what the library says of an operator on vectors if they are not judged
_VECTORS_MESSAGE = "unexpected SIMD opcode: 0xfd"
# Any object with a buffer: bytes, bytearray, memoryview, mmap, array ..
Buffer = Any


class Kind(enum.IntEnum):
    """What kind of fault the bytes have."""

    END_OF_DATA = 1
    MISSING_FEATURE = 2
    INVALID = 5


class Features(enum.IntFlag):
    """A set of features, with the names of wasmparser's WasmFeatures. The order of the bits is ours."""

    MUTABLE_GLOBAL = 1 << 0
    SATURATING_FLOAT_TO_INT = 1 << 1
    SIGN_EXTENSION = 1 << 2
    REFERENCE_TYPES = 1 << 3 | 1 << 25
    MULTI_VALUE = 1 << 4
    BULK_MEMORY = 1 << 5 | 1 << 26
    SIMD = 1 << 6
    RELAXED_SIMD = 1 << 7
    THREADS = 1 << 8
    SHARED_EVERYTHING_THREADS = 1 << 9
    TAIL_CALL = 1 << 10
    FLOATS = 1 << 11
    MULTI_MEMORY = 1 << 12
    EXCEPTIONS = 1 << 13
    MEMORY64 = 1 << 14
    EXTENDED_CONST = 1 << 15
    COMPONENT_MODEL = 1 << 16
    FUNCTION_REFERENCES = 1 << 17
    MEMORY_CONTROL = 1 << 18
    GC = 1 << 19
    CUSTOM_PAGE_SIZES = 1 << 20
    LEGACY_EXCEPTIONS = 1 << 21
    GC_TYPES = 1 << 22
    STACK_SWITCHING = 1 << 23
    WIDE_ARITHMETIC = 1 << 24
    CALL_INDIRECT_OVERLONG = 1 << 25
    BULK_MEMORY_OPT = 1 << 26
    CUSTOM_DESCRIPTORS = 1 << 27
    #: no feature, and in no named set but `engines`: operators on vectors are judged like all others; without it each of them is refused
    VECTORS = 1 << 28


class External(enum.IntEnum):
    """What is imported or exported."""

    FUNCTION = 0
    TABLE = 1
    MEMORY = 2
    GLOBAL = 3
    TAG = 4


class Import(NamedTuple):
    """What a module imports; index is the one that it gets among those of its kind."""

    module: str
    name: str
    kind: External
    index: int  # type: ignore[assignment]


class Export(NamedTuple):
    """What a module exports; index is that among those of its kind."""

    name: str
    kind: External
    index: int  # type: ignore[assignment]


def _is_unshown(code: int) -> bool:
    turns = code in (0x61C, 0x200E, 0x200F) or 0x202A <= code <= 0x202E or 0x2066 <= code <= 0x2069
    return code < 0x20 or 0x7F <= code < 0xA0 or code in (0x2028, 0x2029) or turns


def shown(text: str) -> str:
    """A text of others, written so that it stays within its line: as wasm-check does, control characters, those that end a line for some
    readers and those that turn its order are written as \\u{N}. So is what is no character, as the rest of a file's name."""
    return "".join(f"\\u{{{ord(c):x}}}" if _is_unshown(ord(c)) or 0xD800 <= ord(c) < 0xE000 else c for c in text)


# A set of features, its bits, a list of words as parse_features reads it, or None for those by default.
Chosen = Union[Features, int, str, None]


class InvalidModule(Exception):
    """The bytes are no valid module."""

    def __init__(self, kind: Kind, offset: int, message: str, detail: int = 0, limit: Optional[str] = None) -> None:
        super().__init__(kind, offset, message, detail, limit)
        self.kind = kind
        #: where the fault was found, in the bytes
        self.offset = offset
        #: what is wrong, for people, in no stable wording; it may hold a name of the module, with any characters (shown() escapes them)
        self.message = message
        #: at END_OF_DATA how many bytes more would be asked for at least, at MISSING_FEATURE the bits of a feature that would help; else 0
        self.detail = detail
        #: the name in LIMITS of the limit that refused the bytes, if one did; in pieces a limit of one table or one memory is not told
        self.limit = limit

    @property
    def hint(self) -> Optional[str]:
        """What a caller can do about it, if something is known: an operator on vectors is refused unless they are asked for."""
        is_vector = self.kind == Kind.INVALID and self.message == _VECTORS_MESSAGE
        return 'features="vectors" judges operators on vectors' if is_vector else None

    @property
    def line(self) -> str:
        """The refusal as wasm-check writes it behind the name of a file."""
        return f"invalid at {self.offset:#x}: {shown(self.message)}"

    def __str__(self) -> str:
        return f"{self.line} ({self.hint})" if self.hint else self.line


class TooLong(Exception):
    """There is no verdict: more bytes would have to be held than a Validator may hold."""


class _Settings(ctypes.Structure):
    _fields_ = [("features", ctypes.c_uint64), ("limits", ctypes.c_uint32 * _PLACES)]


_Text: Any = ctypes.c_char * 260


class _Fault(ctypes.Structure):
    _fields_ = [("kind", ctypes.c_uint32), ("text_length", ctypes.c_uint32), ("offset", ctypes.c_uint64), ("detail", ctypes.c_uint64)]
    _fields_ += [("text", _Text), ("limit", ctypes.c_uint32)]


class _Pieces(ctypes.Structure):
    _fields_ = [("inside", ctypes.c_void_p), ("begun", ctypes.c_uint64)]


class _Module(ctypes.Structure):
    _fields_ = [("inside", ctypes.c_void_p), ("known", ctypes.c_uint64)]


class _ValueRow(ctypes.Structure):
    _fields_ = [(name, ctypes.c_uint32) for name in ("kind", "flags", "heap", "id")]


class _EntityRow(ctypes.Structure):
    _fields_ = [
        *((name, ctypes.c_uint32) for name in ("kind", "flags", "id", "page_size_log2")),
        ("value", _ValueRow), ("minimum", ctypes.c_uint64), ("maximum", ctypes.c_uint64),
    ]


class _TypeRow(ctypes.Structure):
    _fields_ = [
        (name, ctypes.c_uint32)
        for name in ("kind", "flags", "supertype", "group_first", "group_count", "values", "params", "function", "descriptor", "describes")
    ]


class _ImportRow(ctypes.Structure):
    _fields_ = [("module_offset", ctypes.c_uint64), ("name_offset", ctypes.c_uint64), ("module_length", ctypes.c_uint32), ("name_length", ctypes.c_uint32)]
    _fields_ += [("kind", ctypes.c_uint32), ("index", ctypes.c_uint32)]


class _ExportRow(ctypes.Structure):
    _fields_ = [("name_offset", ctypes.c_uint64), ("name_length", ctypes.c_uint32), ("kind", ctypes.c_uint32), ("index", ctypes.c_uint32), ("later", ctypes.c_uint32)]


def _open() -> ctypes.CDLL:
    """The library that DURSKEYL_LIBRARY names; else the one beside this file, if the package was released with it; else the one that the system
    finds, or where ./install-library puts it."""
    named, own = os.environ.get("DURSKEYL_LIBRARY"), os.path.join(os.path.dirname(os.path.abspath(__file__)), "libdurskeyl.so.0")
    names = [named] if named else [own] if os.path.exists(own) else ["libdurskeyl.so.0", "/usr/local/lib/libdurskeyl.so.0"]
    errors = []
    for name in names:
        try:
            return ctypes.CDLL(name)
        except OSError as error:
            errors.append(str(error))
    raise ImportError(f"{names[0]} is not found: install it by ./install-library, or name its file in DURSKEYL_LIBRARY ({'; '.join(errors)})")


def _load() -> ctypes.CDLL:
    library, number, count = _open(), ctypes.c_uint32, ctypes.c_size_t
    settings, fault, pieces, module = map(ctypes.POINTER, (_Settings, _Fault, _Pieces, _Module))
    library.durskeyl_version.argtypes, library.durskeyl_version.restype = [], number
    library.durskeyl_version_text.argtypes, library.durskeyl_version_text.restype = [], ctypes.c_char_p
    found = library.durskeyl_version()
    # structures of another version may have another size
    if [found >> 16 & 0xFF, found >> 8 & 0xFF] != [int(it) for it in __version__.split(".")[:2]]:
        told = f"{found >> 16 & 0xFF}.{found >> 8 & 0xFF}.{found & 0xFF}"
        raise ImportError(f"the package durskeyl {__version__} needs a library of its own version, and {told} was found")
    # `bytes` have a length beside them and may hold zeros; the calls keep no pointer
    calls = {
        "features": ([number], ctypes.c_uint64),
        "settings_default": ([settings], None),
        "validate": ([settings, ctypes.c_char_p, count, fault], number),
        "validate_part": ([settings, ctypes.c_char_p, count, number, number, fault], number),
        "begin": ([settings, ctypes.c_uint64, pieces, fault], number),
        "take": ([pieces, ctypes.c_char_p, count, fault], number),
        "end": ([pieces, fault], number),
        "drop": ([pieces], None),
        "imports": ([ctypes.c_char_p, count, ctypes.POINTER(_ImportRow), count], ctypes.c_uint64),
        "exports": ([ctypes.c_char_p, count, ctypes.POINTER(_ExportRow), count], ctypes.c_uint64),
        "validate_types": ([settings, ctypes.c_char_p, count, module, fault], number),
        "release": ([module], None),
        "entities": ([module, number, number, ctypes.POINTER(_EntityRow), count], ctypes.c_uint64),
        "type_ids": ([module, number, ctypes.POINTER(number), count], ctypes.c_uint64),
        "types": ([module, number, ctypes.POINTER(_TypeRow), count], ctypes.c_uint64),
        "type_values": ([module, number, ctypes.POINTER(_ValueRow), count], ctypes.c_uint64),
        "start": ([ctypes.c_char_p, count], ctypes.c_uint64),
    }
    for name, (words, answer) in calls.items():
        call = getattr(library, f"durskeyl_{name}")
        call.argtypes, call.restype = words, answer
    return library


def _is_program() -> bool:
    """Whether this is imported for `python3 -m durskeyl`. Python imports a package before its program, and ends with 1 if that fails, which would
    say that a file is invalid."""
    words = getattr(sys, "orig_argv", [])
    asked = any(it.startswith("-") and f"{it} {after}".endswith("m durskeyl") for it, after in zip(words, words[1:]))
    return sys.argv[:1] == ["-m"] and (asked or any(it.startswith("-") and it.endswith("mdurskeyl") for it in words))


try:
    _library = _load()
except ImportError as _error:
    if not _is_program():
        raise
    if sys.stderr is not None:
        print(f"durskeyl: {shown(str(_error))}", file=sys.stderr)
    sys.exit(2)


def version() -> tuple[int, int, int]:
    """The version of the library."""
    number = _library.durskeyl_version()
    return number >> 16 & 0xFF, number >> 8 & 0xFF, number & 0xFF


def version_text() -> str:
    """The library's version, whether it is proved, by which logic and from which commit: a line for people."""
    text: bytes = _library.durskeyl_version_text()
    return text.decode()


def is_proved() -> bool:
    """Whether the library says of itself that it was built by the toolchain from what it proved. The file PROVED, installed beside it, says
    from which commit, or why not."""
    return not _library.durskeyl_version() & _NOT_PROVED


def named_features(name: str) -> Features:
    """The features of a set: all, mvp, wasm1, wasm2, wasm3, lime1, default, or engines, which is what browsers' engines take by default today:
    wasm3, which has threads, and operators on vectors."""
    if name == "engines":
        return named_features("wasm3") | Features.VECTORS
    if name not in _SETS:
        raise ValueError(f"unknown set of features: {name!r}")
    return Features(_library.durskeyl_features(_SETS[name]))


# Each feature by its word, as `custom-page-sizes`.
_WORDS = {name.lower().replace("_", "-"): feature for name, feature in Features.__members__.items()}


def parse_features(text: str) -> Features:
    """The features of a list, read as `wasm-check --features` reads it: words with a comma between them, which are applied in order to the set by
    default. A word is a set (`wasm2`), a feature (`threads`), or `no-` or `-` and a feature; `-all` is no feature. There are two more here: `vectors`,
    as `--vectors`, which a set leaves as it was; and the set `engines`, which has them."""
    found = named_features("default")
    for word in text.split(","):
        removed = word.removeprefix("no-") if word.startswith("no-") else word.removeprefix("-")
        if word in _SETS or word == "engines":
            found = named_features(word) | (found & Features.VECTORS)
        elif word in _WORDS:
            found |= _WORDS[word]
        elif word == "-all":
            found &= Features.VECTORS
        elif removed != word and removed in _WORDS:
            found &= ~_WORDS[removed]
        else:
            meant = word.strip().lower().replace("_", "-")
            told = f"; did you mean {meant!r}?" if meant != word and meant in {*_SETS, *_WORDS, "engines"} else ""
            raise ValueError(f"unknown feature or set of features: {word!r}{told}")
    return found


#: what browsers' engines take by default today: WebAssembly 3.0 with threads, and operators on vectors; a later version may have more
ENGINES = named_features("engines")


def _bytes(data: Buffer) -> bytes:
    """The bytes of a buffer. Only `bytes` itself is lent as it is: whatever else may be written meanwhile, also if it is read-only."""
    return data if type(data) is bytes else bytes(memoryview(data))


def _settings(features: Chosen, limits: Optional[Mapping[str, int]]) -> _Settings:
    settings = _Settings()
    _library.durskeyl_settings_default(settings)
    if isinstance(features, str):
        features = parse_features(features)
    if features is not None:
        bits = operator.index(features)
        if not 0 <= bits < 2**64:
            raise ValueError(f"not a set of features: {features}")
        settings.features = bits
    for name, most in (limits or {}).items():
        name = name.replace("-", "_")
        if name not in LIMITS:
            raise ValueError(f"unknown limit: {name!r}")
        most = operator.index(most)
        if not 0 <= most < 2**32:
            raise ValueError(f"limit out of range: {name} = {most}")
        settings.limits[LIMITS.index(name)] = most
    return settings


def _refused(settings: Optional[_Settings]) -> str:
    """What the library refuses of these settings: features that it does not know, or the first limit that it refuses alone."""
    if settings is None:
        return "a feature or a limit that the library does not know, or a limit above its ceiling"
    unknown = settings.features & ~(int(named_features("all")) | int(Features.VECTORS))
    if unknown:
        return f"unknown features {unknown:#x}"
    for place, name in enumerate(LIMITS):
        one = _settings(None, {name: settings.limits[place]})
        if _library.durskeyl_validate(one, b"\0asm\1\0\0\0", 8, _Fault()) == 6:
            return f"{name} = {settings.limits[place]} is above its ceiling"
    return "a limit that the library does not know"


def _answer(kind: int, fault: _Fault, settings: Optional[_Settings] = None) -> Optional[InvalidModule]:
    """What a call by these settings answered: None for a yes, or why the bytes are invalid. Raises what is no verdict."""
    if kind == 0:
        return None
    if kind == 3:
        raise MemoryError("durskeyl: out of memory")
    if kind == 6:
        raise ValueError(f"bad settings: {_refused(settings)}")
    if kind == 7:
        raise TooLong("no verdict: more bytes would have to be held than the validator may hold")
    if kind not in (1, 2, 5):
        raise RuntimeError(f"no verdict: durskeyl answers the unknown kind {kind}")
    text = ctypes.string_at(ctypes.addressof(fault) + _Fault.text.offset, fault.text_length)
    limit = LIMITS[fault.limit - 1] if 1 <= fault.limit <= len(LIMITS) else None
    return InvalidModule(Kind(kind), fault.offset, text.decode("utf-8", "replace"), fault.detail, limit)


def _judge_part(settings: _Settings, data: bytes, part: int, parts: int) -> Optional[InvalidModule]:
    fault = _Fault()
    if parts == 1:
        return _answer(_library.durskeyl_validate(settings, data, len(data), fault), fault, settings)
    return _answer(_library.durskeyl_validate_part(settings, data, len(data), part, parts, fault), fault, settings)


def _judge(data: bytes, features: Chosen, limits: Optional[Mapping[str, int]], threads: int = 1) -> Optional[InvalidModule]:
    """None if the bytes are a valid module; else why not."""
    settings, threads = _settings(features, limits), operator.index(threads)
    if not 1 <= threads <= 1024:
        raise ValueError(f"threads out of range: {threads}")
    if threads == 1:
        return _judge_part(settings, data, 0, 1)
    with concurrent.futures.ThreadPoolExecutor(threads) as pool:
        parts = [pool.submit(_judge_part, settings, data, part, threads) for part in range(threads)]
    # a verdict is told even if another part ran out of memory
    faults = [fault for it in parts if it.exception() is None and (fault := it.result()) is not None]
    if faults:
        return min(faults, key=lambda it: it.offset)
    for it in parts:
        it.result()
    return None


def validate(data: Buffer, *, features: Chosen = None, limits: Optional[Mapping[str, int]] = None, threads: int = 1) -> None:
    """Returns if the bytes are a valid module, by the features (or the name of a set) and limits that are given, else by those by default.
    With several threads each reads all sections, and judges its share of the bodies; of several faults the first in the bytes is told.

    Raises InvalidModule if they are not, MemoryError if there was no memory to tell, ValueError if the features or limits are wrong, and
    TypeError if the data is no buffer, or features or limits are no whole numbers.
    """
    fault = _judge(_bytes(data), features, limits, threads)
    if fault is not None:
        raise fault


def is_valid(data: Buffer, *, features: Chosen = None, limits: Optional[Mapping[str, int]] = None, threads: int = 1) -> bool:
    """Whether the bytes are a valid module. Raises as validate() does, except InvalidModule."""
    return _judge(_bytes(data), features, limits, threads) is None


class Validator:
    """A module that comes in pieces: feed() takes the next bytes, and finish() gives the verdict.

    Each section, and each body, is judged as soon as it is whole; of a part no more than `most` bytes are held between two pieces. Only
    finish() gives a yes. A refusal stays: each later call raises it again. One thread at a time uses it; others wait.
    """

    def __init__(self, *, features: Chosen = None, limits: Optional[Mapping[str, int]] = None, most: int = MOST_HELD) -> None:
        # first what close() needs, which comes in any case
        self._pieces, self._lock = _Pieces(), threading.Lock()
        self._error: Optional[Exception] = None
        most = operator.index(most)
        if not 0 <= most < 2**64:
            raise ValueError(f"most out of range: {most}")
        fault = _Fault()
        settings = _settings(features, limits)
        self._told(_library.durskeyl_begin(settings, most, self._pieces, fault), fault, settings)

    def _told(self, kind: int, fault: _Fault, settings: Optional[_Settings] = None) -> None:
        """Raises what a call answered that is no yes, and keeps it."""
        try:
            error: Optional[Exception] = _answer(kind, fault, settings)
        except Exception as other:
            error = other
        if error is not None:
            self._error = error
            raise error

    def _check(self) -> None:
        if self._error is not None:
            raise self._error
        if not self._pieces.begun:
            raise ValueError("the validator is finished or closed")

    def feed(self, data: Buffer) -> None:
        """Takes the next bytes. Raises InvalidModule if no module that begins with the bytes so far is valid, and ValueError after finish() or
        close(). There is no verdict if there is no memory, which is MemoryError, or if more would have to be held than it may, TooLong."""
        data, fault = _bytes(data), _Fault()
        with self._lock:
            self._check()
            self._told(_library.durskeyl_take(self._pieces, data, len(data), fault), fault)

    def finish(self) -> None:
        """Returns if all that was fed is a valid module; else raises as feed() does. Nothing is held afterwards."""
        fault = _Fault()
        with self._lock:
            self._check()
            self._told(_library.durskeyl_end(self._pieces, fault), fault)

    def close(self) -> None:
        """Gives back what is held, without a verdict. May be called at any time, and more than once."""
        with self._lock:
            _library.durskeyl_drop(self._pieces)

    def __enter__(self) -> Validator:
        return self

    def __exit__(self, *_: object) -> None:
        self.close()

    def __del__(self) -> None:
        # nobody else has it any more, so there is nothing to wait for
        if hasattr(self, "_pieces") and _library is not None:
            _library.durskeyl_drop(self._pieces)

    def __copy__(self) -> Validator:
        raise TypeError("a validator cannot be copied")

    def __reduce__(self) -> str:
        raise TypeError("a validator cannot be copied")


def _rows(listing: Any, row: Any, data: bytes) -> Any:
    count = listing(data, len(data), None, 0)
    if count == _NO_MODULE or count > len(data):
        raise RuntimeError("durskeyl breaks its promise on a module that it accepted")
    found = (row * count)()
    listing(data, len(data), found, count)
    return found


def _name(data: bytes, offset: int, length: int) -> str:
    return data[offset : offset + length].decode()


def imports(data: Buffer, *, features: Chosen = None, limits: Optional[Mapping[str, int]] = None) -> list[Import]:
    """What a module imports, in its order. It is validated first, and raises what validate() does."""
    data = _bytes(data)
    validate(data, features=features, limits=limits)
    return [
        Import(_name(data, it.module_offset, it.module_length), _name(data, it.name_offset, it.name_length), External(it.kind), it.index)
        for it in _rows(_library.durskeyl_imports, _ImportRow, data)
    ]


def exports(data: Buffer, *, features: Chosen = None, limits: Optional[Mapping[str, int]] = None) -> list[Export]:
    """What a module exports, in its order. It is validated first, and raises what validate() does."""
    data = _bytes(data)
    validate(data, features=features, limits=limits)
    rows = _rows(_library.durskeyl_exports, _ExportRow, data)
    return [Export(_name(data, it.name_offset, it.name_length), External(it.kind), it.index) for it in rows]


_VALUES = ["i32", "i64", "f32", "f64", "v128", "ref", "i8", "i16"]
_HEAPS = "func extern any none noextern nofunc eq struct array i31 exn noexn cont nocont".split()
_MUTABLE, _NULLABLE, _SHARED, _EXACT, _BITS_64, _HAS_MAXIMUM, _HAS_PAGE_SIZE, _FINAL = (1 << it for it in range(8))
_NO_TYPE = 2**32 - 1


class ValueType(NamedTuple):
    """The type of a value, or of what a field stores: a number or a vector by its name, or "ref" with what it refers to, a name or an id."""

    kind: str
    heap: Union[str, int, None] = None
    nullable: bool = False
    shared: bool = False
    exact: bool = False
    mutable: bool = False


class Type(NamedTuple):
    """A defined type: kind is "func", "struct", "array" or "cont". supertype, function, descriptor and describes are ids; group has those of its
    recursion group. Equal ids are equal types, and equal types have equal ids if the features have function references or garbage collection."""

    kind: str
    params: tuple[ValueType, ...]
    results: tuple[ValueType, ...]
    fields: tuple[ValueType, ...]
    final: bool
    shared: bool
    supertype: Optional[int]
    group: range
    function: Optional[int]
    descriptor: Optional[int]
    describes: Optional[int]


class Entity(NamedTuple):
    """The type of a function or a tag, by the id of its type; of a table or a memory with its limits; of a global."""

    kind: External
    id: Optional[int]
    value: Optional[ValueType]
    minimum: int
    maximum: Optional[int]
    mutable: bool
    shared: bool
    exact: bool
    is_64: bool
    page_size_log2: Optional[int]


class Types(NamedTuple):
    """The types of an accepted module: those that differ by their ids, the ids of the module's own by their indices, and what it has of each kind, imports
    first. start is the index of the start function."""

    types: list[Type]
    ids: list[int]
    functions: list[Entity]
    tables: list[Entity]
    memories: list[Entity]
    globals: list[Entity]
    tags: list[Entity]
    start: Optional[int]

    def of(self, it: Union[Import, Export]) -> Entity:
        """The type of an import or an export."""
        return [self.functions, self.tables, self.memories, self.globals, self.tags][it.kind][it.index]


def _value(row: _ValueRow) -> ValueType:
    heap = None if row.kind != 5 else _HEAPS[row.heap] if row.heap < len(_HEAPS) else row.id
    bits = row.flags
    return ValueType(_VALUES[row.kind], heap, bool(bits & _NULLABLE), bool(bits & _SHARED), bool(bits & _EXACT), bool(bits & _MUTABLE))


def _told_rows(row: Any, call: Any, *words: Any) -> Any:
    """All rows of a call, which answers how many there are."""
    found = (row * call(*words, None, 0))()
    call(*words, found, len(found))
    return found


def _some(id: int) -> Optional[int]:
    return None if id == _NO_TYPE else id


def _type(module: _Module, id: int, row: _TypeRow) -> Type:
    values = tuple(map(_value, _told_rows(_ValueRow, _library.durskeyl_type_values, module, id)))
    kind = ["func", "struct", "array", "cont"][row.kind]
    params, results, fields = (values[: row.params], values[row.params :], ()) if kind == "func" else ((), (), values)
    group = range(row.group_first, row.group_first + row.group_count)
    ids = map(_some, (row.function, row.descriptor, row.describes))
    return Type(kind, params, results, fields, bool(row.flags & _FINAL), bool(row.flags & _SHARED), _some(row.supertype), group, *ids)


def _entity(row: _EntityRow) -> Entity:
    bits, has_value = row.flags, row.kind in (External.TABLE, External.GLOBAL)
    return Entity(
        External(row.kind), _some(row.id), _value(row.value) if has_value else None, row.minimum, row.maximum if bits & _HAS_MAXIMUM else None,
        bool(bits & _MUTABLE), bool(bits & _SHARED), bool(bits & _EXACT), bool(bits & _BITS_64), row.page_size_log2 if bits & _HAS_PAGE_SIZE else None,
    )


def types(data: Buffer, *, features: Chosen = None, limits: Optional[Mapping[str, int]] = None) -> Types:
    """The types of a module. It is validated first, and raises what validate() does."""
    data, settings, module, fault = _bytes(data), _settings(features, limits), _Module(), _Fault()
    try:
        refusal = _answer(_library.durskeyl_validate_types(settings, data, len(data), module, fault), fault, settings)
        if refusal is not None:
            raise refusal
        found = [_type(module, id, row) for id, row in enumerate(_told_rows(_TypeRow, _library.durskeyl_types, module, 0))]
        ids = list(_told_rows(ctypes.c_uint32, _library.durskeyl_type_ids, module, 0))
        spaces = [[_entity(it) for it in _told_rows(_EntityRow, _library.durskeyl_entities, module, kind, 0)] for kind in External]
    finally:
        _library.durskeyl_release(module)
    start = _library.durskeyl_start(data, len(data))
    functions, tables, memories, globals_, tags = spaces
    return Types(found, ids, functions, tables, memories, globals_, tags, None if start == _NO_MODULE else start)
