"""What the calls answer, over small modules. usage: python3 calls.py"""
import array
import copy
import gc
import pickle
import threading
import unittest

import durskeyl
from durskeyl import Export, External, Features, Import, InvalidModule, Kind

HEADER = b"\0asm\1\0\0\0"
# Two functions from "a" and a memory between them; an export of each name's length from 0 to 2.
MODULE = HEADER + b"\1\4\1\x60\0\0" + b"\2\x14\3\1a\1f\0\0\1a\1m\2\0\0\1a\1g\0\0" + b"\7\x0d\3\0\0\1\1x\0\0\2yz\2\0"
# A struct and an array in one group, a function type twice, and one of nothing; an imported function, and one of its own, which starts; a table, a
# memory, a tag and a global.
TYPED = (
    HEADER + b"\1\x1f\4\x4e\2\x5f\2\x78\1\x63\1\0\x5e\x64\0\0\x60\2\x7f\x64\0\1\x7c\x60\2\x7f\x64\0\1\x7c\x60\0\0"
    + b"\2\7\1\1a\1f\0\3\3\2\1\4\4\5\1\x70\1\1\2\5\3\1\0\1\x0d\3\1\0\4\6\6\1\x7e\1\x42\0\x0b\x08\1\1\x0a\4\1\2\0\x0b"
)
MEMORIES = HEADER + b"\5\5\2\0\0\0\0"


def with_locals(count):
    return HEADER + b"\1\4\1\x60\0\0\3\2\1\0\x0a\6\1\4\1" + bytes([count]) + b"\x7f\x0b"


class Calls(unittest.TestCase):
    def test_verdicts(self):
        self.assertIsNone(durskeyl.validate(HEADER))
        self.assertIs(durskeyl.is_valid(HEADER), True)
        for data in b"", HEADER[:7], b"\0asm\2\0\0\0", HEADER + b"\x0f\0":
            self.assertIs(durskeyl.is_valid(data), False)
            with self.assertRaises(InvalidModule):
                durskeyl.validate(data)

    def test_fault(self):
        with self.assertRaises(InvalidModule) as caught:
            durskeyl.validate(HEADER + b"\x0f\0")
        fault = caught.exception
        self.assertEqual((fault.kind, fault.offset), (Kind.INVALID, 10))
        self.assertTrue(fault.message and str(fault).startswith("invalid at 0xa: "))
        with self.assertRaises(InvalidModule) as caught:
            durskeyl.validate(HEADER[:7])
        self.assertEqual(caught.exception.kind, Kind.END_OF_DATA)
        self.assertIsNone(fault.limit)
        self.assertNotIsInstance(fault, (ValueError, MemoryError))

    def test_buffers(self):
        held = bytearray(MODULE)
        for data in held, memoryview(held), memoryview(held).toreadonly(), memoryview(MODULE), array.array("B", MODULE):
            self.assertTrue(durskeyl.is_valid(data))
            self.assertEqual(len(durskeyl.imports(data)), 3)
        every_second = memoryview(bytes(b for byte in MODULE for b in (byte, 0)))[::2]
        self.assertTrue(durskeyl.is_valid(every_second))
        for data in "text", 8, None, [0, 97]:
            with self.assertRaises(TypeError):
                durskeyl.is_valid(data)

    def test_entries(self):
        wanted = [Import("a", "f", External.FUNCTION, 0), Import("a", "m", External.MEMORY, 0), Import("a", "g", External.FUNCTION, 1)]
        self.assertEqual(durskeyl.imports(MODULE), wanted)
        names = [(it.name, it.kind) for it in durskeyl.exports(MODULE)]
        self.assertEqual(names, [("", External.FUNCTION), ("x", External.FUNCTION), ("yz", External.MEMORY)])
        self.assertEqual(durskeyl.exports(MODULE)[2], Export("yz", External.MEMORY, 0))
        with self.assertRaises(InvalidModule):
            durskeyl.imports(MODULE[:-1])

    def test_types_of_a_module(self):
        types, value = durskeyl.types(TYPED), durskeyl.ValueType
        self.assertEqual((types.ids, types.start), ([0, 1, 2, 2, 3], 1))
        self.assertEqual([it.kind for it in types.types], ["struct", "array", "func", "func"])
        self.assertEqual([list(it.group) for it in types.types], [[0, 1], [0, 1], [2], [3]])
        self.assertEqual(types.types[0].fields, (value("i8", mutable=True), value("ref", 1, nullable=True)))
        self.assertEqual(types.types[1].fields, (value("ref", 0),))
        self.assertEqual((types.types[2].params, types.types[2].results), ((value("i32"), value("ref", 0)), (value("f64"),)))
        self.assertTrue(types.types[2].final and types.types[2].supertype is None)
        self.assertEqual([it.id for it in types.functions + types.tags], [2, 3, 3])
        table, memory = types.tables[0], types.memories[0]
        self.assertEqual((table.value, table.minimum, table.maximum), (value("ref", "func", nullable=True), 1, 2))
        self.assertEqual((memory.minimum, memory.maximum, memory.page_size_log2), (1, None, None))
        self.assertEqual((types.globals[0].value, types.globals[0].mutable), (value("i64"), True))
        self.assertEqual(types.of(durskeyl.imports(TYPED)[0]), types.functions[0])
        self.assertEqual(durskeyl.types(HEADER), durskeyl.Types([], [], [], [], [], [], [], None))
        for data in TYPED[:60], TYPED[:-1] + b"\0":
            with self.assertRaises(InvalidModule) as told:
                durskeyl.types(data)
            with self.assertRaises(InvalidModule) as wanted:
                durskeyl.validate(data)
            self.assertEqual(str(told.exception), str(wanted.exception))
        with self.assertRaises(ValueError):
            durskeyl.types(TYPED, features=1 << 40)

    def test_settings(self):
        self.assertTrue(durskeyl.is_valid(with_locals(10), limits={"locals": 10}))
        self.assertFalse(durskeyl.is_valid(with_locals(11), limits={"locals": 10}))
        self.assertTrue(durskeyl.is_valid(MEMORIES))
        self.assertFalse(durskeyl.is_valid(MEMORIES, features="wasm2"))
        self.assertTrue(durskeyl.is_valid(MEMORIES, features=durskeyl.named_features("wasm2") | Features.MULTI_MEMORY))
        self.assertFalse(durskeyl.is_valid(MEMORIES, features=0))

    def test_types(self):
        for wrong in 1.5, 2.0, b"wasm2", ["gc"]:
            with self.assertRaises(TypeError):
                durskeyl.validate(HEADER, features=wrong)
        for wrong in {"locals": 1.5}, {"locals": "10"}, {"locals": None}:
            with self.assertRaises(TypeError):
                durskeyl.is_valid(HEADER, limits=wrong)

    def test_wrong_settings(self):
        for wrong in {"locals": 1000001}, {"locals": 2**32}, {"locals": -1}, {"nothing": 1}:
            with self.assertRaises(ValueError):
                durskeyl.validate(HEADER, limits=wrong)
        for wrong in 1 << 40, 1 << 64, -1, "wasm9":
            with self.assertRaises(ValueError):
                durskeyl.is_valid(HEADER, features=wrong)

    def test_lists_of_features(self):
        features = durskeyl.Features
        self.assertEqual(durskeyl.parse_features("wasm2"), durskeyl.named_features("wasm2"))
        self.assertEqual(durskeyl.parse_features("wasm1,vectors,-all,floats"), features.FLOATS | features.VECTORS)
        self.assertEqual(durskeyl.parse_features("-simd"), durskeyl.parse_features("no-simd"))
        self.assertEqual(durskeyl.parse_features("wasm1,threads,vectors,no-floats"), durskeyl.named_features("wasm1") & ~features.FLOATS | features.THREADS | features.VECTORS)
        self.assertEqual(durskeyl.parse_features("saturating-float-to-int"), durskeyl.named_features("default"))
        self.assertEqual(durskeyl.parse_features("engines"), durskeyl.ENGINES)
        self.assertEqual(durskeyl.ENGINES, durskeyl.named_features("wasm3") | features.VECTORS)
        self.assertEqual(durskeyl.parse_features("vectors,wasm1"), durskeyl.named_features("wasm1") | features.VECTORS)
        # the program takes none of these either
        for it in ("", "wasm2,,threads", "simdd", "no-wasm2", "SIMD", "relaxed_simd", "simd ", " simd", "simd,", "no-", "no-no-simd", "-", "--simd", "-wasm2"):
            self.assertRaises(ValueError, durskeyl.parse_features, it)
        self.assertRaisesRegex(ValueError, "did you mean 'relaxed-simd'", durskeyl.parse_features, "RELAXED_SIMD")
        durskeyl.validate(b"\0asm\1\0\0\0", features="wasm2,threads", limits={"string-bytes": 1})

    def test_vectors(self):
        # a function with `v128.const` and `drop`: refused until vectors are asked for, and the error says how
        data = HEADER + b"\1\4\1\x60\0\0\3\2\1\0\x0a\x17\1\x15\0\xfd\x0c" + bytes(16) + b"\x1a\x0b"
        for call in durskeyl.validate, lambda data: self.in_pieces(data, 7), lambda data: durskeyl.validate(data, features="all"):
            with self.assertRaises(InvalidModule) as caught:
                call(data)
            plain = "invalid at 0x17: unexpected SIMD opcode: 0xfd"
            self.assertEqual(caught.exception.line, plain)
            self.assertEqual(str(caught.exception), plain + ' (features="vectors" judges operators on vectors)')
        for asked in "vectors", "engines", durskeyl.ENGINES, Features.SIMD | Features.VECTORS:
            durskeyl.validate(data, features=asked)
            self.in_pieces(data, 7, features=asked)
        with self.assertRaises(InvalidModule) as caught:
            durskeyl.validate(data, features="engines,no-simd")
        self.assertEqual((caught.exception.kind, caught.exception.hint), (Kind.MISSING_FEATURE, None))

    def test_bad_settings_are_named(self):
        module = b"\0asm\1\0\0\0"
        for call in durskeyl.validate, lambda data, **how: durskeyl.Validator(**how), lambda data, **how: durskeyl.validate(data, threads=3, **how):
            with self.assertRaisesRegex(ValueError, "^bad settings: string_bytes = 4294967295 is above its ceiling$"):
                call(module, limits={"string_bytes": 2**32 - 1})
            with self.assertRaisesRegex(ValueError, "^bad settings: unknown features 0x10000000000$"):
                call(module, features=1 << 40 | 1)

    def test_version(self):
        self.assertIn(" (proved, " if durskeyl.is_proved() else " (NOT PROVED, ", durskeyl.version_text())
        self.assertEqual(".".join(map(str, durskeyl.version())), durskeyl.__version__)
        self.assertIsInstance(durskeyl.is_proved(), bool)
        self.assertEqual(durskeyl.named_features("all"), 2**28 - 1)

    def test_shown(self):
        self.assertEqual(durskeyl.shown("a\x1b[0m\u202e\x85é\\\udcff"), r"a\u{1b}[0m\u{202e}\u{85}é\\u{dcff}")

    def test_parts(self):
        for threads in 1, 2, 5:
            durskeyl.validate(MODULE, threads=threads)
            self.assertTrue(durskeyl.is_valid(with_locals(10), limits={"locals": 10}, threads=threads))
            with self.assertRaises(InvalidModule) as caught:
                durskeyl.validate(with_locals(11), limits={"locals": 10}, threads=threads)
            self.assertEqual((caught.exception.kind, caught.exception.limit), (Kind.INVALID, "locals"))
            with self.assertRaises(ValueError):
                durskeyl.validate(HEADER, limits={"locals": 1000001}, threads=threads)
        for wrong in 0, -1, 1025:
            with self.assertRaises(ValueError):
                durskeyl.validate(MODULE, threads=wrong)

    def in_pieces(self, data, piece, **settings):
        with durskeyl.Validator(**settings) as it:
            for at in range(0, len(data), piece):
                it.feed(data[at : at + piece])
            return it.finish()

    def test_pieces(self):
        for piece in 1, 3, 1000:
            self.assertIsNone(self.in_pieces(MODULE, piece))
            for end in range(len(MODULE)):
                if durskeyl.is_valid(MODULE[:end]):
                    self.in_pieces(MODULE[:end], piece)
                else:
                    with self.assertRaises(InvalidModule):
                        self.in_pieces(MODULE[:end], piece)
        self.in_pieces(bytearray(with_locals(10)), 5, limits={"locals": 10})
        with self.assertRaises(InvalidModule):
            self.in_pieces(with_locals(11), 5, limits={"locals": 10})
        for wrong in {"limits": {"locals": 1000001}}, {"features": 1 << 40}, {"features": "wasm9"}, {"most": -1}, {"most": 1 << 64}:
            with self.assertRaises(ValueError):
                durskeyl.Validator(**wrong)
        for wrong in {"features": 1.5}, {"most": 1.5}:
            with self.assertRaises(TypeError):
                durskeyl.Validator(**wrong)

    def test_refused_pieces(self):
        it = durskeyl.Validator()
        with self.assertRaises(InvalidModule) as caught:
            it.feed(b"\0asm\2\0\0\0")
        with self.assertRaises(InvalidModule) as again:
            it.feed(HEADER)
        with self.assertRaises(InvalidModule) as ended:
            it.finish()
        self.assertEqual(str(again.exception), str(caught.exception))
        self.assertEqual(str(ended.exception), str(caught.exception))
        it.close()
        it.close()

    def test_finished_pieces(self):
        it = durskeyl.Validator()
        it.feed(HEADER)
        it.finish()
        for call in it.finish, lambda: it.feed(b""):
            with self.assertRaises(ValueError):
                call()
        with durskeyl.Validator() as it:
            it.feed(HEADER[:3])
        with self.assertRaises(ValueError):
            it.finish()
        with self.assertRaises(TypeError):
            copy.copy(it)
        with self.assertRaises(TypeError):
            pickle.dumps(it)

    def test_held_bytes(self):
        # a body of 2,000 operators, cut in the middle, of which no more than 16 bytes may be held
        body = b"\0" + b"\1" * 2000 + b"\x0b"
        data = HEADER + b"\1\4\1\x60\0\0\3\2\1\0\x0a\xd5\x0f\1\xd2\x0f" + body
        self.in_pieces(data, 1000)
        with self.assertRaises(Exception) as caught:
            self.in_pieces(data, 1000, most=16)
        self.assertNotIsInstance(caught.exception, InvalidModule)

    def test_many_validators(self):
        # dropped in any state, on other threads than the one that began them
        def some():
            for number in range(100):
                it = durskeyl.Validator()
                it.feed(MODULE[: number % len(MODULE)])
                held.append(it)
                if len(held) > 50:
                    held.pop(0)

        held = []
        threads = [threading.Thread(target=some) for _ in range(4)]
        for it in threads:
            it.start()
        for it in threads:
            it.join()
        for it in held:
            it.feed(b"")
        held.clear()
        gc.collect()

    def test_one_validator_on_threads(self):
        it, errors = durskeyl.Validator(), []

        def feed():
            try:
                for _ in range(200):
                    it.feed(b"\0\2\1n")
            except Exception as error:
                errors.append(error)

        it.feed(HEADER)
        threads = [threading.Thread(target=feed) for _ in range(4)]
        for other in threads:
            other.start()
        for other in threads:
            other.join()
        self.assertEqual(errors, [])
        it.finish()

    def test_threads(self):
        wrong = []
        many = lambda: [wrong.append(i) for i in range(300) if not durskeyl.is_valid(MODULE) or durskeyl.is_valid(MODULE[:-1])]
        threads = [threading.Thread(target=many) for _ in range(4)]
        for it in threads:
            it.start()
        for it in threads:
            it.join()
        self.assertEqual(wrong, [])


if __name__ == "__main__":
    unittest.main()
