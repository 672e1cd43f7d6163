"""Tests of records.py: python3 tests/records/test.py
Bytes are written out by hand or with struct, never by records.py itself."""

import random
import struct
import subprocess
import sys
import unittest
from pathlib import Path

from records import Wrong, decode, encode

FOLDER = Path(__file__).resolve().parent
SEED = 20129
GOOD = bytes.fromhex("09 0300 0500 01")
GOOD_LINE = "assume_guard 5 true\n"

LISTING = """
    02 0b00 0000000000000000 01 08 00
    01 1200 01 08 05000000000000000000000000000000
    05 0700 01 08 14 0000 0100
    01 1200 01 08 07000000000000000000000000000000
    05 0700 00 00 1d 0200 0300
    09 0300 0500 01
    05 0700 01 08 14 0000 0100
    05 0700 00 00 1d 0700 0300
"""

UNARY = "BoolNot BitNot Negate Truncate SignExtend LeadingZeros TrailingZeros".split()
WITH_PARAMETER = UNARY[3:]
BINARY = """Add Sub Mul And Or Xor ShiftLeft ShiftRight ArithmeticShiftRight Equal NotEqual LessSigned LessUnsigned
    LessEqualSigned LessEqualUnsigned DivideSigned RemainderSigned DivideUnsigned RemainderUnsigned""".split()

# Lines as decode writes them, each with its bytes.
PAIRS = [
    ("constant Bool 1", "01 1200 00 00 01000000000000000000000000000000"),
    ("constant Integer -5", "01 1200 02 00 fbffffffffffffffffffffffffffffff"),
    ("constant Bits(128) 0x80000000000000000000000000000000", "01 1200 01 80 00000000000000000000000000000080"),
    ("constant Bits(64) 18446744073709551615", "01 1200 01 40 ffffffffffffffff0000000000000000"),
    ("constant Bits(65) 0x10000000000000000", "01 1200 01 41 00000000000000000100000000000000"),
    ("constant Integer -18446744073709551615", "01 1200 02 00 0100000000000000ffffffffffffffff"),
    ("constant Integer 0xffffffffffffffff0000000000000000", "01 1200 02 00 0000000000000000ffffffffffffffff"),
    ("input 0 Bits(8)", "02 0b00 0000000000000000 01 08 00"),
    (
        "input 258 Integer -5 16",
        "02 2b00 0201000000000000 02 00 01 fbffffffffffffffffffffffffffffff 10000000000000000000000000000000",
    ),
    (
        "input 1 Integer -0x80000000000000000000000000000000 0x7fffffffffffffffffffffffffffffff",
        "02 2b00 0100000000000000 02 00 01 00000000000000000000000000000080 ffffffffffffffffffffffffffffff7f",
    ),
    ("effect 3 Bool", "03 0a00 0300000000000000 00 00"),
    ("unary Bits(4) Truncate(4) 0", "04 0600 01 04 0d 04 0000"),
    ("unary Bool BoolNot 261", "04 0600 00 00 0a 00 0501"),
    ("binary Bits(8) Add 1 513", "05 0700 01 08 14 0100 0102"),
    ("slice 4 259 8", "06 0500 0400 0301 08"),
    ("concat 2 1 8 16", "07 0600 0200 0100 08 10"),
    (
        "unsigned_range 7 5 -1",
        "08 2200 0700 05000000000000000000000000000000 ffffffffffffffffffffffffffffffff",
    ),
    ("assume_guard 5 true", "09 0300 0500 01"),
    ("assume_guard 258 false", "09 0300 0201 00"),
    ("retain 1 1 0 1", "0a 0400 01 01 00 01"),
    ("retain 2 255", "0a 0200 02 ff"),
    ("retain", "0a 0000"),
    ("bytes 0b 00 00", "0b 00 00"),
]

# Lines that decode writes otherwise, each with the line that it writes.
OTHER_TEXTS = [
    ("effect 0x10 Bool", "effect 16 Bool"),
    ("effect 0xFf Bits(0x0a)", "effect 255 Bits(10)"),
    ("effect 0007 Bool", "effect 7 Bool"),
    ("effect 0x" + "0" * 60 + "7 Bool", "effect 7 Bool"),
    ("effect " + "0" * 6000 + "7 Bool", "effect 7 Bool"),
    ("constant Integer -0x10", "constant Integer -16"),
    ("constant Bits(8) 0xffffffffffffffffffffffffffffffff", "constant Bits(8) -1"),
    ("\t effect\t3   Bool  \r", "effect 3 Bool"),
    ("effect 3 Bool# comment", "effect 3 Bool"),
    ("effect 3 Bool # ä \u2028 # \x0c", "effect 3 Bool"),
    ("bytes 09 03 00 05 00 01", "assume_guard 5 true"),
    ("bytes 09 03\nbytes 00 05 00 01", "assume_guard 5 true"),
    ("bytes FF", "bytes ff"),
]

LOW, HALF, FULL = -(1 << 127), (1 << 127) - 1, (1 << 128) - 1

# A line with a gap, the bytes before the gap's number, its size, its least and its greatest number.
LIMITS = [
    ("constant Bits({}) 0", 4, 1, 0, 255),
    ("constant Bool {}", 5, 16, LOW, FULL),
    ("input {} Bool", 3, 8, 0, (1 << 64) - 1),
    ("input 0 Bits({})", 12, 1, 0, 255),
    ("input 0 Integer {} 0", 14, 16, LOW, HALF),
    ("input 0 Integer 0 {}", 30, 16, LOW, HALF),
    ("effect {} Bool", 3, 8, 0, (1 << 64) - 1),
    ("effect 0 Bits({})", 12, 1, 0, 255),
    ("unary Bits({}) BoolNot 0", 4, 1, 0, 255),
    *((f"unary Bool {name}({{}}) 0", 6, 1, 0, 255) for name in WITH_PARAMETER),
    ("unary Bool BoolNot {}", 7, 2, 0, 65535),
    ("binary Bits({}) Add 0 0", 4, 1, 0, 255),
    ("binary Bool Add {} 0", 6, 2, 0, 65535),
    ("binary Bool Add 0 {}", 8, 2, 0, 65535),
    ("slice {} 0 0", 3, 2, 0, 65535),
    ("slice 0 {} 0", 5, 2, 0, 65535),
    ("slice 0 0 {}", 7, 1, 0, 255),
    ("concat {} 0 0 0", 3, 2, 0, 65535),
    ("concat 0 {} 0 0", 5, 2, 0, 65535),
    ("concat 0 0 {} 0", 7, 1, 0, 255),
    ("concat 0 0 0 {}", 8, 1, 0, 255),
    ("unsigned_range {} 0 0", 3, 2, 0, 65535),
    ("unsigned_range 0 {} 0", 5, 16, LOW, FULL),
    ("unsigned_range 0 0 {}", 21, 16, LOW, FULL),
    ("assume_guard {} true", 3, 2, 0, 65535),
    ("retain {}", 3, 1, 0, 255),
    ("retain 0 1 {}", 5, 1, 0, 255),
]

RECORD = "record must be one of constant, input, effect, unary, binary, slice, concat, unsigned_range, assume_guard, "
TYPE = "type must be Bool, Bits(N) or Integer, N a number from 0 to 255"
NUMBER = "number must be a number from 0 to 18446744073709551615"
ID = "id must be a number from 0 to 65535"

# A text, the line and column of its error, and how the message begins.
ERRORS = [
    ("effects 3 Bool", "1:1", RECORD + "retain, bytes"),
    ("Effect 3 Bool", "1:1", RECORD),
    ("scalars_effect 3 Bool", "1:1", RECORD),
    ("3", "1:1", RECORD),
    ("\ufeffeffect 3 Bool", "1:1", RECORD),
    ("effect\f3 Bool", "1:1", RECORD),
    ("effect", "1:7", "number is missing"),
    ("effect 3", "1:9", "type is missing"),
    ("effect 3   # Bool", "1:9", "type is missing"),
    ("effect 3 Bool 4", "1:15", "superfluous: effect takes no more"),
    ("# a\n\n  effect 3 Bool 4", "3:17", "superfluous"),
    ("effect 3 Bool\r\neffect x Bool\r\neffect y Bool", "2:8", NUMBER),
    ("effect 3 Bool # ä\n\teffect -1 Bool", "2:9", NUMBER),
    ("effect 1_0 Bool", "1:8", NUMBER),
    ("effect +1 Bool", "1:8", NUMBER),
    ("effect --1 Bool", "1:8", NUMBER),
    ("effect 0x Bool", "1:8", NUMBER),
    ("effect 0X1 Bool", "1:8", NUMBER),
    ("effect 1f Bool", "1:8", NUMBER),
    ("effect \u0661 Bool", "1:8", NUMBER),
    ("effect " + "9" * 6000 + " Bool", "1:8", NUMBER),
    ("effect Bool 3", "1:8", NUMBER),
    ("effect 3 bool", "1:10", TYPE),
    ("effect 3 Bits", "1:10", TYPE),
    ("effect 3 Bits()", "1:10", TYPE),
    ("effect 3 Bits(N)", "1:10", TYPE),
    ("effect 3 Bits(8", "1:10", TYPE),
    ("effect 3 Bits(8))", "1:10", TYPE),
    ("effect 3 Bits (8)", "1:10", TYPE),
    ("effect 3 Bits(-1)", "1:10", TYPE),
    ("effect 3 Bool(0)", "1:10", TYPE),
    ("effect 3 Integer(0)", "1:10", TYPE),
    ("input 1 Integer 5", "1:18", "maximum is missing"),
    ("input 1 Integer 5 6 7", "1:21", "superfluous"),
    ("input 1 Integer a 6", "1:17", "minimum must be a number from -0x8" + "0" * 31 + " to 0x7" + "f" * 31),
    ("constant Bool", "1:14", "value is missing"),
    ("constant Bool true", "1:15", "value must be a number from -0x8" + "0" * 31 + " to 0x" + "f" * 32),
    ("unary Bool Add 0", "1:12", "operator must be BoolNot, BitNot, Negate, Truncate(N), SignExtend(N), "),
    ("unary Bool Truncate 0", "1:12", "operator"),
    ("unary Bool BoolNot(0) 0", "1:12", "operator"),
    ("unary Bool 10 0", "1:12", "operator"),
    ("unary Bool BoolNot", "1:19", "id is missing"),
    ("unary Bool BoolNot 65536", "1:20", ID),
    ("binary Bool BoolNot 0 1", "1:13", "operator must be Add, Sub, Mul, And, "),
    ("binary Bool Add(1) 0 1", "1:13", "operator"),
    ("binary Bool Add 0", "1:18", "right is missing"),
    ("slice 0 1", "1:10", "width is missing"),
    ("slice 0 1 256", "1:11", "width must be a number from 0 to 255"),
    ("concat 0 1 8", "1:13", "width is missing"),
    ("unsigned_range 0 5", "1:19", "high is missing"),
    ("assume_guard 5", "1:15", "expected is missing"),
    ("assume_guard 5 1", "1:16", "expected must be false or true"),
    ("retain 1 0 true", "1:12", "element must be a number from 0 to 255"),
    ("retain" + " 1" * 65536, f"1:{7 + 2 * 65535 + 1}", "superfluous: retain takes no more"),
    ("bytes", "1:6", "byte is missing"),
    ("bytes 0", "1:7", "byte must be two hex digits"),
    ("bytes 00 0x0", "1:10", "byte must be two hex digits"),
    ("bytes 00 000", "1:10", "byte must be two hex digits"),
    ("bytes 00 g0", "1:10", "byte must be two hex digits"),
]

# Records that no line but `bytes` gives; and those near them that have a name.
NO_RECORDS = [
    "00 0000",
    "0b 0000",
    "ff 0300 0500 01",
    "01 1200 03 00 01000000000000000000000000000000",
    "01 1200 00 01 01000000000000000000000000000000",
    "01 1200 02 80 01000000000000000000000000000000",
    "02 0b00 0000000000000000 01 08 01",
    "02 0b00 0000000000000000 01 08 02",
    "02 2b00 0000000000000000 01 08 00" + "00" * 32,
    "02 2b00 0000000000000000 01 08 02" + "00" * 32,
    "02 2b00 0000000000000000 01 08 ff" + "00" * 32,
    "03 0a00 0300000000000000 00 01",
    "03 0a00 0300000000000000 ff 00",
    "04 0600 00 00 09 00 0500",
    "04 0600 00 00 11 00 0500",
    "04 0600 00 00 14 00 0500",
    "04 0600 00 00 0a 01 0500",
    "04 0600 00 00 0b ff 0500",
    "04 0600 00 00 0c 80 0500",
    "05 0700 00 00 13 0500 0500",
    "05 0700 00 00 27 0500 0500",
    "05 0700 00 00 0a 0500 0500",
    "09 0300 0500 02",
    "09 0300 0500 ff",
]
NAMED = [
    ("04 0600 01 ff 0d ff ffff", "unary Bits(255) Truncate(255) 65535"),
    ("04 0600 01 81 0e 81 0500", "unary Bits(129) SignExtend(129) 5"),
    ("04 0600 02 00 0f 00 0500", "unary Integer LeadingZeros(0) 5"),
    ("06 0500 ffff ffff ff", "slice 65535 65535 255"),
    ("07 0600 ffff ffff ff ff", "concat 65535 65535 255 255"),
]


def hex_line(data):
    return " ".join(["bytes", *(f"{byte:02x}" for byte in data)]) + "\n"


def has_name(record):
    """Whether a record is none of what `scalars` calls bad: told from the bytes alone, apart from records.py."""
    if len(record) < 3 or len(record) != 3 + struct.unpack_from("<H", record, 1)[0]:
        return False
    tag, body = record[0], record[3:]
    type_at = {1: 0, 2: 8, 3: 8, 4: 0, 5: 0}.get(tag)
    sizes = {1: (18,), 2: (11, 43), 3: (10,), 4: (6,), 5: (7,), 6: (5,), 7: (6,), 8: (34,), 9: (3,)}
    if tag == 10:
        return True
    if tag not in sizes or len(body) not in sizes[tag]:
        return False
    if type_at is not None and not (body[type_at] == 1 or (body[type_at] in (0, 2) and body[type_at + 1] == 0)):
        return False
    return {
        2: lambda: body[10] == (len(body) == 43),
        4: lambda: 13 <= body[2] <= 16 or (10 <= body[2] <= 12 and body[3] == 0),
        5: lambda: 20 <= body[2] <= 38,
        9: lambda: body[2] < 2,
    }.get(tag, lambda: True)()


def split(data):
    """The records of a byte string, the last one cut off where the string ends."""
    at = 0
    while at < len(data):
        size = 3 + (struct.unpack_from("<H", data, at + 1)[0] if len(data) - at >= 3 else 0)
        yield data[at : at + size]
        at += size


def as_text(value):
    return str(value) if abs(value) < 1 << 64 else hex(value)


class Maker:
    """Random lines as decode writes them, with their bytes."""

    def __init__(self, seed):
        self.random = random.Random(seed)

    def natural(self, size):
        """A number of that many bytes, often about a limit."""
        whole = 1 << 8 * size
        if self.random.random() < 0.3:
            return self.random.choice((0, 1, whole // 2 - 1, whole // 2, whole - 2, whole - 1))
        return self.random.getrandbits(self.random.randint(1, 8 * size))

    def type(self):
        code = self.random.randrange(3)
        width = self.natural(1) if code == 1 else 0
        return ("Bool", f"Bits({width})", "Integer")[code], bytes([code, width])

    def numbers(self, *sizes):
        values = [self.natural(size) for size in sizes]
        data = b"".join(value.to_bytes(size, "little") for value, size in zip(values, sizes))
        return " ".join(map(str, values)), data

    def wide(self, is_pattern):
        value = self.natural(16)
        signed = value - (1 << 128) if value >> 127 else value
        as_signed = not is_pattern or abs(signed) < 1 << 64
        return as_text(signed if as_signed else value), value.to_bytes(16, "little")

    def range(self):
        if self.random.random() < 0.5:
            return [("", b"\0")]
        return [("", b"\1"), self.wide(False), self.wide(False)]

    def unary(self):
        code = self.random.randrange(7)
        name, width = UNARY[code], self.natural(1) if code >= 3 else 0
        return f"{name}({width})" if code >= 3 else name, bytes([10 + code, width])

    def binary(self):
        code = self.random.randrange(19)
        return BINARY[code], bytes([20 + code])

    def truth(self):
        code = self.random.randrange(2)
        return ("false", "true")[code], bytes([code])

    def record(self):
        tag = self.random.randint(1, 10)
        name, fields = {
            1: lambda: ("constant", [self.type(), self.wide(True)]),
            2: lambda: ("input", [self.numbers(8), self.type(), *self.range()]),
            3: lambda: ("effect", [self.numbers(8), self.type()]),
            4: lambda: ("unary", [self.type(), self.unary(), self.numbers(2)]),
            5: lambda: ("binary", [self.type(), self.binary(), self.numbers(2, 2)]),
            6: lambda: ("slice", [self.numbers(2, 2, 1)]),
            7: lambda: ("concat", [self.numbers(2, 2, 1, 1)]),
            8: lambda: ("unsigned_range", [self.numbers(2), self.wide(True), self.wide(True)]),
            9: lambda: ("assume_guard", [self.numbers(2), self.truth()]),
            10: lambda: ("retain", [self.numbers(*[1] * self.random.randrange(8))]),
        }[tag]()
        body = b"".join(data for _, data in fields)
        line = " ".join([name, *(text for text, _ in fields if text)]) + "\n"
        return line, struct.pack("<BH", tag, len(body)) + body

    def records(self, most):
        pairs = [self.record() for _ in range(self.random.randint(0, most))]
        return "".join(line for line, _ in pairs), b"".join(data for _, data in pairs)

    def damaged(self):
        """Records with one to three bytes changed, taken out or put in, or cut off."""
        data = bytearray(self.records(5)[1])
        for _ in range(self.random.randint(1, 3)):
            at = self.random.randrange(len(data) + 1)
            byte = self.random.choice((0, 1, 2, 3, 9, 10, 11, 16, 17, 19, 39, 128, 255, self.natural(1)))
            change, put_in, take_out, cut_off = (at + 1, [byte]), (at, [byte]), (at + 1, []), (len(data), [])
            end, instead = self.random.choice((change, change, change, put_in, take_out, cut_off))
            data[at:end] = bytes(instead)
        return bytes(data)


class Pairs(unittest.TestCase):
    def test_listing(self):
        text = (FOLDER / "listing.txt").read_text()
        self.assertEqual(encode(text).hex(), bytes.fromhex(LISTING).hex())
        lines = [line.partition("#")[0].split() for line in text.splitlines()]
        decoded = [line.split() for line in decode(bytes.fromhex(LISTING)).splitlines()]
        self.assertEqual(decoded, [line for line in lines if line])

    def test_each_kind(self):
        for line, data in PAIRS:
            with self.subTest(line):
                self.assertEqual(encode(line).hex(), bytes.fromhex(data).hex())
                self.assertEqual(decode(bytes.fromhex(data)), line + "\n")

    def test_pairs_have_every_kind(self):
        self.assertEqual({bytes.fromhex(data)[0] for _, data in PAIRS}, set(range(1, 12)))

    def test_operators(self):
        for code, name in enumerate(UNARY, 10):
            text, width = (f"{name}(7)", 7) if name in WITH_PARAMETER else (name, 0)
            line, data = f"unary Bool {text} 1", bytes([4, 6, 0, 0, 0, code, width, 1, 0])
            self.assertEqual((encode(line), decode(data)), (data, line + "\n"))
        for code, name in enumerate(BINARY, 20):
            line, data = f"binary Integer {name} 1 2", bytes([5, 7, 0, 2, 0, code, 1, 0, 2, 0])
            self.assertEqual((encode(line), decode(data)), (data, line + "\n"))

    def test_other_texts(self):
        for text, line in OTHER_TEXTS:
            with self.subTest(text[:40]):
                self.assertEqual(decode(encode(text)), line + "\n")
                self.assertEqual(encode(text), encode(line))

    def test_all_lines_in_order(self):
        text = "\n\n# a comment\n".join(line for line, _ in PAIRS)
        data = b"".join(bytes.fromhex(data) for _, data in PAIRS)
        self.assertEqual(encode(text), data)
        self.assertEqual(decode(data), "".join(line + "\n" for line, _ in PAIRS))

    def test_nothing(self):
        for text in ("", "\n", "# a comment", " \t\r\n\n#\n"):
            self.assertEqual(encode(text), b"")
        self.assertEqual(decode(b""), "")


class Limits(unittest.TestCase):
    def test_inside(self):
        for line, at, size, least, most in LIMITS:
            for value in (least, least + 1, most - 1, most):
                for text in (str(value), hex(value)):
                    with self.subTest(line, value=text):
                        data = encode(line.format(text))
                        expected = (value % (1 << 8 * size)).to_bytes(size, "little")
                        self.assertEqual(data[at : at + size], expected)
                        self.assertEqual(encode(decode(data)), data)
                        self.assertTrue(decode(data).startswith(line.split()[0]))

    def test_outside(self):
        for line, _, _, least, most in LIMITS:
            for value in (least - 1, most + 1, -(1 << 200), 1 << 200):
                for text in (str(value), hex(value)):
                    with self.subTest(line, value=text), self.assertRaises(Wrong) as raised:
                        encode(line.format(text))
                    gap = line.rindex(" ", 0, line.index("{")) + 2
                    self.assertIn(f"-:1:{gap}: ", str(raised.exception))

    def test_lengths_of_retain(self):
        for count in (0, 1, 255, 256, 65534, 65535):
            data = struct.pack("<BH", 10, count) + b"\1" * count
            line = "retain" + " 1" * count
            self.assertTrue(encode(line) == data and decode(data) == line + "\n", count)

    def test_long_bytes(self):
        self.assertTrue(encode("bytes" + " 00" * 70000) == bytes(70000))
        data = struct.pack("<BH", 9, 65535) + bytes(65535)
        self.assertTrue(decode(data + GOOD) == hex_line(data) + GOOD_LINE)


class Errors(unittest.TestCase):
    def test_errors(self):
        for text, place, message in ERRORS:
            with self.subTest(text[:60]), self.assertRaises(Wrong) as raised:
                encode(text, "some/file")
            error = str(raised.exception)
            self.assertTrue(error.startswith(f"some/file:{place}: {message}"), (text[:60], error))

    def test_one_line(self):
        for text, _, _ in ERRORS:
            with self.assertRaises(Wrong) as raised:
                encode(text)
            self.assertNotIn("\n", str(raised.exception))


class Bytes(unittest.TestCase):
    def expect_bytes(self, data):
        """The record is written as its bytes, and the record after it by its name."""
        self.assertEqual(decode(data + GOOD), hex_line(data) + GOOD_LINE)
        self.assertEqual(encode(decode(data + GOOD)), data + GOOD)
        self.assertFalse(has_name(data))

    def test_no_records(self):
        for text in NO_RECORDS:
            with self.subTest(text):
                self.expect_bytes(bytes.fromhex(text))

    def test_other_lengths(self):
        for text, data in PAIRS:
            record = bytes.fromhex(data)
            if record[0] > 9:
                continue
            for body in (b"", record[3:-1], record[3:] + b"\0"):
                with self.subTest(text, body=body.hex()):
                    self.expect_bytes(struct.pack("<BH", record[0], len(body)) + body)

    def test_named(self):
        for data, line in NAMED:
            self.assertEqual(decode(bytes.fromhex(data)), line + "\n")

    def test_cut_off(self):
        for text, data in PAIRS:
            record = bytes.fromhex(data)
            for size in range(1, len(record)):
                with self.subTest(text, size=size):
                    self.assertEqual(decode(GOOD + record[:size]), GOOD_LINE + hex_line(record[:size]))
                    self.assertEqual(encode(decode(record[:size])), record[:size])


class Random(unittest.TestCase):
    def check(self, data):
        """The bytes come back, and exactly the records that scalars does not call bad have a name."""
        text = decode(data)
        self.assertEqual(encode(text).hex(), data.hex())
        records, lines = list(split(data)), text.splitlines()
        self.assertEqual(len(lines), len(records), data.hex())
        for record, line in zip(records, lines):
            self.assertEqual(not line.startswith("bytes "), has_name(record), (record.hex(), line))
        return sum(map(has_name, records)), len(records)

    def test_bytes(self):
        maker = Maker(SEED)
        for _ in range(2000):
            self.check(bytes(maker.natural(1) for _ in range(maker.random.randrange(40))))

    def test_headers(self):
        """Random bodies of about the right length under every tag."""
        maker = Maker(SEED + 1)
        for _ in range(4000):
            size = maker.random.choice((0, 1, 3, 5, 6, 7, 10, 11, 18, 34, 43))
            body = bytes(maker.random.choice((0, 1, 2, 10, 13, 20, maker.natural(1))) for _ in range(size))
            self.check(struct.pack("<BH", maker.random.randint(0, 11), size) + body)

    def test_damaged(self):
        maker = Maker(SEED + 2)
        named, total = map(sum, zip(*(self.check(maker.damaged()) for _ in range(4000))))
        self.assertTrue(total / 4 < named < total, (named, total))

    def test_valid(self):
        maker = Maker(SEED + 3)
        for _ in range(1500):
            text, data = maker.records(6)
            self.assertEqual(encode(text).hex(), data.hex())
            self.assertEqual(decode(data), text)


class Program(unittest.TestCase):
    def run_with(self, *arguments, data=b""):
        command = [sys.executable, str(FOLDER / "records.py"), *arguments]
        done = subprocess.run(command, input=data, capture_output=True, timeout=60)
        return done.returncode, done.stdout, done.stderr.decode()

    def test_file_and_standard_input(self):
        listing = FOLDER / "listing.txt"
        expected = (0, bytes.fromhex(LISTING), "")
        self.assertEqual(self.run_with("encode", str(listing)), expected)
        self.assertEqual(self.run_with("encode", data=listing.read_bytes()), expected)
        self.assertEqual(self.run_with("encode", "-", data=listing.read_bytes()), expected)
        self.assertEqual(self.run_with("decode", data=GOOD), (0, GOOD_LINE.encode(), ""))

    def test_text_that_is_not_utf8(self):
        self.assertEqual(self.run_with("encode", data=b"assume_guard 5 true # \xff\n"), (0, GOOD, ""))
        status, output, error = self.run_with("encode", data=b"assume_guard 5 true\n\xff\n")
        self.assertEqual((status, output, error[:7]), (1, b"", "-:2:1: "))

    def test_error(self):
        status, output, error = self.run_with("encode", data=b"effect 3 Bool\neffect 3\neffect\n")
        self.assertEqual((status, output, error), (1, b"", "-:2:9: type is missing\n"))
        status, output, error = self.run_with("encode", __file__)
        self.assertEqual((status, output, error.startswith(f"{__file__}:1:1: record must")), (1, b"", True))

    def test_no_file(self):
        missing = str(FOLDER / "missing.txt")
        self.assertEqual(self.run_with("decode", missing), (1, b"", f"{missing}: No such file or directory\n"))

    def test_usage(self):
        for arguments in ((), ("show",), ("encode", "a", "b"), ("--help",), ("",)):
            expected = (2, b"", "usage: records.py encode|decode [FILE]\n")
            self.assertEqual(self.run_with(*arguments), expected)


if __name__ == "__main__":
    unittest.main()
