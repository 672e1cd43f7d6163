"""Turns the text form of the records that `scalars` reads into bytes, and bytes into text.
docs/RECORDS.md describes both forms."""

import math
import re
import signal
import sys
from collections import deque

USAGE = "usage: records.py encode|decode [FILE]"
HEADER = 3
LONGEST_BODY = 0xFFFF

WORD = re.compile(r"[^ \t\r]+")
# No field takes a number with more digits than these.
NUMBER = re.compile(r"(-?)(?:0x0*([0-9a-fA-F]{1,32})|0*([0-9]{1,39}))")
BRACKETS = re.compile(r"([^(]*)\((.*)\)")
BYTE = re.compile(r"[0-9a-fA-F]{2}")


class Wrong(Exception):
    """A line, or bytes, that no record has."""


class Words:
    """The words of a line still to be read; `column` is that of the last one asked for."""

    def __init__(self, line):
        self.matches = deque(WORD.finditer(line.partition("#")[0]))
        self.column = self.end = 1

    def more(self):
        return bool(self.matches)

    def take(self, what):
        if not self.matches:
            self.column = self.end
            raise Wrong(f"{what} is missing")
        match = self.matches.popleft()
        self.column, self.end = match.start() + 1, match.end() + 1
        return match.group()


class Body:
    """The bytes of a body still to be read."""

    def __init__(self, data):
        self.data, self.at = data, 0

    def more(self):
        return self.at < len(self.data)

    def take(self, size):
        part = self.data[self.at : self.at + size]
        if len(part) < size:
            raise Wrong("the body is too short")
        self.at += size
        return part


class Field:
    """One word and its `size` bytes: `pack` gives the bytes, or None if the word breaks `rule`; `show` gives the word."""

    def __init__(self, what, size, rule):
        self.what, self.size, self.rule = what, size, rule

    def encode(self, words):
        data = self.pack(words.take(self.what))
        if data is None:
            raise Wrong(f"{self.what} must be {self.rule}")
        return data

    def decode(self, body):
        return [self.show(body.take(self.size))]


class Number(Field):
    """A number from `least` to `most`, little-endian; a negative one is stored as its two's complement."""

    def __init__(self, what, size, least=0, most=None):
        self.least = least
        self.most = 256**size - 1 if most is None else most
        super().__init__(what, size, f"a number from {shown(self.least)} to {shown(self.most)}")

    def pack(self, text):
        value = number(text)
        if value is None or not self.least <= value <= self.most:
            return None
        return (value % 256**self.size).to_bytes(self.size, "little")

    def show(self, data):
        value = int.from_bytes(data, "little")
        negative = value - 256**self.size
        if negative >= self.least and (value > self.most or -negative < 1 << 64):
            return shown(negative)
        return shown(value)


class Name(Field):
    """The code of a name in one byte, the names counted from `first`. With `size` 2 a byte follows that holds the
    number in brackets of the names written with `(N)`, and 0 for the others."""

    def __init__(self, what, size, first, names):
        names = names.split()
        self.codes = {name: code for code, name in enumerate(names, first)}
        self.names = {code: name for name, code in self.codes.items()}
        limit = f", N {PARAMETER.rule}" if size == 2 else ""
        super().__init__(what, size, f"{', '.join(names[:-1])} or {names[-1]}{limit}")

    def pack(self, text):
        match = BRACKETS.fullmatch(text)
        name, parameter = (match[1] + "(N)", match[2]) if match else (text, "0")
        code, parameter = self.codes.get(name), PARAMETER.pack(parameter)
        if code is None or parameter is None:
            return None
        return (bytes([code]) + parameter)[: self.size]

    def show(self, data):
        if data[0] not in self.names:
            raise Wrong("the code names nothing")
        return self.names[data[0]].replace("(N)", f"({data[-1]})")


class Byte(Field):
    """A byte as it is."""

    def __init__(self):
        super().__init__("byte", 1, "two hex digits")

    def pack(self, text):
        return bytes.fromhex(text) if BYTE.fullmatch(text) else None

    def show(self, data):
        return data.hex()


class Flagged:
    """A flag byte: 1 and the fields, or 0 where the line has none of them."""

    def __init__(self, *fields):
        self.fields = fields

    def encode(self, words):
        if not words.more():
            return b"\0"
        return b"\1" + b"".join(field.encode(words) for field in self.fields)

    def decode(self, body):
        if body.take(1) == b"\0":
            return []
        return [text for field in self.fields for text in field.decode(body)]


class Many:
    """One field again and again, `least` to `most` times, up to the end."""

    def __init__(self, field, least=0, most=math.inf):
        self.field, self.least, self.most = field, least, most

    def encode(self, words):
        parts = []
        while len(parts) < self.least or (words.more() and len(parts) < self.most):
            parts.append(self.field.encode(words))
        return b"".join(parts)

    def decode(self, body):
        texts = []
        while body.more():
            texts += self.field.decode(body)
        return texts


class Kind:
    """A kind of line: its name, the fields after it, and the tag of its record (None: the fields alone, no header)."""

    def __init__(self, tag, name, *fields):
        self.tag, self.name, self.fields = tag, name, fields

    def encode(self, words):
        body = b"".join(field.encode(words) for field in self.fields)
        if words.more():
            words.take("nothing")
            raise Wrong(f"superfluous: {self.name} takes no more")
        if self.tag is None:
            return body
        return bytes([self.tag]) + len(body).to_bytes(2, "little") + body

    def decode(self, data):
        body = Body(data)
        texts = [text for field in self.fields for text in field.decode(body)]
        return " ".join([self.name, *texts])


def number(text):
    """The number that a text stands for, or None."""
    match = NUMBER.fullmatch(text)
    if not match:
        return None
    sign, hexadecimal, decimal = match.groups()
    value = int(hexadecimal, 16) if hexadecimal else int(decimal)
    return -value if sign else value


def shown(value):
    """A number as text: decimal, or hex from 2^64 on."""
    return str(value) if abs(value) < 1 << 64 else hex(value)


def signed(what):
    """A 128-bit number with a sign."""
    return Number(what, 16, least=-(1 << 127), most=(1 << 127) - 1)


def pattern(what):
    """128 bits, as a number without or with a sign."""
    return Number(what, 16, least=-(1 << 127))


PARAMETER = Number("parameter", 1)
TYPE = Name("type", 2, 0, "Bool Bits(N) Integer")
UNARY = Name("operator", 2, 10, "BoolNot BitNot Negate Truncate(N) SignExtend(N) LeadingZeros(N) TrailingZeros(N)")
BINARY = Name(
    "operator",
    1,
    20,
    "Add Sub Mul And Or Xor ShiftLeft ShiftRight ArithmeticShiftRight Equal NotEqual LessSigned LessUnsigned"
    " LessEqualSigned LessEqualUnsigned DivideSigned RemainderSigned DivideUnsigned RemainderUnsigned",
)
EXPECTED = Name("expected", 1, 0, "false true")

BYTES = Kind(None, "bytes", Many(Byte(), least=1))
KINDS = [
    Kind(1, "constant", TYPE, pattern("value")),
    Kind(2, "input", Number("number", 8), TYPE, Flagged(signed("minimum"), signed("maximum"))),
    Kind(3, "effect", Number("number", 8), TYPE),
    Kind(4, "unary", TYPE, UNARY, Number("id", 2)),
    Kind(5, "binary", TYPE, BINARY, Number("left", 2), Number("right", 2)),
    Kind(6, "slice", Number("id", 2), Number("offset", 2), Number("width", 1)),
    Kind(7, "concat", Number("high", 2), Number("low", 2), Number("low width", 1), Number("width", 1)),
    Kind(8, "unsigned_range", Number("id", 2), pattern("low"), pattern("high")),
    Kind(9, "assume_guard", Number("condition", 2), EXPECTED),
    Kind(10, "retain", Many(Number("element", 1), most=LONGEST_BODY)),
    BYTES,
]
BY_NAME = {kind.name: kind for kind in KINDS}
BY_TAG = {kind.tag: kind for kind in KINDS if kind.tag is not None}


def encode_words(words):
    kind = BY_NAME.get(words.take("record"))
    if kind is None:
        raise Wrong(f"record must be one of {', '.join(BY_NAME)}")
    return kind.encode(words)


def encode(text, name="-"):
    """The bytes of all lines. The first error is raised as Wrong, with its place in the file of that name."""
    parts = []
    for line_number, line in enumerate(text.split("\n"), 1):
        words = Words(line)
        try:
            if words.more():
                parts.append(encode_words(words))
        except Wrong as wrong:
            raise Wrong(f"{name}:{line_number}:{words.column}: {wrong}") from None
    return b"".join(parts)


def decode_record(record):
    """The line of a record: the one by its name if that encodes to these bytes and no others, else its bytes."""
    kind = BY_TAG.get(record[0])
    if kind:
        try:
            line = kind.decode(record[HEADER:])
            if encode(line) == record:
                return line
        except Wrong:
            pass
    return BYTES.decode(record)


def decode(data):
    """One line for each record, by the lengths in the headers; what is cut off at the end is a line too."""
    lines, at = [], 0
    while at < len(data):
        size = HEADER + int.from_bytes(data[at + 1 : at + HEADER], "little")
        lines.append(decode_record(data[at : at + size]) + "\n")
        at += size
    return "".join(lines)


def converted(command, name):
    """What the command makes of a file; the name - is standard input."""
    with open(0 if name == "-" else name, "rb") as source:
        data = source.read()
    if command == "decode":
        return decode(data).encode("ascii")
    return encode(data.decode("utf-8", "surrogateescape"), name)


def main(arguments):
    if not 1 <= len(arguments) <= 2 or arguments[0] not in ("encode", "decode"):
        print(USAGE, file=sys.stderr)
        return 2
    try:
        result = converted(arguments[0], arguments[1] if len(arguments) == 2 else "-")
        with open(1, "wb") as output:
            output.write(result)
    except Wrong as wrong:
        print(wrong, file=sys.stderr)
        return 1
    except OSError as error:
        print(f"{error.filename or 'records.py'}: {error.strerror}", file=sys.stderr)
        return 1
    return 0


if __name__ == "__main__":
    signal.signal(signal.SIGPIPE, signal.SIG_DFL)
    sys.exit(main(sys.argv[1:]))
