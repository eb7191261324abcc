"""A model of MySQL's binary JSON: which bytes are a document, its text, and the bytes that a server writes for a value.

A value is None, a bool, `Integer`, `Double`, `Opaque`, bytes for a string, a list for an array, or `Members` for an object. The
binary form is that of MySQL's documentation of its source code, `json_binary.h`, `decimal.h` and `my_time.h`; the text is that
of `JSON_PRETTY` and `CAST(.. AS CHAR)`, without spaces.
"""

import base64
import json
import math
import struct
from typing import NamedTuple

MOST_NESTED = 100
OBJECTS, ARRAYS, CONTAINERS = (0, 1), (2, 3), (0, 1, 2, 3)
LITERAL, DOUBLE, STRING, OPAQUE = 4, 11, 12, 15
LITERALS = (None, True, False)
INTEGERS = {5: ("<h", 16), 6: ("<H", 16), 7: ("<i", 32), 8: ("<I", 32), 9: ("<q", 64), 10: ("<Q", 64)}
SIGNED, UNSIGNED = (5, 7, 9), (6, 8, 10)
FIXED = {4: 1, 5: 2, 6: 2, 7: 4, 8: 4, 9: 8, 10: 8, 11: 8}
INLINED = {2: (4, 5, 6), 4: (4, 5, 6, 7, 8)}
DECIMAL, TIMESTAMP, DATE, TIME, DATETIME = 246, 7, 10, 11, 12
TEMPORAL = (TIMESTAMP, DATE, TIME, DATETIME)
GROUP_BYTES = (0, 1, 1, 2, 2, 3, 3, 4, 4, 4)


class Refused(Exception):
    """Bytes that are no document: why, and where."""

    def __init__(self, name, place):
        super().__init__(name, place)
        self.name, self.place = name, place


class NoText(Exception):
    """A value that has no text."""


class Integer(NamedTuple):
    kind: int
    number: int


class Double(NamedTuple):
    bits: int


class Opaque(NamedTuple):
    column: int
    content: bytes


class Members(NamedTuple):
    pairs: tuple


# ---- Reading


class Reader:
    """Reads a document, and counts the bytes that it reads."""

    def __init__(self, content):
        self.content = content
        self.work = 0

    def spend(self, count, place):
        self.work += count
        if self.work > len(self.content) - 1:
            raise Refused("Work", place)

    def number(self, place, size):
        return int.from_bytes(self.content[place : place + size], "little")

    def value(self, kind, place, end, depth):
        """The value whose bytes begin at a place; none at or beyond the end is its own."""
        if kind in CONTAINERS:
            return self.container(kind, place, end, depth)
        if kind in FIXED:
            return self.fixed(kind, place, end)
        if kind == STRING:
            return self.counted(place, end)
        if kind == OPAQUE:
            return self.opaque(place, end)
        raise Refused("UnknownType", place)

    def fixed(self, kind, place, end):
        size = FIXED[kind]
        if end - place < size:
            raise Refused("Short", place)
        self.spend(size, place)
        if kind == LITERAL and self.content[place] > 2:
            raise Refused("Literal", place)
        return scalar(kind, self.content[place : place + size])

    def counted(self, place, end):
        length = used = 0
        while True:
            if used == 5 or place + used >= end:
                raise Refused("Length", place)
            byte = self.content[place + used]
            length += (byte & 0x7F) << 7 * used
            used += 1
            if byte < 0x80:
                break
        if length >= 1 << 32:
            raise Refused("Length", place)
        if end - place < used + length:
            raise Refused("Short", place)
        self.spend(used + length, place)
        return self.content[place + used : place + used + length]

    def opaque(self, place, end):
        if place == end:
            raise Refused("Short", place)
        self.spend(1, place)
        column = self.content[place]
        content = self.counted(place + 1, end)
        if not is_opaque(column, content):
            raise Refused("Opaque", place)
        return Opaque(column, content)

    def container(self, kind, start, end, depth):
        if depth == MOST_NESTED:
            raise Refused("Depth", start)
        width = 4 if kind % 2 else 2
        if end - start < 2 * width:
            raise Refused("Short", start)
        count, size = self.number(start, width), self.number(start + width, width)
        if size > end - start:
            raise Refused("Size", start)
        key_size = width + 2 if kind in OBJECTS else 0
        header = 2 * width + count * (key_size + width + 1)
        if header > size:
            raise Refused("Entries", start)
        self.spend(header, start)
        keys, values = [], []
        for index in range(count):
            if kind in OBJECTS:
                keys.append(self.key(start, start + 2 * width + index * key_size, width, header, size))
            entry = start + 2 * width + count * key_size + index * (width + 1)
            values.append(self.entry(start, entry, width, header, size, depth))
        return Members(tuple(zip(keys, values))) if kind in OBJECTS else values

    def key(self, start, entry, width, header, size):
        offset, length = self.number(entry, width), self.number(entry + width, 2)
        if offset < header or offset + length > size:
            raise Refused("Key", entry)
        self.spend(length, entry)
        return self.content[start + offset : start + offset + length]

    def entry(self, start, entry, width, header, size, depth):
        kind = self.content[entry]
        if kind in INLINED[width]:
            inlined = self.content[entry + 1 : entry + 1 + width]
            if kind == LITERAL and inlined[0] > 2:
                raise Refused("Literal", entry)
            return scalar(kind, inlined)
        offset = self.number(entry + 1, width)
        if offset < header or offset >= size:
            raise Refused("Offset", entry)
        return self.value(kind, start + offset, start + size, depth + 1)


def scalar(kind, content):
    if kind == LITERAL:
        return LITERALS[content[0]]
    if kind == DOUBLE:
        return Double(int.from_bytes(content[:8], "little"))
    return Integer(kind, struct.unpack_from(INTEGERS[kind][0], content)[0])


def is_opaque(column, content):
    if column == DECIMAL:
        return decimal_digits(content) is not None
    return len(content) == 8 if column in TEMPORAL else True


def decimal_digits(content):
    """The sign, the digits and the scale of a decimal number; None if it is none."""
    if len(content) < 2:
        return None
    precision, scale, packed = content[0], content[1], bytearray(content[2:])
    if not 1 <= precision <= 81 or scale > precision or scale > 38:
        return None
    whole = precision - scale
    groups = [whole % 9, *[9] * (whole // 9), *[9] * (scale // 9), scale % 9]
    if len(packed) != sum(GROUP_BYTES[group] for group in groups):
        return None
    is_negative = packed[0] < 0x80
    if is_negative:
        packed = bytearray(byte ^ 0xFF for byte in packed)
    packed[0] ^= 0x80
    digits, place = "", 0
    for group in groups:
        number = int.from_bytes(packed[place : place + GROUP_BYTES[group]], "big")
        place += GROUP_BYTES[group]
        if number >= 10**group:
            return None
        digits += f"{number:0{group}}" if group else ""
    return is_negative, digits, scale


def read(content):
    """The value of a document. Raises `Refused`."""
    if not content:
        return None
    return Reader(content).value(content[0], 1, len(content), 0)


# ---- Lists of diffs

OPERATIONS = ("replace", "insert", "remove")


def diffs(content):
    """The diffs of a list: what is done, the path, and a list of the value, empty where one is removed. Raises `Refused`."""
    found, place = [], 0
    while place < len(content):
        if content[place] >= len(OPERATIONS):
            raise Refused("Operation", place)
        operation = OPERATIONS[content[place]]
        path, place = behind_length(content, place + 1)
        values = []
        if operation != "remove":
            whole, place = behind_length(content, place)
            values = [read(whole)]
        found.append((operation, path, values))
    return found


def behind_length(content, place):
    """The bytes behind their length, and the place behind them."""
    mark = content[place : place + 1]
    if not mark:
        raise Refused("Truncated", place)
    if mark in (b"\xfb", b"\xff"):
        raise Refused("Length", place)
    width = {b"\xfc": 2, b"\xfd": 3, b"\xfe": 8}.get(mark, 0)
    start = place + 1 + width
    length = int.from_bytes(content[place + 1 : start], "little") if width else mark[0]
    if start + length > len(content):
        raise Refused("Truncated", place)
    return content[start : start + length], start + length


def diffs_text(found):
    """The text of diffs. Raises `NoText`."""
    return "[" + ",".join(diff_text(*diff) for diff in found) + "]"


def diff_text(operation, path, values):
    members = [f'"op":"{operation}"', f'"path":{string_text(path)}', *(f'"value":{text(value)}' for value in values)]
    return "{" + ",".join(members) + "}"


# ---- Text


def text(value):
    """The text of a value. Raises `NoText`."""
    if value is None or isinstance(value, bool):
        return json.dumps(value)
    if isinstance(value, Integer):
        return str(value.number)
    if isinstance(value, Double):
        return double_text(value.bits)
    if isinstance(value, bytes):
        return string_text(value)
    if isinstance(value, Opaque):
        return opaque_text(value.column, value.content)
    if isinstance(value, Members):
        return "{" + ",".join(f"{string_text(key)}:{text(member)}" for key, member in value.pairs) + "}"
    return "[" + ",".join(map(text, value)) + "]"


def string_text(content):
    try:
        characters = content.decode()
    except UnicodeDecodeError:
        raise NoText from None
    shorts = {'"': '\\"', "\\": "\\\\", "\b": "\\b", "\f": "\\f", "\n": "\\n", "\r": "\\r", "\t": "\\t"}
    return '"' + "".join(shorts.get(c) or (f"\\u{ord(c):04x}" if c < " " else c) for c in characters) + '"'


def double_text(bits):
    number = struct.unpack("<d", bits.to_bytes(8, "little"))[0]
    if not math.isfinite(number):
        raise NoText
    sign = "-" if bits >> 63 else ""
    mantissa, _, exponent = repr(abs(number)).partition("e")
    whole, _, fraction = mantissa.partition(".")
    # 0.d1..dn * 10^power, without zeros at either end.
    digits = (whole + fraction).lstrip("0")
    power = len(digits) - len(fraction) + int(exponent or 0)
    digits = digits.rstrip("0")
    if not digits:
        digits, power = "0", 1
    count = len(digits)
    if power < -14 or power > 15 and count <= power:
        rest = "." + digits[1:] if count > 1 else ""
        return f"{sign}{digits[0]}{rest}e{power - 1}"
    if power <= 0:
        return f"{sign}0.{'0' * -power}{digits}"
    if count <= power:
        return f"{sign}{digits}{'0' * (power - count)}.0"
    return f"{sign}{digits[:power]}.{digits[power:]}"


def opaque_text(column, content):
    if column == DECIMAL:
        is_negative, digits, scale = decimal_digits(content)
        whole = digits[: len(digits) - scale].lstrip("0") or "0"
        return ("-" if is_negative else "") + whole + ("." + digits[len(digits) - scale :] if scale else "")
    if column in TEMPORAL:
        return f'"{moment(column, int.from_bytes(content, "little", signed=True))}"'
    encoded = base64.b64encode(content).decode()
    lines = [encoded[first : first + 76] for first in range(0, len(encoded), 76)]
    return f'"base64:type{column}:' + "\\n".join(lines) + '"'


def moment(column, packed):
    sign, packed = "-" if packed < 0 else "", abs(packed)
    micro, whole = packed % (1 << 24), packed >> 24
    clock = f":{whole >> 6 & 63:02}:{whole & 63:02}.{micro:06}"
    if column == TIME:
        return f"{sign}{whole >> 12 & 1023:02}{clock}"
    year, month = divmod(whole >> 22, 13)
    date = f"{sign}{year:04}-{month:02}-{whole >> 17 & 31:02}"
    return date if column == DATE else f"{date} {whole >> 12 & 31:02}{clock}"


# ---- What a server writes


def document(value):
    """The bytes of a document."""
    kind, content = encoded(value)
    return bytes([kind]) + content


def diff_list(found):
    """The bytes of a list of diffs, whose lengths are below 2^16."""
    content = b""
    for operation, path, values in found:
        content += bytes([OPERATIONS.index(operation)])
        for part in (path, *map(document, values)):
            content += (bytes([len(part)]) if len(part) < 0xFB else b"\xfc" + len(part).to_bytes(2, "little")) + part
    return content


def variable(number):
    """A length: seven bits a byte, the least first."""
    content = bytearray()
    while number >= 0x80:
        content.append(number & 0x7F | 0x80)
        number >>= 7
    return bytes([*content, number])


def encoded(value):
    """The type of a value, and its bytes."""
    if value is None or isinstance(value, bool):
        return LITERAL, bytes([LITERALS.index(value)])
    if isinstance(value, Integer):
        return value.kind, struct.pack(INTEGERS[value.kind][0], value.number)
    if isinstance(value, Double):
        return DOUBLE, value.bits.to_bytes(8, "little")
    if isinstance(value, bytes):
        return STRING, variable(len(value)) + value
    if isinstance(value, Opaque):
        return OPAQUE, bytes([value.column]) + variable(len(value.content)) + value.content
    # Small if the small form, with all in it small, has a size of two bytes.
    small = container_bytes(value, 2)
    kind = 0 if isinstance(value, Members) else 2
    return (kind, small) if small is not None else (kind + 1, container_bytes(value, 4))


def container_bytes(value, width):
    """The bytes of an object or an array; None for a small one that is too long."""
    is_object = isinstance(value, Members)
    keys = [key for key, _ in value.pairs] if is_object else []
    values = [member for _, member in value.pairs] if is_object else value
    key_size = width + 2 if is_object else 0
    header = 2 * width + len(values) * (key_size + width + 1)
    if width == 2 and header > 0xFFFF:
        return None
    key_entries, value_entries, body = b"", b"", bytearray()
    for key in keys:
        key_entries += (header + len(body)).to_bytes(width, "little") + len(key).to_bytes(2, "little")
        body += key
        if width == 2 and header + len(body) > 0xFFFF:
            return None
    for member in values:
        kind, content = encoded(member)
        if kind in INLINED[width]:
            filling = b"\xff" if isinstance(member, Integer) and member.number < 0 else b"\0"
            value_entries += bytes([kind]) + content + filling * (width - len(content))
            continue
        if width == 2 and (kind in (1, 3) or header + len(body) + len(content) > 0xFFFF):
            return None
        value_entries += bytes([kind]) + (header + len(body)).to_bytes(width, "little")
        body += content
    size = header + len(body)
    return len(values).to_bytes(width, "little") + size.to_bytes(width, "little") + key_entries + value_entries + bytes(body)


def signed(number):
    """A signed integer in the least type that holds it."""
    return Integer(next(kind for kind in SIGNED if -(1 << INTEGERS[kind][1] - 1) <= number < 1 << INTEGERS[kind][1] - 1), number)


def unsigned(number):
    return Integer(next(kind for kind in UNSIGNED if number < 1 << INTEGERS[kind][1]), number)


def members(pairs):
    """An object: its keys rise by their length, and then by their bytes, and each comes once."""
    return Members(tuple(sorted(dict(pairs).items(), key=lambda pair: (len(pair[0]), pair[0]))))


def decimal(is_negative, digits, scale):
    """An opaque decimal number of these digits, the last of which, as many as the scale, are behind the point."""
    whole = len(digits) - scale
    sizes = [whole % 9, *[9] * (whole // 9), *[9] * (scale // 9), scale % 9]
    packed, place = b"", 0
    for size in sizes:
        packed += int(digits[place : place + size] or "0").to_bytes(GROUP_BYTES[size], "big")
        place += size
    packed = bytes([packed[0] ^ 0x80]) + packed[1:]
    if is_negative:
        packed = bytes(byte ^ 0xFF for byte in packed)
    return Opaque(DECIMAL, bytes([len(digits), scale]) + packed)


def packed_time(column, number):
    return Opaque(column, number.to_bytes(8, "little", signed=True))
