"""An encoder of rows: for each type of column contents of values, extremes among them, and their JSON.

Written from `docs/ROW_VALUES.md`; nothing here reads bytes. A floating-point number is a `Float` of `row_model`, and the value of
a document a `Json`.
"""

import struct
from collections import namedtuple

import binary_json_model as model
from encoded_events import length_encoded, number
from row_model import Float, Json

# The type of a column, its metadata, and pairs of a content and its JSON; those of an UNSIGNED column, if they differ.
Kind = namedtuple("Kind", "type metadata values unsigned", defaults=[None])


def counted(content, width):
    return number(len(content), width) + content


def integers():
    for kind, width in ((1, 1), (2, 2), (9, 3), (3, 4), (8, 8)):
        bound = 1 << 8 * width
        numbers = (0, 1, bound // 2 - 1, bound // 2, bound - 1)
        signed = [(number(value, width), value - bound if value >= bound // 2 else value) for value in numbers]
        yield Kind(kind, b"", signed, [(number(value, width), value) for value in numbers])


def floats():
    for kind, form in ((4, "<f"), (5, "<d")):
        width = struct.calcsize(form)
        numbers = (0.0, -0.0, 1.5, -2.25, 0.1, 1e20, 3e-30)
        finite = [struct.pack(form, value) for value in numbers]
        least, greatest = {4: (1, 0x7F7F_FFFF), 5: (1, 0x7FEF_FFFF_FFFF_FFFF)}[kind]
        finite += [number(bits, width) for bits in (least, greatest)]
        infinity = {4: 0x7F80_0000, 5: 0x7FF0_0000_0000_0000}[kind]
        others = [number(bits, width) for bits in (infinity, infinity + 1, infinity | 1 << 8 * width - 1, (1 << 8 * width) - 1)]
        yield Kind(kind, number(width, 1), [(bits, Float(form, bits)) for bits in finite] + [(bits, None) for bits in others])


def decimal(precision, scale, is_negative, digits):
    """The content of a number with these digits, as many as the precision."""
    whole, part = digits[: precision - scale], digits[precision - scale :]
    first = len(whole) % 9
    groups = [whole[:first]] + [whole[place : place + 9] for place in range(first, len(whole), 9)]
    groups += [part[place : place + 9] for place in range(0, len(part), 9)]
    sizes = (0, 1, 1, 2, 2, 3, 3, 4, 4, 4)
    content = b"".join(int(group).to_bytes(sizes[len(group)], "big") for group in groups if group)
    content = bytes([content[0] | 0x80]) + content[1:]
    return bytes(byte ^ 0xFF for byte in content) if is_negative else content


def decimals():
    for precision, scale in ((1, 0), (1, 1), (9, 0), (10, 0), (14, 4), (18, 9), (19, 10), (38, 38), (65, 0), (65, 30)):
        values = []
        for digits in ("0" * precision, "9" * precision, ("0" * precision + "1")[-precision:], ("1234567890" * 7)[:precision]):
            for is_negative in (False, True):
                whole, part = digits[: precision - scale], digits[precision - scale :]
                text = ("-" if is_negative else "") + (whole.lstrip("0") or "0") + ("." + part if part else "")
                values.append((decimal(precision, scale, is_negative, digits), text))
        yield Kind(246, bytes([precision, scale]), values)


def dates():
    bits = lambda year, month, day: number(year * 512 + month * 32 + day, 3)
    days = [(0, 0, 0), (2026, 11, 25), (9999, 12, 31), (32767, 15, 31), (2000, 0, 0)]
    values = [(bits(*day), f"{day[0]:04}-{day[1]:02}-{day[2]:02}") for day in days]
    yield Kind(10, b"", values)
    yield Kind(14, b"", values)
    yield Kind(13, b"", [(b"\0", 0), (b"\1", 1901), (b"\xff", 2155), (b"\x7e", 2026)])


def older_times():
    zero = (bytes(4), "0000-00-00 00:00:00")
    seconds = [(number(1, 4), "1970-01-01 00:00:01"), (number((1 << 32) - 1, 4), "2106-02-07 06:28:15")]
    yield Kind(7, b"", [zero, *seconds, (number(1764052200, 4), "2025-11-25 06:30:00")])
    clocks = [(0, "00:00:00"), (8385959, "838:59:59"), (-8385959, "-838:59:59"), (-1, "-00:00:01"), (-8388608, "-838:86:08")]
    yield Kind(11, b"", [(value.to_bytes(3, "little", signed=True), text) for value, text in clocks])
    moments = [(0, "0000-00-00 00:00:00"), (20261125063000, "2026-11-25 06:30:00"), ((1 << 64) - 1, "1844674407-37-09 55:16:15")]
    yield Kind(12, b"", [(number(value, 8), text) for value, text in moments])


def stored_fraction(digits, micros):
    """The bytes of a fraction that has these microseconds."""
    width = (digits + 1) // 2
    return (micros * 100**width // 1_000_000).to_bytes(width, "big")


def fraction_text(digits, micros):
    return f".{micros:06}"[: digits + 1] if digits else ""


def fractions(digits):
    """Microseconds whose digits behind the column's are 0."""
    step = 10 ** (6 - digits)
    return sorted({micros // step * step for micros in (0, 123456, 250, 999_999, 990_000)})


def newer_times():
    for digits in range(7):
        micros = fractions(digits)
        zero = [(bytes(4) + stored_fraction(digits, 0), "0000-00-00 00:00:00" + fraction_text(digits, 0))]
        stamp = lambda part: ((1764052200).to_bytes(4, "big") + stored_fraction(digits, part), "2025-11-25 06:30:00" + fraction_text(digits, part))
        yield Kind(17, bytes([digits]), zero + [stamp(part) for part in micros])
        yield Kind(18, bytes([digits]), [datetime2(digits, fields, part) for fields in MOMENTS for part in micros])
        yield Kind(19, bytes([digits]), [time2(digits, is_negative, fields, part) for is_negative in (False, True) for fields in CLOCKS for part in micros if any(fields) or part or not is_negative])


MOMENTS = [(0, 0, 0, 0, 0, 0), (2026, 11, 25, 6, 30, 0), (9999, 12, 31, 23, 59, 59), (10082, 0, 31, 31, 63, 63)]
CLOCKS = [(0, 0, 0), (838, 59, 59), (1023, 63, 63), (0, 0, 1), (12, 0, 0)]


def datetime2(digits, fields, micros):
    year, month, day, hour, minute, second = fields
    bits = (1 << 39) + ((year * 13 + month) << 22) + (day << 17) + (hour << 12) + (minute << 6) + second
    text = f"{year:04}-{month:02}-{day:02} {hour:02}:{minute:02}:{second:02}" + fraction_text(digits, micros)
    return bits.to_bytes(5, "big") + stored_fraction(digits, micros), text


def time2(digits, is_negative, fields, micros):
    hour, minute, second = fields
    width = (digits + 1) // 2
    distance = ((hour << 12) + (minute << 6) + second) * 256**width + micros * 100**width // 1_000_000
    middle = (1 << 23) * 256**width
    stored = middle - distance if is_negative else middle + distance
    text = ("-" if is_negative else "") + f"{hour:02}:{minute:02}:{second:02}" + fraction_text(digits, micros)
    return stored.to_bytes(3 + width, "big"), text


def bits_and_members():
    for count in range(1, 65):
        values = [(value.to_bytes((count + 7) // 8, "big"), value) for value in (0, 1, (1 << count) - 1)]
        yield Kind(16, bytes([count % 8, count // 8]), values)
    for width in (1, 2):
        yield Kind(254, bytes([247, width]), [(number(value, width), value) for value in (0, 1, 256**width - 1)])
    for width in range(1, 9):
        yield Kind(254, bytes([248, width]), [(number(value, width), value) for value in (0, 1, 256**width - 1)])
    yield Kind(247, bytes([247, 1]), [(b"\2", 2)])
    yield Kind(248, bytes([248, 8]), [(8 * b"\xff", (1 << 64) - 1)])


TEXTS = [(b"", ""), (b"abc", "abc"), ("h\u00e4\"\n\u2603".encode(), "h\u00e4\"\n\u2603"), (b"\xff\0", [("hex", "ff00")])]


def strings():
    for metadata, greatest in ((b"\xfe\x0a", 10), (b"\xce\xfc", 1020), (b"\xee\x00", 256)):
        width = 1 if greatest <= 255 else 2
        longest = (b"x" * greatest, "x" * greatest)
        yield Kind(254, metadata, [(counted(content, width), text) for content, text in [*TEXTS, longest]])
    for kind in (15, 253):
        for greatest in (10, 255, 256, 65535):
            width = 1 if greatest <= 255 else 2
            longest = (b"x" * greatest, "x" * greatest)
            yield Kind(kind, number(greatest, 2), [(counted(content, width), text) for content, text in [*TEXTS, longest]])
    for kind in (252, 249, 250, 251):
        for width in range(1, 5):
            yield Kind(kind, bytes([width]), [(counted(content, width), text) for content, text in TEXTS])
    for kind, value_of in ((255, bytes.hex), (140, lambda content: [("stored", content.hex())])):
        yield Kind(kind, b"\4", [(counted(content, 4), value_of(content)) for content, _ in TEXTS])
    yield Kind(242, b"\4", [(counted(content, 4), content.hex()) for content in (b"", b"abcd", bytes(range(8)))])
    yield Kind(141, b"\x0a\0", [(counted(content, 1), [("stored", content.hex())]) for content, _ in TEXTS])
    yield Kind(6, b"", [(b"", None)])


def packed(year, month, day, hour=0, minute=0, second=0, micros=0):
    """The number into which the parts of a date and a time are packed in a document."""
    return ((((year * 13 + month) << 5 | day) << 17) + (hour << 12 | minute << 6 | second)) << 24 | micros


# Values of documents, and their texts.
DOCUMENTS = [
    (None, "null"),
    (True, "true"),
    (False, "false"),
    (model.signed(-32768), "-32768"),
    (model.unsigned((1 << 64) - 1), "18446744073709551615"),
    (model.signed(-(1 << 63)), "-9223372036854775808"),
    (model.Double(0x3FF0_0000_0000_0000), "1.0"),
    (model.Double(0x8000_0000_0000_0000), "-0.0"),
    (model.Double(0x430C_6BF5_2634_0000), "1e15"),
    (b"", '""'),
    ('h\u00e4"\n\x1f\u2603'.encode(), '"h\u00e4\\"\\n\\u001f\u2603"'),
    (model.decimal(True, "01250", 2), "-12.50"),
    (model.packed_time(10, packed(2026, 11, 25)), '"2026-11-25"'),
    (model.packed_time(11, -packed(0, 0, 0, 6, 30, 0, 250)), '"-06:30:00.000250"'),
    (model.packed_time(12, packed(2026, 11, 25, 6, 30, 0, 250)), '"2026-11-25 06:30:00.000250"'),
    (model.Opaque(16, b"\1"), '"base64:type16:AQ=="'),
    ([], "[]"),
    (model.members([(b"a", model.signed(1)), (b"b", [None, "\u00e4".encode()]), (b"", model.members([]))]), '{"":{},"a":1,"b":[null,"\u00e4"]}'),
    ([[[model.members([(b"k" * 300, [])])]]], '[[[{"' + "k" * 300 + '":[]}]]]'),
]
# Values of documents that have no text.
WITHOUT_TEXT = [b"\xff", [b"\xed\xa0\x80"], model.Double(0x7FF0_0000_0000_0000), model.members([(b"\xff", None)])]


def documents():
    values = [(model.document(value), [("json", Json(text))]) for value, text in DOCUMENTS]
    # Bytes behind a document are ignored, and no bytes are null.
    values += [(b"", [("json", Json("null"))]), (b"\4\1abc", [("json", Json("true"))])]
    others = [model.document(value) for value in WITHOUT_TEXT] + [b"abc", b"\4", b"\4\3", model.document([b"abc"])[:-1]]
    values += [(content, [("jsonb", content.hex())]) for content in others]
    yield Kind(245, b"\4", [(counted(content, 4), shown) for content, shown in values])


def kinds():
    for group in (integers, floats, decimals, dates, older_times, newer_times, bits_and_members, strings, documents):
        yield from group()


# ---- optional metadata


def field(kind, content):
    return number(kind, 1) + length_encoded(len(content)) + content


def first_bits(flags):
    """A bit for each, the first the most significant of its byte."""
    padded = [*flags, *(-len(flags) % 8 * [False])]
    return sum(flag << place for place, flag in enumerate(reversed(padded))).to_bytes(len(padded) // 8, "big")


def text(content):
    return length_encoded(len(content)) + content


def names(texts):
    return field(4, b"".join(map(text, texts)))


def members(kind, lists):
    """The members of each SET column (5) or of each ENUM column (6)."""
    return field(kind, b"".join(length_encoded(len(texts)) + b"".join(map(text, texts)) for texts in lists))
