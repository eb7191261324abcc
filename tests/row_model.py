"""A plain model of the rows of row events: the columns of a table map, what its optional metadata states of them, and the rows
as JSON.

Written from `docs/ROW_VALUES.md`, on its own. An object is a list of pairs, since the names of columns may repeat, and a
floating-point number is a `Float`, since its text isn't fixed; the value of a document is a `Json`.
"""

import struct
from collections import namedtuple
from datetime import datetime, timezone

import binary_json_model
import character_model
import json_diff_model

# A floating-point number by its bits: the format of its bytes, and the bytes.
Float = namedtuple("Float", "format bytes")

# A value of a document by its text.
Json = namedtuple("Json", "text")

# A column: how its values are read, its real type, and how the bytes of its documents are read, if it has any.
Column = namedtuple("Column", "read real read_content", defaults=[None, None])

# What the table map states of a column.
Facts = namedtuple("Facts", "name is_unsigned character_set members", defaults=[None, False, None, None])

INTEGERS = {1: 1, 2: 2, 9: 3, 3: 4, 8: 8}
BLOBS = (252, 249, 250, 251, 140, 245, 255, 242)
VARCHARS = (15, 253, 141)
STRINGS = (254, 247, 248)
STRING, ENUM, SET = STRINGS
ENUM_SIZES, SET_SIZES = (1, 2), range(1, 9)
COMPRESSED, JSON, GEOMETRY, VECTOR = (140, 141), 245, 255, 242
BINARY = "binary"

# How many diffs of a list are applied at most.
MOST_DIFFS = 100

YEAR = 13
NUMERIC = (*INTEGERS, 4, 5, YEAR, 246)
TEXTS = (STRING, 253, 15, 249, 250, 251, 252, 140, 141)


class Fault(Exception):
    """A malformed unit; its argument is the kind of the fault."""


def truncated():
    return Fault("Truncated")


def allowed(is_allowed, kind="BadValue"):
    if not is_allowed:
        raise Fault(kind)


class Bytes:
    """Bytes that are read from the front."""

    def __init__(self, content):
        self.content, self.place = content, 0

    def left(self):
        return len(self.content) - self.place

    def take(self, count):
        if self.left() < count:
            raise truncated()
        self.place += count
        return self.content[self.place - count : self.place]

    def number(self, width, order="little"):
        return int.from_bytes(self.take(width), order)

    def lenenc(self):
        mark = self.number(1)
        allowed(mark not in (0xFB, 0xFF))
        width = {0xFC: 2, 0xFD: 3, 0xFE: 8}.get(mark)
        return mark if width is None else self.number(width)


# ---- texts


def date_text(year, month, day):
    return f"{year:04}-{month:02}-{day:02}"


def clock_text(hour, minute, second):
    return f"{hour:02}:{minute:02}:{second:02}"


def fraction_text(digits, microseconds):
    return f".{microseconds:06}"[: digits + 1] if digits else ""


def shown(content, character_set):
    """A text in a character set; where none is known, and in `binary`, one in UTF-8 if it can be."""
    known = "utf8mb4" if character_set in (None, BINARY) else character_set
    text = character_model.text(known, content)
    return [("hex", content.hex())] if text is None else text


def comma(character_set):
    """A comma between two members of a SET."""
    codec, _ = character_model.UNICODE.get(character_set, ("ascii", None))
    return ",".encode(codec)


# ---- values


def integer(width):
    def read(data, facts):
        content = data.take(width)
        return int.from_bytes(content, "little", signed=not facts.is_unsigned)

    return read


def floating(form):
    return lambda data, _facts: Float(form, data.take(struct.calcsize(form)))


def digit_sizes(count):
    """The digits of the groups of the digits before the point, and of those behind it."""
    return [9] * (count // 9) + [count % 9] * (count % 9 > 0)


def decimal(precision, scale):
    whole, part = digit_sizes(precision - scale)[::-1], digit_sizes(scale)
    size = sum((digits + 1) // 2 if digits < 9 else 4 for digits in whole + part)

    def read(data, _facts):
        content = bytearray(data.take(size))
        is_negative = content[0] < 0x80
        content[0] ^= 0x80
        groups = Bytes(bytes(byte ^ 0xFF for byte in content) if is_negative else bytes(content))
        text = ""
        for digits in whole + part:
            group = groups.number((digits + 1) // 2 if digits < 9 else 4, "big")
            allowed(group < 10**digits)
            text += f"{group:0{digits}}"
        before, behind = text[: precision - scale], text[precision - scale :]
        sign = "-" if is_negative else ""
        return sign + (before.lstrip("0") or "0") + ("." + behind if scale else "")

    return read


def date(data, _facts):
    bits = data.number(3)
    return date_text(bits // 512, bits // 32 % 16, bits % 32)


def year(data, _facts):
    years = data.number(1)
    return 1900 + years if years else 0


def moment(seconds):
    found = datetime.fromtimestamp(seconds, timezone.utc)
    return date_text(found.year, found.month, found.day) + " " + clock_text(found.hour, found.minute, found.second)


def timestamp(data, _facts):
    seconds = data.number(4)
    return moment(seconds) if seconds else "0000-00-00 00:00:00"


def time(data, _facts):
    number = int.from_bytes(data.take(3), "little", signed=True)
    digits = abs(number)
    return ("-" if number < 0 else "") + clock_text(digits // 10_000, digits // 100 % 100, digits % 100)


def datetime_digits(data, _facts):
    number = data.number(8)
    day, clock = number // 1_000_000, number % 1_000_000
    text = clock_text(clock // 10_000, clock // 100 % 100, clock % 100)
    return date_text(day // 10_000, day // 100 % 100, day % 100) + " " + text


def with_fraction(digits, width, value_of):
    """A value of `width` bytes before its fraction; `value_of` has the number of both."""
    size = (digits + 1) // 2

    def read(data, _facts):
        return value_of(data.number(width + size, "big"), 256**size, 100**size, digits)

    return read


def microseconds(fraction, bound):
    allowed(fraction < bound)
    return fraction * 1_000_000 // bound


def timestamp2(number, shift, bound, digits):
    seconds, part = number // shift, microseconds(number % shift, bound)
    zero = "0000-00-00 00:00:00"
    return (moment(seconds) if seconds or part else zero) + fraction_text(digits, part)


def datetime2(number, shift, bound, digits):
    allowed(number // shift >= 1 << 39)
    part = microseconds(number % shift, bound)
    bits = number // shift - (1 << 39)
    months = bits >> 22
    day = date_text(months // 13, months % 13, bits >> 17 & 31)
    return day + " " + clock_text(bits >> 12 & 31, bits >> 6 & 63, bits & 63) + fraction_text(digits, part)


def time2(number, shift, bound, digits):
    distance = number - (1 << 23) * shift
    sign, distance = ("-" if distance < 0 else ""), abs(distance)
    part = microseconds(distance % shift, bound)
    bits = distance // shift
    allowed(bits < 1 << 22)
    return sign + clock_text(bits >> 12, bits >> 6 & 63, bits & 63) + fraction_text(digits, part)


def bit(count):
    def read(data, _facts):
        bits = data.number((count + 7) // 8, "big")
        allowed(bits < 1 << count)
        return bits

    return read


def enumeration(width):
    """The text of a member, counted from 1; 0 is the empty text."""

    def read(data, facts):
        index = data.number(width)
        if facts.members is None or index > len(facts.members):
            return index
        return shown(facts.members[index - 1] if index else b"", facts.character_set)

    return read


def member_set(width):
    """The texts of the members whose bits are set, with commas between them; bit 0 is the first member."""

    def read(data, facts):
        mask = data.number(width)
        if facts.members is None or mask >> len(facts.members):
            return mask
        texts = [text for place, text in enumerate(facts.members) if mask >> place & 1]
        return shown(comma(facts.character_set).join(texts), facts.character_set)

    return read


def counted(width, greatest, value_of, is_length=lambda length: True):
    """Bytes after their length, of which some are no lengths."""

    def read(data, facts):
        length = data.number(width)
        allowed(length <= greatest and is_length(length))
        return value_of(data.take(length), facts)

    return read


def string(content, facts):
    return content.hex() if facts.character_set == BINARY else shown(content, facts.character_set)


def fixed_string(length):
    """The value of a CHAR, or of a BINARY of this length, whose zeros at the end aren't stored."""
    return lambda content, facts: string(content.ljust(length, b"\0") if facts.character_set == BINARY else content, facts)


def digits_alone(content, _facts):
    return content.hex()


def named(name):
    return lambda content, _facts: [(name, content.hex())]


def document(content, _facts):
    """The value of a document of binary JSON; its digits where it is none, or has no text."""
    try:
        return [("json", Json(binary_json_model.text(binary_json_model.read(content))))]
    except (binary_json_model.Refused, binary_json_model.NoText):
        return [("jsonb", content.hex())]


def diff_list(content, before):
    """The diffs of a list, its digits where it is none, or has no text; and the document that they make of the one before."""
    return [("diffs", diffs_value(content)), *document_after(content, before)]


def diffs_value(content):
    try:
        return Json(binary_json_model.diffs_text(binary_json_model.diffs(content)))
    except (binary_json_model.Refused, binary_json_model.NoText):
        return content.hex()


def document_after(content, before):
    """The member of the document after a list of diffs; none where there is no document before, where there are too many diffs, where
    they aren't applied, and where the document after has no text."""
    if before is None:
        return []
    try:
        if len(binary_json_model.diffs(content)) > MOST_DIFFS:
            return []
        value = json_diff_model.applied(binary_json_model.read(before), content)
        return [("json", Json(binary_json_model.text(value)))]
    except (binary_json_model.Refused, binary_json_model.NoText, json_diff_model.NotApplied):
        return []


# ---- columns


def string_column(data):
    first, second = data.take(2)
    real, length = first | 0x30, second + 16 * ((first & 0x30) ^ 0x30)
    if real == ENUM and length in ENUM_SIZES:
        return Column(enumeration(length), real)
    if real == SET and length in SET_SIZES:
        return Column(member_set(length), real)
    allowed(real == STRING, "BadMetadata")
    return Column(counted(1 if length <= 255 else 2, length, fixed_string(length)), real)


def bit_column(data):
    rest, whole = data.take(2)
    count = 8 * whole + rest
    allowed(rest <= 7 and 1 <= count <= 64, "BadMetadata")
    return Column(bit(count))


def decimal_column(data):
    precision, scale = data.take(2)
    allowed(1 <= precision <= 65 and scale <= min(precision, 38), "BadMetadata")
    return Column(decimal(precision, scale))


def float_column(form):
    def read(data):
        allowed(data.number(1) == struct.calcsize(form), "BadMetadata")
        return Column(floating(form))

    return read


def fraction_column(width, value_of):
    def read(data):
        digits = data.number(1)
        allowed(digits <= 6, "BadMetadata")
        return Column(with_fraction(digits, width, value_of))

    return read


def blob_column(kind):
    value_of = {JSON: document, GEOMETRY: digits_alone, VECTOR: digits_alone, 140: named("stored")}.get(kind, string)
    is_length = (lambda length: length % 4 == 0) if kind == VECTOR else (lambda length: True)

    def read(data):
        width = data.number(1)
        allowed(1 <= width <= 4, "BadMetadata")
        read_content = counted(width, 256**width - 1, lambda content, _facts: content) if kind == JSON else None
        return Column(counted(width, 256**width - 1, value_of, is_length), read_content=read_content)

    return read


def varchar_column(kind):
    def read(data):
        greatest = data.number(2)
        return Column(counted(1 if greatest <= 255 else 2, greatest, named("stored") if kind == 141 else string))

    return read


def enum_or_set_column(data):
    column = string_column(data)
    allowed(column.real != STRING, "BadMetadata")
    return column


PLAIN = {10: date, 14: date, YEAR: year, 7: timestamp, 11: time, 12: datetime_digits, 6: lambda _data, _facts: None}
PLAIN |= {kind: integer(width) for kind, width in INTEGERS.items()}
COLUMNS = {kind: lambda _data, read=read: Column(read) for kind, read in PLAIN.items()}
COLUMNS |= {4: float_column("<f"), 5: float_column("<d"), 246: decimal_column, 16: bit_column}
COLUMNS |= {17: fraction_column(4, timestamp2), 18: fraction_column(5, datetime2), 19: fraction_column(3, time2)}
COLUMNS |= {STRING: string_column, ENUM: enum_or_set_column, SET: enum_or_set_column}
COLUMNS |= {kind: blob_column(kind) for kind in BLOBS} | {kind: varchar_column(kind) for kind in VARCHARS}


def columns(types, metadata):
    """The columns of a table map; a fault, with the index of the column besides, if they are refused."""
    data = Bytes(metadata)
    found = []
    try:
        for kind in types:
            allowed(kind in COLUMNS, "BadType")
            column = COLUMNS[kind](data)
            found.append(column._replace(real=column.real or kind))
        allowed(not data.left(), "LeftOver")
    except Fault as fault:
        raise Fault(fault.args[0], len(found))
    return found


# ---- optional metadata


def has_bit(bitmap, place):
    return bitmap[place // 8] >> (7 - place % 8) & 1 == 1


def bitmap(content, count):
    found = content.take((count + 7) // 8)
    return [has_bit(found, place) for place in range(count)]


def name(content):
    text = content.take(content.lenenc())
    try:
        return text.decode("utf-8")
    except UnicodeDecodeError:
        return None


def default_charset(content, count):
    found = [content.lenenc()] * count
    while content.left():
        place = content.lenenc()
        collation = content.lenenc()
        allowed(place < count)
        found[place] = collation
    return found


def skipped_pairs(content, count, width):
    while content.left():
        place = content.lenenc()
        if width == 2:
            content.lenenc()
        allowed(place < count)


def members(content):
    count = content.lenenc()
    if count > content.left():
        raise truncated()
    return [content.take(content.lenenc()) for _ in range(count)]


def read_field(kind, content, places, total, is_maria):
    """What a field states: the name of a fact, and its values for the columns of the class; None for no fact."""
    numeric, character, enum_or_set, enums, sets, geometries, vectors = places
    if kind == 1:
        return "is_unsigned", numeric, bitmap(content, len(numeric))
    if kind in (2, 3, 10, 11):
        of_class = character if kind in (2, 3) else enum_or_set
        count = len(of_class)
        found = default_charset(content, count) if kind in (2, 10) else [content.lenenc() for _ in range(count)]
        return "character_set", of_class, [character_model.set_of_collation(collation, is_maria) for collation in found]
    if kind == 4:
        return "name", range(total), [name(content) for _ in range(total)]
    if kind in (5, 6):
        listed = sets if kind == 5 else enums
        return "members", listed, [members(content) for _ in listed]
    if kind in (7, 13):
        for _ in geometries if kind == 7 else vectors:
            content.lenenc()
    elif kind in (8, 9):
        skipped_pairs(content, total, kind - 7)
    elif kind == 12:
        content.take((total + 7) // 8)
    else:
        content.take(content.left())
    return None


def character_types(is_maria):
    """The real types of the columns with a collation."""
    return (*TEXTS, GEOMETRY if is_maria else VECTOR)


def places_of(found, is_maria):
    """The columns of each class."""
    of = lambda kinds: [place for place, column in enumerate(found) if column.real in kinds]
    return of(NUMERIC), of(character_types(is_maria)), of((ENUM, SET)), of((ENUM,)), of((SET,)), of((GEOMETRY,)), of((VECTOR,))


def fields_of(optional):
    """The type and the content of each field; the last is a fault where its type or its length can't be read."""
    data = Bytes(optional)
    while data.left():
        try:
            yield data.number(1), Bytes(data.take(data.lenenc()))
        except Fault as fault:
            yield None, fault
            return


def facts(found, optional, is_maria):
    """What the fields state of each column, and the first that is refused: its fault and its type; None if all are read."""
    stated, refused = [Facts()] * len(found), None
    places = places_of(found, is_maria)
    for kind, content in fields_of(optional):
        try:
            if kind is None:
                raise content
            field = read_field(kind, content, places, len(found), is_maria)
            allowed(not content.left(), "LeftOver")
        except Fault as fault:
            refused = refused or (fault.args[0], kind)
            continue
        if field is not None:
            fact, columns_of_field, values = field
            for place, value in zip(columns_of_field, values):
                stated[place] = stated[place]._replace(**{fact: value})
    return stated, refused


# ---- rows


class Documents:
    """The documents of a row: those of its image before by the indexes of their columns, and which columns are lists of diffs."""

    def __init__(self):
        self.before, self.diffs = {}, set()

    def read(self, column, place, data):
        """The value of a column of documents."""
        content = column.read_content(data, None)
        if place in self.diffs:
            return diff_list(content, self.before.get(place))
        self.before[place] = content
        return document(content, None)


def image(found, stated, present, data, documents):
    """An image; a fault has the index of its column besides, None in the null bitmap."""
    there = [place for place, is_there in enumerate(present) if is_there]
    members_of_image = []
    place = None
    try:
        nulls = data.take((len(there) + 7) // 8)
        for order, place in enumerate(there):
            is_null = nulls[order // 8] >> order % 8 & 1 == 1
            if is_null:
                value = None
            elif found[place].read_content:
                value = documents.read(found[place], place, data)
            else:
                value = found[place].read(data, stated[place])
            name_of_column = stated[place].name
            members_of_image.append((f"@{place + 1}" if name_of_column is None else name_of_column, value))
    except Fault as fault:
        raise Fault(fault.args[0], place)
    return members_of_image


def refusal(kind, row, *where):
    return [("error", kind), ("row", row), *[(name, value) for name, value in where if value is not None]]


def diff_columns(found, data):
    """The columns that are lists of diffs, by the options and the diff bits of a partial update."""
    options = data.lenenc()
    allowed(options in (0, 1))
    if options == 0:
        return set()
    documents = [place for place, column in enumerate(found) if column.real == JSON]
    diff_bits = data.take((len(documents) + 7) // 8)
    return {place for order, place in enumerate(documents) if diff_bits[order // 8] >> order % 8 & 1 == 1}


def partial_diffs(found, data):
    """The columns of the image after of a partial update that are lists of diffs; a fault has the index of no column."""
    try:
        return diff_columns(found, data)
    except Fault as fault:
        raise Fault(fault.args[0], None)


def rows(found, stated, images, data, is_partial=False):
    """The rows of an event, whose images are pairs of a name and the columns that are present."""
    data = Bytes(data)
    if not is_partial and not any(any(present) for _, present in images):
        return [refusal("LeftOver", 0)] if data.left() else []
    items = []
    while data.left():
        row, documents = [], Documents()
        for image_name, present in images:
            try:
                if is_partial and image_name == "after":
                    documents.diffs = partial_diffs(found, data)
                row.append((image_name, image(found, stated, present, data, documents)))
            except Fault as fault:
                return items + [refusal(fault.args[0], len(items), ("image", image_name), ("column", fault.args[1]))]
        items.append(row)
    return items


def rows_of_event(found, table, event, is_maria, is_partial, stated=None):
    """The rows of an event, by the fields of its table map and its own, and the columns of that; and by what is known of the columns,
    if it is more than the table map states."""
    if stated is None:
        stated, _ = facts(found, table["optional_metadata"].bytes, is_maria)
    images = [(image_name, event[f"columns_{image_name}_image"]) for image_name in ("before", "after")]
    present = [(image_name, columns_of_image) for image_name, columns_of_image in images if columns_of_image is not None]
    return rows(found, stated, present, event["rows_data"].bytes, is_partial)
