"""Logs of encoded events with their listings and JSON lines, and logs of damaged copies."""

from collections import namedtuple
from itertools import cycle

import encoded_events as encode
from samples import CHECKSUM_LENGTH, FILE_HEADER, HEADER, POST_HEADER_LENGTHS, crc32

# A file, and its listing and its JSON lines, if the encoder gives them.
Log = namedtuple("Log", "name content listing lines", defaults=[None, None])

# A description that comes before events, and the post-header lengths in force under it.
Described = namedtuple("Described", "name event lengths")

# The default lengths, if a description states none.
OWN_LENGTHS = {2: 13, 16: 0, 19: 8, 23: 8, 24: 8, 25: 8, 30: 10, 31: 10, 32: 10, 39: 10}

# timestamp, server id, position, flags
HEADERS = [
    (0, 0, 0, 0),
    (0x4ABB35FC, 1, 1670, 8),
    (0xFFFFFFFF, 0xFFFFFFFF, 0xFFFFFFFF, 0xFFFF),
    (0x01020304, 0x05060708, 0x090A0B0C, 0x0D0E),
    # Of its two flags only the lower one is cleared in the checksummed bytes.
    (1, 2, 3, 0x0003),
]


def described(name, lengths, server_version="8.0.36", algorithm=None):
    event = encode.format_description(
        server_version=server_version, lengths=lengths, algorithm=algorithm
    )
    stated = {place + 1: length for place, length in enumerate(lengths)}
    return Described(name, event, OWN_LENGTHS | stated)


def other_lengths(others):
    """A server's lengths, but for those of these types."""
    stated = enumerate(POST_HEADER_LENGTHS)
    return bytes(others.get(place + 1, length) for place, length in stated)


ROWS_TYPES = [kind[0] for kind in encode.ROWS_KINDS]
SHORT_IDS = other_lengths(dict.fromkeys([19, *ROWS_TYPES], 6))
LONG_HEADS = other_lengths({2: 15, 16: 2, 19: 10} | dict.fromkeys(ROWS_TYPES, 10))

# The lengths up to a type in the middle, so that the types after it have the default lengths.
FIRST_LENGTHS = other_lengths({2: 15, 16: 2})[:19]

DESCRIPTIONS = [
    described("no lengths, no algorithm", b"", server_version="5.0.86-debug-log"),
    described("algorithm 0", POST_HEADER_LENGTHS, algorithm=0),
    described("algorithm 1", POST_HEADER_LENGTHS, algorithm=1),
    described("ids of 4 bytes, no algorithm", SHORT_IDS, server_version="5.5.62"),
    described("ids of 4 bytes, algorithm 1", SHORT_IDS, algorithm=1),
    described("long post-headers, algorithm 1", LONG_HEADS, algorithm=1),
    described("no lengths, algorithm 1", b"", algorithm=1),
    described("the first lengths, algorithm 1", FIRST_LENGTHS, algorithm=1),
]
CHECKSUMMED, SHORT, LONG = DESCRIPTIONS[2], DESCRIPTIONS[3], DESCRIPTIONS[5]


# ---- values

TEXTS = [
    "",
    "test",
    '"\\/\b\t\n\f\r' + "".join(map(chr, range(32))) + "\x7f",
    "\u0080\u07ff\u0800\ud7ff\ue000\ufeff\uffff\U00010000\U0010ffff\u2028",
    b"\xff",
    b"caf\xc3",
    b"test\xed\xa0\x80",
    "m" * 255,
]
CONTENTS = [b"", b"\0", b"block\xff", bytes(range(256))]
SOURCES = [bytes(16), bytes(range(0x70, 0x80)), 16 * b"\xff"]
COLUMNS = [0, 1, 8, 9, 251, 300]
GREATEST_SIGNED = (1 << 63) - 1


def greatest(width):
    return (1 << 8 * width) - 1


def typical(width):
    return int.from_bytes(range(1, width + 1), "little")


def numbers(width):
    return 0, typical(width), greatest(width)


def each_variable():
    """Status variables, at least one of each key."""
    for name, (_, width) in encode.NUMBER_VARIABLES.items():
        yield from (encode.number_variable(name, value) for value in numbers(width))
    for text in TEXTS:
        yield encode.catalog(text, ended=b"\xff")
        yield encode.time_zone(text)
        yield encode.catalog_nz(text)
        yield encode.invoker(text, TEXTS[1])
        yield encode.invoker(TEXTS[0], text)
    for value in numbers(2):
        yield encode.auto_increment(value, greatest(2) - value)
        yield encode.charset(value, 33, greatest(2) - value)
    yield from (encode.master_data_written(content) for content in (bytes(4), b"\1\2\3\xff"))
    yield encode.updated_names([])
    yield encode.updated_names([text for text in TEXTS if b"\0" not in encode.bytes_of(text)])
    yield from (encode.updated_names(count * ["d"]) for count in (253, 255))
    yield encode.too_many_names()
    yield from (encode.commit_time(key) for key in (14, 15))
    yield from (encode.explicit_defaults(byte) for byte in (0, 1, 255))


# After whole variables: an unknown key, and values that aren't whole.
TAILS = ["15 00", "00 01 02 03", "05 02 61", "02 01 61", "0b 03 61", "0b 00 01", "0c 01 61", "ff"]


# Variables of MySQL 9.7 and of MariaDB that no key of the table lists.
UNLISTED = ["15 01", "80 01 02 03", "81 01 02 03 04 05 06 07 08", "82 03 0c", "82 04 00 01 02 03 04 05 06 07 08", "83 00"]
UNLISTED += ["82 08 00 04 08 00 08 00 08 00 04", "83 02 21 00 00 08 04 08 00 08"]


# Collations of clients, and texts by Python's codecs of their character sets.
CLIENTS = [
    (4, "cp850", "caf\u00e9 \u2551"),
    (6, "hp-roman8", "caf\u00e9 \u20a4"),
    (7, "koi8-r", "\u041f\u0440\u0438\u0432\u0435\u0442"),
    (8, "cp1252", "na\u00efve \u20ac"),
    (9, "iso8859-2", "\u017elu\u0165ou\u010dk\u00fd"),
    (11, "ascii", "a"),
    (18, "tis-620", "\u0e2a\u0e27\u0e31\u0e2a\u0e14\u0e35"),
    (26, "cp1250", "\u017elu\u0165ou\u010dk\u00fd"),
    (30, "iso8859-9", "\u0131\u015f\u0131k"),
    (33, "utf-8", "caf\u00e9 \u20ac"),
    (36, "cp866", "\u043f\u0440\u0438\u0432\u0435\u0442"),
    (38, "mac_latin2", "\u010d\u0159"),
    (39, "mac_roman", "caf\u00e9"),
    (40, "cp852", "\u010d\u0159"),
    (41, "iso8859-13", "\u0105\u017e"),
    (45, "utf-8", "\U0001f600\n"),
    (51, "cp1251", '\u041f"\\'),
    (59, "cp1257", "\u0105\u017e"),
    (255, "utf-8", "\U0001f600"),
]

# Collations of clients, and texts by Python's codecs, that are written as hexadecimal digits: the set isn't decoded, or the bytes are no
# text in it.
UNDECODED = [(number, "\u6f22\u5b57".encode(codec)) for number, codec in ((1, "big5"), (12, "euc_jp"), (13, "shift_jis"), (19, "euc_kr"))]
UNDECODED += [(24, b"select 1"), (28, "\u6f22\u5b57".encode("gbk")), (248, "\u6f22\u5b57".encode("gb18030"))]
UNDECODED += [(11, b"\x80"), (33, b"\xf0\x9f\x98\x80"), (45, b"\xe9"), (51, b"\x98"), (63, b"\xe9")]


def queries_of_clients(skipped):
    for number, codec, text in CLIENTS:
        client = [encode.charset(number, 33, 33)]
        yield encode.query(status_vars=client, schema="\u00e9", text=text.encode(codec), query=text, skipped=skipped)
    for number, content in UNDECODED:
        yield encode.query(status_vars=[encode.charset(number, 8, 8)], text=content, skipped=skipped)


def queries_behind_unlisted(skipped):
    """Statements whose client's collation stands among variables that aren't listed, or behind one that isn't known."""
    (latin1, member), (greek, _) = (encode.charset(number, 33, 33) for number in (8, 25))
    text = {"text": b"caf\xe9", "query": "caf\u00e9", "skipped": skipped}
    for unlisted in [*map(bytes.fromhex, UNLISTED), bytes.fromhex("".join(UNLISTED))]:
        yield encode.query(tail=unlisted + latin1, **text)
        yield encode.query(tail=unlisted + greek + unlisted + latin1 + unlisted, **text)
        yield encode.query(status_vars=[(latin1, member)], tail=unlisted, **text)
        yield encode.query(tail=b"\x84" + unlisted + latin1, **text | {"query": b"caf\xe9"})


def queries(lengths):
    skipped = b"\xaa" * max(0, lengths[2] - 13)
    variables = list(each_variable())
    yield encode.query(skipped=skipped)
    for text in TEXTS:
        yield encode.query(thread_id=1, schema=text, text="BEGIN", skipped=skipped)
        yield encode.query(execution_time=2, schema="d", text=text, skipped=skipped, between=0xFF)
    for value in numbers(4):
        head = {"thread_id": value, "execution_time": greatest(4) - value}
        yield encode.query(**head, error_code=value & greatest(2), skipped=skipped)
    for variable in variables:
        yield encode.query(status_vars=[variable], text="q", skipped=skipped)
    yield encode.query(status_vars=variables, schema="d", text="q", skipped=skipped)
    for tail in map(bytes.fromhex, TAILS):
        yield encode.query(status_vars=variables[:3], tail=tail, text="q", skipped=skipped)
    yield from queries_of_clients(skipped)
    yield from queries_behind_unlisted(skipped)


def load_queries(_lengths):
    variables = list(each_variable())
    for value in numbers(4):
        for handling in range(3):
            yield encode.execute_load_query(
                ids=(value, greatest(4) - value, value & greatest(2)),
                file_id=greatest(4) - value,
                start_pos=value,
                end_pos=value,
                dup_handling=handling,
                status_vars=variables[:handling],
                schema="d",
                text="LOAD DATA",
            )
    zeros = {"ids": (0, 0, 0), "file_id": 2, "start_pos": 0, "end_pos": 3, "dup_handling": 2}
    for text in TEXTS:
        yield encode.execute_load_query(schema=text, text=text, **zeros)
    whole = encode.execute_load_query(status_vars=variables, tail=b"\x15", **zeros)
    yield whole
    yield encode.refused(whole, with_byte(whole.body, 25, 3), 6)


def with_byte(content, place, value):
    return content[:place] + bytes([value]) + content[place + 1 :]


def loads(_lengths):
    for value in numbers(4):
        yield from (encode.begin_load_query(file_id=value, block=block) for block in CONTENTS)


def rows_queries(_lengths):
    yield from (encode.rows_query(text=text, skipped=len(encode.bytes_of(text))) for text in TEXTS)
    yield encode.rows_query(text="select " * 60)


def rotates(_lengths):
    for position in numbers(8):
        yield from (encode.rotate(position=position, name=name) for name in TEXTS)


def intvars(_lengths):
    for value in numbers(8):
        yield from (encode.intvar(subtype=subtype, value=value) for subtype in range(3))
    event = encode.intvar(subtype=0, value=7)
    yield encode.refused(event, b"\3" + event.body[1:], 6)


def rands(_lengths):
    yield from (encode.rand(seed1=value, seed2=greatest(8) - value) for value in numbers(8))


def xids(lengths):
    skipped = b"\xaa" * lengths[16]
    for value in numbers(8):
        event = encode.xid(value=value, skipped=skipped)
        yield event
        yield encode.refused(event, event.body + b"\0", 7)


def incidents(_lengths):
    for value in numbers(2):
        yield from (encode.incident(incident_type=value, message=message) for message in TEXTS)


def user_vars(_lengths):
    for text in TEXTS:
        yield encode.null_user_var(name=text)
        content = encode.bytes_of(text)
        yield encode.user_var(name=text, value_type=0, charset_number=33, value=content)
    yield encode.null_user_var(name="a", null=255)
    for value_type in (-128, -1, 0, 4, 127):
        yield encode.user_var(name="a", value_type=value_type, charset_number=63, value=b"\7")
    for number, flags in zip(numbers(4), (0, 1, 255)):
        for value in CONTENTS:
            stated = {"charset_number": number, "flags": flags}
            yield encode.user_var(name="b", value_type=2, value=value, **stated)


TIMES = [(0, None), (typical(6), 0), ((1 << 55) - 1, (1 << 56) - 1), (1000, 1000)]
VERSIONS = [(0, None), (80036, 50744), ((1 << 31) - 1, (1 << 32) - 1), (999_999, 999_999)]


def pair(name, immediate, original):
    parts = {f"immediate_{name}": immediate}
    return parts if original is None else parts | {f"original_{name}": original}


def clock_parts():
    """The parts after the clock: none, some, and all."""
    yield {}
    yield {"tx_length": 5}
    yield {"tx_length": 300}
    yield {"tx_length": 5} | pair("server_version", 80036, None)
    for times in TIMES:
        yield pair("commit_timestamp", *times)
        for length in (0, 250, 251, 65_536, greatest(8)):
            yield pair("commit_timestamp", *times) | {"tx_length": length}
        for versions in VERSIONS:
            front = pair("commit_timestamp", *times) | {"tx_length": 320}
            yield front | pair("server_version", *versions)
    front = pair("commit_timestamp", 1, None) | {"tx_length": 5, "length_width": 8}
    yield front | pair("server_version", 1, 2)


def untagged_gtids(type_number):
    def events(_lengths):
        for value, sid in zip(numbers(8), SOURCES):
            yield encode.gtid(type_number, flags=value & 0xFF, sid=sid, gno=value)
            yield encode.gtid(type_number, sid=sid, gno=value, clock=(value, greatest(8) - value))
        for parts in clock_parts():
            yield encode.gtid(type_number, sid=SOURCES[1], gno=1, clock=(7, 9), **parts)
        whole = encode.gtid(type_number, sid=SOURCES[1], gno=1, clock=(7, 9), **parts)
        short = encode.gtid(type_number, sid=SOURCES[1], gno=1)
        # A ticket after the versions isn't part of this form, nor is another clock code.
        yield encode.refused(whole, whole.body + bytes(8), 7)
        yield encode.refused(short, short.body + b"\1" + bytes(16), 7)
        yield encode.refused(short, short.body[:-1], 5)

    return events


# Values of the fields of a GTID with a tag.
TAGGED_VALUES = {
    "flags": [0, 1, 255],
    "sid": SOURCES,
    "gno": [0, 1, GREATEST_SIGNED],
    "tag": ["_", "backup", 32 * "Z"],
    "last_committed": [0, 7, GREATEST_SIGNED],
    "sequence_number": [0, 1 << 34, GREATEST_SIGNED],
    "immediate_commit_timestamp": [0, 1_700_000_000_000_000, greatest(8)],
    "original_commit_timestamp": [0, 1000, greatest(8)],
    "tx_length": [0, 320, greatest(8)],
    "immediate_server_version": [0, 80_400, greatest(4)],
    "original_server_version": [0, 80_300, greatest(4)],
    "commit_group_ticket": [0, 128, greatest(8)],
}


def tagged_gtids(_lengths):
    tag = ("tag", "test")
    yield encode.tagged_gtid([tag])
    for place in range(3):
        fields = [(name, values[place]) for name, values in TAGGED_VALUES.items()]
        yield encode.tagged_gtid(fields)
        yield encode.tagged_gtid(fields[::-1])
        yield encode.tagged_gtid(fields[2:] + fields[:4], size_width=4, last=11)
        yield encode.tagged_gtid(fields, width=9)
        yield encode.tagged_gtid(fields[:4], ignorable=encode.variable(99) + b"\xff\xff", last=98)
    for name, values in TAGGED_VALUES.items():
        yield from (encode.tagged_gtid([tag, (name, value)]) for value in values)
    # The last of repeated fields counts.
    yield encode.tagged_gtid([("gno", 1), tag, ("gno", 2), ("tag", "later")])
    yield from refused_tagged_gtids(tag)


def refused_tagged_gtids(tag):
    whole = encode.tagged_gtid([tag, ("gno", 1)])
    yield encode.refused(whole, whole.body + b"\0", 7)
    yield encode.refused(whole, whole.body[:-1], 5)
    yield encode.refused(whole, b"\1" + whole.body[1:], 6)
    for text in ("", "9a", "a-b", 33 * "a"):
        yield encode.refused(whole, encode.tagged_gtid([("tag", text)]).body, 6)
    without = encode.tagged_gtid([("gno", 1)])
    yield encode.refused(without, without.body, 6)
    for name in ("flags", "immediate_server_version", "original_server_version"):
        above = encode.tagged_gtid([tag, (name, max(TAGGED_VALUES[name]) + 1)])
        yield encode.refused(above, above.body, 6)
    unignored = encode.tagged_gtid([tag], ignorable=encode.variable(12), last=12)
    yield encode.refused(unignored, unignored.body, 6)


def previous_gtids(_lengths):
    pairs = [(1, 6), (0, greatest(8)), (greatest(8), 0), (typical(8), typical(8) + 1)]
    untagged = [(sid, None, pairs[:place]) for place, sid in enumerate(SOURCES)]
    tagged = [(sid, tag, pairs) for sid, tag in zip(SOURCES, ("test", None, 32 * "a"))]
    yield encode.previous_gtids([])
    yield encode.previous_gtids(untagged)
    yield encode.previous_gtids([(SOURCES[1], None, 40 * pairs)])
    for form, low_byte in ((1, 1), (255, 0), (7, 5)):
        yield encode.previous_gtids([], form=form, low_byte=low_byte)
        yield encode.previous_gtids(tagged + untagged, form=form, low_byte=low_byte)
    event = encode.previous_gtids(untagged)
    yield encode.refused(event, event.body + b"\0", 7)
    yield encode.refused(event, event.body[:-1], 5)
    yield encode.refused(event, encode.previous_gtids([(SOURCES[0], "9a", [])], form=1).body, 6)


def some_bits(count, step):
    return [place % step == 0 for place in range(count)]


def spelling_of(lengths, type_number):
    return encode.Spelling(id_width=4 if lengths[type_number] == 6 else 6)


def table_maps(lengths):
    spelling = spelling_of(lengths, 19)
    names = {"database": "d", "table": "t"}
    column = {"types": b"\3", "metadata": b"", "nulls": [True]}
    for table_id, flags in zip(numbers(spelling.id_width), numbers(2)):
        yield encode.table_map(spelling, table_id=table_id, flags=flags, **names, **column)
    shared = {"table_id": 5, "flags": 1}
    for text in TEXTS:
        strange, content = spelling._replace(between=0xFF), encode.bytes_of(text)
        yield encode.table_map(strange, **shared, database=text, table="t", **column)
        yield encode.table_map(
            spelling, **shared, database="d", table=text, **column, optional=content
        )
    for count in COLUMNS:
        types = bytes(place % 256 for place in range(count))
        columns = shared | names | {"types": types, "metadata": 2 * count * b"\x10"}
        for step in (1, 3, 400):
            filled = spelling._replace(fill=step == 3)
            yield encode.table_map(filled, **columns, nulls=some_bits(count, step))
        for width in (2, 3, 8):
            longer = spelling._replace(width=width)
            yield encode.table_map(longer, **columns, nulls=count * [False], optional=b"\1")


def extra_bytes(lengths, type_number):
    """Counts of no extra bytes and of some, with these bytes, if the type has extra bytes under these lengths."""
    if lengths[type_number] != 10:
        return [(None, b"")]
    contents = (b"\xaa", b"\0", bytes(range(100)))
    return [(count, b"") for count in (0, 1, 2)] + [(2 + len(content), content) for content in contents]


def rows_of(kind):
    def events(lengths):
        spelling, extras = spelling_of(lengths, kind[0]), extra_bytes(lengths, kind[0])
        image = {"before": [True], "after": [False]}
        for table_id, flags in zip(numbers(spelling.id_width), numbers(2)):
            shared = {"table_id": table_id, "flags": flags}
            for extra in extras:
                yield encode.rows(kind, spelling, **shared, extra=extra, **image, content=b"\xfe\7")
        shared = {"table_id": 5, "flags": 1, "extra": extras[-1]}
        filled, longer = spelling._replace(fill=True), spelling._replace(width=8)
        for content in CONTENTS:
            yield encode.rows(kind, filled, **shared, **image, content=content)
        for count in COLUMNS:
            for step in (1, 3, 400):
                images = {"before": some_bits(count, step), "after": some_bits(count, step + 1)}
                yield encode.rows(kind, filled, **shared, **images, content=b"\xff")
                yield encode.rows(kind, longer, **shared, **images, content=b"")

    return events


# ---- long events


def whole_status(length):
    """Status variables that take this many bytes."""
    number_of_modes, left = divmod(length, 9)
    modes = [encode.number_variable("SqlMode", value) for value in range(number_of_modes)]
    return modes + left * [encode.commit_time(14)]


LONGEST_STATUS = 65_535
LONGEST_EXTRA = 65_533


def long_queries(lengths):
    skipped = b"\xaa" * max(0, lengths[2] - 13)
    for text in ("q", "\n", "\u20ac", b"\xff"):
        for length in (8_192, 20_000):
            yield encode.query(text=length * text, skipped=skipped)
    for tail in (b"", b"\x15", LONGEST_STATUS * b"\xff"):
        variables = whole_status(LONGEST_STATUS - len(tail))
        yield encode.query(status_vars=variables, tail=tail, text="q", skipped=skipped)
    zeros = {"ids": (0, 0, 0), "file_id": 2, "start_pos": 0, "end_pos": 3, "dup_handling": 0}
    yield encode.execute_load_query(status_vars=whole_status(LONGEST_STATUS), text="q", **zeros)


def long_rows(lengths):
    for kind in encode.ROWS_KINDS:
        has_extra = lengths[kind[0]] == 10
        extra = (2 + LONGEST_EXTRA, LONGEST_EXTRA * b"\xe7") if has_extra else (None, b"")
        shared = {"table_id": 5, "flags": 0xF, "extra": extra}
        spelling, columns = spelling_of(lengths, kind[0]), {"before": [True], "after": [True]}
        yield encode.rows(kind, spelling, **shared, **columns, content=70_000 * b"\7")
        many = some_bits(70_000, 3)
        yield encode.rows(kind, spelling, **shared, before=many, after=many, content=b"")


def long_table_maps(lengths):
    many = {"types": 70_000 * b"\3", "nulls": some_bits(70_000, 5)}
    names = {"table_id": 5, "flags": 1, "database": 255 * "d", "table": 255 * "t"}
    metadata = {"metadata": 70_000 * b"\1", "optional": 70_000 * b"\2"}
    yield encode.table_map(spelling_of(lengths, 19), **names, **many, **metadata)


def long_events(lengths):
    """Events whose lines don't fit into the initial memory of a line, and texts of the largest length."""
    yield from long_queries(lengths)
    yield from long_rows(lengths)
    yield from long_table_maps(lengths)
    content = 70_000 * b"\xff"
    yield encode.begin_load_query(file_id=2, block=content)
    yield encode.user_var(name=70_000 * "n", value_type=0, charset_number=33, value=content)
    yield encode.rows_query(text=70_000 * "r")
    yield encode.rotate(position=1 << 32, name=70_000 * "f")
    yield encode.previous_gtids([(SOURCES[1], None, 5_000 * [(1, 6)])])
    yield encode.kept(40, content)
    yield encode.unknown(41, content)


def plain(make, type_number):
    def events(_lengths):
        yield from (make(type_number, body) for body in CONTENTS)

    return events


def unknown_types(_lengths):
    for type_number in encode.UNKNOWN_TYPES:
        yield encode.unknown(type_number, CONTENTS[type_number % len(CONTENTS)])


# For each type a function from the post-header lengths to events: those of rows, those of the
# other typed bodies, and the rest.
ROWS_KINDS = {
    "table maps": table_maps,
    **{f"rows of type {kind[0]}": rows_of(kind) for kind in encode.ROWS_KINDS},
}
FIELDS_KINDS = {
    "queries": queries,
    "load queries": load_queries,
    "files to load": loads,
    "queries of rows": rows_queries,
    "rotates": rotates,
    "intvars": intvars,
    "rands": rands,
    "xids": xids,
    "incidents": incidents,
    "user variables": user_vars,
    "GTIDs": untagged_gtids(33),
    "anonymous GTIDs": untagged_gtids(34),
    "GTIDs with a tag": tagged_gtids,
    "previous GTIDs": previous_gtids,
}
PLAIN_KINDS = {
    **{f"bytes of type {number}": plain(encode.kept, number) for number in encode.KEPT_NAMES},
    **{f"units of type {number}": plain(encode.ignored, number) for number in encode.IGNORED_NAMES},
    "unknown types": unknown_types,
}
KINDS = FIELDS_KINDS | ROWS_KINDS | PLAIN_KINDS

# The descriptions under which there are long events.
LONG_UNDER = [CHECKSUMMED, SHORT]

# The kinds that are damaged under each description: all typed bodies, or those that it changes.
DAMAGED_UNDER = [
    (CHECKSUMMED, FIELDS_KINDS | ROWS_KINDS),
    (SHORT, ROWS_KINDS),
    (LONG, ROWS_KINDS | {"xids": xids}),
]


def descriptions():
    """Descriptions with other values, each in force after its own event."""
    describe = encode.format_description
    for version in range(1, 5):
        yield describe(binlog_version=version, server_version="5.6.0-log", lengths=b"\x38")
    for text in ("", "\u00e9\n", b"caf\xc3", 50 * "1", '8"0\\36', "mysql 8.0.36", "5.300.1"):
        yield describe(server_version=text, create_timestamp=typical(4))
    yield describe(server_version="", hidden=b"8.0.36", create_timestamp=greatest(4))
    for algorithm in (0, 1, 7, 255):
        for text in ("5.6.1", "10.11.6-MariaDB-log", b"8.0.36\xff"):
            yield describe(server_version=text, algorithm=algorithm, lengths=b"\x38\x0d\x00\x08")
    hidden = 43 * b"\xff"
    yield describe(server_version="8.0.36", hidden=hidden, lengths=bytes(255), algorithm=1)


# ---- files


def algorithm_behind(event, algorithm):
    return event.data["checksum_alg"] if event.type == 15 else algorithm


def framed(type_number, body, header, has_checksum):
    """A frame and its checksum, or None."""
    timestamp, server_id, position, flags = header
    size = HEADER.size + len(body) + (CHECKSUM_LENGTH if has_checksum else 0)
    front = HEADER.pack(timestamp, type_number, server_id, size, position, flags) + body
    checksum = crc32(front) if has_checksum else None
    return front + (checksum or b""), checksum


def frame(event, header, algorithm):
    """An event's frame and its checksum, under an algorithm or None."""
    if event.type != 15:
        return framed(event.type, event.body, header, has_checksum=algorithm not in (None, 0))
    own = event.data["checksum_alg"]
    footer = b"" if own is None else bytes([own])
    return framed(event.type, event.body + footer, header, has_checksum=own is not None)


def listed(index, event, header, content, checksum):
    """The event's line of the listing."""
    _, _, position, flags = header
    front = f"{index} {event.type} {len(content)} {position} {flags:04x} {len(event.body)}"
    return f"{front} {'-' if checksum is None else checksum.hex()} {encode.word(event)}\n"


def json_line(index, event, header, content, checksum):
    timestamp, server_id, position, flags = header
    item = {
        "index": index,
        "type": event.type,
        "name": event.name,
        "timestamp": timestamp,
        "server_id": server_id,
        "event_size": len(content),
        "log_pos": position,
        "flags": flags,
        "checksum": None if checksum is None else checksum.hex(),
        "data": event.data,
    }
    return encode.json_text(item) + "\n"


def log(name, events):
    """A file of these events, each under the description before it."""
    content, listing, lines, algorithm = FILE_HEADER, "", "", None
    for index, (event, header) in enumerate(zip(events, cycle(HEADERS))):
        event_bytes, checksum = frame(event, header, algorithm)
        content += event_bytes
        listing += listed(index, event, header, event_bytes, checksum)
        lines += json_line(index, event, header, event_bytes, checksum)
        algorithm = algorithm_behind(event, algorithm)
    return Log(name, content, listing.encode("ascii"), lines.encode("utf-8"))


def described_events():
    """Logs of each kind of events after each description, of all of them, and of long events."""
    for description in DESCRIPTIONS:
        all_events = [description.event]
        for name, events in KINDS.items():
            of_kind = list(events(description.lengths))
            all_events += of_kind
            yield log(f"{name}, {description.name}", [description.event, *of_kind])
        yield log(f"all events, {description.name}", all_events)
        long = long_events(description.lengths) if description in LONG_UNDER else []
        for number, event in enumerate(long):
            yield log(f"long event {number}, {description.name}", [description.event, event])


def undamaged():
    """Logs of events after descriptions, and of descriptions."""
    yield from described_events()
    followed = [[event, encode.xid(value=11)] for event in descriptions()]
    for number, events in enumerate(followed):
        yield log(f"description {number}", events)
    yield log("all descriptions", sum(followed, []))


# ---- damage

FRONT, BETWEEN, END = 48, 16, 16


def places(body):
    """All positions in a short body; in a long one the first, the last, and some between."""
    end = max(FRONT, len(body) - END)
    between = range(FRONT, end, 1 + (end - FRONT) // BETWEEN)
    return [*range(min(FRONT, len(body))), *between, *range(end, len(body))]


def damaged(body):
    """Copies that are cut, that have another byte, and that have one byte more."""
    for place in places(body):
        yield body[:place]
        yield with_byte(body, place, body[place] ^ 0xFF)
        yield with_byte(body, place, body[place] ^ (1 + place % 254))
    yield body + b"\0"
    yield body + b"\xff"


def damaged_log(name, first, event):
    """A file of a description and of damaged copies of an event."""
    algorithm = first.data["checksum_alg"]
    has_checksum = algorithm not in (None, 0)
    copies = [framed(event.type, body, HEADERS[1], has_checksum)[0] for body in damaged(event.body)]
    return Log(name, FILE_HEADER + frame(first, HEADERS[0], None)[0] + b"".join(copies))


def damaged_descriptions():
    """Each damaged copy of a description and its checksum, with an event after it."""
    behind, _ = framed(16, bytes(12), HEADERS[1], has_checksum=False)
    for number, event in enumerate(descriptions()):
        whole = frame(event, HEADERS[0], None)[0][HEADER.size :]
        content = FILE_HEADER
        for body in damaged(whole):
            content += framed(15, body, HEADERS[1], has_checksum=False)[0] + behind
        yield Log(f"damaged copies of description {number}", content)


def of_each_length(events):
    """For each length of a body, an event with that length."""
    return {len(event.body): event for event in events}


def damaged_events():
    """A log of damaged copies of an event of each kind and length."""
    for description, kinds in DAMAGED_UNDER:
        for name, events in kinds.items():
            for length, event in of_each_length(events(description.lengths)).items():
                case = f"damaged copies of {length} bytes of {name}, {description.name}"
                yield damaged_log(case, description.event, event)


def logs():
    yield from undamaged()
    yield from damaged_descriptions()
    yield from damaged_events()
