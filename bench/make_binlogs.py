#!/usr/bin/env python3
"""Makes the binlogs of the benchmark; files that exist already stay.

Usage: make_binlogs.py FOLDER

For each kind there is a large file (500 MB) for times and a small one (5 MB)
for instruction counts, and a start file, `start.binlog` or, if the events of
the kind have checksums, `start_crc32.binlog`, which has only what every file of
the kind begins with. For a kind with table maps the start file, `start_KIND.binlog`,
also has the first transaction of each table. The contents are the same in every run.
"""

import random
import struct
import sys
import zlib
from itertools import islice
from pathlib import Path

HERE = Path(__file__).resolve().parent
sys.path.insert(0, str(HERE.parent / "tests"))

from arguments import arguments
import samples  # noqa: E402  (found by way of the line above)

LARGE, SMALL = 500_000_000, 5_000_000
LONG_EVENT = 5_000_000

QUERY, XID, TABLE_MAP, WRITE_ROWS, UPDATE_ROWS, GTID, GTID_TAGGED = 2, 16, 19, 30, 31, 33, 42

SIZE_OFFSET = 9
LOG_POS_OFFSET = 13
U32_RANGE = 2**32

SERVER_VERSION = 90_200

# The number of table maps in force in a log whose row events have table maps.
MAPPED_TABLES = [1, 100, 10_000]

CRC32_ALGORITHM = b"\1"
CHECKSUM = struct.Struct("<I")


# A kind is a function that makes the events of one block, which repeats.


def statement_events(generator):
    """QUERY events like those of the sample, of some 90 bytes."""
    for number in range(4096):
        schema = generator.choice([b"test", b"mysql"])
        table = generator.randrange(1, 7)
        value = generator.randrange(10 ** generator.randrange(1, 6))
        query = f"insert into t{table} (a) values ({value})".encode("ascii")
        body = samples.query_body(schema, query)
        yield event(QUERY, body, number)


def row_events(generator):
    """Row events of some 700 bytes."""
    for number in range(2048):
        table = generator.randrange(1, 100)
        rows = generator.randbytes(generator.randrange(550, 800))
        yield event(generator.choice([WRITE_ROWS, UPDATE_ROWS]), rows_body(table, rows), number)


def long_events(generator):
    """A statement and two row events of 5 MB each."""
    room = LONG_EVENT - samples.HEADER.size
    query_overhead = len(samples.query_body(b"test", b""))
    text = b"insert into t1 values (" + b"12345678, " * (LONG_EVENT // 10)
    yield event(QUERY, samples.query_body(b"test", text[: room - query_overhead]), 0)
    rows_overhead = len(rows_body(1, b""))
    for number, type_number in enumerate([WRITE_ROWS, UPDATE_ROWS], start=1):
        rows = generator.randbytes(room - rows_overhead)
        yield event(type_number, rows_body(number, rows), number)


def gtid_events(generator):
    """GTID events of some 80 bytes, each second one with a tag."""
    sids = [generator.randbytes(16) for _ in range(4)]
    for number in range(4096):
        sid, times = generator.choice(sids), gtid_times(generator)
        length = generator.randrange(200, 100_000)
        if number % 2 == 0:
            yield event(GTID, untagged_gtid(sid, number, times, length), number)
        else:
            tag = generator.choice([b"backup", b"reports_2026", b"a"])
            yield event(GTID_TAGGED, tagged_gtid(sid, tag, number, times, length), number)


def transaction_events(generator):
    """Transactions of a GTID, BEGIN, a table map of 44 bytes, two row events of 1,650 to 1,860 bytes and an XID."""
    sid = generator.randbytes(16)
    for number in range(512):
        length = generator.randrange(200, 100_000)
        yield event(GTID, untagged_gtid(sid, number, gtid_times(generator), length), number)
        yield event(QUERY, samples.query_body(b"test", b"BEGIN"), number)
        yield event(TABLE_MAP, short_table_map_body(number % 4), number)
        for type_number in [WRITE_ROWS, UPDATE_ROWS]:
            size = generator.randrange(1650, 1861) - samples.HEADER.size
            rows = generator.randbytes(size - len(rows_body(1, b"")))
            yield event(type_number, rows_body(number % 4, rows), number)
        yield event(XID, struct.pack("<Q", number), number)


def short_table_map_body(table):
    """A table with a number and a text, without optional metadata: an event of 44 bytes."""
    return table.to_bytes(6, "little") + b"\1\0" + b"\4test\0" + b"\2t%d\0" % table + b"\2\3\x0f" + b"\2\xfc\3" + b"\3"


def maps_kind(tables):
    return f"maps_{tables}"


def mapped_row_events(tables):
    """Transactions, each a table map of 50 bytes and a row event of some 115; the tables alternate."""

    def events(generator):
        for number in range(max(tables, 2048)):
            table = number % tables
            yield event(TABLE_MAP, table_map_body(table), number)
            rows = generator.randbytes(generator.randrange(50, 120))
            yield event(generator.choice([WRITE_ROWS, UPDATE_ROWS]), rows_body(table, rows), number)

    return events


def table_map_body(table):
    """A table with an unsigned number and a text of character set 45."""
    database, name = b"test", b"t%d" % table
    return b"".join(
        [
            table.to_bytes(6, "little") + b"\1\0",
            bytes([len(database)]) + database + b"\0",
            bytes([len(name)]) + name + b"\0",
            b"\2\3\x0f" + b"\2\xfc\3" + b"\3",
            b"\1\1\x80" + b"\2\1\x2d",
        ]
    )


def gtid_times(generator):
    """The immediate timestamp, in microseconds, and an original one, which differs half of the time."""
    immediate = samples.TIMESTAMP * 1_000_000 + generator.randrange(10**9)
    return immediate, immediate - generator.choice([0, generator.randrange(1, 10**6)])


def untagged_gtid(sid, number, times, length):
    """With a clock code, as servers from 8.0 on write it."""
    immediate, original = times
    stated = [immediate] if immediate == original else [immediate | 1 << 55, original]
    return b"".join(
        [
            b"\0" + sid + struct.pack("<Q", number + 1),
            b"\2" + struct.pack("<QQ", number, number + 1),
            *(time.to_bytes(7, "little") for time in stated),
            length_encoded(length),
            struct.pack("<I", SERVER_VERSION),
        ]
    )


def tagged_gtid(sid, tag, number, times, length):
    immediate, original = times
    fields = [
        (0, variable(0)),
        (1, b"".join(map(variable, sid))),
        (2, signed(number + 1)),
        (3, variable(len(tag)) + tag),
        (4, signed(number)),
        (5, signed(number + 1)),
        (6, variable(immediate)),
        *([] if immediate == original else [(7, variable(original))]),
        (8, variable(length)),
        (9, variable(SERVER_VERSION)),
    ]
    last_id = variable(0)
    payload = last_id + b"".join(variable(number) + value for number, value in fields)
    return b"\2" + payload_size(1 + len(payload)) + payload


def payload_size(others):
    """The size of a body, which counts itself."""
    sizes = {count: variable(others + count) for count in (1, 2)}
    return next(size for count, size in sizes.items() if len(size) == count)


def variable(number):
    """In the fewest bytes; the low bits of the first byte state how many bytes follow it."""
    count = max(1, -(-number.bit_length() // 7))
    if count > 8:
        return b"\xff" + number.to_bytes(8, "little")
    return (number << count | (1 << count - 1) - 1).to_bytes(count, "little")


def signed(number):
    """A signed variable-length integer, of a number that isn't negative."""
    return variable(2 * number)


def length_encoded(number):
    """A length-encoded number from 251 on, and below 2^24."""
    if number < 1 << 16:
        return b"\xfc" + number.to_bytes(2, "little")
    return b"\xfd" + number.to_bytes(3, "little")


KINDS = {
    "statements": statement_events,
    "rows": row_events,
    "long": long_events,
    "gtids": gtid_events,
    "transactions": transaction_events,
    **{maps_kind(tables): mapped_row_events(tables) for tables in MAPPED_TABLES},
    "statements_crc32": statement_events,
    "rows_crc32": row_events,
}


def has_checksums(kind):
    return kind.endswith("_crc32")


def start_name(kind):
    if has_checksums(kind):
        return "start_crc32.binlog"
    return f"start_{kind}.binlog" if tables_of(kind) else "start.binlog"


def make_start(folder, kind):
    """The start of every file of a kind; with table maps, the first transaction of each table too."""
    first = list(islice(KINDS[kind](random.Random(kind)), 2 * tables_of(kind)))
    length = len(file_start(kind)) + sum(map(len, first))
    write_binlog(folder / start_name(kind), kind, first, length)


def tables_of(kind):
    return next((tables for tables in MAPPED_TABLES if maps_kind(tables) == kind), 0)


def event(type_number, body, number):
    """An event whose position is not known yet."""
    timestamp = samples.TIMESTAMP + number // 100
    return samples.frame(type_number, body, log_pos=0, timestamp=timestamp)


def rows_body(table, rows):
    """The head of a row event of two columns without extra data, then the rows."""
    head = table.to_bytes(6, "little") + b"\1\0" + b"\2\0"
    return head + b"\2\xff" + rows


def crc32_file_start():
    """The file header and the description of a server that writes checksums.

    A description ends with the algorithm byte and its checksum.
    """
    body = b"".join(
        [
            bytes.fromhex("04 00"),  # binlog version
            b"8.0.35".ljust(50, b"\0"),  # server version
            bytes.fromhex("fc 35 bb 4a"),  # created when the event was written
            bytes.fromhex("13"),  # length of an event header
            # post-header lengths of the types from 1 on
            bytes.fromhex("00 0d 00 08 00 00 00 00 04 00 04 00 00 00 62 00 04 1a 08 00 00"),
            bytes.fromhex("00 08 08 08 02 00 00 00 0a 0a 0a 2a 2a 00 12 34 00 0a 28 00"),
            CRC32_ALGORITHM,
        ]
    )
    length = samples.HEADER.size + len(body) + CHECKSUM.size
    description = with_room_for_checksum(
        samples.frame(
            samples.FORMAT_DESCRIPTION,
            body,
            len(samples.FILE_HEADER) + length,
            timestamp=samples.START_TIMESTAMP,
        )
    )
    set_checksums(description, [length])
    return samples.FILE_HEADER + description


def with_room_for_checksum(one):
    """The event with four bytes more, which its size counts."""
    longer = bytearray(one) + bytes(CHECKSUM.size)
    struct.pack_into("<I", longer, SIZE_OFFSET, len(longer))
    return longer


def set_checksums(block, ends):
    """Replaces the last four bytes of each event by the CRC-32 of those before."""
    start = 0
    with memoryview(block) as view:
        for end in ends:
            checksum_start = end - CHECKSUM.size
            CHECKSUM.pack_into(block, checksum_start, zlib.crc32(view[start:checksum_start]))
            start = end


def file_start(kind):
    return crc32_file_start() if has_checksums(kind) else samples.file_start()


def write_binlog(path, kind, events, target):
    """A log of a kind with these events, as `write_repeated` repeats them."""
    if has_checksums(kind):
        events = [with_room_for_checksum(one) for one in events]
    write_repeated(path, file_start(kind), events, target, set_checksums if has_checksums(kind) else None)


def write_repeated(path, start, events, target, set_ends=None):
    """Repeats the events behind the start until the file has the target length, or just above.

    Each repetition gets its own positions, which grow through the file; then `set_ends` may change its events.
    """
    block = bytearray().join(events)
    ends = event_ends(events)
    length = len(start)
    unfinished = path.with_suffix(".unfinished")
    with open(unfinished, "wb") as file:
        file.write(start)
        while length < target:
            set_positions(block, ends, length)
            if set_ends is not None:
                set_ends(block, ends)
            used = used_length(ends, target - length)
            file.write(block[:used])
            length += used
    unfinished.rename(path)


def event_ends(events):
    ends, end = [], 0
    for one in events:
        end += len(one)
        ends.append(end)
    return ends


def set_positions(block, ends, block_start):
    start = 0
    for end in ends:
        struct.pack_into(
            "<I", block, start + LOG_POS_OFFSET, (block_start + end) % U32_RANGE
        )
        start = end


def used_length(ends, wanted):
    """The end of the first event that ends at or after `wanted`."""
    return next((end for end in ends if end >= wanted), ends[-1])


def make_kind(folder, kind):
    paths = {folder / f"{kind}.binlog": LARGE, folder / f"{kind}_small.binlog": SMALL}
    missing = {path: target for path, target in paths.items() if not path.exists()}
    if missing:
        events = list(KINDS[kind](random.Random(kind)))
        for path, target in missing.items():
            write_binlog(path, kind, events, target)


def make_small(folder, kind, length=SMALL):
    """Makes the start file of a kind, and the small file, if it isn't there, of this length."""
    path = folder / f"{kind}_small.binlog"
    if not path.exists():
        write_binlog(path, kind, list(KINDS[kind](random.Random(kind))), length)
    make_start(folder, kind)
    return path


def main(arguments):
    if len(arguments) != 1:
        sys.exit("usage: make_binlogs.py FOLDER")
    folder = Path(arguments[0])
    folder.mkdir(parents=True, exist_ok=True)
    for kind in KINDS:
        make_start(folder, kind)
        make_kind(folder, kind)


if __name__ == "__main__":
    main(arguments(__doc__))
