#!/usr/bin/env python3
"""Makes the logs of the benchmark of rows; files that exist already stay.

Usage: make_row_logs.py FOLDER

Each log has transactions of a table of ten columns (see COLUMNS): inserted rows, updated rows and deleted rows, each in an
event of its own. For each kind there is a large file (100 MB), a small one (5 MB) for counts of instructions, and a start
file, `start_rows_KIND.binlog`, with the first transaction of each table alone. `rows_mysql` is as a MySQL server writes it: a
GTID, `BEGIN`, a table map, the row events and an XID, half of the tables with the optional metadata of
`binlog_row_metadata=FULL`. `rows_maria` has the same rows as a MariaDB server writes them, for `mariadb-binlog`. The contents
are the same in every run.
"""

import random
import struct
import sys
from itertools import islice
from pathlib import Path

from arguments import arguments
import make_binlogs
from make_binlogs import GTID, QUERY, TABLE_MAP, XID, event, gtid_times, untagged_gtid, write_repeated

import samples  # found by way of make_binlogs
from row_events import counted, datetime2, decimal, field, first_bits, names

# What the name of each file of a kind ends with, and its length.
LENGTHS = {"": 100_000_000, "_small": 5_000_000}

TABLES = 4
# The id of the first table.
FIRST_ID = 100
TRANSACTIONS = 256
INSERTED, UPDATED, DELETED = 20, 10, 10
# The types of the row events that insert, update and delete.
MYSQL_TYPES = (30, 31, 32)
MARIA_TYPES = (23, 24, 25)
MARIA_GTID = 162

MARIA_VERSION = b"10.11.19-MariaDB-log"
# The lengths of MariaDB's post-headers, of the types from 1 on.
MARIA_LENGTHS = bytes.fromhex("38 0d 00 08 00 12 00 04 04 04 04 12 00 00 e4 00 04 1a 08 00 00 00 08 08 08 02 00 00 00 0a 0a 0a")
MARIA_LENGTHS += bytes(160 - len(MARIA_LENGTHS)) + bytes.fromhex("04 13 04 00 00 0d 08 08 08")

# The name of each column, its type, and its metadata.
COLUMNS = [
    (b"id", 8, b""),  # BIGINT
    (b"quantity", 3, b""),  # INT UNSIGNED
    (b"name", 15, b"\xf0\0"),  # VARCHAR(60), of four bytes a character
    (b"price", 246, b"\x0c\x02"),  # DECIMAL(12,2)
    (b"created", 18, b"\6"),  # DATETIME(6)
    (b"changed", 17, b"\0"),  # TIMESTAMP
    (b"weight", 5, b"\x08"),  # DOUBLE
    (b"level", 1, b""),  # TINYINT
    (b"state", 254, b"\xf7\1"),  # ENUM
    (b"note", 252, b"\2"),  # TEXT
]
NULLABLE = {6: 0.1, 9: 0.3}
STATES = [b"new", b"open", b"done"]
LETTERS = bytes(range(ord("a"), ord("z") + 1)) + b" "


def row(generator, number):
    """The bytes of an image of all columns: the bits of its NULLs, and its values."""
    nulls = {column for column, share in NULLABLE.items() if generator.random() < share}
    fields = (generator.randrange(2000, 2030), generator.randrange(1, 13), generator.randrange(1, 29), *map(generator.randrange, (24, 60, 60)))
    values = [
        struct.pack("<q", number - 1000),
        struct.pack("<I", generator.randrange(2**32)),
        counted(text(generator, 5, 40), 1),
        decimal(12, 2, generator.random() < 0.2, f"{generator.randrange(10**generator.randrange(3, 13)):012}"),
        datetime2(6, fields, generator.randrange(1_000_000))[0],
        struct.pack(">I", samples.TIMESTAMP + generator.randrange(10**8)),
        struct.pack("<d", generator.randrange(10**6) / 64),
        struct.pack("<b", generator.randrange(-5, 100)),
        bytes([generator.randrange(1, 1 + len(STATES))]),
        counted(text(generator, 0, 120), 2),
    ]
    bits = sum(1 << column for column in nulls)
    return bits.to_bytes(2, "little") + b"".join(value for column, value in enumerate(values) if column not in nulls)


def text(generator, least, most):
    return bytes(generator.choices(LETTERS, k=generator.randrange(least, most + 1)))


def table_map(table):
    """The odd ones with all optional metadata."""
    name = b"orders_%d" % table
    types = bytes(number for _, number, _ in COLUMNS)
    metadata = b"".join(metadata for _, _, metadata in COLUMNS)
    nullable = sum(1 << column for column in NULLABLE)
    return b"".join(
        [
            (FIRST_ID + table).to_bytes(6, "little") + b"\1\0",
            b"\4shop\0",
            bytes([len(name)]) + name + b"\0",
            bytes([len(COLUMNS)]) + types,
            bytes([len(metadata)]) + metadata,
            nullable.to_bytes(2, "little"),
            optional_metadata() if table % 2 else b"",
        ]
    )


def optional_metadata():
    """The signs of the numeric columns, the character sets, the names, the members of the ENUM and the primary key."""
    is_unsigned = [False, True, False, False, False]
    states = bytes([len(STATES)]) + b"".join(bytes([len(state)]) + state for state in STATES)
    return b"".join(
        [
            field(1, first_bits(is_unsigned)),
            field(2, b"\x2d"),
            field(11, b"\x2d"),
            names([name for name, _, _ in COLUMNS]),
            field(6, states),
            field(8, b"\0"),
        ]
    )


def row_events(generator, number, types, has_extra):
    """An event that inserts, one that updates and one that deletes."""
    table = FIRST_ID + number % TABLES
    for type_number, count, images in zip(types, (INSERTED, UPDATED, DELETED), (1, 2, 1)):
        head = table.to_bytes(6, "little") + b"\1\0" + (b"\2\0" if has_extra else b"")
        head += bytes([len(COLUMNS)]) + images * b"\xff\3"
        rows = b"".join(row(generator, number) for _ in range(count * images))
        yield event(type_number, head + rows, number)


def mysql_events(generator):
    sid = generator.randbytes(16)
    for number in range(TRANSACTIONS):
        length = generator.randrange(200, 100_000)
        yield event(GTID, untagged_gtid(sid, number, gtid_times(generator), length), number)
        yield event(QUERY, samples.query_body(b"shop", b"BEGIN"), number)
        yield event(TABLE_MAP, table_map(number % TABLES), number)
        yield from row_events(generator, number, MYSQL_TYPES, has_extra=True)
        yield event(XID, struct.pack("<Q", number), number)


def maria_events(generator):
    for number in range(TRANSACTIONS):
        # The number, the domain, the flags of a transaction, and reserved bytes.
        yield event(MARIA_GTID, struct.pack("<QIB6x", number + 1, 0, 8), number)
        yield event(TABLE_MAP, table_map(number % TABLES), number)
        yield from row_events(generator, number, MARIA_TYPES, has_extra=False)
        yield event(XID, struct.pack("<Q", number), number)


def start(version, lengths):
    """The file header and a description without checksums."""
    body = b"\4\0" + version.ljust(50, b"\0") + bytes(4) + b"\x13" + lengths + b"\0"
    # The four bytes of the description's own checksum, which nothing verifies.
    length = len(samples.FILE_HEADER) + samples.HEADER.size + len(body) + 4
    described = samples.frame(samples.FORMAT_DESCRIPTION, body + bytes(4), length, timestamp=samples.START_TIMESTAMP)
    return samples.FILE_HEADER + described


def mysql_start():
    lengths = make_binlogs.crc32_file_start()[4 + 19 + 57 : -5]
    return start(b"8.0.35", lengths)


def maria_start():
    return start(MARIA_VERSION, MARIA_LENGTHS)


# The start of a kind, its events, and how many events a transaction has.
KINDS = {"mysql": (mysql_start, mysql_events, 7), "maria": (maria_start, maria_events, 6)}


def make_logs(folder, name, kind, generator, lengths):
    """Makes the files of a log, and its start file, which has the first transaction of each table."""
    begin, make_events, count = kind
    events = list(make_events(generator))
    first = list(islice(events, count * TABLES))
    for ending, length in lengths.items():
        path = folder / f"{name}{ending}.binlog"
        if not path.exists():
            write_repeated(path, begin(), events, length)
    write_repeated(folder / f"start_{name}.binlog", begin(), first, len(begin()) + sum(map(len, first)))


def make_kind(folder, kind, lengths=LENGTHS):
    make_logs(folder, f"rows_{kind}", KINDS[kind], random.Random("rows"), lengths)


def main(arguments):
    if len(arguments) != 1:
        sys.exit("usage: make_row_logs.py FOLDER")
    folder = Path(arguments[0])
    folder.mkdir(parents=True, exist_ok=True)
    for kind in KINDS:
        make_kind(folder, kind)


if __name__ == "__main__":
    main(arguments(__doc__))
