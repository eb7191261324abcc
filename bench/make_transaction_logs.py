#!/usr/bin/env python3
"""Makes the logs of ordinary transactions; files that exist already stay.

Usage: make_transaction_logs.py FOLDER

Each transaction changes one row of a table of four columns, as the benchmark `sbtest` of `sysbench` has it: half of them update a row,
and the others insert or delete one. `transactions_of_mysql` is as a MySQL server writes them: a GTID, `BEGIN`, a table map with the
optional metadata of `binlog_row_metadata=MINIMAL`, a row event and an XID. `transactions_of_maria` has the same rows as a MariaDB
server writes them, for `mariadb-binlog`: a GTID, a table map, a row event and an XID. For each kind there is a large file (100 MB), a
small one (5 MB) for counts of instructions, and a start file, `start_transactions_of_KIND.binlog`, with the first transaction of each
table alone. The contents are the same in every run.
"""

import random
import struct
import sys
from pathlib import Path

from arguments import arguments
from make_binlogs import GTID, QUERY, TABLE_MAP, XID, event, gtid_times, untagged_gtid
from make_row_logs import FIRST_ID, LENGTHS, MARIA_GTID, MARIA_TYPES, MYSQL_TYPES, TABLES, make_logs, maria_start, mysql_start

import samples  # found by way of make_binlogs
from row_events import counted, field, first_bits

TRANSACTIONS = 2048
DIGITS = b"0123456789"

# The type of each column, and its metadata: id INT, k INT, c CHAR(120), pad CHAR(60), of one byte a character.
COLUMNS = [(3, b""), (3, b""), (254, b"\xfe\x78"), (254, b"\xfe\x3c")]


def groups(generator, count):
    """Groups of eleven digits, joined by hyphens."""
    return b"-".join(bytes(generator.choices(DIGITS, k=11)) for _ in range(count))


def row(generator, number):
    """The bytes of an image of all columns: no NULLs, and the values."""
    key = generator.randrange(1, 100_000)
    return b"\xf0" + struct.pack("<ii", number + 1, key) + counted(groups(generator, 10), 1) + counted(groups(generator, 5), 1)


def table_map(table, has_metadata):
    name = b"sbtest%d" % (table + 1)
    metadata = b"".join(metadata for _, metadata in COLUMNS)
    return b"".join(
        [
            (FIRST_ID + table).to_bytes(6, "little") + b"\1\0",
            b"\6sbtest\0",
            bytes([len(name)]) + name + b"\0",
            bytes([len(COLUMNS)]) + bytes(number for number, _ in COLUMNS),
            bytes([len(metadata)]) + metadata,
            b"\0",
            # The signs of both numbers, and the character set latin1.
            field(1, first_bits([False, False])) + field(2, b"\x08") if has_metadata else b"",
        ]
    )


def row_event(generator, number, types, has_extra):
    """An event that changes one row."""
    kind = generator.choice([0, 1, 1, 2])
    images = 2 if kind == 1 else 1
    head = (FIRST_ID + number % TABLES).to_bytes(6, "little") + b"\1\0" + (b"\2\0" if has_extra else b"")
    head += bytes([len(COLUMNS)]) + images * b"\xff"
    return event(types[kind], head + b"".join(row(generator, number) for _ in range(images)), number)


def mysql_events(generator):
    sid = generator.randbytes(16)
    for number in range(TRANSACTIONS):
        yield event(GTID, untagged_gtid(sid, number, gtid_times(generator), generator.randrange(500, 900)), number)
        yield event(QUERY, samples.query_body(b"sbtest", b"BEGIN"), number)
        yield event(TABLE_MAP, table_map(number % TABLES, has_metadata=True), number)
        yield row_event(generator, number, MYSQL_TYPES, has_extra=True)
        yield event(XID, struct.pack("<Q", number), number)


def maria_events(generator):
    for number in range(TRANSACTIONS):
        # The number, the domain, the flags of a transaction, and reserved bytes.
        yield event(MARIA_GTID, struct.pack("<QIB6x", number + 1, 0, 8), number)
        yield event(TABLE_MAP, table_map(number % TABLES, has_metadata=False), number)
        yield row_event(generator, number, MARIA_TYPES, has_extra=False)
        yield event(XID, struct.pack("<Q", number), number)


# The start of a kind, its events, and how many events a transaction has.
KINDS = {"mysql": (mysql_start, mysql_events, 5), "maria": (maria_start, maria_events, 4)}


def make_kind(folder, kind, lengths=LENGTHS):
    make_logs(folder, f"transactions_of_{kind}", KINDS[kind], random.Random("transactions"), lengths)


def main(arguments):
    if len(arguments) != 1:
        sys.exit("usage: make_transaction_logs.py FOLDER")
    folder = Path(arguments[0])
    folder.mkdir(parents=True, exist_ok=True)
    for kind in KINDS:
        make_kind(folder, kind)


if __name__ == "__main__":
    main(arguments(__doc__))
