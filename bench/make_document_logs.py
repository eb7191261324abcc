#!/usr/bin/env python3
"""Makes the logs of the benchmark of JSON columns; files that exist already stay.

Usage: make_document_logs.py FOLDER

Each log has transactions of a table with a number and a document of some 1,000 bytes of binary JSON: an order with a customer, lines,
coordinates and readings. The documents have nested objects and arrays, integers, floating-point numbers, decimal numbers, dates and
times, and texts, a few of which need an escape or aren't ASCII. In each transaction rows are inserted and updated. There is a large
file (100 MB), a small one (5 MB) for counts of instructions, and `start_rows_documents.binlog`, with the first transaction alone. The
contents are the same in every run.
"""

import random
import struct
import sys
from pathlib import Path

from arguments import arguments
import make_binlogs
from make_binlogs import GTID, QUERY, TABLE_MAP, UPDATE_ROWS, WRITE_ROWS, XID, event, gtid_times, untagged_gtid, write_repeated
from make_row_logs import mysql_start

import binary_json_model as model  # found by way of make_binlogs
import samples
from row_events import counted, field, names

LARGE, SMALL = 100_000_000, 5_000_000

TABLE = 100
TRANSACTIONS = 64
INSERTED, UPDATED = 8, 4
EVENTS = 6

# The name of each column, its type, and its metadata.
COLUMNS = [
    (b"id", 8, b""),  # BIGINT
    (b"doc", 245, b"\4"),  # JSON
]
WORDS = b"the order was sent to a new address and paid by card in two parts before noon on friday".split()
STATES = [b"new", b"paid", b"packed", b"sent", b"returned"]
# Texts that aren't ASCII, or need an escape, one in so many.
RARE = 25
OTHER_TEXTS = ["Z\u00fcrich, Bahnhofstra\u00dfe 1".encode(), b'the so-called "large" one', b"two\nlines"]


def text(generator, words):
    if generator.randrange(RARE) == 0:
        return generator.choice(OTHER_TEXTS)
    return b" ".join(generator.choices(WORDS, k=words))


def price(generator):
    return model.decimal(False, f"{generator.randrange(10 ** generator.randrange(3, 8)):012}", 2)


def moment(generator, column):
    """A day of 28, and its time with microseconds; of a DATE the day alone."""
    month, day = generator.randrange(1, 13), generator.randrange(1, 29)
    hour, minute, second = (generator.randrange(limit) for limit in (24, 60, 60))
    date = (generator.randrange(2015, 2030) * 13 + month) << 22 | day << 17
    clock = hour << 12 | minute << 6 | second
    if column == model.DATE:
        return model.packed_time(column, date << 24)
    return model.packed_time(column, (date | clock) << 24 | generator.randrange(1_000_000))


def double(number):
    return model.Double(int.from_bytes(struct.pack("<d", number), "little"))


def address(generator):
    return model.members(
        [
            (b"street", text(generator, 3)),
            (b"city", text(generator, 1)),
            (b"zip", b"%05d" % generator.randrange(100_000)),
            (b"at", [double(round(generator.uniform(-90, 90), 5)), double(round(generator.uniform(-180, 180), 5))]),
        ]
    )


def line(generator, number):
    return model.members(
        [
            (b"line", model.signed(number)),
            (b"sku", b"%08X" % generator.getrandbits(32)),
            (b"quantity", model.signed(generator.randrange(1, 20))),
            (b"price", price(generator)),
            (b"discount", double(generator.randrange(40) / 100)),
            (b"gift", generator.random() < 0.1),
        ]
    )


def order(generator, number):
    """A value of some 1,000 bytes."""
    return model.members(
        [
            (b"order_id", model.signed(10**9 + number)),
            (b"state", generator.choice(STATES)),
            (b"created", moment(generator, model.DATETIME)),
            (b"due", moment(generator, model.DATE)),
            (b"total", price(generator)),
            (b"note", None if generator.random() < 0.3 else text(generator, generator.randrange(8, 40))),
            (
                b"customer",
                model.members(
                    [
                        (b"name", text(generator, 2)),
                        (b"number", model.signed(generator.getrandbits(40))),
                        (b"is_company", generator.random() < 0.3),
                        (b"address", address(generator)),
                    ]
                ),
            ),
            (b"lines", [line(generator, number) for number in range(1, 5)]),
            (b"tags", generator.sample(WORDS, 4)),
            (b"readings", [model.signed(generator.randrange(-3000, 3000)) for _ in range(16)]),
        ]
    )


def table_map():
    types = bytes(number for _, number, _ in COLUMNS)
    metadata = b"".join(metadata for _, _, metadata in COLUMNS)
    return b"".join(
        [
            TABLE.to_bytes(6, "little") + b"\1\0",
            b"\4shop\0",
            b"\6orders\0",
            bytes([len(COLUMNS)]) + types,
            bytes([len(metadata)]) + metadata,
            b"\2",
            field(1, b"\0") + names([name for name, _, _ in COLUMNS]),
        ]
    )


def image(generator, number, documents):
    """The bytes of an image of both columns: the bits of its NULLs, and its values. The document is appended to those so far."""
    documents.append(model.document(order(generator, number)))
    return b"\0" + struct.pack("<q", number) + counted(documents[-1], 4)


def events_and_documents():
    """The events, and the documents in them."""
    generator, events, documents = random.Random("documents"), [], []
    sid = generator.randbytes(16)
    head = TABLE.to_bytes(6, "little") + b"\1\0\2\0" + bytes([len(COLUMNS)])
    for number in range(TRANSACTIONS):
        inserted, updated = (b"".join(image(generator, number, documents) for _ in range(count)) for count in (INSERTED, 2 * UPDATED))
        bodies = [
            (GTID, untagged_gtid(sid, number, gtid_times(generator), 20_000)),
            (QUERY, samples.query_body(b"shop", b"BEGIN")),
            (TABLE_MAP, table_map()),
            (WRITE_ROWS, head + b"\3" + inserted),
            (UPDATE_ROWS, head + b"\3\3" + updated),
            (XID, struct.pack("<Q", number)),
        ]
        events += [event(type_number, body, number) for type_number, body in bodies]
    return events, documents


def make(folder):
    every, _ = events_and_documents()
    begin, first = mysql_start(), every[:EVENTS]
    for name, target in (("rows_documents", LARGE), ("rows_documents_small", SMALL)):
        path = folder / f"{name}.binlog"
        if not path.exists():
            write_repeated(path, begin, every, target)
    write_repeated(folder / "start_rows_documents.binlog", begin, first, len(begin) + sum(map(len, first)))


def main(arguments):
    if len(arguments) != 1:
        sys.exit("usage: make_document_logs.py FOLDER")
    folder = Path(arguments[0])
    folder.mkdir(parents=True, exist_ok=True)
    make(folder)


if __name__ == "__main__":
    main(arguments(__doc__))
