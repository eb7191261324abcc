"""A plain model of the data of MariaDB's own events as lines of JSON have it, written from the formats of their bodies.

A fault is raised if the data isn't a body of its type.
"""

import zlib

import event_data_model
from event_data_model import Bytes, Fault, Text, allowed, number_in, taken, taken_number
from maria_gtid_model import COMMIT_ID, LEAST, XA_ID, flags_and_entries

ANNOTATE_ROWS, BINLOG_CHECKPOINT, GTID, GTID_LIST, START_ENCRYPTION, QUERY_COMPRESSED = range(160, 166)
QUERY = 2
# The types of compressed rows, and those of the events whose bodies they have.
ROWS_COMPRESSED = dict(zip(range(166, 172), (23, 24, 25, 30, 31, 32)))

NAMES = {
    ANNOTATE_ROWS: "ANNOTATE_ROWS_EVENT",
    BINLOG_CHECKPOINT: "BINLOG_CHECKPOINT_EVENT",
    GTID: "GTID_EVENT",
    GTID_LIST: "GTID_LIST_EVENT",
    START_ENCRYPTION: "START_ENCRYPTION_EVENT",
    QUERY_COMPRESSED: "QUERY_COMPRESSED_EVENT",
    166: "WRITE_ROWS_COMPRESSED_EVENT_V1",
    167: "UPDATE_ROWS_COMPRESSED_EVENT_V1",
    168: "DELETE_ROWS_COMPRESSED_EVENT_V1",
    169: "WRITE_ROWS_COMPRESSED_EVENT",
    170: "UPDATE_ROWS_COMPRESSED_EVENT",
    171: "DELETE_ROWS_COMPRESSED_EVENT",
}

# The extra flags of a GTID.
ENGINES, ALTER, THREAD_ID = 0x1, 0x4 | 0x8, 0x10
# Zlib's method in the first byte of what is stored, with the number of bytes of the length, and the longest text.
METHOD, GREATEST_WIDTH, MOST_BYTES = 0x80, 4, 1 << 30
ENCRYPTION_LENGTH = 17


def stated_length(stored):
    """The length that is stated in front of a zlib stream."""
    allowed(bool(stored))
    width = stored[0] % 8
    allowed(stored[0] // 32 == METHOD // 32 and 1 <= width <= GREATEST_WIDTH and len(stored) > width)
    return int.from_bytes(stored[1 : 1 + width], "big")


def uncompressed(stored):
    """The text that is stored as a length and a zlib stream."""
    length = stated_length(stored)
    allowed(length <= MOST_BYTES)
    stream = zlib.decompressobj()
    try:
        text = stream.decompress(stored[1 + stored[0] % 8 :], length + 1)
        # The rest of a stream without text.
        text += stream.decompress(stream.unconsumed_tail, 1) if len(text) <= length else b""
    except zlib.error:
        raise Fault(6) from None
    allowed(stream.eof and not stream.unused_data and not stream.unconsumed_tail and len(text) == length)
    return text


def statement(data, lengths):
    found = event_data_model.fields(QUERY, data, lengths)
    return found | {"query": Text(uncompressed(found["query"].bytes)), "compressed": True}


def rows(number, data, lengths):
    found = event_data_model.fields(ROWS_COMPRESSED[number], data, lengths)
    return found | {"rows_data": Bytes(uncompressed(found["rows_data"].bytes)), "compressed": True}


def xa_id(data):
    head, data = taken(data, 6)
    gtrid, data = taken(data, head[4])
    bqual, data = taken(data, head[5])
    return {"format_id": number_in(head, 0, 4), "gtrid": Bytes(gtrid), "bqual": Bytes(bqual)}, data


def part(data, width, is_there):
    return taken_number(data, width) if is_there else (None, data)


def extra(data):
    flags, data = taken_number(data, 1)
    engines, data = part(data, 1, flags & ENGINES)
    alter, data = part(data, 8, flags & ALTER)
    thread, _ = part(data, 4, flags & THREAD_ID)
    return {"flags": flags, "engines": engines, "alter_sequence": alter, "thread_id": thread}


def gtid(data, server_id):
    sequence, data = taken_number(data, 8)
    domain, data = taken_number(data, 4)
    flags, data = taken_number(data, 1)
    commit_id, data = part(data, 8, flags & COMMIT_ID)
    xa, data = xa_id(data) if flags & XA_ID else (None, data)
    if not flags & (COMMIT_ID | XA_ID):
        taken(data, LEAST)
    return {
        "gtid": f"{domain}-{server_id}-{sequence}",
        "flags": flags,
        "commit_id": commit_id,
        "xa_id": xa,
        "extra": extra(data) if data else None,
    }, b""


def gtid_list(data):
    flags, entries = flags_and_entries(data)
    return {"flags": flags, "gtids": ["-".join(map(str, entry)) for entry in entries]}, b""


def checkpoint(data):
    name, data = event_data_model.taken_text(data, 4)
    return {"name": Text(name)}, data


def encryption(data):
    body, data = taken(data, ENCRYPTION_LENGTH)
    return {"scheme": body[0], "key_version": number_in(body, 1, 4), "nonce": Bytes(body[5:])}, data


def fields(number, data, lengths, server_id):
    """The fields of an event of one of MariaDB's own types."""
    if number == QUERY_COMPRESSED:
        return statement(data, lengths)
    if number in ROWS_COMPRESSED:
        return rows(number, data, lengths)
    if number == ANNOTATE_ROWS:
        return {"query": Text(data)}
    if number == GTID:
        found, rest = gtid(data, server_id)
    else:
        found, rest = {BINLOG_CHECKPOINT: checkpoint, GTID_LIST: gtid_list, START_ENCRYPTION: encryption}[number](data)
    if rest:
        raise Fault(7)
    return found
