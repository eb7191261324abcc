"""An encoder of MariaDB's own events, and logs of them: from plain values it makes a body and the `data` object of its JSON
line, as `encoded_events.py` does. Texts are compressed by Python's zlib.
"""

import zlib
from itertools import product

import encoded_events as encode
import encoded_logs
from encoded_events import Event, bytes_of, counted, number, shown

INVALID, ENDS, LEFT_OVER = 6, 5, 7

GROUP_COMMIT_ID, PREPARED_XA, COMPLETED_XA = 0x2, 0x40, 0x80
ENGINES, COMMIT_ALTER, ROLLBACK_ALTER, THREAD_ID = 1, 4, 8, 16

# The type number, the name, and whether there are a before image and an after image.
ROWS_KINDS = [
    (166, "WRITE_ROWS_COMPRESSED_EVENT_V1", False, True),
    (167, "UPDATE_ROWS_COMPRESSED_EVENT_V1", True, True),
    (168, "DELETE_ROWS_COMPRESSED_EVENT_V1", True, False),
    (169, "WRITE_ROWS_COMPRESSED_EVENT", False, True),
    (170, "UPDATE_ROWS_COMPRESSED_EVENT", True, True),
    (171, "DELETE_ROWS_COMPRESSED_EVENT", True, False),
]


# ---- bodies


def annotate_rows(text):
    return Event(160, "ANNOTATE_ROWS_EVENT", bytes_of(text), {"query": shown(text)})


def binlog_checkpoint(name):
    return Event(161, "BINLOG_CHECKPOINT_EVENT", counted(name, 4), {"name": shown(name)})


def xa_id(format_id, gtrid, bqual):
    head = number(format_id, 4) + number(len(gtrid), 1) + number(len(bqual), 1)
    return head + gtrid + bqual, {"format_id": format_id, "gtrid": gtrid.hex(), "bqual": bqual.hex()}


def extra_parts(flags, engines=0, alter_sequence=0, thread_id=0):
    """The extra flags and the parts that they announce."""
    has_alter = flags & (COMMIT_ALTER | ROLLBACK_ALTER) != 0
    body = number(flags, 1)
    body += number(engines, 1) if flags & ENGINES else b""
    body += number(alter_sequence, 8) if has_alter else b""
    body += number(thread_id, 4) if flags & THREAD_ID else b""
    return body, {
        "flags": flags,
        "engines": engines if flags & ENGINES else None,
        "alter_sequence": alter_sequence if has_alter else None,
        "thread_id": thread_id if flags & THREAD_ID else None,
    }


def gtid(server_id, domain, sequence, flags=0, commit_id=0, xa=(b"", None), extra=None, padding=b""):
    """`extra` are the extra flags and their parts; without them and without ids, zeros are written."""
    has_xa = flags & (PREPARED_XA | COMPLETED_XA) != 0
    has_commit_id = flags & GROUP_COMMIT_ID != 0
    body = number(sequence, 8) + number(domain, 4) + number(flags, 1)
    body += number(commit_id, 8) if has_commit_id else b""
    body += xa[0] if has_xa else b""
    if extra is None and not has_xa and not has_commit_id:
        extra, padding = extra_parts(0), bytes(5)
    if extra is not None:
        body += extra[0] + padding
    data = {
        "gtid": f"{domain}-{server_id}-{sequence}",
        "flags": flags,
        "commit_id": commit_id if has_commit_id else None,
        "xa_id": xa[1] if has_xa else None,
        "extra": None if extra is None else extra[1],
    }
    return Event(162, "GTID_EVENT", body, data)


def gtid_list(flags, entries):
    """`entries` are domains, server ids and sequence numbers."""
    body = number((flags << 28) + len(entries), 4)
    body += b"".join(number(domain, 4) + number(server, 4) + number(sequence, 8) for domain, server, sequence in entries)
    gtids = [f"{domain}-{server}-{sequence}" for domain, server, sequence in entries]
    return Event(163, "GTID_LIST_EVENT", body, {"flags": flags, "gtids": gtids})


def start_encryption(scheme, key_version, nonce):
    data = {"scheme": scheme, "key_version": key_version, "nonce": nonce.hex()}
    return Event(164, "START_ENCRYPTION_EVENT", number(scheme, 1) + number(key_version, 4) + nonce, data)


def stored(text, width=None, level=6):
    """What is stored for a text: the method, and in `width` bytes the length; by default in the fewest."""
    size = len(bytes_of(text))
    width = width or max(1, (size.bit_length() + 7) // 8)
    return bytes([0x80 + width]) + size.to_bytes(width, "big") + zlib.compress(bytes_of(text), level)


def query_compressed(text, compressed, status_vars=(), schema="test", tail=b""):
    """`compressed` stands in the place of the text; if it is None, what is stored for the text."""
    head = {"thread_id": 7, "execution_time": 8, "error_code": 9}
    content = stored(text) if compressed is None else compressed
    body, data = encode.statement(head, b"", status_vars=status_vars, tail=tail, schema=schema, text=content)
    return Event(165, "QUERY_COMPRESSED_EVENT", body, data | {"query": shown(text), "compressed": True})


def rows_compressed(kind, spelling, rows, extra, **parts):
    event = encode.rows(kind, spelling, extra=extra, content=stored(rows), **parts)
    data = event.data | {"rows_data": rows.hex(), "compressed": True}
    if extra[0] is None:
        data.pop("extra_data", None)
    return event._replace(data=data)


def refused(event, body, error):
    return event._replace(body=body, data={"error": error})


# ---- events


def gtids(server_id):
    greatest = ((1 << 32) - 1, (1 << 64) - 1)
    yield gtid(server_id, 0, 1)
    yield gtid(server_id, *greatest, flags=0x3D)
    yield gtid(server_id, 3, 4, flags=GROUP_COMMIT_ID, commit_id=(1 << 64) - 1)
    for flag in (PREPARED_XA, COMPLETED_XA, PREPARED_XA | COMPLETED_XA | GROUP_COMMIT_ID):
        yield gtid(server_id, 3, 5, flags=flag, commit_id=6, xa=xa_id(1, b"global", b""))
        yield gtid(server_id, 3, 5, flags=flag, commit_id=6, xa=xa_id((1 << 32) - 1, b"g" * 64, b"\xff" * 64))
    for bits in product((0, ENGINES), (0, 2, COMMIT_ALTER, ROLLBACK_ALTER), (0, THREAD_ID)):
        extra = extra_parts(sum(bits), engines=255, alter_sequence=(1 << 63) + 1, thread_id=12345)
        yield gtid(server_id, 1, 2, flags=GROUP_COMMIT_ID, commit_id=3, extra=extra)
        yield gtid(server_id, 1, 2, extra=extra, padding=bytes(6))
    short = gtid(server_id, 1, 2)
    yield refused(short, short.body[:-1], ENDS)
    yield refused(short, short.body[:12], ENDS)


def gtid_lists():
    yield gtid_list(0, [(0, 1, 2)])
    yield gtid_list(15, [((1 << 32) - 1, (1 << 32) - 1, (1 << 64) - 1), (0, 0, 0), (7, 8, 9)])
    yield Event(163, "GTID_LIST_EVENT", number(0, 4) + bytes(2), {"flags": 0, "gtids": []})
    one = gtid_list(0, [(0, 1, 2)])
    yield refused(one, one.body[:-1], ENDS)
    yield refused(one, one.body + b"x", LEFT_OVER)


def small_events():
    for text in ("", "insert into t values (1)", "h\u00e4\"\n", b"\xff"):
        yield annotate_rows(text)
        yield binlog_checkpoint(text)
    checkpoint = binlog_checkpoint("mariadb-bin.000001")
    yield refused(checkpoint, checkpoint.body[:-1], ENDS)
    yield refused(checkpoint, checkpoint.body + b"x", LEFT_OVER)
    encryption = start_encryption(1, 2, bytes(range(12)))
    yield encryption
    yield refused(encryption, encryption.body[:-1], ENDS)


def queries():
    texts = ("", "select 1", "x" * 70_000, "h\u00e4\"\n\u2603" * 100, b"\xff\xfe" * 50)
    for text in texts:
        for level in (0, 1, 9):
            yield query_compressed(text, stored(text, level=level))
        yield query_compressed(text, stored(text, width=4))
    yield query_compressed("select 1", None, status_vars=[encode.number_variable("SqlMode", 1)], schema=b"\xff")
    # Collations of MariaDB's latin1 and big5, of which MySQL has none.
    text = "caf\u00e9 \u20ac"
    yield query_compressed(text, stored(text.encode("cp1252")), status_vars=[encode.charset(1032, 33, 33)])
    yield query_compressed(b"select 1", None, status_vars=[encode.charset(1025, 33, 33)])
    # `character_set_collations` in front of a client's latin1.
    yield query_compressed(text, stored(text.encode("cp1252")), tail=b"\x83\1\x21\0\0\x08" + encode.charset(1032, 33, 33)[0])
    whole = query_compressed("select 1", None)
    text = stored("select 1")
    damaged = text[:-1] + bytes([text[-1] ^ 1])
    wrong = [b"", b"\x80", b"\x85" + text[1:], b"\x01" + text[1:], text[:3], text[:-1], damaged, b"\x81\x09" + text[2:]]
    # A length above the greatest.
    wrong += [b"\x84\xff\xff\xff\xff" + text[2:]]
    for content in wrong:
        yield refused(whole, query_compressed("", content).body, INVALID)


def row_events(lengths):
    for kind in ROWS_KINDS:
        older = kind[0] < 169
        spelling = encoded_logs.spelling_of(lengths, kind[0] - 143 if older else kind[0] - 139)
        extra = (None, b"") if older else (2 + 3, b"abc")
        for rows in (b"", b"\xfe\7", bytes(range(256)) * 20):
            parts = {"table_id": 5, "flags": 0xFFFF, "before": [True, False], "after": [False, True]}
            yield rows_compressed(kind, spelling, rows, extra, **parts)
        event = rows_compressed(kind, spelling, b"\xfe\7", extra, **parts)
        yield refused(event, event.body[:-1], INVALID)


# ---- logs


def server_of(index):
    """The id of the server in the header of the event with this index."""
    return encoded_logs.HEADERS[index % len(encoded_logs.HEADERS)][1]


def with_own_server(event, index):
    """The same with the text of its GTID for the server in the header that it gets."""
    if event.type != 162 or "gtid" not in event.data:
        return event
    domain, _, sequence = event.data["gtid"].split("-")
    return event._replace(data=event.data | {"gtid": f"{domain}-{server_of(index)}-{sequence}"})


def without_names(event):
    """The same in a log that another server wrote: its type is unknown."""
    return event._replace(name=None, data=None) if event.type >= 160 else event


def sample():
    """A small log of events of each kind."""
    described = encoded_logs.described("maria", encoded_logs.POST_HEADER_LENGTHS, server_version="10.11.6-MariaDB", algorithm=1)
    events = [described.event, gtid(0, 0, 7), gtid_list(0, [(0, 1, 2), (3, 4, 5)]), annotate_rows("select 1")]
    events += [query_compressed("insert into t values (1)" * 20, None), *list(row_events(described.lengths))[:1]]
    return encoded_logs.log("MariaDB", [with_own_server(event, index) for index, event in enumerate(events)])


def logs():
    """Logs of each event, of MariaDB and of another server, each with its lines of JSON."""
    lengths = encoded_logs.POST_HEADER_LENGTHS
    for version in ("10.11.6-MariaDB-log", "5.5.5-10.0.1-MariaDB", "8.0.36", "10.11.6-mariadb"):
        # A server before 5.6.1, which a MariaDB that states 5.5.5 claims to be, has no checksums.
        algorithm = None if version.startswith("5.5.5") else 1
        described = encoded_logs.described("maria", lengths, server_version=version, algorithm=algorithm)
        events = [described.event, *gtids(0), *gtid_lists(), *small_events(), *queries(), *row_events(described.lengths)]
        events = [with_own_server(event, index) for index, event in enumerate(events)]
        is_maria = "-MariaDB" in version
        yield encoded_logs.log(version, events if is_maria else map(without_names, events))
