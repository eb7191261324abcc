"""A plain model of MariaDB's own events of a log, each as words by their keys, and these words of an event's line of JSON.

Written from MariaDB's documentation of its events. Only logs of MariaDB without faults have words.
"""

import zlib

import event_data_model
import listing_model
from event_data_model import number_in, taken, taken_number

ANNOTATE_ROWS, BINLOG_CHECKPOINT, GTID, GTID_LIST, START_ENCRYPTION, QUERY_COMPRESSED = range(160, 166)
QUERY = 2

# The types of compressed rows, and those whose bodies they have.
ROWS_COMPRESSED = dict(zip(range(166, 172), (23, 24, 25, 30, 31, 32)))

# The flags of a GTID, and its extra flags.
STANDALONE, GROUP_COMMIT_ID, TRANSACTIONAL, ALLOW_PARALLEL, WAITED, DDL, PREPARED_XA, COMPLETED_XA = (1 << n for n in range(8))
MULTI_ENGINE, START_ALTER, COMMIT_ALTER, ROLLBACK_ALTER, THREAD_ID = (1 << n for n in range(5))

ROWS_FLAGS = 15


def uncompressed(stored):
    """The text of what is stored: the length has as many bytes as the low bits of the first byte say."""
    count = stored[0] & 7
    text = zlib.decompress(stored[1 + count :])
    if stored[0] >> 4 != 8 or len(text) != int.from_bytes(stored[1 : 1 + count], "big"):
        raise ValueError("the head of compressed data")
    return text


def xa_id(data):
    head, data = taken(data, 6)
    gtrid, data = taken(data, head[4])
    bqual, data = taken(data, head[5])
    return {"xa_format": number_in(head, 0, 4), "xa_gtrid": gtrid, "xa_bqual": bqual}, data


def extra(data):
    flags, data = taken_number(data, 1)
    words = {"extra_flags": flags}
    if flags & MULTI_ENGINE:
        words["engines"], data = taken_number(data, 1)
    if flags & (COMMIT_ALTER | ROLLBACK_ALTER):
        words["alter_sequence"], data = taken_number(data, 8)
    if flags & THREAD_ID:
        words["thread_id"], data = taken_number(data, 4)
    return words | {"reserved": data}


def gtid(data):
    head, data = taken(data, 13)
    flags = head[12]
    words = {"sequence": number_in(head, 0, 8), "domain": number_in(head, 8, 4), "flags": flags}
    if flags & GROUP_COMMIT_ID:
        words["commit_id"], data = taken_number(data, 8)
    if flags & (PREPARED_XA | COMPLETED_XA):
        found, data = xa_id(data)
        words |= found
    return words | (extra(data) if data else {})


def gtid_list(data):
    number, data = taken_number(data, 4)
    entries = ""
    for place in range(0, 16 * (number % (1 << 28)), 16):
        domain, server, sequence = (number_in(data, place + offset, width) for offset, width in ((0, 4), (4, 4), (8, 8)))
        entries += f"{domain}-{server}-{sequence},"
    return {"list_flags": number >> 28, "gtids": entries}


def statement(data, lengths):
    head, _ = taken(data, event_data_model.QUERY_HEAD)
    status, behind = taken(data[event_data_model.stated_length(lengths, QUERY) :], number_in(head, 11, 2))
    schema, stored = behind[: head[8]], behind[head[8] + 1 :]
    numbers = {"thread_id": number_in(head, 0, 4), "exec_time": number_in(head, 4, 4), "error_code": number_in(head, 9, 2)}
    return numbers | {"schema": schema, "status_vars": status, "query": uncompressed(stored)}


def image(key, columns):
    """A digit for each column; no word if there is no such image."""
    return {} if columns is None else {key: "".join(str(int(is_there)) for is_there in columns)}


def rows(number, data, lengths):
    """The words of a row event's data, whose rows stand as they are stored."""
    found = event_data_model.fields(number, data, lengths)
    words = {"table": found["table_id"], "flags": found["flags"] & ROWS_FLAGS, "columns": found["num_columns"]}
    words |= image("before", found["columns_before_image"]) | image("after", found["columns_after_image"])
    return words | {"rows": found["rows_data"].bytes}


def words_of(number, data, lengths):
    """The words of an event's data by their keys, each a number, bytes or text; None if it isn't one of MariaDB's own."""
    if number in ROWS_COMPRESSED:
        words = rows(ROWS_COMPRESSED[number], data, lengths)
        return words | {"rows": uncompressed(words["rows"])}
    if number == ANNOTATE_ROWS:
        return {"query": data}
    if number == BINLOG_CHECKPOINT:
        return {"name": data[4:]}
    if number == START_ENCRYPTION:
        return {"scheme": data[0], "key_version": number_in(data, 1, 4), "nonce": data[5:]}
    if number == QUERY_COMPRESSED:
        return statement(data, lengths)
    return {GTID: gtid, GTID_LIST: gtid_list}[number](data) if number in (GTID, GTID_LIST) else None


def line(words):
    """The line of words: numbers are decimal, bytes are hexadecimal."""
    return " ".join(f"{key}={value.hex() if isinstance(value, bytes) else value}" for key, value in words.items())


def expected(content):
    """The words of each of MariaDB's own events of a log."""
    frames, _ = listing_model.split(content[len(listing_model.FILE_HEADER) :])
    for frame, in_force in zip(frames, listing_model.in_force_at(frames)):
        data, _ = listing_model.cut(frame, in_force.algorithm)
        number = listing_model.type_number(frame)
        words = words_of(number, data, in_force.lengths)
        if words is not None:
            server = listing_model.number(frame, 5, 4)
            head = {"end": listing_model.log_pos(frame), "size": len(frame), "type": number, "server": server}
            yield head | words


# ---- lines of JSON

# The words that lines of JSON have in another form, or not.
UNSHOWN = {"status_vars", "reserved"}


def is_own(shown):
    """Whether a line of JSON is that of an event of MariaDB's own."""
    return shown["type"] >= ANNOTATE_ROWS and shown["name"] is not None


def shown_words(shown):
    """The words of an event by its line of JSON, without those that aren't shown."""
    number, data = shown["type"], shown["data"]
    head = {"end": shown["log_pos"], "size": shown["event_size"], "type": number, "server": shown["server_id"]}
    if number in ROWS_COMPRESSED:
        return head | shown_rows(data)
    if number == QUERY_COMPRESSED:
        words = {"thread_id": data["thread_id"], "exec_time": data["execution_time"], "error_code": data["error_code"]}
        return head | words | {key: shown_text(data[key]) for key in ("schema", "query")}
    if number == START_ENCRYPTION:
        return head | data | {"nonce": bytes.fromhex(data["nonce"])}
    if number == GTID_LIST:
        return head | {"list_flags": data["flags"], "gtids": "".join(f"{gtid}," for gtid in data["gtids"])}
    if number == GTID:
        return head | shown_gtid(data)
    return head | {key: shown_text(text) for key, text in data.items()}


def shown_text(text):
    return bytes.fromhex(text["hex"]) if isinstance(text, dict) else text.encode()


def shown_rows(data):
    words = {"table": data["table_id"], "flags": data["flags"] & ROWS_FLAGS, "columns": data["num_columns"]}
    words |= image("before", data["columns_before_image"]) | image("after", data["columns_after_image"])
    return words | {"rows": bytes.fromhex(data["rows_data"])}


def shown_gtid(data):
    domain, _, sequence = map(int, data["gtid"].split("-"))
    words = {"sequence": sequence, "domain": domain, "flags": data["flags"]}
    if data["commit_id"] is not None:
        words["commit_id"] = data["commit_id"]
    if found := data["xa_id"]:
        names = {"xa_gtrid": bytes.fromhex(found["gtrid"]), "xa_bqual": bytes.fromhex(found["bqual"])}
        words |= {"xa_format": found["format_id"]} | names
    if found := data["extra"]:
        words |= {"extra_flags": found["flags"]}
        words |= {key: found[key] for key in ("engines", "alter_sequence", "thread_id") if found[key] is not None}
    return words
