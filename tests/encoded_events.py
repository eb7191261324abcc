"""An encoder of events: from plain values it makes a body and the `data` object of its JSON line.

Written from the formats of the bodies and of the lines, on its own: nothing here reads bytes. A
text is a string, or bytes if it isn't UTF-8. The parameters also give the reserved bytes of a
body, and which of several encodings a number has.
"""

from collections import namedtuple
from uuid import UUID

# The event type and its name, the body, and the `data` object of the JSON line.
Event = namedtuple("Event", "type name body data")

KEPT_NAMES = {
    1: "START_EVENT_V3",
    6: "LOAD_EVENT",
    8: "CREATE_FILE_EVENT",
    9: "APPEND_BLOCK_EVENT",
    10: "EXEC_LOAD_EVENT",
    11: "DELETE_FILE_EVENT",
    12: "NEW_LOAD_EVENT",
    20: "PRE_GA_WRITE_ROWS_EVENT",
    21: "PRE_GA_UPDATE_ROWS_EVENT",
    22: "PRE_GA_DELETE_ROWS_EVENT",
    28: "IGNORABLE_EVENT",
    36: "TRANSACTION_CONTEXT_EVENT",
    37: "VIEW_CHANGE_EVENT",
    38: "XA_PREPARE_LOG_EVENT",
    40: "TRANSACTION_PAYLOAD_EVENT",
}
IGNORED_NAMES = {
    0: "UNKNOWN_EVENT",
    3: "STOP_EVENT",
    7: "SLAVE_EVENT",
    27: "HEARTBEAT_EVENT",
    43: "ENUM_END_EVENT",
}
UNKNOWN_TYPES = [41, *range(44, 256)]

# The type number, the name, and whether there are a before image and an after image.
ROWS_KINDS = [
    (23, "WRITE_ROWS_EVENT_V1", False, True),
    (24, "UPDATE_ROWS_EVENT_V1", True, True),
    (25, "DELETE_ROWS_EVENT_V1", True, False),
    (30, "WRITE_ROWS_EVENT", False, True),
    (31, "UPDATE_ROWS_EVENT", True, True),
    (32, "DELETE_ROWS_EVENT", True, False),
    (39, "PARTIAL_UPDATE_ROWS_EVENT", True, True),
]

# The older types, which keep no extra bytes.
OLDER_ROWS = (23, 24, 25)

# The status variables that are numbers: key and width.
NUMBER_VARIABLES = {
    "Flags2": (0, 4),
    "SqlMode": (1, 8),
    "LcTimeNames": (7, 2),
    "CharsetDatabase": (8, 2),
    "TableMapForUpdate": (9, 8),
    "Microseconds": (13, 3),
    "DdlLoggedWithXid": (17, 8),
    "DefaultCollationForUtf8mb4": (18, 2),
    "SqlRequirePrimaryKey": (19, 1),
    "DefaultTableEncryption": (20, 1),
}

UNDEFINED_VERSION = 999_999


# ---- encodings


def number(value, width):
    return value.to_bytes(width, "little")


def bytes_of(text):
    return text if isinstance(text, bytes) else text.encode("utf-8")


def shown(text):
    return {"hex": text.hex()} if isinstance(text, bytes) else text


def counted(text, width=1):
    return number(len(bytes_of(text)), width) + bytes_of(text)


def length_encoded(value, width=None):
    """In `width` bytes after the prefix, or in 1 without one; by default in the fewest bytes."""
    if width is None:
        bounds = ((1, 251), (2, 1 << 16), (3, 1 << 24))
        width = next((width for width, bound in bounds if value < bound), 8)
    mark = {1: b"", 2: b"\xfc", 3: b"\xfd", 8: b"\xfe"}[width]
    return mark + number(value, width)


def variable(value, width=None):
    """In `width` bytes, of which 9 begin with `ff`; by default in the fewest bytes."""
    if width is None:
        width = next((width for width in range(1, 9) if value < 1 << 7 * width), 9)
    if width == 9:
        return b"\xff" + number(value, 8)
    return number((value << width) + (1 << (width - 1)) - 1, width)


def bits(flags, fill=False):
    """One bit for each flag, least significant first; the bits after the last one are `fill`."""
    padded = [*flags, *(-len(flags) % 8 * [fill])]
    return number(sum(flag << place for place, flag in enumerate(padded)), len(padded) // 8)


def uuid(source):
    return str(UUID(bytes=source))


# ---- status variables: the bytes, and the element of the JSON array


def status_variable(key, name, content, value):
    return number(key, 1) + content, {"key": name, "value": value}


def number_variable(name, value):
    key, width = NUMBER_VARIABLES[name]
    return status_variable(key, name, number(value, width), value)


def catalog(text, ended=b"\0"):
    content = counted(text) + ended
    return status_variable(2, "Catalog", content, content.hex())


def auto_increment(increment, offset):
    content = number(increment, 2) + number(offset, 2)
    return status_variable(3, "AutoIncrement", content, {"increment": increment, "offset": offset})


def charset(client, connection, server):
    value = {
        "charset_client": client,
        "collation_connection": connection,
        "collation_server": server,
    }
    content = number(client, 2) + number(connection, 2) + number(server, 2)
    return status_variable(4, "Charset", content, value)


def time_zone(text):
    return status_variable(5, "TimeZone", counted(text), shown(text))


def catalog_nz(text):
    return status_variable(6, "CatalogNz", counted(text), shown(text))


def master_data_written(content):
    return status_variable(10, "MasterDataWritten", content, content.hex())


def invoker(username, hostname):
    value = {"username": shown(username), "hostname": shown(hostname)}
    return status_variable(11, "Invoker", counted(username) + counted(hostname), value)


def updated_names(names):
    content = number(len(names), 1) + b"".join(bytes_of(name) + b"\0" for name in names)
    return status_variable(12, "UpdatedDbNames", content, [shown(name) for name in names])


def too_many_names():
    return status_variable(12, "UpdatedDbNames", b"\xfe", [])


def commit_time(key):
    return status_variable(key, {14: "CommitTs", 15: "CommitTs2"}[key], b"", "")


def explicit_defaults(byte):
    return status_variable(16, "ExplicitDefaultsForTimestamp", number(byte, 1), byte != 0)


# ---- statements


def statement(head, load, *, status_vars=(), tail=b"", schema="", text="", query=None, between=0):
    """The common part of QUERY and EXECUTE_LOAD_QUERY: a body whose head ends with `load`, and its members.

    `tail` comes after the last whole status variable, and isn't one. `query` is what a text in another character set is.
    """
    status = b"".join(content for content, _ in status_vars) + tail
    body = number(head["thread_id"], 4) + number(head["execution_time"], 4)
    body += number(len(bytes_of(schema)), 1) + number(head["error_code"], 2)
    body += number(len(status), 2) + load + status
    body += bytes_of(schema) + number(between, 1) + bytes_of(text)
    variables = {"status_vars": [member for _, member in status_vars]}
    if tail:
        variables["status_vars_rest"] = tail.hex()
    return body, head | variables | {"schema": shown(schema), "query": shown(text if query is None else query)}


def query(*, thread_id=0, execution_time=0, error_code=0, skipped=b"", **texts):
    """`skipped` comes after the head, if the description states a longer post-header."""
    head = {"thread_id": thread_id, "execution_time": execution_time, "error_code": error_code}
    body, data = statement(head, skipped, **texts)
    return Event(2, "QUERY_EVENT", body, data)


def execute_load_query(*, ids, file_id, start_pos, end_pos, dup_handling, **texts):
    """`ids` are the thread id, the execution time and the error code."""
    thread_id, execution_time, error_code = ids
    head = {
        "thread_id": thread_id,
        "execution_time": execution_time,
        "error_code": error_code,
        "file_id": file_id,
        "start_pos": start_pos,
        "end_pos": end_pos,
        "dup_handling": dup_handling,
    }
    load = number(file_id, 4) + number(start_pos, 4) + number(end_pos, 4) + number(dup_handling, 1)
    body, data = statement(head, load, **texts)
    return Event(18, "EXECUTE_LOAD_QUERY_EVENT", body, data)


def begin_load_query(*, file_id, block):
    data = {"file_id": file_id, "block_data": block.hex()}
    return Event(17, "BEGIN_LOAD_QUERY_EVENT", number(file_id, 4) + block, data)


def rows_query(*, text, skipped=0):
    body = number(skipped, 1) + bytes_of(text)
    return Event(29, "ROWS_QUERY_EVENT", body, {"query": shown(text)})


# ---- small bodies


def format_description(
    *, binlog_version=4, server_version, hidden=b"", create_timestamp=0, lengths=b"", algorithm=None
):
    """`hidden` comes after the version's first zero byte. A footer is part of the frame."""
    version = bytes_of(server_version) + (b"\0" + hidden if hidden else b"")
    body = number(binlog_version, 2) + version.ljust(50, b"\0") + number(create_timestamp, 4)
    data = {
        "binlog_version": binlog_version,
        "server_version": shown(server_version),
        "create_timestamp": create_timestamp,
        "event_header_length": 19,
        "event_type_header_lengths": lengths.hex(),
        "checksum_alg": algorithm,
    }
    return Event(15, "FORMAT_DESCRIPTION_EVENT", body + number(19, 1) + lengths, data)


def rotate(*, position, name):
    data = {"position": position, "name": shown(name)}
    return Event(4, "ROTATE_EVENT", number(position, 8) + bytes_of(name), data)


def intvar(*, subtype, value):
    data = {"subtype": subtype, "value": value}
    return Event(5, "INTVAR_EVENT", number(subtype, 1) + number(value, 8), data)


def rand(*, seed1, seed2):
    data = {"seed1": seed1, "seed2": seed2}
    return Event(13, "RAND_EVENT", number(seed1, 8) + number(seed2, 8), data)


def xid(*, value, skipped=b""):
    """`skipped` is the post-header, whose length the description states."""
    return Event(16, "XID_EVENT", skipped + number(value, 8), {"xid": value})


def incident(*, incident_type, message):
    data = {"incident_type": incident_type, "message": shown(message)}
    return Event(26, "INCIDENT_EVENT", number(incident_type, 2) + counted(message), data)


def user_var_data(name, is_null, value_type, charset_number, value, flags):
    return {
        "name": shown(name),
        "is_null": is_null,
        "value_type": value_type,
        "charset": charset_number,
        "value": value.hex(),
        "flags": flags,
    }


def null_user_var(*, name, null=1):
    body = counted(name, 4) + number(null, 1)
    return Event(14, "USER_VAR_EVENT", body, user_var_data(name, True, 0, 63, b"", 0))


def user_var(*, name, value_type, charset_number, value, flags=None):
    """Without flags there is no flags byte."""
    body = counted(name, 4) + b"\0" + value_type.to_bytes(1, "little", signed=True)
    body += number(charset_number, 4) + counted(value, 4)
    body += b"" if flags is None else number(flags, 1)
    data = user_var_data(name, False, value_type, charset_number, value, flags or 0)
    return Event(14, "USER_VAR_EVENT", body, data)


def kept(number_of_type, body):
    return Event(number_of_type, KEPT_NAMES[number_of_type], body, {"raw": body.hex()})


def ignored(number_of_type, body):
    return Event(number_of_type, IGNORED_NAMES[number_of_type], body, {})


def unknown(number_of_type, body):
    return Event(number_of_type, None, body, None)


def refused(event, body, error):
    """An event of this type with a body that is malformed."""
    return event._replace(body=body, data={"error": error})


# ---- GTIDs

GTID_TYPES = {33: "GTID_EVENT", 34: "ANONYMOUS_GTID_EVENT", 42: "GTID_TAGGED_LOG_EVENT"}


def gtid_data(values):
    """The members of a GTID with these values; absent ones have their defaults."""
    time = values.get("immediate_commit_timestamp", 0)
    version = values.get("immediate_server_version", UNDEFINED_VERSION)
    defaults = {
        "flags": 0,
        "sid": bytes(16),
        "gno": 0,
        "tag": None,
        "lc_typecode": None,
        "last_committed": 0,
        "sequence_number": 0,
        "immediate_commit_timestamp": 0,
        "original_commit_timestamp": time,
        "tx_length": 0,
        "immediate_server_version": UNDEFINED_VERSION,
        "original_server_version": version,
        "commit_group_ticket": 0,
    }
    data = defaults | values
    return data | {"sid": uuid(data["sid"])}


def with_original(values, name, width):
    """An immediate value, whose top bit states whether the original one follows, and the original one."""
    immediate, original = values.get(f"immediate_{name}"), values.get(f"original_{name}")
    if immediate is None:
        return b""
    follows = 0 if original is None else 1 << 8 * width - 1
    behind = b"" if original is None else number(original, width)
    return number(immediate | follows, width) + behind


def parts_behind_clock(parts, length_width):
    """The timestamps, the transaction length and the versions, each if it is given.

    Which of them are read depends on how many bytes are left, so not every choice can be read.
    """
    times = with_original(parts, "commit_timestamp", 7)
    length = length_encoded(parts["tx_length"], length_width) if "tx_length" in parts else b""
    versions = with_original(parts, "server_version", 4)
    if not times and len(length + versions) >= 7 or versions and not length:
        raise ValueError("these parts of a GTID would be read as others")
    return times + length + versions


def gtid(type_number, *, flags=0, sid, gno, clock=None, length_width=None, **parts):
    """A GTID without a tag; `clock` are `last_committed` and `sequence_number`."""
    body = number(flags, 1) + sid + number(gno, 8)
    values = {"flags": flags, "sid": sid, "gno": gno}
    if clock is not None:
        last_committed, sequence_number = clock
        body += b"\2" + number(last_committed, 8) + number(sequence_number, 8)
        body += parts_behind_clock(parts, length_width)
        values |= {"lc_typecode": 2, "last_committed": last_committed}
        values |= {"sequence_number": sequence_number} | parts
    return Event(type_number, GTID_TYPES[type_number], body, gtid_data(values))


# The fields of a GTID with a tag, in the order of their ids.
TAGGED_FIELDS = [
    "flags",
    "sid",
    "gno",
    "tag",
    "last_committed",
    "sequence_number",
    "immediate_commit_timestamp",
    "original_commit_timestamp",
    "tx_length",
    "immediate_server_version",
    "original_server_version",
    "commit_group_ticket",
]
SIGNED_FIELDS = {"gno", "last_committed", "sequence_number"}


def tagged_field(name, value, width=None):
    identifier = variable(TAGGED_FIELDS.index(name), width)
    if name == "sid":
        return identifier + b"".join(variable(byte, width) for byte in value)
    if name == "tag":
        return identifier + variable(len(value), width) + value.encode("ascii")
    return identifier + variable(2 * value if name in SIGNED_FIELDS else value, width)


def counting_itself(behind, width):
    """The size of these bytes, of one before it and of itself; in `width` bytes, by default in the fewest."""
    for own in range(1, 10) if width is None else [width]:
        size = 1 + own + len(behind)
        if own == 9 or size < 1 << 7 * own:
            return variable(size, own)
    raise ValueError(f"{len(behind)} bytes can't be counted in {width}")


def tagged_gtid(fields, *, last=0, ignorable=b"", size_width=None, width=None):
    """The fields in this order; the last one of an id counts. `ignorable` comes after them."""
    behind = variable(last, width) + b"".join(tagged_field(*field, width) for field in fields)
    behind += ignorable
    body = b"\2" + counting_itself(behind, size_width) + behind
    return Event(42, GTID_TYPES[42], body, gtid_data(dict(fields)))


def tag_of_entry(tag):
    name = (tag or "").encode("ascii")
    return variable(len(name)) + name


def intervals_of_entry(intervals):
    numbers = b"".join(number(start, 8) + number(end, 8) for start, end in intervals)
    return number(len(intervals), 8) + numbers


def previous_gtids(entries, *, form=None, low_byte=0):
    """Each entry is a SID, a tag or None, and pairs of numbers.

    `form` is the top byte of the form with tags.
    """
    head = len(entries) if form is None else form << 56 | len(entries) << 8 | low_byte
    body, sids = number(head, 8), []
    for sid, tag, intervals in entries:
        body += sid + (b"" if form is None else tag_of_entry(tag)) + intervals_of_entry(intervals)
        pairs = [list(pair) for pair in intervals]
        sids.append({"uuid": uuid(sid), "tag": tag, "intervals": pairs})
    return Event(35, "PREVIOUS_GTIDS_EVENT", body, {"sids": sids})


# ---- rows


# The encoding of a table map: the width of its id and of its lengths, the reserved bytes,
# and the bits after the last column's.
Spelling = namedtuple("Spelling", "id_width width between fill", defaults=[None, 0, False])


def table_map(
    spelling, *, table_id, flags, database, table, types, metadata, nulls, optional=b""
):
    between = number(spelling.between, 1)
    body = number(table_id, spelling.id_width) + number(flags, 2)
    body += counted(database) + between + counted(table) + between
    body += length_encoded(len(types), spelling.width) + types
    body += length_encoded(len(metadata), spelling.width) + metadata
    body += bits(nulls, spelling.fill) + optional
    data = {
        "table_id": table_id,
        "flags": flags,
        "database_name": shown(database),
        "table_name": shown(table),
        "columns_count": len(types),
        "columns_type": types.hex(),
        "columns_metadata": metadata.hex(),
        "null_bitmask": list(nulls),
        "optional_metadata": optional.hex(),
    }
    return Event(19, "TABLE_MAP_EVENT", body, data)


def rows(kind, spelling, *, table_id, flags, extra, before, after, content):
    """`extra` is the count of extra bytes, or None, and the bytes. An image that the kind lacks isn't written."""
    number_of_type, name, has_before, has_after = kind
    columns = len(before)
    count, extra_bytes = extra
    body = number(table_id, spelling.id_width) + number(flags, 2)
    body += b"" if count is None else number(count, 2) + extra_bytes
    body += length_encoded(columns, spelling.width)
    body += bits(before, spelling.fill) if has_before else b""
    body += bits(after, spelling.fill) if has_after else b""
    data = {"table_id": table_id, "flags": flags}
    if extra_bytes and number_of_type not in OLDER_ROWS:
        data["extra_data"] = extra_bytes.hex()
    data |= {
        "num_columns": columns,
        "columns_before_image": list(before) if has_before else None,
        "columns_after_image": list(after) if has_after else None,
        "rows_data": content.hex(),
    }
    return Event(number_of_type, name, body + content, data)


# ---- lines

ESCAPES = dict(zip('"\\\b\t\n\f\r', ['\\"', "\\\\", "\\b", "\\t", "\\n", "\\f", "\\r"]))


def quoted(text):
    escaped = (ESCAPES.get(one) or (f"\\u{ord(one):04x}" if one < " " else one) for one in text)
    return f'"{"".join(escaped)}"'


def json_text(value):
    """A JSON value without spaces; members keep their order."""
    if isinstance(value, str):
        return quoted(value)
    if isinstance(value, dict):
        members = (f"{quoted(name)}:{json_text(member)}" for name, member in value.items())
        return "{" + ",".join(members) + "}"
    if isinstance(value, list):
        return "[" + ",".join(json_text(item) for item in value) + "]"
    if value is None:
        return "null"
    if isinstance(value, bool):
        return "true" if value else "false"
    return str(value)


def word(event):
    if event.name is None:
        return "unknown"
    return "refused" if "error" in event.data else "read"
