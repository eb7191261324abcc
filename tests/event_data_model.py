"""A plain model of event data: whether the data of an event is a body of the event's type, and its fields.

Written from the formats of the bodies. A fault is raised if the data ends within a body or a field isn't allowed. A
decoder returns the fields of the body, by their names, and the bytes after it, of which there must be none.

A field is a number, a boolean, None, a list, or one of the kinds of bytes below.
"""

from collections import namedtuple

# Bytes that are text, bytes that aren't, and the 16 bytes of a SID.
Text = namedtuple("Text", "bytes")
Bytes = namedtuple("Bytes", "bytes")
Uuid = namedtuple("Uuid", "bytes")

READ, UNKNOWN, REFUSED = "read", "unknown", "refused"

# Types whose data is kept as bytes, and types whose data isn't looked at.
KEPT = {1, 6, 8, 9, 10, 11, 12, 20, 21, 22, 28, 36, 37, 38, 40}
IGNORED = {0, 3, 7, 27, 43}

XID, TABLE_MAP = 16, 19
# The types of row events, and whether each has a before image and an after image.
OLDER_ROWS = {23: (False, True), 24: (True, True), 25: (True, False)}
ROWS = {30: (False, True), 31: (True, True), 32: (True, False), 39: (True, True)}

# The default post-header lengths, of all types that have a post-header.
DEFAULT_LENGTHS = {
    1: 56,  # START_EVENT_V3
    2: 13,  # QUERY_EVENT
    4: 8,  # ROTATE_EVENT
    9: 4,  # APPEND_BLOCK_EVENT
    11: 4,  # DELETE_FILE_EVENT
    15: 99,  # FORMAT_DESCRIPTION_EVENT
    17: 4,  # BEGIN_LOAD_QUERY_EVENT
    18: 26,  # EXECUTE_LOAD_QUERY_EVENT
    19: 8,  # TABLE_MAP_EVENT
    23: 8,  # WRITE_ROWS_EVENT_V1
    24: 8,  # UPDATE_ROWS_EVENT_V1
    25: 8,  # DELETE_ROWS_EVENT_V1
    26: 2,  # INCIDENT_EVENT
    30: 10,  # WRITE_ROWS_EVENT
    31: 10,  # UPDATE_ROWS_EVENT
    32: 10,  # DELETE_ROWS_EVENT
    33: 42,  # GTID_EVENT
    34: 42,  # ANONYMOUS_GTID_EVENT
    36: 18,  # TRANSACTION_CONTEXT_EVENT
    37: 52,  # VIEW_CHANGE_EVENT
    39: 10,  # PARTIAL_UPDATE_ROWS_EVENT
}

QUERY_HEAD = 13
LOAD_HEAD = 26
CLOCK_CODE = 2
ORIGINAL_TIME_FOLLOWS = 1 << 55
ORIGINAL_VERSION_FOLLOWS = 1 << 31
UNDEFINED_VERSION = 999_999
SID_LENGTH = 16
INTERVAL_LENGTH = 16
TAG_LETTERS = frozenset(b"0123456789_abcdefghijklmnopqrstuvwxyzABCDEFGHIJKLMNOPQRSTUVWXYZ")


class Fault(Exception):
    """A malformed body; its argument is the number of the error."""


def taken(data, length):
    """The first `length` bytes, and those after them."""
    if len(data) < length:
        raise Fault(5)
    return data[:length], data[length:]


def taken_number(data, width):
    digits, data = taken(data, width)
    return int.from_bytes(digits, "little"), data


def taken_text(data, width=1):
    """A text after its length."""
    length, data = taken_number(data, width)
    return taken(data, length)


def taken_length(data):
    """A length-encoded integer."""
    mark, data = taken_number(data, 1)
    if mark in (0xFB, 0xFF):
        raise Fault(6)
    width = {0xFC: 2, 0xFD: 3, 0xFE: 8}.get(mark)
    return (mark, data) if width is None else taken_number(data, width)


def taken_variable(data):
    """A variable-length integer: the trailing ones of its first byte count the bytes after it."""
    first, _ = taken_number(data, 1)
    if first == 0xFF:
        number, data = taken_number(data, 9)
        return number >> 8, data
    width = next(ones for ones in range(8) if not first >> ones & 1) + 1
    number, data = taken_number(data, width)
    return number >> width, data


def allowed(is_allowed):
    if not is_allowed:
        raise Fault(6)


# ---- statements


def number_in(data, offset, width):
    return int.from_bytes(data[offset : offset + width], "little")


def fixed_value(length, value_of):
    """A value of `length` bytes; None if there are fewer."""

    def decode(data):
        return (value_of(data[:length]), data[length:]) if len(data) >= length else None

    return decode


def number_value(width):
    return fixed_value(width, lambda data: number_in(data, 0, width))


def counted_value(data):
    if not data or len(data) <= data[0]:
        return None
    end = 1 + data[0]
    return Text(data[1:end]), data[end:]


def catalog_value(data):
    if not data or len(data) < data[0] + 2:
        return None
    end = data[0] + 2
    return Bytes(data[:end]), data[end:]


def invoker_value(data):
    username = counted_value(data)
    hostname = username and counted_value(username[1])
    return hostname and ({"username": username[0], "hostname": hostname[0]}, hostname[1])


def names_value(data):
    if not data:
        return None
    count, data = data[0], data[1:]
    names = []
    for _ in range(0 if count == 254 else count):
        name, zero, data = data.partition(b"\0")
        if not zero:
            return None
        names.append(Text(name))
    return names, data


# The name and the value of each key.
STATUS_VARIABLES = [
    ("Flags2", number_value(4)),
    ("SqlMode", number_value(8)),
    ("Catalog", catalog_value),
    ("AutoIncrement", fixed_value(4, lambda data: {"increment": number_in(data, 0, 2), "offset": number_in(data, 2, 2)})),
    (
        "Charset",
        fixed_value(
            6,
            lambda data: {
                "charset_client": number_in(data, 0, 2),
                "collation_connection": number_in(data, 2, 2),
                "collation_server": number_in(data, 4, 2),
            },
        ),
    ),
    ("TimeZone", counted_value),
    ("CatalogNz", counted_value),
    ("LcTimeNames", number_value(2)),
    ("CharsetDatabase", number_value(2)),
    ("TableMapForUpdate", number_value(8)),
    ("MasterDataWritten", fixed_value(4, Bytes)),
    ("Invoker", invoker_value),
    ("UpdatedDbNames", names_value),
    ("Microseconds", number_value(3)),
    ("CommitTs", fixed_value(0, Bytes)),
    ("CommitTs2", fixed_value(0, Bytes)),
    ("ExplicitDefaultsForTimestamp", fixed_value(1, lambda data: data != b"\0")),
    ("DdlLoggedWithXid", number_value(8)),
    ("DefaultCollationForUtf8mb4", number_value(2)),
    ("SqlRequirePrimaryKey", number_value(1)),
    ("DefaultTableEncryption", number_value(1)),
]


def status_variables(data):
    """The whole variables at the start, and the bytes after them."""
    variables = []
    while data and data[0] < len(STATUS_VARIABLES):
        key, value_of = STATUS_VARIABLES[data[0]]
        found = value_of(data[1:])
        if found is None:
            break
        variables.append({"key": key, "value": found[0]})
        data = found[1]
    return variables, data


def flags_length(data):
    """The length of the extra flags of a GTID: two bytes, and a sequence number of eight if they announce it."""
    return 10 if data and data[0] & (4 | 8) else 2


# The lengths of the values of the variables that have no key above.
UNLISTED = {
    21: lambda data: 1,
    128: lambda data: 3,
    129: lambda data: 8,
    130: flags_length,
    131: lambda data: 1 + 4 * number_in(data, 0, 1),
}


def behind_unlisted(data):
    """The bytes behind the variable without a key at the start, None if there is no whole one."""
    if not data or data[0] not in UNLISTED:
        return None
    end = 1 + UNLISTED[data[0]](data[1:])
    return data[end:] if end <= len(data) else None


def client_collations(data):
    """The collations of clients that status variables state, in order, also behind variables without a key."""
    while data is not None:
        variables, data = status_variables(data)
        yield from (variable["value"]["charset_client"] for variable in variables if variable["key"] == "Charset")
        data = behind_unlisted(data)


def unless_empty(name, content):
    """A member of bytes, left out if there are none."""
    return {name: Bytes(content)} if content else {}


def statement_head(head):
    return {"thread_id": number_in(head, 0, 4), "execution_time": number_in(head, 4, 4), "error_code": number_in(head, 9, 2)}


def statement_texts(data, head):
    status, data = taken(data, number_in(head, 11, 2))
    schema, data = taken(data, head[8])
    _, data = taken(data, 1)
    variables, behind = status_variables(status)
    texts = {"schema": Text(schema), "query": Text(data)}
    return {"status_vars": variables} | unless_empty("status_vars_rest", behind) | texts


def query(data, header_length):
    head, data = taken(data, QUERY_HEAD)
    _, data = taken(data, max(0, header_length - QUERY_HEAD))
    return statement_head(head) | statement_texts(data, head), b""


def load_query(data, _header_length):
    head, data = taken(data, LOAD_HEAD)
    allowed(head[25] <= 2)
    file = {
        "file_id": number_in(head, 13, 4),
        "start_pos": number_in(head, 17, 4),
        "end_pos": number_in(head, 21, 4),
        "dup_handling": head[25],
    }
    return statement_head(head) | file | statement_texts(data, head), b""


def user_variable(data, _header_length):
    name, data = taken_text(data, 4)
    is_null, data = taken_number(data, 1)
    value_type, charset, value, flags = b"\0", 63, b"", b"\0"
    if not is_null:
        value_type, data = taken(data, 1)
        charset, data = taken_number(data, 4) if len(data) >= 4 else taken(data, 4)
        value, data = taken_text(data, 4)
        flags, data = data[:1] or b"\0", data[1:]
    return {
        "name": Text(name),
        "is_null": is_null != 0,
        "value_type": int.from_bytes(value_type, "little", signed=True),
        "charset": charset,
        "value": Bytes(value),
        "flags": flags[0],
    }, data


# ---- small bodies


def rotate(data, _header_length):
    position, data = taken_number(data, 8)
    return {"position": position, "name": Text(data)}, b""


def intvar(data, _header_length):
    body, data = taken(data, 9)
    allowed(body[0] <= 2)
    return {"subtype": body[0], "value": number_in(body, 1, 8)}, data


def rand(data, _header_length):
    body, data = taken(data, 16)
    return {"seed1": number_in(body, 0, 8), "seed2": number_in(body, 8, 8)}, data


def xid(data, header_length):
    _, data = taken(data, header_length)
    number, data = taken_number(data, 8)
    return {"xid": number}, data


def begin_load_query(data, _header_length):
    number, data = taken_number(data, 4)
    return {"file_id": number, "block_data": Bytes(data)}, b""


def incident(data, _header_length):
    number, data = taken_number(data, 2)
    message, data = taken_text(data)
    return {"incident_type": number, "message": Text(message)}, data


def rows_query(data, _header_length):
    _, data = taken(data, 1)
    return {"query": Text(data)}, b""


def description(data):
    """The fields of an accepted description's data; the algorithm of its footer comes after them."""
    return {
        "binlog_version": number_in(data, 0, 2),
        "server_version": Text(data[2:52].split(b"\0")[0]),
        "create_timestamp": number_in(data, 52, 4),
        "event_header_length": data[56],
        "event_type_header_lengths": Bytes(data[57:]),
    }


# ---- rows


def taken_table_id(data, header_length):
    return taken_number(data, 4 if header_length == 6 else 6)


def taken_bits(data, count):
    """This many bits, the least significant bit of the first byte first."""
    digits, data = taken(data, (count + 7) // 8)
    bits = int.from_bytes(digits, "little")
    return [bits >> place & 1 == 1 for place in range(count)], data


def table_map(data, header_length):
    table_id, data = taken_table_id(data, header_length)
    flags, data = taken_number(data, 2)
    database, data = taken_text(data)
    _, data = taken(data, 1)
    table, data = taken_text(data)
    _, data = taken(data, 1)
    columns, data = taken_length(data)
    types, data = taken(data, columns)
    length, data = taken_length(data)
    metadata, data = taken(data, length)
    nulls, data = taken_bits(data, columns)
    return {
        "table_id": table_id,
        "flags": flags,
        "database_name": Text(database),
        "table_name": Text(table),
        "columns_count": columns,
        "columns_type": Bytes(types),
        "columns_metadata": Bytes(metadata),
        "null_bitmask": nulls,
        "optional_metadata": Bytes(data),
    }, b""


def rows(has_before, has_after, has_extra):
    def taken_image(data, columns, is_there):
        return taken_bits(data, columns) if is_there else (None, data)

    def decode(data, header_length):
        table_id, data = taken_table_id(data, header_length)
        flags, data = taken_number(data, 2)
        extra = b""
        if header_length == 10:
            count, data = taken_number(data, 2)
            extra, data = taken(data, max(0, count - 2))
        columns, data = taken_length(data)
        before, data = taken_image(data, columns, has_before)
        after, data = taken_image(data, columns, has_after)
        head = {"table_id": table_id, "flags": flags} | unless_empty("extra_data", extra if has_extra else b"")
        return head | {
            "num_columns": columns,
            "columns_before_image": before,
            "columns_after_image": after,
            "rows_data": Bytes(data),
        }, b""

    return decode


# ---- GTIDs


def gtid(**found):
    """The fields of a GTID; absent ones have their defaults."""
    time = found.get("immediate_commit_timestamp", 0)
    version = found.get("immediate_server_version", UNDEFINED_VERSION)
    return {
        "flags": found.get("flags", 0),
        "sid": Uuid(found.get("sid", bytes(SID_LENGTH))),
        "gno": found.get("gno", 0),
        "tag": found.get("tag"),
        "lc_typecode": found.get("lc_typecode"),
        "last_committed": found.get("last_committed", 0),
        "sequence_number": found.get("sequence_number", 0),
        "immediate_commit_timestamp": time,
        "original_commit_timestamp": found.get("original_commit_timestamp", time),
        "tx_length": found.get("tx_length", 0),
        "immediate_server_version": version,
        "original_server_version": found.get("original_server_version", version),
        "commit_group_ticket": found.get("commit_group_ticket", 0),
    }


def untagged_gtid(data, _header_length):
    body, data = taken(data, 25)
    found = {"flags": body[0], "sid": body[1:17], "gno": number_in(body, 17, 8)}
    if data[:1] != bytes([CLOCK_CODE]):
        return gtid(**found), data
    clock, data = taken(data[1:], 16)
    found |= {"lc_typecode": CLOCK_CODE, "last_committed": number_in(clock, 0, 8), "sequence_number": number_in(clock, 8, 8)}
    if len(data) >= 7:
        time, data = taken_number(data, 7)
        found["immediate_commit_timestamp"] = time & ~ORIGINAL_TIME_FOLLOWS
        if time & ORIGINAL_TIME_FOLLOWS:
            found["original_commit_timestamp"], data = taken_number(data, 7)
    if data:
        found["tx_length"], data = taken_length(data)
    if len(data) >= 4:
        version, data = taken_number(data, 4)
        found["immediate_server_version"] = version & ~ORIGINAL_VERSION_FOLLOWS
        if version & ORIGINAL_VERSION_FOLLOWS:
            found["original_server_version"], data = taken_number(data, 4)
    return gtid(**found), data


def is_tag(text):
    return 1 <= len(text) <= 32 and set(text) <= TAG_LETTERS and not text[:1].isdigit()


def taken_tag(data):
    length, data = taken_variable(data)
    text, data = taken(data, length)
    allowed(is_tag(text))
    return text, data


# The fields of a GTID with a tag, in the order of their ids.
TAGGED_FIELDS = [
    "flags",
    "sid",
    "gno",
    "tag",
    "last_committed",
    "sequence_number",
    "immediate_commit_timestamp",
    "original_commit_timestamp",
    "tx_length",
    "immediate_server_version",
    "original_server_version",
    "commit_group_ticket",
]


def taken_field(identifier, data):
    """The value after the id of a field."""
    if identifier == 3:
        text, data = taken_tag(data)
        return Text(text), data
    numbers = []
    for _ in range(SID_LENGTH if identifier == 1 else 1):
        number, data = taken_variable(data)
        if identifier in (2, 4, 5):
            allowed(number % 2 == 0)  # not negative
            number //= 2
        elif identifier in (0, 1):
            allowed(number < 256)
        elif identifier in (9, 10):
            allowed(number < 1 << 32)
        numbers.append(number)
    return (bytes(numbers) if identifier == 1 else numbers[0]), data


def tagged_gtid(data, _header_length):
    whole = data
    version, data = taken_number(data, 1)
    allowed(version == 2)
    size, data = taken_variable(data)
    last, data = taken_variable(data)
    allowed(size >= len(whole) - len(data))
    fields, _ = taken(whole, size)
    fields = fields[len(whole) - len(data) :]
    found = {}
    while fields:
        identifier, fields = taken_variable(fields)
        if identifier >= len(TAGGED_FIELDS):
            allowed(identifier > last)
            break
        found[TAGGED_FIELDS[identifier]], fields = taken_field(identifier, fields)
    allowed("tag" in found)
    return gtid(**found), whole[size:]


def previous_gtids(data, _header_length):
    head, data = taken_number(data, 8)
    is_tagged = head >> 56 != 0
    count = head >> 8 & 0xFFFF_FFFF_FFFF if is_tagged else head
    sids = []
    for _ in range(count):
        sid, data = taken(data, SID_LENGTH)
        tag = None
        if is_tagged:
            length, behind = taken_variable(data)
            text, data = taken_tag(data) if length else (b"", behind)
            tag = Text(text) if length else None
        intervals, data = taken_number(data, 8)
        ends, data = taken(data, intervals * INTERVAL_LENGTH)
        places = range(0, len(ends), INTERVAL_LENGTH)
        pairs = [[number_in(ends, place, 8), number_in(ends, place + 8, 8)] for place in places]
        sids.append({"uuid": Uuid(sid), "tag": tag, "intervals": pairs})
    return {"sids": sids}, data


TYPED = {
    2: query,
    4: rotate,
    5: intvar,
    13: rand,
    14: user_variable,
    XID: xid,
    17: begin_load_query,
    18: load_query,
    TABLE_MAP: table_map,
    26: incident,
    29: rows_query,
    33: untagged_gtid,
    34: untagged_gtid,
    35: previous_gtids,
    42: tagged_gtid,
}
TYPED |= {number: rows(*images, has_extra=False) for number, images in OLDER_ROWS.items()}
TYPED |= {number: rows(*images, has_extra=True) for number, images in ROWS.items()}


def stated_length(lengths, number):
    """The post-header length of a type under these stated lengths."""
    return lengths[number - 1] if number <= len(lengths) else DEFAULT_LENGTHS.get(number, 0)


def fields(number, data, lengths):
    """The fields of an event with a typed body, under a description with these lengths."""
    found, rest = TYPED[number](data, stated_length(lengths, number))
    if rest:
        raise Fault(7)
    return found


def word(number, data, lengths):
    """The word for an event of this type, under a description with these lengths.

    The data of a description has been checked already.
    """
    if number in KEPT or number in IGNORED or number == 15:
        return READ
    if number not in TYPED:
        return UNKNOWN
    try:
        fields(number, data, lengths)
    except Fault:
        return REFUSED
    return READ
