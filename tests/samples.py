#!/usr/bin/env python3
"""Writes a small log, and has what its events are made of: samples.py SAMPLE OUT. The samples:

plain        1,670 bytes in 20 events, as a MySQL 5.0 server wrote them
checksummed  events with CRC-32 checksums, as a MySQL 5.7 server writes them
statements   the plain one, and after it load queries, user variables, and a statement with each status variable
bodies       the plain one, and after it an event for each body with known values, the last ones with checksums
gtids        GTIDs of one source, a set with a tag, and numbers that no GTID can have
maria_gtids  MariaDB's GTIDs of two domains and three servers, a list, and events that can't be read
"""

import struct
import sys
import zlib
from functools import partial
from pathlib import Path

FILE_HEADER = bytes.fromhex("fe 62 69 6e")

# timestamp u32, type u8, server_id u32, event_size u32, log_pos u32, flags u16
HEADER = struct.Struct("<IBIIIH")

QUERY, ROTATE, USER_VAR, FORMAT_DESCRIPTION, XID, EXECUTE_LOAD_QUERY = 2, 4, 14, 15, 16, 18
GTID, ANONYMOUS_GTID, PREVIOUS_GTIDS, GTID_TAGGED = 33, 34, 35, 42
MARIA_GTID, MARIA_GTID_LIST = 162, 163

# Flags: of the description of a log that is not closed, which checksums count as cleared; of a statement that needs no default schema.
IN_USE, SUPPRESS_USE = 0x1, 0x8
FLAGS_OFFSET = 17

SERVER_ID = 1
START_TIMESTAMP = 0x4ABB35FC  # event 0
TIMESTAMP = 0x4ABB35FD  # all others


def frame(type_number, body, log_pos=0, flags=0, timestamp=TIMESTAMP, server_id=SERVER_ID):
    """One event: a header that counts itself and the body, then the body."""
    size = HEADER.size + len(body)
    return HEADER.pack(timestamp, type_number, server_id, size, log_pos, flags) + body


# Descriptions.

# Post-header lengths of the types from 1 on, as servers of 5.0 and of 5.7 state them.
OLD_POST_HEADER_LENGTHS = bytes.fromhex("38 0d 00 08 00 12 00 04 04 04 04 12 00 00 4b 00 04 1a")
POST_HEADER_LENGTHS = bytes.fromhex(
    "38 0d 00 08 00 12 00 04 04 04 04 12 00 00 5f 00 04 1a 08 00 00 00 08 08 08"
    "02 00 00 00 0a 0a 0a 2a 2a 00 12 34 00"
)


def description_body(
    server_version, binlog_version=4, header_length=19, type_header_lengths=POST_HEADER_LENGTHS, created=0
):
    """`created` is 0 if the file isn't the first since the server began."""
    version = struct.pack("<H", binlog_version) + server_version.ljust(50, b"\0")
    return version + struct.pack("<IB", created, header_length) + type_header_lengths


def file_start():
    """The file header and event 0, with which every binlog of the old server begins."""
    body = description_body(b"5.0.86-debug-log", type_header_lengths=OLD_POST_HEADER_LENGTHS, created=START_TIMESTAMP)
    position = len(FILE_HEADER) + HEADER.size + len(body)
    return FILE_HEADER + frame(FORMAT_DESCRIPTION, body, position, timestamp=START_TIMESTAMP)


# Statements.

STATUS_VARIABLES = b"".join(
    [
        bytes.fromhex("00 00 40 00 00"),  # flags2
        bytes.fromhex("01 00 00 00 00 00 00 00 00"),  # sql_mode
        bytes.fromhex("06 03 73 74 64"),  # catalog "std"
        bytes.fromhex("04 08 00 08 00 08 00"),  # charset
    ]
)


def statement_head(schema, status_variables, seconds=0, error=0):
    """The post-header of thread 1."""
    return struct.pack("<IIBHH", 1, seconds, len(schema), error, len(status_variables))


def query_body(schema, query, status_variables=STATUS_VARIABLES, **numbers):
    return statement_head(schema, status_variables, **numbers) + status_variables + schema + b"\0" + query


XID_BODY = bytes.fromhex("0b 00 00 00 00 00 00 00")
ROTATE_BODY = bytes.fromhex("04 00 00 00 00 00 00 00") + b"master-bin.000002"

# The events after event 0. Sizes and positions are stated, not derived, so
# that building the file checks the table.
# (size, position, flags, type, body)
PLAIN_EVENTS = [
    (100, 198, 0, QUERY, query_body(b"test", b"create table t1(a int) engine= innodb")),
    (101, 299, 0, QUERY, query_body(b"mysql", b"create table t2(a int) engine= innodb")),
    (69, 368, SUPPRESS_USE, QUERY, query_body(b"mysql", b"BEGIN")),
    (92, 460, 0, QUERY, query_body(b"test", b"insert into t1 (a) values (1)")),
    (93, 553, 0, QUERY, query_body(b"mysql", b"insert into t2 (a) values (1)")),
    (27, 580, 0, XID, XID_BODY),
    (100, 680, 0, QUERY, query_body(b"test", b"create table t3(a int) engine= innodb")),
    (101, 781, 0, QUERY, query_body(b"mysql", b"create table t4(a int) engine= myisam")),
    (69, 850, SUPPRESS_USE, QUERY, query_body(b"mysql", b"BEGIN")),
    (92, 942, 0, QUERY, query_body(b"test", b"insert into t3 (a) values (2)")),
    (93, 1035, 0, QUERY, query_body(b"mysql", b"insert into t4 (a) values (2)")),
    (72, 1107, SUPPRESS_USE, QUERY, query_body(b"mysql", b"ROLLBACK")),
    (97, 1204, 0, QUERY, query_body(b"test", b"create table t5(a int) engine= NDB")),
    (98, 1302, 0, QUERY, query_body(b"mysql", b"create table t6(a int) engine= NDB")),
    (69, 1371, SUPPRESS_USE, QUERY, query_body(b"mysql", b"BEGIN")),
    (92, 1463, 0, QUERY, query_body(b"test", b"insert into t5 (a) values (3)")),
    (93, 1556, 0, QUERY, query_body(b"mysql", b"insert into t6 (a) values (3)")),
    (70, 1626, SUPPRESS_USE, QUERY, query_body(b"mysql", b"COMMIT")),
    (44, 1670, 0, ROTATE, ROTATE_BODY),
]


def plain():
    content = file_start()
    check(len(content), 98)
    for size, position, flags, type_number, body in PLAIN_EVENTS:
        event = frame(type_number, body, position, flags)
        check(len(event), size)
        content += event
        check(len(content), position)
    return content


def check(found, stated):
    if found != stated:
        raise ValueError(f"the table states {stated}, the bytes give {found}")


# Checksums.

OFF, CRC32 = 0, 1
CHECKSUM_LENGTH = 4


def crc32(event):
    """The checksum of the bytes of an event before it."""
    cleared = bytes([event[FLAGS_OFFSET] & ~IN_USE])
    return struct.pack("<I", zlib.crc32(event[:FLAGS_OFFSET] + cleared + event[FLAGS_OFFSET + 1 :]))


def checksummed_frame(type_number, body, log_pos=0, flags=0, timestamp=TIMESTAMP):
    """An event with its checksum after the body."""
    front = frame(type_number, body + bytes(CHECKSUM_LENGTH), log_pos, flags, timestamp)[:-CHECKSUM_LENGTH]
    return front + crc32(front)


def description(server_version=b"5.7.44-log", algorithm=CRC32, flags=0, **parts):
    body = description_body(server_version, **parts) + bytes([algorithm])
    return checksummed_frame(FORMAT_DESCRIPTION, body, flags=flags)


CHECKSUMMED_EVENTS = [
    (QUERY, query_body(b"test", b"BEGIN"), SUPPRESS_USE),
    (XID, XID_BODY, 0),
    (ROTATE, ROTATE_BODY, 0),
]


def checksummed():
    content = FILE_HEADER + description(flags=IN_USE)
    for type_number, body, flags in CHECKSUMMED_EVENTS:
        position = len(content) + HEADER.size + len(body) + CHECKSUM_LENGTH
        content += checksummed_frame(type_number, body, position, flags)
    return content


# Load queries, user variables, and status variables.

# One variable of each key, and after them a variable that isn't whole.
EACH_VARIABLE = [
    "00 00 00 00 80",  # flags2
    "01 00 00 20 54 00 00 00 00",  # sql_mode
    "02 03 73 74 64 00",  # catalog "std"
    "03 02 00 01 00",  # increment 2, offset 1
    "04 21 00 21 00 ff 00",  # character sets
    "05 06 53 59 53 54 45 4d",  # time zone "SYSTEM"
    "06 03 73 74 64",  # catalog "std"
    "07 01 00",  # locale
    "08 21 00",  # collation of the schema
    "09 03 00 00 00 00 00 00 00",  # tables
    "0a 01 02 03 04",  # bytes that the source's source wrote
    "0b 01 61 02 62 63",  # invoker "a" at "bc"
    "0c 02 61 00 62 63 00",  # databases "a", "bc"
    "0d 01 02 03",  # microseconds
    "0e",
    "0f",
    "10 01",  # explicit defaults
    "11 0b 00 00 00 00 00 00 00",  # transaction 11
    "12 ff 00",  # collation of utf8mb4
    "13 00",  # no primary key is needed
    "14 01",  # encrypted
    "0b 03 61",  # an invoker that is cut
]

statement_body = partial(query_body, seconds=2, error=3)


def load_body(query):
    """File 2, whose name is at the positions 10 to 18 of the statement, duplicates replaced."""
    status_variables = bytes.fromhex("07 08 00")
    head = statement_head(b"d", status_variables, seconds=2, error=3) + struct.pack("<IIIB", 2, 10, 18, 2)
    return head + status_variables + b"d\0" + query


STATEMENTS = [
    (QUERY, statement_body(b"d", b"q", bytes.fromhex("".join(EACH_VARIABLE)))),
    (QUERY, statement_body(b"", b"several databases", bytes.fromhex("0c fe"))),
    (EXECUTE_LOAD_QUERY, load_body(b"LOAD DATA INFILE 'f' INTO TABLE t")),
    (USER_VAR, bytes.fromhex("01 00 00 00 61 01")),
    (USER_VAR, bytes.fromhex("01 00 00 00 62 00 02 3f 00 00 00 01 00 00 00 07")),
]


def frames(bodies):
    return b"".join(frame(type_number, body) for type_number, body in bodies)


def statements():
    return plain() + frames(STATEMENTS)


# Bodies of every type.

SID = 16 * "ab"
CLOCK = "02" + "07 00 00 00 00 00 00 00" + "09 00 00 00 00 00 00 00"
UNTAGGED = "01" + SID + "01 00 00 00 00 00 00 00"
TAGGED_SID = 16 * "ad 02"
TAG = "0c 62 61 63 6b 75 70"
INTERVALS = "01 00 00 00 00 00 00 00" + "01 00 00 00 00 00 00 00" + "06 00 00 00 00 00 00 00"
WRITE_ROWS = "05 00 00 00 00 00 01 00 00 00 01 01 fe 07"
UPDATE_ROWS = "05 00 00 00 00 00 01 00 04 00 aa bb 02 03 01 ff"


def from_hexadecimal(bodies):
    return [(type_number, bytes.fromhex(body)) for type_number, body in bodies]


IN_HEXADECIMAL = [
    (5, "02 0b 00 00 00 00 00 00 00"),
    (13, "01 00 00 00 00 00 00 00 02 00 00 00 00 00 00 00"),
    (14, "01 00 00 00 61 02"),
    (14, "01 00 00 00 61 00 02 3f 00 00 00 01 00 00 00 07"),
    (14, "01 00 00 00 61 00 02 3f 00 00 00 01 00 00 00 07 01"),
    (16, "0b 00 00 00 00 00 00 00"),
    (16, "ff ff 0b 00 00 00 00 00 00 00"),
    (17, "02 00 00 00 62 6c 6f 63 6b"),
    (19, "05 00 00 00 00 00 01 00 01 64 00 01 74 00 01 03 00 01"),
    (23, "05 00 00 00 00 00 01 00 01 01 fe 07"),
    (24, "05 00 00 00 00 00 01 00 02 03 01 ff"),
    (25, "05 00 00 00 00 00 01 00 fc 09 00 ff 01 ff"),
    (30, WRITE_ROWS),
    (31, UPDATE_ROWS),
    (32, WRITE_ROWS),
    (39, UPDATE_ROWS),
    (26, "01 00 04 6c 6f 73 74"),
    (29, "06 73 65 6c 65 63 74"),
    (33, UNTAGGED),
    (33, UNTAGGED + CLOCK),
    (33, UNTAGGED + CLOCK + "ff ff ff ff ff ff ff" + "00 00 00 00 00 00 01" + "fc 40 01" + "40 5f 01 80" + "fc 5f 01 00"),
    (34, UNTAGGED + CLOCK + "01 00 00 00 00 00 00" + "05" + "40 5f 01 00"),
    (42, "02 88 00 00 00 02" + TAGGED_SID + "04 04 06" + TAG + "08 00 0a 00 0c 41 1f 0e a1 0f 10 00 12 c3 02 0b 14 a3 ff 0a"),
    (42, "02 18 12 06 08 74 65 73 74 c6 ff ff"),
    (42, "02 1a 00 06 08 74 65 73 74 04 04 04 08"),
    (42, "02 29 00 00 06 08 74 65 73 74"),
    (33, "02 18 12 06 08 74 65 73 74 c6 ff ff"),
    (35, "00 00 00 00 00 00 00 00"),
    (35, "02 00 00 00 00 00 00 00" + SID + INTERVALS + SID + "00 00 00 00 00 00 00 00"),
    (35, "01 01 00 00 00 00 00 01" + SID + "08 74 65 73 74" + INTERVALS),
    (35, "05 01 00 00 00 00 00 07" + SID + "00" + "00 00 00 00 00 00 00 00"),
    (35, "ff ff ff ff ff ff ff 00" + SID + INTERVALS),
]

BODIES = [*STATEMENTS, *from_hexadecimal(IN_HEXADECIMAL)]


def copies(body):
    """The body, its prefixes, each byte inverted or increased by one, and one byte after it."""
    yield body
    for length in range(len(body)):
        yield body[:length]
    for place, byte in enumerate(body):
        for value in (byte ^ 0xFF, (byte + 1) % 256):
            yield body[:place] + bytes([value]) + body[place + 1 :]
    yield body + b"\0"
    yield body + b"\x02"


def damaged_events(type_number, body):
    return frames((type_number, one) for one in copies(body))


def every_type():
    """Events of each type number with few bytes."""
    few = (b"", b"\x07", bytes(3), bytes(8), bytes(40))
    return frames((type_number, body) for type_number in range(256) for body in few)


XID_WITH_CHECKSUM = bytes.fromhex("0b 00 00 00 00 00 00 00 1b 00 00 00")


def status(variables):
    """A statement with these status variables, an empty schema and the text `q`, in hexadecimal digits."""
    length = len(bytes.fromhex(variables))
    return 8 * "00" + "00" + "00 00" + f"{length:02x} 00" + variables + "00 71"


# Each number at its largest value, or where it begins to take one byte more.
GREATEST = (
    "02 fe 00" + "00 00" + "02" + TAGGED_SID + "04 04" + "06 40" + 32 * "61" + "08 ff fe" + 7 * "ff"
    + "0a 1f 00 00 00 00 02" + "0c" + 9 * "ff" + "0e 00" + "10" + 9 * "ff" + "12 fb 11 7a" + "16" + 9 * "ff"
)

# More bodies, and malformed ones.
MORE = [
    (33, 16 * "00" + "00" + "01 00 00 00 00 00 00 00" + "01"),
    (33, UNTAGGED + CLOCK + "00 00 00 00 00 00 00 05 40 5f 01 00 00 00"),
    (33, UNTAGGED + CLOCK + 14 * "ff"),
    (42, GREATEST),
    (2, status("0b 03 61")),
    (2, status("0d 01 02 03")),
    (2, status("0c 02 61 00 62 00")),
    (2, status("0c fe")),
    (2, status("07 01 00 15 00")),
    (42, ""),
    (42, "00 14 00"),
    (42, "02 06 00"),
    (42, "02 16 00 06 08 74 65 73 74 04 02"),
    (42, "02 0e c8 00 00 c6 00"),
    (35, "01 ff ff ff ff ff ff 01"),
    (41, ""),
    (1, "07 08"),
    (3, ""),
    (29, "00 63 61 66 c3"),
    (26, "01 00 ff" + 255 * "6d"),
]


def bodies():
    without = frames([*BODIES, *from_hexadecimal(MORE)])
    return plain() + without + description() + frames([(XID, XID_WITH_CHECKSUM), (XID, b"abc")])


# GTIDs.

SOURCE = bytes.fromhex(SID)
EARLIER_SOURCE = bytes(range(0x70, 0x80))
LATER_SOURCE = 16 * b"\xff"

# The number behind the greatest that a GTID can have.
END = 1 << 63


def gtid_body(source, number):
    return b"\0" + source + struct.pack("<Q", number)


def gtid(number, source=SOURCE, type_number=GTID):
    return frame(type_number, gtid_body(source, number))


def variable(number):
    """A number below 128 as a variable-length integer."""
    return bytes([2 * number])


def entry(source, tag, intervals):
    """An entry of a set; `tag` is None in the form without tags."""
    name = b"" if tag is None else variable(len(tag)) + tag
    bounds = b"".join(struct.pack("<QQ", start, end) for start, end in intervals)
    return source + name + struct.pack("<Q", len(intervals)) + bounds


def previous(*entries):
    """A set without tags, of pairs of a source and its intervals."""
    body = struct.pack("<Q", len(entries)) + b"".join(entry(source, None, intervals) for source, intervals in entries)
    return frame(PREVIOUS_GTIDS, body)


def tagged_previous(*entries):
    """A set of triples of a source, a tag that may be empty, and intervals."""
    head = struct.pack("<Q", 1 << 56 | len(entries) << 8 | 1)
    return frame(PREVIOUS_GTIDS, head + b"".join(entry(*parts) for parts in entries))


def tagged_gtid(tag, number):
    """A GTID with a tag of the source 0, and a small number."""
    fields = variable(2) + variable(2 * number) + variable(3) + variable(len(tag)) + tag
    # The size counts the version, itself, the greatest id that may not be ignored, and the fields.
    return frame(GTID_TAGGED, b"\2" + variable(3 + len(fields)) + variable(0) + fields)


def few_gtids():
    return FILE_HEADER + b"".join(
        [
            *(gtid(number) for number in (1, 2, 5)),
            tagged_previous((SOURCE, b"test", [(1, 6)])),
            gtid(0),
            gtid(0, type_number=ANONYMOUS_GTID),
        ]
    )


def gtid_events():
    """Events of several sources and tags, with refused ones between them."""
    yield from (gtid(number, LATER_SOURCE) for number in (7, 6, 3, 1, 2))
    yield tagged_gtid(b"b", 4)
    yield tagged_gtid(b"B", 5)
    yield previous(
        (SOURCE, [(1, 6), (6, 8), (9, 9), (12, 10), (20, 30)]), (EARLIER_SOURCE, []), (LATER_SOURCE, [(1, 3)])
    )
    yield tagged_previous((SOURCE, b"", [(8, 10)]), (SOURCE, b"_", [(2, 3)]), (EARLIER_SOURCE, b"a1", [(5, 6), (4, 5)]))
    yield previous((EARLIER_SOURCE, [(1, 2), (END, END + 1)]))
    yield previous((EARLIER_SOURCE, [(1, END + 1)]))
    yield gtid(END)
    yield gtid(END - 1, EARLIER_SOURCE)
    yield previous((LATER_SOURCE, [(1, END)]))
    yield frame(GTID, gtid_body(SOURCE, 3)[:-1])
    yield frame(PREVIOUS_GTIDS, 8 * b"\xff")
    yield frame(GTID_TAGGED, b"\2\6\0")
    yield frame(GTID, gtid_body(SOURCE, 9) + b"\1")
    # Neither of these types has GTIDs.
    yield frame(QUERY, b"abc")
    yield gtid(3, type_number=ANONYMOUS_GTID)


def gtids():
    """Few GTIDs, those of several sources, and some of another source under checksums."""
    under_checksums = [checksummed_frame(GTID, gtid_body(bytes(16), number)) for number in (3, 2, 0)]
    return few_gtids() + b"".join([*gtid_events(), description(), *under_checksums, frame(GTID, b"abc")])


# MariaDB's GTIDs.

MARIADB, MYSQL = b"10.11.6-MariaDB-log", b"8.0.36"
STANDALONE, GROUP_COMMIT_ID, PREPARED_XA = 0x1, 0x2, 0x40


def maria_gtid_body(domain, sequence, flags=STANDALONE, behind=bytes(6)):
    return struct.pack("<QIB", sequence, domain, flags) + behind


def maria_gtid(domain, server_id, sequence, **parts):
    return frame(MARIA_GTID, maria_gtid_body(domain, sequence, **parts), server_id=server_id)


def list_body(*entries, flags=0):
    """A list of triples of a domain, a server id and a sequence number."""
    packed = b"".join(struct.pack("<IIQ", *entry) for entry in entries)
    return struct.pack("<I", flags << 28 | len(entries)) + (packed or bytes(2))


def maria_gtid_list(*entries, **parts):
    return frame(MARIA_GTID_LIST, list_body(*entries, **parts))


def maria_start(server_version=MARIADB):
    return description(server_version, algorithm=OFF)


def maria_gtid_events():
    yield maria_gtid_list((9, 7, 1), (9, 8, 2), (3, 7, 15), (9, 7, 4), flags=1)
    yield maria_gtid(9, 7, 5, flags=GROUP_COMMIT_ID, behind=bytes(8))
    yield maria_gtid(3, 1, 16, flags=PREPARED_XA, behind=bytes.fromhex("01 00 00 00 03 01") + b"abcd")
    yield maria_gtid(0, 2**32 - 1, 2**64 - 1, behind=bytes.fromhex("1d 02") + bytes(12))
    # A sequence number that is less than the last one.
    yield maria_gtid(9, 8, 1)
    yield maria_gtid_list()
    yield maria_gtid(0, 1, 2, behind=bytes(5))
    yield frame(MARIA_GTID_LIST, list_body((1, 1, 1)) + b"\0")
    yield frame(MARIA_GTID_LIST, list_body((1, 1, 1), (1, 1, 2))[:-1])
    yield maria_gtid(2**32 - 1, 0, 0)


def few_maria_gtids():
    return FILE_HEADER + maria_start() + b"".join(maria_gtid_events())


def maria_gtids():
    """The same, and behind it events that aren't MariaDB's, and some under checksums."""
    others = maria_start(MYSQL) + maria_gtid(5, 5, 5) + maria_gtid_list((5, 6, 7)) + maria_gtid(5, 5, 5, behind=b"")
    under_checksums = description(MARIADB) + checksummed_frame(MARIA_GTID, maria_gtid_body(0, 3))
    return few_maria_gtids() + others + under_checksums


SAMPLES = {
    "plain": plain,
    "checksummed": checksummed,
    "statements": statements,
    "bodies": bodies,
    "gtids": few_gtids,
    "maria_gtids": few_maria_gtids,
}


def main(arguments):
    if len(arguments) != 2 or arguments[0] not in SAMPLES:
        sys.exit(f"usage: samples.py {'|'.join(SAMPLES)} OUT")
    sample, out = arguments
    Path(out).write_bytes(SAMPLES[sample]())


if __name__ == "__main__":
    main(sys.argv[1:])
