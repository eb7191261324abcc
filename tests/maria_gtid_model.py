"""A plain model of MariaDB's GTIDs: which events have them, and which they are.

Written from the formats of GTID_EVENT and GTID_LIST_EVENT. A fault is raised if the data isn't a body of its type.
"""

from event_data_model import Fault, taken, taken_number

GTID, GTID_LIST = 162, 163

# Flags of a GTID that announce a commit id, and an XA id.
COMMIT_ID, XA_ID = 0x2, 0x40 | 0x80
# Extra flags, with the number of bytes that each announces.
EXTRA_PARTS = ((0x1, 1), (0x4 | 0x8, 8), (0x10, 4))
# The bytes that come behind the flags at least, without a commit id and an XA id.
LEAST = 6

ENTRY_COUNT = 1 << 28
RESERVED_LENGTH = 2


def is_maria(server_version):
    """Whether a server version, the 50 bytes of a description, is MariaDB's."""
    text = server_version.split(b"\0")[0]
    return b"MariaDB" in text or b"-maria-" in text


def gtids_of(type_number, data, server_id):
    """The GTIDs of an event of a MariaDB log: pairs of a domain and a server with a sequence number, in order."""
    if type_number == GTID:
        domain, sequence = gtid(data)
        return [(domain, server_id, sequence)]
    if type_number == GTID_LIST:
        return gtid_list(data)
    return []


def gtid(data):
    """The domain and the sequence number of a GTID; all bytes behind what the flags announce are reserved."""
    sequence, data = taken_number(data, 8)
    domain, data = taken_number(data, 4)
    flags, data = taken_number(data, 1)
    if flags & COMMIT_ID:
        _, data = taken(data, 8)
    if flags & XA_ID:
        _, data = taken(data, 4)
        lengths, data = taken(data, 2)
        _, data = taken(data, sum(lengths))
    if not flags & (COMMIT_ID | XA_ID):
        taken(data, LEAST)
    if data:
        extra, data = taken_number(data, 1)
        taken(data, sum(length for flag, length in EXTRA_PARTS if extra & flag))
    return domain, sequence


def gtid_list(data):
    """The entries of a list."""
    _, entries = flags_and_entries(data)
    return entries


def flags_and_entries(data):
    """The flags and the entries of a list: a domain, a server and a sequence number each."""
    number, data = taken_number(data, 4)
    count = number % ENTRY_COUNT
    if count == 0:
        _, data = taken(data, RESERVED_LENGTH)
    entries = []
    for _ in range(count):
        domain, data = taken_number(data, 4)
        server_id, data = taken_number(data, 4)
        sequence, data = taken_number(data, 8)
        entries.append((domain, server_id, sequence))
    if data:
        raise Fault(7)
    return number // ENTRY_COUNT, entries
