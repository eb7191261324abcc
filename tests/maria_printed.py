"""What `mariadb-binlog` prints of a log, event by event, and what it has to print of MariaDB's own events.

An event of a log is printed as a head, a line that begins with the time, and a body, the lines up to the next head. Row
events and table maps are printed once more in base64, behind the last row event of their statement; compressed rows stand
there uncompressed.
"""

import base64
import re
import subprocess
from typing import NamedTuple

import event_data_model
import listing_model
import maria_model
from maria_daemon import PRINTER

HEAD = re.compile(
    rb"^#\d{6} [ \d]\d:\d\d:\d\d server id (\d+)  end_log_pos (\d+) (?:CRC32 0x([0-9a-f]{8}) )?\t(.*)\n", re.MULTILINE
)
PLACES = re.compile(rb"(?:# at \d+\n)+\Z")
BASE64 = re.compile(rb"^BINLOG '\n(.*?)'/\*!\*/;$", re.MULTILINE | re.DOTALL)
# A line that sets what a statement runs under, before the statement.
SETTING = re.compile(rb"(?:use `.*`|SET .*|/\*!\\C .*\*/)/\*!\*/;\n")
END = b"/*!*/;\n"
# What stands behind the last event.
TAIL = b"DELIMITER ;\n# End of log file\n"
# One half of an ALTER TABLE in two phases: the event in base64, which may be in a comment, and the statement.
HALF = re.compile(rb"(?:/\*!\d+ )?BINLOG '\n[^']*'(?: \*/)?/\*!\*/;\n### (.*)\n", re.DOTALL)

# The beginnings of heads, and the types of the events.
TYPES = {
    b"Start: ": 15,
    b"Query\t": 2,
    b"Stop": 3,
    b"Rotate to ": 4,
    b"Intvar": 5,
    b"Rand": 13,
    b"User_var": 14,
    b"Xid = ": 16,
    b"Table_map: ": 19,
    b"Write_rows: ": 23,
    b"Update_rows: ": 24,
    b"Delete_rows: ": 25,
    b"XID = ": 38,
    b"Annotate_rows:": 160,
    b"Binlog checkpoint ": 161,
    b"GTID ": 162,
    b"Gtid list ": 163,
    b"Query_compressed\t": 165,
    b"Write_compressed_rows: ": 166,
    b"Update_compressed_rows: ": 167,
    b"Delete_compressed_rows: ": 168,
}

# The rows of a statement, in heads of these types.
ROWS = {23, 24, 25, 166, 167, 168}


class Printed(NamedTuple):
    """An event as it is printed: its end in the log, its server, its checksum (None if it has none), what its head says
    of it, the lines of its body, and of a row event the event that stands in base64."""

    end: int
    server: int
    checksum: bytes | None
    head: bytes
    body: bytes
    rows: bytes | None

    def type_number(self):
        """The type that the head names, or None."""
        return next((number for name, number in TYPES.items() if self.head.startswith(name)), None)


def output_of(path):
    """What `mariadb-binlog` prints of a log, whose checksums it verifies."""
    command = [PRINTER, "--no-defaults", "--verify-binlog-checksum", "-v", path]
    return subprocess.run(command, stdout=subprocess.PIPE, check=True).stdout


def printed(path):
    """The events of a log as `mariadb-binlog` prints them."""
    output, _, _ = output_of(path).partition(TAIL)
    heads = list(HEAD.finditer(output))
    ends = [head.start() for head in heads[1:]] + [len(output)]
    rows = rows_in_base64(output)
    for head, end in zip(heads, ends):
        server, log_pos, checksum, says = head.groups()
        checksum = None if checksum is None else bytes.fromhex(checksum.decode())[::-1]
        body = PLACES.sub(b"", output[head.end() : end])
        event = Printed(int(log_pos), int(server), checksum, says, body, None)
        yield event._replace(rows=next(rows, None)) if event.type_number() in ROWS else event


def rows_in_base64(output):
    """The row events that stand in base64."""
    for text in BASE64.findall(output):
        digits = text.replace(b"\n", b"")
        while digits:
            # The events are encoded one by one.
            size = listing_model.event_size(base64.b64decode(digits[:20]))
            length = (size + 2) // 3 * 4
            event, digits = base64.b64decode(digits[:length]), digits[length:]
            if listing_model.type_number(event) in ROWS:
                yield event


class Session:
    """What `mariadb-binlog` has printed for the GTIDs before: it prints these settings again only if they change."""

    def __init__(self):
        self.settings = {}

    def setting(self, version, name, value):
        is_known = self.settings.get(name) == value
        self.settings[name] = value
        return b"" if is_known else b"/*M!%d SET @@session.%s=%d*/%s" % (version, name, value, END)


def difference(words, event, session, following, lengths):
    """None if an event of MariaDB's own is printed as its words say, else what is wrong.

    `following` is the next event, and `lengths` are the post-header lengths that the log's description states.
    """
    if int(words["server"]) != event.server:
        return f"printed with the server {event.server}"
    if int(words["type"]) in maria_model.ROWS_COMPRESSED:
        return rows_difference(words, event, lengths)
    if int(words["type"]) == maria_model.QUERY_COMPRESSED:
        return statement_difference(words, event)
    if int(words["type"]) == maria_model.GTID:
        return gtid_difference(words, event, session, following)
    wanted = {
        maria_model.ANNOTATE_ROWS: annotation,
        maria_model.BINLOG_CHECKPOINT: checkpoint,
        maria_model.GTID_LIST: gtid_list,
    }[int(words["type"])](words)
    return unless_equal(event.head + b"\n" + event.body, wanted)


def unless_equal(found, wanted):
    return None if found == wanted else f"printed as {found!r}, not {wanted!r}"


def annotation(words):
    lines = re.split(rb"[\r\n]+", bytes.fromhex(words["query"]))
    return b"Annotate_rows:\n" + b"".join(b"#Q> " + line + b"\n" for line in lines if line)


def checkpoint(words):
    return b"Binlog checkpoint " + bytes.fromhex(words["name"]) + b"\n"


def gtid_list(words):
    """The GTIDs of a list are printed in the order of their domains and servers."""
    gtids = sorted(words["gtids"].split(",")[:-1], key=lambda gtid: list(map(int, gtid.split("-"))))
    return b"Gtid list [" + ",\n# ".join(gtids).encode() + b"]\n"


def xa_id(words):
    return f"X'{words['xa_gtrid']}',X'{words['xa_bqual']}',{words['xa_format']}".encode()


def gtid_head(words):
    """What the head of a GTID says."""
    flags, extra = int(words["flags"]), int(words.get("extra_flags", 0))
    alter = words.get("alter_sequence")
    parts = [
        f"GTID {words['domain']}-{words['server']}-{words['sequence']}",
        f"cid={words['commit_id']}" if flags & maria_model.GROUP_COMMIT_ID else None,
        "ddl" if flags & maria_model.DDL else None,
        "trans" if flags & maria_model.TRANSACTIONAL else None,
        "waited" if flags & maria_model.WAITED else None,
        "START ALTER" if extra & maria_model.START_ALTER else None,
        f"COMMIT ALTER id= {alter}" if extra & maria_model.COMMIT_ALTER else None,
        f"ROLLBACK ALTER id= {alter}" if extra & maria_model.ROLLBACK_ALTER else None,
    ]
    return " ".join(part for part in parts if part is not None).encode()


def gtid_body(words, session):
    """The statements that are printed for a GTID."""
    flags = int(words["flags"])
    body = session.setting(100101, b"skip_parallel_replication", int(not flags & maria_model.ALLOW_PARALLEL))
    body += session.setting(100001, b"gtid_domain_id", int(words["domain"]))
    body += session.setting(100001, b"server_id", int(words["server"]))
    body += b"/*M!100001 SET @@session.gtid_seq_no=%d*/%s" % (int(words["sequence"]), END)
    if flags & maria_model.PREPARED_XA:
        return body + b"XA START " + xa_id(words) + END
    return body + (b"" if flags & maria_model.STANDALONE else b"START TRANSACTION\n" + END)


def gtid_difference(words, event, session, following):
    wrong = unless_equal(event.head, gtid_head(words)) or unless_equal(event.body, gtid_body(words, session))
    return wrong or completion_difference(words, following)


def completion_difference(words, following):
    """A GTID completes an XA transaction exactly if the next statement does, and it is that transaction's."""
    statement = re.search(rb"^XA (?:COMMIT|ROLLBACK) (.*)$", following.body if following else b"", re.MULTILINE)
    if int(words["flags"]) & maria_model.COMPLETED_XA:
        return unless_equal(statement and statement[1], xa_id(words))
    return unless_equal(statement, None)


def transaction_number(status):
    """The transaction number among status variables, 0 if there is none. It is one of MariaDB's own, behind the others."""
    _, status = event_data_model.status_variables(status)
    # The microseconds of the time take three bytes.
    status = status[4:] if status[:1] == b"\x80" else status
    return int.from_bytes(status[1:9], "little") if status[:1] == b"\x81" else 0


def statement_difference(words, event):
    number = transaction_number(bytes.fromhex(words["status_vars"]))
    head = f"Query_compressed\tthread_id={words['thread_id']}\texec_time={words['exec_time']}"
    head += f"\terror_code={words['error_code']}\txid={number}"
    return unless_equal(event.head, head.encode()) or text_difference(words, event.body)


def text_difference(words, body):
    """The statement stands behind the settings."""
    while setting := SETTING.match(body):
        schema = b"use `%s`%s" % (bytes.fromhex(words["schema"]), END)
        if setting[0].startswith(b"use ") and setting[0] != schema:
            return unless_equal(setting[0], schema)
        body = body[setting.end() :]
    text = bytes.fromhex(words["query"])
    half = HALF.fullmatch(body)
    return unless_equal(half[1], text) if half else unless_equal(body, text + b"\n" + END)


def rows_difference(words, event, lengths):
    number = maria_model.ROWS_COMPRESSED[int(words["type"])]
    head = listing_model.HEADER_LENGTH
    end = None if event.checksum is None else -listing_model.CHECKSUM_LENGTH
    wanted = {"end": str(listing_model.log_pos(event.rows)), "server": str(listing_model.number(event.rows, 5, 4))}
    wanted["type"] = str(number)
    wanted |= split_line(maria_model.line(maria_model.rows(number, event.rows[head:end], lengths)))
    found = {key: value for key, value in words.items() if key != "size"} | {"type": str(number)}
    wrong = [key for key in found.keys() | wanted.keys() if found.get(key) != wanted.get(key)]
    says_last = event.head.endswith(b" flags: STMT_END_F")
    if says_last != bool(int(words["flags"]) & 1):
        wrong.append("the end of the statement")
    return f"in base64 other {', '.join(sorted(wrong))}" if wrong else None


def split_line(line):
    """The words of a line by their keys."""
    return dict(word.split("=", 1) for word in line.split(" "))
