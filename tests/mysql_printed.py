"""What `mysqlbinlog` prints of a log: its events, and the rows of its row events.

An event is printed as a line with its place, a line with the time, its hexadecimal dump, a line that says of what type it is,
and a body. The events within a compressed transaction are printed behind the event that has them, and are marked. The rows of a
statement are printed behind its last row event.
"""

import re
import subprocess
import tempfile
from typing import NamedTuple

PLACES = re.compile(rb"(?:# at \d+\n)+\Z")
HEAD = re.compile(
    rb"^#\d{6} [ \d]\d:\d\d:\d\d server id (\d+)  end_log_pos (\d+) (?:CRC32 0x([0-9a-f]{8}) ?)?\n"
    rb"# Position  Timestamp   Type   Source ID        Size      Source Pos    Flags ?\n"
    rb"# ([0-9a-f]{8}) ((?:[0-9a-f]{2} +){18}[0-9a-f]{2})\n"
    rb"((?:# [0-9a-f]{8} .*\n)*)"
    rb"(?:# (?:\t|\n#)(.*)\n)?",
    re.MULTILINE,
)
DUMPED = re.compile(rb"^# [0-9a-f]{8} ((?: {0,2}[0-9a-f]{2})+)", re.MULTILINE)
INNER_START, INNER_END = b"# Start of compressed events.\n", b"# End of compressed events.\n"
# What stands behind the last event.
TAIL = re.compile(rb"^SET @@SESSION.GTID_NEXT= 'AUTOMATIC' /\* added by mysqlbinlog \*/ /\*!\*/;\n|^DELIMITER ;\n", re.MULTILINE)

ROW = re.compile(rb"### (INSERT INTO|UPDATE|DELETE FROM) `(.*)`\.`(.*)`\n")
IMAGE = re.compile(rb"### (SET|WHERE)\n")
VALUE = re.compile(rb"###   @(\d+)=(.*?)(?: /\* .* meta=\d+ nullable=\d is_null=\d \*/)?\n")
UNKNOWN = b"!! Don't know how to handle column type="


class Printed(NamedTuple):
    """An event as it is printed: where it begins, the numbers of its header, its body in bytes, its checksum (None if it has
    none), what is said of it, and the lines behind that. `is_inner` says that a compressed transaction has it."""

    place: int
    timestamp: int
    type: int
    server: int
    size: int
    log_pos: int
    flags: int
    content: bytes
    checksum: bytes | None
    says: bytes
    body: bytes
    is_inner: bool


class PrintedRow(NamedTuple):
    """A row as it is printed: its table, and for each image the texts of its values, None for NULL, by the indexes of their
    columns. It is cut where there is a value that `mysqlbinlog` doesn't know, and so are the other rows of the event."""

    table: str
    images: dict
    is_cut: bool


def output_of(programs, *words):
    """What `mysqlbinlog` prints of a log, whose checksums it verifies."""
    how = ["--verify-binlog-checksum", "--hexdump", "-vv", "--base64-output=decode-rows"]
    with tempfile.TemporaryDirectory() as folder:
        # It writes the files that were loaded.
        command = [*programs.command("mysqlbinlog"), *how, f"--local-load={folder}", *words]
        finished = subprocess.run(command, capture_output=True)
    if finished.returncode != 0:
        raise RuntimeError(f"mysqlbinlog: {finished.stderr.decode(errors='replace')[:500]}")
    return finished.stdout


def events(output):
    """The events of an output."""
    tail = TAIL.search(output, output.find(b"DELIMITER /*!*/;\n") + 1).start()
    heads = list(HEAD.finditer(output, 0, tail))
    ends = [head.start() for head in heads[1:]] + [tail]
    is_inner = False
    for head, end in zip(heads, ends):
        body = output[head.end() : end]
        yield event(head, PLACES.sub(b"", body), is_inner)
        is_inner = (is_inner or INNER_START in body) and INNER_END not in body


def event(head, body, is_inner):
    server, log_pos, checksum, place, header, dump, says = head.groups()
    header = bytes.fromhex(header.decode())
    number = lambda start, width: int.from_bytes(header[start : start + width], "little")
    numbers = {"timestamp": number(0, 4), "type": number(4, 1), "server": number(5, 4), "size": number(9, 4)}
    numbers |= {"log_pos": number(13, 4), "flags": number(17, 2)}
    if not is_inner and (int(server), int(log_pos)) != (numbers["server"], numbers["log_pos"]):
        raise ValueError(f"the header of an event is printed as {head[0]!r}")
    content = bytes.fromhex("".join(digits.decode() for digits in DUMPED.findall(dump)))
    checksum = bytes.fromhex(checksum.decode())[::-1] if checksum else None
    return Printed(int(place, 16), **numbers, content=content, checksum=checksum, says=says or b"", body=body, is_inner=is_inner)


def rows(output):
    """The rows of an output, also those of compressed transactions."""
    heads = list(ROW.finditer(output))
    ends = [head.start() for head in heads[1:]] + [len(output)]
    for head, end in zip(heads, ends):
        yield row(head, output[head.end() : end])


def row(head, text):
    _, schema, table = head.groups()
    images, place = {}, 0
    while True:
        if found := IMAGE.match(text, place):
            values = images.setdefault("after" if found[1] == b"SET" else "before", {})
        elif (found := VALUE.match(text, place)) and not found[2].startswith(UNKNOWN):
            values[int(found[1]) - 1] = None if found[2] == b"NULL" else found[2]
        else:
            name = f"{schema.decode()}.{table.decode()}".replace("``", "`")
            return PrintedRow(name, images, is_cut=found is not None)
        place = found.end()
