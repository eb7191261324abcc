#!/usr/bin/env python3
"""Counts the instructions that reading a GTID takes, of MariaDB and of MySQL.

Usage: measure_maria_gtids.py [PROGRAM [FOLDER]]

PROGRAM is by default the built `probe`, whose mode `maria-gtids` reads MariaDB's, and `typed` MySQL's. The logs are put into
FOLDER (by default bench/work/maria_gtids): MariaDB's GTIDs as a server writes them for a transaction, with a commit id, and
for an XA transaction; and MySQL's without a tag. Both modes have to count all GTIDs. `valgrind --tool=callgrind`
counts, less what it counts for a log without events. Prints a table: the instructions for a GTID, and for the same bytes as
an event that isn't looked at.
"""

import random
import re
import struct
import subprocess
import sys
from pathlib import Path

from arguments import arguments
import make_binlogs
from make_binlogs import GTID, XID, gtid_times, samples, untagged_gtid

BENCH = Path(__file__).resolve().parent
PROGRAM = BENCH.parent / "crates/probe/out/probe"
FOLDER = BENCH / "work/maria_gtids"

EVENTS = 20_000

# Flags of a GTID, and the extra flags of an XA transaction, with the number of engines.
TRANSACTION, COMMIT_ID, PREPARED_XA = 0x0C, 0x02, 0x40
MULTI_ENGINE = b"\1\xff"
XA_ID = struct.pack("<IBB", 1, 8, 4) + b"globalidpart"


def maria_body(number, flags, parts):
    return struct.pack("<QIB", number + 1, 0, flags) + parts


def maria_gtid(number, _generator):
    return maria_body(number, TRANSACTION, bytes(6))


def maria_commit(number, _generator):
    return maria_body(number, TRANSACTION | COMMIT_ID, struct.pack("<Q", number))


def maria_xa(number, _generator):
    return maria_body(number, TRANSACTION | PREPARED_XA, XA_ID + MULTI_ENGINE)


def mysql_gtid(number, generator):
    return untagged_gtid(bytes(range(16)), number, gtid_times(generator), generator.randrange(251, 100_000))


# For each kind the type of the event, what makes a body, and the mode that reads it.
KINDS = {
    "MariaDB, a transaction": (162, maria_gtid, "maria-gtids"),
    "MariaDB, with a commit id": (162, maria_commit, "maria-gtids"),
    "MariaDB, with an XA id": (162, maria_xa, "maria-gtids"),
    "MySQL, without a tag": (GTID, mysql_gtid, "typed"),
}


def log_of(count, type_number, body_of):
    generator = random.Random(1)
    events = (make_binlogs.event(type_number, body_of(number, generator), number) for number in range(count))
    return samples.file_start() + b"".join(events)


def counted(command, path):
    """The instructions of a run over a log, and the words of the command's line."""
    command = ["valgrind", "--tool=callgrind", "--callgrind-out-file=/dev/null", *command]
    with open(path, "rb") as log:
        result = subprocess.run(command, stdin=log, capture_output=True, check=True)
    return int(re.search(rb"Collected : (\d+)", result.stderr).group(1)), result.stdout.split()


def instructions(command, folder, type_number, body_of):
    """The instructions for an event, of which the command has to count all GTIDs."""
    counts = []
    for events in (0, EVENTS):
        path = folder / "gtids.binlog"
        path.write_bytes(log_of(events, type_number, body_of))
        count, words = counted(command, path)
        gtids = 0 if type_number == XID else events
        if str(gtids).encode() not in words:
            sys.exit(f"{command} counted {words}, and not {gtids} GTIDs")
        counts.append(count)
    return (counts[1] - counts[0]) / EVENTS


def main():
    given = [Path(word) for word in arguments(__doc__)]
    program, folder = given + [PROGRAM, FOLDER][len(given) :]
    folder.mkdir(parents=True, exist_ok=True)
    print("| | Bytes | Instructions | Without its body |")
    print("|---|---:|---:|---:|")
    for name, (type_number, body_of, mode) in KINDS.items():
        length = len(log_of(1, type_number, body_of)) - len(samples.file_start())
        counts = [instructions([program, mode], folder, number, body_of) for number in (type_number, XID)]
        print(f"| {name} | {length} | {counts[0]:,.0f} | {counts[1]:,.0f} |", flush=True)


if __name__ == "__main__":
    main()
