#!/usr/bin/env python3
"""Measures `binlog undo` beside `mariadb-binlog --flashback`, and its memory; prints Markdown tables.

Usage: measure_undo.py [PROGRAM [FOLDER]]

PROGRAM is the built binlog, if not given. FOLDER, `work` beside this file if not given, holds the logs, which are made if they are
missing, and what is written. The first table is of the rows of make_row_logs.py in whole transactions, as MySQL and as MariaDB
write them, without checksums and with CRC-32 (100 MB each); for `mariadb-binlog` of Debian's package `mariadb-client`, which is
left out where it isn't there, a log of 10 MB. A log that is undone three times has to be the log that is undone once. Times are
processor times, the best of 5, the programs in turns; `undo` writes a file, `mariadb-binlog` to /dev/null. MB are 1,000,000 bytes.

The second table is of transactions of ten row events of a row each: the peak memory for a million row events and for ten million, and
the bytes for a row event by which the two differ, of which a transaction's are a tenth.
"""

import random
import shutil
import struct
import subprocess
import sys
import zlib
from pathlib import Path

from arguments import arguments
from make_binlogs import TABLE_MAP, XID, event, set_checksums, with_room_for_checksum, write_repeated
import make_row_logs
from make_row_logs import MARIA_GTID
from measure import peak_memory
from measure_json import seconds

ROUNDS = 5
HERE = Path(__file__).resolve().parent
FLASHBACK = ["mariadb-binlog", "--flashback", "--skip-gtid-strict-mode"]
LARGE, SMALL = 100_000_000, 10_000_000
WRITE_ROWS_V1, STMT_END = 23, 1
COUNTS = (1_000_000, 10_000_000)
CHANGES, TRANSACTIONS = 10, 1_000


def start(begin, has_checksums):
    """The file header and the description, which states an algorithm, and has a checksum itself."""
    front = begin[:-5] + bytes([has_checksums])
    return front + struct.pack("<I", zlib.crc32(front[4:]))


def write_log(path, begin, events, has_checksums, blocks):
    """The events, as often as is asked for."""
    if path.exists():
        return
    if has_checksums:
        events = [with_room_for_checksum(one) for one in events]
    begin = start(begin, has_checksums)
    length = len(begin) + blocks * sum(map(len, events))
    write_repeated(path, begin, events, length, set_checksums if has_checksums else None)


def make_row_log(folder, kind, has_checksums, target):
    begin, make_events, _ = make_row_logs.KINDS[kind]
    events = list(make_events(random.Random("rows")))
    path = folder / f"undo_{kind}{'_crc32' if has_checksums else ''}_{target // 1_000_000}.binlog"
    write_log(path, begin(), events, has_checksums, target // sum(map(len, events)))
    return path


def short_events():
    """Transactions of a table of two INT columns."""
    columns = b"\2\3\3\0\3"
    for number in range(TRANSACTIONS):
        yield event(MARIA_GTID, struct.pack("<QIB6x", number + 1, 0, 8), number)
        yield event(TABLE_MAP, (7).to_bytes(6, "little") + b"\1\0\4shop\0\4cart\0" + columns, number)
        for place in range(CHANGES):
            flags = STMT_END if place == CHANGES - 1 else 0
            head = (7).to_bytes(6, "little") + flags.to_bytes(2, "little") + b"\2\3"
            yield event(WRITE_ROWS_V1, head + struct.pack("<Bii", 0xFC, number, place), number)
        yield event(XID, struct.pack("<Q", number), number)


def make_short_log(folder, count):
    path = folder / f"undo_short_{count}.binlog"
    write_log(path, make_row_logs.maria_start(), list(short_events()), False, count // (CHANGES * TRANSACTIONS))
    return path


def undone(program, path, out):
    """The words that undo a log into a file, which isn't there before."""
    out.unlink(missing_ok=True)
    return [program, "undo", "-o", str(out), str(path)]


def check(program, path, folder):
    """What undoes the log, undone twice, is the same bytes."""
    files = [path, *(folder / f"undone_{time}.binlog" for time in range(3))]
    for source, out in zip(files, files[1:]):
        subprocess.run(undone(program, source, out), stdout=subprocess.DEVNULL, check=True)
    if files[1].read_bytes() != files[3].read_bytes():
        sys.exit(f"{path}: undone three times it is another log than undone once")
    for file in files[1:]:
        file.unlink()


def best(program, path, folder, others):
    """The least processor times: of the undo, of its first pass alone, and of other commands."""
    out = folder / "undone.binlog"
    first_pass = [program, "undo", "--dry-run", str(path)]
    rounds = [[seconds(undone(program, path, out)), seconds(first_pass), *map(seconds, others)] for _ in range(ROUNDS)]
    out.unlink()
    return [min(times) for times in zip(*rounds)]


def row(program, folder, kind, has_checksums, target):
    path = make_row_log(folder, kind, has_checksums, target)
    check(program, path, folder)
    is_compared = target == SMALL
    others = [[*FLASHBACK, str(path)]] if is_compared else []
    whole, first_pass, *flashback = best(program, path, folder, others)
    size = path.stat().st_size / 1e6
    cells = [f"{size / time:,.0f}" for time in (whole, first_pass)]
    cells += [f"{size / flashback[0]:,.0f}", f"{flashback[0] / whole:.0f}"] if is_compared else ["", ""]
    return [path.stem, f"{size:.0f}", *cells]


def memory(program, folder):
    """A row of peak memory for each count, and the difference for a row event."""
    peaks = []
    for count in COUNTS:
        path = make_short_log(folder, count)
        out = folder / "undone.binlog"
        peaks.append(peak_memory(undone(program, path, out), path) * 1024)
        out.unlink()
    slope = (peaks[1] - peaks[0]) / (COUNTS[1] - COUNTS[0])
    return [*(f"{peak / 1e6:.1f}" for peak in peaks), f"{slope:.1f}"]


def print_table(columns, rows):
    print("| " + " | ".join(columns) + " |")
    print("|---" + "|---:" * (len(columns) - 1) + "|")
    for cells in rows:
        print("| " + " | ".join(cells) + " |", flush=True)
    print()


def main(arguments):
    given = arguments + [None] * (2 - len(arguments))
    program = given[0] or str(HERE.parent / "crates/binlog/out/binlog")
    folder = Path(given[1] or HERE / "work")
    folder.mkdir(parents=True, exist_ok=True)
    logs = [(kind, has_checksums, LARGE) for kind in make_row_logs.KINDS for has_checksums in (False, True)]
    if shutil.which(FLASHBACK[0]):
        logs += [("maria", has_checksums, SMALL) for has_checksums in (False, True)]
    columns = ["Log", "MB", "MB/s", "First pass alone", "--flashback", "Times as fast"]
    print_table(columns, (row(program, folder, *log) for log in logs))
    print_table(["MB for a million row events", "For ten million", "Bytes / row event"], [memory(program, folder)])


if __name__ == "__main__":
    main(arguments(__doc__))
