#!/usr/bin/env python3
"""Measures `probe verifying` beside a hand-written program and `mariadb-binlog`; prints two Markdown tables.

Usage: measure_verifying.py [PROGRAM [LISTING [FOLDER]]]

PROGRAM is the built probe, and LISTING the built binlog_list, if not given. FOLDER, `work` beside this file if not
given, holds the files of make_binlogs.py; those with checksums are made if they are missing. The baseline is built first.

The first table is of listings that verify each checksum: their outputs and their exit statuses must be equal. Instructions are those of the small log, less those of its first event alone; the cost of
verifying is what they are more than those of LISTING. The second is of verifying alone: `probe verifying count`, the
baseline's `--mismatches`, and `mariadb-binlog --verify-binlog-checksum`, of Debian's package `mariadb-client`. Times are
processor times, the best of 5, in turns, with output to /dev/null.
"""

import subprocess
from pathlib import Path

from arguments import arguments
import make_binlogs
from measure import build_baseline, compare_outputs
from measure_json import instructions, seconds

KINDS = ("statements_crc32", "rows_crc32")
ROUNDS = 5
HERE = Path(__file__).resolve().parent
LISTING_COLUMNS = [
    "Input", "Bytes / event", "MB/s", "Baseline's", "Time / baseline", "Instructions / event", "Baseline's", "Verifying / event"
]
ALONE_COLUMNS = ["Input", "MB/s", "Baseline's", "mariadb-binlog's", "Times as fast as mariadb-binlog"]


def best_of(commands, path):
    """The best time of each command that reads the log."""
    return map(min, zip(*([seconds(command, path) for command in commands] for _ in range(ROUNDS))))


def has_mariadb(path):
    command = ["mariadb-binlog", "--verify-binlog-checksum", path]
    try:
        return subprocess.run(command, stdout=subprocess.DEVNULL, stderr=subprocess.DEVNULL).returncode == 0
    except FileNotFoundError:
        return False


def rate(path, elapsed):
    return f"{path.stat().st_size / 1e6 / elapsed:.0f}"


def further(command, folder, kind):
    """The instructions for the small log, less those for the first event alone; None if they can't be counted."""
    paths = (folder / f"{kind}_small.binlog", folder / make_binlogs.start_name(kind))
    counted = [instructions(command, path) for path in paths]
    return None if None in counted else counted[0] - counted[1]


def listing_row(program, listing, baseline, folder, kind):
    path, small = folder / f"{kind}.binlog", folder / f"{kind}_small.binlog"
    commands = [program, "verifying"], [baseline, "--verify"]
    compare_outputs(*commands, path)
    ours, theirs = best_of(commands, path)
    with open(small, "rb") as file:
        few = subprocess.run([listing], stdin=file, stdout=subprocess.PIPE, check=True).stdout.count(b"\n")
    counted = [further(command, folder, kind) for command in (*commands, [listing])]
    if None in counted:
        figures = ["not counted"] * 3
    else:
        counts = (counted[0], counted[1], counted[0] - counted[2])
        figures = [f"{count / (few - 1):.0f}" for count in counts]
    return [
        kind, f"{small.stat().st_size / few:.0f}", rate(path, ours), rate(path, theirs), f"{ours / theirs:.2f}", *figures
    ]


def alone_row(program, baseline, folder, kind):
    path = folder / f"{kind}.binlog"
    ours, theirs = best_of([[program, "verifying", "count"], [baseline, "--mismatches"]], path)
    if not has_mariadb(path):
        return [kind, rate(path, ours), rate(path, theirs), "not measured", "not measured"]
    mariadb = min(seconds(["mariadb-binlog", "--verify-binlog-checksum", path]) for _ in range(ROUNDS))
    return [kind, rate(path, ours), rate(path, theirs), rate(path, mariadb), f"{mariadb / ours:.1f}"]


def print_table(columns, rows):
    print("| " + " | ".join(columns) + " |")
    print("|---" + "|---:" * (len(columns) - 1) + "|")
    for row in rows:
        print("| " + " | ".join(row) + " |", flush=True)
    print()


def main(arguments):
    crates = HERE.parent / "crates"
    program = arguments[0] if arguments else str(crates / "probe/out/probe")
    listing = arguments[1] if len(arguments) > 1 else str(crates / "binlog_list/out/binlog_list")
    folder = Path(arguments[2]) if len(arguments) > 2 else HERE / "work"
    folder.mkdir(parents=True, exist_ok=True)
    baseline = build_baseline("listing_baseline")
    for kind in KINDS:
        make_binlogs.make_start(folder, kind)
        make_binlogs.make_kind(folder, kind)
    print_table(LISTING_COLUMNS, (listing_row(program, listing, baseline, folder, kind) for kind in KINDS))
    print_table(ALONE_COLUMNS, (alone_row(program, baseline, folder, kind) for kind in KINDS))


if __name__ == "__main__":
    main(arguments(__doc__))
