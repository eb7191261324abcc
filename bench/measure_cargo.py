#!/usr/bin/env python3
"""Counts the instructions for an event of the cargo packages' program, and of the hand-written listing.

Usage: measure_cargo.py PROGRAM [BASELINE [FOLDER]]

PROGRAM is the packages' `binlog` in the release profile, such as `/tmp/binlog/target/release/binlog`; BASELINE the
hand-written listing, `bench/baseline/target/release/listing_baseline` if it isn't given. The logs are made in FOLDER,
`bench/work` if it isn't given, 5 MB of each kind. Valgrind counts on them, less what it counts on the start of a log
(README.md). The listings' outputs are compared before. A Markdown table is printed.
"""

import sys
from pathlib import Path

from arguments import arguments
import make_binlogs
import measure

HERE = Path(__file__).resolve().parent

KINDS = ["statements", "statements_crc32", "rows", "rows_crc32", "gtids", "maps_1", "maps_100"]
COLUMNS = ["", "Listing", "Baseline's", "JSON", "GTIDs", "Counts"]


def row(program, baseline, folder, kind):
    path = make_binlogs.make_small(folder, kind)
    listing = [program, "list"]
    measure.compare_outputs(listing, [baseline], path)
    counted = [
        measure.counts_per_event(command, listing, folder, kind, name)
        for name, command in [
            ("list", listing),
            ("baseline", [baseline]),
            ("json", [program, "json"]),
            ("gtids", [program, "gtids"]),
            ("stats", [program, "stats"]),
        ]
    ]
    return [kind, *(measure.per_event(one, 0, 0) for one in counted)]


def main(arguments):
    if not 1 <= len(arguments) <= 3:
        sys.exit("usage: measure_cargo.py PROGRAM [BASELINE [FOLDER]]")
    baseline = arguments[1] if len(arguments) > 1 else str(HERE / "baseline/target/release/listing_baseline")
    folder = Path(arguments[2]) if len(arguments) > 2 else HERE / "work"
    folder.mkdir(parents=True, exist_ok=True)
    rows = [row(arguments[0], baseline, folder, kind) for kind in KINDS]
    measure.print_table("The cargo packages' program, instructions for an event", COLUMNS, rows)


if __name__ == "__main__":
    main(arguments(__doc__))
