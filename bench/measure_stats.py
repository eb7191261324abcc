#!/usr/bin/env python3
"""Measures `binlog stats` by type, by table, by time and by transaction, and the usual pipeline of `mariadb-binlog` and `awk`; prints a Markdown table.

Usage: measure_stats.py [PROGRAM [FOLDER]]

PROGRAM is the built binlog, if not given. FOLDER, `work` beside this file if not given, holds the logs, which are made if they are
missing: the transactions of make_binlogs.py, whose rows can't be read, and those of make_row_logs.py. The pipeline counts the rows
that are inserted, updated and deleted in each table, over the small log of rows as MariaDB writes them; the counts must be equal.
It is left out where `mariadb-binlog` of Debian's package `mariadb-client` isn't there. Times are processor times, the best of 5,
the programs in turns, with output to /dev/null. MB are 1,000,000 bytes.
"""

import json
import shlex
import shutil
import subprocess
import sys
from collections import Counter
from pathlib import Path

from arguments import arguments
import make_binlogs
import make_row_logs
from measure_json import seconds

ROUNDS = 5
HERE = Path(__file__).resolve().parent
MARIADB = "mariadb-binlog"
ROW_LINES = "/^### (INSERT INTO|UPDATE|DELETE FROM)/ { rows[$0]++ } END { for (line in rows) print rows[line], line }"
CHANGES = {"INSERT": "inserted", "UPDATE": "updated", "DELETE": "deleted"}
GROUPS = ("type", "table", "time=60s", "transaction")
COLUMNS = ["Log", "MB", *(f"--by {group}, MB/s" for group in GROUPS)]


def pipeline(path):
    words = [MARIADB, "--skip-gtid-strict-mode", "-v", "--base64-output=DECODE-ROWS", str(path)]
    return ["sh", "-c", f"{shlex.join(words)} | awk {shlex.quote(ROW_LINES)}"]


def output_of(command):
    return subprocess.run(command, stdout=subprocess.PIPE, check=True).stdout.decode()


def counted_by_pipeline(path):
    """The rows of each table and kind of change."""
    counts = Counter()
    for line in output_of(pipeline(path)).splitlines():
        number, _, change, *_, table = line.split()
        counts[table.replace("`", ""), CHANGES[change]] += int(number)
    return counts


def counted(program, path):
    counts = Counter()
    for table in map(json.loads, output_of([*program, "--by", "table", "--json", str(path)]).splitlines()[1:]):
        for change in CHANGES.values():
            counts[f"{table['database']}.{table['table']}", change] = table[change]
    return +counts


def best(commands, path):
    """The least processor time of each command."""
    return [min(times) for times in zip(*([seconds(command, path) for command in commands] for _ in range(ROUNDS)))]


def row(program, path):
    size = path.stat().st_size / 1e6
    times = best([[*program, "--by", group, str(path)] for group in GROUPS], path)
    return [path.stem, f"{size:.0f}", *(f"{size / time:,.0f}" for time in times)]


def compared(program, path):
    """How many times as fast as the pipeline the program is."""
    if counted(program, path) != counted_by_pipeline(path):
        sys.exit(f"{path}: the counts differ")
    ours, theirs = best([[*program, "--by", "table", str(path)], pipeline(path)], path)
    size = path.stat().st_size / 1e6
    return f"{path.stem}: the pipeline reads {size / theirs:.1f} MB/s; --by table is {theirs / ours:.0f} times as fast"


def main(arguments):
    given = arguments + [None] * (2 - len(arguments))
    program = [given[0] or str(HERE.parent / "crates/binlog/out/binlog"), "stats"]
    folder = Path(given[1] or HERE / "work")
    folder.mkdir(parents=True, exist_ok=True)
    make_binlogs.make_kind(folder, "transactions")
    for kind in make_row_logs.KINDS:
        make_row_logs.make_kind(folder, kind)
    print("| " + " | ".join(COLUMNS) + " |")
    print("|---" + "|---:" * (len(COLUMNS) - 1) + "|")
    for name in ("transactions", *(f"rows_{kind}" for kind in make_row_logs.KINDS)):
        print("| " + " | ".join(row(program, folder / f"{name}.binlog")) + " |", flush=True)
    if shutil.which(MARIADB):
        print("\n" + compared(program, folder / "rows_maria_small.binlog"))


if __name__ == "__main__":
    main(arguments(__doc__))
