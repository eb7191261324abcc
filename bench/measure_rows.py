#!/usr/bin/env python3
"""Measures `probe row-sums` and `binlog json` beside hand-written programs, and `binlog json` beside `mariadb-binlog`; prints Markdown tables.

Usage: measure_rows.py [PROGRAM [PRINTER [FOLDER]]]

PROGRAM is the built probe, and PRINTER the built binlog, if not given. FOLDER, `work` beside this file if not given,
holds the logs of make_row_logs.py, which are made if they are missing. The baselines are built first.

The first table is of values that are added up; the sums of both programs must be equal. The second is of lines of JSON with
rows; the outputs must be equal. The third is of rows as text: lines of JSON, and what `mariadb-binlog -v
--base64-output=DECODE-ROWS` prints of the same log, of Debian's package `mariadb-client`; it is left out where that isn't there.
Instructions and allocations are those of the small log, less those of its start. Times are processor times, the best of 5, the
two in turns, with output to /dev/null.
"""

import shutil
import subprocess
import sys
from pathlib import Path

from arguments import arguments
import make_row_logs
from measure import build_baseline, counts
from measure_json import seconds

ROUNDS = 5
HERE = Path(__file__).resolve().parent
COUNTED = ["Instructions / row", "{}", "ratio", "Allocations / row", "ns / row", "{}", "ratio"]
MARIADB = ["mariadb-binlog", "--skip-gtid-strict-mode", "-v", "--base64-output=DECODE-ROWS"]
CHANGES = (b"### INSERT", b"### UPDATE", b"### DELETE")


def columns(other):
    return ["Input", "Rows", *(name.format(other) for name in COUNTED)]


def output_of(command, path):
    with open(path, "rb") as file:
        return subprocess.run(command, stdin=file, stdout=subprocess.PIPE, check=True).stdout


def rows_in(command, path):
    """The number of rows, which is the first of the sums."""
    return int(output_of(command, path).split()[0])


def compared_sums(command, baseline, path):
    ours, theirs = output_of(command, path), output_of([baseline], path)
    if ours != theirs:
        sys.exit(f"{path}: the sums are {ours}, and the baseline's {theirs}")


def compared_lines(command, baseline, path):
    if output_of(command, path) != output_of([baseline], path):
        sys.exit(f"{path}: the lines differ")


def further(command_of, folder, kind, rows):
    """The instructions and the allocations for a row of the small log; None if they can't be counted."""
    pairs = []
    for name in (f"rows_{kind}_small", f"start_rows_{kind}"):
        path = folder / f"{name}.binlog"
        pairs.append(counts(command_of(path), path, name))
    if None in pairs:
        return None
    return [(large - small) / rows for large, small in zip(*pairs)]


def figures(counted, times, rows):
    """The cells of two programs: instructions, allocations, and times."""
    (ours, theirs), nanoseconds = counted, [time / rows * 1e9 for time in times]
    if None in counted:
        cells = ["not counted"] * 4
    else:
        cells = [f"{ours[0]:,.0f}", f"{theirs[0]:,.0f}", f"{ours[0] / theirs[0]:.2f}", f"{ours[1]:.2f}"]
    return [*cells, *(f"{time:,.0f}" for time in nanoseconds), f"{nanoseconds[0] / nanoseconds[1]:.2f}"]


def best_times(command_of, other_of, path):
    times = zip(*([seconds(command_of(path), path), seconds(other_of(path), path)] for _ in range(ROUNDS)))
    return [min(each) for each in times]


def row(counter, folder, kind, command_of, other_of):
    names = ("rows_{}", "rows_{}_small", "start_rows_{}")
    path, small, start = (folder / f"{name.format(kind)}.binlog" for name in names)
    rows, few, first = (rows_in(counter, each) for each in (path, small, start))
    counted = [further(command, folder, kind, few - first) for command in (command_of, other_of)]
    return [kind, f"{rows:,}", *figures(counted, best_times(command_of, other_of, path), rows)]


def print_table(title, other, lines):
    print(f"## {title}\n")
    print("| " + " | ".join(columns(other)) + " |")
    print("|---" + "|---:" * (len(columns(other)) - 1) + "|")
    for line in lines:
        print("| " + " | ".join(line) + " |", flush=True)
    print()


def check_rows(command, path):
    """`mariadb-binlog` has to print as many rows."""
    printed = output_of([*MARIADB, path], path)
    rows = sum(line.startswith(CHANGES) for line in printed.splitlines())
    if rows != rows_in(command, path):
        sys.exit(f"mariadb-binlog prints {rows} rows of {path}")


def main(arguments):
    given = arguments + [None] * (3 - len(arguments))
    command = [given[0] or str(HERE.parent / "crates/probe/out/probe"), "row-sums"]
    printer = [given[1] or str(HERE.parent / "crates/binlog/out/binlog"), "json", "-"]
    folder = Path(given[2] or HERE / "work")
    folder.mkdir(parents=True, exist_ok=True)
    adder, writer = build_baseline("rows_baseline"), build_baseline("json_baseline")
    for kind in make_row_logs.KINDS:
        make_row_logs.make_kind(folder, kind)
        compared_sums(command, adder, folder / f"rows_{kind}.binlog")
        compared_lines(printer, writer, folder / f"rows_{kind}_small.binlog")
    sums = [row(command, folder, kind, lambda path: command, lambda path: [adder]) for kind in make_row_logs.KINDS]
    print_table("Values added up", "Baseline's", sums)
    lines = [row(command, folder, kind, lambda path: printer, lambda path: [writer]) for kind in make_row_logs.KINDS]
    print_table("Lines of JSON", "Baseline's", lines)
    if shutil.which(MARIADB[0]):
        check_rows(command, folder / "rows_maria_small.binlog")
        printed = row(command, folder, "maria", lambda path: printer, lambda path: [*MARIADB, path])
        print_table("Rows as text", "mariadb-binlog's", [printed])


if __name__ == "__main__":
    main(arguments(__doc__))
