#!/usr/bin/env python3
"""Counts the instructions of the commands of a program beside the same program in the profile `release`; prints a Markdown table.

Usage: measure_profiles.py PROGRAM RELEASE [FOLDER]

PROGRAM is `out/by-cargo/binlog`, which `bin/binlog` builds, and RELEASE the packages' program in the profile `release`. FOLDER,
`work` beside this file if not given, holds the logs, which are made if they are missing: statements, rows of ten columns, and
ordinary transactions, which change one row each. Valgrind counts on logs of 5 MB. Below the table are the processor times of `json
--compact` over ordinary transactions of 100 MB, the best of 5, in turns with what the servers' programs print with `-v`, where these
are there. The outputs go to /dev/null.
"""

import shutil
import sys
from pathlib import Path

from arguments import arguments
import make_binlogs
import make_row_logs
import make_transaction_logs
from measure import counts
from measure_json import seconds

ROUNDS = 5
HERE = Path(__file__).resolve().parent
LOGS = ["statements", "rows_mysql", "transactions_of_mysql", "transactions_of_maria"]
COMMANDS = [
    "list",
    "json",
    "json --compact",
    "gtids",
    "stats",
    "stats --by table",
    "copy -o -",
]
PRINTERS = {
    "mariadb-binlog": ("transactions_of_maria", ["--skip-gtid-strict-mode", "-v", "--base64-output=DECODE-ROWS"]),
    "mysqlbinlog": ("transactions_of_mysql", ["--no-defaults", "-v", "--base64-output=DECODE-ROWS"]),
}


def make_logs(folder, lengths):
    """Makes the logs, each of these lengths; the statements of 5 MB alone."""
    folder.mkdir(parents=True, exist_ok=True)
    make_binlogs.make_small(folder, "statements", lengths["_small"])
    make_row_logs.make_kind(folder, "mysql", lengths)
    for kind in make_transaction_logs.KINDS:
        make_transaction_logs.make_kind(folder, kind, lengths)


def instructions(program, command, path):
    """The instructions of a command over a log; None if they can't be counted."""
    counted = counts([program, *command.split(), str(path)], path, command.replace(" ", "_"))
    return counted and counted[0]


def row(program, release, folder, command, log):
    path = folder / f"{log}_small.binlog"
    ours, theirs = (instructions(each, command, path) for each in (program, release))
    if None in (ours, theirs):
        return [command, log, "not counted", "", ""]
    return [command, log, f"{ours / 1e6:,.1f}", f"{theirs / 1e6:,.1f}", f"{ours / theirs:.2f}"]


def print_times(program, release, folder):
    for printer, (log, words) in PRINTERS.items():
        path = folder / f"{log}.binlog"
        commands = {"PROGRAM": [program, "json", "--compact", str(path)], "RELEASE": [release, "json", "--compact", str(path)]}
        if shutil.which(printer):
            commands[printer] = [printer, *words, str(path)]
        best = {name: min(seconds(command, path) for _ in range(ROUNDS)) for name, command in commands.items()}
        print(f"- {log}: " + ", ".join(f"{name} {time:.2f} s" for name, time in best.items()))


def main(arguments):
    if not 2 <= len(arguments) <= 3:
        sys.exit("usage: measure_profiles.py PROGRAM RELEASE [FOLDER]")
    program, release = arguments[:2]
    folder = Path(arguments[2]) if len(arguments) > 2 else HERE / "work"
    make_logs(folder, make_row_logs.LENGTHS)
    print("| Command | Log | Million instructions | `release` | Ratio |\n|---|---|---:|---:|---:|")
    for command in COMMANDS:
        for log in LOGS:
            print("| " + " | ".join(row(program, release, folder, command, log)) + " |", flush=True)
    print()
    print_times(program, release, folder)


if __name__ == "__main__":
    main(arguments(__doc__))
