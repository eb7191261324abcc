#!/usr/bin/env python3
"""Measures `binlog json` and `mariadb-binlog`, which prints the same statements; prints a Markdown table.

Usage: measure_json.py [PROGRAM [FOLDER]]

PROGRAM, words of a command, is that of the built binlog if not given. FOLDER, `work` beside this file if not given, holds the
files of make_binlogs.py; those of statements are made if they are missing. `mariadb-binlog` is part of Debian's package
`mariadb-client`; it refuses the other kinds, which are events of MySQL. Times are processor times, the best of 5, the two
in turns, with output to /dev/null.
"""

import os
import re
import shlex
import subprocess
import sys
from pathlib import Path

from arguments import arguments
import make_binlogs

KINDS = ("statements", "statements_crc32")
ROUNDS = 5
HERE = Path(__file__).resolve().parent
COLUMNS = [
    "Input", "Events", "ns / event", "mariadb-binlog's", "Times as fast", "Instructions / event", "mariadb-binlog's", "MB of JSON"
]


def seconds(command, path=None):
    """The processor time of the command."""
    with open(path or os.devnull, "rb") as file:
        process = subprocess.Popen(command, stdin=file, stdout=subprocess.DEVNULL)
        _, status, usage = os.wait4(process.pid, 0)
        process.returncode = os.waitstatus_to_exitcode(status)
    if process.returncode != 0:
        sys.exit(f"{command}: status {process.returncode}")
    return usage.ru_utime + usage.ru_stime


def instructions(command, path):
    """The instructions of a run, or None if valgrind is missing."""
    command = ["valgrind", "--tool=callgrind", "--callgrind-out-file=/dev/null", *command]
    try:
        with open(path, "rb") as file:
            run = subprocess.run(command, stdin=file, stdout=subprocess.DEVNULL, stderr=subprocess.PIPE, text=True)
    except FileNotFoundError:
        return None
    return int(re.search(r"Collected : (\d+)", run.stderr)[1])


def printed(words, path):
    with open(path, "rb") as file:
        output = subprocess.run(words, stdin=file, stdout=subprocess.PIPE, check=True).stdout
    return output.count(b"\n"), len(output)


def row(words, folder, kind):
    path, small = folder / f"{kind}.binlog", folder / f"{kind}_small.binlog"
    ours, theirs = zip(*((seconds(words, path), seconds(["mariadb-binlog", path])) for _ in range(ROUNDS)))
    events, size = printed(words, path)
    few, _ = printed(words, small)
    counted = [instructions(command, small) for command in (words, ["mariadb-binlog", small])]
    return [
        kind,
        str(events),
        f"{min(ours) / events * 1e9:.0f}",
        f"{min(theirs) / events * 1e9:.0f}",
        f"{min(theirs) / min(ours):.1f}",
        *("not counted" if count is None else f"{count / few:.0f}" for count in counted),
        f"{size / 1e6:.0f}",
    ]


def main(arguments):
    words = shlex.split(arguments[0]) if arguments else [str(HERE.parent / "crates/binlog/out/binlog"), "json"]
    folder = Path(arguments[1]) if len(arguments) > 1 else HERE / "work"
    folder.mkdir(parents=True, exist_ok=True)
    for kind in KINDS:
        make_binlogs.make_start(folder, kind)
        make_binlogs.make_kind(folder, kind)
    print("| " + " | ".join(COLUMNS) + " |")
    print("|---" + "|---:" * (len(COLUMNS) - 1) + "|")
    for kind in KINDS:
        print("| " + " | ".join(row(words, folder, kind)) + " |", flush=True)


if __name__ == "__main__":
    main(arguments(__doc__))
