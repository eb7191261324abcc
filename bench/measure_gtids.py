#!/usr/bin/env python3
"""Measures `binlog gtids` and its hand-written baseline over logs of GTIDs; prints a Markdown table.

Usage: measure_gtids.py [PROGRAM [FOLDER [EVENTS]]]

PROGRAM, words of a command, is that of the built binlog if not given. FOLDER, `work` beside this file if not given, holds the logs of
make_gtid_logs.py, which are made if they are missing, with EVENTS events. The baseline is built first. Both outputs and exit
statuses must be equal. Times are processor times, the best of 5, the two in turns, with output to /dev/null; instructions
are those of the small log, by `valgrind`.
"""

import shlex
import subprocess
import sys
from pathlib import Path

from arguments import arguments
import make_gtid_logs
from measure import build_baseline
from measure_json import instructions, seconds

ROUNDS = 5
HERE = Path(__file__).resolve().parent
COLUMNS = [
    "Input", "Events", "ns / event", "Baseline's", "Time / baseline", "Instructions / event", "Baseline's", "Peak MB", "Baseline's"
]


def outcome(words, path):
    with open(path, "rb") as file:
        run = subprocess.run(words, stdin=file, stdout=subprocess.PIPE)
    return run.stdout, run.returncode


def peak_megabytes(words, path):
    """The greatest resident set of a run, or None if `/usr/bin/time` is missing."""
    try:
        with open(path, "rb") as file:
            command = ["/usr/bin/time", "-f", "%M", *words]
            run = subprocess.run(command, stdin=file, stdout=subprocess.DEVNULL, stderr=subprocess.PIPE, text=True)
    except FileNotFoundError:
        return None
    return int(run.stderr.split()[-1]) / 1000


def shown(number, digits=0):
    return "not measured" if number is None else f"{number:.{digits}f}"


def row(programs, folder, kind, count):
    path, small = (folder / make_gtid_logs.log_name(kind, is_small) for is_small in (False, True))
    if len({outcome(words, path) for words in programs}) != 1:
        sys.exit(f"{path}: the listings differ")
    times = zip(*([seconds(words, path) for words in programs] for _ in range(ROUNDS)))
    ours, theirs = map(min, times)
    few = max(1, count // 100)
    counted = [instructions(words, small) for words in programs]
    return [
        kind,
        str(count),
        *(f"{time / count * 1e9:.0f}" for time in (ours, theirs)),
        f"{ours / theirs:.2f}",
        *(shown(None if number is None else number / few) for number in counted),
        *(shown(peak_megabytes(words, path), 1) for words in programs),
    ]


def main(arguments):
    words = shlex.split(arguments[0]) if arguments else [str(HERE.parent / "crates/binlog/out/binlog"), "gtids"]
    folder = Path(arguments[1]) if len(arguments) > 1 else HERE / "work"
    count = int(arguments[2]) if len(arguments) > 2 else make_gtid_logs.EVENTS
    programs = [words, [build_baseline("gtids_baseline")]]
    make_gtid_logs.make_logs(folder, count)
    print("| " + " | ".join(COLUMNS) + " |")
    print("|---" + "|---:" * (len(COLUMNS) - 1) + "|")
    for kind in make_gtid_logs.KINDS:
        print("| " + " | ".join(row(programs, folder, kind, count)) + " |", flush=True)


if __name__ == "__main__":
    main(arguments(__doc__))
