#!/usr/bin/env python3
"""Counts the instructions that programs take for an event or a row, and compares each count with its limit.

Usage: instruction_counts.py [--table] --proved | --cargo

The logs are those of the benchmark, of 400,000 bytes each, and valgrind counts as bench/README.md says: less what it counts on the start
of the log. A test each: that a count is within its limit. Each count is printed.

- With --proved the programs are those that are built in crates/NAME/out, and `binlog list` takes no more than MOST_TIMES the
  instructions of `binlog_list`. The limits are a tenth above what was counted last, and MOST_TIMES a twentieth, since functions of the C
  library differ by the processor.
- With --cargo the program is the one that `bin/binlog` runs where there is no proved one: `bin/build-by-cargo` builds it, as for a
  user. The limits are SOON_TIMES what the profile `release` took when it was counted last.

`--table` prints the limits that follow from the counts, and tests nothing; with --cargo the counts are those of the program of `release`,
which is built in out/cargo. Where valgrind isn't there, a line says so, nothing is run, and both numbers are 0. The last line is
`N passed, M failed`; the exit status is 1 if something failed.
"""

import argparse
import math
import shutil
import subprocess
import sys
import tempfile
from pathlib import Path
from typing import NamedTuple

import programs
import results

sys.path.insert(0, str(programs.REPOSITORY / "bench"))

import make_binlogs  # noqa: E402  (found by way of the line above)
import make_row_logs  # noqa: E402
import make_transaction_logs  # noqa: E402
import measure  # noqa: E402
import measure_rows  # noqa: E402

LENGTH = 400_000
# The logs of which rows are counted, and not events.
OF_ROWS = {"rows_mysql": "mysql"}
# The logs of ordinary transactions.
OF_TRANSACTIONS = {"transactions_of_mysql": "mysql", "transactions_of_maria": "maria"}


class Limit(NamedTuple):
    """The most instructions that a command takes for an event or a row of a log. Its words are those behind the program."""

    program: str
    words: str
    log: str
    most: int


LIMITS = [
    Limit("binlog_list", "", "statements", 460),
    Limit("binlog_list", "", "rows", 510),
    Limit("binlog_list", "", "gtids", 1220),
    Limit("binlog_list", "", "maps_1", 710),
    Limit("binlog", "list", "statements", 580),
    Limit("binlog", "json", "statements", 1550),
    Limit("binlog", "stats", "statements", 380),
    Limit("binlog", "gtids", "statements", 360),
    Limit("binlog", "json", "rows_mysql", 5690),
    Limit("probe", "slice-listing", "statements", 640),
    Limit("probe", "typed", "statements", 400),
    Limit("probe", "typed", "maps_1", 450),
    Limit("probe", "typed", "gtids", 1310),
    Limit("probe", "verifying", "statements_crc32", 1070),
    Limit("probe", "row-sums", "rows_mysql", 1390),
]
# What the profile `release` of the cargo packages takes behind the start of a log of 400,000 bytes, in thousands (2026-12-01, Rust 1.95).
RELEASE = [
    ("list", "statements", 2863),
    ("list", "transactions_of_mysql", 3077),
    ("list", "transactions_of_maria", 3127),
    ("json", "statements", 7119),
    ("json", "rows_mysql", 14637),
    ("json", "transactions_of_mysql", 10928),
    ("json", "transactions_of_maria", 12055),
    ("json --compact", "rows_mysql", 26885),
    ("json --compact", "transactions_of_mysql", 11211),
    ("json --compact", "transactions_of_maria", 13155),
    ("gtids", "transactions_of_mysql", 2336),
    ("gtids", "transactions_of_maria", 2458),
    ("stats", "statements", 1990),
    ("stats", "transactions_of_mysql", 2039),
    ("stats", "transactions_of_maria", 2149),
    ("stats --by table", "rows_mysql", 7352),
    ("stats --by table", "transactions_of_mysql", 5902),
    ("stats --by table", "transactions_of_maria", 6951),
]
SOON = programs.REPOSITORY / "out/by-cargo/binlog"
RELEASE_PROGRAM = programs.REPOSITORY / "out/cargo/target/release/binlog"
# How many times that the program of `bin/binlog` may take.
SOON_TIMES = 1.4
# How many times the instructions of `binlog_list` `binlog list` may take for a statement.
MOST_TIMES = 1.35
ROOM = 1.1
TIMES_ROOM = 1.05


def command(program, words=""):
    return [str(word) for word in programs.proved(program, *words.split())]


def make_log(folder, log):
    if log in OF_ROWS:
        make_row_logs.make_kind(folder, OF_ROWS[log], {"_small": LENGTH})
    else:
        make_binlogs.make_small(folder, log, LENGTH)


def rows_between(folder, log):
    """How many rows the log has behind its start."""
    paths = [folder / f"{log}_small.binlog", folder / f"start_{log}.binlog"]
    whole, start = (measure_rows.rows_in(command("probe", "row-sums"), path) for path in paths)
    return whole - start


def counted(limit, folder):
    """The instructions for an event or a row; None if they couldn't be counted."""
    make_log(folder, limit.log)
    words = command(limit.program, limit.words)
    if limit.log in OF_ROWS:
        counts = measure_rows.further(lambda path: words, folder, OF_ROWS[limit.log], rows_between(folder, limit.log))
    else:
        counts = measure.counts_per_event(words, command("binlog_list"), folder, limit.log, limit.program)
    return counts[0] if counts else None


def failure(limit, count):
    """None if the count is within the limit, else what is wrong. Prints the count."""
    name = " ".join([limit.program, *limit.words.split(), "over", limit.log])
    if count is None:
        return f"{name}: the instructions couldn't be counted"
    print(f"{name}: {count:,.0f}, at most {limit.most:,}", flush=True)
    return None if count <= limit.most else f"{name}: {count:,.0f} instructions, and at most {limit.most:,}"


def times(counts):
    """How many times what `binlog_list` takes for a statement `binlog list` takes; None if they couldn't be counted."""
    ours, least = counts["binlog", "list", "statements"], counts["binlog_list", "", "statements"]
    return ours / least if ours and least else None


def times_failure(found):
    """None if `binlog list` takes few enough instructions beside `binlog_list`, else what is wrong."""
    if found is None:
        return "binlog list beside binlog_list: the instructions couldn't be counted"
    print(f"binlog list beside binlog_list: {found:.2f} times, at most {MOST_TIMES}")
    return None if found <= MOST_TIMES else f"binlog list takes {found:.2f} times what binlog_list takes"


def failures(counts):
    """For each test, None or what is wrong. The counts are those of LIMITS."""
    kept = {}
    for limit, count in counts:
        kept[limit[:3]] = count
        yield failure(limit, count)
    yield times_failure(times(kept))


def print_table(counts):
    """Prints the table of limits with room above the counts, in tens."""
    kept = {}
    for limit, count in counts:
        kept[limit[:3]] = count
        most = math.ceil(count * ROOM / 10) * 10
        print(f'    Limit("{limit.program}", "{limit.words}", "{limit.log}", {most}),', flush=True)
    print(f"MOST_TIMES = {times(kept) * TIMES_ROOM:.2f}")
    return 0


def make_soon_log(folder, log):
    """Makes a log of LENGTH and its start."""
    if log in OF_TRANSACTIONS:
        make_transaction_logs.make_kind(folder, OF_TRANSACTIONS[log], {"_small": LENGTH})
    else:
        make_log(folder, log)


def thousands(program, words, log, folder):
    """The instructions that a program takes behind the start of a log, in thousands; None if they couldn't be counted."""
    make_soon_log(folder, log)
    start = make_binlogs.start_name(log) if log in make_binlogs.KINDS else f"start_{log}.binlog"
    paths = [folder / f"{log}_small.binlog", folder / start]
    counted = [measure.counts([str(program), *words.split(), "-"], path, "cargo") for path in paths]
    return None if None in counted else (counted[0][0] - counted[1][0]) / 1000


def soon_failure(words, log, release, count):
    """None if the program of `bin/binlog` takes few enough instructions beside `release`, else what is wrong. Prints the count."""
    if count is None:
        return f"{words} over {log}: the instructions couldn't be counted"
    print(f"{words} over {log}: {count:,.0f} thousands, {count / release:.2f} times {release:,}", flush=True)
    return None if count <= SOON_TIMES * release else f"{words} over {log}: {count / release:.2f} times, and at most {SOON_TIMES}"


def soon_failures(folder):
    """For each row of RELEASE, None or what is wrong with the program that `bin/binlog` runs."""
    if subprocess.run([programs.REPOSITORY / "bin/build-by-cargo"]).returncode != 0:
        yield "bin/build-by-cargo built nothing"
        return
    for words, log, release in RELEASE:
        yield soon_failure(words, log, release, thousands(SOON, words, log, folder))


def print_release(folder):
    """Prints the table of what `release` takes."""
    for words, log, _ in RELEASE:
        print(f'    ("{words}", "{log}", {thousands(RELEASE_PROGRAM, words, log, folder):.0f}),', flush=True)
    return 0


def of_cargo(is_table):
    with tempfile.TemporaryDirectory() as folder:
        return print_release(Path(folder)) if is_table else results.report(soon_failures(Path(folder)))


def main():
    parser = argparse.ArgumentParser(description="Compares the instructions that programs take with limits.")
    which = parser.add_mutually_exclusive_group(required=True)
    which.add_argument("--proved", action="store_true", help="the proved programs")
    which.add_argument("--cargo", action="store_true", help="the program by cargo that bin/binlog runs")
    parser.add_argument("--table", action="store_true", help="print the limits that follow from the counts, and test nothing")
    arguments = parser.parse_args()
    if arguments.cargo:
        if shutil.which("valgrind") is None:
            return results.left_out("valgrind isn't there: no instructions are counted.")
        return of_cargo(arguments.table)
    for program in {limit.program for limit in LIMITS}:
        if not programs.is_built(command(program)):
            parser.error(f"no program at {command(program)[0]}")
    if shutil.which("valgrind") is None:
        return results.left_out("valgrind isn't there: no instructions are counted.")
    with tempfile.TemporaryDirectory() as folder:
        counts = ((limit, counted(limit, Path(folder))) for limit in LIMITS)
        return print_table(counts) if arguments.table else results.report(failures(counts))


if __name__ == "__main__":
    sys.exit(main())
