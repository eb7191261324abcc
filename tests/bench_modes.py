#!/usr/bin/env python3
"""Runs each mode of `probe` that the benchmark measures over a small log: its output and its status must be those that are stated here.

Usage: bench_modes.py FLAG

FLAG is one of `programs.py`. The logs are those of the stored runs of other programs, and samples. The last line is `N passed, M failed`; the
exit status is 1 if something failed.
"""

import argparse
import sys

import programs
import results

SUCCESS, FAILURE, DAMAGED = 0, 1, 2


def stored(crate):
    """The log of the stored run of a program."""
    return (programs.CRATES / crate / "stdin").read_bytes()


LOG = stored("binlog_list")

SAMPLES = programs.REPOSITORY / "tests/samples"

# Rows with values of most types.
ROWS = (SAMPLES / "values.binlog").read_bytes()
CHECKSUMMED = (SAMPLES / "checksummed.binlog").read_bytes()

# A log of a MariaDB server.
MARIA_LOG = (SAMPLES / "maria.binlog").read_bytes()

# A bit of a checksum is wrong.
MISMATCHED = CHECKSUMMED[:516] + bytes([CHECKSUMMED[516] ^ 1]) + CHECKSUMMED[517:]

LISTING = b"""\
0 15 122 126 0001 98 4d711cb8 read
1 2 100 226 0000 77 305196e1 read
2 2 97 323 0000 74 79b73c45 read
3 2 100 423 0000 77 d224b2bb read
4 error E17
5 2 100 620 0000 77 4061f2c1 read
"""

# For the words of each mode a log, and the output and the status.
RUNS = [
    ("maria-gtids", MARIA_LOG, b"9 10 903\n", SUCCESS),
    ("reading", LOG, b"20\n", SUCCESS),
    ("reading owned", LOG, b"20\n", SUCCESS),
    ("reading slice", LOG, b"20\n", SUCCESS),
    ("reading memory", LOG, b"0\n", SUCCESS),
    ("reading otherwise", LOG, b"", FAILURE),
    ("row-sums", ROWS, b"80 0 36 221023899081 6859 12625712440 30830151424016384 201521 129772767139 49548929\n", SUCCESS),
    ("typed", LOG, b"17 498 68 278987 0 0 0 0 0 0 0 0\n", SUCCESS),
    # As `listing_baseline --typed` of bench/baseline prints them: GTIDs, table maps and row events, too.
    ("typed", ROWS, b"2 18 8 32822 2 0 5015135542018100 2 158 6 11233 980\n", SUCCESS),
    ("verifying", MISMATCHED, LISTING, DAMAGED),
    ("verifying count", MISMATCHED, b"1\n", DAMAGED),
    ("verifying count", CHECKSUMMED, b"0\n", SUCCESS),
    ("write-back", CHECKSUMMED, CHECKSUMMED, SUCCESS),
    ("write-back", MISMATCHED, CHECKSUMMED, SUCCESS),
    ("", LOG, b"", FAILURE),
    ("no-mode", LOG, b"", FAILURE),
]


def failure(program, words, log, *wanted):
    """None if a run is as it should be, else what is wrong."""
    found = programs.run([*program, *words.split()], log)
    return None if found == wanted else f"probe {words}: {found}, not {wanted}"


def main():
    parser = argparse.ArgumentParser(description="Runs each mode that the benchmark measures.")
    programs.add_flags(parser)
    program = programs.parsed(parser, "benchmark").build.command("benchmark")
    return results.report(failure(program, *run) for run in RUNS)


if __name__ == "__main__":
    sys.exit(main())
