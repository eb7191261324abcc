#!/usr/bin/env python3
"""Runs the examples of the cargo package `binlog-tools`, which `cargo_crate.py --make` has made.

Usage: examples.py

What an example prints or writes follows from the logs that it is given, which are made here. A test each: an example on a log, and
that it has at most 40 lines. The last line is `N passed, M failed`; the exit status is 1 if something failed.
"""

import subprocess
import sys
import tempfile
from collections import Counter
from pathlib import Path

import binlog_command
import cargo_crate
import declared_columns
import listing_model
import results
import row_lines
import row_values
from binlog_command import CHECKSUMMED, SAMPLE, SID
from damaged_copies import MAGIC, frame_starts, with_byte
from declared_model import Declared
from programs import PACKAGES, PROFILE, REPOSITORY
import samples

FOLDER = REPOSITORY / "cargo/templates/binlog-tools/examples"
LONGEST = 40
TYPE_OFFSET = 4


class Examples:
    """The built examples, run in a folder of their own."""

    def __init__(self, folder):
        self.folder = Path(folder)

    def write(self, name, log):
        (self.folder / name).write_bytes(log)

    def read(self, name):
        return (self.folder / name).read_bytes()

    def program(self, example):
        return PACKAGES / "target" / PROFILE / "examples" / example

    def ended(self, example, *words):
        """The status of an example, and its messages."""
        ran = subprocess.run([self.program(example), *words], cwd=self.folder, capture_output=True, text=True)
        return ran.returncode, ran.stderr

    def run(self, example, *words):
        """What an example prints."""
        return subprocess.run([self.program(example), *words], cwd=self.folder, capture_output=True, text=True, check=True).stdout


def difference(name, found, wanted):
    return None if found == wanted else f"{name}: {found!r}, not {wanted!r}"


def count_by_type(examples):
    examples.write("log", SAMPLE)
    *lines, damaged = examples.run("count_by_type", "log").splitlines()
    types = Counter(frame[TYPE_OFFSET] for frame in listing_model.split(SAMPLE[len(MAGIC) :])[0])
    yield difference("count_by_type", [int(line.split()[-1]) for line in lines], [types[kind] for kind in sorted(types)])
    yield difference("count_by_type", damaged, "damaged: 0")


def rows(examples):
    examples.write("log", row_lines.content_of(row_lines.VERSIONS[0], [row_lines.FIRST, row_lines.written(1, 7, b"a")]))
    yield difference("rows", examples.run("rows", "log").splitlines(), ["shop.orders", "+ id: 7", '+ note: "a"'])
    version, table = row_lines.VERSIONS[0], row_values.table_map(7, bytes([3, 254]), b"\xf7\1")
    row = row_values.row_event(row_values.WHOLE[3], 7, [True, True], [True, True], b"\0\xff\xff\xff\xff\2")
    examples.write("log", row_lines.content_of(version, [table, row]))
    declared = {("d", "t"): [("id", Declared("int unsigned", "NULL", None)), ("size", Declared("enum('small','large')", "latin1", None))]}
    examples.write("columns.tsv", declared_columns.file_text(declared))
    examples.write("without a map", row_lines.content_of(version, [row]))
    yield difference("rows", examples.run("rows", "without a map"), "rows without a table map\n")
    yield difference("rows", examples.run("rows", "log").splitlines(), ["d.t", "+ 0: -1", "+ 1: 2"])
    yield difference("rows", examples.run("rows", "log", "columns.tsv").splitlines(), ["d.t", "+ id: 4294967295", '+ size: "large"'])


def copy_transactions(examples):
    log = binlog_command.transactions(1, 2, 3)
    examples.write("log", log)
    examples.run("copy_transactions", f"{SID}:2", "log", "copy")
    # The rotate at the start belongs to no transaction.
    yield difference("copy_transactions", examples.read("copy"), binlog_command.copy_of(log, [0, 4, 5, 6]))
    for to in ("log", "copy"):
        before = examples.read(to)
        status, _ = examples.ended("copy_transactions", f"{SID}:2", "log", to)
        yield difference(f"copy_transactions onto {to}", (status, examples.read(to)), (1, before))
    examples.write("cut", log[:-1])
    said = (0, "cut: what is behind the last event isn't copied\n")
    yield difference("copy_transactions of a cut log", examples.ended("copy_transactions", f"{SID}:2", "cut", "copy of a cut log"), said)


def missing_gtids(examples):
    examples.write("log", binlog_command.transactions(1, 2, 3, 4, 5))
    examples.write("other", binlog_command.transactions(1, 2, 3))
    yield difference("missing_gtids", examples.run("missing_gtids", "log", "other"), f"{SID}:4-5\n")
    yield difference("missing_gtids", examples.run("missing_gtids", "other", "log"), "\n")


def verify(examples):
    examples.write("log", CHECKSUMMED)
    yield difference("verify", examples.run("verify", "log"), "0 events damaged\n")
    last_byte = list(frame_starts(CHECKSUMMED))[1] - 1
    examples.write("damaged", with_byte(CHECKSUMMED, last_byte, CHECKSUMMED[last_byte] ^ 1))
    first, last = examples.run("verify", "damaged").splitlines()
    yield None if first.startswith("event 0: checksum mismatch") else f"verify: {first}"
    yield difference("verify", last, "1 events damaged")
    examples.write("cut", CHECKSUMMED[:-1])
    last_size = len(CHECKSUMMED) - list(frame_starts(CHECKSUMMED))[-1]
    wanted = f"0 events damaged\nthe last {last_size - 1} bytes are the beginning of an event\n"
    yield difference("verify", examples.run("verify", "cut"), wanted)


def build_log(examples):
    examples.run("build_log", "test", "create table t(a int)", "log")
    log = examples.read("log")
    frames, tail = listing_model.split(log[len(MAGIC) :])
    yield difference("build_log", [frame[TYPE_OFFSET] for frame in frames], [15, samples.QUERY])
    yield difference("build_log", (log[: len(MAGIC)], tail), (MAGIC, b""))
    yield difference("build_log", frames[1].endswith(b"\0test\0create table t(a int)"), True)
    yield difference("build_log", listing_model.expected(log)[1], listing_model.STATUS_FINE)


def lengths(_examples):
    for path in sorted(FOLDER.glob("*.rs")):
        count = len(path.read_text().splitlines())
        yield None if count <= LONGEST else f"{path.name} has {count} lines"


TESTS = (count_by_type, rows, copy_transactions, missing_gtids, verify, build_log, lengths)


def main():
    if cargo_crate.cargo("build", "--package", "binlog-tools", "--examples").returncode != 0:
        return results.close(0, 1)
    with tempfile.TemporaryDirectory() as folder:
        return results.report(result for test in TESTS for result in test(Examples(folder)))


if __name__ == "__main__":
    sys.exit(main())
