#!/usr/bin/env python3
"""Checks the allocations of the programs and the tests, and that all memory is freed.

Usage: allocations.py FLAG

FLAG is --proved or --cargo. With --proved the programs and tests are those that are built in crates/NAME/out, with --cargo the
commands `list`, `json`, `gtids` and `copy` of the packages' `binlog`. Each further event takes one buffer if it is owned
(`probe reading owned`), and nothing if it is borrowed (binlog_list, `probe write-back`, and those commands), even if
statements and their status variables are read (`probe typed`), or MariaDB's GTIDs (`probe maria-gtids`), or rows (`probe row-sums`), or
GTIDs that come in order are kept (`binlog gtids`). Checksums take nothing. A format description that comes into force, and a
table map, is copied once: one allocation for each of its texts that isn't empty, and one for the description.

No allocation of a program is larger than the bytes that came and 65,536 more; the vector of table maps may have 12 bytes for
each byte that came. All memory is freed when a program or a test ends; Rust's runtime keeps some blocks, as many whatever the
log. Where a header states 4,294,967,295 bytes and few come, 20 at a time, no allocation of a program grows by more than 65,536
bytes, nor does one of a test whose name contains `boundless`. Decompression of Zstandard frames (`probe frames`) takes at most the
bytes of the frames and of the content three times, those of a block's literals, and 128 KB of tables at a time; a content that is
stated and isn't there takes nothing. The last line is `N passed, M failed`; the exit status is 1 if something failed. Without the
C compiler `cc` nothing is run, and both numbers are 0.
"""

import argparse
import random
import shutil
import socket
import struct
import subprocess
import sys
from typing import Callable, NamedTuple

import programs
import samples
import watched
import zstd_frames
from compressible_texts import TEXTS
from damaged_copies import MAGIC

FEW, MANY = 10, 1010

TABLE_MAP, MARIA_GTID = 19, 162

# A log of a MariaDB server.
MARIA_LOG = programs.REPOSITORY / "tests/samples/maria.binlog"


def table_map(table_id):
    """A table map of this id: the table `t` of the database `d`, with one column."""
    body = struct.pack("<Q", table_id)[:6] + bytes.fromhex("01 00 01 64 00 01 74 00 01 03 00 01")
    return samples.frame(TABLE_MAP, body, 0)


def statement_of(count):
    """A statement that names this many databases."""
    variables = bytes([0x0C, count]) + count * b"a\0"
    head = struct.pack("<IIBHH", 1, 0, 0, 0, len(variables))
    return samples.frame(samples.QUERY, head + variables + b"\0q", 0)


def maria_gtid(index):
    """A GTID of MariaDB, of a transaction: the sequence number, the domain, the flags, and reserved bytes."""
    return samples.frame(MARIA_GTID, struct.pack("<QIB", index + 1, 0, 0x0C) + bytes(6), 0)


PLAIN_EVENT = samples.frame(samples.XID, samples.XID_BODY, 0)
STATEMENT = samples.frame(samples.QUERY, samples.query_body(b"d", b"q"), 0)
CHECKSUMMED_EVENT = samples.checksummed_frame(samples.XID, samples.XID_BODY)
DESCRIPTION = samples.file_start()[len(MAGIC) :]


class Log(NamedTuple):
    """The start of a log, the event of each index after it, the allocations that each event takes to be kept in force,
    those that it takes in addition if it is owned, and the growths of a vector meanwhile. They aren't counted where a
    program may list the contents of an event."""

    start: bytes
    event: Callable
    kept: int = 0
    owned: int = 0
    growths: int = 0
    is_counted: bool = True

    def of(self, count):
        return self.start + b"".join(map(self.event, range(count)))


# All but the last two fit into the program's input buffer of 65,536 bytes, so that each event is shown whole.
LOGS = {
    "events under the default description": Log(MAGIC, lambda _: PLAIN_EVENT),
    "events under a description": Log(samples.file_start(), lambda _: PLAIN_EVENT),
    "statements": Log(samples.file_start(), lambda _: STATEMENT),
    "events with checksums": Log(MAGIC + samples.description(), lambda _: CHECKSUMMED_EVENT),
    # The names, the types and the null bits; there is no metadata.
    "table maps": Log(MAGIC, table_map, kept=4, growths=8),
    "one table map": Log(MAGIC + table_map(7), lambda _: table_map(7)),
    # The version, the lengths and the description itself, and the same for the description under which an event is read.
    "descriptions": Log(MAGIC, lambda _: DESCRIPTION, kept=3, owned=3),
    "statements that name databases": Log(MAGIC, lambda _: statement_of(100), is_counted=False),
    "GTIDs in order": Log(MAGIC, lambda index: samples.gtid(index + 1)),
    "GTIDs of MariaDB": Log(MAGIC, maria_gtid),
}

# Logs that are read once.
WHOLE_LOGS = {
    "no log": b"x",
    "the sample": samples.plain(),
    "the sample with checksums": samples.checksummed(),
    "each body": samples.bodies(),
    "each body, cut": samples.bodies()[:-1],
    "GTIDs": samples.gtids(),
    "MariaDB's events": MARIA_LOG.read_bytes(),
}

# The number of allocations that each program, a crate's with its arguments, makes for a further event.
PROGRAMS = {
    "binlog_list": 0,
    "binlog json": 0,
    "binlog gtids": 0,
    "probe write-back": 0,
    "probe typed": 0,
    "probe maria-gtids": 0,
    "probe row-sums": 0,
    "probe verifying": 0,
    "probe reading owned": 1,
}

# The commands of the packages' program, whose further events take nothing.
PACKAGED = ("list", "json", "gtids", "write back")

# The programs that hold a whole log, for which a buffer may have twice the bytes, and others.
HOLDING = {"probe slice-listing"}
OTHERS = HOLDING | {"probe events", "probe reading"}

# The bytes that the vector of table maps may take for each byte of a log: an entry of 216 bytes for an event of 37 bytes,
# and twice as many entries as there are events.
OF_TABLE_MAPS = 12

# The most bytes by which an allocation may grow at a time, and the bytes that come at a time.
LARGEST_GROWTH = 65_536
PIECE = 20

# A header that states 4,294,967,295 bytes.
BOUNDLESS_HEADER = samples.HEADER.pack(0, samples.QUERY, 1, 0xFFFF_FFFF, 0, 0)
BOUNDLESS_LOGS = {
    "the header alone": MAGIC + BOUNDLESS_HEADER,
    "100 bytes": MAGIC + BOUNDLESS_HEADER.ljust(100, b"x"),
    "200,000 bytes": MAGIC + BOUNDLESS_HEADER.ljust(200_000, b"x"),
}


# Bytes that vectors which double and are copied have at a time for each of their own, and the most bytes of the literals of a block
# of a Zstandard frame, and of its tables.
OF_VECTORS = 3
LITERALS = TABLES = 131_072

# Of texts that are compressed, in bytes.
TEXT = 3_000_000


def counts(name, log, few, many, for_each):
    """None if each further event makes as many further allocations as it should, else what is wrong."""
    further = len(many.allocations) - len(few.allocations)
    wanted = (for_each + log.kept + for_each * log.owned) * (MANY - FEW)
    if wanted <= further <= wanted + log.growths:
        return None
    return f"{name}: {further} allocations for {MANY - FEW} events, not {wanted}"


class Program(NamedTuple):
    """A program: its name, its command, and the blocks that its runtime keeps when it ends."""

    name: str
    command: list
    kept: int = 0

    def is_holding(self):
        return self.name in HOLDING

    def left_failure(self, title, run):
        """None if the program freed all that it allocated, else what is wrong."""
        return None if run.left == self.kept else f"{title}: {run.left} blocks aren't freed"


def log_failures(watch, program, for_each):
    """What is wrong with a program over the logs that repeat an event."""
    for described, log in LOGS.items():
        title = f"{program.name} over {described}"
        contents = [log.of(count) for count in (FEW, MANY)]
        runs = [watch.run(program.command, content) for content in contents]
        if for_each is not None and log.is_counted:
            yield counts(title, log, *runs, for_each)
        factor = OF_TABLE_MAPS if log.growths else 2 if program.is_holding() else 1
        for run, content in zip(runs, contents):
            yield total_failure(title, run, factor * len(content))
            yield program.left_failure(title, run)


def whole_log_failures(watch, program):
    for described, content in WHOLE_LOGS.items():
        title = f"{program.name} over {described}"
        run = watch.run(program.command, content)
        yield total_failure(title, run, (2 if program.is_holding() else 1) * len(content))
        yield program.left_failure(title, run)


def boundless_failures(watch, program):
    for log, content in BOUNDLESS_LOGS.items():
        title = f"{program.name} over {log} of a boundless event"
        run = watch.run(program.command, content)
        yield growth_failure(title, run)
        yield total_failure(title, run, len(content))
        yield program.left_failure(title, run)
        if len(content) < 10 * PIECE:
            yield growth_failure(f"{title}, in pieces", run_over_pieces(watch, program.command, content))


def program_failures(watch, program, for_each):
    yield from log_failures(watch, program, for_each)
    yield from whole_log_failures(watch, program)
    yield from boundless_failures(watch, program)


def run_over_pieces(watch, command, content):
    """A run over an input that gives at most PIECE bytes for each read."""
    sending, receiving = socket.socketpair(socket.AF_UNIX, socket.SOCK_SEQPACKET)
    with sending, receiving:
        for start in range(0, len(content), PIECE):
            sending.send(content[start : start + PIECE])
        sending.close()
        return watch.run(command, stdin=receiving.fileno())


def growth_failure(name, run):
    """None if no allocation grew by too much at a time, else what is wrong."""
    largest = max((new - old for old, new in run.allocations), default=0)
    if largest <= LARGEST_GROWTH:
        return None
    return f"{name}: an allocation grows by {largest} bytes"


def total_failure(name, run, came):
    """None if no allocation is larger than the bytes that came and one growth, else what is wrong."""
    largest = max((new for _, new in run.allocations), default=0)
    if largest <= came + LARGEST_GROWTH:
        return None
    return f"{name}: an allocation of {largest} bytes where {came} came"


def frames():
    """Zstandard frames: the most bytes of content, and the frames, by names."""
    chance = random.Random(1)
    yield from ((f"random frame {number}", zstd_frames.LIMIT, zstd_frames.frame(chance)) for number in range(20))
    # One block of a byte, which is raw.
    stated = zstd_frames.MAGIC + bytes.fromhex("e0") + struct.pack("<Q", 1 << 62) + bytes.fromhex("09000041")
    yield "a size of 2^62 bytes that is stated", 1 << 63, stated
    if shutil.which("zstd") is None:
        return
    for make in TEXTS:
        words = ["zstd", "-q", "-19", "--no-check", "-c"]
        compressed = subprocess.run(words, input=make(chance, TEXT), capture_output=True, check=True).stdout
        yield f"{make.__name__} of {TEXT} bytes", TEXT, compressed


def frame_failures(watch, words):
    """What is wrong with the memory that Zstandard frames take: None, or that it is too much."""
    nothing = watch.run(words).peak
    for name, limit, data in frames():
        run = watch.run(words, struct.pack("<QQ", limit, len(data)) + data)
        head, _, content = run.output.partition(b"\n")
        most = nothing + OF_VECTORS * (len(data) + len(content)) + LITERALS + TABLES
        yield None if run.peak <= most else f"{name}: {run.peak} bytes at a time for {len(content)} bytes of content ({head})"


def proved_failures(watch):
    for name, for_each in PROGRAMS.items():
        yield from program_failures(watch, Program(name, programs.proved(*name.split())), for_each)
    for name in sorted(OTHERS):
        program = Program(name, programs.proved(*name.split()))
        yield from log_failures(watch, program, None)
        yield from whole_log_failures(watch, program)
    yield from frame_failures(watch, programs.proved("probe", "frames"))
    for path, name in watched.tests():
        test = Program(f"the test {name}", [path, name])
        run = watch.run(test.command)
        yield test.left_failure(test.name, run)
        if "boundless" in name:
            yield growth_failure(test.name, run)


def packaged_failures(watch):
    for purpose in PACKAGED:
        words = next(filter(programs.is_command, programs.CARGO.commands(purpose)))
        kept = watch.run(words, b"").left
        yield from program_failures(watch, Program(" ".join(words[1:]), words, kept), 0)
    yield from frame_failures(watch, programs.CARGO.command("frames"))


def main():
    parser = argparse.ArgumentParser(description="Checks the allocations of the programs.")
    programs.add_flags(parser)
    build = programs.parsed(parser, *PACKAGED, "frames").build
    return watched.report(packaged_failures if build is programs.CARGO else proved_failures)


if __name__ == "__main__":
    sys.exit(main())
