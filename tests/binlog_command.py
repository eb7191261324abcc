#!/usr/bin/env python3
"""Runs each command of `binlog` on good and damaged logs: its output, its messages and its exit status.

Usage: binlog_command.py FLAG

FLAG is one of `programs.py`: it says which `binlog` is run. The output of `list`, `json` and `gtids` is that of the models; what filters take,
the counts and the copies follow from the frames of a log and their headers. The progress is what a terminal is shown, and a
log that is followed grows while it is read. What `bin/install` and `bin/package` make of the program is tried in a temporary
folder; without `dpkg-deb` no package is made. The last line is `N passed, M failed`; the exit status is 1 if something failed.
"""

import argparse
import json
import os
import pty
import re
import resource
import shlex
import shutil
import socket
import subprocess
import sys
import tempfile
import zlib
from concurrent.futures import ThreadPoolExecutor
from datetime import datetime, timezone
from functools import partial
from itertools import chain, product
from pathlib import Path
from time import sleep

import compact_model
import encoded_events
import encoded_logs
import grouped_events
import gtid_model
import json_model
import listing_model
import maria_events
import maria_json_model
import payload_lines
import payload_model
import programs
import results
import row_lines
import row_values
import samples
import statistics_model
import table_filters
from damaged_copies import EVENT, MAGIC, PROCESSES_AT_A_TIME, SIZE_OFFSET, frame_starts, with_byte
from programs import REPOSITORY

COMMANDS = ("list", "json", "gtids", "verify", "stats", "copy")
# Words of each command that writes to standard output, to which the names of its logs are added; of those that follow one; and words to
# which the name of another file that is read is added before.
TO_OUTPUT = [["list"], ["json"], ["json", "--compact"], ["gtids"], ["verify"], ["verify", "--quiet"], ["stats"], ["copy", "-o", "-"]]
UNDOING = [["undo", "--dry-run"], ["undo", "-o", "undone.bin"]]
FOLLOWING = [["list", "--follow"], ["list", "--follow", "--state", "state"], ["json", "--follow"], ["json", "--compact", "--follow"]]
FOLLOWING += [["stats", "--follow", "--every", "1s"]]
OTHER_FILES = [["json", "--columns"], ["json", "--compact", "--columns"], ["gtids", "--missing-in"]]
OTHER_FILES += [[*words, "--later"] for words in UNDOING]
# How long a run may take that doesn't begin, or has no input.
SECONDS = 60
# What is typed on a terminal where the input ends, for each of a few reads.
END_OF_INPUT = b"\x04" * 4

# The commands that a model has.
MODELS = (("list", listing_model), ("json", json_model), ("gtids", gtid_model))

FINE, NOT_OPENED, DAMAGED, FAILED, USAGE = 0, 1, 2, 3, 64
SAMPLES = REPOSITORY / "tests/samples"
MISSING = "missing.bin"
NOT_FOUND = rf"binlog: {MISSING}: .+\n"
# The messages of a log: each has the file, the index, and the byte if that is known, or is about the file as a whole.
MESSAGES = r"(binlog: (0\.bin|standard input): (event \d+( at byte \d+)?: )?[^\n]+\n)+"

SAMPLE = samples.plain()
CHECKSUMMED = samples.checksummed()
GTIDS = samples.gtids()
SID = "abababab-abab-abab-abab-abababababab"
TAGGED_SID = "00000000-0000-0000-0000-000000000000"


def gtid_event(number):
    """The event of the GTID with this number, or with this tag and number."""
    return samples.tagged_gtid(*number) if isinstance(number, tuple) else samples.gtid(number)


def transactions(*numbers):
    """A log of a transaction for each number, or tag and number: its GTID, and two statements; the log begins with a rotate."""
    statement = samples.frame(samples.QUERY, samples.query_body(b"test", b"select 1"), 0)
    rotate = samples.frame(samples.ROTATE, samples.ROTATE_BODY, 0)
    return MAGIC + rotate + b"".join(gtid_event(number) + 2 * statement for number in numbers)


def maria_log():
    """A log that MariaDB wrote, its events, and for each of them the number of its transaction: None for those of the log."""
    lengths = encoded_logs.POST_HEADER_LENGTHS
    described = encoded_logs.described("MariaDB", lengths, server_version="10.11.6-MariaDB-log", algorithm=1)
    statement = encoded_events.query(schema="test", text="insert into t values (1)")
    compressed = maria_events.query_compressed("insert into t values (2)", None)
    transactions = [
        [maria_events.gtid(0, 0, 5), maria_events.annotate_rows("insert into t values (1)"), encoded_events.xid(value=7)],
        [maria_events.gtid(0, 0, 6, flags=1), statement],
        [maria_events.gtid(0, 7, 1), compressed, encoded_events.xid(value=8)],
    ]
    checkpoint = maria_events.binlog_checkpoint("mariadb-bin.000001")
    of_log = [described.event, maria_events.gtid_list(0, [(0, 1, 4)]), checkpoint]
    behind = [checkpoint, maria_events.start_encryption(1, 2, bytes(12)), encoded_events.rotate(position=4, name="mariadb-bin.000002")]
    pairs = [(event, None) for event in of_log]
    for number, events in enumerate(transactions):
        pairs += [(event, number) for event in events]
        pairs += [(behind[number], None)]
    events = [maria_events.with_own_server(event, index) for index, (event, _) in enumerate(pairs)]
    return encoded_logs.log("MariaDB", events), events, [number for _, number in pairs]


class Result:
    """What is wanted of a run: the output, a pattern of the messages, and the status."""

    def __init__(self, output, status=FINE, messages=""):
        self.output, self.status, self.messages = output, status, messages


def difference(name, finished, wanted):
    """None if a run is as wanted, else what is wrong."""
    if finished.returncode != wanted.status:
        return f"{name}: status {finished.returncode}, not {wanted.status}"
    if wanted.output is not None and finished.stdout != wanted.output:
        return f"{name}: the output is {finished.stdout[:200]!r}, not {wanted.output[:200]!r}"
    if re.fullmatch(wanted.messages, finished.stderr.decode()) is None:
        return f"{name}: the messages are {finished.stderr[:300]!r}, not {wanted.messages!r}"
    return None


class Runner:
    """Runs the program in a folder that has the logs of a case."""

    def __init__(self, build, folder):
        (self.program,) = build.command("binlog")
        self.making, self.folder = build.making, Path(folder)

    def run(self, words, logs=(), given=b"", **ends):
        for place, log in enumerate(logs):
            (self.folder / f"{place}.bin").write_bytes(log)
        ends = {"stdout": subprocess.PIPE, "stderr": subprocess.PIPE} | ({} if "stdin" in ends else {"input": given}) | ends
        return subprocess.run([self.program, *words], cwd=self.folder, **ends)

    def check(self, words, wanted, logs=(), given=b""):
        return difference(" ".join(words), self.run(words, logs, given), wanted)

    def version_fault(self, program):
        """None if a program says its version, and how it was made."""
        said = subprocess.run([program, "--version"], capture_output=True)
        is_right = re.fullmatch(rf"binlog 0\.1\.0 \({self.making}\)\n", said.stdout.decode()) and said.returncode == FINE
        return None if is_right else f"--version: {said}"


def message(place, index, position, text):
    at = "" if position is None else f" at byte {position}"
    return re.escape(f"binlog: {place}: event {index}{at}: {text}\n")


def lines(log, indexes):
    """The lines of these events in the listing."""
    every = listing_model.expected(log)[0].splitlines(keepends=True)
    return b"".join(every[index] for index in indexes)


def frames(log):
    return listing_model.split(log[len(MAGIC) :])[0]


def tail_of(log):
    """The bytes behind the last event of a log."""
    return listing_model.split(log[len(MAGIC) :])[1]


def cut_message(place, log):
    """The message of a log that ends within an event; none if it doesn't."""
    size = len(tail_of(log))
    text = f"the last {size} bytes, from byte {len(log) - size} on, are the beginning of an event"
    return re.escape(f"binlog: {place}: {text}\n") if size else ""


def copy_of(log, indexes):
    every = frames(log)
    return MAGIC + b"".join(every[index] for index in indexes)


# ---- each command


def models(runner):
    """The commands that a model has, on good and damaged logs, from a file and from standard input."""
    ends = [*frame_starts(SAMPLE), len(SAMPLE)]
    cut = SAMPLE[: ends[7] + 10]
    for log in (SAMPLE, CHECKSUMMED, GTIDS, cut, MAGIC, transactions(1, 2)):
        for command, model in MODELS:
            output, status = model.expected(log)
            if log == cut:
                status = max(status, DAMAGED)
            messages = "" if status == FINE else MESSAGES
            wanted = Result(output, status, messages)
            yield runner.check([command, "0.bin"], wanted, [log])
            yield runner.check([command, "-"], wanted, given=log)
            yield runner.check([command], wanted, given=log)


def mismatch(event):
    """What is wrong with an event whose checksum isn't that of its bytes."""
    computed = zlib.crc32(event[:-4]).to_bytes(4, "little").hex()
    return f"checksum mismatch: stored {event[-4:].hex()}, computed {computed}"


def damaged(runner):
    """The message of a damaged event."""
    starts = list(frame_starts(SAMPLE))
    small = with_byte(SAMPLE, starts[3] + SIZE_OFFSET, 5)
    text = "an event states the size 5, and its header alone takes 19 bytes"
    output, status = listing_model.expected(small)
    yield runner.check(["list", "0.bin"], Result(output, status, message("0.bin", 3, starts[3], text)), [small])
    yield runner.check(["list", "-"], Result(output, status, message("standard input", 3, starts[3], text)), given=small)

    starts = list(frame_starts(CHECKSUMMED))
    place = starts[1] + 30
    wrong = with_byte(CHECKSUMMED, place, CHECKSUMMED[place] ^ 1)
    event = frames(wrong)[1]
    messages = message("0.bin", 1, starts[1], mismatch(event))
    length = len(CHECKSUMMED) - len(MAGIC)
    count = len(starts)
    right = f"1.bin: {count} events, {length} bytes, {count} checksums right, 0 events damaged\n"
    found = f"0.bin: {count - 1} events, {length - len(event)} bytes, {count - 1} checksums right, 1 events damaged\n"
    both = [wrong, CHECKSUMMED]
    wanted = Result((found + right).encode(), DAMAGED, messages)
    yield runner.check(["verify", "0.bin", "1.bin"], wanted, both)
    yield runner.check(["verify", "--quiet", "0.bin", "1.bin"], Result(b"", DAMAGED, messages), both)
    yield runner.check(["verify", "-q", "1.bin"], Result(b""), both)
    yield runner.check(["list", "0.bin"], Result(listing_model.expected(wrong)[0]), both)
    first = f"1.bin: 1 events, {starts[1] - starts[0]} bytes, 1 checksums right, 0 events damaged\n"
    words = ["verify", "--stop-position", str(starts[1]), "1.bin"]
    yield runner.check(words, Result(first.encode()), both)


def tally(log, damaged):
    """The line of `verify` for a log whose checksums are right."""
    every = listing_model.expected(log)[0].splitlines()
    checksums = sum(line.split()[6] != b"-" for line in every)
    counts = f"{len(every)} events, {sum(map(len, frames(log)))} bytes, {checksums} checksums right"
    return f"0.bin: {counts}, {damaged} events damaged\n".encode()


def cut_logs(runner):
    """A log that is cut at each byte of its last three events: what is whole is read, and the rest has its message."""
    for log in (SAMPLE, CHECKSUMMED):
        for size in range(list(frame_starts(log))[-3], len(log) + 1):
            cut = log[:size]
            whole = cut[: size - len(tail_of(cut))]
            status = FINE if cut == whole else DAMAGED
            messages = cut_message("0.bin", cut)
            for command, model in MODELS:
                yield runner.check([command, "0.bin"], Result(model.expected(whole)[0], status, messages), [cut])
            counts = tally(whole, int(cut != whole))
            yield runner.check(["verify", "0.bin"], Result(counts, status, messages), [cut])
            yield runner.check(["verify", "-q", "0.bin"], Result(b"", status, messages), [cut])
            yield runner.check(["stats", "0.bin"], Result(counts_of(whole), status, messages), [cut])
            yield runner.check(["copy", "-o", "-", "0.bin"], Result(whole, status, messages), [cut])


def cut_ends(runner):
    """A log that is cut among others, on standard input, behind a damaged event, and behind an event without a size."""
    cut = SAMPLE[:-1]
    whole = listing_model.expected(cut)[0]
    once = listing_model.expected(SAMPLE)[0]
    wanted = Result(whole + once, DAMAGED, cut_message("0.bin", cut))
    yield runner.check(["list", "0.bin", "1.bin"], wanted, [cut, SAMPLE])
    yield runner.check(["list"], Result(whole, DAMAGED, cut_message("standard input", cut)), given=cut)
    filtered = ["list", "--stop-position", "4", "0.bin"]
    yield runner.check(filtered, Result(b"", DAMAGED, cut_message("0.bin", cut)), [cut])
    difference_of = ["gtids", "--missing-in", "1.bin", "0.bin"]
    yield runner.check(difference_of, Result(b"", DAMAGED, cut_message("1.bin", cut)), [SAMPLE, cut])

    wrong = with_byte(CHECKSUMMED, len(CHECKSUMMED) - 5, CHECKSUMMED[-5] ^ 1) + EVENT[:7]
    index, start = len(frames(wrong)) - 1, list(frame_starts(CHECKSUMMED))[-1]
    messages = message("0.bin", index, start, mismatch(frames(wrong)[-1]))
    rest = re.escape("binlog: 0.bin: the last 7 bytes are the beginning of an event\n")
    yield runner.check(["verify", "-q", "0.bin"], Result(b"", DAMAGED, messages + rest), [wrong])

    small = SAMPLE + with_byte(EVENT, SIZE_OFFSET, 5)
    text = "an event states the size 5, and its header alone takes 19 bytes"
    wanted = Result(listing_model.expected(small)[0], DAMAGED, message("0.bin", len(frames(SAMPLE)), len(SAMPLE), text))
    yield runner.check(["list", "0.bin"], wanted, [small])


def reported(runner):
    """The messages name the events whose lines are errors, in order, and say which error it is."""
    small = with_byte(SAMPLE, list(frame_starts(SAMPLE))[3] + SIZE_OFFSET, 5)
    for command, model, log in (("list", listing_model, small), ("gtids", gtid_model, GTIDS)):
        named = re.findall(rb"binlog: 0\.bin: event (\d+) ", runner.run([command, "0.bin"], [log]).stderr)
        wrong = re.findall(rb"^(\d+) error E", model.expected(log)[0], re.M)
        yield None if wrong and named == wrong else f"{command}: messages of {named}, not of {wrong}"
    log = transactions(1)
    short = samples.frame(samples.GTID, b"abc", 0)
    messages = message("0.bin", 4, len(log), "an event's body ends within a field")
    text = "the transaction number 0 is not in 1 to 9223372036854775807"
    messages += message("0.bin", 5, len(log + short), text)
    wrong = log + short + samples.gtid(0)
    yield runner.check(["gtids", "0.bin"], Result(gtid_model.expected(wrong)[0], DAMAGED, messages), [wrong])
    yield runner.check(["gtids", "--stop-position", str(len(log)), "0.bin"], Result(gtid_model.expected(log)[0]), [wrong])


def several(runner):
    """Several files: all are read, and the worst status counts."""
    once = listing_model.expected(SAMPLE)[0]
    other = listing_model.expected(CHECKSUMMED)[0]
    logs = [SAMPLE, CHECKSUMMED, b"no binlog", b"no"]
    yield runner.check(["list", "0.bin", "1.bin", "0.bin"], Result(once + other + once), logs)
    yield runner.check(["list", MISSING, "0.bin"], Result(once, NOT_OPENED, NOT_FOUND), logs)
    yield runner.check(["list", "0.bin", MISSING], Result(once, NOT_OPENED, NOT_FOUND), logs)
    header = "binlog: 2.bin: the file does not begin as a binlog\n"
    yield runner.check(["list", "2.bin", "0.bin"], Result(once, NOT_OPENED, header), logs)
    short = "binlog: 3.bin: the input ends within a file header or an event\n"
    yield runner.check(["json", "3.bin"], Result(b"", NOT_OPENED, short), logs)
    yield runner.check(["list", "0.bin", "-"], Result(2 * once), logs, given=SAMPLE)
    folder = message("/", 0, 4, "x").replace("event", "[^\n]+").split("\\ ")[0]
    yield runner.check(["list", "/", "0.bin"], Result(once, FAILED, folder + " [^\n]+\n"), logs)


# The same time, by each form that it may have.
TIMES_OF_THE_SECOND_EVENT = [
    "2009-09-24T09:03:57Z",
    "20090924 090357z",
    "2009-09-24T11:03:57+02",
    "2009-09-24T11:03:57+0200",
    "2009-09-24T03:33:57.999-05:30",
    "2009-09-25t11:03:56+25:59:59",
]


def filters(runner):
    """What each filter takes."""
    starts = list(frame_starts(SAMPLE))
    every = range(len(starts))
    types = [listing_model.type_number(frame) for frame in frames(SAMPLE)]
    cases = [
        (["--start-position", str(starts[5])], [i for i in every if i >= 5]),
        (["--start-position", str(starts[5] + 1)], [i for i in every if i >= 6]),
        (["--stop-position", str(starts[5])], [i for i in every if i < 5]),
        (["--start-position", str(starts[2]), "--stop-position", str(starts[2] + 1)], [2]),
        (["--start-datetime", "2009-09-24T09:03:57"], [i for i in every if i > 0]),
        (["--stop-datetime", "2009-09-24 09:03:57"], [0]),
        (["--start-datetime", "1960-01-01T00:00:00"], every),
        *((["--start-datetime", time], [i for i in every if i > 0]) for time in TIMES_OF_THE_SECOND_EVENT),
        (["--stop-datetime", "2009-09-24T09:03:57-00:00:01"], every),
        (["--server-id", "1"], every),
        (["--server-id", "2"], []),
        (["--type", "XID"], [i for i in every if types[i] == 16]),
        (["--type", "xid_event", "--type", "ROTATE"], [i for i in every if types[i] in (16, 4)]),
        (["--type", "ROTATE", "--stop-position", str(starts[-1])], []),
    ]
    for words, indexes in cases:
        yield runner.check(["list", *words, "0.bin"], Result(lines(SAMPLE, indexes)), [SAMPLE])
    for time, why in (("2009-09-24T09:03:57[Europe/Paris]", "brackets"), ("2009-09-24T09:03:57+2", "is no time")):
        refused = Result(b"", USAGE, f"binlog: --stop-datetime: [^\n]+{why}[^\n]+\n")
        yield runner.check(["list", "--stop-datetime", time, "0.bin"], refused, [SAMPLE])


def positions(runner):
    """Of several files the start position is one of the first file, and the stop position one of the last file, for each command."""
    starts = list(frame_starts(SAMPLE))
    every = range(len(starts))
    whole, later, sooner = (lines(SAMPLE, indexes) for indexes in (every, every[5:], every[:3]))
    words = ["--start-position", str(starts[5]), "--stop-position", str(starts[3])]
    for count, wanted in enumerate((b"", later + sooner, later + whole + sooner), 1):
        yield runner.check(["list", *words, *count * ["0.bin"]], Result(wanted), [SAMPLE])
    yield runner.check(["list", *words, MISSING, "0.bin", "0.bin"], Result(whole + sooner, NOT_OPENED, NOT_FOUND), [SAMPLE])
    yield runner.check(["list", *words, "0.bin", "0.bin", MISSING], Result(later + whole, NOT_OPENED, NOT_FOUND), [SAMPLE])

    # No event of the first file and of the last one, and all of the one between them.
    rows, groups = row_lines.sample()[0], transactions(1, 2)
    compact, _ = compact_model.expected(rows, "0.bin")
    descriptions = frames(SAMPLE)[0]
    none = b"0.bin: 0 events, 0 bytes, 0 checksums right, 0 events damaged\n"
    cases = [
        (["list"], SAMPLE, whole),
        (["json"], SAMPLE, json_model.expected(SAMPLE)[0]),
        (["gtids"], groups, gtid_model.expected(groups)[0]),
        (["stats"], SAMPLE, counts_of(SAMPLE)),
        (["verify"], SAMPLE, none + tally(SAMPLE, 0) + none),
        (["copy", "-o", "-"], SAMPLE, MAGIC + descriptions + SAMPLE[len(MAGIC) :] + descriptions),
        (["json", "--compact"], rows, compact),
    ]
    for command, log, wanted in cases:
        words = ["--start-position", str(len(log)), "--stop-position", "4"]
        yield runner.check([*command, *words, *3 * ["0.bin"]], Result(wanted), [log])


def gtid_filters(runner):
    """Whole transactions are taken, and the events of the log itself."""
    first, second, third = [1, 2, 3], [4, 5, 6], [7, 8, 9]
    untagged = [
        (["--include-gtids", f"{SID}:2"], [0, *second]),
        (["--include-gtids", f"{SID}:2-3"], [0, *second, *third]),
        (["--exclude-gtids", f"{SID}:2"], [0, *first, *third]),
        (["--include-gtids", f"{SID}:1-3", "--exclude-gtids", f"{SID}:1"], [0, *second, *third]),
        (["--include-gtids", f"{SID}:tag:2"], [0]),
        (["--include-gtids", f"{SID}:2", "--type", "QUERY"], second[1:]),
    ]
    tagged = [
        (["--include-gtids", f"{TAGGED_SID}:tag:2"], [0, *second]),
        (["--exclude-gtids", f"{TAGGED_SID}:tag:2"], [0, *first, *third]),
        (["--include-gtids", f"{SID}:1-9"], [0, *first]),
        (["--exclude-gtids", f"{SID}:1-9"], [0, *second, *third]),
        (["--include-gtids", f"{SID}:1,{TAGGED_SID}:tag:1-9:other:1-9", "--exclude-gtids", f"{TAGGED_SID}:tag:1-9"], [0, *first, *third]),
    ]
    for log, cases in (transactions(1, 2, 3), untagged), (transactions(1, (b"tag", 2), (b"other", 2)), tagged):
        for words, indexes in cases:
            yield runner.check(["list", *words, "0.bin"], Result(lines(log, indexes)), [log])
            # The log has no format description.
            yield runner.check(["copy", *words, "-o", "-", "0.bin"], Result(copy_of(log, indexes)), [log])


def damaged_gtids(runner):
    """Behind a damaged event that may be that of a GTID, events are taken if no GTIDs are asked for, and otherwise as those before it. So they
    are behind a table map that is refused, which is no GTID."""
    statement = (samples.QUERY, samples.query_body(b"test", b"insert into t values (1)"))
    begin = lambda number: (samples.GTID, samples.gtid_body(samples.SOURCE, number))
    log = payload_lines.log_of([begin(1), statement, begin(2), statement, begin(3), statement], has_checksums=True)
    starts = list(frame_starts(log))
    wrong = with_byte(log, starts[4] - 1, log[starts[4] - 1] ^ 1)
    events = frames(wrong)
    messages = message("0.bin", 3, starts[3], mismatch(events[3]))
    cases = [
        (["--exclude-gtids", f"{SID}:1"], [0, 4, 5, 6]),
        (["--exclude-gtids", f"{SID}:3"], [0, 1, 2, 4]),
        (["--include-gtids", f"{SID}:1"], [0, 1, 2, 4]),
        (["--include-gtids", f"{SID}:3"], [0, 5, 6]),
    ]
    for words, indexes in cases:
        counts = f"{len(indexes)} events, {sum(len(events[index]) for index in indexes)} bytes, {len(indexes)} checksums right, 1 events damaged"
        yield runner.check(["verify", *words, "0.bin"], Result(f"0.bin: {counts}\n".encode(), DAMAGED, messages), [wrong])
    refused = payload_lines.log_of([begin(1), (19, b"abc"), statement, begin(2), statement])
    messages = message("0.bin", 2, list(frame_starts(refused))[2], "an event's body ends within a field")
    copied = Result(copy_of(refused, [0, 4, 5]), DAMAGED, messages)
    yield runner.check(["copy", "--exclude-gtids", f"{SID}:1", "-o", "-", "0.bin"], copied, [refused])


def left_out(count):
    """The message of events that are left out, though they may change a table that is asked for."""
    return f"binlog: events left out that don't tell which tables they change: {count}\n" if count else ""


def tables(runner):
    """The events of tables and of databases, in listings and in copies, which keep the frames of transactions; and how many are left
    out of which it isn't known what tables they change."""
    for seed, is_maria in product(range(4), (False, True)):
        log, events = table_filters.log(seed, is_maria, 150)
        every = listing_model.expected(log)[0].splitlines(keepends=True)
        for asked in (table_filters.Asked(*names) for names in table_filters.ASKED):
            indexes, count = table_filters.taken(events, asked, False)
            listed = b"".join(every[index] for index in indexes)
            yield runner.check(["list", *asked.words, "0.bin"], Result(listed, messages=left_out(count)), [log])
            indexes, count = table_filters.taken(events, asked, True)
            copied = Result(copy_of(log, indexes), messages=left_out(count))
            yield runner.check(["copy", *asked.words, "-o", "-", "0.bin"], copied, [log])
    yield from other_tables(runner, log, events)


def other_tables(runner, log, events):
    """The other commands and other filters beside a filter of tables, a copy that is read back, and several files."""
    asked = table_filters.Asked([b"shop.*"], [])
    indexes, count = table_filters.taken(events, asked, False)
    messages = left_out(count)
    counted = counts_of(log, indexes, names=json_model.NAMES | maria_json_model.NAMES)
    yield runner.check(["stats", *asked.words, "0.bin"], Result(counted, messages=messages), [log])
    yield runner.check(["json", *asked.words, "0.bin"], Result(json_lines(runner, events, asked, indexes), messages=messages))
    twice = Result(2 * lines(log, indexes), messages=left_out(2 * count))
    yield runner.check(["list", *asked.words, "0.bin", "0.bin"], twice)
    yield runner.check(["verify", "-q", *asked.words, "0.bin", "0.bin"], Result(b"", messages=left_out(2 * count)))
    starts = list(frame_starts(log))
    later = table_filters.taken(events, asked, False, lambda index: index >= 60)
    words = [*asked.words, "--start-position", str(starts[60])]
    yield runner.check(["list", *words, "0.bin"], Result(lines(log, later[0]), messages=left_out(later[1])))
    written = table_filters.taken(events, asked, False, lambda index: events[index].type == 30)
    yield runner.check(["list", *asked.words, "--type", "WRITE_ROWS", "0.bin"], Result(lines(log, written[0]), messages=left_out(written[1])))
    yield from read_back(runner, *table_filters.log(4, True, 150, is_fixed=True), asked)


def json_lines(runner, events, asked, indexes):
    """The lines of JSON of these events, and of the events inside them that are taken, from those of all."""
    found = []
    for text in runner.run(["json", "0.bin"]).stdout.splitlines(keepends=True):
        index, part = (json.loads(text).get(name) for name in ("index", "part"))
        if index in indexes and (part is None or asked.takes_inside(events[index].inside[part])):
            found.append(text)
    return b"".join(found)


def compressed_tables(runner):
    """Compressed transactions and filters of tables: one that can't be read is taken, and what is inside of other tables isn't shown."""
    every = list(payload_lines.refused())
    log = compressed_log(*(body for body, _ in every))
    indexes = [2 * index + 1 for index, (_, errors) in enumerate(every) if any(errors)]
    words = ["--table", "no.table"]
    yield runner.check(["list", *words, "0.bin"], Result(lines(log, indexes)), [log])
    named = "".join(refused_payload("0.bin", log, 2 * index + 1, errors) for index, (_, errors) in enumerate(every))
    yield runner.check(["verify", "-q", *words, "0.bin"], Result(b"", DAMAGED, named), [log])
    # A copy has the GTIDs, too.
    copied = sorted([*indexes, *range(0, 2 * len(every), 2)])
    yield runner.check(["copy", *words, "-o", "-", "0.bin"], Result(copy_of(log, copied)), [log])
    shown = [text for text in json_model.expected(log)[0].splitlines(keepends=True) if json.loads(text)["index"] in indexes]
    shown = [text for text in shown if b'"part"' not in text or b'"error":"' in text]
    yield runner.check(["json", *words, "0.bin"], Result(b"".join(shown), DAMAGED, named), [log])
    shown = [text for text in shown if b'"part"' in text]
    yield runner.check(["json", "--compact", *words, "0.bin"], Result(b"".join(shown), DAMAGED, named), [log])
    # The other filters decide over the event outside.
    yield runner.check(["list", *words, "--type", "GTID", "0.bin"], Result(b""), [log])
    yield runner.check(["list", *words, "--stop-position", "4", "0.bin"], Result(b""), [log])
    for seed in range(4, 12):
        log, events = table_filters.log(seed, False, 150)
        for asked in (table_filters.Asked(*names) for names in table_filters.ASKED):
            indexes, count = table_filters.taken(events, asked, False)
            runner.run(["list", "0.bin"], [log])
            wanted = Result(json_lines(runner, events, asked, indexes), messages=left_out(count))
            yield runner.check(["json", *asked.words, "0.bin"], wanted)
            is_taken = lambda index, part: index in indexes and (part is None or asked.takes_inside(events[index].inside[part]))
            rows, status = compact_model.expected(log, "0.bin", is_taken=is_taken)
            yield runner.check(["json", "--compact", *asked.words, "0.bin"], Result(rows, status, left_out(count)))


def read_back(runner, log, events, asked):
    """A copy of the events of tables has their rows, and the frame of each transaction."""
    copied, count = table_filters.taken(events, asked, True)
    (runner.folder / "1.bin").unlink(missing_ok=True)
    yield runner.check(["copy", *asked.words, "-o", "1.bin", "0.bin"], Result(b"", messages=left_out(count)), [log])
    of_copy = [events[index] for index in copied]
    in_force = [event if event.kind != "rows" or asked.takes(event, True) else event._replace(names=()) for event in of_copy]
    indexes, count = table_filters.taken(in_force, asked, False)
    copy = copy_of(log, copied)
    yield runner.check(["list", *asked.words, "1.bin"], Result(lines(copy, indexes), messages=left_out(count)))
    is_kept = [event for event in of_copy if event.kind == "frame"] == [event for event in events if event.kind == "frame"]
    yield None if is_kept else "copy: an event of a transaction's frame is left out"


def no_tables(runner):
    """Texts that name no table have a message, and nothing is read."""
    for name in ("shop", "", ".", ".orders", "shop.", "*"):
        refused = Result(b"", USAGE, re.escape(f'binlog: --table: "{name}" is no table, as DB.TABLE\n'))
        yield runner.check(["list", f"--table={name}", "0.bin"], refused, [SAMPLE])


def names(runner):
    """Each name of a type of either server, whole and short, in any case. `GTID_EVENT` is the name of a type of each."""
    named = sorted((json_model.NAMES | maria_json_model.NAMES).items())
    # Without the format description and the table map, whose bodies are read.
    numbers = [number for number in range(256) if number not in (15, 19)]
    log = MAGIC + b"".join(samples.frame(number, bytes(8), 0) for number in numbers)
    for number, name in named:
        indexes = [numbers.index(other) for other, same in named if same == name and other in numbers]
        for word in (name, name.lower(), name.removesuffix("_EVENT"), name.removesuffix("_EVENT").capitalize()):
            yield runner.check(["list", "--type", word, "0.bin"], Result(lines(log, indexes)), [log])


def gtids(runner):
    """The GTIDs of several logs, and those that another log lacks."""
    logs = [transactions(1, 2, 3), transactions(5), transactions(2)]
    digits = SID.replace("-", "")
    yield runner.check(["gtids", "0.bin", "1.bin"], Result(f"{digits} 1-3,5 gaps 4\n".encode()), logs)
    missing = ["gtids", "--missing-in"]
    yield runner.check([*missing, "2.bin", "0.bin"], Result(f"{digits} 1,3\n".encode()), logs)
    tagged = [transactions(1, (b"tag", 3), (b"tag", 4), (b"tag", 9)), transactions((b"tag", 4))]
    ad = TAGGED_SID.replace("-", "")
    yield runner.check([*missing, "1.bin", "0.bin"], Result(f"{ad}:tag 3,9\n{digits} 1\n".encode()), tagged)
    yield runner.check([*missing, "0.bin", "2.bin"], Result(b""), logs)
    yield runner.check([*missing, MISSING, "0.bin"], Result(b"", NOT_OPENED, NOT_FOUND), logs)


def maria_gtids(runner):
    """MariaDB's last GTIDs of several logs, those that another log lacks, and beside them MySQL's."""
    start, gtid = samples.maria_start, samples.maria_gtid
    first = MAGIC + start() + gtid(0, 1, 3) + gtid(1, 1, 7) + gtid(0, 2, 5)
    logs = [first, MAGIC + start() + gtid(0, 1, 5) + gtid(0, 2, 5), transactions(1, 2)]
    yield runner.check(["gtids", "0.bin"], Result(b"0-1-3\n0-2-5\n1-1-7\n"), logs)
    yield runner.check(["gtids", "0.bin", "1.bin"], Result(b"0-1-5\n0-2-5\n1-1-7\n"), logs)
    yield runner.check(["gtids", "--missing-in", "0.bin", "1.bin"], Result(b"0-1-5\n"), logs)
    yield runner.check(["gtids", "--missing-in", "1.bin", "0.bin"], Result(b"1-1-7\n"), logs)
    of_mysql = f"{SID.replace('-', '')} 1-2 gaps -\n".encode()
    yield runner.check(["gtids", "1.bin", "2.bin"], Result(of_mysql + b"0-1-5\n0-2-5\n"), logs)
    yield runner.check(["gtids", "--missing-in", "2.bin", "1.bin", "2.bin"], Result(b"0-1-5\n0-2-5\n"), logs)
    # One that can't be read has its line, and its message.
    short = MAGIC + start() + gtid(0, 1, 3) + samples.frame(samples.MARIA_GTID, samples.maria_gtid_body(0, 4)[:12])
    refused = message("0.bin", 2, list(frame_starts(short))[2], "an event's body ends within a field")
    yield runner.check(["gtids", "0.bin"], Result(b"2 error E5\n0-1-3\n", DAMAGED, refused), [short])


def stored(runner):
    """The stored output for a log with each body, and for one with GTIDs. Both have events that are refused."""
    for command, model in MODELS[1:]:
        log = (SAMPLES / f"{command}.binlog").read_bytes()
        wanted = (SAMPLES / f"{command}.txt").read_bytes()
        _, status = listing_model.of_command(model.expected)(log)
        yield runner.check([command, "0.bin"], Result(wanted, status, MESSAGES), [log])


def compressed_log(*bodies):
    """A log of a transaction for each of these data of payload events: its GTID, from 1 on, and the event."""
    pairs = ((samples.gtid(number), samples.frame(json_model.PAYLOAD, body)) for number, body in enumerate(bodies, 1))
    return MAGIC + b"".join(chain.from_iterable(pairs))


def refused_payload(place, log, index, errors):
    """The message of an event with a payload, where `errors` has the names of the errors of its parts, None for those that are right."""
    part = next((part for part, error in enumerate(errors) if error), None)
    at = [*frame_starts(log)][index]
    return "" if part is None else re.escape(f"binlog: {place}: event {index} at byte {at}: part {part}: ") + "[^\n]+\n"


def compressed(runner):
    """An event whose compressed transaction can't be read is damaged for `verify`, `json` and `stats`, and for no other command."""
    every = list(payload_lines.refused())
    for body, errors in every:
        log = compressed_log(body, body)
        messages = refused_payload("0.bin", log, 1, errors) + refused_payload("0.bin", log, 3, errors)
        status, count = (DAMAGED, 2) if messages else (FINE, 0)
        yield runner.check(["verify", "0.bin"], Result(tally(log, count), status, messages), [log])
        yield runner.check(["verify", "-q", "0.bin"], Result(b"", status, messages), [log])
        yield runner.check(["json", "0.bin"], Result(json_model.expected(log)[0], status, messages), [log])
        yield runner.check(["json", "--compact", "0.bin"], Result(compact_model.expected(log, "0.bin")[0], status, messages), [log])
        yield runner.check(["list", "0.bin"], Result(lines(log, range(4))), [log])
        yield runner.check(["gtids", "0.bin"], Result(f"{SID.replace('-', '')} 1-2 gaps -\n".encode()), [log])
        yield runner.check(["stats", "0.bin"], Result(counts_of(log, transactions=2), status, messages), [log])
        yield runner.check(["copy", "-o", "-", "0.bin"], Result(log), [log])
    yield from other_compressed(runner, every)


def other_compressed(runner, every):
    """Several damaged transactions among others, in several files, behind a filter, cut, and with a right checksum or a wrong one."""
    log = compressed_log(*(body for body, _ in every))
    named = [refused_payload("0.bin", log, 2 * index + 1, errors) for index, (_, errors) in enumerate(every)]
    count = sum(map(bool, named))
    yield runner.check(["verify", "0.bin"], Result(tally(log, count), DAMAGED, "".join(named)), [log])
    twice = "".join(named) + "".join(named).replace(re.escape("0.bin"), re.escape("1.bin"))
    lines_of_both = tally(log, count) + tally(log, count).replace(b"0.bin", b"1.bin")
    yield runner.check(["verify", "0.bin", "1.bin"], Result(lines_of_both, DAMAGED, twice), [log, log])
    yield runner.check(["json", "0.bin", "1.bin"], Result(2 * json_model.expected(log)[0], DAMAGED, twice), [log, log])
    yield runner.check(["verify", "-q", "--type", "GTID", "0.bin"], Result(b""), [log])
    yield runner.check(["verify", "-q", f"--include-gtids={SID}:2", "0.bin"], Result(b"", DAMAGED, named[1]), [log])
    cut = log + log[4:20]
    messages = "".join(named) + cut_message("0.bin", cut)
    yield runner.check(["verify", "0.bin"], Result(tally(log, count + 1), DAMAGED, messages), [cut])

    # The checksum of the second event is wrong: its payload isn't looked at.
    body = payload_model.written(255, 1, b"x")
    checked = payload_lines.log_of([(json_model.PAYLOAD, body), (json_model.PAYLOAD, body)], has_checksums=True)
    start = list(frame_starts(checked))
    wrong = with_byte(checked, len(checked) - 1, checked[-1] ^ 1)
    messages = refused_payload("0.bin", wrong, 1, ["InnerTruncated"]) + message("0.bin", 2, start[2], mismatch(frames(wrong)[2]))
    size = len(frames(wrong)[0]) + len(frames(wrong)[1])
    line = f"0.bin: 2 events, {size} bytes, 2 checksums right, 2 events damaged\n".encode()
    yield runner.check(["verify", "0.bin"], Result(line, DAMAGED, messages), [wrong])

    # GTIDs inside aren't looked at.
    inside = samples.gtid(7)
    log = compressed_log(payload_model.written(255, len(inside), inside))
    yield runner.check(["gtids", "0.bin"], Result(f"{SID.replace('-', '')} 1 gaps -\n".encode()), [log])


def time_of(frame):
    seconds = int.from_bytes(frame[:4], "little")
    return datetime.fromtimestamp(seconds, timezone.utc).strftime("%Y-%m-%dT%H:%M:%SZ")


def counts_of(log, indexes=None, transactions=0, names=json_model.NAMES):
    """The text of `stats` for the events of a log that have these indexes, all of them if there are none, from their frames. Types
    have these names by number, and others their number."""
    every = frames(log)
    indexes = range(len(every)) if indexes is None else indexes
    taken = [every[index] for index in indexes]
    size = sum(map(len, taken))
    largest = max(indexes, key=lambda index: len(every[index]))
    kinds = [listing_model.type_number(frame) for frame in taken]
    wanted = [f"events {len(taken)}", f"bytes {size}", "damaged 0", f"transactions {transactions}"]
    wanted += [f"first {time_of(taken[0])}", f"last {time_of(taken[-1])}"]
    kind = listing_model.type_number(every[largest])
    wanted += [f"largest event {largest} of {len(every[largest])} bytes, {names.get(kind, kind)}"]
    for number in sorted(set(kinds)):
        sizes = [len(frame) for frame, kind in zip(taken, kinds) if kind == number]
        row = f"{len(sizes)} events {sum(sizes)} bytes {sum(sizes) * 100 // size}%"
        wanted += [f"type {names.get(number, number)} {row}"]
    counts = statistics_model.Counts(takes=lambda index, part: index in indexes).add_log(log)
    inside = grouped_events.inside_text([event for event in counts.events if event.is_inside], counts.damaged_inside)
    return "".join(line + "\n" for line in wanted).encode() + inside


def stats(runner):
    """The counts of a log, from its frames."""
    yield runner.check(["stats", "0.bin"], Result(counts_of(SAMPLE)), [SAMPLE])
    finished = runner.run(["stats", "0.bin", "0.bin"], [transactions(1, 2)])
    yield None if b"\ntransactions 4\n" in finished.stdout else f"stats: {finished.stdout!r}"
    log = MAGIC + b"".join(samples.frame(number, bytes(8), 0) for number in range(256) if number not in (15, 19, json_model.PAYLOAD))
    # 33, 34 and 42 begin MySQL's transactions, and 162 MariaDB's.
    names_of_both = json_model.NAMES | maria_json_model.NAMES
    yield runner.check(["stats", "0.bin"], Result(counts_of(log, transactions=4, names=names_of_both)), [log])


def copies(runner):
    """A copy has the events that are taken, byte for byte, and all format descriptions."""
    starts = list(frame_starts(SAMPLE))
    yield runner.check(["copy", "-o", "-", "0.bin"], Result(SAMPLE), [SAMPLE])
    words = ["copy", "--start-position", str(starts[17]), "--output", "out.bin", "0.bin"]
    yield runner.check(words, Result(b""), [SAMPLE])
    later = range(17, len(starts))
    copied = (runner.folder / "out.bin").read_bytes()
    yield None if copied == copy_of(SAMPLE, [0, *later]) else f"copy: {copied[:80]!r}"
    yield runner.check(["verify", "-q", "out.bin"], Result(b""))


THERE = "there is a file of this name\n"


def files_of(runner):
    return {path.name: path.read_bytes() for path in runner.folder.iterdir()}


def unchanged(runner, words, status, messages, **ends):
    """What is wrong with a run that has to leave all files as they are."""
    before = files_of(runner)
    finished = runner.run(words, **ends)
    yield difference(" ".join(words), finished, Result(finished.stdout, status, messages))
    yield None if files_of(runner) == before else f"{words}: the files are {sorted(files_of(runner))}, or one is changed"


def new_copies(runner):
    """A file is there with a whole copy, and else not at all. No file is written over, under whichever name."""
    cut = SAMPLE[:-5]
    runner.run(["list"], [SAMPLE, GTIDS, cut])
    yield runner.check(["copy", "-o", "cut.bin", "2.bin"], Result(b"", DAMAGED, cut_message("2.bin", cut)))
    is_copied = (runner.folder / "cut.bin").read_bytes() == cut[: len(cut) - len(tail_of(cut))]
    yield None if is_copied else "copy: the copy of a log that is cut isn't its whole events"
    (runner.folder / "linked.bin").hardlink_to(runner.folder / "1.bin")
    (runner.folder / "named.bin").symlink_to("1.bin")
    (runner.folder / "begun.bin.part").write_bytes(b"begun")
    for name in "1.bin", "./1.bin", "linked.bin", "named.bin", "2.bin", ".":
        for logs in ["0.bin", "1.bin"], ["0.bin"], [MISSING]:
            yield from unchanged(runner, ["copy", "-o", name, *logs], FAILED, re.escape(f"binlog: {name}: ") + THERE)
    yield from unchanged(runner, ["copy", "--start-datetime", "today", "-o", "1.bin", "0.bin"], FAILED, r"binlog: 1\.bin: " + THERE)
    yield from unchanged(runner, ["copy", "-o", "begun.bin", "0.bin"], FAILED, r"binlog: begun\.bin\.part: File exists.*\n")
    yield from unchanged(runner, ["copy", "-o", "/missing/out.bin", "0.bin"], FAILED, "binlog: /missing/out.bin.part: .+\n")
    yield from unchanged(runner, ["copy", "--start-datetime", "today", "-o", "new.bin", "0.bin"], USAGE, "binlog: .+\n")
    yield from unchanged(runner, ["copy", "-o", "new.bin", "0.bin", MISSING], NOT_OPENED, NOT_FOUND)
    few = {"preexec_fn": partial(resource.setrlimit, resource.RLIMIT_FSIZE, (50, 50)), "restore_signals": False}
    yield from unchanged(runner, ["copy", "-o", "new.bin", "0.bin"], FAILED, r"binlog: new\.bin\.part: File too large.*\n", **few)
    yield from unfinished_copies(runner)


def unfinished_copies(runner):
    """A file that is made meanwhile stays, and a copy that is killed has no name."""
    taken, begun = runner.folder / "taken.bin", runner.folder / "taken.bin.part"
    for is_killed in (False, True):
        copying = subprocess.Popen([runner.program, "copy", "-o", taken.name], cwd=runner.folder, stdin=subprocess.PIPE, stderr=subprocess.PIPE)
        while not begun.exists():
            sleep(0.01)
        if is_killed:
            copying.kill()
        else:
            taken.write_bytes(b"taken")
        _, messages = copying.communicate(None if is_killed else SAMPLE)
        if is_killed:
            yield None if begun.exists() and not taken.exists() else "copy: one that is killed has a name"
        else:
            is_right = copying.returncode == FAILED and re.fullmatch(rb"binlog: taken\.bin: .*exists.*\n", messages)
            yield None if is_right else f"copy: status {copying.returncode}, {messages!r}"
            yield None if taken.read_bytes() == b"taken" and not begun.exists() else "copy: a file that was made meanwhile is written over"
            taken.unlink()


def outputs(runner):
    """Standard output isn't added to while it is read, under whichever name."""
    runner.run(["list"], [SAMPLE, GTIDS, b""])
    (runner.folder / "linked.bin").hardlink_to(runner.folder / "1.bin")
    (runner.folder / "named.bin").symlink_to("1.bin")
    for name in "1.bin", "./1.bin", "linked.bin", "named.bin":
        for words in TO_OUTPUT + UNDOING:
            yield from refused_output(runner, [*words, "0.bin", name])
        for words in FOLLOWING:
            yield from refused_output(runner, [*words, name])
        for words in OTHER_FILES:
            yield from refused_output(runner, [*words, name, "0.bin"])
    for words in TO_OUTPUT:
        for logs in ["0.bin", "-"], ["-"], []:
            with open(runner.folder / "1.bin", "rb") as log:
                yield from refused_output(runner, [*words, *logs], stdin=log)
    yield None if (runner.folder / "1.bin").read_bytes() == GTIDS else "a log that is read was added to"
    yield from other_outputs(runner)


def refused_output(runner, words, **ends):
    """What is wrong with a run that has to refuse the file `1.bin` as its output."""
    with open(runner.folder / "1.bin", "ab") as output:
        refused = "binlog: standard output is one of the files that are read\n"
        yield from unchanged(runner, words, FAILED, refused, stdout=output, timeout=SECONDS, **ends)


def other_outputs(runner):
    """Another file, and what has no bytes of its own, are no files that are read."""
    for words, added in (["copy", "-o", "-"], SAMPLE), (["list"], listing_model.expected(SAMPLE)[0]):
        (runner.folder / "1.bin").write_bytes(GTIDS)
        with open(runner.folder / "1.bin", "ab") as output:
            finished = runner.run([*words, "0.bin"], stdout=output)
        is_right = finished.returncode == FINE and (runner.folder / "1.bin").read_bytes() == GTIDS + added
        yield None if is_right else f"{words} 0.bin >> 1.bin: {finished}"
        ours, theirs = socket.socketpair()
        with ours, subprocess.Popen([runner.program, *words], stdin=theirs, stdout=theirs) as run:
            theirs.close()
            ours.sendall(SAMPLE)
            ours.shutdown(socket.SHUT_WR)
            given = b"".join(iter(partial(ours.recv, 65536), b""))
        yield None if run.returncode == FINE and given == added else f"{words} from a socket to itself: status {run.returncode}"
        terminal, end = pty.openpty()
        with open(terminal, "wb", buffering=0) as typed, open(end, "r+b", buffering=0) as shown, open(os.devnull, "r+b") as null:
            typed.write(END_OF_INPUT)
            for device in shown, null:
                finished = runner.run(words, stdin=device, stdout=device, timeout=SECONDS)
                is_right = finished.returncode == NOT_OPENED and b"standard input: " in finished.stderr
                yield None if is_right else f"{words} from a device to itself: {finished}"


def maria(runner):
    """MariaDB's own events as lines of JSON, in the logs that it wrote, and as unknown ones in those of other servers."""
    for log in maria_events.logs():
        yield runner.check(["json", "0.bin"], Result(log.lines), [log.content])


def stored_rows(runner):
    """The stored bytes of rows: those of events that have a refused row or no table map, and with `--stored` of all."""
    log, _ = row_lines.sample()
    for options, kept in ([], [False, False, True, True]), (["--stored"], [True] * 4):
        output, status = json_model.expected(log, keeps_stored=bool(options))
        yield runner.check(["json", *options, "0.bin"], Result(output, status), [log])
        found = runner.run(["json", *options, "--type", "WRITE_ROWS", "0.bin"], [log]).stdout.splitlines()
        is_right = ["rows_data" in json.loads(line)["data"] for line in found] == kept
        yield None if is_right else f"json {options}: {found}"
    yield runner.check(["list", "--stored", "0.bin"], Result(b"", USAGE, r"(?s).+"), [log])


def compact_rows(runner):
    """The rows alone, a line for each, with the names of files; and those that filters take, with the GTIDs of events that they leave out."""
    sample, _ = row_lines.sample()
    logs = [sample, SAMPLE, CHECKSUMMED, GTIDS, places_log()[0], *(log.content for log in maria_events.logs())]
    for log in logs:
        for options in ([], ["--stored"]):
            output, status = compact_model.expected(log, "0.bin", keeps_stored=bool(options))
            yield runner.check(["json", "--compact", *options, "0.bin"], Result(output, status, MESSAGES if status else ""), [log])
    two = [sample, transactions(1)]
    lines = b"".join(compact_model.expected(log, f"{place}.bin")[0] for place, log in enumerate(two))
    yield runner.check(["json", "--compact", "0.bin", MISSING, "1.bin"], Result(lines, NOT_OPENED, NOT_FOUND), two)
    yield runner.check(["list", "--compact", "0.bin"], Result(b"", USAGE, r"(?s).+"), [sample])


def places_log():
    """A log of rows in seven transactions, behind a damaged event, and inside a compressed transaction; and where each row stands. Two of the
    transactions have numbers that no GTID has."""
    table, row = (row_values.framed(*event) for event in (row_lines.FIRST, row_lines.written(1, 7, b"a")))
    broken = row_values.framed(row_lines.TABLE_MAP, row_lines.FIRST[1][:12])
    inside = table + row + samples.gtid(9) + row
    payload = row_values.framed(json_model.PAYLOAD, payload_model.written(255, len(inside), inside))
    anonymous = samples.frame(compact_model.ANONYMOUS, samples.gtid_body(bytes(16), 0))
    events = [samples.gtid(1), table, row, row, samples.gtid(2), payload, row, anonymous, row, samples.tagged_gtid(b"t", 3), row, broken, row, samples.gtid(4), row]
    numbers = 0, 2**63 - 1, 2**63
    events += [event for number in numbers for event in (samples.gtid(number), row)]
    starts, log = [], row_values.start(row_lines.VERSIONS[0])
    for event in events:
        starts.append(len(log))
        log += event
    of = lambda number: f"{SID}:{number}"
    rows = [(2, None, of(1)), (3, None, of(1)), (5, 1, of(2)), (5, 3, of(2)), (6, None, of(2)), (8, None, None), (10, None, f"{TAGGED_SID}:t:3")]
    wanted = [(starts[index], part, gtid) for index, part, gtid in rows]
    # Behind the damaged event neither the position nor the GTID is known: the headers state the log position 0.
    return log, [*wanted, (None, None, None), (None, None, of(4)), (None, None, None), (None, None, of(2**63 - 1)), (None, None, None)]


def compact_places(runner):
    """Where rows stand, and the GTIDs of their transactions; the same with filters."""
    log, wanted = places_log()
    places = lambda words: [
        (line["pos"], line.get("part"), line["gtid"])
        for line in map(json.loads, runner.run(["json", "--compact", *words, "0.bin"], [log]).stdout.splitlines())
        if "op" in line
    ]
    outside = [place for place in wanted if place[1] is None]
    for words, taken in (([], wanted), (["--type", "WRITE_ROWS"], outside), (["--type", "TRANSACTION_PAYLOAD"], wanted[2:4]), (["--include-gtids", f"{SID}:2"], wanted[2:5])):
        yield None if places(words) == taken else f"json --compact {words}: {places(words)}, not {taken}"


def maria_transactions(runner):
    """Filters take whole transactions of a log that MariaDB wrote, and the events of the log itself."""
    log, events, numbers = maria_log()
    names_of_types = {event.type: event.name for event in events}
    every = range(len(events))
    of_log = [index for index in every if numbers[index] is None]
    cases = [
        ([], every, len(set(numbers) - {None})),
        (["--include-gtids", f"{SID}:1-9"], of_log, 0),
        (["--exclude-gtids", f"{SID}:1-9"], every, 3),
        (["--type", "GTID"], [index for index in every if events[index].name == "GTID_EVENT"], 3),
    ]
    for name in names_of_types.values():
        indexes = [index for index in every if events[index].name == name]
        cases += [(["--type", name], indexes, 3 * (name == "GTID_EVENT"))]
    json_lines = log.lines.splitlines(keepends=True)
    for words, indexes, count in cases:
        with_description = sorted({0, *indexes})
        wanted = [
            ("list", lines(log.content, indexes)),
            ("json", b"".join(json_lines[index] for index in indexes)),
            ("stats", counts_of(log.content, indexes, count, names_of_types)),
            ("copy", copy_of(log.content, with_description)),
        ]
        for command, output in wanted:
            ends = ["-o", "-"] if command == "copy" else []
            yield runner.check([command, *words, *ends, "0.bin"], Result(output), [log.content])


def maria_set_log():
    """A log of MariaDB's with transactions of several domains and servers: the log, and the GTID of the transaction of each event,
    "" where it can't be read, None for events of the log. A transaction is its GTID, and two statements."""
    statement = samples.frame(samples.QUERY, samples.query_body(b"test", b"select 1"), 0)
    short = samples.frame(samples.MARIA_GTID, samples.maria_gtid_body(0, 1)[:12])
    gtids = [(0, 1, 100), (0, 1, 101), (1, 1, 100), (0, 2, 100), (1, 2, 7), (2**32 - 1, 2**32 - 1, 2**64 - 1)]
    begins = [(f"{domain}-{server}-{sequence}", samples.maria_gtid(domain, server, sequence)) for domain, server, sequence in gtids]
    begins.insert(3, ("", short))
    # The entries of a list are no transactions.
    pairs = [(None, samples.maria_start()), (None, samples.maria_gtid_list((0, 1, 100)))]
    for gtid, event in begins:
        pairs += [(gtid, event), (gtid, statement), (gtid, statement)]
    pairs.append((None, samples.frame(samples.ROTATE, samples.ROTATE_BODY, 0)))
    return MAGIC + b"".join(event for _, event in pairs), [gtid for gtid, _ in pairs]


def maria_gtid_filters(runner):
    """Whole transactions of MariaDB's are taken by their GTIDs: by the domain, the server id of the header, and the sequence
    number."""
    log, gtids = maria_set_log()
    every, largest = {gtid for gtid in gtids if gtid}, "4294967295-4294967295-18446744073709551615"
    # Words, and the GTIDs of the transactions that are taken; "" is the one whose GTID can't be read.
    cases = [
        (["--include-gtids", "0-1-100"], {"0-1-100"}),
        (["--include-gtids", "1-1-100"], {"1-1-100"}),
        (["--include-gtids", "0-2-100"], {"0-2-100"}),
        (["--include-gtids", "1-2-100"], set()),
        (["--include-gtids", "1-2-7,0-1-101,0-1-100,1-2-7"], {"0-1-100", "0-1-101", "1-2-7"}),
        (["--include-gtids", "00-01-0100"], {"0-1-100"}),
        (["--include-gtids", largest], {largest}),
        (["--include-gtids", ",".join(sorted(every))], every),
        (["--exclude-gtids", "0-1-100"], every - {"0-1-100"} | {""}),
        (["--exclude-gtids", "0-2-100,1-1-100"], every - {"0-2-100", "1-1-100"} | {""}),
        (["--exclude-gtids", "2-1-100"], every | {""}),
        (["--include-gtids", "0-1-100,0-1-101", "--exclude-gtids", "0-1-101,1-2-7"], {"0-1-100"}),
        (["--include-gtids", "0-1-100", "--exclude-gtids", "0-1-100"], set()),
        # A set of one server has no GTID of the other.
        (["--include-gtids", "0-1-100", "--exclude-gtids", f"{SID}:1-9"], {"0-1-100"}),
        (["--include-gtids", f"{SID}:1-9", "--exclude-gtids", "0-1-100"], set()),
    ]
    for words, wanted in cases:
        indexes = [index for index, gtid in enumerate(gtids) if gtid is None or gtid in wanted]
        yield runner.check(["list", *words, "0.bin"], Result(lines(log, indexes)), [log])
        yield runner.check(["copy", *words, "-o", "-", "0.bin"], Result(copy_of(log, indexes)), [log])
    # The event that begins the only transaction that is taken; the GTID of that at index 11 can't be read.
    for words, index in (["--include-gtids", "0-1-101"], 5), (["--exclude-gtids", ",".join(sorted(every))], 11):
        found = runner.run(["json", *words, "--type", "GTID", "0.bin"], [log]).stdout.splitlines()
        yield None if [json.loads(line)["index"] for line in found] == [index] else f"json {words}: {found}"
        found = runner.run(["stats", *words, "0.bin"], [log]).stdout
        yield None if b"\ntransactions 1\n" in found else f"stats {words}: {found!r}"
    # In a log of another server the event has no GTID, and its transaction none.
    other = MAGIC + samples.maria_start(samples.MYSQL) + samples.maria_gtid(0, 1, 100)
    yield runner.check(["list", "--include-gtids", "0-1-100", "0.bin"], Result(lines(other, [0])), [other])
    yield runner.check(["list", "--exclude-gtids", "0-1-100", "0.bin"], Result(lines(other, [0, 1])), [other])
    mysql = transactions(1, 2)
    yield runner.check(["list", "--include-gtids", "0-1-1", "0.bin"], Result(lines(mysql, [0])), [mysql])


# Texts that are no set of GTIDs, and the messages. A text with a `-` and no `:` is read as MariaDB's.
NO_SETS = [
    ("no_uuid", "no UUID at byte 0"),
    ("no-uuid:1", "no UUID at byte 0"),
    (f"0-1-100,{SID}:1", "no UUID at byte 0"),
    (f"{SID}:1-5,0-1-100", "no UUID at byte 41"),
    (SID, "no number in GTID 1"),
    ("0-1", "fewer than two hyphens in GTID 1"),
    ("0-1-100,", "fewer than two hyphens in GTID 2"),
    ("0-1-100,,0-1-101", "fewer than two hyphens in GTID 2"),
    ("0-1-", "no number in GTID 1"),
    ("-1-100", "no number in GTID 1"),
    ("0-1-100-", "no number in GTID 1"),
    ("0-1-100-101", "no number in GTID 1"),
    ("0-1-+100", "no number in GTID 1"),
    ("0-1-100, 0-1-101", "no number in GTID 2"),
    ("0x1-1-100", "no number in GTID 1"),
    ("4294967296-1-100", "a number out of range in GTID 1"),
    ("0-1-100,0-4294967296-1", "a number out of range in GTID 2"),
    ("0-1-18446744073709551616", "a number out of range in GTID 1"),
]


def no_sets(runner):
    """Texts that are no set of GTIDs have a message, and nothing is read."""
    for text, why in NO_SETS:
        for option in "--include-gtids", "--exclude-gtids":
            message_of = f"binlog: {option}: {re.escape(why)}\n"
            yield runner.check(["list", f"{option}={text}", "0.bin"], Result(b"", USAGE, message_of), [SAMPLE])


# ---- words and ends


def words(runner):
    """The help, the version, and wrong usage."""
    for command in COMMANDS:
        finished = runner.run([command, "--help"])
        is_shown = finished.returncode == FINE and b"Examples:\n" in finished.stdout and not finished.stderr
        yield None if is_shown else f"{command} --help: {finished}"
    yield runner.version_fault(runner.program)
    finished = runner.run([])
    yield None if finished.returncode == USAGE and b"Commands:" in finished.stderr else f"no words: {finished}"
    wrong = [["lists"], ["list", "--bogus"], ["copy", "0.bin"], ["list", "--start-position", "x"]]
    wrong += [["list", "--type", "NO_TYPE"], ["list", "--start-datetime", "today"], ["list", "--server-id", "4294967296"]]
    wrong += [["list", "--include-gtids", "no-uuid:1"], ["list", "--quiet"]]
    for refused in wrong:
        yield runner.check(refused, Result(b"", USAGE, r"(?s).+"), [SAMPLE])


def ends(runner):
    """An output that fails, and one that nobody reads any more."""
    long_log = MAGIC + 20_000 * EVENT
    for command in ("list", "json", "stats", "verify", "gtids"):
        unread, writing = os.pipe()
        os.close(unread)
        log = transactions(1) + 20_000 * EVENT
        closed = runner.run([command, "0.bin"], [log], stdout=writing)
        os.close(writing)
        closed.stdout = b""
        yield difference(f"{command} into a closed pipe", closed, Result(b""))
        with open("/dev/full", "wb") as full:
            finished = runner.run([command, "0.bin"], [log], stdout=full)
        finished.stdout = b""
        full = re.escape("binlog: the output: No space left on device (os error 28)\n")
        yield difference(f"{command} to a full device", finished, Result(b"", FAILED, full))
    piped = f"{runner.program} list 0.bin | head -n 1"
    first, _ = listing_model.expected(MAGIC + EVENT)
    every = b"".join(b"%d%s" % (index, first.removeprefix(b"0")) for index in range(20_000))
    yield runner.check(["list", "0.bin"], Result(every), [long_log])
    finished = subprocess.run(["bash", "-c", f"set -o pipefail; {piped}"], cwd=runner.folder, capture_output=True)
    yield difference("head", finished, Result(first))


def write_large(path):
    """Writes a log of 110 events of a mebibyte each, and returns its size."""
    size = 1 << 20
    header = samples.frame(samples.QUERY, b"", 0)
    header = header[:SIZE_OFFSET] + size.to_bytes(4, "little") + header[SIZE_OFFSET + 4 :]
    with open(path, "wb") as log:
        log.write(MAGIC)
        for number in range(110):
            log.seek(len(MAGIC) + number * size)
            log.write(header)
        log.truncate(len(MAGIC) + 110 * size)
    return len(MAGIC) + 110 * size


def on_terminal(runner, words, has_output=False):
    """What a run writes to a terminal that is its standard error, and its output if that is asked for."""
    reading, writing = pty.openpty()
    output = writing if has_output else subprocess.PIPE
    shown = b""
    with subprocess.Popen([runner.program, *words], cwd=runner.folder, stdout=output, stderr=writing) as running:
        os.close(writing)
        while True:
            try:
                piece = os.read(reading, 65536)
            except OSError:
                # The other side of the terminal is closed.
                break
            shown += piece
    os.close(reading)
    return shown.replace(b"\r\n", b"\n").decode()


def progress(runner):
    """The progress in a large file: on a terminal alone, and wiped at the end and before a message."""
    size = write_large(runner.folder / "large.bin")
    line = rf"\r\d+ of {size} bytes, \d+ events\x1b\[K"
    wiped = r"\r\x1b\[K"
    for words in (["verify", "-q"], ["stats"], ["list"]):
        shown = on_terminal(runner, [*words, "large.bin"])
        yield None if re.fullmatch(f"({line})+{wiped}", shown) else f"{words} shows {shown!r}"
        shown = on_terminal(runner, [*words, "--no-progress", "large.bin"])
        yield None if not shown else f"{words} --no-progress shows {shown!r}"
    shown = on_terminal(runner, ["list", "large.bin"], has_output=True)
    yield None if "of" not in shown and shown.count("\n") == 110 else f"beside the listing {shown!r} is shown"
    yield runner.check(["verify", "-q", "large.bin"], Result(b""))

    place = size - (1 << 20)
    with open(runner.folder / "large.bin", "r+b") as log:
        log.seek(place + SIZE_OFFSET)
        log.write((5).to_bytes(4, "little"))
    text = message("large.bin", 109, place, "an event states the size 5, and its header alone takes 19 bytes")
    shown = on_terminal(runner, ["stats", "large.bin"])
    yield None if re.fullmatch(f"({line})+{wiped}{text}", shown) else f"a damaged log shows {shown!r}"
    shown = on_terminal(runner, ["stats", "0.bin"])
    yield None if "No such file" in shown else f"a missing log shows {shown!r}"
    (runner.folder / "0.bin").write_bytes(SAMPLE)
    shown = on_terminal(runner, ["stats", "0.bin"])
    yield None if not shown else f"a small log shows {shown!r}"


def followed(runner):
    """Transactions that come to a file while it is followed have their lines at once, without a message while there is only a part of
    one; the first files aren't waited for."""
    first = listing_model.expected(SAMPLE)[0]
    ends = [*frame_starts(SAMPLE), len(SAMPLE)]
    (runner.folder / "0.bin").write_bytes(SAMPLE)
    for option in ("--follow", "-f"):
        with open(runner.folder / "1.bin", "wb") as log:
            log.write(SAMPLE[: ends[2]])
            log.flush()
            words = [runner.program, "list", option, "0.bin", "1.bin"]
            ends_of_run = {"stdout": subprocess.PIPE, "stderr": subprocess.PIPE}
            with subprocess.Popen(words, cwd=runner.folder, **ends_of_run) as running:
                shown = b"".join(running.stdout.readline() for _ in range(first.count(b"\n") + 2))
                # A statement, a part of a transaction of four events, and all the rest.
                for piece, lines in ((SAMPLE[ends[2] : ends[3]], 1), (SAMPLE[ends[3] : ends[6] - 1], 0), (SAMPLE[ends[6] - 1 :], len(ends[4:]))):
                    log.write(piece)
                    log.flush()
                    shown += b"".join(running.stdout.readline() for _ in range(lines))
                is_waiting = running.poll() is None
                running.kill()
                messages = running.stderr.read()
        yield None if is_waiting and shown == 2 * first and not messages else f"list {option}: {shown[-200:]!r}"


# ---- installed


def completed(runner, completions, *words):
    """What bash completes the last of these words to."""
    given = " ".join(map(shlex.quote, ("binlog", *words)))
    script = f"source {shlex.quote(str(completions))}; COMP_WORDS=({given}); COMP_CWORD={len(words)}; _binlog; "
    script += 'printf "%s\\n" "${COMPREPLY[@]}"'
    finished = subprocess.run(["bash", "-c", script], cwd=runner.folder, capture_output=True, text=True, check=True)
    return finished.stdout.splitlines()


def laid_out(runner, prefix):
    """The program, the man page and the completions below a prefix."""
    yield runner.version_fault(prefix / "bin/binlog")
    page = prefix / "share/man/man1/binlog.1"
    completions = prefix / "share/bash-completion/completions/binlog"
    text = page.read_text().replace("\\", "")
    yield None if completed(runner, completions, "ve") == ["verify"] else "binlog ve isn't completed"
    yield None if completed(runner, completions, "list", "--type", "") == [""] else "a type is completed to a file"
    (runner.folder / "kept here.bin").touch()
    for words in (("copy", "-o"), ("json", "--columns"), ("list", "--state"), ("gtids", "--missing-in"), ("undo", "--later")):
        yield None if completed(runner, completions, *words, "kept") == ["kept here.bin"] else f"a file isn't completed behind {words}"
    for command in COMMANDS:
        options = set(re.findall(r"--[\w-]+", runner.run([command, "--help"]).stdout.decode().split("\n\n")[3]))
        is_whole = len(options) > 1 and options <= set(completed(runner, completions, command, "--"))
        yield None if is_whole else f"the options of {command} aren't completed"
        section = text.partition(f"\n.SS {command}\n")[2].partition("\n.SS ")[0]
        yield None if all(option in section for option in options) else f"the man page of {command} lacks an option"
    if shutil.which("man"):
        shown = subprocess.run(["man", "--warnings", "-l", page], capture_output=True, env=os.environ | {"MANPAGER": "cat"})
        yield None if shown.returncode == 0 and not shown.stderr else f"man: {shown.stderr!r}"


def wrong_words(runner):
    """Words that the scripts refuse, before they build anything."""
    for script, *words in (("install",), ("install", ""), ("install", "--help"), ("package",), ("package", ""), ("package", "--help"), ("list", "a", "b")):
        finished = subprocess.run([REPOSITORY / "bin" / script, *words], cwd=runner.folder, capture_output=True)
        is_right = finished.returncode == 64 and finished.stderr.startswith(f"usage: bin/{script} ".encode())
        yield None if is_right else f"bin/{script} {words}: status {finished.returncode}, {finished.stderr!r}"


def installs(runner):
    """What is installed, and what a package holds."""
    yield from wrong_words(runner)
    prefix = runner.folder / "prefix"
    finished = subprocess.run([REPOSITORY / "bin/install", prefix, f"program={runner.program}"], capture_output=True)
    yield difference("bin/install", finished, Result(b""))
    yield from laid_out(runner, prefix)
    if shutil.which("dpkg-deb") is None:
        print("without dpkg-deb no package is tried")
        return
    words = [REPOSITORY / "bin/package", runner.folder / "binlog.deb", f"program={runner.program}"]
    finished = subprocess.run(words, capture_output=True)
    yield None if finished.returncode == 0 else f"bin/package: {finished.stderr!r}"
    if finished.returncode:
        return
    subprocess.run(["dpkg-deb", "-x", runner.folder / "binlog.deb", runner.folder / "unpacked"], check=True)
    yield from laid_out(runner, runner.folder / "unpacked/usr")


PARTS = (models, damaged, cut_logs, cut_ends, reported, several, filters, positions, gtid_filters, damaged_gtids, names, gtids, maria_gtids, stored, compressed, stats)
PARTS += (tables, compressed_tables, no_tables, copies, new_copies, outputs, maria, maria_transactions, maria_gtid_filters, no_sets, stored_rows, compact_rows, compact_places, words, ends, progress, followed, installs)


def results_of(build, part):
    """What a part finds, in a folder of its own."""
    with tempfile.TemporaryDirectory() as folder:
        return list(part(Runner(build, folder)))


def main():
    parser = argparse.ArgumentParser(description="Runs each command of `binlog`.")
    programs.add_flags(parser)
    build = programs.parsed(parser, "binlog").build
    with ThreadPoolExecutor(PROCESSES_AT_A_TIME) as pool:
        return results.report(chain.from_iterable(pool.map(partial(results_of, build), PARTS)))


if __name__ == "__main__":
    sys.exit(main())
