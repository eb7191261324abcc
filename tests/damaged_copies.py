#!/usr/bin/env python3
"""Compares listing programs with the model on samples and damaged copies of them.

Usage: damaged_copies.py [--json | --gtids] [--every N] [--sample FILE] FLAG..

Each FLAG is one of `programs.py`, or --beside: the proved programs beside those of cargo, where these are built. They list the
events of a log; with --json they print its lines of JSON, and with --gtids they list its GTIDs. The encoder also gives the
listing and the lines of JSON of the events that it encodes. With --every one case in N is run. Without a sample one is made in
memory. The last line of the output is `N passed, M failed`; the exit status is 1 if something failed.
"""

import argparse
import sys
from concurrent.futures import ProcessPoolExecutor
from functools import lru_cache, partial
from itertools import islice
from pathlib import Path
from typing import Callable, NamedTuple

import encoded_logs
import gtid_model
import json_model
import listing_model
import programs
import results
import samples

PROCESSES_AT_A_TIME = 2
SHOWN_FAILURES = 20

MAGIC = listing_model.FILE_HEADER
HEADER_LENGTH = listing_model.HEADER_LENGTH
SIZE_OFFSET = 9


# A case is a name, the bytes of a file, and what has to be printed if the encoder gives it.


def no_change(sample):
    yield "the sample", sample


def truncations(sample):
    for length in range(len(sample)):
        yield f"the first {length} bytes", sample[:length]


def with_byte(sample, position, value):
    return sample[:position] + bytes([value]) + sample[position + 1 :]


def changed_bytes(sample):
    """Every byte inverted, and every byte changed by a value that depends on its position."""
    for position, byte in enumerate(sample):
        inverted = byte ^ 0xFF
        # From 1 to 254: neither the byte itself nor the inverted byte.
        other = byte ^ (1 + position % 254)
        for value in (inverted, other):
            name = f"byte {position} is {value:#04x} instead of {byte:#04x}"
            yield name, with_byte(sample, position, value)


def frame_starts(sample):
    frames, _ = listing_model.split(sample[len(MAGIC) :])
    start = len(MAGIC)
    for frame in frames:
        yield start
        start += len(frame)


def changed_sizes(sample):
    """Sizes around the least size of a frame, and one off the true size."""
    for start in frame_starts(sample):
        position = start + SIZE_OFFSET
        true_low_byte = sample[position]
        for value in (0, 18, 19, 20, true_low_byte - 1, true_low_byte + 1):
            name = f"low byte of the size at {position} is {value}"
            yield name, with_byte(sample, position, value)


def frame(size, length=None, fill=0):
    """A header that states `size`, cut or filled to `length` bytes (`size` if not given)."""
    header = samples.HEADER.pack(1, 2, 3, size, 4, 0x00AF)
    length = size if length is None else length
    return header[:length].ljust(length, bytes([fill]))


def not_binlogs(sample):
    yield "no byte", b""
    yield "3 bytes of the magic", MAGIC[:3]
    yield "3 other bytes", b"abc"
    yield "4 other bytes", b"abcd"
    yield "wrong last byte of the magic", b"\xfe\x62\x69\x6f" + sample[4:]
    yield "no magic before the frames", sample[4:]
    yield "one byte before the magic", b"\0" + sample


def undersized_tails():
    yield "size 18, nothing behind", frame(18, 19)
    yield "size 18, bytes behind", frame(18, 200, fill=7)
    yield "size 18, a whole frame behind", frame(18, 19) + frame(40)
    yield "size 0", frame(0, 19)
    yield "size 1, bytes behind", frame(1, 100)
    yield "19 zero bytes", bytes(19)
    yield "70,000 zero bytes", bytes(70_000)


def incomplete_tails():
    yield "one byte", b"\0"
    yield "18 zero bytes", bytes(18)
    yield "18 bytes, size 18", frame(18, 18)
    yield "18 bytes, size 19", frame(19, 18)
    yield "size 20, 19 bytes", frame(20, 19)
    yield "size 100, 99 bytes", frame(100, 99)
    yield "size 70,000, 69,999 bytes", frame(70_000, 69_999)
    yield "greatest size, 19 bytes", frame(0xFFFFFFFF, 19)
    yield "greatest size, 100,000 bytes", frame(0xFFFFFFFF, 100_000)
    yield "greatest signed size, 19 bytes", frame(0x7FFFFFFF, 19)


def with_tails(sample):
    for kind, tails in (("undersized", undersized_tails), ("incomplete", incomplete_tails)):
        for name, tail in tails():
            yield f"{kind} tail ({name}) alone", MAGIC + tail
            yield f"{kind} tail ({name}) behind the sample", sample + tail


def whole_files(sample):
    greatest = samples.HEADER.pack(2**32 - 1, 255, 2**32 - 1, 19, 2**32 - 1, 0xFFFF)
    yield "file header alone", MAGIC
    yield "a frame of 19 bytes", MAGIC + frame(19)
    yield "greatest fields", MAGIC + greatest
    yield "the file header again behind it", MAGIC + MAGIC + sample[4:]
    yield "the sample twice", sample + sample
    # Frames on both sides of the usual buffer sizes, and more lines than a
    # 64 KiB output buffer holds.
    for size in (4096, 8192, 65_536):
        for near in range(size - 5, size + 2):
            yield f"a frame of {near} bytes between others", (
                MAGIC + frame(50) + frame(near, fill=0xFF) + frame(50)
            )
            yield f"a frame of {near} bytes first", MAGIC + frame(near) + frame(19)
    yield "a frame of 3 MB", MAGIC + frame(3_000_000, fill=0xFF) + frame(19)
    yield "300 frames of 701 bytes", MAGIC + 300 * frame(701, fill=0x55)
    yield "6,000 frames of 19 bytes", MAGIC + 6_000 * frame(19)


# Logs whose events may have checksums.

DESCRIPTION = samples.FORMAT_DESCRIPTION
EVENT = frame(40, fill=0xC5)

# Server versions at the edges of the rule for the first one with checksums, 5.6.1.
SERVER_VERSIONS = [
    b"",
    b".6.1",
    b"3.255.255",
    b"5",
    b"5.6",
    b"5.6.",
    b"5.6.0-log",
    b"5.6.1",
    b"5.6.1.",
    b"5-6.1",
    b"5.6-1",
    b"5.10",
    b"5.7.256",
    b"5.300.1",
    b"006.0.0",
    b"8.0.36",
    b"10.11.6-MariaDB-log",
    b"256.0.0",
    b"mysql 8.0.36",
    # The last of the 50 bytes isn't looked at.
    b"5.6." + 45 * b"0" + b"1",
    b"5.6." + 44 * b"0" + b"1",
    b"5.6." + 43 * b"0" + b"1" + b"00",
    49 * b"0" + b".",
    48 * b"0" + b"6.",
    48 * b"9" + b".0",
]


def described(*parts, **description_parts):
    return MAGIC + samples.description(**description_parts) + b"".join(parts)


def short_events():
    return b"".join(frame(HEADER_LENGTH + length) for length in range(7))


def stated_descriptions():
    for version in SERVER_VERSIONS:
        yield f"server version {version}", described(EVENT, server_version=version)
    for algorithm in (0, 1, 2, 7, 127, 128, 255):
        content = described(EVENT, short_events(), EVENT, algorithm=algorithm)
        yield f"algorithm {algorithm}", content
    for version in (0, 1, 2, 3, 4, 5, 0x0104, 0x0400, 0xFFFF):
        yield f"binlog version {version}", described(EVENT, binlog_version=version)
    for length in (0, 18, 19, 20, 255):
        yield f"header length {length}", described(EVENT, header_length=length)


def cut_description(length, server_version):
    """A description with this many bytes after its header."""
    body = samples.description_body(server_version)
    return samples.frame(DESCRIPTION, body[:length].ljust(length, b"\x01"), 0)


def cut_descriptions():
    for server_version in (b"5.6.0", b"5.6.1"):
        for length in range(70):
            yield f"{length} bytes of a description of {server_version}", (
                MAGIC + cut_description(length, server_version) + EVENT
            )


def changes_of_description():
    """Descriptions after other ones, each followed by events that it may cut."""
    events = EVENT + short_events()
    descriptions = {
        "with checksums": samples.description(),
        "without": samples.description(algorithm=samples.OFF),
        "of an old server": samples.file_start()[len(MAGIC) :],
        "refused for its version": samples.description(binlog_version=9),
        "refused for its length": cut_description(56, b"5.5.5"),
    }
    for first_name, first in descriptions.items():
        for second_name, second in descriptions.items():
            name = f"a description {first_name}, then one {second_name}"
            yield name, MAGIC + events + first + events + second + events


def rotates():
    """ROTATE events of few bytes, without and with checksums, each with an event after it."""
    for length in range(20):
        rotate = samples.frame(samples.ROTATE, b"\x04".ljust(length, b"\0")[:length], 0)
        yield f"a rotate of {length} bytes", MAGIC + rotate + EVENT
        yield f"a rotate of {length} bytes with its checksum", described(rotate, EVENT)


# A table map of id 5: the table `t` of the database `d`, with one column.
TABLE_MAP_BODY = bytes.fromhex("05 00 00 00 00 00 01 00 01 64 00 01 74 00 01 03 00 01")

# The same with 20 columns, of types that have metadata, and with optional metadata.
LONG_TABLE_MAP_BODY = b"".join(
    [
        bytes.fromhex("06 00 00 00 00 00 01 00 01 64 00 01 75 00"),
        bytes([20]) + 20 * b"\x0f",
        bytes.fromhex("fc 28 00") + 40 * b"\x10",
        bytes.fromhex("ff ff 0f"),
        b"optional",
    ]
)


def table_map(body):
    return samples.frame(listing_model.TABLE_MAP, body, 0)


def rows_log():
    """A log of rows: table maps, row events, and a ROTATE that clears the maps."""
    rows = samples.frame(30, bytes.fromhex("05 00 00 00 00 00 01 00 02 00 01 01 fe 07"), 0)
    rotate = samples.frame(samples.ROTATE, samples.ROTATE_BODY, 0)
    maps = table_map(TABLE_MAP_BODY) + table_map(LONG_TABLE_MAP_BODY)
    description = samples.description(algorithm=samples.OFF)
    return MAGIC + description + maps + rows + rotate + maps


def short_table_maps():
    """Each prefix of a table map, without and with a checksum, and one with a byte more."""
    for body in (TABLE_MAP_BODY, LONG_TABLE_MAP_BODY):
        for length in range(len(body) + 1):
            front = table_map(body[:length])
            yield f"{length} bytes of a table map of {len(body)}", MAGIC + front + EVENT
            yield f"{length} bytes of it under checksums", described(front, EVENT)
        yield f"a table map of {len(body)} bytes and one more", MAGIC + table_map(body + b"\0") + EVENT


def counted_table_maps():
    """Table maps whose column count has another encoding, or is malformed."""
    before, behind = TABLE_MAP_BODY[:14], TABLE_MAP_BODY[15:]
    for count in ("fa", "fb", "fc 01 00", "fd 01 00 00", "fe 01" + 7 * " 00", "ff", "fc ff ff", "fe" + 8 * " ff"):
        content = MAGIC + table_map(before + bytes.fromhex(count) + behind) + EVENT
        yield f"a table map of {count} columns", content


def stated_table_maps():
    """Table maps under descriptions that state other post-header lengths."""
    short_id = TABLE_MAP_BODY[:4] + TABLE_MAP_BODY[6:]
    for length in (0, 6, 7, 8, 10, 255):
        stated = samples.description(algorithm=samples.OFF, type_header_lengths=18 * b"\0" + bytes([length]))
        events = table_map(TABLE_MAP_BODY) + table_map(short_id) + EVENT
        yield f"table maps of {length} stated bytes", MAGIC + stated + events


def table_maps():
    for kind in (no_change, truncations, changed_bytes, changed_sizes):
        for name, content in kind(rows_log()):
            yield f"rows: {name}", content
    yield from short_table_maps()
    yield from counted_table_maps()
    yield from stated_table_maps()


# Post-header lengths that a description states: none, a server's, and the same one for each type.
STATED_LENGTHS = {
    "no": b"",
    "a server's": samples.POST_HEADER_LENGTHS,
    **{f"{length} as": 43 * bytes([length]) for length in (0, 2, 6, 10, 15)},
}


def event_data():
    """Events of each type, and damaged copies of them, under descriptions with other lengths."""
    for name, lengths in STATED_LENGTHS.items():
        start = MAGIC + samples.description(algorithm=samples.OFF, type_header_lengths=lengths)
        yield f"every type under {name} lengths", start + samples.every_type()
        for number, body in samples.BODIES:
            case = f"type {number}, {len(body)} bytes, under {name} lengths"
            yield case, start + samples.damaged_events(number, body)


# Texts with characters that JSON escapes, of one to four bytes, and bytes that aren't UTF-8.
TEXTS = [
    *(bytes([byte]) for byte in range(256)),
    bytes(range(128)),
    "\u0080 \u07ff \u0800 \ud7ff \ue000 \uffff \U00010000 \U0010ffff \u2028".encode("utf-8"),
    b"caf\xc3",
    b"\xc0\x80",
    b"\xe0\x9f\xbf",
    b"\xed\xa0\x80",
    b"\xf0\x8f\xbf\xbf",
    b"\xf4\x90\x80\x80",
    b"a" * 70_000 + b"\n",
]


def texts():
    """Statements with these texts, and ROTATE events with these file names."""
    for text in TEXTS:
        body = samples.query_body(text[:255], text)
        query = samples.frame(samples.QUERY, body, 0)
        rotate = samples.frame(samples.ROTATE, bytes(8) + text, 0)
        yield f"the text {text[:9]} of {len(text)} bytes", MAGIC + query + rotate


def gtids():
    """Logs of GTIDs of several sources and tags, damaged, and intervals that meet in each way."""
    for kind in (no_change, truncations, changed_bytes, changed_sizes):
        for name, content in kind(samples.gtids()):
            yield f"GTIDs: {name}", content
    for first in range(1, 8):
        for end in range(first - 1, 10):
            intervals = [(3, 5), (7, 8), (first, end)]
            added = samples.previous((samples.SOURCE, intervals))
            later = "".join(f", {number}" for number in (9, 6, 2))
            yield f"intervals 3 to 5, 7 to 8, {first} to {end}", MAGIC + added
            single = b"".join(map(samples.gtid, (9, 6, 2)))
            yield f"the same, then{later}", MAGIC + added + single


# Server versions that are MariaDB's, and some that are not.
MARIA_VERSIONS = [
    b"-MariaDB",
    b"5.5.5-10.11.6-MariaDB-log",
    b"11.4.2-MariaDB",
    b"10.11.6-mariadb-log",
    b"10.11.6-MariaD",
    b"10.11.6-MariaD-MariaDB",
    b"10.11.6\0-MariaDB",
    b"10.11.6MariaDB",
    b"5.1.23-maria-beta",
    b"5.1.23-maria",
    # The name in the last of the 50 bytes, and cut off by their end.
    42 * b"1" + b"-MariaDB",
    43 * b"1" + b"MariaDB",
    44 * b"1" + b"MariaD",
]


def maria_gtids():
    """Logs of MariaDB's GTIDs, damaged, and under other descriptions."""
    yield "GTIDs under descriptions of MariaDB and MySQL", samples.maria_gtids()
    for kind in (no_change, truncations, changed_bytes, changed_sizes):
        for name, content in kind(samples.few_maria_gtids()):
            yield f"MariaDB's GTIDs: {name}", content
    events = b"".join(samples.maria_gtid_events())
    yield "MariaDB's GTIDs without a description", MAGIC + events
    for version in MARIA_VERSIONS:
        yield f"MariaDB's GTIDs of {version}", MAGIC + samples.maria_start(version) + events
    for extra in range(32):
        for length in range(16):
            event = samples.maria_gtid(1, 2, 3, behind=bytes([extra]) + bytes(length))
            yield f"a GTID with {length} bytes behind its extra flags {extra}", MAGIC + samples.maria_start() + event


def encoded(stated):
    """Logs of encoded events with the encoder's output for them, and logs of damaged copies."""
    for log in encoded_logs.logs():
        output = stated(log)
        yield (log.name, log.content) if output is None else (log.name, log.content, output)


def checksummed_cases():
    sample = samples.checksummed()
    for kind in (no_change, truncations, changed_bytes, changed_sizes, with_tails):
        for name, content in kind(sample):
            yield f"with checksums: {name}", content
    yield from stated_descriptions()
    yield from cut_descriptions()
    yield from changes_of_description()
    yield from rotates()


def all_cases(sample, stated):
    yield from no_change(sample)
    yield from truncations(sample)
    yield from changed_bytes(sample)
    yield from changed_sizes(sample)
    yield from not_binlogs(sample)
    yield from with_tails(sample)
    yield from whole_files(sample)
    yield from checksummed_cases()
    yield from table_maps()
    yield from event_data()
    yield from texts()
    yield from gtids()
    yield from maria_gtids()
    yield from encoded(stated)


def first_difference(found, wanted):
    """The first pair of lines that differ, for the message of a failure."""
    found_lines, wanted_lines = found.split(b"\n"), wanted.split(b"\n")
    for number, (have, want) in enumerate(zip(found_lines, wanted_lines)):
        if have != want:
            return f"line {number} is {have!r}, not {want!r}"
    return f"{len(found_lines) - 1} lines, not {len(wanted_lines) - 1}"


class Compared(NamedTuple):
    """The models of a listing, of its own program and of the command of `binlog`, which give the output and the status for a
    log; the encoder's output for a log, None if it has none, and the model of that."""

    program: Callable
    command: Callable
    stated: Callable
    encoder: Callable

    def model_of(self, words):
        return self.command if programs.is_command(words) else self.program


COMPARED = {
    "list": Compared(listing_model.expected, listing_model.of_command(listing_model.expected), lambda log: log.listing, listing_model.expected),
    "json": Compared(json_model.expected, listing_model.of_command(json_model.expected), lambda log: log.lines, json_model.encoded),
    "gtids": Compared(gtid_model.expected, listing_model.of_command(gtid_model.expected), lambda _log: None, gtid_model.expected),
}


def failure(commands, purpose, case):
    """None if all programs, the model and the encoder agree on the case, else what is wrong."""
    name, content, *stated = case
    compared = COMPARED[purpose]
    wanted = lru_cache(lambda model: model(content))
    faults = [
        fault
        for words in commands
        for fault in all_faults(" ".join(words), programs.run(words, content), wanted(compared.model_of(words)))
    ]
    faults += [fault for output in stated for fault in encoder_faults(compared.encoder(content), output)]
    return f"{name}: {'; '.join(faults)}" if faults else None


def all_faults(name, found, wanted):
    output, status = found
    wanted_output, wanted_status = wanted
    if status != wanted_status:
        yield f"{name}: status {status}, not {wanted_status}"
    if output != wanted_output:
        yield f"{name}: {first_difference(output, wanted_output)}"


def encoder_faults(found, output):
    """What of the model is unlike the encoder's output."""
    return all_faults("the model, unlike the encoder", found, (output, listing_model.STATUS_FINE))


def main():
    parser = argparse.ArgumentParser(description="Compares listing programs with the model.")
    programs.add_flags(parser, compares=True)
    programs.add_purposes(parser)
    parser.add_argument("--every", type=int, default=1, metavar="N", help="one case in so many")
    parser.add_argument("--sample", type=Path, metavar="FILE")
    arguments = programs.parsed(parser)
    purposes = ["list", "list a slice"] if arguments.purpose == "list" else [arguments.purpose]
    found = (words for build in arguments.builds for purpose in purposes for words in build.commands(purpose))
    commands = list(dict.fromkeys(map(tuple, found)))
    sample = arguments.sample.read_bytes() if arguments.sample else samples.plain()
    cases = islice(all_cases(sample, COMPARED[arguments.purpose].stated), 0, None, arguments.every)
    with ProcessPoolExecutor(PROCESSES_AT_A_TIME) as pool:
        return results.report(pool.map(partial(failure, commands, arguments.purpose), cases, chunksize=20))


if __name__ == "__main__":
    sys.exit(main())
