#!/usr/bin/env python3
"""Follows logs from file to file: `binlog list --follow` and `binlog json --follow` go on to the next file at a ROTATE and a STOP, wait
for the rest of what is begun, end at damage, and go on from a state file; `binlog stats --follow` prints its counts again and again.

Usage: followed_files.py FLAG

FLAG is one of `programs.py`: it says which `binlog` is run. Files are written by hand, as a server or a mirror writes them, and the
lines that come are those of the models, file by file. Where a MariaDB server is there, `mariadb-binlog` mirrors its log while it is
under load and rotates, and the mirror's files are followed; else a line says so. The last line is `N passed, M failed`; the exit
status is 1 if something failed.
"""

import argparse
import functools
import queue
import re
import signal
import subprocess
import sys
import tempfile
import threading
import time
from concurrent.futures import ThreadPoolExecutor
from itertools import accumulate, chain
from pathlib import Path
from random import Random

import compact_model
import encoded_events
import encoded_logs
import grouped_events
import listing_model
import json_model
import programs
import results
import row_lines
import samples
from maria_daemon import LeftOut, is_within
from mirrors import Maria, Mirror
from statistics_model import Counts

PROCESSES_AT_A_TIME = 12
# How long a line may take, and how long nothing may come where nothing is wanted, in seconds.
PATIENCE, WAIT = 60, 0.7
# How long it takes a run that waits for its turn to look at a file, in seconds.
LOOK = 2
MODELS = {"list": listing_model, "json": json_model}

ARTIFICIAL = 0x20
STOP = samples.frame(3, b"")
XID = samples.frame(16, (7).to_bytes(8, "little"))


def rotate(name, behind=b"", **header):
    """A ROTATE event that names the next file, with these bytes behind the name."""
    return samples.frame(samples.ROTATE, (4).to_bytes(8, "little") + name + behind, **header)


def sealed(event):
    """An event that ends with its checksum."""
    front = bytearray(event + bytes(samples.CHECKSUM_LENGTH))
    front[9:13] = len(front).to_bytes(4, "little")
    return bytes(front[: -samples.CHECKSUM_LENGTH]) + samples.crc32(bytes(front[: -samples.CHECKSUM_LENGTH]))


def description(algorithm):
    """A format description that states this checksum algorithm."""
    event = encoded_logs.described("", encoded_logs.POST_HEADER_LENGTHS, algorithm=algorithm).event
    return encoded_logs.frame(event, encoded_logs.HEADERS[0], None)[0]


PLAIN, CHECKSUMMED = description(0), description(1)
SEALED_XID = sealed(XID)
BEGIN = samples.frame(samples.QUERY, samples.query_body(b"shop", b"BEGIN"))


def log(*events):
    return encoded_logs.FILE_HEADER + b"".join(events)


def placed(content):
    """A log whose events state where they end; of these, only the description has a checksum."""
    frames, _ = listing_model.split(content[len(encoded_logs.FILE_HEADER) :])
    ends = accumulate(map(len, frames), initial=len(encoded_logs.FILE_HEADER))
    description, *others = (frame[:13] + end.to_bytes(4, "little") + frame[17:] for frame, end in zip(frames, list(ends)[1:]))
    front = description[: -samples.CHECKSUM_LENGTH]
    return log(front + samples.crc32(front), *others)


class Followed:
    """A run of a command that follows a file; its lines come through a queue."""

    def __init__(self, program, folder, *words):
        ends = {"stdout": subprocess.PIPE, "stderr": subprocess.PIPE}
        self.running = subprocess.Popen([program, *words], cwd=folder, **ends)
        self.lines = queue.Queue()
        self.messages = b""
        self.readers = [threading.Thread(target=reader, daemon=True) for reader in (self.read_lines, self.read_messages)]
        for reader in self.readers:
            reader.start()

    def read_lines(self):
        for line in self.running.stdout:
            self.lines.put(line)

    def read_messages(self):
        for line in self.running.stderr:
            self.messages += line

    def next_lines(self, count):
        """As many lines, or as many as come in time."""
        shown = b""
        for _ in range(count):
            try:
                shown += self.lines.get(timeout=PATIENCE)
            except queue.Empty:
                break
        return shown

    def wrong_lines(self, *wanted):
        """None if these lines come next, and then none, else what is wrong."""
        text = b"".join(wanted)
        shown = self.next_lines(text.count(b"\n"))
        if shown != text:
            return f"the lines are {shown[-300:]!r}, not {text[-300:]!r}; messages {self.messages!r}"
        return self.wrong_after_wait()

    def wrong_table(self, wanted, name):
        """None if this table, an empty line behind it, comes in time, behind others and twice in a row."""
        table, before, end = b"", None, time.monotonic() + PATIENCE
        while time.monotonic() < end:
            line = self.next_lines(1)
            if line != b"\n":
                table += line
            elif table == wanted == before:
                return None
            else:
                table, before = b"", table
        return f"{name}: the tables before {table[-300:]!r} aren't {wanted[-300:]!r}; messages {self.messages!r}"

    def wrong_after_wait(self):
        """None if no line comes and the command waits."""
        try:
            return f"one line more: {self.lines.get(timeout=WAIT)!r}"
        except queue.Empty:
            return None if self.running.poll() is None else f"ended with {self.running.returncode}: {self.messages!r}"

    def message(self, pattern, seconds):
        """None if the messages are these within so many seconds."""
        end = time.monotonic() + seconds
        while time.monotonic() < end and re.fullmatch(pattern, self.messages) is None:
            time.sleep(0.05)
        return None if re.fullmatch(pattern, self.messages) else f"the messages are {self.messages!r}, not {pattern!r}"

    def end(self):
        self.running.kill()
        self.running.wait()
        for reader in self.readers:
            reader.join()

    def ended(self, status, pattern):
        """None if the command ends by itself with this status and message."""
        try:
            found = self.running.wait(PATIENCE)
        except subprocess.TimeoutExpired:
            self.end()
            return "it doesn't end"
        for reader in self.readers:
            reader.join()
        if found != status or re.fullmatch(pattern, self.messages) is None:
            return f"status {found}, messages {self.messages!r}"
        return None


def lines_of(content, command="list"):
    return MODELS[command].expected(content)[0]


def followed(program, folder, *words, command="list"):
    return Followed(program, folder, command, "--follow", *words)


# ---- scenes: each is given the program and a folder, and yields what is wrong, or None


def going_on(first, second, program, folder, *, path="log.000001", next_path="log.000002", command="list"):
    """A file, and the next one behind it."""
    (folder / path).write_bytes(first)
    (folder / next_path).write_bytes(second)
    run = followed(program, folder, path, command=command)
    yield run.wrong_lines(lines_of(first, command), lines_of(second, command))
    with open(folder / next_path, "ab") as grown:
        grown.write(XID)
    yield run.wrong_lines(lines_of(second + XID, command)[len(lines_of(second, command)) :])
    run.end()
    yield None if not run.messages else f"messages {run.messages!r}"


def rotations(program, folder):
    for command in MODELS:
        first = log(PLAIN, XID, rotate(b"log.000002"))
        yield from going_on(first, log(PLAIN, XID), program, folder, command=command)


def checksums(program, folder):
    """The four bytes of a checksum aren't of the name, by the description of the file; the algorithm may change."""
    first = log(CHECKSUMMED, SEALED_XID, sealed(rotate(b"log.000002")))
    yield from going_on(first, log(PLAIN, XID), program, folder)
    yield from going_on(log(PLAIN, CHECKSUMMED, PLAIN, rotate(b"log.000002")), log(PLAIN), program, folder)


def prefixes(program, folder):
    """A mirror's prefix stays, and so does the folder; behind another name it is the name in the folder."""
    (folder / "sub").mkdir()
    first = log(PLAIN, rotate(b"log.000002"))
    for path, next_path in (
        ("m-log.000001", "m-log.000002"),
        ("sub/log.000001", "sub/log.000002"),
        ("sub/m-log.000001", "sub/m-log.000002"),
        ("sub/other.000001", "sub/log.000002"),
        ("copy", "log.000002"),
    ):
        yield from going_on(first, log(PLAIN, XID), program, folder, path=path, next_path=next_path)


def stops(program, folder):
    """Behind a STOP the next number comes, with as many digits or more."""
    for path, next_path in (("log.000001", "log.000002"), ("log.0099", "log.0100"), ("log.999", "log.1000"), ("9", "10")):
        yield from going_on(log(PLAIN, XID, STOP), log(PLAIN), program, folder, path=path, next_path=next_path)


def stays(program, folder):
    """An artificial ROTATE, and one with something behind it, end nothing."""
    names = b"log.000002"
    for events in (
        (rotate(names, timestamp=0),),
        (rotate(names, flags=ARTIFICIAL),),
        (rotate(names), XID),
        (STOP, XID),
        (rotate(names), rotate(names)[:20]),
    ):
        (folder / "log.000001").write_bytes(log(PLAIN, *events))
        (folder / "log.000002").write_bytes(log(PLAIN, XID))
        run = followed(program, folder, "log.000001")
        yield run.wrong_lines(lines_of(log(PLAIN, *events)))
        run.end()
        yield None if not run.messages else f"messages {run.messages!r}"


def byte_by_byte(program, folder):
    """Two files that come byte by byte, the second one late."""
    first, second = log(CHECKSUMMED, SEALED_XID, sealed(rotate(b"log.000002"))), log(PLAIN, XID, STOP)
    third = log(PLAIN)
    (folder / "log.000001").touch()
    run = followed(program, folder, "log.000001")
    for name, content in (("log.000001", first), ("log.000002", second), ("log.000003", third)):
        with open(folder / name, "ab", buffering=0) as file:
            for place in range(len(content)):
                file.write(content[place : place + 1])
                time.sleep(0.002)
        yield run.wrong_lines(lines_of(content))
    run.end()
    yield None if not run.messages else f"messages {run.messages!r}"


def cut_at(cut):
    """A ROTATE of which so many bytes are there at first, and the next file already."""

    def scene(program, folder):
        whole = sealed(rotate(b"log.000002"))
        front = log(CHECKSUMMED, SEALED_XID)
        first, second = front + whole, log(PLAIN, XID)
        (folder / "log.000001").write_bytes(front + whole[:cut])
        (folder / "log.000002").write_bytes(second)
        run = followed(program, folder, "log.000001")
        yield run.wrong_lines(lines_of(front))
        with open(folder / "log.000001", "ab") as file:
            file.write(whole[cut:])
        yield run.wrong_lines(lines_of(first)[len(lines_of(front)) :], lines_of(second))
        run.end()
        yield None if not run.messages else f"messages {run.messages!r}"

    return scene


def late(program, folder):
    """A next file that isn't there, or has no file header yet, is waited for, with one message after ten seconds."""
    first, second = log(PLAIN, rotate(b"log.000002")), log(PLAIN, XID)
    (folder / "log.000001").write_bytes(first)
    run = followed(program, folder, "log.000001")
    yield run.wrong_lines(lines_of(first))
    yield None if not run.messages else f"messages {run.messages!r}"
    message = rb"binlog: log\.000002: .*isn't there yet\n"
    yield run.message(message, PATIENCE)
    (folder / "log.000002").write_bytes(second[:3])
    yield run.wrong_after_wait()
    (folder / "log.000002").write_bytes(second[:30])
    yield run.wrong_after_wait()
    (folder / "log.000002").write_bytes(second)
    yield run.wrong_lines(lines_of(second))
    yield run.message(message, 0)
    run.end()


def refused(program, folder):
    """A name that is none of a file in the folder is refused, and that of no later file."""
    invalid = [b"", b".", b"..", b"../log.000002", b"/tmp/log.000002", b"sub/log", b"log\0", b"log\xff.000002"]
    invalid += [b"log\x1b[2J.000002", b"log\n.000002", b"log\x7f.000002", b"a" * 256, b"log." + b"2" * 252]
    earlier = [b"log.000001", b"log.1", b"log.0000001", b"log.000000", b"log.", b"000001", b"1", b"g.000001"]
    for name in invalid + earlier:
        first = log(PLAIN, rotate(name))
        (folder / "log.000001").write_bytes(first)
        run = followed(program, folder, "log.000001")
        yield run.ended(1, rb"binlog: log\.000001: the name of the next file [^\n]*\n")
        lines = lines_of(first)
        yield None if run.next_lines(lines.count(b"\n")) == lines else f"other lines before {name!r}"
    # The prefix counts, too.
    (folder / "m-log.000009").write_bytes(log(PLAIN, rotate(b"log." + b"2" * 250)))
    yield followed(program, folder, "m-log.000009").ended(1, rb"binlog: m-log\.000009: the name of the next file has more than 255 bytes\n")
    short = log(PLAIN, samples.frame(samples.ROTATE, b"1234"))
    (folder / "log.000001").write_bytes(short)
    messages = rb"binlog: log\.000001: event 1 at byte \d+: [^\n]*\nbinlog: log\.000001: the name of the next file is empty\n"
    yield followed(program, folder, "log.000001").ended(2, messages)
    (folder / "log.bin").write_bytes(log(PLAIN, STOP))
    yield followed(program, folder, "log.bin").ended(1, rb"binlog: log\.bin: the name of this file doesn't end with a number\n")


def named_behind(program, folder):
    """A name of later files: by the number, however many digits it has, or of another name."""
    for path, name in (
        ("log.9", "log.10"),
        ("log.000009", "log.10"),
        ("log.999999", "log.1000000"),
        ("log.18446744073709551616", "log.18446744073709551617"),
        ("log.000199", "log.000200"),
        ("log", "log1"),
        ("log.000009", "other.000001"),
        ("log.000001", "log." + "2" * 251),
    ):
        yield from going_on(log(PLAIN, rotate(name.encode())), log(PLAIN, XID), program, folder, path=path, next_path=name)


def damages(program, folder):
    """Damage ends all, with a message that has the file and the place; nothing of its transaction is printed."""
    sizeless = samples.frame(16, b"")[:9] + (5).to_bytes(4, "little") + bytes(6)
    first = log(PLAIN, XID, XID, rotate(b"log.000002"))
    (folder / "log.000001").write_bytes(first)
    for front, damaged, message in (
        (log(PLAIN, XID), sizeless, rb"an event states the size 5"),
        (log(CHECKSUMMED, SEALED_XID), SEALED_XID[:-1] + b"?", rb"the checksum of an event"),
        (log(PLAIN, XID), samples.frame(16, bytes(8), log_pos=4711), rb"an event states that it ends at byte 4711"),
    ):
        (folder / "log.000002").write_bytes(front + damaged + XID)
        run = followed(program, folder, "log.000001")
        yield run.ended(2, rb"binlog: log\.000002: behind byte %d: %s[^\n]*\n" % (len(front), message))
        lines = lines_of(first) + lines_of(front)
        yield None if run.next_lines(lines.count(b"\n")) == lines else f"other lines before {message!r}"
        yield None if run.lines.empty() else f"a line behind {message!r}"


def several(program, folder):
    """Only the last file is followed; the ROTATE of one before it leads nowhere."""
    first, second, third = log(PLAIN, rotate(b"x.000002")), log(PLAIN, rotate(b"log.000002")), log(PLAIN, XID)
    (folder / "x.000001").write_bytes(first)
    (folder / "log.000001").write_bytes(second)
    (folder / "log.000002").write_bytes(third)
    run = followed(program, folder, "x.000001", "log.000001")
    yield run.wrong_lines(lines_of(first), lines_of(second), lines_of(third))
    run.end()
    run = followed(program, folder, "missing", "log.000001")
    yield run.wrong_lines(lines_of(second), lines_of(third))
    run.end()
    yield followed(program, folder, "x.000001", "missing").ended(1, rb"binlog: missing: [^\n]*\n")


def filters(program, folder):
    """Filters go on, also a transaction that began in the file before. Positions are those of the file that is named: the files behind it are
    behind both."""
    first, second = log(PLAIN, XID, rotate(b"log.000002")), log(PLAIN, XID)
    (folder / "log.000001").write_bytes(first)
    (folder / "log.000002").write_bytes(second)
    run = followed(program, folder, "--type", "xid", "log.000001")
    wanted = [line for line in chain(*(lines_of(content).splitlines(True) for content in (first, second))) if b" 16 " in line]
    yield run.wrong_lines(*wanted)
    run.end()
    place = len(log(PLAIN, XID))
    front, back = lines_of(log(PLAIN, XID)), lines_of(first)[len(lines_of(log(PLAIN, XID))) :]
    # The position is behind all bytes of the second file, too, if that is as short as this.
    (folder / "log.000002").write_bytes(log(PLAIN))
    for words, wanted in (("--start-position", [back, lines_of(log(PLAIN))]), ("--stop-position", [front])):
        run = followed(program, folder, words, str(place), "log.000001")
        yield run.wrong_lines(*wanted)
        run.end()
    run = followed(program, folder, "--start-position", str(place), "log.000001", "log.000001")
    yield run.wrong_lines(back, lines_of(first), lines_of(log(PLAIN)))
    run.end()
    run = followed(program, folder, "--stop-position", str(place), "log.000001", "log.000001")
    yield run.wrong_lines(lines_of(first), front)
    run.end()


def compact_rows(program, folder):
    """A line of a row has the name of its file. The start position is one of the file that is named."""
    rows = placed(row_lines.sample()[0])
    contents = {"log.000001": rows + rotate(b"log.000002"), "log.000002": rows + STOP, "log.000003": rows}
    for name, content in contents.items():
        (folder / name).write_bytes(content)
    run = followed(program, folder, "--compact", "log.000001", command="json")
    lines = [compact_model.expected(content, name)[0] for name, content in contents.items()]
    yield run.wrong_lines(*lines)
    run.end()
    yield None if not run.messages else f"messages {run.messages!r}"
    for words, wanted in (("--start-position", lines[1:]), ("--stop-position", lines[:1])):
        run = followed(program, folder, "--compact", words, str(len(rows)), "log.000001", command="json")
        yield run.wrong_lines(*wanted)
        run.end()


def transactions(program, folder):
    """No event of a transaction has a line before the last byte of it is there."""
    front, whole = log(PLAIN, XID), BEGIN + samples.frame(samples.QUERY, samples.query_body(b"shop", b"DELETE")) + XID
    (folder / "log.000001").write_bytes(front)
    run = followed(program, folder, "log.000001")
    yield run.wrong_lines(lines_of(front))
    with open(folder / "log.000001", "ab", buffering=0) as file:
        for place in range(len(whole) - 1):
            file.write(whole[place : place + 1])
            time.sleep(0.02)
        yield run.wrong_after_wait()
        yield run.message(rb"binlog: log\.000001: the rest of a transaction isn't there yet\n", PATIENCE)
        file.write(whole[-1:])
    yield run.wrong_lines(lines_of(front + whole)[len(lines_of(front)) :])
    run.end()


def begun_again(program, folder):
    """A file that is emptied and written again with the same bytes, in place or under its name, gives no line again."""
    front, rest = log(CHECKSUMMED, SEALED_XID), SEALED_XID
    (folder / "log.000001").write_bytes(front)
    run = followed(program, folder, "log.000001")
    yield run.wrong_lines(lines_of(front))
    for count in range(1, 4):
        is_replaced = count == 2
        if is_replaced:
            (folder / "log.000001").unlink()
        with open(folder / "log.000001", "wb", buffering=0) as file:
            for place in range(0, len(front), 31):
                file.write(front[place : place + 31])
                time.sleep(0.03)
            yield run.wrong_after_wait()
            file.write(rest)
        front += rest
        yield run.wrong_lines(lines_of(front)[len(lines_of(front[: -len(rest)])) :])
    yield None if not run.messages else f"messages {run.messages!r}"
    (folder / "log.000001").unlink()
    yield run.message(rb"binlog: log\.000001: the file isn't there\n", PATIENCE)
    (folder / "log.000001").write_bytes(front + rest)
    yield run.wrong_lines(lines_of(front + rest)[len(lines_of(front)) :])
    run.end()


def other_log(program, folder):
    """Another log in the place of one that was read ends all."""
    first, second = log(PLAIN, XID, XID), log(PLAIN, XID, samples.frame(16, (8).to_bytes(8, "little")), XID)
    for is_replaced in (False, True):
        (folder / "log.000001").write_bytes(first)
        run = followed(program, folder, "log.000001")
        yield run.wrong_lines(lines_of(first))
        if is_replaced:
            (folder / "log.000001").unlink()
        else:
            (folder / "log.000001").write_bytes(b"")
            time.sleep(LOOK)
        (folder / "log.000001").write_bytes(second)
        yield run.ended(1, rb"binlog: log\.000001: behind byte %d: the file has another log[^\n]*\n" % len(first))
        yield None if run.lines.empty() else "a line of another log"


def zeros(program, folder):
    """Zeros in the place of an event aren't one yet."""
    front = log(CHECKSUMMED, SEALED_XID)
    for count in (1, 18, 19, 100):
        (folder / "log.000001").write_bytes(front + bytes(count))
        run = followed(program, folder, "log.000001")
        yield run.wrong_lines(lines_of(front))
        with open(folder / "log.000001", "r+b") as file:
            file.seek(len(front))
            file.write(SEALED_XID + bytes(max(0, count - len(SEALED_XID))))
        yield run.wrong_lines(lines_of(front + SEALED_XID)[len(lines_of(front)) :])
        run.end()


# ---- lists of GTIDs, where a file ends with neither a ROTATE nor a STOP


def maria_file(known, *numbers):
    """A file of MariaDB's: a list with the last number of domain 0 and server 7, and transactions with these numbers."""
    transactions = (samples.maria_gtid(0, 7, number, flags=0) + XID for number in numbers)
    return log(samples.maria_start(), samples.maria_gtid_list((0, 7, known)), *transactions)


def mysql_file(known, *numbers, type_number=samples.GTID):
    """A file of MySQL's: a set of the numbers up to this one, and transactions with these; anonymous ones for type 34."""
    before = samples.previous((samples.SOURCE, [(1, known + 1)])) if known else samples.previous()
    transactions = (samples.gtid(number, type_number=type_number) + BEGIN + XID for number in numbers)
    return log(samples.description(samples.MYSQL, algorithm=samples.OFF), before, *transactions)


def crashes(program, folder):
    """A file whose GTIDs are those in the next file's list is whole; what is behind its last transaction has no line, and one message."""
    for first, second, rest in (
        (maria_file(4, 5, 6), maria_file(6, 7), b""),
        (maria_file(4, 5, 6), maria_file(6, 7), samples.maria_gtid(0, 7, 7, flags=0) + BEGIN),
        (maria_file(4), maria_file(4, 5), samples.maria_gtid(0, 7, 5, flags=0)[:20]),
        (mysql_file(3, 4, 5), mysql_file(5, 6), b""),
        (mysql_file(3, 4, 5), mysql_file(5, 6), XID[:20]),
    ):
        (folder / "log.000001").write_bytes(first + rest)
        (folder / "log.000002").write_bytes(second)
        run = followed(program, folder, "log.000001")
        yield run.wrong_lines(lines_of(first), lines_of(second))
        run.end()
        message = rb"binlog: log\.000001: what is behind byte %d is left out[^\n]*\n" % len(first) if rest else b""
        yield run.message(message, 0)


def other_lists(program, folder):
    """A next file whose list has more, or which says nothing, is waited for with a message; a ROTATE leads on, or the transactions."""
    anonymous = {"type_number": samples.ANONYMOUS_GTID}
    differs, unlisted = rb"the GTIDs that are there so far aren't those in the next file's list", rb"the next file is there, but no list"
    for first, second, more, message in (
        (maria_file(4, 5), maria_file(6, 7), samples.maria_gtid(0, 7, 6, flags=0) + XID, differs),
        (mysql_file(3, 4), mysql_file(5, 6), samples.gtid(5) + BEGIN + XID, differs),
        (mysql_file(0, 1, **anonymous), mysql_file(0, 2, **anonymous), rotate(b"log.000002"), unlisted),
        (mysql_file(0), mysql_file(0, 2, **anonymous), rotate(b"log.000002"), unlisted),
        (log(PLAIN, XID), log(PLAIN, XID), STOP, unlisted),
    ):
        (folder / "log.000001").write_bytes(first)
        (folder / "log.000002").write_bytes(second)
        run = followed(program, folder, "log.000001")
        yield run.wrong_lines(lines_of(first))
        yield run.message(rb"binlog: log\.000001: %s[^\n]*\n" % message, PATIENCE)
        with open(folder / "log.000001", "ab") as file:
            file.write(more)
        yield run.wrong_lines(lines_of(first + more)[len(lines_of(first)) :], lines_of(second))
        run.end()


def late_lists(program, folder):
    """A next file without its list yet is none."""
    first, second = maria_file(4, 5), maria_file(5, 6)
    (folder / "log.000001").write_bytes(first)
    run = followed(program, folder, "log.000001")
    yield run.wrong_lines(lines_of(first))
    for count in (2, 60, len(maria_file(5)) - 1):
        (folder / "log.000002").write_bytes(second[:count])
        yield run.wrong_after_wait()
    (folder / "log.000002").write_bytes(second)
    yield run.wrong_lines(lines_of(second))
    run.end()
    yield None if not run.messages else f"messages {run.messages!r}"


# ---- lists of GTIDs, behind a ROTATE or a STOP


def old_files(program, folder):
    """A next file whose list isn't what the file before ends with is an old one of this name: it is waited for, also by the next run."""
    for first, old, second in (
        (maria_file(4, 5, 6) + rotate(b"log.000002"), maria_file(2, 3), maria_file(6, 7)),
        (maria_file(4, 5, 6) + STOP, maria_file(5, 6), maria_file(6)),
        (mysql_file(3, 4, 5) + rotate(b"log.000002"), mysql_file(4, 5), mysql_file(5, 6)),
        (mysql_file(3, 4, 5) + STOP, mysql_file(0), mysql_file(5, 6)),
    ):
        (folder / "state").unlink(missing_ok=True)
        (folder / "log.000001").write_bytes(first)
        (folder / "log.000002").write_bytes(old)
        run = followed(program, folder, "--state", "state", "log.000001")
        yield run.wrong_lines(lines_of(first))
        run.end()
        yield None if b"log.000001" in (folder / "state").read_bytes() else "the state has a file whose list differs"
        run = followed(program, folder, "--state", "state", "log.000001")
        yield run.wrong_after_wait()
        yield run.message(rb"binlog: log\.000002: the next file's list of GTIDs has other ones[^\n]*\n", PATIENCE)
        (folder / "log.000002").write_bytes(second)
        yield run.wrong_lines(lines_of(second))
        run.end()
        yield None if b"log.000002" in (folder / "state").read_bytes() else "the state hasn't the next file"


def new_lists(program, folder):
    """A next file that comes piece by piece is read once it has its list; one without a list at once, where that says nothing."""
    for first, second in (
        (maria_file(4, 5) + rotate(b"log.000002"), maria_file(5, 6)),
        (mysql_file(3, 4) + STOP, mysql_file(4, 5)),
    ):
        (folder / "log.000001").write_bytes(first)
        (folder / "log.000002").unlink(missing_ok=True)
        run = followed(program, folder, "log.000001")
        yield run.wrong_lines(lines_of(first))
        for count in (2, 60, len(listless(second)), len(listless(second)) + 25):
            (folder / "log.000002").write_bytes(second[:count])
            yield run.wrong_after_wait()
        (folder / "log.000002").write_bytes(second)
        yield run.wrong_lines(lines_of(second))
        run.end()
        yield None if not run.messages else f"messages {run.messages!r}"
    for first, second in (
        (maria_file(4, 5) + rotate(b"log.000002"), listless(maria_file(5)) + XID),
        (mysql_file(3, 4) + STOP, log(PLAIN, XID)),
        (mysql_file(0) + STOP, mysql_file(0, 2, type_number=samples.ANONYMOUS_GTID)),
        (mysql_file(3, 4) + samples.gtid(1, type_number=samples.ANONYMOUS_GTID) + XID + STOP, mysql_file(4)),
    ):
        yield from going_on(first, second, program, folder)


def listless(content):
    """The front of a file, up to its description."""
    return log(listing_model.split(content[len(encoded_logs.FILE_HEADER) :])[0][0])


# ---- statistics


def tables(program, folder):
    """`stats --every` prints the counts so far again and again, an empty line behind each; those of the next files, too."""
    rows = placed(row_lines.sample()[0])
    files = {"log.000001": rows + rotate(b"log.000002"), "log.000002": rows + STOP, "log.000003": rows}
    counts = lambda names: functools.reduce(Counts.add_log, (files[name] for name in names), Counts())
    for words, wanted in (
        (("--by", "table"), lambda counts: counts.text(None)),
        (("--by", "table", "--json"), lambda counts: counts.json(None)),
        (("--by", "transaction"), lambda counts: grouped_events.transactions_text(counts.events, None)),
        (("--by", "time=60s", "--json"), lambda counts: grouped_events.intervals_json(counts.events, 60)),
        (("--json",), lambda counts: grouped_events.types_json(counts.events, counts.damaged, counts.damaged_inside)),
    ):
        for name in files:
            (folder / name).unlink(missing_ok=True)
        (folder / "log.000001").touch()
        run = Followed(program, folder, "stats", "--follow", "--every", "1s", *words, "log.000001")
        for place, name in enumerate(files):
            (folder / name).write_bytes(files[name])
            yield run.wrong_table(wanted(counts(list(files)[: place + 1])), name)
        run.end()
        yield None if not run.messages else f"messages {run.messages!r}"


def large_tables(program, folder):
    """The first table has all of a log that is longer than what is read of it at a time, also if the file has the beginning of an event behind
    it, and of the files before it."""
    before, last = log(PLAIN, *[XID] * 5_000, rotate(b"log.000002")), log(PLAIN, *[XID] * 6_000)
    (folder / "log.000001").write_bytes(before)
    (folder / "log.000002").write_bytes(last + XID[:20])
    for names, contents in ((["log.000002"], [last]), (["log.000001"], [before, last])):
        counts = functools.reduce(Counts.add_log, contents, Counts())
        run = Followed(program, folder, "stats", "--follow", "--every", "1h", "--json", *names)
        yield run.wrong_lines(grouped_events.types_json(counts.events, counts.damaged, counts.damaged_inside), b"\n")
        run.end()


def last_table(program, folder):
    """Where a log can't be followed any further its counts are printed, also if the period is long."""
    content = log(CHECKSUMMED, SEALED_XID)
    (folder / "log.000001").write_bytes(content)
    run = Followed(program, folder, "stats", "--follow", "--every", "1h", "--by", "type", "--json", "log.000001")
    wanted = lambda content: (lambda counts: grouped_events.types_json(counts.events, 0, 0))(Counts().add_log(content))
    yield run.wrong_lines(wanted(content), b"\n")
    with open(folder / "log.000001", "ab") as file:
        file.write(SEALED_XID + SEALED_XID[:-1] + b"?")
    yield run.ended(2, rb"binlog: log\.000001: behind byte %d: the checksum of an event[^\n]*\n" % len(content + SEALED_XID))
    last = wanted(content + SEALED_XID) + b"\n"
    yield None if run.next_lines(last.count(b"\n")) == last else "another table at the end"


def wrong_periods(program, folder):
    """Each of `--follow` and `--every` needs the other one, and a file; the period is a length of time."""
    (folder / "log.000001").write_bytes(log(PLAIN))
    for words, message in (
        (("--follow", "log.000001"), rb"stats --follow needs --every"),
        (("--every", "1s", "log.000001"), rb"--every is for --follow[^\n]*"),
        (("--follow", "--every", "1s", "-"), rb"--every is for --follow[^\n]*"),
        (("--follow", "--every", "1s", "log.000001", "-"), rb"--every is for --follow[^\n]*"),
        *((("--follow", f"--every={time}", "log.000001"), rb'--every: "[^\n]*" is no time, as 60s, 5m or 1h') for time in ("", "60", "0s", "-1s", "1d", "4294967296s", "s")),
    ):
        run = Followed(program, folder, "stats", *words)
        yield run.ended(64, rb"binlog: %s\n" % message)
        yield None if run.lines.empty() else f"{words}: lines"


# ---- states


def with_state(program, folder, output, *words, command="json", limit=None):
    """A run with the state file `state`, whose lines are appended to a file. With a limit it is killed where the file would be longer."""
    limited = () if limit is None else ("prlimit", f"--fsize={limit}", "--core=0")
    with open(folder / output, "ab") as lines:
        return subprocess.Popen(
            [*limited, program, command, "--follow", "--state", "state", *words], cwd=folder, stdout=lines, stderr=subprocess.PIPE
        )


def killed_runs(command):
    """Runs that are killed and started again while files grow, rotate and go: each line is in the output once."""

    def scene(program, folder):
        random = Random(7)
        contents = [log(CHECKSUMMED, *[SEALED_XID] * 9, sealed(rotate(b"log.%06d" % (number + 1)))) for number in range(1, 6)]
        names = [f"log.{number:06}" for number in range(1, 6)]
        (folder / names[0]).touch()
        run = with_state(program, folder, "lines", names[0], command=command)
        for name, content in zip(names, contents):
            with open(folder / name, "ab", buffering=0) as file:
                place = 0
                while place < len(content):
                    count = random.randint(1, 200)
                    file.write(content[place : place + count])
                    place += count
                    if random.random() < 0.5:
                        time.sleep(random.random() * 0.15)
                        run.kill()
                        run.wait()
                        if random.random() < 0.5:
                            with open(folder / "lines", "ab") as lines:
                                lines.write(b'{"cut')
                        run = with_state(program, folder, "lines", names[0], command=command)
            if name == names[2]:
                yield None if is_within(PATIENCE, lambda: b"000004" in (folder / "state").read_bytes()) else "no state of the fourth file"
                (folder / names[0]).unlink()
        wanted = b"".join(lines_of(content, command) for content in contents)
        is_written = is_within(PATIENCE, lambda: (folder / "lines").read_bytes() == wanted)
        run.kill()
        yield None if is_written else f"other lines: {(folder / 'lines').read_bytes()[-300:]!r}, {run.stderr.read()!r}"

    return scene


def killed_at_once(program, folder):
    """Runs that are killed while they write their first lines, into one file and then into another one: each line is there once."""
    content = log(PLAIN, *[XID] * 20_000)
    (folder / "log.000001").write_bytes(content)
    wanted = lines_of(content)
    for output in ("lines", "others"):
        for limit in (1_000, 100_000):
            run = with_state(program, folder, output, "log.000001", command="list", limit=limit)
            yield None if run.wait(PATIENCE) == -signal.SIGXFSZ else "it isn't killed"
            yield None if (folder / output).read_bytes() == wanted[:limit] else f"other lines before a kill at {limit} bytes"
        run = with_state(program, folder, output, "log.000001", command="list")
        is_saved = lambda: b"position %d\n" % len(content) in (folder / "state").read_bytes()
        is_written = is_within(PATIENCE, lambda: (folder / output).stat().st_size >= len(wanted) and is_saved())
        time.sleep(WAIT)
        run.kill()
        run.wait()
        yield None if is_written and (folder / output).read_bytes() == wanted else f"other lines in {output}"
        # The other file has the lines from the middle on.
        content = log(PLAIN, *[XID] * 40_000)
        wanted = lines_of(content)[len(wanted) :]
        (folder / "log.000001").write_bytes(content)


def repeated(program, folder):
    """Into a pipe the lines since the last state come again, and none is left out."""
    content = log(PLAIN, *[XID] * 20)
    (folder / "log.000001").write_bytes(content)
    lines = lines_of(content).splitlines(True)
    run = followed(program, folder, "--state", "state", "log.000001")
    yield run.wrong_lines(*lines)
    run.end()
    state = (folder / "state").read_bytes()
    yield None if b"position %d\n" % len(content) in state and b"inode 0\n" in state else f"the state is {state!r}"
    run = followed(program, folder, "--state", "state", "log.000001")
    yield run.wrong_after_wait()
    with open(folder / "log.000001", "ab") as file:
        file.write(XID)
    yield run.wrong_lines(lines_of(content + XID)[len(b"".join(lines)) :])
    run.end()


def states_and_positions(program, folder):
    """A run that goes on in the next file takes all of its positions."""
    front, second = log(PLAIN, XID), log(PLAIN)
    first = front + rotate(b"log.000002")
    (folder / "log.000001").write_bytes(first)
    (folder / "log.000002").write_bytes(second)
    words = ("--state", "state", "--start-position", str(len(front)), "log.000001")
    run = followed(program, folder, *words)
    yield run.wrong_lines(lines_of(first)[len(lines_of(front)) :], lines_of(second))
    run.end()
    (folder / "log.000002").write_bytes(second + XID)
    run = followed(program, folder, *words)
    yield run.wrong_lines(lines_of(second + XID)[len(lines_of(second)) :])
    run.end()


def states(program, folder):
    """A state that can't be read, that of another log, and a second run with the same one, are refused; nothing is changed then."""
    content = log(PLAIN, XID)
    (folder / "log.000001").write_bytes(content)
    run = followed(program, folder, "--state", "state", "log.000001")
    yield run.wrong_lines(lines_of(content))
    yield followed(program, folder, "--state", "state", "log.000001").ended(3, rb"binlog: state: another process [^\n]*\n")
    run.end()
    good = (folder / "state").read_bytes()
    for bad in (b"", b"x", good[:-1], good.replace(b"position ", b"position 0"), good.replace(b" 1\n", b" 2\n", 1), bytes(2000)):
        (folder / "state").write_bytes(bad)
        yield followed(program, folder, "--state", "state", "log.000001").ended(3, rb"binlog: state: it isn't a state of this program\n")
        yield None if (folder / "state").read_bytes() == bad else "the state is changed"
    (folder / "state").write_bytes(good)
    (folder / "log.000001").write_bytes(log(PLAIN, samples.frame(16, bytes(8))))
    yield followed(program, folder, "--state", "state", "log.000001").ended(1, rb"binlog: log\.000001: behind byte 0: the file has another log[^\n]*\n")
    yield None if (folder / "state").read_bytes() == good else "the state of another log is changed"
    for words in (("--state", "state", "log.000001", "log.000001"), ("--state", "state", "-")):
        yield followed(program, folder, *words).ended(64, rb"binlog: --state is [^\n]*\n")
    yield Followed(program, folder, "list", "--state", "state", "log.000001").ended(64, rb"binlog: --state is [^\n]*\n")


def early_starts(program, folder):
    """With a state a log that isn't there is waited for, with one message after ten seconds; without one it is refused."""
    yield followed(program, folder, "log.000001").ended(1, rb"binlog: log\.000001: [^\n]*\n")
    run = followed(program, folder, "--state", "state", "log.000001")
    yield run.wrong_after_wait()
    yield run.message(rb"binlog: log\.000001: [^\n]*isn't there yet\n", PATIENCE)
    content = log(PLAIN, XID)
    (folder / "log.000001").write_bytes(content)
    yield run.wrong_lines(lines_of(content))
    run.end()


def unwritten_states(program, folder):
    """Where the state can't be written no line is, and the status is 3."""
    (folder / "log.000001").write_bytes(log(PLAIN, XID))
    (folder / "state.new").mkdir()
    run = followed(program, folder, "--state", "state", "log.000001")
    yield run.ended(3, rb"binlog: the state can't be written: [^\n]*\n(binlog: [^\n]*\n)?")
    yield None if run.lines.empty() else "a line without a state"
    yield None if not (folder / "state").exists() else "there is a state"


def short_outputs(program, folder):
    """Output that is shorter than the state says has the lines behind the state alone, and there is a message."""
    content = log(PLAIN, XID)
    (folder / "log.000001").write_bytes(content)
    state = folder / "state"
    with_lines = lambda wanted: is_within(PATIENCE, lambda: (folder / "lines").read_bytes() == wanted)
    run = with_state(program, folder, "lines", "log.000001", command="list")
    is_saved = lambda: state.exists() and b"position %d\n" % len(content) in state.read_bytes()
    yield None if with_lines(lines_of(content)) and is_within(PATIENCE, is_saved) else "no lines, or no state behind them"
    yield said_at_end(run, b"")
    (folder / "lines").write_bytes(b"")
    (folder / "log.000001").write_bytes(content + XID)
    run = with_state(program, folder, "lines", "log.000001", command="list")
    yield None if with_lines(lines_of(content + XID)[len(lines_of(content)) :]) else f"the lines are {(folder / 'lines').read_bytes()!r}"
    lost = len(lines_of(content))
    yield said_at_end(run, b"binlog: standard output has %d bytes less than when the state was written, and they don't come again\n" % lost)


def said_at_end(run, wanted):
    """None if these are the messages of a run, which is killed."""
    run.kill()
    _, messages = run.communicate()
    return None if messages == wanted else f"the messages are {messages!r}"


# ---- a mirror of a server's log

ROTATIONS = 6
LOAD = b"insert into t (name) select repeat('x', 300) from three; update t set name = 'y' where id % 7 = 0;\n"


def mirrored(program, folder):
    """The lines of a mirror's files, in order, while the server rotates under load."""
    kind = Maria(folder)
    with kind.server(folder / "server") as server:
        server.run(b"create database shop; create table shop.t (id int auto_increment primary key, name text);")
        server.run(b"create view shop.three as select 1 union all select 2 union all select 3;")
        with Mirror(kind, server, folder / "mirror") as mirror:
            yield None if mirror.has_begun() else "no mirror"
            runs = {command: followed(program, mirror.folder, server.logs()[0].name, command=command) for command in MODELS}
            sessions = [server.start(b"use shop;\n" + LOAD * 20) for _ in range(3)]
            for number in range(ROTATIONS):
                algorithm = b"NONE" if number % 2 else b"CRC32"
                server.run(b"flush binary logs; set global binlog_checksum = %s;" % algorithm)
                time.sleep(0.3)
            for session in sessions:
                server.finish(session)
            yield None if mirror.is_whole() else "the mirror's files aren't the server's"
            # The server writes BINLOG_CHECKPOINT events behind others.
            server.stop()
            mirror.running.wait()
            contents = [log.read_bytes() for log in mirror.logs()]
            yield None if len(contents) > ROTATIONS else f"only {len(contents)} files"
            for command, run in runs.items():
                yield run.wrong_lines(*(lines_of(content, command) for content in contents))
                run.end()
                yield None if not run.messages else f"{command}: messages {run.messages!r}"


SCENES = [mirrored, late, byte_by_byte, rotations, checksums, prefixes, stops, stays, refused, named_behind, damages, several, filters, compact_rows]
SCENES += [crashes, other_lists, late_lists, old_files, new_lists, tables, large_tables, last_table, wrong_periods, transactions, begun_again, other_log, zeros, killed_runs("list"), killed_runs("json"), killed_at_once, repeated, states_and_positions, states, early_starts, unwritten_states, short_outputs]
SCENES += [cut_at(cut) for cut in range(len(sealed(rotate(b"log.000002"))))]


def results_of(program, scene):
    with tempfile.TemporaryDirectory() as folder:
        try:
            return [wrong and f"{scene.__name__}: {wrong}" for wrong in scene(program, Path(folder))]
        except LeftOut as reason:
            print(f"{reason}: no mirror is followed")
            return []


def main():
    parser = argparse.ArgumentParser(description="Follows logs from file to file.")
    programs.add_flags(parser)
    build = programs.parsed(parser, "binlog").build
    (program,) = build.command("binlog")
    with ThreadPoolExecutor(PROCESSES_AT_A_TIME) as pool:
        return results.report(chain.from_iterable(pool.map(lambda scene: results_of(program, scene), SCENES)))


if __name__ == "__main__":
    sys.exit(main())
