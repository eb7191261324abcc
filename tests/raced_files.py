#!/usr/bin/env python3
"""Follows files that are cut, rotated, removed, made again and preallocated at the worst moments, with kills in between: each line of a
whole transaction is printed once.

Usage: raced_files.py [--every N] FLAG

FLAG is one of `programs.py`: it says which `binlog` is run. The files have transactions of rows as MySQL and as MariaDB write them, with
checksums, and are written by hand. A transaction and the ROTATE behind it are cut at each byte, or at one in N, and the run is killed there;
its files are removed, renamed, emptied and written again, with the same bytes and with other ones, while it runs and while it doesn't. The lines
are those of the model. The last line is `N passed, M failed`; the exit status is 1 if something failed.
"""

import argparse
import os
import sys
import tempfile
import time
from concurrent.futures import ThreadPoolExecutor
from functools import partial
from itertools import chain
from pathlib import Path

import compact_model
import encoded_events as encode
import programs
import recipes
import results
import samples
from follower import Follower
from recipes import CUSTOMERS, ORDERS, changes
from row_lines import DELETE, UPDATE, WRITE

FIRST, SECOND = "log.000001", "log.000002"
# How long nothing may come where nothing is wanted, and between two pieces of a file, in seconds.
WAIT, PIECE = 0.3, 0.005
PROCESSES_AT_A_TIME = 12
BYTES_BETWEEN_CUTS, BYTES_BETWEEN_KILLS = 11, 17
# A fault ends the program if it is still there behind this time.
SECONDS_OF_DOUBT = 1
OTHER_LOG = rb"binlog: log\.000001: behind byte 0: the file has another log[^\n]*\n"


# ---- logs


class MysqlLog(recipes.Log):
    """A log as MySQL writes it."""

    name = "MySQL"


class MariaLog(recipes.Log):
    """A log as MariaDB writes it."""

    name = "MariaDB"

    def __init__(self, time, last):
        self.content, self.time = samples.FILE_HEADER, time
        lengths = samples.POST_HEADER_LENGTHS
        self.add(encode.format_description(server_version="10.11.6-MariaDB", lengths=lengths, algorithm=1), b"\1")
        self.add((samples.MARIA_GTID_LIST, samples.list_body((0, recipes.SERVER_ID, last))))

    def transaction(self, time, number, events):
        self.time = time
        self.add((samples.MARIA_GTID, samples.maria_gtid_body(0, number, flags=0)))
        for event in events:
            self.add(event)
        self.add(encode.xid(value=number))


class Files:
    """A log of two files. Its first transaction ends at the byte `front` of the first file, the second one at `next`, before the ROTATE."""

    def __init__(self, made, text):
        self.name = made.name
        first = made("26 21:58:00", 40)
        first.transaction("26 21:59:30", 41, changes(ORDERS, WRITE, (1, text), (2, b"tea")))
        self.front = len(first.content)
        first.transaction("26 22:00:10", 42, changes(ORDERS, UPDATE, (2, b"tea"), (2, text)) + changes(CUSTOMERS, WRITE, (7, b"Ada")))
        self.next = len(first.content)
        first.add(encode.rotate(position=4, name=SECOND))
        second = made("26 22:05:01", 42)
        second.transaction("27 03:12:09", 43, changes(ORDERS, DELETE, (2, text)))
        self.first, self.second = first.content, second.content

    def whole(self, cut):
        """Up to where there are whole transactions, of so many bytes behind the first one."""
        return self.front if cut < self.next else self.next

    def lines(self, length=None):
        """The lines of the first file up to this length, or of both files."""
        lines, _ = compact_model.expected(self.first[:length], FIRST)
        return lines if length else lines + compact_model.expected(self.second, SECOND)[0]


# ---- scenes: each is given a log and a follower, whose folder of log files is empty, and yields what is wrong, or None


def written(path, content, mode="wb"):
    with open(path, mode, buffering=0) as file:
        file.write(content)


def write_front(files, follower, length=None):
    """Writes the first file, up to this length."""
    written(follower.logs / FIRST, files.first[:length])


def write_rest(files, follower, length):
    """Writes the rest of the first file behind this length, and the second file."""
    written(follower.logs / FIRST, files.first[length:], "ab")
    written(follower.logs / SECOND, files.second)


def cut_at(files, cut, follower):
    """The first file is cut at this byte, the second one is there. The run is killed, and begun again when the file is whole."""
    write_front(files, follower, cut)
    written(follower.logs / SECOND, files.second)
    with follower.run(FIRST):
        yield follower.wrong_place(FIRST, files.whole(cut))
        yield follower.wrong_lines(files.lines(files.whole(cut))) or follower.wrong_end()
    write_rest(files, follower, cut)
    with follower.run():
        yield follower.wrong_lines(files.lines()) or follower.wrong_end()


def made_again_to(files, cut, follower):
    """While no run is there the first file is made again, up to this byte. Then it becomes whole."""
    write_front(files, follower, files.front)
    with follower.run(FIRST):
        yield follower.wrong_place(FIRST, files.front)
    (follower.logs / FIRST).unlink()
    write_front(files, follower, cut)
    with follower.run():
        yield wrong_after_wait(follower, files.lines(min(max(cut, files.front), files.next)))
        write_rest(files, follower, cut)
        yield follower.wrong_lines(files.lines()) or follower.wrong_end()


def wrong_after_wait(follower, wanted):
    """None if no lines come but these, of which the last ones may be missing yet."""
    time.sleep(WAIT)
    found = follower.lines.read_bytes()
    return None if wanted.startswith(found) else f"lines that aren't wanted: {found[-300:]!r}"


def byte_by_byte(files, follower):
    """Both files come byte by byte; the run is killed now and then."""
    (follower.logs / FIRST).touch()
    follower.begin(FIRST)
    for name, content in ((FIRST, files.first), (SECOND, files.second)):
        with open(follower.logs / name, "ab", buffering=0) as file:
            for place in range(len(content)):
                file.write(content[place : place + 1])
                time.sleep(PIECE)
                if place % BYTES_BETWEEN_KILLS == 0:
                    follower.kill()
                    follower.begin()
    yield follower.wrong_lines(files.lines())
    yield wrong_after_wait(follower, files.lines())
    follower.kill()
    yield from (None, *follower.wrong_ends)


def removed(files, follower):
    """A file is removed as soon as its ROTATE is there: the rest of it is read."""
    write_front(files, follower, files.front)
    with follower.run(FIRST):
        yield follower.wrong_place(FIRST, files.front)
        write_rest(files, follower, files.front)
        (follower.logs / FIRST).unlink()
        yield follower.wrong_lines(files.lines()) or follower.wrong_end()


def renamed(files, follower):
    """Another file with the same bytes and more gets the name, in one step or behind a moment in which there is none."""
    write_front(files, follower, files.front)
    with follower.run(FIRST):
        yield follower.wrong_place(FIRST, files.front)
        written(follower.logs / "draft", files.first[: files.next])
        os.rename(follower.logs / "draft", follower.logs / FIRST)
        yield follower.wrong_lines(files.lines(files.next))
        os.rename(follower.logs / FIRST, follower.logs / "old")
        write_rest(files, follower, 0)
        yield follower.wrong_lines(files.lines()) or follower.wrong_end()


def removed_behind(files, follower):
    """Between two runs the first file is removed, behind its ROTATE: the state has the second one, which isn't there yet."""
    write_front(files, follower)
    with follower.run(FIRST):
        yield follower.wrong_place(SECOND, 0)
    (follower.logs / FIRST).unlink()
    with follower.run():
        yield wrong_after_wait(follower, files.lines(files.next))
        written(follower.logs / SECOND, files.second[:3])
        yield wrong_after_wait(follower, files.lines(files.next))
        written(follower.logs / SECOND, files.second[3:], "ab")
        yield follower.wrong_lines(files.lines()) or follower.wrong_end()


def made_again_at_once(files, follower):
    """A file is emptied and has more bytes than before at once, perhaps without a look at which it is shorter."""
    write_front(files, follower, files.front)
    with follower.run(FIRST):
        yield follower.wrong_place(FIRST, files.front)
        write_front(files, follower, files.next)
        yield follower.wrong_lines(files.lines(files.next))
        write_front(files, follower)
        written(follower.logs / SECOND, files.second)
        yield follower.wrong_lines(files.lines()) or follower.wrong_end()


def another_between(files, other, follower):
    """Between two runs another log comes in the place of the file, whose events have the same places."""
    write_front(files, follower, files.front)
    with follower.run(FIRST):
        yield follower.wrong_place(FIRST, files.front)
    state = follower.state().read_bytes()
    write_front(other, follower)
    with follower.run():
        yield follower.stopped(1, OTHER_LOG)
    yield follower.wrong_lines(files.lines(files.front))
    yield None if follower.state().read_bytes() == state else "the state is changed"


def another_at_once(files, other, follower):
    """A file is emptied and has more bytes than before at once, of another log whose events have the same places."""
    write_front(files, follower, files.front)
    with follower.run(FIRST):
        yield follower.wrong_place(FIRST, files.front)
        state = follower.state().read_bytes()
        write_front(other, follower)
        yield follower.stopped(1, OTHER_LOG.replace(b"byte 0", b"byte %d" % files.front))
    yield follower.wrong_lines(files.lines(files.front))
    yield None if follower.state().read_bytes() == state else "the state is changed"


def preallocated(files, follower):
    """A file has zeros behind its end, in which its events are written; at last the zeros behind it go."""
    written(follower.logs / FIRST, files.first[: files.front] + bytes(len(files.first)))
    with follower.run(FIRST):
        yield follower.wrong_place(FIRST, files.front)
        with open(follower.logs / FIRST, "r+b", buffering=0) as file:
            file.seek(files.front)
            for event in events_from(files.first, files.front):
                file.write(event)
                time.sleep(PIECE * 10)
            file.truncate()
        written(follower.logs / SECOND, files.second)
        yield follower.wrong_lines(files.lines()) or follower.wrong_end()


def late_bytes(files, cut, follower):
    """Zeros are behind this byte, up to the end of the file, for a moment: where two mirrors write one file, bytes may come before those in
    front of them. Damage that is there for a second ends the run; then it goes on by its state."""
    written(follower.logs / FIRST, files.first[:cut] + bytes(len(files.first) - cut))
    written(follower.logs / SECOND, files.second)
    begin = time.monotonic()
    with follower.run(FIRST):
        yield follower.wrong_place(FIRST, files.whole(cut))
        with open(follower.logs / FIRST, "r+b", buffering=0) as file:
            file.seek(cut)
            file.write(files.first[cut:])
        is_late = time.monotonic() - begin > SECONDS_OF_DOUBT
        wrong = follower.wrong_lines(files.lines())
        if not (wrong and is_late):
            yield wrong or follower.wrong_end()
            return
    with follower.run():
        yield follower.wrong_lines(files.lines()) or follower.wrong_end()


def events_from(content, place):
    while place < len(content):
        event = content[place : place + int.from_bytes(content[place + 9 : place + 13], "little")]
        yield event
        place += len(event)


def scenes(files, other, step):
    for scene in (byte_by_byte, removed, renamed, removed_behind, made_again_at_once, preallocated):
        yield named(scene, files)
    for scene in (another_between, another_at_once):
        yield named(scene, files, other)
    for cut in range(files.front, len(files.first), step):
        yield named(cut_at, files, cut)
    for cut in range(files.front, len(files.first), BYTES_BETWEEN_CUTS * step):
        yield named(late_bytes, files, cut)
    for cut in (0, 3, 4, 5, 100, files.front - 1, files.front, files.front + 1, files.next):
        yield named(made_again_to, files, cut)


def named(scene, files, behind=None):
    made = partial(scene, files) if behind is None else partial(scene, files, behind)
    made.__name__ = f"{scene.__name__} of {files.name}" + (f" {behind}" if isinstance(behind, int) else "")
    return made


def all_scenes(step):
    for made in (MysqlLog, MariaLog):
        # The events of both logs have the same places.
        yield from scenes(Files(made, b"cocoa"), Files(made, b"spice"), step)


def results_of(program, scene):
    """For each test of a scene, None or what is wrong."""
    with tempfile.TemporaryDirectory() as name, Follower(program, Path(name), Path(name) / "runs") as follower:
        return [wrong and f"{scene.__name__}: {wrong}" for wrong in scene(follower)]


def main():
    parser = argparse.ArgumentParser(description="Follows files that are cut, removed and made again.")
    programs.add_flags(parser)
    parser.add_argument("--every", type=int, default=1, metavar="N", help="one cut in so many")
    arguments = programs.parsed(parser, "binlog")
    (program,) = arguments.build.command("binlog")
    with ThreadPoolExecutor(PROCESSES_AT_A_TIME) as pool:
        return results.report(chain.from_iterable(pool.map(partial(results_of, program), all_scenes(arguments.every))))


if __name__ == "__main__":
    sys.exit(main())
