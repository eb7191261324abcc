#!/usr/bin/env python3
"""Follows the logs of servers under load, behind mirrors: what is built of the lines is what the servers have.

Usage: live_servers.py [--seed N] [--rounds N] FLAG

FLAG is one of `programs.py`. A server, of MariaDB and of MySQL, has a random load: two clients with transactions that are committed or rolled
back, and with definitions of tables. Its log rotates by its size and by FLUSH BINARY LOGS. A mirror writes the log's files into a
folder, and `binlog json --compact --follow --state` follows them into one file of lines. Both are killed at random moments and begun again; the
server is shut down, and killed, and started again. N rounds of load (1 if not given) are in front of each of these and behind them. Then a
test each: that it goes on behind the kill of the server; that the mirror's files are the server's; that the lines are those of the model,
each once; that each row that is changed or deleted is the one that was there; that each table has the rows that the server selects; and that
nothing was said but what was waited for.

Then a mirror on a small file system has no room for some events, and has it again for later ones: `binlog` ends with status 2 and
the place in front of the missing bytes, and has printed what is in front of it; with the mirror begun again it goes on. Where no file system can be
mounted, a line says so.

Where there is no server (`maria_daemon.py` and `mysql_daemon.py` say where they come from) a line says so. An exception ends the tests of its
server, and is a failed one. The last line is `N passed, M failed`; the exit status is 1 if something failed.
"""

import argparse
import json
import random
import re
import shutil
import subprocess
import sys
import tempfile
import time
from concurrent.futures import ThreadPoolExecutor
from contextlib import contextmanager
from functools import cache
from itertools import chain
from pathlib import Path

import compact_model
import listing_model
import programs
import results
from follower import PATIENCE, WAITING, Follower
from maria_daemon import LeftOut, is_within
from mirrors import Maria, Mirror, Mysql, bytes_of

OPTIONS = ["--binlog-row-metadata=FULL", "--max-binlog-size=65536", "--lock-wait-timeout=100"]
TRANSACTIONS_OF_A_ROUND = 80


# ---- the load

TABLES = ("orders", "items")
COLUMNS = "id int primary key, amount bigint, name varchar(60), price decimal(12,3), at datetime(3), note mediumtext"
NAMES = ("'caf\u00e9'", "'\U0001f600'", "'a\\\\b\"c'", "''", "null", "'two\\nlines'")
SCHEMA = f"""
create database shop character set utf8mb4;
use shop;
{"".join(f"create table {table} ({COLUMNS});" for table in TABLES)}
"""


# How long the load waits for locks. What a server does by itself, and what else it is asked for, waits longer.
WAITS_FOR_LOCKS = "set innodb_lock_wait_timeout = 1, lock_wait_timeout = 2;"


class Client:
    """A client's statements. Its ids and the tables that it makes are its own; the tables of all, and their rows, aren't."""

    def __init__(self, chance, number):
        self.chance, self.number = chance, number
        self.ids, self.names, self.made, self.columns = number * 1_000_000, 0, [], []

    def statements(self, count):
        """As many transactions, statements alone, or definitions."""
        ways = [self.transaction] * 6 + [self.change] * 3 + [self.definition]
        parts = (f"{self.chance.choice(ways)()}\ndo sleep({self.chance.random() * 0.03:.3f});" for _ in range(count))
        return "\n".join((WAITS_FOR_LOCKS, "use shop;", *parts, "")).encode()

    def transaction(self):
        changes = " ".join(self.change() for _ in range(self.chance.randint(1, 4)))
        return f"begin; {changes} {self.chance.choice(('commit', 'commit', 'rollback'))};"

    def change(self):
        table, way = self.chance.choice((*TABLES, *TABLES, *self.made)), self.chance.random()
        if way < 0.5:
            rows = ", ".join(self.row() for _ in range(self.chance.randint(1, 3)))
            return f"insert into {table} (id, amount, name, price, at, note) values {rows};"
        where = f"where id % {self.chance.randint(5, 9)} = 0 order by id limit {self.chance.randint(1, 4)}"
        if way < 0.85:
            return f"update {table} set name = {self.chance.choice(NAMES)}, amount = {self.amount()} {where};"
        return f"delete from {table} {where};"

    def row(self):
        self.ids += 1
        price = self.chance.randrange(-(10**11), 10**11) / 1000
        at = f"2026-11-{self.chance.randint(1, 28):02} 01:02:03.{self.chance.randrange(1000):03}"
        # Some events are longer than the mirror's buffer.
        note = f"repeat('x', {self.chance.choice((0, 1, 10, 10, 30, 100, 300, 6000))})"
        return f"({self.ids}, {self.amount()}, {self.chance.choice(NAMES)}, {price:.3f}, '{at}', {note})"

    def amount(self):
        return self.chance.choice(("null", str(self.chance.randrange(-(2**63), 2**63))))

    def definition(self):
        self.names += 1
        way, name = self.chance.random(), f"{self.number}_{self.names}"
        if way < 0.4:
            self.made.append(f"made_{name}")
            return f"create table made_{name} ({COLUMNS}); insert into made_{name} (id, name) values (1, 'first');"
        if way < 0.6 and self.made:
            return f"drop table {self.made.pop(self.chance.randrange(len(self.made)))};"
        table = self.chance.choice(TABLES)
        if way < 0.8 and self.columns:
            return self.columns.pop()
        self.columns.append(f"alter table {table} drop column more_{name};")
        return f"alter table {table} add column more_{name} varchar(20); update {table} set more_{name} = 'more' where id % 3 = 0 limit 3;"


# ---- what is followed

# A GTID of MySQL's, with and without a tag, none, and one of MariaDB's.
BEGINNINGS = (33, 42, 34, 162)
QUERY, XID = 2, 16


def whole_length(content):
    """The length of a log up to the end of its last whole transaction, or of an event that is in none."""
    frames, _ = listing_model.split(content[len(listing_model.FILE_HEADER) :])
    end = place = len(listing_model.FILE_HEADER)
    is_open = False
    for frame in frames:
        place += len(frame)
        kind = listing_model.type_number(frame)
        is_open = kind in BEGINNINGS or (is_open and not ends_transaction(kind, frame))
        end = end if is_open else place
    return end


def has_transactions(log):
    """Whether a file has a whole transaction."""
    content = log.read_bytes()
    frames, _ = listing_model.split(content[len(listing_model.FILE_HEADER) : whole_length(content)])
    return any(listing_model.type_number(frame) in BEGINNINGS for frame in frames)


def ends_transaction(kind, frame):
    """Whether an event is the last one of the load's transactions: a definition, or an XID."""
    return kind == XID or (kind == QUERY and b"\0BEGIN" not in frame)


@cache
def lines_of(name, content):
    """The lines of the whole transactions of a file of this name and content."""
    return compact_model.expected(content[: whole_length(content)], name)[0]


def lines_of_all(logs):
    return b"".join(lines_of(log.name, log.read_bytes()) for log in logs)


# ---- what the server has


class Tables:
    """The rows of tables by their ids, as the lines up to here leave them."""

    def __init__(self):
        self.rows = {}

    def apply(self, line):
        """None, or how the row isn't the one that was there."""
        if "op" not in line:
            return f"no line of a row: {line}"
        rows, before, after = self.rows.setdefault(line["table"], {}), line.get("before"), line.get("after")
        was = rows.pop(before["id"], None) if before else None
        is_right = before is None or (was is not None and all(was.get(name) == value for name, value in before.items()))
        if after:
            is_right = is_right and after["id"] not in rows
            rows[after["id"]] = after
        return None if is_right else f"{line} finds {was}"


def selected(kind, server, query):
    finished = subprocess.run(kind.client(server), input=query.encode(), stdout=subprocess.PIPE, check=True)
    return [line.split("\t") for line in finished.stdout.decode().splitlines()]


def table_failures(kind, server, tables):
    """For each table of the server, None or how the rows of the lines are other ones."""
    columns = {}
    query = "select table_name, column_name from information_schema.columns where table_schema = 'shop' order by 1, ordinal_position"
    for table, column in selected(kind, server, query):
        columns.setdefault(table, []).append(column)
    for table, names in columns.items():
        texts = ", ".join(f"ifnull(concat('=', hex(cast({name} as char character set utf8mb4))), '-')" for name in names)
        rows = selected(kind, server, f"select {texts} from shop.{table}")
        wanted = {row[0]: row for row in rows}
        found = {row[0]: row for row in ([digits(was.get(name)) for name in names] for was in tables.rows.get(table, {}).values())}
        yield None if found == wanted else f"{table}: {len(found)} rows {one_of(found, wanted)}, and the server has {len(wanted)} {one_of(wanted, found)}"
    yield None if len(columns) >= len(TABLES) else f"only the tables {list(columns)}"


def digits(value):
    return "-" if value is None else "=" + str(value).encode().hex().upper()


def one_of(some, others):
    return next((row for key, row in some.items() if others.get(key) != row), None)


# ---- a server, its mirror and what follows it


class Scene:
    """A server under load, a mirror, and a follower of the mirror's files."""

    def __init__(self, kind, server, mirror, follower, chance):
        self.kind, self.server, self.mirror, self.follower, self.chance = kind, server, mirror, follower, chance
        self.clients = [Client(random.Random(chance.random()), number) for number in (1, 2)]

    @contextmanager
    def load(self, count=TRANSACTIONS_OF_A_ROUND):
        """Two clients that run statements; they are ended at the end of the `with`."""
        sessions = []
        for client in self.clients:
            with tempfile.TemporaryFile() as statements:
                statements.write(client.statements(count))
                statements.seek(0)
                how = {"stdin": statements, "stdout": subprocess.DEVNULL, "stderr": subprocess.DEVNULL}
                sessions.append(subprocess.Popen(self.kind.client(self.server), **how))
        try:
            yield sessions
        finally:
            for session in sessions:
                session.kill()
                session.wait()

    def disturbed_rounds(self, rounds):
        """Load, while the mirror and the follower are killed and begun again, and the log is rotated."""
        for _ in range(rounds):
            with self.load() as sessions:
                while any(session.poll() is None for session in sessions):
                    time.sleep(self.chance.uniform(0.02, 0.3))
                    self.disturb()

    def disturb(self):
        self.mirror.keep()
        way = self.chance.random()
        if way < 0.5:
            self.follower.kill()
            self.follower.begin()
        elif way < 0.6:
            self.mirror.kill()
            self.mirror.begin()
        elif way < 0.75:
            rotates(self.server)

    def wrong_lines(self):
        """None if the follower comes to have all lines of the server's files."""
        if not self.mirror.is_whole():
            return "the mirror's files aren't the server's"
        return self.follower.wrong_lines(lines_of_all(self.mirror.sources()))

    def shut_down(self):
        self.server.stop()
        self.server.restart()

    def crash(self):
        """Kills the server under load, and starts it again. Its last file then ends with neither a ROTATE nor a STOP. None if it is gone on
        behind it, else what is wrong."""
        with self.load():
            time.sleep(self.chance.uniform(0.3, 0.8))
            self.server.kill()
        self.server.restart()
        # The server begins one file. A file that it had begun when it was killed, and not put into its index, it removes first, and gives
        # the name again.
        *before, begun = self.mirror.sources()
        if not self.mirror.is_whole():
            return "the mirror's files aren't the server's behind a crash"
        if self.kind.tells_of_none or has_transactions(before[-1]):
            is_over = lambda: self.follower.is_behind(before[-1].name) or self.follower.wrong_end() is not None
            goes_on = is_within(PATIENCE, is_over) and self.follower.wrong_end() is None
            return None if goes_on else f"it doesn't go on behind a crash: {self.follower.said()[-300:]!r}"
        return self.begin_with(begun, before)

    def begin_with(self, log, before):
        """Begins with the file behind others, of the last of which no list tells that it is whole. None if these were read, else what is
        wrong."""
        wrong = self.follower.wrong_lines(lines_of_all(before))
        self.follower.kill()
        self.follower.begin(log.name)
        return wrong


def rotates(server):
    """Asks for a new file of the log. Whether the server begins one: it may refuse to."""
    how = {"stdout": subprocess.DEVNULL, "stderr": subprocess.DEVNULL}
    return subprocess.run(server.client(), input=b"flush binary logs;", **how).returncode == 0


def followed(program, kind, folder, seed, rounds):
    """For each test of a server, None or what is wrong."""
    chance = random.Random(f"{kind.name} {seed}")
    with kind.server(folder / "server", *OPTIONS) as server:
        server.run(SCHEMA.encode())
        with Mirror(kind, server, folder / "mirror") as mirror, Follower(program, mirror.folder, folder / "followed") as follower:
            scene = Scene(kind, server, mirror, follower, chance)
            yield None if mirror.has_begun() else "no mirror"
            follower.begin(mirror.first)
            yield from load_failures(scene, rounds)
            yield from (None, *follower.wrong_ends)
            yield None if re.fullmatch(WAITING, follower.said()) else f"it said {follower.said()[-500:]!r}"
        try:
            with small_disk(folder / "disk") as disk:
                yield from full_disk_failures(program, kind, server, folder, disk)
        except LeftOut as reason:
            print(f"{reason}: no full one is followed")


def load_failures(scene, rounds):
    scene.disturbed_rounds(rounds)
    scene.shut_down()
    scene.disturbed_rounds(rounds)
    yield scene.crash()
    scene.disturbed_rounds(rounds)
    wrong = scene.wrong_lines()
    yield wrong
    # Of other lines nothing is built.
    if wrong is None:
        yield from row_failures(scene)


def row_failures(scene):
    """For each line, None or how its row isn't the one that was there; then for each table of the server, how its rows are other ones."""
    tables = Tables()
    for line in map(json.loads, scene.follower.lines.read_bytes().splitlines()):
        yield tables.apply(line)
    yield from table_failures(scene.kind, scene.server, tables)


# ---- a full disk

SIZE_OF_DISK, ROOM = 1 << 20, 8192
ROW = "insert into shop.orders (id, name, note) values ({}, 'on a full disk', repeat('y', {}));\n"


@contextmanager
def small_disk(folder):
    """A file system with little room."""
    folder.mkdir()
    command = ["mount", "-t", "tmpfs", "-o", f"size={SIZE_OF_DISK}", "tmpfs", folder]
    if shutil.which(command[0]) is None or subprocess.run(command, capture_output=True).returncode != 0:
        raise LeftOut("no small file system can be mounted")
    try:
        yield folder
    finally:
        # It goes once nothing uses it any more.
        subprocess.run(["umount", "-l", folder], check=True)


def fill(path):
    """Fills a file system by a file, but for some room."""
    with open(path, "wb", buffering=0) as file:
        try:
            while True:
                file.write(bytes(4096))
        except OSError:
            file.truncate(file.tell() - ROOM)


def rows(first, count):
    """Statements that insert rows. No event of these is as long as a mirror's buffer."""
    return "".join(ROW.format(number, number % 7 * 100) for number in range(first, first + count)).encode()


def full_disk_failures(program, kind, server, folder, disk):
    """A mirror that has no room for a while: for each test of what follows it, None or what is wrong."""
    server.run(b"set global max_binlog_size = 1073741824;")
    yield None if is_within(PATIENCE, lambda: rotates(server)) else "the server begins no file"
    (*_, source) = server.logs()
    with Mirror(kind, server, disk / "mirror", source.name) as mirror, Follower(program, mirror.folder, folder / "full", "--sync") as follower:
        yield None if mirror.has_begun() else "no mirror on a small disk"
        follower.begin(source.name)
        fill(disk / "filler")
        server.run(rows(10_000_000, 60))
        has_tried = is_within(PATIENCE, lambda: mirror.has_ended() or mirror.writes() >= number_of_events(source))
        yield None if has_tried and not mirror.has_ended() else "the mirror hasn't tried to write all events"
        (disk / "filler").unlink()
        server.run(rows(20_000_000, 30))
        yield from missing_bytes_failures(follower, source, mirror.folder / source.name)
        mirror.kill()
        mirror.begin()
        yield None if mirror.is_whole() else "the mirror's file isn't the server's"
        follower.begin()
        yield follower.wrong_lines(lines_of(source.name, source.read_bytes()))


def missing_bytes_failures(follower, source, mirrored):
    """What is printed of a file that lacks bytes in the middle, and how it ends."""
    try:
        status = follower.process.wait(PATIENCE)
    except subprocess.TimeoutExpired:
        yield "missing bytes aren't found"
        return
    follower.process = None
    content = source.read_bytes()
    whole = whole_length(content[: common_length(bytes_of(source), bytes_of(mirrored))])
    pattern = WAITING + rb"binlog: %s: behind byte %d: [^\n]+\n" % (re.escape(source.name.encode()), whole)
    yield None if status == listing_model.STATUS_ERRORS else f"missing bytes have the status {status}"
    yield None if re.fullmatch(pattern, follower.said()) else f"of bytes that are missing behind byte {whole} it said {follower.said()!r}"
    yield follower.wrong_lines(lines_of(source.name, content[:whole]))


def number_of_events(log):
    frames, _ = listing_model.split(log.read_bytes()[len(listing_model.FILE_HEADER) :])
    return len(frames)


def common_length(one, other):
    """How many bytes in front are the same."""
    places = (place for place, pair in enumerate(zip(one, other)) if pair[0] != pair[1])
    return next(places, min(len(one), len(other)))


def server_failures(program, made, seed, rounds):
    """For each test of a kind of server, None or what is wrong; an exception is wrong, too. Without a server a line says so."""
    found = []
    with tempfile.TemporaryDirectory(ignore_cleanup_errors=True) as name:
        try:
            for wrong in followed(program, made(Path(name)), Path(name), seed, rounds):
                found.append(wrong and f"{made.name}: {wrong}")
        except LeftOut as reason:
            print(f"{reason}: no log of it is followed")
        except Exception as error:
            found.append(f"{made.name}: {results.of_exception(error)}")
    return found


def main():
    parser = argparse.ArgumentParser(description="Follows the logs of servers under load.")
    programs.add_flags(parser)
    parser.add_argument("--seed", type=int, default=1)
    parser.add_argument("--rounds", type=int, default=1)
    arguments = programs.parsed(parser, "binlog")
    (program,) = arguments.build.command("binlog")
    with ThreadPoolExecutor() as pool:
        tests = [pool.submit(server_failures, program, made, arguments.seed, arguments.rounds) for made in (Maria, Mysql)]
        return results.report(chain.from_iterable(test.result() for test in tests))


if __name__ == "__main__":
    sys.exit(main())
