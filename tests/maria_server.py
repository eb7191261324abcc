#!/usr/bin/env python3
"""Compares what the library reads of a MariaDB server's logs with what `mariadb-binlog` prints of them.

Usage: maria_server.py [--logs FOLDER] FLAG

FLAG is one of `programs.py`. A server runs a mixed load in a temporary folder, on a socket there, and is shut down. Then, of
each log, a test each: that each event is listed with the type, end and checksum that `mariadb-binlog` prints; that the listing
and the lines of JSON are those of their models; that the log is written back byte for byte; that statistics are those of an
independent count, and count the rows of each table that `mariadb-binlog` prints; that the lines of MariaDB's own events have
the words of another model, and that there is none under another server's version; that each of these events is printed by
`mariadb-binlog` as these words say; and that the load has events of each kind that the server can write. Another server has
tables of all types and character sets, whose log states nothing of columns, or little: the rows that its lines of JSON with a
file of columns say are compared, value by value, with what the server selects. A third one is sent statements in every
character set, whose texts in lines of JSON are compared with the characters that the server made of them. A fourth one encrypts
its log, of which the start is compared. With --logs the logs in FOLDER are compared, and no server is started.

Where there is no server that is known (`maria_daemon.py` says where it comes from), or the client's programs `mariadb` and
`mariadb-binlog` aren't there, a line says so, nothing is run, and both numbers are 0. Where the server has no plugin for
keys, a line says so, and no encrypted log is compared. The last line is `N passed, M failed`; the exit status is 1 if
something failed.
"""

import argparse
import json
import re
import sys
import tempfile
from itertools import zip_longest
from pathlib import Path

import listing_model
import maria_clients
import maria_columns
import maria_model
import maria_printed
import programs
import results
import server_statistics
import written_back
from damaged_copies import failure
from maria_daemon import SECONDS_TO_RUN, LeftOut, Server, encrypting, is_within, program_in

LOAD = programs.REPOSITORY / "tests/maria_load.sql"

MIXED = [
    "--server-id=7",
    "--gtid-domain-id=3",
    "--binlog-format=MIXED",
    "--binlog-annotate-row-events=1",
    "--binlog-checksum=CRC32",
    "--log-bin-compress=1",
    "--log-bin-compress-min-len=10",
]

# ---- The load


def run_load(server):
    server.run(LOAD.read_bytes())
    wait_for_row(server)
    commit_together(server)
    complete_elsewhere(server)


def wait_for_row(server):
    """A transaction waits for a row that another one has changed."""
    first = server.start(b"use shop; begin; update item set price = 7 where id = 1;\n")
    is_within(SECONDS_TO_RUN, lambda: b"1" in server.run(b"select count(*) from information_schema.innodb_trx"))
    second = server.start(b"use shop; update item set price = 8 where id = 1;\n")
    waiting = b"select count(*) from information_schema.innodb_trx where trx_state = 'LOCK WAIT'"
    is_within(SECONDS_TO_RUN, lambda: b"1" in server.run(waiting))
    server.finish(first, b"commit;\n")
    server.finish(second)


def commit_together(server):
    """Two transactions are written to the log together: the first waits for the second."""
    server.run(b"set global binlog_commit_wait_usec = 20000000; set global binlog_commit_wait_count = 2;")
    clients = [server.start(b"insert into shop.item (name) values ('together');\n") for _ in range(2)]
    for client in clients:
        server.finish(client)
    server.run(b"set global binlog_commit_wait_count = 0;")


def complete_elsewhere(server):
    """A session completes the XA transaction that another one prepared."""
    server.run(b"use shop; xa start 'left'; insert into item (name) values ('left'); xa end 'left'; xa prepare 'left';")
    server.run(b"xa commit 'left';")


# ---- The comparison


def lines_of(words, content):
    output, status = programs.run(words, content)
    return output.decode("ascii").splitlines(), status


def log_failures(build, path):
    """For each test of a log, None or what is wrong."""
    content = path.read_bytes()
    events = list(maria_printed.printed(path))
    yield from own_event_failures(build.command("json"), content)
    yield from printed_failures(content, events)
    for words in build.commands("list"):
        yield from listing_failures(words, content, events)
    yield from model_failures(build, path.name, content)
    for words in build.commands("write back"):
        yield written_back.failure(words, path.name, content)
    yield from server_statistics.failures(build.command("binlog"), path)


def own_event_failures(words, content):
    """For each of MariaDB's own events, None or how its line of JSON has other words than the model."""
    wanted = [{key: event[key] for key in event if key not in maria_model.UNSHOWN} for event in maria_model.expected(content)]
    for place, (found, event) in enumerate(zip_longest(own_events(words, content), wanted)):
        yield None if found == event else f"event {place} of MariaDB's own is {found}, not {event}"
    other_server = content.replace(b"-MariaDB", b"-mariadb", 1)
    yield "lines for a log that isn't MariaDB's" if own_events(words, other_server) else None


def own_events(words, content):
    """The words of MariaDB's own events by their lines of JSON."""
    output, _ = programs.run(words, content)
    return [maria_model.shown_words(line) for line in map(json.loads, output.splitlines()) if maria_model.is_own(line)]


def model_failures(build, name, content):
    """Whether the listings, and the lines of JSON, are those of their models."""
    for purpose in ("list", "json"):
        yield failure(build.commands(purpose), purpose, (name, content))


def printed_failures(content, events):
    """For each event of MariaDB's own, None or how `mariadb-binlog` prints it otherwise; and for each printed one, whether the log
    has it."""
    frames, _ = listing_model.split(content[len(listing_model.FILE_HEADER) :])
    *_, in_force = listing_model.in_force_at(frames)
    session = maria_printed.Session()
    all_words = {int(words["end"]): words for words in words_as_texts(content)}
    for event, following in zip(events, [*events[1:], None]):
        words = all_words.pop(event.end, None)
        is_own = event.type_number() is None or event.type_number() >= maria_model.ANNOTATE_ROWS
        if words is None:
            yield f"no line for {event.head!r} at {event.end}" if is_own else None
            continue
        wrong = maria_printed.difference(words, event, session, following, in_force.lengths)
        yield wrong and f"the event that ends at {event.end}: {wrong}"
    yield from (f"a line for {end}, where no event ends" for end in all_words)


def words_as_texts(content):
    """The words of MariaDB's own events, each as a text."""
    return [maria_printed.split_line(maria_model.line(words)) for words in maria_model.expected(content)]


def listing_failures(words, content, events):
    """For each line of the listing, None or how the event is printed otherwise."""
    lines, _ = lines_of(words, content)
    for line, event in zip_longest(lines, events):
        if line is None or event is None or " error " in line:
            yield f"listed as {line}, printed as {event}"
            continue
        _, number, _, end, _, _, checksum, _ = line.split(" ")
        # A description has a checksum even where it says that events have none, and then it isn't printed.
        is_said = event.checksum is not None or int(number) != listing_model.FORMAT_DESCRIPTION
        printed = [str(event.type_number()), str(event.end), event.checksum.hex() if event.checksum else "-"]
        found = [number, end, checksum if is_said else "-"]
        yield None if found == printed else f"listed as {line}, printed as {printed}"


def kinds(all_words):
    """The kinds of events that are among the lines."""
    for words in all_words:
        number = int(words["type"])
        yield f"type {number}"
        if number == maria_model.GTID:
            yield from (f"flag {1 << bit}" for bit in range(8) if int(words["flags"]) >> bit & 1)
            yield from (f"extra flag {1 << bit}" for bit in range(8) if int(words.get("extra_flags", 0)) >> bit & 1)


# All but the start of encryption, the types that no server writes, and the id of the thread, of later servers.
WANTED_KINDS = {f"type {number}" for number in (160, 161, 162, 163, 165, 166, 167, 168)}
WANTED_KINDS |= {f"flag {1 << bit}" for bit in range(8)} | {f"extra flag {1 << bit}" for bit in range(4)}


def kind_failures(logs):
    found = {kind for path in logs for kind in kinds(words_as_texts(path.read_bytes()))}
    yield from (None if kind in found else f"no event of {kind}" for kind in sorted(WANTED_KINDS))


def server_failures(build):
    """For each test of the logs of servers, None or what is wrong."""
    with tempfile.TemporaryDirectory() as name:
        folder = Path(name)
        daemon = program_in(folder / "unpacked")
        with Server(daemon, folder / "mixed", MIXED) as server:
            run_load(server)
        yield from all_failures(build, server.logs())
        yield from kind_failures(server.logs())
        with Server(daemon, folder / "columns", maria_columns.BY_ROWS) as server:
            yield from maria_columns.failures(build.command("json"), server, folder)
        with Server(daemon, folder / "clients", maria_clients.BY_STATEMENTS) as server:
            yield from maria_clients.failures(build.command("json"), server)
        try:
            yield from encrypted_failures(build, daemon, folder)
        except LeftOut as reason:
            print(f"{reason}: no encrypted log is compared")


def encrypted_failures(build, daemon, folder):
    """Of an encrypted log the start is compared, and how the whole is split."""
    with Server(daemon, folder / "encrypted", encrypting(daemon, folder / "keys")) as server:
        server.run(b"create database shop;")
    (path,) = server.logs()
    content = path.read_bytes()
    yield from model_failures(build, "encrypted", content)
    frames, tail = listing_model.split(content[len(listing_model.FILE_HEADER) :])
    # The description, the start of encryption, a list of GTIDs, a checkpoint, a GTID, a statement and the end.
    yield None if (len(frames), tail) == (7, b"") else f"an encrypted log of {len(frames)} events"
    start = content[: len(listing_model.FILE_HEADER) + len(frames[0]) + len(frames[1])]
    path.write_bytes(start)
    yield from own_event_failures(build.command("json"), start)
    yield encryption_failure(path, start)


def encryption_failure(path, start):
    """None, or how `mariadb-binlog` prints the start of encryption otherwise than its words say."""
    (line,) = words_as_texts(start)
    wanted = f"# Encryption scheme: {line['scheme']}, key_version: {line['key_version']}, nonce: {line['nonce']}\n"
    found = re.findall(rb"^# Encryption scheme.*\n", maria_printed.output_of(path), re.MULTILINE)
    return None if found == [wanted.encode()] else f"encryption begins: {found}, not {wanted}"


def all_failures(build, logs):
    for path in logs:
        yield from (wrong and f"{path.name}: {wrong}" for wrong in log_failures(build, path))


def main():
    parser = argparse.ArgumentParser(description="Compares what is read of a MariaDB server's logs.")
    programs.add_flags(parser)
    parser.add_argument("--logs", type=Path)
    arguments = programs.parsed(parser, "list", "json", "write back", "binlog")
    try:
        if arguments.logs:
            return results.report(all_failures(arguments.build, sorted(arguments.logs.glob("*-bin.0*"))))
        return results.report(server_failures(arguments.build))
    except LeftOut as reason:
        return results.left_out(f"{reason}: no logs of a server are compared")


if __name__ == "__main__":
    sys.exit(main())
