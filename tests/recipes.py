#!/usr/bin/env python3
"""Runs the commands of docs/RECIPES.md as they stand there, over logs that are made here.

Usage: recipes.py FLAG

FLAG is one of `programs.py`: it says which `binlog` is run. A block of the page that begins with `$ ` has commands, perhaps of several
lines of which the further ones begin with `> `, each with what it prints: standard output and messages. They run in order in a
folder with the logs that the page names. A test each: a command prints what stands below it. Where `jq` is missing, its commands are
left out. A stand-in of `kcat` keeps the lines that it reads, which have to be all rows of both logs. The last line is `N passed, M
failed`; the exit status is 1 if something failed.
"""

import argparse
import re
import shlex
import shutil
import subprocess
import sys
import tempfile
from calendar import timegm
from pathlib import Path
from time import strptime
from uuid import UUID

import encoded_events as encode
import programs
import results
from encoded_logs import framed
from row_lines import DELETE, UPDATE, WRITE, named_map
from row_values import SPELLING, row_event
from samples import FILE_HEADER, POST_HEADER_LENGTHS

PAGE = programs.REPOSITORY / "docs/RECIPES.md"
SOURCE = UUID("3e11fa47-71ca-11e1-9e33-c80aa9429562").bytes
REPLICA = UUID("7a9c2f10-71ca-11e1-9e33-c80aa9429562").bytes
GTID = 33
SERVER_ID = 1
ORDERS, CUSTOMERS, ITEMS = 90, 91, 92
# Types of columns.
LONG, VARCHAR, ENUM, STRING = 3, 15, 247, 254
# What a server answers of the table of ITEMS.
COLUMNS = (
    "TABLE_SCHEMA\tTABLE_NAME\tORDINAL_POSITION\tCOLUMN_NAME\tCOLUMN_TYPE\tCHARACTER_SET_NAME\n"
    "shop\titems\t1\tid\tint(10) unsigned\tNULL\n"
    "shop\titems\t2\tsize\tenum('small','large')\tlatin1\n"
    "shop\titems\t3\tname\tvarchar(20)\tlatin1\n"
)
# Keeps the lines of a topic.
KCAT = """#!/bin/sh
while [ "$1" != -t ]; do shift; done
exec cat >> "$2.topic"
"""
TOPIC, LOGS = "rows.topic", ["mysql-bin.000007", "mysql-bin.000008"]
# In the last log: the last byte of its row, before the checksum and an XID event of 31 bytes.
LAST_BYTE_OF_A_ROW = -36


class Log:
    """A log with checksums, as MySQL 8.0 writes it, behind the transactions of SOURCE up to the last one before it."""

    def __init__(self, time, last):
        self.content, self.time = FILE_HEADER, time
        self.add(encode.format_description(server_version="8.0.36", lengths=POST_HEADER_LENGTHS, algorithm=1), b"\1")
        self.add(encode.previous_gtids([(SOURCE, None, [(1, last + 1)])]))

    def add(self, event, footer=b""):
        """Adds an event, or its type and body. `footer` is what stands before the checksum."""
        kind, body = (event.type, event.body) if isinstance(event, encode.Event) else event
        seconds = timegm(strptime(f"2026-11-{self.time}", "%Y-%m-%d %H:%M:%S"))
        end = len(self.content) + len(framed(kind, body + footer, (0, 0, 0, 0), True)[0])
        self.content += framed(kind, body + footer, (seconds, SERVER_ID, end, 0), True)[0]

    def transaction(self, time, number, events, source=SOURCE):
        self.time = time
        self.add(encode.gtid(GTID, sid=source, gno=number, clock=(number - 1, number)))
        self.add(encode.query(schema="shop", text="BEGIN"))
        for event in events:
            self.add(event)
        self.add(encode.xid(value=number))

    def statement(self, time, number, text):
        self.time = time
        self.add(encode.gtid(GTID, sid=SOURCE, gno=number, clock=(number - 1, number)))
        self.add(encode.query(schema="shop", text=text))


def changes(table, kind, *images):
    """A table map, and an event of its rows, each an id and a text."""
    name = {ORDERS: "orders", CUSTOMERS: "customers"}[table]
    content = b"".join(b"\0" + number.to_bytes(4, "little") + bytes([len(text)]) + text for number, text in images)
    return [named_map(table, "shop", name, [b"id", b"name"]), row_event(kind, table, [True, True], [True, True], content)]


def unnamed_item():
    """A table map that states nothing of its columns, and an event of a row: an unsigned number, a member of an ENUM, and a text in latin1."""
    types, metadata = bytes([LONG, STRING, VARCHAR]), bytes([ENUM, 1, 20, 0])
    map_of = encode.table_map(
        SPELLING, table_id=ITEMS, flags=1, database="shop", table="items", types=types, metadata=metadata, nulls=[True] * 3
    )
    content = b"\0" + (4_000_000_000).to_bytes(4, "little") + b"\2" + b"\3" + "Ærø".encode("latin-1")
    return [map_of, row_event(WRITE, ITEMS, [True] * 3, [True] * 3, content)]


def logs():
    """The names of the logs on the page, and their bytes."""
    first = Log("26 21:58:00", 40)
    first.transaction("26 21:59:30", 41, changes(ORDERS, WRITE, (1, b"tea"), (2, b"coffee")))
    replica = Log("26 21:58:02", 40)
    replica.content += first.content[len(Log("26 21:58:00", 40).content) :]
    replica.transaction("26 21:59:50", 1, changes(CUSTOMERS, WRITE, (9, b"Eve")), REPLICA)
    first.transaction("26 22:00:10", 42, changes(ORDERS, UPDATE, (2, b"coffee"), (2, b"cocoa")))
    first.transaction("26 22:00:40", 43, changes(ORDERS, DELETE, (1, b"tea")) + changes(CUSTOMERS, WRITE, (7, b"Ada")))
    first.statement("26 22:05:00", 44, "TRUNCATE TABLE sessions")
    first.add(encode.rotate(position=4, name="mysql-bin.000008"))
    second = Log("26 22:05:01", 44)
    second.transaction("27 03:12:09", 45, changes(ORDERS, DELETE, (2, b"cocoa")))
    minimal = Log("26 21:58:00", 40)
    minimal.transaction("26 21:59:30", 41, unnamed_item())
    damaged = bytearray(second.content)
    damaged[LAST_BYTE_OF_A_ROW] ^= 1
    return {
        "mysql-bin.000007": first.content,
        "mysql-bin.000008": second.content,
        "replica-bin.000003": replica.content,
        "disk/mysql-bin.000008": bytes(damaged),
        "minimal/mysql-bin.000001": minimal.content,
        "columns.tsv": COLUMNS.encode(),
    }


def blocks(page):
    """The commands of the page's blocks, each with what is printed below it."""
    for block in re.findall(r"^```text\n(\$ .*?)^```", page, re.MULTILINE | re.DOTALL):
        for part in re.split(r"^\$ ", block, flags=re.MULTILINE)[1:]:
            command = re.match(r".*\n(?:> .*\n)*", part)[0]
            yield command.replace("\n> ", "\n"), part[len(command) :]


def failure(command, wanted, folder, environment):
    """None if a command prints what is wanted, else what is wrong."""
    words = ["bash", "-o", "pipefail", "-c", command]
    finished = subprocess.run(words, cwd=folder, env=environment, stdout=subprocess.PIPE, stderr=subprocess.STDOUT, text=True)
    return None if finished.stdout == wanted else f"{command}prints\n{finished.stdout}and not\n{wanted}"


def failures(binlog, page):
    with tempfile.TemporaryDirectory() as folder:
        for name, content in logs().items():
            path = Path(folder, name)
            path.parent.mkdir(exist_ok=True)
            path.write_bytes(content)
        programs_in(Path(folder, "bin"), {"binlog": f'#!/bin/sh\nexec {shlex.join(binlog)} "$@"\n', "kcat": KCAT})
        environment = {"PATH": f"{folder}/bin:/usr/bin:/bin", "LC_ALL": "C.UTF-8", "TZ": "UTC"}
        for command, wanted in blocks(page):
            if shutil.which("jq", path=environment["PATH"]) or "jq" not in command:
                yield failure(command, wanted, folder, environment)
        yield sent_failure(binlog, Path(folder))


def programs_in(folder, texts):
    folder.mkdir()
    for name, text in texts.items():
        (folder / name).write_text(text)
        (folder / name).chmod(0o755)


def sent_failure(binlog, folder):
    """None if the rows of all logs were sent, else what was."""
    wanted = subprocess.run([*binlog, "json", "--compact", *LOGS], cwd=folder, stdout=subprocess.PIPE).stdout
    found = (folder / TOPIC).read_bytes()
    return None if found == wanted else f"{found!r} was sent, not {wanted!r}"


def main():
    parser = argparse.ArgumentParser(description="Runs the commands of docs/RECIPES.md.")
    programs.add_flags(parser)
    binlog = programs.parsed(parser, "binlog").build.command("binlog")
    return results.report(failures(binlog, PAGE.read_text()))


if __name__ == "__main__":
    sys.exit(main())
