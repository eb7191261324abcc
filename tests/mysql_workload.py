"""The load of the server: which statements it runs, under which forms of the log, and how it ends."""

import shutil
from pathlib import Path
from typing import NamedTuple

from mysql_daemon import SECONDS_TO_RUN, is_within

STATEMENTS = Path(__file__).resolve().parent
TABLES, LOAD = STATEMENTS / "mysql_tables.sql", STATEMENTS / "mysql_load.sql"


class Form(NamedTuple):
    """A form of the log, in which the tables are made: their schema, how much is stated of a table, whether events have checksums,
    and what is set for the session."""

    schema: str
    metadata: str
    checksum: str
    session: str


FORMS = [
    Form("complete", "FULL", "CRC32", "binlog_row_image = 'FULL'"),
    Form("minimal", "FULL", "CRC32", "binlog_row_image = 'MINIMAL'"),
    Form("no_blob", "FULL", "CRC32", "binlog_row_image = 'NOBLOB'"),
    Form("few_facts", "MINIMAL", "NONE", "gtid_next = 'automatic:few_facts'"),
    Form("changes", "FULL", "CRC32", "binlog_row_value_options = 'PARTIAL_JSON'"),
    Form("compressed", "FULL", "CRC32", "binlog_transaction_compression = 1"),
]
METADATA = {form.schema: form.metadata for form in FORMS}

# What is changed by rows alone.
SCHEMAS_OF_ROWS = {form.schema for form in FORMS}
TABLES_OF_ROWS = {"shop.loaded_rows", "shop.chosen"}


def run_load(server, folder):
    """Runs the load, after which the server runs, and gives a copy of the log of a server that was killed."""
    server.start()
    for form in FORMS:
        run_form(server, form)
    server.run(b"set global binlog_checksum = default;")
    server.run(LOAD.read_bytes())
    load_files(server, folder)
    server.stop()
    server.start()
    killed = killed_log(server, folder)
    server.start()
    server.run(b"flush binary logs; insert into shop.item (name) values ('last');")
    return killed


def run_form(server, form):
    server.run(f"set global binlog_row_metadata = '{form.metadata}', global binlog_checksum = '{form.checksum}';".encode())
    before = f"create database {form.schema} character set utf8mb4; use {form.schema}; set session {form.session};\n"
    server.run(before.encode() + TABLES.read_bytes())
    server.run(b"flush binary logs;")


def load_files(server, folder):
    """Loads a file of few lines, and one of several blocks, by statements and by rows."""
    few, many = folder / "few.txt", folder / "many.txt"
    few.write_text("1001,from a file\n1002,'quoted, text'\n")
    many.write_text("".join(f"{number},line {number} of a long file\n" for number in range(2000, 12000)))
    how = "fields terminated by ',' optionally enclosed by '\\'' lines terminated by '\\n'"
    for binlog_format, table in (("STATEMENT", "loaded"), ("ROW", "loaded_rows")):
        statements = [
            f"use shop; set session binlog_format = '{binlog_format}'",
            f"create table {table} (id int primary key, text varchar(100))",
            f"load data infile '{few}' into table {table} {how} (id, text)",
            f"load data infile '{few}' replace into table {table} {how} (id, @text) set text = upper(@text)",
            f"load data local infile '{few}' ignore into table shop.{table} {how} (id, text)",
            f"load data infile '{many}' into table {table} {how} (id, text)",
        ]
        server.run("".join(f"{statement};\n" for statement in statements).encode())


ENDLESS = b"""
delimiter //
create procedure shop.endless() begin loop insert into shop.item (name, note) values ('endless', repeat('x', 5000)); end loop; end//
"""


def killed_log(server, folder):
    """Kills the server while a session writes, and gives a copy of its log."""
    server.run(ENDLESS)
    log = server.logs()[-1]
    size = log.stat().st_size
    session = server.begin(b"call shop.endless();\n")
    is_within(SECONDS_TO_RUN, lambda: log.stat().st_size > size + 200_000)
    server.kill()
    session.communicate()
    copy = folder / "killed"
    shutil.copy(log, copy)
    return copy
