"""Compares `binlog stats` of a log that a server wrote with an independent count, and with the rows that `mariadb-binlog` prints of it."""

import json
import re
import tempfile
from collections import Counter

import maria_printed
from change_statistics import Runner

# The head of a row, as `mariadb-binlog -v` prints it.
ROW = re.compile(rb"^### (INSERT INTO|UPDATE|DELETE FROM) `(.*)`\.`(.*)`$", re.MULTILINE)
CHANGES = {b"INSERT INTO": "inserted", b"UPDATE": "updated", b"DELETE FROM": "deleted"}


def model_failures(binlog, path):
    """For each way to count, None or how the text or the lines of JSON differ from the count."""
    logs = [path.read_bytes()]
    with tempfile.TemporaryDirectory() as folder:
        runner = Runner(binlog, folder)
        yield from runner.check(path.name, logs)
        yield from runner.check_types(path.name, logs)
        yield from runner.check_intervals(path.name, logs, 1, "1s")
        yield from runner.check_intervals(path.name, logs, 60, "1m")
        yield from runner.check_transactions(path.name, logs, 1000)


def printed_rows(path):
    """How many rows of each table are printed, by what is done to them."""
    rows = ROW.findall(maria_printed.output_of(path))
    return Counter((database.decode(), table.decode(), CHANGES[change]) for change, database, table in rows)


def counted_rows(runner, path):
    """How many rows of each table are counted, likewise, and in how many events they can't be read."""
    lines = runner.run([path.read_bytes()], ["--by", "table", "--json"]).stdout.splitlines()
    tables = [json.loads(line) for line in lines[1:]]
    rows = Counter({(table["database"], table["table"], change): table[change] for table in tables for change in CHANGES.values()})
    return +rows, sum(table["unread_events"] for table in tables)


def printed_failure(binlog, path):
    """None if the rows that are counted are those that `mariadb-binlog` prints."""
    with tempfile.TemporaryDirectory() as folder:
        counted, unread = counted_rows(Runner(binlog, folder), path)
    printed = printed_rows(path)
    return None if (counted, unread) == (printed, 0) else f"{dict(counted)} rows are counted, {unread} events not read, {dict(printed)} printed"


def failures(binlog, path):
    """For each test of a log, None or what is wrong."""
    yield from model_failures(binlog, path)
    yield printed_failure(binlog, path)
