#!/usr/bin/env python3
"""Makes the page about logs by a built program `binlog`, and opens it in a browser.

Usage: report.py [--keep FOLDER] FLAG

FLAG is one of `programs.py`. A page is made of two logs whose events are written here, of the same logs with a damaged event, and,
where a MariaDB server is there (`maria_daemon.py` says where it comes from), of the log of a load of it. Of each page, a test each:
that its maker ends with the status that `binlog verify` has; that the rows of each table are those that were written, or that
`mariadb-binlog` prints; that the largest transaction, the gaps in the GTIDs, what isn't told apart by table and the damage are named;
that each chart has a picture of its own; and that Chromium, where it is installed, shows each chart and has no message. That a message is
noticed is tested, too, and that no page is written over a log. With --keep the pages stay in FOLDER.

Where there is no matplotlib, a line says so, nothing is run, and both numbers are 0. Where there is no server or no Chromium, a line
says so, and what needs it isn't run. The last line is `N passed, M failed`; the exit status is 1 if something failed.
"""

import argparse
import os
import re
import shutil
import struct
import subprocess
import sys
import tempfile
from collections import Counter
from pathlib import Path
from uuid import UUID

import maria_daemon
import payload_model
import programs
import results
import samples
from page_cells import Cells

# Those that may have Debian's matplotlib.
INTERPRETERS = (sys.executable, "/usr/bin/python3")
BROWSER = "chromium"
SECONDS_TO_SHOW = 240
CHARTS = ("bytes", "transactions", "rows", "tables", "sizes")
KINDS = ("inserted", "updated", "deleted")
# What the page says of a compressed transaction and of a statement.
UNTOLD = (
    "Of 1 compressed transaction all bytes count for each table inside.",
    "1 event may change tables without saying which, as statements do.",
)

TABLE_MAP, ROW_TYPES, IMAGES = 19, (30, 31, 32), (1, 2, 1)
PAYLOAD, NOT_COMPRESSED = 40, 255
START, MINUTE = samples.TIMESTAMP // 3600 * 3600, 60
# Matplotlib leaves out what is called `_..`, and U+2028 ends a line for some.
TABLES = [(b"shop", b"orders"), (b"shop", b"items"), (b"_audit", '<log> & "notes"\u2028'.encode())]


# ---- logs that are written here


class Log:
    """A log of transactions, and how many rows of each kind each table has in it."""

    def __init__(self):
        self.content, self.rows, self.gtids, self.largest = samples.FILE_HEADER + samples.description(), {}, [], (0, 0)

    def add(self, type_number, body, time):
        end = len(self.content) + samples.HEADER.size + len(body) + samples.CHECKSUM_LENGTH
        self.content += samples.checksummed_frame(type_number, body, end, timestamp=time)

    def add_gtid(self, number, time):
        self.gtids.append(number)
        self.add(samples.GTID, samples.gtid_body(samples.SOURCE, number), time)

    def add_statement(self, number, time):
        self.add_gtid(number, time)
        self.add(samples.QUERY, samples.query_body(b"shop", b"TRUNCATE TABLE items"), time)

    def add_transaction(self, number, time, changes, is_compressed=False):
        """`changes` are tables' numbers, each with how many rows are inserted, updated and deleted."""
        start = len(self.content)
        self.add_gtid(number, time)
        events = [(samples.QUERY, samples.query_body(b"shop", b"BEGIN"))]
        for table, counts in changes:
            events.append((TABLE_MAP, table_map(table)))
            kinds = zip(ROW_TYPES, IMAGES, counts)
            events += [(type_number, row_body(table, images, count)) for type_number, images, count in kinds if count]
            self.rows[TABLES[table]] = [sum(pair) for pair in zip(self.rows.get(TABLES[table], (0, 0, 0)), counts)]
        events.append((samples.XID, samples.XID_BODY))
        for type_number, body in [payload(events, time)] if is_compressed else events:
            self.add(type_number, body, time)
        self.largest = max(self.largest, (len(self.content) - start, start))


def payload(events, time):
    """The event of a compressed transaction, whose payload isn't compressed."""
    content = b"".join(samples.frame(type_number, body, timestamp=time) for type_number, body in events)
    return PAYLOAD, payload_model.written(NOT_COMPRESSED, len(content), content)


def table_map(table):
    """That of a table with an INT."""
    database, name = (bytes([len(part)]) + part + b"\0" for part in TABLES[table])
    return struct.pack("<IHH", table + 1, 0, 1) + database + name + b"\1\3\0\0"


def row_body(table, images, count):
    return struct.pack("<IHHH", table + 1, 0, 1, 2) + b"\1" + images * b"\xff" + images * count * b"\0\7\0\0\0"


def written_logs():
    """Two logs of two hours, with a peak, a pause, missing numbers, a statement, and a compressed transaction."""
    first, last = Log(), Log()
    for number in range(1, 241):
        time = START + number // 2 * MINUTE + (20 * MINUTE if number > 150 else 0)
        changes = [(0, (1 + number % 7, number % 3, 0)), (number % 2 + 1, (number % 5, 1, number % 4))]
        if number == 100:
            changes.append((0, (900, 300, 0)))
        log = first if number <= 120 else last
        if number == 60:
            log.add_statement(number, time)
        elif number not in (17, 18, 200):
            log.add_transaction(number, time, changes, is_compressed=number == 150)
    return [first, last]


# ---- pages


class Pages:
    """Makes pages in a folder, and shows them by a browser, if there is one."""

    def __init__(self, folder, program, python, browser):
        self.folder, self.program, self.python, self.browser = folder, program, python, browser

    def run(self, page, logs):
        environment = os.environ | {"PYTHONPATH": str(programs.REPOSITORY / "python"), "PYTHONDONTWRITEBYTECODE": "1"}
        command = [self.python, "-m", "binlog.report", "--program", self.program, "-o", page, *logs]
        return subprocess.run(command, env=environment, stderr=subprocess.PIPE, text=True)

    def made(self, name, logs):
        """The page of logs, and the exit status."""
        page = self.folder / f"{name}.html"
        finished = self.run(page, logs)
        if finished.stderr:
            print(f"{name}: {finished.stderr}")
        return page, finished.returncode

    def shown(self, page):
        """The page as the browser has it, and its messages."""
        with tempfile.TemporaryDirectory() as profile:
            command = [self.browser, "--headless=new", "--no-sandbox", "--disable-gpu", "--disable-dev-shm-usage"]
            command += [f"--user-data-dir={profile}", "--enable-logging=stderr", "--dump-dom", page.as_uri()]
            finished = subprocess.run(command, capture_output=True, text=True, timeout=SECONDS_TO_SHOW)
        return finished.stdout, re.findall(r"CONSOLE.*", finished.stderr)

    def failures(self, name, logs, wanted, status):
        """For each test of a page, None or what is wrong. `wanted` are the rows of tables, by their names."""
        page, found = self.made(name, logs)
        yield None if found == status else f"{name}: status {found}, not {status}"
        if not page.exists():
            yield f"{name}: there is no page"
            return
        cells = Cells(page.read_text())
        rows = {row[0]: [int(cell.replace(",", "")) for cell in row[1:4]] for row in cells.rows["tables"][1:]}
        for table in {*rows, *wanted}:
            same = rows.get(table) == wanted.get(table)
            yield None if same else f"{name}: {table}: {rows.get(table)}, not {wanted.get(table)}"
        yield from chart_failures(name, cells)
        if self.browser:
            text, messages = self.shown(page)
            yield f"{name}: {messages[0]}" if messages else None
            yield from chart_failures(f"{name} in {BROWSER}", Cells(text))

    def noticed(self):
        """None, or that a message isn't noticed."""
        page = self.folder / "message.html"
        page.write_text("<!DOCTYPE html><title>A message</title><script>console.error('wrong')</script>")
        return None if self.shown(page)[1] else f"{BROWSER} has no message of an error"


def chart_failures(name, cells):
    for chart in CHARTS:
        pictures = [found for found in cells.names if found.startswith(f"{chart}-figure")]
        has_one = f"chart-{chart}" in cells.names and len(pictures) == 1
        yield None if has_one else f"{name}: there is no chart of {chart}"
    yield None if len(set(cells.names)) == len(cells.names) else f"{name}: parts with one name"


def names_of(rows):
    return {b".".join(table).decode(): counts for table, counts in rows.items()}


def sum_of_rows(logs):
    return {table: [sum(counts) for counts in zip(*(log.rows[table] for log in logs))] for table in TABLES}


def written_failures(pages):
    """For each test of the pages of the logs that are written here, None or what is wrong."""
    logs = written_logs()
    paths = [pages.folder / f"mysql-bin.00000{number}" for number in (1, 2)]
    for path, log in zip(paths, logs):
        path.write_bytes(log.content)
    yield from pages.failures("written", paths, names_of(sum_of_rows(logs)), 0)
    cells = Cells((pages.folder / "written.html").read_text())
    size, start = logs[0].largest
    wanted = [f"{UUID(bytes=samples.SOURCE)}:100", str(paths[0]), str(start), f"{size:,}"]
    yield None if cells.rows["largest"][1][:4] == wanted else f"the largest transaction is {cells.rows['largest'][1]}, not {wanted}"
    gtids = cells.rows["gtids"][1:]
    yield None if gtids == [[samples.SID, "1-16,19-199,201-240", "17-18,200"]] else f"the GTIDs are {gtids}"
    yield "damage where there is none" if "Damage" in cells.texts else None
    for said in UNTOLD:
        yield None if said in cells.texts else f"the page doesn't say: {said}"
    for read in paths:
        found, content = pages.run(paths[0], [read]), paths[0].read_bytes()
        yield None if (found.returncode, content) == (3, logs[0].content) else f"a page is written over a log: status {found.returncode}"
    logs[1].add(samples.GTID, samples.gtid_body(samples.SOURCE, 0), START)
    paths[1].write_bytes(logs[1].content)
    # The last byte of the last event of the first log.
    paths[0].write_bytes(logs[0].content[:-1] + bytes([logs[0].content[-1] ^ 1]))
    yield from pages.failures("damaged", paths, names_of(sum_of_rows(logs)), 2)
    texts = Cells((pages.folder / "damaged.html").read_text()).texts
    yield None if any("checksum mismatch" in text and str(paths[0]) in text for text in texts) else f"the damage isn't named: {texts}"
    said = "1 source with gaps. GTIDs of 1 event can't be read."
    yield None if said in texts else f"the GTID that can't be read isn't counted: {texts}"


# ---- a server's log


def load():
    """Statements that change three tables over three hours, with a peak."""
    yield f"set timestamp = {START}; create database shop; use shop; set session binlog_format = row;"
    for table in ("orders", "items", "stock"):
        yield f"create table {table} (id int auto_increment primary key, amount int, note varchar(200));"
    for number in range(180):
        yield f"set timestamp = {START + number * MINUTE};"
        for count in range(1 + number * 7 % 60 // 15):
            yield "begin; insert into orders (amount, note) values " + ", ".join(f"({place}, 'order')" for place in range(1 + number % 9)) + ";"
            yield f"insert into items (amount, note) select amount, repeat('item ', 20) from orders limit {2 + count};"
            yield "update orders set amount = amount + 1 order by id desc limit 2; commit;"
        if number % 6 == 5:
            yield "delete from items order by id limit 9;"
        if number % 20 == 0:
            yield "insert into stock (amount) values (1);"
        if number == 120:
            yield "insert into stock (amount, note) select a.amount, repeat('stock ', 9) from orders a, orders b limit 200;"


def printed_rows(log):
    """The rows of each table that `mariadb-binlog` prints of a log."""
    command = [maria_daemon.PRINTER, "--verbose", "--base64-output=DECODE-ROWS", log]
    text = subprocess.run(command, capture_output=True, check=True).stdout.decode(errors="replace")
    verbs = Counter(re.findall(r"^### (INSERT INTO|UPDATE|DELETE FROM) `(\w+)`\.`(\w+)`$", text, re.MULTILINE))
    tables = {names for _, *names in map(tuple, verbs) for names in [tuple(names)]}
    return {".".join(names): [verbs[verb, *names] for verb in ("INSERT INTO", "UPDATE", "DELETE FROM")] for names in tables}


def server_failures(pages):
    """For each test of the page of a server's log, None or what is wrong."""
    with tempfile.TemporaryDirectory() as name:
        try:
            program = maria_daemon.program_in(Path(name) / "unpacked")
            with maria_daemon.Server(program, Path(name) / "server", ["--server-id=7", "--binlog-checksum=CRC32"]) as server:
                server.run("\n".join(load()).encode())
            log = shutil.copy(server.data / "maria-bin.000001", pages.folder)
        except maria_daemon.LeftOut as reason:
            print(f"{reason}: no page of its log is made")
            return
    yield from pages.failures("server", [log], printed_rows(log), 0)
    gtids = [row[0] for row in Cells((pages.folder / "server.html").read_text()).rows["largest"][1:]]
    yield None if all(re.fullmatch(r"0-7-\d+", gtid) for gtid in gtids) else f"server: the largest transactions are {gtids}"


def interpreter():
    """An interpreter that has matplotlib, or None."""
    for command in filter(shutil.which, INTERPRETERS):
        if subprocess.run([command, "-c", "import matplotlib"], stderr=subprocess.DEVNULL).returncode == 0:
            return command
    return None


def failures(folder, program, python):
    browser = shutil.which(BROWSER)
    if not browser:
        print(f"there is no {BROWSER}: no page is opened")
    pages = Pages(folder, program, python, browser)
    yield from written_failures(pages)
    yield from server_failures(pages)
    if browser:
        yield pages.noticed()


def main():
    parser = argparse.ArgumentParser(description="Makes the page about logs, and opens it in a browser.")
    parser.add_argument("--keep", metavar="FOLDER", type=Path, help="keep the pages here")
    programs.add_flags(parser)
    arguments = programs.parsed(parser, "binlog")
    (program,) = arguments.build.command("binlog")
    python = interpreter()
    if python is None:
        return results.left_out("there is no python3-matplotlib: no page is made")
    with tempfile.TemporaryDirectory() as name:
        folder = arguments.keep or Path(name)
        folder.mkdir(parents=True, exist_ok=True)
        return results.report(failures(folder, program, python))


if __name__ == "__main__":
    sys.exit(main())
