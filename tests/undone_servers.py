"""Servers of both kinds whose logs are undone: they run, dump their tables, and apply what undoes their logs.

A dump is that of the server's own program: `mariadb-dump`, which Debian has in the package of `mariadb-binlog`, or `mysqldump` beside
`mysqlbinlog`.
"""

import re
import shutil
import subprocess
from contextlib import contextmanager
from pathlib import Path

import listing_model
import maria_daemon
import mysql_daemon
import undo_loads
from maria_daemon import LeftOut

MARIA_DUMP = "mariadb-dump"
# A line for each row, with bytes in hexadecimal digits, and no comments.
DUMP = ["--skip-comments", "--no-tablespaces", "--skip-lock-tables", "--skip-extended-insert", "--hex-blob", "--order-by-primary", "--databases", "s"]
TABLE, ROW = re.compile(rb"CREATE TABLE `(\w+)`"), re.compile(rb"INSERT INTO `(\w+)`")
# Counters aren't in a log, and aren't undone.
COUNTER = re.compile(rb" AUTO_INCREMENT=\d+")
# What a dump leaves out.
GENERATED = b"SELECT * FROM s.parent;"

OPTIONS = [
    ["--binlog-checksum=CRC32"],
    ["--binlog-checksum=NONE", "--binlog-row-metadata=FULL"],
    ["--binlog-checksum=CRC32", "--binlog-row-metadata=MINIMAL"],
]
WITHOUT_GTIDS = ["--gtid-mode=OFF", "--enforce-gtid-consistency=OFF"]


class Kind:
    """What both kinds of servers do."""

    def made(self):
        """The statements that make the tables of the loads."""
        return undo_loads.made(self.columns, self.engine)

    def apply(self, server, log):
        """Applies a log by the server's programs."""
        printed = subprocess.run([*self.printer, log], stdout=subprocess.PIPE, check=True)
        server.run(printed.stdout)

    def force(self, server, statements):
        """Runs statements, of which some may fail."""
        words = [*server.client(), "--force"]
        subprocess.run(words, input=statements, stdout=subprocess.DEVNULL, stderr=subprocess.DEVNULL)

    def tables(self, server):
        """The lines of a dump: the rows of each table by its name, in order, and under no name all others. Generated columns are selected."""
        dump = subprocess.run([*self.dumper, f"--socket={server.socket}", *DUMP], stdout=subprocess.PIPE, check=True)
        found = {"": [], "generated": server.run(GENERATED).splitlines()}
        for line in dump.stdout.split(b"\n"):
            table, row = TABLE.match(line), ROW.match(line)
            if table:
                found[table[1].decode()] = []
            found[row[1].decode() if row else ""].append(line if row else COUNTER.sub(b"", line))
        return {name: sorted(lines) if name else lines for name, lines in found.items()}


class Maria(Kind):
    """MariaDB's servers. One of their tables can't roll back."""

    name, engine, columns = "MariaDB", "Aria", undo_loads.MARIA
    forms = [*OPTIONS, ["--binlog-checksum=CRC32", "--log-bin-compress=ON", "--log-bin-compress-min-len=10"]]
    compressing, compressed = "--log-bin-compress=ON", range(165, 172)

    def __init__(self, folder):
        self.program = maria_daemon.program_in(folder / "package")
        if shutil.which(MARIA_DUMP) is None:
            raise LeftOut(f"there is no {MARIA_DUMP}")
        self.printer = [maria_daemon.PRINTER, "--no-defaults"]
        self.dumper = [MARIA_DUMP, "--no-defaults"]

    @contextmanager
    def server(self, folder, options):
        with maria_daemon.Server(self.program, folder, ["--binlog-format=ROW", *options]) as server:
            yield server

    def newest_gtid(self, server):
        return server.run(b"SELECT @@gtid_binlog_pos;").decode().split()[-1]


class Mysql(Kind):
    """MySQL's servers. What they do has new GTIDs, so what is applied states none."""

    name, engine, columns = "MySQL", "InnoDB", undo_loads.MYSQL
    forms = [OPTIONS[0], [*OPTIONS[1], *WITHOUT_GTIDS], OPTIONS[2], ["--binlog-checksum=CRC32", "--binlog-transaction-compression=ON"]]
    compressing, compressed = "--binlog-transaction-compression=ON", [40]

    def __init__(self, folder):
        self.programs, self.data = mysql_daemon.unpacked()
        self.printer = [*self.programs.command("mysqlbinlog"), "--skip-gtids"]
        self.dumper = [*self.programs.command("mysqldump"), "--user=root", "--set-gtid-purged=OFF"]

    @contextmanager
    def server(self, folder, options):
        with mysql_daemon.Server(self.programs, self.data, folder) as server:
            server.start(*options)
            yield server

    def newest_gtid(self, server):
        """The last number of the only source; empty without GTIDs."""
        return re.sub(r":.*?(\d+)$", r":\1", server.run(b"SELECT @@GLOBAL.gtid_executed;").decode().strip())


def events_of(log):
    """The type of each event of a log, where it begins, and where it ends."""
    content, place = log.read_bytes(), len(listing_model.FILE_HEADER)
    while place < len(content):
        header = content[place : place + listing_model.HEADER_LENGTH]
        end = place + listing_model.event_size(header)
        yield listing_model.type_number(header), place, end
        place = end


class Undo:
    """Undoes logs of a server, and says what is wrong with that."""

    def __init__(self, words, kind, server, folder):
        self.words, self.kind, self.server, self.folder = words, kind, server, folder
        self.count, self.out, self.said = 0, None, []

    def tables(self):
        return self.kind.tables(self.server)

    def status(self, options, logs):
        """The status of a run that writes what undoes logs into a new file. What it says is kept."""
        self.count += 1
        self.out = self.folder / f"{self.count}.out"
        words = [*self.words, "undo", *options, "-o", str(self.out), *map(str, logs)]
        run = subprocess.run(words, capture_output=True, text=True)
        self.said = run.stderr.splitlines()
        return run.returncode

    def brings(self, options, logs, wanted):
        """None if the tables are these behind what undoes the logs, else what is wrong."""
        status = self.status(options, logs)
        if status != 0:
            return f"undo with {options}: status {status}: {self.said}"
        self.kind.apply(self.server, self.out)
        found = self.tables()
        others = [f"{name}: {difference(found.get(name, []), wanted.get(name, []))}" for name in found | wanted if found.get(name) != wanted.get(name)]
        return f"behind undo with {options} tables aren't the wanted ones: {'; '.join(others)}" if others else None

    def skips(self, reason, logs, wanted):
        """The same where what is refused for this reason, and nothing else is, stays as it is."""
        wrong = self.brings(["--skip", reason], logs, wanted)
        is_said = self.said and all(line.startswith("binlog: skipped: ") and f": {reason}: " in line for line in self.said)
        return wrong or (None if is_said else f"what is skipped as {reason}: {self.said}")

    def refuses(self, reason, options, logs):
        """None if nothing is written for this reason, and no other one, else what is wrong."""
        status = self.status(options, logs)
        is_said = self.said and all(f": {reason}: " in line for line in self.said)
        is_there = self.out.exists() or Path(f"{self.out}.part").exists()
        return None if status == 2 and is_said and not is_there else f"undo with {options}, refused as {reason}: status {status}: {self.said}"


def difference(found, wanted):
    """How many lines there are, and the first one of each that the other hasn't."""
    first = lambda some, others: next((line[:200] for line in some if line not in others), b"")
    return f"{len(found)} lines, not {len(wanted)}: {first(found, wanted)}, not {first(wanted, found)}"
