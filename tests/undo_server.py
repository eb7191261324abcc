#!/usr/bin/env python3
"""Undoes what a MariaDB server did, and a MySQL server: dumps of its tables have to be those of a checkpoint again.

Usage: undo_server.py [--count N] FLAG

FLAG is one of `programs.py`. A server makes tables with columns of all of its types, with keys and without, with foreign keys and with
generated columns, and fills them. At a checkpoint the server's own program dumps them, and the log is closed. N random loads (4 if not
given) of inserts, updates, deletes and transactions of several statements follow, over several files, with checksums and without, with
compressed events or transactions, with GTIDs and, of MySQL, without. `binlog undo` undoes them, every other load as one transaction; the
server's programs apply that, and the tables are dumped again. Then what undid them is undone, and both once more for one table, and for
the transaction of one GTID. Logs behind all that are looked at: one that changes another table, one that inserts into a table that was
undone, one that deletes a row that was left behind, and one that makes a table; also with their rows checked.

Then servers do what can't be undone (`undo_refusals.py`). Each reason of `docs/UNDO.md` has to be named, and nothing be written; with
`--skip`, where that takes the reason, the rest is undone:

- servers of both kinds log `Statement`, `LoadData`, `Image`, `Xa`, `Rollback` (MySQL of statements, MariaDB of rows, too) and `Incident`,
  and what `LaterChanges` and `Straddles` are about; MariaDB also `OldTemporal` and `Encrypted`, MySQL `PartialJson`; logs with checksums
  and without give `Description`;
- of a log of a server that is cut, or has a byte changed: `Unfinished`, `Tail`, `Damaged`.

All others come from the encoder's logs alone (`undo_command.py`). No server writes rows without a table map (`NoTableMap`), rows that
can't be read (`Rows`), or events of a type without a meaning (`UnknownEvent`), and none of today those of a test version of MySQL 5.1
(`OldRows`); `Payload` and `Compressed` need more than 1 GiB in one event.

Where there is no server (`maria_daemon.py` and `mysql_daemon.py` say where they come from) nothing is done with it. The last line is
`N passed, M failed`; the exit status is 1 if something failed.
"""

import argparse
import random
import subprocess
import sys
import tempfile
from pathlib import Path

import programs
import results
import undo_refusals
from maria_daemon import LeftOut
from undo_loads import Load
from undone_servers import Maria, Mysql, Undo, events_of

# The last row of a load, which it leaves behind, and its key.
LEFT = 1_000_000
LAST = f"USE s; INSERT INTO keyed VALUES ({LEFT}, 'left', 1.5, '2024-01-01', NULL, 1); FLUSH BINARY LOGS;\n"

# What logs behind the load do, and what is said of it as a later log: nothing, or a table, or that any table may be changed; and
# whether that is said where rows are checked, too.
LATER = [
    ("INSERT INTO apart VALUES (1);", None, False),
    ("INSERT INTO keyless VALUES (1, 'b', 1.5, 'x');", "LaterChanges: s.keyless: ", False),
    (f"DELETE FROM keyed WHERE id = {LEFT};", "LaterChanges: s.keyed: ", True),
    ("CREATE TABLE made (a INT);", "LaterChanges: unknown: a statement ", True),
]


def unlooked(undo, logs, are_known):
    """What is wrong with what is said of later logs, if something is. These logs are undone. Their rows are known, or not, as those of
    events that are compressed one by one."""
    # The log that is open has what was applied.
    undo.server.run(("USE s; FLUSH BINARY LOGS;" + "".join(f"{statement} FLUSH BINARY LOGS;" for statement, *_ in LATER)).encode())
    for log, (statement, wanted, is_near) in zip(undo.server.logs()[-1 - len(LATER) : -1], LATER):
        for options, line in (([], wanted), (["--check-rows"], wanted if is_near or not are_known else None)):
            words = [*undo.words, "undo", "--dry-run", *options, "--later", str(log), *map(str, logs)]
            run = subprocess.run(words, capture_output=True, text=True)
            said = run.stderr.splitlines()
            if run.returncode != (2 if line else 0) or len(said) != bool(line) or line and line not in said[0]:
                return f"behind {statement!r}, with {options}: status {run.returncode}: {run.stderr[-300:]}"
    return None


def uncompressed(kind, form, logs):
    """Whether events of these logs should be compressed, and none is."""
    found = {number for log in logs for number, *_ in events_of(log)}
    return "nothing is compressed" if kind.compressing in form and not found & set(kind.compressed) else None


def undone(undo, options, logs, wanted, end):
    """What is wrong with what undoes these logs, and with what undoes that, if something is. The tables are those of the end."""
    return undo.brings(options, logs, wanted) or undo.brings([], [undo.out], end)


def failure(words, kind, folder, seed):
    """What is wrong with the undo of a load, if something is."""
    load, form = Load(random.Random(seed), kind.columns), kind.forms[seed % len(kind.forms)]
    with kind.server(folder, form) as server:
        undo = Undo(words, kind, server, folder)
        server.run(f"{kind.made()}{load.statements(30)}".encode())
        checkpoint, count = undo.tables(), len(server.logs()) - 1
        server.run(load.statements(60).encode())
        before_last = undo.tables()
        server.run(LAST.encode())
        end, logs, gtid = undo.tables(), server.logs()[count:-1], kind.newest_gtid(server)
        # Each form has loads of both sorts, if there are enough.
        is_one = (seed + seed // len(kind.forms)) % 2
        return (
            uncompressed(kind, form, logs)
            or undone(undo, ["--one-transaction"] * is_one, logs, checkpoint, end)
            or undone(undo, ["--table", "s.other"], logs, {**end, "other": checkpoint["other"]}, end)
            or (gtid and undone(undo, ["--include-gtids", gtid], logs, before_last, end))
            or unlooked(undo, logs, "--log-bin-compress=ON" not in form)
            or None
        )


def told(name, test, *arguments):
    """What is wrong by a test, also if it is ended by a program that fails, with the test's name; None if nothing is."""
    try:
        wrong = test(*arguments)
    except (RuntimeError, subprocess.SubprocessError) as error:
        wrong = results.of_exception(error)
    return wrong and f"{name}: {wrong}"


def server_results(words, kind, folder, count):
    """For each test of a kind of servers, None or what is wrong."""
    for seed in range(count):
        yield told(f"{kind.name}, seed {seed}", failure, words, kind, folder / f"{kind.name}-{seed}", seed)
    for name, test, *arguments in undo_refusals.tests(words, kind, folder):
        yield told(f"{kind.name}, {name}", test, *arguments)


def all_results(words, count):
    with tempfile.TemporaryDirectory() as name:
        for made in (Maria, Mysql):
            try:
                yield from server_results(words, made(Path(name)), Path(name), count)
            except LeftOut as why:
                print(f"left out: {why}")


def main():
    parser = argparse.ArgumentParser(description="Undoes what servers did.")
    programs.add_flags(parser)
    parser.add_argument("--count", type=int, default=4)
    arguments = programs.parsed(parser, "binlog")
    return results.report(all_results(arguments.build.command("binlog"), arguments.count))


if __name__ == "__main__":
    sys.exit(main())
