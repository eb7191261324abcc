#!/usr/bin/env python3
"""Compares what `binlog` says of a MySQL server's logs with what the server and `mysqlbinlog` say of them.

Usage: mysql_server.py FLAG

FLAG is one of `programs.py`: it says which `binlog` is run. A MySQL 9 server runs a load in a temporary folder, on a socket there:
tables of every type of column in several forms of the log, statements, transactions of each kind, files that are loaded, small logs, logs without
checksums, with tags and without GTIDs; it is shut down once, and killed once. Then a test each:

- that each event of the listing and of the lines of JSON has the header that `mysqlbinlog` prints, and each part of its data;
- that each value of a row is the printed one, and, after all rows are applied in order, the one that the server selects;
- that each value of a row is the one that the server selects, too, by a file of columns that is the server's own answer, where the log
  states the names and members of no column;
- that each field of the optional metadata states what the server says of the columns and keys;
- that the listing, the lines, the GTIDs and the statistics of a log are those of their models, and that all of its events are verified;
- that the GTIDs are those that the next log begins with, and at the end those that the server has executed;
- that a copy has the bytes of its log, and that each table is the same in another server, in which the copies are replayed.

Rows and table maps are also those inside compressed transactions. Other events in them aren't compared. Where no server is kept from an earlier
run and none can be downloaded (`mysql_daemon.py` says where it comes from), a line says so, nothing is run, and both numbers are
0. The last line is `N passed, M failed`; the exit status is 1 if something failed.
"""

import argparse
import json
import subprocess
import sys
import tempfile
from itertools import zip_longest
from pathlib import Path
from typing import NamedTuple

import column_files
import gtid_model
import json_model
import listing_model
import mysql_documents
import mysql_metadata
import mysql_printed
import results
import server_statistics
from damaged_copies import first_difference
from mysql_columns import collations_of, columns_of
from mysql_daemon import LeftOut, Server, unpacked
from mysql_events import Events, gtids_of_set, previous_gtids
from mysql_rows import Tables, printed_failures, row_events, selected, states_names
from mysql_workload import METADATA, SCHEMAS_OF_ROWS, TABLES_OF_ROWS, run_load
from programs import add_flags, parsed


class Log(NamedTuple):
    """A log: whether it ends within an event, as that of a killed server may; its lines of JSON, also those of the events inside
    compressed transactions, what `mysqlbinlog` prints, and the events that are printed."""

    path: Path
    is_cut: bool
    all_lines: list
    output: bytes
    printed: list

    def lines(self):
        """The lines of the log's events, without those inside compressed transactions."""
        return [line for line in self.all_lines if "part" not in line]

    def outer(self):
        """The printed events that aren't within compressed transactions."""
        return [event for event in self.printed if not event.is_inner]


def read_log(program, programs, path):
    output = mysql_printed.output_of(programs, path)
    is_cut = listing_model.is_cut(path.read_bytes())
    lines = lines_of(output_of(program, "json", path, is_cut=is_cut))
    return Log(path, is_cut, lines, output, list(mysql_printed.events(output)))


def lines_of(output):
    return [json.loads(line, parse_float=mysql_documents.Number) for line in output.splitlines()]


def output_of(program, *words, is_cut=False):
    """What a command prints; its exit status has to be 0, or that of a log that ends within an event."""
    finished = subprocess.run([program, *words], capture_output=True)
    if finished.returncode != (listing_model.STATUS_ERRORS if is_cut else listing_model.STATUS_FINE):
        raise ChildProcessError(f"{' '.join(map(str, words))}: status {finished.returncode}, {finished.stderr.decode()[:500]}")
    return finished.stdout


# ---- A log


def log_failures(program, log, collations, columns, described):
    """For each test of a log, None or what is wrong."""
    listing = output_of(program, "list", log.path, is_cut=log.is_cut).decode().splitlines()
    yield from event_failures(log, listing, collations)
    yield from printed_failures(columns, log.all_lines, mysql_printed.rows(log.output))
    yield from metadata_failures(log, described)
    yield from model_failures(program, log.path)
    yield verified(program, log)


def event_failures(log, listing, collations):
    """For each part of each event, None or how it is printed otherwise."""
    events, place = Events(collations), len(listing_model.FILE_HEADER)
    lines = zip_longest(log.lines(), listing)
    for event in log.printed:
        if event.is_inner:
            events.take_settings(event)
            continue
        line, listed = next(lines, (None, None))
        if line is None or listed is None:
            yield f"no line for an event at {event.place}"
            return
        yield None if place == event.place else f"an event at {place}, printed at {event.place}"
        yield from (wrong and f"at {place}: {wrong}" for wrong in events.differences(line, event))
        wanted = [str(event.type), str(event.size), str(event.log_pos), f"{event.flags:04x}"]
        found = listed.split(" ")[1:5]
        yield None if found == wanted else f"at {place}: listed as {found}, printed as {wanted}"
        place += event.size
    yield None if next(lines, None) is None else f"more lines than the {len(log.outer())} printed events"


def metadata_failures(log, described):
    """For each field of each table map of the forms, None or what else the server says of the table."""
    for line in log.all_lines:
        schema = line["data"]["database_name"] if line["name"] == "TABLE_MAP_EVENT" else None
        if schema in METADATA:
            table = described[f"{schema}.{line['data']['table_name']}"]
            yield from mysql_metadata.failures(table, line["data"], METADATA[schema] == "FULL")


def model_failures(program, path):
    """Whether listing, lines, GTIDs and statistics are those of their models."""
    content = path.read_bytes()
    for command, model in (("list", listing_model), ("json", json_model), ("gtids", gtid_model)):
        finished = subprocess.run([program, command, path], capture_output=True)
        output, status = listing_model.of_command(model.expected)(content)
        if finished.returncode != status or finished.stdout != output:
            yield f"{command}, unlike its model: status {finished.returncode}, {first_difference(finished.stdout, output)[:500]}"
        else:
            yield None
    yield from server_statistics.model_failures([program], path)


def verified(program, log):
    """Whether all events are verified, each by its checksum if it has one; the description always has one. The beginning of an
    event at the end of a log is one that is damaged."""
    outer = log.outer()
    checksums = len(outer) if outer[-1].checksum else 1
    size = sum(event.size for event in outer)
    wanted = f"{log.path}: {len(outer)} events, {size} bytes, {checksums} checksums right, {int(log.is_cut)} events damaged\n"
    found = output_of(program, "verify", log.path, is_cut=log.is_cut).decode()
    return None if found == wanted else f"verified as {found!r}, not {wanted!r}"


# ---- All logs


def gtids_of(program, logs):
    """The GTIDs of logs as the program lists them: for each source and tag its intervals."""
    found = {}
    for line in output_of(program, "gtids", *(log.path for log in logs)).decode().splitlines():
        source, intervals, _, _ = line.split(" ")
        sid, _, tag = source.partition(":")
        pairs = [interval.partition("-") for interval in intervals.split(",")]
        found[json_model.uuid(bytes.fromhex(sid)), tag] = [(int(first), int(last or first)) for first, _, last in pairs]
    return found


def gtid_failures(program, server, logs):
    """Whether the GTIDs of the first logs are those that the next one begins with, and all of them those of the server."""
    for count, log in enumerate(logs[1:], 1):
        wanted = next(previous_gtids(event) for event in log.printed if event.says == b"Previous-GTIDs")
        found = gtids_of(program, logs[:count])
        yield None if found == wanted else f"the GTIDs before {log.path.name} are {found}, and it has {wanted}"
    ((executed,),) = server.rows("select replace(@@gtid_executed, '\\n', '')")
    wanted, found = gtids_of_set(executed), gtids_of(program, logs)
    yield None if found == wanted else f"the GTIDs of all logs are {found}, and the server has {wanted}"


def table_failures(logs, columns, selected_rows):
    """For each value of the tables whose rows are all in the logs, None or how the server has it otherwise."""
    names = [table for table in columns if table.split(".")[0] in SCHEMAS_OF_ROWS or table in TABLES_OF_ROWS]
    tables = Tables(columns)
    for log in logs:
        for line in row_events(log.all_lines):
            yield from tables.apply(line) if line["table"] in names else ()
    for table in names:
        yield from tables.failures(table, selected_rows[table])


def declared_failures(program, server, folder, logs, columns, selected_rows):
    """For each value of the tables of the forms by a file of columns, None or how the server has it otherwise, and for each row whether
    its columns have names."""
    file = folder / "columns.tsv"
    column_files.ask([*server.programs.command("mysql"), "--user=root", f"--socket={server.socket}"], file)
    names = [table for table in columns if table.split(".")[0] in SCHEMAS_OF_ROWS]
    tables = Tables(columns)
    for log in logs:
        for line in row_events(lines_of(output_of(program, "json", "--columns", file, log.path, is_cut=log.is_cut))):
            if line["table"] in names:
                yield from (None if states_names(row) else f"{line['table']} before {line['log_pos']}: {row}" for row in line["rows"])
                yield from tables.apply(line)
    for table in names:
        yield from tables.failures(table, selected_rows[table])


def copy_failures(program, target, folder, logs, columns, selected_rows):
    """Whether copies of the logs are those logs, and another server has the same tables after they are replayed there."""
    copies = []
    for log in logs:
        copy = folder / f"{log.path.name}.copy"
        output_of(program, "copy", "-o", copy, log.path)
        yield None if copy.read_bytes() == log.path.read_bytes() else f"{log.path.name}: a copy of other bytes"
        copies.append(copy)
    target.start("--gtid-mode=ON_PERMISSIVE")
    replay(target, folder, copies)
    for table, rows in selected(target, columns).items():
        yield None if sorted(rows) == sorted(selected_rows[table]) else f"{table} has other rows after the copies were replayed"


def replay(target, folder, logs):
    printer = [*target.programs.command("mysqlbinlog"), f"--local-load={folder}", *logs]
    with subprocess.Popen(printer, stdout=subprocess.PIPE) as printed:
        finished = subprocess.run(target.client(), stdin=printed.stdout, capture_output=True)
    if printed.returncode != 0 or finished.returncode != 0:
        raise ChildProcessError(f"the copies aren't replayed: {finished.stderr.decode(errors='replace')[:1000]}")


# ---- All


def all_failures(program):
    programs, new_data = unpacked()
    with (
        tempfile.TemporaryDirectory() as name,
        Server(programs, new_data, Path(name) / "source") as server,
        Server(programs, new_data, Path(name) / "target") as target,
    ):
        killed = run_load(server, Path(name))
        logs = [read_log(program, programs, path) for path in server.logs()]
        collations, columns, keys = collations_of(server), columns_of(server), mysql_metadata.keys_of(server)
        described = {table: mysql_metadata.Described(found, keys.get(table, []), collations) for table, found in columns.items()}
        for log in (*logs, read_log(program, programs, killed)):
            failures = log_failures(program, log, collations, columns, described)
            yield from (wrong and f"{log.path.name}: {wrong}" for wrong in failures)
        selected_rows = selected(server, columns)
        yield from gtid_failures(program, server, logs)
        yield from table_failures(logs, columns, selected_rows)
        yield from declared_failures(program, server, Path(name), logs, columns, selected_rows)
        yield from copy_failures(program, target, Path(name), logs, columns, selected_rows)


def main():
    parser = argparse.ArgumentParser(description="Compares what is read of a MySQL server's logs.")
    add_flags(parser)
    (program,) = parsed(parser, "binlog").build.command("binlog")
    try:
        return results.report(all_failures(program))
    except LeftOut as reason:
        return results.left_out(f"{reason}: no logs of a MySQL server are compared")


if __name__ == "__main__":
    sys.exit(main())
