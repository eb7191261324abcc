#!/usr/bin/env python3
"""Compares `binlog stats --by table`, `--by time`, `--by transaction` and `--by type --json` with an independent count.

Usage: change_statistics.py [--count N] FLAG

FLAG is one of `programs.py`: it says which `binlog` is run. The text and the lines of JSON are those of the count of
`statistics_model.py`: over logs of both servers whose table ids are given to one table after another, over N damaged row events of
every type of column (4,000 if not given), over damaged copies, over several files, with filters, and with `--top`. A log of 65,536
tables is counted, and one of 65,537 has a message and the status 3; so has a transaction of as many tables. MariaDB's compressed row
events are made by Python's zlib, some damaged before they are compressed, some behind. Compressed transactions of MySQL's are those of
`payload_lines.py`, many of them damaged. The last line is `N passed, M failed`; the exit
status is 1 if something failed.
"""

import argparse
import random
import subprocess
import sys
import tempfile
from pathlib import Path

import encoded_events as encode
import event_data_model
import grouped_events
import maria_events
import maria_json_model
import payload_lines
import programs
import results
import row_events
import row_values
import table_filters
from row_values import framed, start
from samples import POST_HEADER_LENGTHS
from statistics_model import BEGINS, Counts

FINE, DAMAGED, FAILED, USAGE = 0, 2, 3, 64
MOST_TABLES = 65_536
MOST_INTERVALS = 1_048_576
SID = bytes(range(16))
INT = 3
DAMAGED_COPIES = 150
# The types of MariaDB's compressed row events, by those of the events that were compressed.
COMPRESSED = {plain: kind for kind, plain in maria_json_model.ROWS_COMPRESSED.items()}


class Runner:
    """Runs the program over logs in a folder."""

    def __init__(self, binlog, folder):
        self.binlog, self.folder = binlog, Path(folder)

    def run(self, logs, words):
        names = [f"{place}.bin" for place in range(len(logs))]
        for name, log in zip(names, logs):
            (self.folder / name).write_bytes(log)
        return subprocess.run([*self.binlog, "stats", *words, *names], cwd=self.folder, capture_output=True)

    def check(self, name, logs, words=(), top=None, is_taken=lambda kind: True, statuses=(FINE, DAMAGED)):
        """None where the text and the lines of JSON are those of the count, else what is wrong."""
        counts = Counts(is_taken)
        for log in logs:
            counts.add_log(log)
        words = [*words, "--by", "table", *(() if top is None else ("--top", str(top)))]
        yield from self.compare(name, logs, words, counts.text(top), counts.json(top), statuses)

    def check_intervals(self, name, logs, seconds, spelling, words=(), is_taken=lambda kind: True):
        """The same of the statistics by time."""
        counts = Counts(is_taken)
        for log in logs:
            counts.add_log(log)
        words = [*words, "--by", f"time={spelling}"]
        yield from self.compare(name, logs, words, grouped_events.intervals_text(counts.events, seconds), grouped_events.intervals_json(counts.events, seconds))

    def check_transactions(self, name, logs, top=None, words=(), is_taken=lambda kind: True):
        """The same of the statistics by transaction."""
        counts = Counts(is_taken)
        for log in logs:
            counts.add_log(log)
        words = [*words, "--by", "transaction", *(() if top is None else ("--top", str(top)))]
        yield from self.compare(name, logs, words, grouped_events.transactions_text(counts.events, top), grouped_events.transactions_json(counts.events, top))

    def check_types(self, name, logs, words=(), is_taken=lambda kind: True):
        """The same of the lines of JSON of the statistics by type."""
        counts = Counts(is_taken)
        for log in logs:
            counts.add_log(log)
        for grouping in ((), ("--by", "type")):
            finished, wanted = self.run(logs, [*words, *grouping, "--json"]), grouped_events.types_json(counts.events, counts.damaged, counts.damaged_inside)
            is_right = finished.returncode in (FINE, DAMAGED) and finished.stdout == wanted
            yield None if is_right else f"{name} {words}: status {finished.returncode}, {finished.stdout}, not {wanted} {finished.stderr[-200:]}"

    def compare(self, name, logs, words, text, lines, statuses=(FINE, DAMAGED)):
        for more, wanted in (((), text), (("--json",), lines)):
            finished = self.run(logs, [*words, *more])
            if finished.returncode not in statuses or finished.stdout != wanted:
                found = next((pair for pair in zip(finished.stdout.split(b"\n"), wanted.split(b"\n")) if pair[0] != pair[1]), None)
                yield f"{name} {words}: status {finished.returncode}, {found} {finished.stderr[-200:]}"
            else:
                yield None


# ---- logs


def gtid(number, is_maria):
    made = maria_events.gtid(1, 0, number) if is_maria else encode.gtid(33, sid=SID, gno=number)
    return made.type, made.body


def other_gtid(number):
    """One of MySQL's with a tag, or that of an anonymous transaction."""
    tagged = [("flags", 0), ("sid", SID), ("gno", number), ("tag", f"tag_{number}")]
    made = encode.tagged_gtid(tagged) if number % 2 else encode.gtid(34, sid=bytes(16), gno=0)
    return made.type, made.body


def log_of(is_maria, events, step=7):
    """A log with these events, each one of its second; with a negative step each is earlier than the one before it."""
    frames = ((place, framed(kind, body)) for place, (kind, body) in enumerate(events))
    timed = b"".join((1_700_000_000 + step * place).to_bytes(4, "little") + frame[4:] for place, frame in frames)
    return start(table_filters.MARIA if is_maria else table_filters.MYSQL) + timed


def transactions(seed, is_maria, count, step=7):
    """Random events with GTIDs among them, and rows of several tables in one transaction."""
    chance = random.Random(seed)
    state = table_filters.State(chance, is_maria, False)
    events = []
    for number in range(1, count + 1):
        if chance.random() < 0.2:
            events.append(gtid(number, is_maria))
        else:
            made = state.event()
            events.append((made.type, made.body))
    return log_of(is_maria, events, step)


def one_row_map(number, database, table):
    parts = {"table_id": number, "flags": 1, "types": bytes([INT]), "metadata": b"", "nulls": [True], "optional": row_events.names([b"id"])}
    return 19, encode.table_map(row_values.SPELLING, database=database, table=table, **parts).body


def inserted(number, *values):
    content = b"".join(b"\0" + value.to_bytes(4, "little") for value in values)
    return row_values.row_event(row_values.WHOLE[3], number, [True], [True], content)


def compressed(chance, kind, body):
    """A row event as MariaDB compresses it, some of them damaged before, and some behind."""
    rows = event_data_model.fields(kind, body, POST_HEADER_LENGTHS)["rows_data"].bytes
    head = body[: len(body) - len(rows)]
    if rows and chance.random() < 0.3:
        rows = row_values.damage(chance, rows)
    stored = head + maria_events.stored(rows, chance.choice((None, 3, 4)), chance.randrange(10))
    return COMPRESSED[kind], row_values.damage(chance, stored) if chance.random() < 0.3 else stored


def compressed_log(chance, kinds, is_maria, count):
    """Row events of every type of column, compressed where MariaDB has such a type."""
    events = []
    while len(events) < count:
        chosen, table = row_values.random_table(chance, kinds)
        events.append(table)
        for _ in range(chance.randint(1, 6)):
            number = int.from_bytes(table[1][:6], "little") if chance.random() < 0.95 else 9
            kind, body = row_values.random_event(chance, chosen, number)
            events.append(compressed(chance, kind, body) if kind in COMPRESSED else (kind, body))
    return log_of(is_maria, events)


def many_tables(count):
    """A log with one row of each of so many tables. Each of them has the id 1."""
    for number in range(count):
        yield one_row_map(1, b"d", b"t%d" % number)
        yield inserted(1, number)


# ---- cases


def random_logs(runner):
    for seed in range(60):
        is_maria = seed % 2 == 1
        yield from runner.check(f"log {seed}", [transactions(seed, is_maria, 120)], statuses=(FINE,))


def several_files(runner):
    logs = [transactions(seed, seed == 2, 80) for seed in range(4)]
    yield from runner.check("four files", logs)
    for top in (0, 1, 3, 1000):
        yield from runner.check("four files", logs, top=top)
    for name, number in (("WRITE_ROWS", 30), ("UPDATE_ROWS", 31), ("GTID", 33)):
        kinds = (33, 162) if number == 33 else (number,)
        yield from runner.check("four files", logs, ["--type", name], is_taken=lambda kind, kinds=kinds: kind in kinds)


# Lengths of intervals, and how options spell them. The last one is the longest.
LENGTHS = ((1, "1s"), (60, "60s"), (60, "1m"), (420, "7m"), (3600, "1h"), (2**32 - 1, f"{2**32 - 1}s"))


def by_time(runner):
    for seed in range(30):
        seconds, spelling = LENGTHS[seed % len(LENGTHS)]
        yield from runner.check_intervals(f"log {seed}", [transactions(seed, seed % 2 == 1, 120)], seconds, spelling)
    logs = [transactions(seed, seed == 2, 80) for seed in range(4)]
    yield from runner.check_intervals("four files", logs, 60, "1m")
    yield from runner.check_intervals("four files", logs, 60, "1m", ["--type", "WRITE_ROWS"], lambda kind: kind == 30)
    chance, log = random.Random(8), logs[0]
    for _ in range(DAMAGED_COPIES):
        place = chance.randrange(4, len(log))
        copy = log[:place] + bytes([log[place] ^ chance.randrange(1, 256)]) + log[place + 1 :]
        yield from runner.check_intervals(f"byte {place} changed", [copy], 60, "60s")


def by_transaction(runner):
    for seed in range(30):
        yield from runner.check_transactions(f"log {seed}", [transactions(seed, seed % 2 == 1, 200)], (None, 0, 1, 3, 1000)[seed % 5])
    logs = [transactions(seed, seed == 2, 80) for seed in range(4)]
    yield from runner.check_transactions("four files", logs)
    yield from runner.check_transactions("four files", logs, 7, ["--type", "GTID"], lambda kind: kind in (33, 162))
    equal = log_of(False, [gtid(number, False) for number in range(1, 51)])
    for top in (None, 1, 49, 50, 51):
        yield from runner.check_transactions("50 of one size", [equal], top)
    numbers = 0, 1, 2**63 - 1, 2**63, 2**64 - 1
    yield from runner.check_transactions("numbers that no GTID has", [log_of(False, [gtid(number, False) for number in numbers])])
    yield from runner.check_transactions("tags, and no GTIDs", [log_of(False, [other_gtid(number) for number in range(1, 51)])])
    yield from runner.check_transactions("back in time", [transactions(5, False, 80, step=-7)])
    chance, log = random.Random(9), logs[0]
    for _ in range(DAMAGED_COPIES):
        place = chance.randrange(4, len(log))
        copy = log[:place] + bytes([log[place] ^ chance.randrange(1, 256)]) + log[place + 1 :]
        yield from runner.check_transactions(f"byte {place} changed", [copy])
    yield rotation_fault(runner)


def rotation_fault(runner):
    """None if what is behind the last transaction of a file, and in front of the first one of the next, is in none, else what is wrong."""
    xid, rotate = ((event.type, event.body) for event in (encode.xid(value=7), encode.rotate(position=4, name="log.000002")))
    list_of = encode.previous_gtids([(SID, None, [(1, 2)])])
    logs = [log_of(False, [gtid(1, False), xid, rotate], 3600), log_of(False, [(list_of.type, list_of.body), gtid(2, False), xid])]
    finished = runner.run(logs, ["--by", "transaction", "--json"])
    size = len(framed(*gtid(1, False))) + len(framed(*xid))
    is_right = all(f'"duration":{seconds},"events":2,"bytes":{size},'.encode() in finished.stdout for seconds in (3600, 7))
    return None if is_right else f"a rotation: {finished.stdout}"


def by_type(runner):
    for seed in range(30):
        yield from runner.check_types(f"log {seed}", [transactions(seed, seed % 2 == 1, 120)])
    logs = [transactions(seed, seed == 2, 80) for seed in range(4)]
    yield from runner.check_types("four files", logs)
    yield from runner.check_types("four files", logs, ["--type", "WRITE_ROWS"], lambda kind: kind == 30)
    yield from runner.check_types("no event", [start(table_filters.MYSQL)], ["--type", "XID"], lambda kind: kind == 16)
    every_type = b"".join(framed(kind, bytes(8)) for kind in range(256) if kind not in (4, 15, 19))
    yield from runner.check_types("every type", [start(table_filters.MYSQL) + every_type])
    chance, log = random.Random(10), logs[0]
    for _ in range(DAMAGED_COPIES):
        place = chance.randrange(4, len(log))
        copy = log[:place] + bytes([log[place] ^ chance.randrange(1, 256)]) + log[place + 1 :]
        yield from runner.check_types(f"byte {place} changed", [copy])


def event_at(time):
    return time.to_bytes(4, "little") + framed(*gtid(1, False))[4:]


def interval_caps(runner):
    """As many intervals as are counted, one of them again, and one more. Earlier times come later."""
    logs = start(table_filters.MYSQL), b"".join(event_at(2_000_000_000 - number) for number in range(MOST_INTERVALS - 1))
    for name, more, is_full in (("all intervals", b"", False), ("one of them again", event_at(2_000_000_000), False), ("one more", event_at(7), True)):
        finished = runner.run([b"".join(logs) + more], ["--by", "time=1s"])
        if is_full:
            is_right = (finished.returncode, finished.stdout) == (FAILED, b"") and b"more than 1048576 intervals" in finished.stderr
        else:
            is_right = finished.returncode == FINE and finished.stdout.startswith(b"intervals 1048576\nseconds 1\n") and finished.stdout.count(b"\n") == MOST_INTERVALS + 2
        yield None if is_right else f"{name}: {finished.returncode} {finished.stdout[:200]} {finished.stderr[-200:]}"


def damaged_events(runner, count):
    chance, kinds, seed = random.Random(61), list(row_events.kinds()), 0
    while count > 0:
        is_maria = chance.random() < 0.5
        events, rows = row_values.damaged_log(chance, kinds, min(count, row_values.EVENTS_OF_A_LOG))
        found = list(runner.check(f"damaged events, {count} left", [log_of(is_maria, events)]))
        yield from found
        yield from [None] * (rows - len(found) if not any(found) else 0)
        count, seed = count - rows, seed + 1


def compressed_events(runner):
    """Compressed rows. A server of MySQL's has no such types."""
    chance, kinds = random.Random(63), list(row_events.kinds())
    for seed in range(40):
        yield from runner.check(f"compressed events, log {seed}", [compressed_log(chance, kinds, seed % 8 != 0, 100)])
    log = compressed_log(chance, kinds, True, 100)
    yield from runner.check_intervals("compressed events", [log], 60, "1m")
    yield from runner.check_transactions("compressed events", [log])
    kind, body = inserted(1, *range(50_000))
    head, rows = body[: -5 * 50_000], body[-5 * 50_000 :]
    for content in (rows, rows[:-1], b""):
        event = COMPRESSED[kind], head + maria_events.stored(content)
        yield from runner.check(f"{len(content)} bytes of rows", [log_of(True, [one_row_map(1, b"d", b"t"), event])], statuses=(FINE,))


def compressed_transactions(runner, count):
    """Events inside compressed transactions, many of them damaged, and those of the tables that filters take."""
    chance = random.Random(64)
    for number in range(count):
        log = payload_lines.random_log(chance)
        name = f"compressed transactions, log {number}"
        yield from runner.check(name, [log])
        yield from runner.check_types(name, [log])
        yield from runner.check_intervals(name, [log], 60, "1m")
        yield from runner.check_transactions(name, [log])
    events = [gtid(1, False), payload_lines.with_payload(chance, [one_row_map(1, b"d", b"t"), inserted(1, 7, 8), payload_lines.XID], "none")]
    finished = runner.run([log_of(False, events)], ["--by", "transaction", "--json"])
    of_all = f'"events":5,"bytes":{sum(len(framed(*event)) for event in events)},"inserted":2'
    of_table = f'"events":1,"bytes":{len(framed(*inserted(1, 7, 8)))},"inserted":2'
    is_right = of_all.encode() in finished.stdout and of_table.encode() in finished.stdout
    yield None if is_right else f"a compressed transaction: {finished}, not {of_all}, {of_table}"
    for seed in range(4, 8):
        log, made = table_filters.log(seed, False, 150)
        for asked in (table_filters.Asked(*names) for names in table_filters.ASKED):
            indexes, _ = table_filters.taken(made, asked, False)
            takes = lambda index, part: index in indexes and (part is None or asked.takes_inside(made[index].inside[part]))
            # By table the transactions are counted, too, whatever the tables are.
            of_tables = Counts(takes=lambda index, part: takes(index, part) or (part is None and made[index].type in BEGINS)).add_log(log)
            yield from runner.compare(f"tables, log {seed}", [log], [*asked.words, "--by", "table"], of_tables.text(), of_tables.json())
            counts = Counts(takes=takes).add_log(log)
            finished = runner.run([log], [*asked.words, "--json"])
            is_right = finished.stdout == grouped_events.types_json(counts.events, counts.damaged, counts.damaged_inside)
            yield None if is_right else f"tables by type, log {seed} {asked.words}: {finished.stdout[:300]}"
    yield from tables_of_transactions(runner)


def tables_of_transactions(runner):
    """Transactions of which a table has rows, by hand: two of three have rows of the first table, the last one has two of its row events. Sizes of transactions
    are those of all of their events, so tables don't go with them."""
    first, second = one_row_map(1, b"shop", b"orders"), one_row_map(2, b"shop", b"items")
    events = [gtid(1, False), first, inserted(1, 7), gtid(2, False), second, inserted(2, 7), gtid(3, False), first, inserted(1, 8), second, inserted(2, 9), inserted(1, 10)]
    for words in (["--table", "shop.orders"], ["--table", "*.orders"]):
        finished = runner.run([log_of(False, events)], [*words, "--by", "table"])
        lines = finished.stdout.splitlines()
        is_right = lines[1] == b"transactions 3" and len(lines) == 4 and b"3 inserted 0 updated 0 deleted 0 unread 2 transactions" in lines[3]
        yield None if is_right and finished.returncode == FINE else f"{words}: {finished}"
    for words in (["--table", "shop.orders"], ["--database", "shop"]):
        finished = runner.run([log_of(False, events)], [*words, "--by", "transaction"])
        is_right = (finished.returncode, finished.stdout) == (USAGE, b"") and b"don't go with --by transaction" in finished.stderr
        yield None if is_right else f"{words} --by transaction: {finished}"


def damaged_copies(runner):
    chance, log = random.Random(7), transactions(3, False, 60)
    for _ in range(DAMAGED_COPIES):
        place = chance.randrange(4, len(log))
        copy = log[:place] + bytes([log[place] ^ chance.randrange(1, 256)]) + log[place + 1 :]
        yield from runner.check(f"byte {place} changed", [copy])
    for length in (4, 5, len(log) // 2, len(log) - 1):
        yield from runner.check(f"the first {length} bytes", [log[:length]])


def names(runner):
    """Names that are no UTF-8, empty, long, or need an escape, and names with control characters, which would forge a line or reach a terminal."""
    pairs = [(b"\xff", b"t"), (b"", b""), (b"d" * 255, b"t" * 255), (b'a"b', b"c\\\n"), ("sch\u00f6n".encode(), b"t.u"), (b"sch\xc3", b"t")]
    pairs += [(b"shop", b"t 0 events\ntable shop.orders"), (b"\x1b[2J", b"t"), (b"a\x1fb", b"a b"), (b"\x7f", b"~"), (b"\0", b"t\r")]
    events = [gtid(1, False)]
    for number, pair in enumerate(pairs):
        events += [one_row_map(number + 1, *pair), inserted(number + 1, *range(number))]
    yield from runner.check("names", [log_of(False, events)], statuses=(FINE,))


def caps(runner):
    """The text above the tables, and the first one, since the count takes long over so many."""
    again = [one_row_map(1, b"d", b"t7"), inserted(1, 9)]
    for name, events, first in (("all tables", many_tables(MOST_TABLES), b"d.t0 1"), ("one of them again", [*many_tables(MOST_TABLES), *again], b"d.t7 2")):
        finished = runner.run([log_of(False, events)], ["--by", "table", "--top", "1"])
        wanted = b"tables 65536\ntransactions 0\nunknown 0 events 0 bytes\ntable %s events " % first
        is_right = finished.returncode == FINE and finished.stdout.startswith(wanted)
        yield None if is_right else f"{name}: {finished.returncode} {finished.stdout[:200]} {finished.stderr[-200:]}"
    log = log_of(False, many_tables(MOST_TABLES + 1))
    for words in ((), ("--json",)):
        finished = runner.run([log], ["--by", "table", *words])
        is_right = (finished.returncode, finished.stdout) == (FAILED, b"") and b"more than 65536 tables" in finished.stderr
        yield None if is_right else f"65,537 tables: {finished.returncode} {finished.stdout[:80]} {finished.stderr[-200:]}"


def transaction_caps(runner):
    """A transaction of as many tables as are counted, and one of one more, alone and where it isn't kept."""
    for count, is_full in ((MOST_TABLES, False), (MOST_TABLES + 1, True)):
        log = log_of(False, [gtid(1, False), *many_tables(count)])
        for words in ((), ("--json",)):
            finished = runner.run([log], ["--by", "transaction", *words])
            if is_full:
                is_right = (finished.returncode, finished.stdout) == (FAILED, b"") and b"more than 65536 tables" in finished.stderr
            else:
                is_right = finished.returncode == FINE and finished.stdout.count(b"table") >= count
            yield None if is_right else f"a transaction of {count} tables: {finished.returncode} {finished.stdout[:80]} {finished.stderr[-200:]}"
        finished = runner.run([log], ["--by", "transaction", "--top", "0"])
        yield None if finished.returncode == FINE else f"{count} tables, none kept: {finished.returncode} {finished.stderr[-200:]}"


def usage(runner):
    log = transactions(0, False, 10)
    wrong = (["--by", "row"], ["--by", ""], ["--by", "table", "--top", "x"], ["--by", "table", "--top", "-1"], ["--top", "1"], ["--by", "type", "--json", "--top", "1"])
    for words in (*wrong, ["--by", "time=0s"], ["--by", "time=60"], ["--by", "time=s"]):
        finished = runner.run([log], words)
        yield None if (finished.returncode, finished.stdout) == (USAGE, b"") else f"{words}: {finished}"


def main():
    parser = argparse.ArgumentParser(description="Compares statistics with an independent count.")
    programs.add_flags(parser)
    parser.add_argument("--count", type=int, default=4_000)
    arguments = programs.parsed(parser, "binlog")
    with tempfile.TemporaryDirectory() as folder:
        runner = Runner(arguments.build.command("binlog"), folder)
        found = [result for part in (random_logs, several_files, by_type, by_time, by_transaction, compressed_events, damaged_copies, names, caps, transaction_caps, interval_caps, usage) for result in part(runner)]
        found += damaged_events(runner, arguments.count)
        found += compressed_transactions(runner, arguments.count // 20)
    return results.report(found)


if __name__ == "__main__":
    sys.exit(main())
