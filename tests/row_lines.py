#!/usr/bin/env python3
"""Compares the rows in the lines of `binlog json` with an encoder of rows and with a model of them, and those of `--compact` with theirs.

Usage: row_lines.py [--count N] FLAG

FLAG is one of `programs.py`: it says which `binlog` is run. Each line has the members that the model of JSON lines gives; the rows
are those that the encoder states for events of every type of column, and those of the model for N damaged events (20,000 if not
given), and with `--stored` for a tenth of them. Which table map is in force follows from all events of the log, also where a filter
takes only some. The last line is `N passed, M failed`; the exit status is 1 if something failed.
"""

import argparse
import json
import random
import subprocess
import sys
from itertools import zip_longest

import compact_model
import encoded_events as encode
import json_model
import programs
import results
import row_events
import row_values
from row_values import WHOLE, framed, is_same, row_event, start, table_map

STATUSES = (0, 2)
VERSIONS = ("8.0.36", "10.11.6-MariaDB")
# The option to keep the stored bytes of rows, and none.
OPTIONS = ((), ("--stored",))
ROTATE, TABLE_MAP, PARTIAL_UPDATE = 4, 19, 39
ROW_TYPES = {kind[0] for kind in encode.ROWS_KINDS}
WRITE, UPDATE, DELETE = WHOLE[3], WHOLE[4], WHOLE[5]
INT, TEXT = 3, 15
# More bytes than a buffer has before it grows.
LONG = 5_000


# ---- what is wanted of a log


def content_of(version, events):
    return start(version) + b"".join(framed(kind, body) for kind, body in events)


def parsed(lines):
    """The lines, each object as a list of pairs."""
    return [json.loads(line, object_pairs_hook=list) for line in lines.splitlines()]


def wanted_lines(version, events, words=()):
    """The members of each line by the model, those of the description first."""
    return parsed(json_model.expected(content_of(version, events), "--stored" in words)[0])


def sample():
    """A log with rows, of which one is refused, and its lines."""
    events = [FIRST, written(1, 7, b"a"), OTHER, written(2, 8, b"b"), written(2, 9, b"c" * 11), written(3, 1, b"")]
    content = content_of(VERSIONS[0], events)
    return content, json_model.expected(content)[0]


def documents_sample():
    """A log with documents of each kind of value, some of them without a text, and with partial updates, of which some have no
    document after them."""
    number = lambda value: value.to_bytes(4, "little")
    document, diffs = row_values.document_cell, row_values.diffs_cell
    row = lambda first, second: b"\0" + number(7) + document(first) + document(second)
    values = [value for value, _ in row_events.DOCUMENTS]
    inserted = [row(values, values[-1]), b"\2" + number(8) + document(b"\xff"), row(None, [row_events.WITHOUT_TEXT, b"a"])]
    updated = row([b"s" * LONG], [None]) + row([[b"s" * LONG], None], [b"a" * 300])
    lists = [([b"s" * LONG, [None]], [("insert", b"$[last]", [b"t" * LONG]), ("remove", b"$[0]", [])])]
    lists += [(value, found) for value, found, *_ in row_values.changed_documents() if len(document(value) + diffs(found)) < 100]
    changed = [
        row(first, second) + b"\1\3\0" + number(9) + diffs(diffs_of_first) + diffs(diffs_of_second)
        for (first, diffs_of_first), (second, diffs_of_second) in zip(lists[::2], lists[1::2])
    ]
    # Without the documents before: a list and a document, and bytes that are no list.
    without = [b"\0" + number(7) + b"\1\1\0" + number(9) + diffs(found) + document(value) for value, found in lists]
    without.append(b"\0" + number(7) + b"\1\3\2" + number(9) + row_events.counted(b"\3", 4))
    table = named_map(1, "shop", "orders", [b"id", b"doc", b"other"], bytes([INT, row_values.JSON, row_values.JSON]), b"\4\4")
    every, first = [True] * 3, [True, False, False]
    events = [
        table,
        row_event(WRITE, 1, every, every, b"".join(inserted)),
        row_event(UPDATE, 1, every, every, updated),
        row_event(row_values.PARTIAL, 1, every, every, b"".join(changed)),
        row_event(row_values.PARTIAL, 1, first, every, b"".join(without)),
    ]
    return content_of(VERSIONS[0], events)


# ---- runs


def lines_of(binlog, version, events, words=()):
    finished = subprocess.run([*binlog, "json", *words], input=content_of(version, events), capture_output=True)
    if finished.returncode not in STATUSES:
        return f"status {finished.returncode}"
    return parsed(finished.stdout)


def failure(name, binlog, version, events, wanted, words=()):
    """None if the lines are the wanted ones, and those of rows alone the model's, else what is wrong."""
    found = lines_of(binlog, version, events, words)
    if isinstance(found, str) or len(found) != len(wanted):
        return f"{name}: {found if isinstance(found, str) else len(found)}, not {len(wanted)} lines"
    for line, wanted_line in zip(found, wanted):
        if not is_same(line, wanted_line):
            return f"{name}: {str(line[9:])[:400]}, not {str(wanted_line[9:])[:400]}"
    return None if "--type" in words else compact_failure(name, binlog, content_of(version, events), words)


def compact_failure(name, binlog, content, words=()):
    """None if the lines of rows alone are those of their model, else what is wrong."""
    found = subprocess.run([*binlog, "json", "--compact", *words], input=content, capture_output=True)
    wanted, status = compact_model.expected(content, "-", "--stored" in words)
    if found.stdout == wanted and found.returncode == status:
        return None
    one = next(((have, want) for have, want in zip_longest(found.stdout.splitlines(), wanted.splitlines()) if have != want), found.returncode)
    return f"{name}, rows alone: {str(one)[:800]}"


def agrees(name, binlog, version, events, words):
    """Compares with the model alone."""
    return failure(f"{name}, {version} {words}", binlog, version, events, wanted_lines(version, events, words), words)


# ---- encoded events


def encoded(binlog, words):
    """Events of every type of column, with the rows that the encoder states."""
    for version in VERSIONS:
        events, stated = [], []
        for name, added, rows in row_values.encoded():
            if name == "stated_facts" and version != VERSIONS[0]:
                continue
            events += added
            stated += [None] * (len(added) - len(rows)) + [("rows", row[0][1]) for row in rows]
        wanted = wanted_lines(version, events, words)
        for line, rows in zip(wanted[1:], stated, strict=True):
            line[-2:-1] = line[-2:-1] if rows is None else [rows]
        yield failure(f"encoded, {version} {words}", binlog, version, events, wanted, words)


def damaged(binlog, count, words):
    """Damaged events, by the model."""
    chance, kinds = random.Random(35), list(row_events.kinds())
    while count > 0:
        version = chance.choice(VERSIONS)
        events, rows = row_values.damaged_log(chance, kinds, min(count, row_values.EVENTS_OF_A_LOG))
        result = agrees(f"damaged events, {count} left", binlog, version, events, words)
        yield from [result] * (1 if result else rows)
        count -= rows


# ---- which table map is in force


def named_map(table_id, database, table, names, types=bytes([INT, TEXT]), metadata=b"\x0a\0", fields=b""):
    optional = fields + row_events.names(names)
    nulls = [True] * len(types)
    event = encode.table_map(
        row_values.SPELLING, table_id=table_id, flags=1, database=database, table=table, types=types, metadata=metadata, nulls=nulls, optional=optional
    )
    return TABLE_MAP, event.body


def rotate(position):
    return ROTATE, position.to_bytes(8, "little") + b"binlog.000002"


def written(table_id, number, text, present=(True, True), kind=WRITE):
    content = (b"\0" + number.to_bytes(4, "little") if present[0] else b"\0") + (bytes([len(text)]) + text if present[1] else b"")
    return row_event(kind, table_id, list(present), list(present), content)


def shown(table, *rows):
    return [("table", table), ("rows", [[(name, list(image))] for name, image in rows])]


FIRST = named_map(1, "shop", "orders", [b"id", b"note"])
OTHER = named_map(2, "shop", "users", [b"user", b"mail"])
NEWER = named_map(1, "shop", "old_orders", [b"number", b"text"])
RENAMED = named_map(1, "shop", "orders", [b"no", b"text"])
ABSENT = [("table", None), ("rows", None)]
# How many tables a log of many has.
MANY = 300


def many_tables():
    """A log of many tables, with a row of each in turn, three times; and the members of the last events."""
    numbers = range(1, MANY + 1)
    maps = [named_map(number, "shop", f"table_{number}", [b"id", b"note_%d" % number]) for number in numbers]
    rows = [written(number, number, b"a") for number in numbers]
    wanted = [shown(f"shop.table_{number}", ("after", [("id", number), (f"note_{number}", "a")])) for number in numbers]
    return [*maps, *rows * 3], wanted * 3


def cases():
    """Logs, and the members that are wanted of their last events."""
    row = written(1, 7, b"a")
    of = lambda table, first, second: shown(table, ("after", [(first, 7), (second, "a")]))
    orders = of("shop.orders", "id", "note")
    yield "a table map", [FIRST, row], [orders]
    yield "two tables", [FIRST, OTHER, row, written(2, 7, b"a")], [orders, of("shop.users", "user", "mail")]
    yield "a newer table map", [FIRST, row, NEWER, row], [orders, [], of("shop.old_orders", "number", "text")]
    again = of("shop.orders", "no", "text")
    yield "a table map of equal length", [FIRST, row, RENAMED, row, FIRST, row, row], [orders, [], again, [], orders, orders]
    yield "an older table's id", [FIRST, row, OTHER, written(2, 7, b"a"), (TABLE_MAP, b"\2" + FIRST[1][1:]), written(2, 7, b"a"), row], [
        orders, [], of("shop.users", "user", "mail"), [], orders, orders
    ]
    yield "many tables", *many_tables()
    yield "no table map", [row, OTHER, row, FIRST], [ABSENT, [], ABSENT, []]
    yield "another table's map", [OTHER, row], [ABSENT]
    yield "a ROTATE", [FIRST, row, rotate(4), row, FIRST, row], [orders, [], ABSENT, [], orders]
    yield "a ROTATE to position 0", [FIRST, rotate(0), row], [orders]
    yield "a ROTATE that can't be read", [FIRST, (ROTATE, b"\4\0\0"), row], [orders]
    yield "a table map that can't be read", [FIRST, (TABLE_MAP, NEWER[1][:12]), row], [orders]
    yield "deleted rows", [FIRST, written(1, 7, b"a", kind=DELETE)], [shown("shop.orders", ("before", [("id", 7), ("note", "a")]))]
    yield "an absent column", [FIRST, written(1, 7, b"a", (False, True))], [shown("shop.orders", ("after", [("note", "a")]))]
    yield "no column", [FIRST, row_event(WRITE, 1, [False] * 2, [False] * 2, b"")], [shown("shop.orders")]
    yield "NULL", [FIRST, row_event(WRITE, 1, [True] * 2, [True] * 2, b"\3")], [shown("shop.orders", ("after", [("id", None), ("note", None)]))]
    yield from refused()


def refused():
    """Rows and columns that are refused."""
    number, row = (7).to_bytes(4, "little"), b"\0\7\0\0\0\1a"
    event = lambda content, kind=WRITE, count=2: row_event(kind, 1, [True] * count, [True] * count, content)
    good = [("after", [("id", 7), ("note", "a")])]
    error = lambda kind, *where: [("error", kind), *where]
    rows = lambda *items: [("table", "shop.orders"), ("rows", list(items))]
    cut = error("Truncated", ("row", 1), ("image", "after"), ("column", 1))
    yield "a row that is cut", [FIRST, event(row + b"\0" + number + b"\5ab")], [rows(good, cut)]
    yield "a row that is bad", [FIRST, event(row + b"\0" + number + b"\x0bab" + row)], [rows(good, error("BadValue", ("row", 1), ("image", "after"), ("column", 1)))]
    yield "an image before that is cut", [FIRST, event(b"", UPDATE), event(b"\0\7", UPDATE)], [rows(), rows(error("Truncated", ("row", 0), ("image", "before"), ("column", 0)))]
    yield "a null bitmap that isn't there", [FIRST, event(row, UPDATE)], [rows(error("Truncated", ("row", 0), ("image", "after")))]
    yield "bytes left over", [FIRST, row_event(WRITE, 1, [False] * 2, [False] * 2, b"\0")], [rows(error("LeftOver", ("row", 0)))]
    yield "more columns", [FIRST, event(row, count=3)], [rows(error("ColumnCount", ("event", 3), ("table", 2)))]
    bad_type = named_map(1, "shop", "orders", [b"id", b"note"], bytes([INT, 20]), b"")
    yield "a column of no type", [bad_type, event(row)], [rows(error("BadType", ("column", 1)))]
    left_over = named_map(1, "shop", "orders", [b"id", b"note"], metadata=b"\x0a\0\0")
    yield "metadata left over", [left_over, event(row)], [rows(error("LeftOver", ("column", 2)))]
    unread = lambda kind, field: ("metadata", [("error", kind), ("field", field)])
    of_table = lambda fields: named_map(1, "shop", "orders", [b"id", b"note"], fields=fields)
    named, numbered = rows(good), rows([("after", [("@1", 7), ("@2", "a")])])
    yield "collations that are cut", [of_table(row_events.field(3, b"")), event(row)], [[named[0], unread("Truncated", 3), named[1]]]
    twice = row_events.field(1, b"\0\0") + row_events.field(3, b"\xff")
    yield "the first field that is refused", [of_table(twice), event(row)], [[named[0], unread("LeftOver", 1), named[1]]]
    unsigned = named_map(1, "shop", "orders", [b"id", b"note"], fields=row_events.field(1, b"\x80\0"))
    signed = [("after", [("id", -294967296), ("note", "a")])]
    large = event(b"\0" + (4000000000).to_bytes(4, "little") + b"\1a")
    yield "signs that are refused", [unsigned, large], [[named[0], unread("LeftOver", 1), ("rows", [signed])]]
    yield "a field without an end", [of_table(b"\3\xfb"), event(row)], [[numbered[0], unread("BadValue", None), numbered[1]]]
    yield "a field beyond the end", [of_table(b"\1\x40"), event(row)], [[numbered[0], unread("Truncated", None), numbered[1]]]
    partial = next(kind for kind in encode.ROWS_KINDS if kind[0] == PARTIAL_UPDATE)
    values = [("id", 7), ("note", "a")]
    both, bad_options = [("before", values), ("after", values)], error("BadValue", ("row", 0), ("image", "after"))
    yield "partial updates", [FIRST, event(row + b"\0" + row, partial), event(row + b"\2" + row, partial)], [rows(both), rows(bad_options)]
    yield "an event that can't be read", [FIRST, (WRITE[0], b"\1\0\0")], [[]]
    names = [table_map(1, bytes([INT]), b"", row_events.names([b'a"\n'])), row_event(WRITE, 1, [True], [True], b"\0" + number)]
    yield "a name with escapes", names, [shown("d.t", ("after", [('a"\n', 7)]))]


def has_all_rows(members):
    """Whether these are the members of rows, none of which is refused."""
    rows = dict(members).get("rows")
    return rows is not None and not any(row[:1] and row[0][0] == "error" for row in rows)


def with_members(line, members, words):
    """A line with these members of rows before its data, which has the stored bytes exactly if not all rows are there, or if they are
    asked for."""
    if not members:
        return line
    kept = [(name, value) for name, value in line[-1][1] if name != "rows_data" or "--stored" in words or not has_all_rows(members)]
    return [*line[:9], *members, ("data", kept)]


def in_force(binlog, words):
    """The table map that is in force, with all events and with those of one type."""
    for name, events, wanted in cases():
        lines = wanted_lines(VERSIONS[0], events, ["--stored"])
        lines[-len(wanted) :] = [with_members(line, members, words) for line, members in zip(lines[-len(wanted) :], wanted)]
        yield failure(f"{name} {words}", binlog, VERSIONS[0], events, lines, words)
        taken = [line for line in lines if dict(line)["type"] in ROW_TYPES] if all("type" in dict(line) for line in lines) else None
        for type_name in {dict(line)["name"] for line in taken or []}:
            of_type = [line for line in taken if dict(line)["name"] == type_name]
            yield failure(f"{name}, {type_name} alone {words}", binlog, VERSIONS[0], events, of_type, [*words, "--type", type_name])


def not_texts(binlog, words):
    """Names that aren't UTF-8."""
    head = b"\1\0\0\0\0\0" + b"\1\0"
    body = head + b"\2d\xff\0" + b"\1t\0" + b"\1\3" + b"\0" + b"\1"
    events = [(TABLE_MAP, body), row_event(WRITE, 1, [True], [True], b"\0\7\0\0\0")]
    lines = wanted_lines(VERSIONS[0], events, ["--stored"])
    lines[-1] = with_members(lines[-1], [("table", [("hex", b"d\xff.t".hex())]), ("rows", [[("after", [("@1", 7)])]])], words)
    yield failure(f"a name that isn't UTF-8 {words}", binlog, VERSIONS[0], events, lines, words)


def main():
    parser = argparse.ArgumentParser(description="Compares the rows in lines of JSON with a model.")
    programs.add_flags(parser)
    parser.add_argument("--count", type=int, default=20_000)
    arguments = programs.parsed(parser, "binlog")
    binlog = arguments.build.command("binlog")
    found = [result for words in OPTIONS for part in (encoded, in_force, not_texts) for result in part(binlog, words)]
    found += [*damaged(binlog, arguments.count, ()), *damaged(binlog, arguments.count // 10, ("--stored",))]
    return results.report(found)


if __name__ == "__main__":
    sys.exit(main())
