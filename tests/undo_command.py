#!/usr/bin/env python3
"""Compares the logs that `binlog undo` writes with a model, and what it refuses.

Usage: undo_command.py [--count N] FLAG

FLAG is one of `programs.py`. N random logs (1,000 if not given) of one to three files have transactions of all kinds: with GTIDs or
without, ended by an XID, a COMMIT or the last row event, with statements and events that can't be undone, cut off, or with rows that
are damaged or have partial images. Some tables are chosen, some table maps state a primary key, and MariaDB's rows may be compressed, and
transactions of MySQL's may be compressed as a whole. Positions, times, servers and GTIDs choose, and reasons are skipped. Behind them there may be later logs, some of which
are cut off or damaged, and rows may be checked; some logs have few different rows. The model, written from `docs/UNDO.md`, makes the bytes of the
log that undoes them, and the lines of a dry run, or the refusals. Then wrong words and outputs that fail are tried: nothing is written. The last line is
`N passed, M failed`; the exit status is 1 if something failed.
"""

import argparse
import random
import subprocess
import sys
import tempfile
import uuid
from collections import Counter
from datetime import datetime, timezone
from pathlib import Path
from typing import NamedTuple

import encoded_events as encode
import event_data_model
import maria_events
import maria_json_model
import payload_lines
import payload_model
import programs
import results
import row_events
import row_model
import row_values
import transactions
import undone_rows
from samples import FILE_HEADER, HEADER, POST_HEADER_LENGTHS, crc32

CHECKSUM = 4
BEGIN_BODY = bytes(14) + b"BEGIN"
# A server version, and the algorithm of its logs; None where it states none.
SERVERS = [("8.0.36", 1), ("8.0.36", 0), ("10.11.6-MariaDB", 1), ("10.11.6-MariaDB", 0), ("5.5.62", None)]
ROWS_TYPES = [kind[0] for kind in encode.ROWS_KINDS]
UNCOMPRESSED = maria_json_model.ROWS_COMPRESSED
COMPRESSED = {plain: kind for kind, plain in UNCOMPRESSED.items()}
SIMPLE_PRIMARY_KEY, PRIMARY_KEY_WITH_PREFIX = 8, 9
# Which count of a table's line has the rows of an event: the one behind its events of the inserted, the updated or the deleted ones.
CHANGED_BY = {23: 1, 30: 1, 24: 2, 31: 2, 39: 2, 25: 3, 32: 3}
# The words of events by their types. A type without one is an unknown event, or nothing if its header has this flag.
WORDS = {
    **dict.fromkeys((3, 4, 15), "border"),
    **dict.fromkeys((1, 5, 13, 14, 27, 28, 29, 35, 36, 37), "nothing"),
    **dict.fromkeys((33, 34, 42), "gtid"),
    **dict.fromkeys((6, 10, 11, 12, 18), "load"),
    **dict.fromkeys((8, 9, 17), "load-part"),
    **dict.fromkeys((20, 21, 22), "old-rows"),
    16: "xid", 19: "map", 26: "incident", 38: "xa-prepare", 40: "payload",
}
# The event of a GTID of MariaDB's. It announces one statement if its flags have one of the first two, and XA if they have one of the others.
MARIA_GTID, STANDALONE, COMPLETED_XA, PREPARED_XA = 162, 1, 128, 64
GTID, ANONYMOUS_GTID = 33, 34
IGNORABLE = 0x80
# Events whose bodies have to be read.
READ = (2, 16, 19, 33, 34, 42)
# The words of the texts of statements, by their kinds.
STATEMENTS = {
    "Begin": "BEGIN", "Commit": "COMMIT", "Rollback": "ROLLBACK", "RollbackToSavepoint": "ROLLBACK-TO",
    "Harmless": "SAVEPOINT", "XaStart": "XA-START", "XaEnd": "XA-COMMIT", "Xa": "XA-END", "Other": "STATEMENT",
}
# Why an event with one of these words may change any table.
CAUSES = {"incident": "Incident", "load": "LoadData", "load-part": "LoadData", "old-rows": "OldRows", "unknown-event": "UnknownEvent"}
# A compressed transaction, the most bytes inside, and what is in place of an event inside that can't be read.
PAYLOAD, MOST_BYTES, DAMAGED = 40, 2**30, "damaged"

# ---- logs


def framed(kind, body, place, header, has_checksum):
    """An event that begins at this place. The header has a time, a server and flags."""
    timestamp, server, flags = header
    size = HEADER.size + len(body) + (CHECKSUM if has_checksum else 0)
    place_behind = (place + size) % 2**32
    front = HEADER.pack(timestamp, kind, server, size, place_behind, flags) + body
    # The flag of a log that is in use isn't in the checksum.
    checked = HEADER.pack(timestamp, kind, server, size, place_behind, flags & ~1) + body
    return front + (crc32(checked) if has_checksum else b"")


def log_of(events, algorithm, version):
    """A file of a description and these events, each with its type, its body and its header."""
    content = FILE_HEADER
    event = encode.format_description(server_version=version, lengths=POST_HEADER_LENGTHS, algorithm=algorithm)
    stated = b"" if algorithm is None else bytes([algorithm])
    events = [(15, event.body + stated, (1_000_000_000, 7, 0)), *events]
    for kind, body, header in events:
        has_checksum = algorithm is not None if kind == 15 else algorithm == 1
        content += framed(kind, body, len(content), header, has_checksum)
    return content


def query(text):
    return bytes(8) + b"\0" + bytes(4) + b"\0" + text.encode()


# ---- the model

# The tables of a statement, which differ by their names: `row_values` names each `t`.
TABLES = ["d.t", "d.u", "d.v"]


def named(map_body, table):
    """A table map with the name of this table in place of `d.t`."""
    assert map_body[8:14] == b"\x01d\0\x01t\0"
    return map_body[:8] + b"\x01d\0\x01" + table[2:].encode() + map_body[13:]


def table_of(map_body):
    return "d." + map_body[12:13].decode()


class Choice(NamedTuple):
    """Which transactions are undone: by the position at which they begin, by the time of their last event, by the server of the first one, and by their
    GTIDs, each of which has the server of a GTID of MariaDB's, and the source of one of MySQL's."""

    start: int = 0
    stop: int | None = None
    first_time: int = 0
    end_time: int | None = None
    server: int | None = None
    included: frozenset | None = None
    excluded: frozenset = frozenset()

    def is_past(self, place):
        return self.stop is not None and place >= self.stop

    def takes_first(self, place, header, is_wanted):
        return is_wanted and self.start <= place and not self.is_past(place) and self.server in (None, header[2])

    def takes_last(self, header):
        return self.first_time <= header[0] and (self.end_time is None or header[0] < self.end_time)

    def wants(self, gtid):
        return (self.included is None or gtid in self.included) and gtid not in self.excluded


def gtid_in(header, body, is_maria):
    """The GTID of an event, as it is written; None if it has none."""
    if header[1] == GTID:
        return f"{uuid.UUID(bytes=body[1:17])}:{int.from_bytes(body[17:25], 'little')}"
    if header[1] == MARIA_GTID and is_maria:
        return f"{int.from_bytes(body[8:12], 'little')}-{header[2]}-{int.from_bytes(body[:8], 'little')}"
    return None


class Damaged(Exception):
    """A body that can't be read."""


class TooLong(Exception):
    """Rows that are more than 1 GiB uncompressed."""


def uncompressed(kind, body):
    """The type and the body of the event that was compressed."""
    event = event_data_model.fields(UNCOMPRESSED[kind], body, POST_HEADER_LENGTHS)
    stored = event["rows_data"].bytes
    if maria_json_model.stated_length(stored) > maria_json_model.MOST_BYTES:
        raise TooLong
    return UNCOMPRESSED[kind], body[: len(body) - len(stored)] + maria_json_model.uncompressed(stored)


def is_read(kind, body):
    """Whether these bytes are the body of an event of this type."""
    try:
        event_data_model.fields(kind, body, POST_HEADER_LENGTHS)
    except event_data_model.Fault:
        return False
    return True


def word_by_type(header):
    """The word of an event whose type says it."""
    return WORDS.get(header[1], "nothing" if header[5] & IGNORABLE else "unknown-event")


def word_of_gtid(flags):
    """The word of a GTID of MariaDB's with these flags."""
    is_group, is_xa = not flags & (STANDALONE | COMPLETED_XA), flags & (COMPLETED_XA | PREPARED_XA)
    return ("xa-" if is_xa else "") + ("group" if is_group else "gtid")


def kind_of_statement(body):
    """The kind of the text of a statement with this body."""
    text = event_data_model.fields(2, body, POST_HEADER_LENGTHS)["query"].bytes
    return transactions.kind_of(text.decode(errors="replace"))


def key_in(map_body):
    """The columns of the primary key that a table map states: by the last such field that can be read."""
    key, table = [], event_data_model.fields(19, map_body, POST_HEADER_LENGTHS)
    for kind, content in row_model.fields_of(table["optional_metadata"].bytes):
        if kind not in (SIMPLE_PRIMARY_KEY, PRIMARY_KEY_WITH_PREFIX):
            continue
        try:
            key = list(indexes_in(kind, content, table["columns_count"]))
        except row_model.Fault:
            continue
    return key


def indexes_in(kind, content, count):
    while content.left():
        index = content.lenenc()
        row_model.allowed(index < count)
        if kind == PRIMARY_KEY_WITH_PREFIX:
            content.lenenc()
        yield index


def is_complete(kind, event):
    """Whether an event has no partial updates, and all columns in each image."""
    images = (event[f"columns_{name}_image"] for name in ("before", "after"))
    return kind != row_values.PARTIAL[0] and all(present is None or all(present) for present in images)


def known_rows(kind, body, map_body, is_maria):
    """The rows of an event, each as its images, which have the bytes of each value, or None for NULL. None if the rows aren't known."""
    if kind in UNCOMPRESSED or kind == row_values.PARTIAL[0]:
        return None
    event = event_data_model.fields(kind, body, POST_HEADER_LENGTHS)
    table = event_data_model.fields(19, map_body, POST_HEADER_LENGTHS)
    types, images = table["columns_type"].bytes, [event[f"columns_{name}_image"] for name in ("before", "after")]
    if is_maria and set(types) & {7, 11, 12} or event["num_columns"] != len(types) or not is_complete(kind, event):
        return None
    data, rows = row_model.Bytes(event["rows_data"].bytes), []
    try:
        found = row_model.columns(types, table["columns_metadata"].bytes)
        stated, _ = row_model.facts(found, table["optional_metadata"].bytes, is_maria)
        while data.left():
            start = data.place
            rows.append([None if present is None else tuple(undone_rows.image(found, stated, present, data)[1].values()) for present in images])
            if data.place == start:
                return None
    except row_model.Fault:
        return None
    return rows


def events_of(header, body, changes):
    """The event itself, or those inside, one after another, and then their end. Of a transaction with changes outside it is the event itself, and
    so it is of one that is too long."""
    if header[1] != PAYLOAD:
        yield header, body
        return
    try:
        stated = payload_model.event_of(body)
        if changes:
            yield header, body
            return
        frames, fault = payload_model.inner_frames(payload_model.content_of(*stated, MOST_BYTES))
    except payload_model.Refusal as refusal:
        if refusal.args == ("Limit",):
            yield header, body
            return
        frames, fault = [], "the payload"
    for frame in frames:
        yield HEADER.unpack_from(frame), frame[HEADER.size :]
    yield (DAMAGED, b"") if fault else (None, b"")


class Model:
    """What is undone of files, or refused. `chosen` are the tables that are asked for, if there are some, and `excluded` are left out. `is_plain` says that old dates and
    times have no fractions. What is refused for one of the reasons `skipped` stays as it is."""

    def __init__(self, chosen=(), excluded=(), is_plain=False, skipped=()):
        self.refused, self.kept, self.chosen, self.excluded, self.is_plain, self.skipped = [], [], chosen, excluded, is_plain, skipped

    def is_refused(self):
        """Whether something is refused that isn't skipped."""
        return any(reason not in self.skipped for _, _, _, reason, *_ in self.refused)

    def counted(self, found):
        """Of the refusals of a transaction the first one that isn't skipped, or else the first one."""
        return next((one for one in found if one[2] not in self.skipped), found[0])

    def wants(self, map_body):
        """Whether the table of a table map is one that is undone."""
        return (not self.chosen or table_of(map_body) in self.chosen) and table_of(map_body) not in self.excluded

    def take(self, name, content, choice=Choice()):
        """Undoes the transactions of a file that are chosen."""
        reading, place, index = transactions.Reading(), len(FILE_HEADER), 0
        kept, changes, maps, first, found = [], [], {}, None, []
        is_wanted, is_taken = choice.included is None, False
        description = self.description_of(content)
        # A transaction that a position is within is refused, whether it is taken or not.
        straddles = lambda end: [(*first, "Straddles", end)] if any(first[1] < position < end for position in (choice.start, choice.stop or 0)) else []
        cut_off = lambda end: straddles(end) or ([self.counted([*found, (*first, "Unfinished")])] if is_taken else [])
        refuse = lambda refusals: self.refused.extend((name, *one) for one in refusals)
        while place < len(content) and not (choice.is_past(place) and reading.way is None):
            outer = HEADER.unpack_from(content, place)
            end = place + outer[3]
            outer_body = content[place + HEADER.size : end - (CHECKSUM if description[1] == 1 and outer[1] != 15 else 0)]
            if outer[1] in (GTID, ANONYMOUS_GTID, MARIA_GTID):
                is_wanted = choice.wants(gtid_in(outer, outer_body, "MariaDB" in description[3]))
            for number, (header, body) in enumerate(events_of(outer, outer_body, changes)):
                is_inside = header is not outer
                # The table maps of events inside are those inside.
                maps = {} if is_inside and number == 0 else maps
                try:
                    word, change, refusal = self.word_of(header, body, maps, description)
                except Damaged:
                    self.refused.append((name, index, place, "Damaged"))
                    return
                change = change and (*change, header, (place, number if is_inside else None))
                told = len(reading.told)
                reading.take(word)
                turn, _, why = reading.told[told].partition(":")
                if turn.endswith("!"):
                    # What is cut off inside a compressed transaction ends with the event that has it.
                    refuse(cut_off(end if is_inside and number > 0 else place))
                    changes, maps, found = [], {}, []
                turn = turn.rstrip("!")
                if turn in ("First", "Alone"):
                    first, changes, maps, found = (index, place), [], {}, []
                    is_taken = choice.takes_first(place, header, is_wanted)
                found += [(index, place, reason) for reason in (why, refusal) if reason]
                if turn == "Outside":
                    assert not found
                if header and header[1] == 19:
                    maps[int.from_bytes(body[:6], "little")] = (header, body)
                if change:
                    changes.append(change)
                if turn in ("Last", "Alone"):
                    if straddles(end) or not (is_taken and choice.takes_last(header)):
                        refuse(straddles(end))
                    elif found:
                        refuse([self.counted(found)])
                    elif changes:
                        # What is inside ends with the event that has it, which is no XID.
                        xid = int.from_bytes(body, "little") if header[1] == 16 and not is_inside else 0
                        kept.append((outer, xid, changes))
                    changes, maps, found = [], {}, []
            place, index = end, index + 1
        if reading.way is not None:
            refuse(cut_off(place))
        self.kept.append((description, kept))

    def description_of(self, content):
        header = HEADER.unpack_from(content, len(FILE_HEADER))
        body = content[len(FILE_HEADER) + HEADER.size :][: header[3] - HEADER.size]
        lengths = len(POST_HEADER_LENGTHS)
        algorithm = body[57 + lengths] if len(body) > 57 + lengths else None
        version = body[2:52].rstrip(b"\0").decode()
        return header, algorithm, body[: 57 + lengths], version

    def word_of(self, header, body, maps, description):
        """The word of an event, what undoes it, and its refusal; that of the end of what is inside another, without a header."""
        if header is None:
            return "border", None, None
        if header is DAMAGED:
            raise Damaged
        kind = header[1]
        if kind in ROWS_TYPES or kind in UNCOMPRESSED and "MariaDB" in description[3]:
            return self.rows_of(kind, body, maps, description)
        if kind == MARIA_GTID and "MariaDB" in description[3]:
            return word_of_gtid(body[12]), None, None
        if kind in READ and not is_read(kind, body):
            raise Damaged
        return STATEMENTS[kind_of_statement(body)] if kind == 2 else word_by_type(header), None, None

    def rows_of(self, kind, body, maps, description):
        flags = int.from_bytes(body[6:8], "little")
        word = lambda undone: ("last-" if flags & 1 else "") + ("rows" if undone else "other-rows")
        try:
            kind, body = uncompressed(kind, body) if kind in UNCOMPRESSED else (kind, body)
            event = event_data_model.fields(kind, body, POST_HEADER_LENGTHS)
        except event_data_model.Fault:
            raise Damaged
        except TooLong:
            return word(False), None, "Compressed"
        # A row of no columns has no bytes.
        is_empty = not event["rows_data"].bytes
        table_id = int.from_bytes(body[:6], "little")
        is_maria = "MariaDB" in description[3]
        if table_id not in maps:
            return word(False), None, None if is_empty else "NoTableMap"
        map_header, map_body = maps[table_id]
        tables = undone_rows.Tables(is_maria, key_in(map_body))
        if not self.wants(map_body):
            return word(False), None, None
        tables.take(map_body)
        if is_maria and not self.is_plain and set(tables.maps[table_id]["columns_type"].bytes) & {7, 11, 12}:
            found = [member for member in tables.wanted(kind, body) if member == ("error", "Columns")]
            return word(False), None, "Rows" if found else "OldTemporal"
        wanted = tables.wanted(kind, body)
        members = dict(wanted)
        if "error" in members:
            names = {"Image": "Image", "PartialJson": "PartialJson"}
            return word(False), None, names.get(members["error"], "Rows")
        if is_empty:
            return word(False), None, None
        return word(True), (map_header, map_body, members["event"], tables.count), None

    def transactions(self):
        return sum(len(kept) for _, kept in self.kept)

    def changes(self):
        return sum(len(changes) for _, kept in self.kept for _, _, changes in kept)

    def table_lines(self):
        """The line of each table whose rows are undone, in the order in which they are."""
        tables = {}
        for _, kept in reversed(self.kept):
            for _, _, changes in reversed(kept):
                for _, map_body, _, count, header, _ in reversed(changes):
                    counts = tables.setdefault(table_of(map_body), [0, 0, 0, 0])
                    counts[0] += 1
                    counts[CHANGED_BY[UNCOMPRESSED.get(header[1], header[1])]] += count
        text = "table {} {} events {} inserted {} updated {} deleted\n"
        return "".join(text.format(name, *counts) for name, counts in tables.items())

    def later_changes(self, logs, later, checks_rows):
        """The first event behind what is undone that has rows of each of its tables, and the first one that may change any table: their logs, indexes and places, and
        why. The logs are in front of those that are later. Where rows are checked, events are left out that remove none of the rows that are left behind."""
        undone, unknown, left, found = set(), set(), Counter(), {}
        for number, (name, content) in enumerate([*logs, *later]):
            kept = self.kept[number][1] if number < len(logs) else []
            own = {change[-1] for _, _, changes in kept for change in changes}
            for index, place, key, table, why, rows in self.causes_in(content):
                removed = [(table, before) for before, _ in rows or () if before is not None]
                if key in own:
                    undone.add(table)
                    unknown |= {table} if rows is None else set()
                    for before, after in rows or ():
                        left[table, before] -= before is not None and left[table, before] > 0
                        left[table, after] += after is not None
                elif why in self.skipped:
                    continue
                elif table in undone if table else undone:
                    is_apart = table and rows is not None and table not in unknown and not any(left[row] for row in removed)
                    detail = f"{table}: its rows are changed behind those that are undone" if table else f"unknown: {PHRASES[why]}"
                    if not (checks_rows and is_apart):
                        found.setdefault(table, (name, index, place, detail))
        return list(found.values())

    def causes_in(self, content):
        """The events of a log that have rows, each with the name of the table, and those that may change any table, with the reason: their indexes and places, and
        the key of each, which is its place, and the number of an event inside; and the rows, if they are known. What is behind damage isn't looked at."""
        place, index, maps, description = len(FILE_HEADER), 0, {}, self.description_of(content)
        while place < len(content):
            if len(content) - place < HEADER.size:
                yield index, place, None, None, "Tail", None
                return
            outer = HEADER.unpack_from(content, place)
            end = place + outer[3]
            frame, inside = content[place:end], {}
            if HEADER.size <= outer[3] and end > len(content):
                yield index, place, None, None, "Tail", None
                return
            if outer[3] < HEADER.size or description[1] == 1 and frame[-CHECKSUM:] != crc32(frame[:17] + bytes([frame[17] & ~1]) + frame[18:-CHECKSUM]):
                yield index, place, None, None, "Damaged", None
                return
            body = frame[HEADER.size : len(frame) - (CHECKSUM if description[1] == 1 else 0)]
            for number, (header, part) in enumerate(events_of(outer, body, [])):
                is_inside = header is not outer
                if header is DAMAGED or header and header[1] == 19 and not is_read(19, part):
                    yield index, place, None, None, "Damaged", None
                    return
                map_body, why = self.cause_of(header, part, inside if is_inside else maps, "MariaDB" in description[3])
                key = place, number if is_inside else None
                if map_body:
                    yield index, place, key, table_of(map_body), None, known_rows(header[1], part, map_body, "MariaDB" in description[3])
                elif why:
                    yield index, place, key, None, why, None
            place, index = end, index + 1

    def cause_of(self, header, body, maps, is_maria):
        """The table map of the table of which an event has rows, or why it may change any table. A table map is kept."""
        if header is None:
            return None, None
        kind, table_id = header[1], int.from_bytes(body[:6], "little")
        if kind == 19:
            maps[table_id] = body
        if kind in ROWS_TYPES or kind in UNCOMPRESSED and is_maria:
            try:
                event = event_data_model.fields(UNCOMPRESSED.get(kind, kind), body, POST_HEADER_LENGTHS)
            except event_data_model.Fault:
                return None, "Damaged"
            if kind in ROWS_TYPES and not event["rows_data"].bytes:
                return None if is_complete(kind, event) else maps.get(table_id), None
            return (maps[table_id], None) if table_id in maps else (None, "NoTableMap")
        if kind == 2:
            return None, ("Statement" if kind_of_statement(body) == "Other" else None) if is_read(2, body) else "Damaged"
        if kind == MARIA_GTID and is_maria:
            return None, None
        return None, CAUSES.get(word_by_type(header))

    def described(self):
        """The descriptions of the logs in which something is undone, as they are written, and their transactions, the last log first."""
        for (header, algorithm, body, _), kept in reversed(self.kept):
            stated = b"" if algorithm is None else bytes([algorithm])
            if kept:
                yield header, algorithm, body[:52] + bytes(4) + body[56:] + stated, kept

    def is_under_one(self):
        """Whether all that is undone is under one description."""
        return len({(algorithm, body) for _, algorithm, body, _ in self.described()}) <= 1

    def other_log(self, files):
        """The first of these files in which something is undone under another description than in the files in front of it."""
        described = [(name, description[1], description[2][:52] + description[2][56:]) for name, (description, kept) in zip(files, self.kept) if kept]
        return next(name for name, *description in described if description != list(described[0][1:]))

    def written(self, is_one):
        """The log. It has one transaction, or those of the logs."""
        out, written, ends = FILE_HEADER, None, []
        for header, algorithm, body, kept in self.described():
            if written != (body, algorithm):
                out += framed(15, body, len(out), (header[0], header[2], 0), algorithm is not None)
                written = body, algorithm
            for last, xid, changes in reversed(kept):
                if not (is_one and ends):
                    head = lambda flags, last=last: (last[0], last[2], last[5] & 0x8000 | flags)
                    out += framed(2, BEGIN_BODY, len(out), head(8), algorithm == 1)
                    ends = [16, xid.to_bytes(8, "little"), head(0), algorithm == 1]
                for map_header, map_body, (kind, inverse), _, rows_header, _ in reversed(changes):
                    for kind, body, source in ((19, map_body, map_header), (kind, bytes.fromhex(inverse), rows_header)):
                        out += framed(kind, body, len(out), (source[0], source[2], source[5] & ~0x61), algorithm == 1)
                out += b"" if is_one else ended(out, ends)
        return out + (ended(out, ends) if is_one and ends else b"")


def ended(out, ends):
    """The XID at the end of a transaction, behind this log."""
    kind, body, header, has_checksum = ends
    return framed(kind, body, len(out), header, has_checksum)


# ---- random logs

PAYLOAD_KINDS = payload_lines.kinds()


def random_header(chance):
    return chance.randrange(1_000_000_000, 1_000_000_400), chance.choice((1, 7)), chance.choice((0, 0, 8, 0x8000, 0x21))


def random_key(chance, count):
    """A primary key in the optional metadata, some of them damaged."""
    kind = chance.choice((SIMPLE_PRIMARY_KEY, PRIMARY_KEY_WITH_PREFIX))
    columns = chance.sample(range(count), chance.randint(0, min(count, 2)))
    field = row_events.field(kind, b"".join(bytes([column, 3][: kind - 7]) for column in columns))
    return row_values.damage(chance, field) if chance.random() < 0.1 else field


def compressed(chance, kind, body, is_sound):
    """A row event as MariaDB compresses it."""
    rows = event_data_model.fields(kind, body, POST_HEADER_LENGTHS)["rows_data"].bytes
    stored = maria_events.stored(rows, chance.choice((None, 3, 4)), chance.randrange(10))
    if not is_sound and chance.random() < 0.1:
        stored = row_values.damage(chance, stored)
    return COMPRESSED[kind], body[: len(body) - len(rows)] + stored


# Columns of few values.
FEW = [row_events.Kind(1, b"", [(bytes([value]), value) for value in (0, 1, 2)])]


def random_table(chance, kinds):
    """Columns of these kinds, and their table map; few columns of few values."""
    if kinds is not FEW:
        return row_values.random_table(chance, kinds)
    chosen = FEW * chance.choice((1, 1, 2))
    return chosen, row_values.table_map(chance.randrange(4), bytes(kind.type for kind in chosen), b"")


def statement_rows(chance, kinds, is_sound, is_maria):
    """A table map and row events, the last one of which ends a statement."""
    chosen, table = random_table(chance, kinds)
    count = chance.randint(1, 3)
    keys = b"".join(random_key(chance, len(chosen)) for _ in range(chance.choice((0, 0, 1, 2))))
    events = [(table[0], named(table[1], chance.choice(TABLES)) + keys)]
    for left in range(count, 0, -1):
        kind, body = rows_of(chance, chosen, table, is_sound)
        flags = chance.choice((0, 2)) | (left == 1)
        body = body[:6] + flags.to_bytes(2, "little") + body[8:]
        if is_maria and kind in COMPRESSED and chance.random() < 0.3:
            kind, body = compressed(chance, kind, body, is_sound)
        events.append((kind, body if is_sound or chance.random() < 0.7 else row_values.damage(chance, body)))
    return events


def rows_of(chance, chosen, table, is_sound):
    table_id = int.from_bytes(table[1][:6], "little")
    if not is_sound:
        return undone_rows.random_event(chance, chosen, table_id)
    kind = chance.choice([kind for kind in encode.ROWS_KINDS if kind[0] != 39])
    before = after = [True] * len(chosen)
    images = [present for present, is_there in ((before, kind[2]), (after, kind[3])) if is_there]
    content = b"".join(row_values.random_row(chance, kind, chosen, images) for _ in range(chance.randint(0, 4)))
    stated = (None, b"") if kind[0] in encode.OLDER_ROWS else (2, b"")
    event = encode.rows(kind, row_values.SPELLING, table_id=table_id, flags=0, extra=stated, before=before, after=after, content=content)
    return kind[0], event.body


# Events that can't be undone, whatever their bodies are: an old row event, an incident, parts of LOAD DATA and of XA, and one of an unknown type.
OTHERS = [(20, bytes(8)), (26, bytes(3)), (17, bytes(5)), (18, bytes(40)), (38, bytes(20)), (99, b"")]


def random_gtid(chance, is_sound, is_maria, is_group):
    """An event with which a transaction begins. One of MariaDB's says whether it is a group."""
    if is_maria and chance.random() < 0.7:
        flags = chance.choice((0, 4, 12)) if is_group else STANDALONE
        flags = flags if is_sound or chance.random() < 0.7 else chance.choice((0, STANDALONE, COMPLETED_XA, PREPARED_XA))
        xa = maria_events.xa_id(1, b"x", b"") if flags & (COMPLETED_XA | PREPARED_XA) else (b"", None)
        return MARIA_GTID, maria_events.gtid(0, chance.randrange(2), chance.randrange(1, 200), flags=flags, xa=xa).body
    return chance.choice((GTID, ANONYMOUS_GTID)), bytes([1]) + chance.randbytes(16) + bytes([chance.randrange(1, 200)]) + bytes(7)


def random_transaction(chance, kinds, is_sound, is_maria):
    way = chance.choice(("xid", "xid", "COMMIT", "rows"))
    events = [random_gtid(chance, is_sound, is_maria, way != "rows")] if chance.random() < 0.5 else []
    # MariaDB's GTID of a group is its BEGIN.
    if way != "rows" and not (events and events[0][0] == MARIA_GTID and chance.random() < 0.7):
        events.append((2, query("BEGIN")))
    for _ in range(1 if way == "rows" else chance.randint(0, 3)):
        events += statement_rows(chance, kinds, is_sound, is_maria)
        if chance.random() < 0.2:
            events.append((29, b"\x08a comment"[:9]))
        if way != "rows" and chance.random() < 0.1:
            events.append((2, query("SAVEPOINT a")))
    if not is_sound and chance.random() < 0.4:
        text = chance.choice(("CREATE TABLE t (a INT)", "ROLLBACK TO a", "XA START 'a'", "ROLLBACK"))
        events.insert(chance.randint(0, len(events)), (2, query(text)))
    if not is_sound and chance.random() < 0.15:
        events.insert(chance.randint(0, len(events)), chance.choice(OTHERS))
    if not is_sound and chance.random() < 0.2:
        del events[chance.randrange(len(events))]
    if way == "xid" and (is_sound or chance.random() < 0.9):
        events.append((16, chance.randrange(2**40).to_bytes(8, "little")))
    elif way == "COMMIT":
        events.append((2, query("COMMIT")))
    return events


def with_payload(chance, events, is_sound):
    """The events of a transaction with those behind its GTID in a payload; where it isn't sound, only some of them may be."""
    start = next((place for place, (kind, _, _) in enumerate(events) if kind not in (33, 34)), 0)
    stop = len(events)
    if not is_sound and chance.random() < 0.2:
        start, stop = sorted((chance.randint(start, stop), chance.randint(start, stop)))
    frames = [HEADER.pack(timestamp, kind, server, HEADER.size + len(body), 0, flags) + body for kind, body, (timestamp, server, flags) in events[start:stop]]
    payload = payload_lines.packed(chance, b"".join(frames), chance.choice(PAYLOAD_KINDS))
    if not is_sound and chance.random() < 0.1:
        payload = row_values.damage(chance, payload)
    return [*events[:start], (PAYLOAD, payload, random_header(chance)), *events[stop:]]


def random_file(chance, kinds, is_sound):
    version, algorithm = chance.choice(SERVERS)
    is_maria = "MariaDB" in version
    events = []
    for _ in range(chance.randint(0, 6)):
        own = [(kind, body, random_header(chance)) for kind, body in random_transaction(chance, kinds, is_sound, is_maria)]
        events += with_payload(chance, own, is_sound) if not is_maria and chance.random() < 0.4 else own
    if chance.random() < 0.5:
        events.append((4, (4).to_bytes(8, "little") + b"next", random_header(chance)))
    return log_of(events, algorithm, version)


def bare_row(table):
    """A row of no columns of the table of this map, as MySQL logs it with `binlog_row_image=MINIMAL`: it has no bytes."""
    kind = next(kind for kind in encode.ROWS_KINDS if kind[0] == 30)
    none = [False] * event_data_model.fields(19, table, POST_HEADER_LENGTHS)["columns_count"]
    table_id = int.from_bytes(table[:6], "little")
    event = encode.rows(kind, row_values.SPELLING, table_id=table_id, flags=1, extra=(2, b""), before=none, after=none, content=b"")
    return kind[0], event.body


def refused_logs(chance, kinds):
    """Names and logs that are refused, and why: compressed transactions and rows that aren't decompressed, since rows are in front, or more than 1 GiB
    is stated; and a row of no columns."""
    xid = HEADER.pack(0, 16, 1, HEADER.size + 8, 0, 0) + bytes(8)
    table, *_, (kind, body) = statement_rows(chance, kinds, True, False)
    front = [(2, query("BEGIN")), table, (kind, body)]
    rows = event_data_model.fields(kind, body, POST_HEADER_LENGTHS)["rows_data"].bytes
    long_rows = body[: len(body) - len(rows)] + b"\x84" + (MOST_BYTES + 1).to_bytes(4, "big")
    for name, version, events, reason in (
        ("rows in front", "8.0.36", [*front, (PAYLOAD, payload_model.written(255, len(xid), xid))], "Payload"),
        ("a transaction of more than 1 GiB", "8.0.36", [(PAYLOAD, payload_model.written(255, MOST_BYTES + 1, xid))], "Payload"),
        ("rows of more than 1 GiB", "10.11.6-MariaDB", [*front[:2], (COMPRESSED[kind], long_rows), (16, bytes(8))], "Compressed"),
        ("a row of no columns", "8.0.36", [*front[:2], bare_row(table[1]), (16, bytes(8))], "Image"),
    ):
        yield name, log_of([(kind, body, random_header(chance)) for kind, body in events], 1, version), reason


def later_file(chance, kinds, is_sound):
    """A log behind others, some of which are cut off or damaged."""
    content = random_file(chance, kinds, is_sound)
    if chance.random() < 0.2:
        content = content[: chance.randint(min(150, len(content)), len(content))]
    elif chance.random() < 0.2 and len(content) > 200 and Model().description_of(content)[1] == 1:
        place = chance.randrange(200, len(content))
        content = content[:place] + bytes([content[place] ^ 16]) + content[place + 1 :]
    return content


def long_file(chance):
    """A log that is read in several parts: rows of a BLOB, some of which are longer than one."""
    table = encode.table_map(row_values.SPELLING, database=b"d", table=b"t", table_id=5, flags=1, types=b"\xfc", metadata=b"\4", nulls=[True], optional=b"")
    kinds, events = [kind for kind in encode.ROWS_KINDS if kind[0] in (30, 31, 32)], []
    for _ in range(60):
        events.append((2, query("BEGIN")))
        events.append((19, table.body))
        for _ in range(chance.randint(1, 4)):
            kind = chance.choice(kinds)
            blobs = (chance.randbytes(chance.choice((10, 1_000, 30_000, 70_000, 300_000))) for _ in range(kind[2] + kind[3]))
            content = b"".join(b"\0" + len(blob).to_bytes(4, "little") + blob for blob in blobs)
            event = encode.rows(kind, row_values.SPELLING, table_id=5, flags=0, extra=(2, b""), before=[True], after=[True], content=content)
            events.append((kind[0], event.body))
        events.append((16, bytes(8)))
    return log_of([(kind, body, random_header(chance)) for kind, body in events], 1, "8.0.36")


# ---- runs

PHRASES = {
    "Damaged": "a damaged event",
    "Tail": "the file ends within an event",
    "Incident": "an incident",
    "LoadData": "a file was loaded by a statement",
    "OldRows": "row events of a version before 5.1.16",
    "UnknownEvent": "an event of an unknown type",
    "Unfinished": "the transaction isn't finished",
    "Statement": "a statement can't be undone",
    "Xa": "a part of an XA transaction",
    "Rollback": "changes were rolled back",
    "NoTableMap": "the rows have no table map in their transaction",
    "Rows": "the rows can't be read",
    "OldTemporal": "a column of a date or time whose form isn't in the log",
    "Image": "the images of the rows lack columns",
    "Payload": "a compressed transaction is too long, or has row events in front of it",
    "Compressed": "the compressed rows are too long",
    "PartialJson": "partial updates of documents",
    "Straddles": "a position is within the transaction, which ends at byte {}",
}


OTHER_DESCRIPTION = "another format description than that of the first log, so all can't be one transaction"


def random_position(chance, content):
    """A place of an event, or beside one."""
    places, place = [], len(FILE_HEADER)
    while place < len(content):
        places.append(place)
        place += HEADER.unpack_from(content, place)[3]
    return chance.choice([*places, place]) + chance.choice((0, 0, 0, 0, 1, -1))


def random_options(chance):
    """Options that choose tables; these tables, those that are left out, and whether old dates and times are plain."""
    chosen, excluded = (chance.sample(TABLES, chance.randint(1, 2)) if chance.random() < 0.3 else [] for _ in range(2))
    named = [("--table", table) for table in chosen] + [("--exclude-table", table) for table in excluded]
    is_plain = chance.random() < 0.3
    return [word for words in named for word in words] + ["--plain-old-temporal"] * is_plain, chosen, excluded, is_plain


# The reasons that may be skipped.
SKIPPED = ["Unfinished", "Statement", "LoadData", "Xa", "Rollback", "Incident", "OldRows", "UnknownEvent", "NoTableMap", "Rows", "OldTemporal", "Image", "PartialJson", "Payload"]


def random_choice(chance, contents):
    """Options that choose transactions of logs, and what they choose."""
    options, choice = [], Choice()
    if chance.random() < 0.15:
        server = chance.choice((1, 7))
        options, choice = [*options, "--server-id", str(server)], choice._replace(server=server)
    if chance.random() < 0.15:
        first, end = (1_000_000_000 + chance.randrange(400) for _ in range(2))
        text = lambda time: datetime.fromtimestamp(time, timezone.utc).strftime("%Y-%m-%dT%H:%M:%S")
        options += ["--start-datetime", text(first)] if chance.random() < 0.7 else []
        choice = choice._replace(first_time=first if "--start-datetime" in options else 0)
        options += ["--stop-datetime", text(end)] if chance.random() < 0.7 else []
        choice = choice._replace(end_time=end if "--stop-datetime" in options else None)
    if chance.random() < 0.25:
        is_maria = chance.random() < 0.5
        gtids = sorted({gtid for content in contents for gtid in gtids_in(content) if (":" in gtid) != is_maria})
        chosen = chance.sample(gtids, min(len(gtids), chance.randint(1, 4)))
        is_included = chance.random() < 0.6
        if chosen:
            options += ["--include-gtids" if is_included else "--exclude-gtids", ",".join(chosen)]
            choice = choice._replace(included=frozenset(chosen)) if is_included else choice._replace(excluded=frozenset(chosen))
    return options, choice


def gtids_in(content):
    """The GTIDs of a log."""
    is_maria, place = "MariaDB" in Model().description_of(content)[3], len(FILE_HEADER)
    while place < len(content):
        header = HEADER.unpack_from(content, place)
        gtid = gtid_in(header, content[place + HEADER.size :], is_maria)
        if gtid:
            yield gtid
        place += header[3]


def failure(words, seed, folder):
    """What is wrong with the undo of one set of logs, if something is."""
    chance, checks = random.Random(seed), random.Random(f"rows {seed}")
    kinds = FEW if checks.random() < 0.4 else list(row_events.kinds())
    is_sound = chance.random() < 0.5
    options, *tables = random_options(chance)
    checks_rows = checks.random() < 0.5
    options += ["--check-rows"] * checks_rows
    contents = [random_file(chance, kinds, is_sound) for _ in range(chance.randint(1, 3))]
    skipped = checks.sample(SKIPPED, checks.choice((1, 3, 8, len(SKIPPED)))) if checks.random() < 0.4 else []
    options += [word for reason in skipped for word in ("--skip", reason)]
    chosen, choice = random_choice(checks, contents)
    options += chosen
    files, model = [str(folder / f"{seed}-{number}.bin") for number in range(len(contents))], Model(*tables, skipped)
    # The start position is one of the first file, and the stop position of the last one.
    start = random_position(chance, contents[0]) if chance.random() < 0.3 else 0
    stop = random_position(chance, contents[-1]) if chance.random() < 0.3 else None
    options += ["--start-position", str(start)] if start else []
    options += [] if stop is None else ["--stop-position", str(stop)]
    options += ["--one-transaction"] if chance.random() < 0.3 else []
    options += ["--skip", "LaterChanges"] if chance.random() < 0.3 else []
    for number, (name, content) in enumerate(zip(files, contents)):
        Path(name).write_bytes(content)
        is_first, is_last = number == 0, number == len(contents) - 1
        model.take(name, content, choice._replace(start=start if is_first else 0, stop=stop if is_last else None))
    later = [(str(folder / f"{seed}-later-{number}.bin"), later_file(chance, kinds, is_sound)) for number in range(chance.choice((0, 0, 1, 2)))]
    for name, content in later:
        Path(name).write_bytes(content)
        options += ["--later", name]
    found = model.later_changes(list(zip(files, contents)), later, checks_rows) if (later or checks_rows) and not model.is_refused() else []
    return difference(words, options, files, model, folder / f"{seed}.out", f"seed {seed}", found)


def long_failure(words, folder):
    """What is wrong with the undo of a long log, if something is."""
    log, model = folder / "long.bin", Model()
    content = long_file(random.Random(0))
    log.write_bytes(content)
    model.take(str(log), content)
    return difference(words, [], [str(log)], model, folder / "long.out", "the long log")


def refused_log_failure(words, folder, name, content, reason):
    """What is wrong with the undo of a log that is refused for this reason, if something is."""
    log, model = folder / "refused.bin", Model()
    log.write_bytes(content)
    model.take(str(log), content)
    reasons = [reason for *_, reason in model.refused]
    return difference(words, [], [str(log)], model, folder / "refused.out", name) if reasons == [reason] else f"{name}: the model has {reasons}"


def difference(words, options, files, model, out, name, later=()):
    """What is wrong with the undo of these files, if something is. `later` is what is behind what is undone and in its way."""
    is_one = "--one-transaction" in options
    run = subprocess.run([*words, "undo", *options, "-o", str(out), *files], capture_output=True, text=True)
    skipped = lambda reason: "skipped: " if reason in model.skipped else ""
    told = [f"binlog: {skipped(reason)}{name}: event {index} at byte {place}: {reason}: {PHRASES[reason].format(*end)}" for name, index, place, reason, *end in model.refused]
    is_refused = model.is_refused()
    if is_one and not is_refused and not model.is_under_one():
        told.append(f"binlog: {model.other_log(files)}: event 0 at byte 4: Description: {OTHER_DESCRIPTION}")
        is_refused = True
    if not is_refused:
        mark = "skipped: " if "LaterChanges" in options else ""
        told += [f"binlog: {mark}{log}: event {index} at byte {place}: LaterChanges: {detail}" for log, index, place, detail in later]
        is_refused = bool(later) and not mark
    if run.stderr.splitlines() != told:
        return f"{name}: {run.stderr!r}, not {told}"
    dry = subprocess.run([*words, "undo", *options, "--dry-run", *files], capture_output=True, text=True)
    lines = "" if is_refused else run.stdout + model.table_lines()
    if (dry.returncode, dry.stderr, dry.stdout) != (run.returncode, run.stderr, lines):
        return f"{name}: a dry run has status {dry.returncode} and {dry.stdout!r}, not {lines!r}"
    if is_refused:
        left = [path for path in (out, Path(f"{out}.part")) if path.exists()]
        return None if run.returncode == 2 and not left else f"{name}: status {run.returncode}, and {left}"
    counted = f"transactions {model.transactions()}, row events {model.changes()}\n"
    if run.returncode != 0 or run.stdout != counted:
        return f"{name}: status {run.returncode}, {run.stdout!r}, not {counted!r}"
    if Path(f"{out}.part").exists():
        return f"{name}: what was written is left behind"
    wanted = model.written(is_one)
    return None if out.read_bytes() == wanted else f"{name}: {shown(out.read_bytes())}, not {shown(wanted)}"


def shown(content):
    return content.hex() if len(content) < 10_000 else f"{len(content)} bytes"


def refusal(words, folder, options, status, message):
    """What is wrong with a run that has to be refused, if something is. A sound log is undone."""
    chance, kinds = random.Random(1), list(row_events.kinds())
    log = folder / "sound.bin"
    log.write_bytes(random_file(chance, kinds, True))
    (folder / "taken.part").touch()
    before = sorted(folder.iterdir())
    run = subprocess.run([*words, "undo", *options(log)], capture_output=True, text=True)
    if run.returncode != status or message not in run.stderr or sorted(folder.iterdir()) != before:
        return f"{options(log)}: status {run.returncode}: {run.stderr!r}"
    return None


# Words that are refused, by the log: the status, and a part of the message.
REFUSALS = [
    (lambda log: [str(log)], 64, "-o OUT or --dry-run"),
    (lambda log: ["-o", "-", str(log)], 64, "OUT has to be a file"),
    (lambda log: ["-o", str(log), str(log)], 3, "there is a file of this name"),
    (lambda log: ["-o", str(log.parent), str(log)], 3, "there is a file of this name"),
    (lambda log: ["-o", str(log.parent / "taken"), str(log)], 3, "taken.part: File exists"),
    (lambda log: ["--skip", "Nothing", "--dry-run", str(log)], 64, "no reason that can be skipped"),
    (lambda log: ["--skip", "Damaged", "--dry-run", str(log)], 64, "no reason that can be skipped"),
    (lambda log: ["--table", "t", "--dry-run", str(log)], 64, "--table: "),
    (lambda log: ["--exclude-table", "t", "--dry-run", str(log)], 64, "--exclude-table: "),
    (lambda log: ["-o", str(log.parent / "none/out"), str(log)], 3, "none/out.part"),
    (lambda log: ["-o", str(log.parent / "out"), str(log.parent / "none.bin")], 1, "none.bin"),
    (lambda log: ["--dry-run", str(log), "-"], 1, "-: "),
    (lambda log: ["--dry-run", "--later", str(log.parent / "none.bin"), str(log)], 1, "none.bin"),
    (lambda log: ["-o", str(log.parent / "out"), "--later", str(log), str(log)], 2, "LaterChanges: d."),
]


def main():
    parser = argparse.ArgumentParser(description="Compares what undoes logs with a model.")
    programs.add_flags(parser)
    parser.add_argument("--count", type=int, default=1000)
    arguments = programs.parsed(parser, "binlog")
    words = arguments.build.command("binlog")
    passed, failures = 0, []
    with tempfile.TemporaryDirectory() as folder:
        for seed in range(arguments.count):
            wrong = failure(words, seed, Path(folder))
            passed, failures = (passed, [*failures, wrong]) if wrong else (passed + 1, failures)
        wrong = long_failure(words, Path(folder))
        passed, failures = (passed, [*failures, wrong]) if wrong else (passed + 1, failures)
        for log in refused_logs(random.Random(0), list(row_events.kinds())):
            wrong = refused_log_failure(words, Path(folder), *log)
            passed, failures = (passed, [*failures, wrong]) if wrong else (passed + 1, failures)
        for refused in REFUSALS:
            wrong = refusal(words, Path(folder), *refused)
            passed, failures = (passed, [*failures, wrong]) if wrong else (passed + 1, failures)
    return results.report_counts(passed, failures)


if __name__ == "__main__":
    sys.exit(main())
