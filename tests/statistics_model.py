"""A plain count of the changes of tables in logs, written from `docs/COMMANDS.md` over the models of events and of rows.

A table is its pair of names. Its rows are counted as the model of rows finds them in each row event.
"""

import json
from collections import Counter

import event_data_model
import json_model
import listing_model
import maria_json_model
import payload_model
from compact_model import gtid_text
from grouped_events import Event, name_value, text_of, time_text

BEGINS = (33, 34, 42, 162)
TABLE_MAP, ROTATE = 19, 4
INSERTED, UPDATED, DELETED = "inserted", "updated", "deleted"
# Row events by their types: how they change their table. Compressed ones are MariaDB's.
PLAIN = {23: INSERTED, 24: UPDATED, 25: DELETED, 30: INSERTED, 31: UPDATED, 32: DELETED, 39: UPDATED}
COMPRESSED = {166: INSERTED, 167: UPDATED, 168: DELETED, 169: INSERTED, 170: UPDATED, 171: DELETED}
# Events that may have rows, and whose bodies are kept as bytes.
KEPT = (20, 21, 22)


def parts_of(data, in_force):
    """The events inside the compressed transaction that an event with these data has, None for an error in the place of one or of all."""
    try:
        content = bytes(payload_model.content_of(*payload_model.event_of(data), json_model.MOST_CONTENT))
    except payload_model.Refusal:
        return [None]
    frames, refusal = payload_model.inner_frames(content)
    is_right = lambda frame: listing_model.body_fault(frame, listing_model.cut(frame, listing_model.OFF)[0], in_force) is None
    return [frame if is_right(frame) else None for frame in frames] + [None] * (refusal is not None)


class Counts:
    """What is counted over logs one after another. `is_taken` says which types are taken; `takes` which events, by their indexes, and which
    of the events inside these, by their numbers."""

    def __init__(self, is_taken=lambda kind: True, takes=lambda index, part: True):
        self.is_taken, self.takes, self.transactions, self.unknown, self.tables, self.touched = is_taken, takes, 0, [0, 0], {}, {}
        # What is counted of each event that is taken, and how many errors are in the places of events.
        self.events, self.damaged, self.damaged_inside = [], 0, 0

    def add_log(self, content):
        self.maps = {}
        frames, tail = listing_model.split(content[4:])
        self.damaged += listing_model.is_undersized(tail)
        for index, (frame, in_force) in enumerate(zip(frames, listing_model.in_force_at(frames))):
            parts = listing_model.cut(frame, in_force.algorithm)
            if parts is not None and listing_model.body_fault(frame, parts[0], in_force) is None:
                self.add_event(index, frame, parts[0], in_force)
            else:
                self.damaged += 1
        return self

    def add_event(self, index, frame, data, in_force):
        kind = listing_model.type_number(frame)
        self.follow(kind, data, in_force)
        if not self.is_taken(kind) or not self.takes(index, None):
            return
        time, end = (int.from_bytes(frame[place : place + 4], "little") for place in (0, 13))
        self.events.append(Event(index, kind, kind in BEGINS, time, len(frame), len(frame), end))
        if kind in BEGINS:
            self.events[-1].gtid = gtid_text(frame, data, in_force)
            self.transactions += 1
        self.add_changed(kind, frame, data, in_force)
        if kind == json_model.PAYLOAD:
            outside, self.maps = self.maps, {}
            for number, part in enumerate(parts_of(data, in_force)):
                self.add_part(index, number, part, end, in_force)
            self.maps = outside

    def add_part(self, index, number, frame, end, in_force):
        """An event inside a compressed transaction, which ends there with the event that has it; None is an error."""
        if frame is None:
            self.damaged_inside += 1
            return
        kind, (data, _) = listing_model.type_number(frame), listing_model.cut(frame, listing_model.OFF)
        self.follow(kind, data, in_force)
        if not self.takes(index, number):
            return
        time = int.from_bytes(frame[:4], "little")
        self.events.append(Event(index, kind, False, time, 0, len(frame), end, is_inside=True))
        self.add_changed(kind, frame, data, in_force)

    def add_changed(self, kind, frame, data, in_force):
        is_maria = json_model.is_maria(in_force.server_version)
        if kind in PLAIN or (kind in COMPRESSED and is_maria):
            self.add_rows(kind, frame, data, in_force, is_maria)
        elif kind in KEPT:
            self.add_unknown(frame)

    def follow(self, kind, data, in_force):
        if kind == ROTATE and any(data[:8]):
            self.maps = {}
        if kind == TABLE_MAP:
            try:
                found = event_data_model.fields(TABLE_MAP, data, in_force.lengths)
            except event_data_model.Fault:
                return
            self.maps[found["table_id"]] = found

    def add_unknown(self, frame):
        self.events[-1].is_unread = True
        self.unknown = [self.unknown[0] + 1, self.unknown[1] + len(frame)]

    def add_rows(self, kind, frame, data, in_force, is_maria):
        plain = maria_json_model.ROWS_COMPRESSED.get(kind, kind)
        try:
            event = event_data_model.fields(plain, data, in_force.lengths)
        except event_data_model.Fault:
            return self.add_unknown(frame)
        table = self.maps.get(event["table_id"])
        if table is None:
            return self.add_unknown(frame)
        name = table["database_name"].bytes, table["table_name"].bytes
        rows = event if kind in PLAIN else uncompressed(event)
        count = None if rows is None else row_count(plain, rows, table, is_maria)
        return self.add_changes(name, (PLAIN | COMPRESSED)[kind], count, frame)

    def add_changes(self, name, change, count, frame):
        event = self.events[-1]
        event.change, event.rows, event.is_unread, event.table = change, count or 0, count is None, name
        time = event.time
        found = self.tables.setdefault(name, Counter())
        found["events"] += 1
        found["bytes"] += len(frame)
        found[change] += count or 0
        found["unread_events"] += count is None
        found.setdefault("first_time", time)
        found["last_time"] = time
        if self.transactions and self.touched.get(name) != self.transactions:
            found["transactions"] += 1
            self.touched[name] = self.transactions

    def rows(self, top=None):
        """The tables with their counts, those with most bytes first."""
        return sorted(self.tables.items(), key=lambda item: -item[1]["bytes"])[:top]

    def text(self, top=None):
        lines = [f"tables {len(self.tables)}", f"transactions {self.transactions}", "unknown {} events {} bytes".format(*self.unknown)]
        return "".join(line + "\n" for line in [*lines, *(table_text(*row) for row in self.rows(top))]).encode()

    def json(self, top=None):
        head = {"tables": len(self.tables), "transactions": self.transactions, "unknown_events": self.unknown[0], "unknown_bytes": self.unknown[1]}
        return "".join(compact(line) + "\n" for line in [head, *(table_object(*row) for row in self.rows(top))]).encode()


def uncompressed(event):
    """A compressed event with the rows for which its bytes are stored; None if they are stored for none."""
    try:
        return event | {"rows_data": event_data_model.Bytes(maria_json_model.uncompressed(event["rows_data"].bytes))}
    except event_data_model.Fault:
        return None


def row_count(kind, event, table, is_maria):
    """How many rows an event has; None if one of them is refused, or the table's columns are."""
    _, items = json_model.rows_of(kind, event, table, is_maria)
    return None if any(json_model.is_refused(item) for item in items) else len(items)


# ---- what is printed

COUNTS = ("events", "bytes", INSERTED, UPDATED, DELETED, "unread_events", "transactions")
WORDS = dict(zip(COUNTS, ("events", "bytes", INSERTED, UPDATED, DELETED, "unread", "transactions")))


def compact(value):
    return json.dumps(value, ensure_ascii=False, separators=(",", ":"))


def table_text(name, counts):
    numbers = " ".join(f"{counts[key]} {WORDS[key]}" for key in COUNTS)
    times = f"first {time_text(counts['first_time'])} last {time_text(counts['last_time'])}"
    return f"table {'.'.join(map(text_of, name))} {numbers} {times}"


def table_object(name, counts):
    names = {"database": name_value(name[0]), "table": name_value(name[1])}
    return names | {key: counts[key] for key in (*COUNTS, "first_time", "last_time")}
