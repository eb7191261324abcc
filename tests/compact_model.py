"""A plain model of the lines of `binlog json --compact`: a line for each row of a row event, by `docs/JSON.md`.

The items of a log, their whole lines, the events inside compressed transactions and the values of rows come from the model of the lines
of JSON.
"""

import event_data_model
import json_model
import listing_model
import maria_json_model
import payload_model
from event_data_model import Fault, Text
from listing_model import number
from maria_gtid_model import is_maria

OPERATIONS = {23: "insert", 30: "insert", 24: "update", 31: "update", 39: "update", 25: "delete", 32: "delete"}
# The events with which a transaction begins: of a GTID of MySQL's, with a tag or without, and of none; of one of MariaDB's.
GTIDS, ANONYMOUS, MARIA_GTID = (33, 42), 34, 162
# Events that have their whole lines: those of rows that aren't read, of old servers, and INCIDENT; and of MariaDB's own the start of
# encryption and compressed rows.
WHOLE, WHOLE_OF_MARIA = (20, 21, 22, 26), (164, *range(166, 172))


def gtid_text(frame, data, in_force):
    """The text of the GTID of the transaction that begins with an event; empty if it has none, one that can't be read, or one of MySQL's with a
    number that no GTID has."""
    type_number = listing_model.type_number(frame)
    try:
        if json_model.is_maria_event(frame, in_force):
            return maria_json_model.fields(type_number, data, in_force.lengths, listing_model.server_id(frame))["gtid"]
        if type_number not in GTIDS:
            return ""
        found = json_model.as_json(event_data_model.fields(type_number, data, in_force.lengths))
    except Fault:
        return ""
    if not 1 <= found["gno"] < 2**63:
        return ""
    return ":".join(map(str, filter(None, (found["sid"], found["tag"], found["gno"]))))


class Rows(json_model.TableMaps):
    """The table maps in force, and the rows of row events by them."""

    def of_event(self, frame, data, in_force):
        """The table map, what is refused of its optional metadata, and the rows of a row event, if all of them are read; else None, also without
        bytes of rows: rows of no columns have none."""
        type_number = listing_model.type_number(frame)
        try:
            event = event_data_model.fields(type_number, data, in_force.lengths)
        except Fault:
            return None
        table = self.maps.get(event["table_id"])
        if table is None or not event["rows_data"].bytes:
            return None
        refused, items = json_model.rows_of(type_number, event, table, is_maria(in_force.server_version), self.declared)
        return None if any(map(json_model.is_refused, items)) else (table, refused, items)


def row_line(place, frame, table, refused, row):
    names = {name: json_model.as_json(Text(table[member].bytes)) for name, member in (("database", "database_name"), ("table", "table_name"))}
    head = place | {"time": number(frame, 0, 4)} | names | {"op": OPERATIONS[listing_model.type_number(frame)]}
    if refused is not None:
        head["metadata"] = dict(refused)
    images = "".join(f',"{name}":{json_model.json_text(image)}' for name, image in row)
    return (json_model.compact(head)[:-1] + images + "}\n").encode()


def is_refused(frame, content, found, in_force):
    """Whether the data of an event can't be read. The text of a compressed statement counts for nothing."""
    if not isinstance(found["data"], dict) or set(found["data"]) != {"error"}:
        return False
    if listing_model.type_number(frame) != maria_json_model.QUERY_COMPRESSED or not json_model.is_maria_event(frame, in_force):
        return True
    try:
        event_data_model.fields(maria_json_model.QUERY, content, in_force.lengths)
    except Fault:
        return True
    return False


def is_whole(frame, content, found, in_force):
    """Whether an event that isn't a row event has its whole line."""
    type_number = listing_model.type_number(frame)
    is_of_maria = type_number in WHOLE_OF_MARIA and json_model.is_maria_event(frame, in_force)
    is_unknown = found["data"] is None
    return is_unknown or is_of_maria or type_number in WHOLE or is_refused(frame, content, found, in_force)


def event_lines(place, whole, frame, found, in_force, tables):
    """The lines of an event, of which the whole one is given."""
    data, _ = listing_model.cut(frame, in_force.algorithm)
    if listing_model.type_number(frame) in OPERATIONS:
        read = tables.of_event(frame, data, in_force)
        if read is None:
            return [whole]
        table, refused, rows = read
        return [row_line(place, frame, table, refused, row) for row in rows]
    return [whole] if is_whole(frame, data, found, in_force) else []


def payload_lines(place, index, frame, in_force, keeps_stored, declared, is_taken):
    """The lines of the events in an event with a payload, and whether one is an error."""
    data, _ = listing_model.cut(frame, in_force.algorithm)
    whole = lambda number, item, members="": json_model.line(index, {"part": number} | item, members)
    try:
        content = bytes(payload_model.content_of(*payload_model.event_of(data), json_model.MOST_CONTENT))
    except payload_model.Refusal as refusal:
        return [whole(0, json_model.refusal_object(str(refusal)))], True
    frames, refusal = payload_model.inner_frames(content)
    inside, tables, lines, has_errors = in_force._replace(algorithm=listing_model.OFF), Rows(declared), [], refusal is not None
    for number, inner in enumerate(frames):
        found, members = json_model.frame_object(inner, inside, tables, keeps_stored)
        if "error" in found:
            lines.append(whole(number, {"error": "Event", "number": found["error"]}))
            has_errors = True
        elif is_taken(index, number):
            at = {"file": place["file"], "pos": place["pos"], "part": number, "gtid": place["gtid"]}
            lines += event_lines(at, whole(number, found, members), inner, found, inside, tables)
    return lines + ([whole(len(frames), json_model.refusal_object(refusal))] if refusal else []), has_errors


def expected(content, file, keeps_stored=False, declared=None, is_taken=lambda index, part: True):
    """The standard output and the exit status for a file of this name and content. `is_taken` says whether a filter takes an event, and
    with the number of an event inside whether it takes that; of an event that isn't taken, nothing inside is."""
    if content[:4] != listing_model.FILE_HEADER:
        return b"", listing_model.STATUS_NOT_A_BINLOG
    frames, tail = listing_model.split(content[4:])
    tables, position, gtid, lines, has_errors = Rows(declared), 4, "", [], False
    for index, (frame, in_force) in enumerate(zip(frames, listing_model.in_force_at(frames))):
        found, members = json_model.frame_object(frame, in_force, tables, keeps_stored)
        whole = json_model.line(index, found, members)
        if "error" in found:
            lines.append(whole)
            position, gtid, has_errors = None, "", True
            continue
        if position is None:
            stated = listing_model.log_pos(frame) - listing_model.event_size(frame)
            position = stated if stated >= 0 else None
        data, _ = listing_model.cut(frame, in_force.algorithm)
        if listing_model.type_number(frame) in (*GTIDS, ANONYMOUS, MARIA_GTID):
            gtid = gtid_text(frame, data, in_force)
        place = {"file": file, "pos": position, "gtid": gtid or None}
        if is_taken(index, None):
            lines += event_lines(place, whole, frame, found, in_force, tables)
            if listing_model.type_number(frame) == json_model.PAYLOAD:
                inside, is_damaged = payload_lines(place, index, frame, in_force, keeps_stored, declared, is_taken)
                lines, has_errors = lines + inside, has_errors or is_damaged
        position = None if position is None else position + len(frame)
    if listing_model.is_undersized(tail):
        lines.append(json_model.line(len(frames), {"error": 3}))
        has_errors = True
    return b"".join(lines), listing_model.STATUS_ERRORS if has_errors else listing_model.STATUS_FINE
