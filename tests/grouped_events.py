"""Counts of events by type, by time and by transaction, written from `docs/STATISTICS.md` over what `statistics_model.py` says of each
event."""

import json
from dataclasses import dataclass
from datetime import datetime, timezone

import json_model
import maria_json_model

CHANGES = ("inserted", "updated", "deleted")
# What is printed of a transaction, and of a table in it.
COUNTS = ("events", "bytes", *CHANGES, "unread_events")
# The classes of sizes, by the number of binary digits.
SIZE_CLASSES = 65
# How many of the largest transactions are printed if no number is asked for.
DEFAULT_TOP = 20
TYPE_NAMES = json_model.NAMES | maria_json_model.NAMES
# The types of events that belong to the log and to no transaction.
OF_LOG = (3, 4, 15, 35, 161, 163, 164)


@dataclass
class Event:
    """What is counted of an event: its index in its log, its type, whether a transaction begins with it, its rows by how they change a
    table, where it ends, and the GTID of the transaction that begins with it. One inside a compressed transaction takes no bytes of the
    log, and ends with the event that has the transaction."""

    index: int
    kind: int
    begins: bool
    time: int
    bytes: int
    size: int
    end: int
    is_inside: bool = False
    change: str = ""
    rows: int = 0
    is_unread: bool = False
    # The names of the table of which it has rows.
    table: tuple = None
    gtid: str = ""


def counts_of(events, bytes_of=lambda event: event.bytes):
    rows = {change: sum(event.rows for event in events if event.change == change) for change in CHANGES}
    sizes = {"events": len(events), "bytes": sum(map(bytes_of, events)), "transactions": sum(event.begins for event in events)}
    return sizes | rows | {"unread_events": sum(event.is_unread for event in events)}


def tables_of(events):
    """The events of each table of which some have rows, by its names, in the order of the first ones."""
    found = {}
    for event in events:
        if event.table is not None:
            found.setdefault(event.table, []).append(event)
    return found


def intervals(events, seconds):
    """The events of each interval by its first second, in order."""
    found = {}
    for event in events:
        found.setdefault(event.time - event.time % seconds, []).append(event)
    return sorted(found.items())


def transactions(events):
    """The events of each transaction. Those before the first one are in none, and so are those from an event of the log to the next one."""
    found, is_within = [], False
    for event in events:
        if event.begins:
            found.append([event])
            is_within = True
        elif event.kind in OF_LOG and not event.is_inside:
            is_within = False
        elif is_within:
            found[-1].append(event)
    return found


# ---- what is printed


def line(value):
    return json.dumps(value, ensure_ascii=False, separators=(",", ":")) + "\n"


def text_of(name):
    """A name as the text has it. One that could end a line, or that a terminal obeys, isn't shown."""
    try:
        return "?" if any(byte < 32 or byte == 127 for byte in name) else name.decode()
    except UnicodeDecodeError:
        return "?"


def name_value(name):
    try:
        return name.decode()
    except UnicodeDecodeError:
        return {"hex": name.hex()}


def time_text(seconds):
    return datetime.fromtimestamp(seconds, timezone.utc).strftime("%Y-%m-%dT%H:%M:%SZ")


def words_of(counts, names):
    return " ".join(f"{counts[name]} {name.removesuffix('_events')}" for name in names)


def type_of(kind):
    return {"type": kind, "name": TYPE_NAMES.get(kind)}


def types_json(every, damaged, damaged_inside):
    """The lines of all types, and of each, and the same of the events inside. The largest event is the first one of its size."""
    events, inside = ([event for event in every if event.is_inside == is_inside] for is_inside in (False, True))
    first, last = (events[0].time, events[-1].time) if events else (None, None)
    largest = max(events, key=lambda event: event.bytes, default=None)
    head = {"events": len(events), "bytes": sum(event.bytes for event in events), "damaged": damaged, "transactions": sum(event.begins for event in events)}
    head |= {"first_time": first, "last_time": last}
    head["largest"] = largest and {"index": largest.index, "bytes": largest.bytes} | type_of(largest.kind)
    lines = [type_of(kind) | {"events": len(found), "bytes": sum(event.bytes for event in found)} for kind, found in by_kind(events)]
    return "".join(map(line, [head, *lines])).encode() + inside_json(inside, damaged_inside)


def by_kind(events):
    """The events of each type, in ascending order."""
    found = {}
    for event in events:
        found.setdefault(event.kind, []).append(event)
    return sorted(found.items())


def inside_json(events, damaged):
    """The lines of the events inside compressed transactions, and of the errors in the places of these."""
    if not events and not damaged:
        return b""
    head = {"inside_events": len(events), "inside_bytes": sum(event.size for event in events), "inside_damaged": damaged}
    lines = [type_of(kind) | {"inside_events": len(found), "inside_bytes": sum(event.size for event in found)} for kind, found in by_kind(events)]
    return "".join(map(line, [head, *lines])).encode()


def inside_text(events, damaged):
    if not events and not damaged:
        return b""
    lines = [f"inside {len(events)} events {sum(event.size for event in events)} bytes {damaged} damaged"]
    for kind, found in by_kind(events):
        lines.append(f"inside {TYPE_NAMES.get(kind, kind)} {len(found)} events {sum(event.size for event in found)} bytes")
    return "".join(text + "\n" for text in lines).encode()


def intervals_text(events, seconds):
    rows = intervals(events, seconds)
    head = f"intervals {len(rows)}\nseconds {seconds}\n"
    names = ("events", "bytes", "transactions", *CHANGES, "unread_events")
    return (head + "".join(f"time {time_text(start)} {words_of(counts_of(members), names)}\n" for start, members in rows)).encode()


def intervals_json(events, seconds):
    rows = intervals(events, seconds)
    lines = [{"intervals": len(rows), "seconds": seconds}, *({"time": start} | counts_of(members) for start, members in rows)]
    return "".join(map(line, lines)).encode()


def sizes_of(groups):
    """The number of transactions of each class of sizes."""
    sizes = [0] * SIZE_CLASSES
    for members in groups:
        sizes[len(f"{counts_of(members)['bytes']:b}".lstrip("0"))] += 1
    return sizes


def largest(groups, top):
    return sorted(groups, key=lambda members: -counts_of(members)["bytes"])[: DEFAULT_TOP if top is None else top]


def places_of(members):
    first, last = members[0], members[-1]
    begin = first.end - first.bytes if first.bytes <= first.end else None
    places = {"gtid": first.gtid or None, "position": begin, "end_position": last.end, "first_time": first.time, "last_time": last.time}
    return places | {"duration": last.time - first.time if first.time <= last.time else None}


def number_text(number):
    return "?" if number is None else str(number)


def transactions_text(events, top=None):
    groups = transactions(events)
    lines = [f"transactions {len(groups)}"]
    for digits, count in enumerate(sizes_of(groups)):
        if count:
            lines.append(f"size {2**digits // 2} {count} transactions")
    for members in largest(groups, top):
        places = places_of(members)
        place = f"transaction {number_text(places['position'])} to {places['end_position']}"
        named = f" gtid {places['gtid']}" if places["gtid"] else ""
        times = f"first {time_text(places['first_time'])} last {time_text(places['last_time'])} {number_text(places['duration'])} seconds"
        lines.append(f"{place}{named} {words_of(counts_of(members), COUNTS)} {times}")
        for name, found in tables_of(members).items():
            lines.append(f"  table {'.'.join(map(text_of, name))} {words_of(counts_of(found, own_size), COUNTS)}")
    return "".join(text + "\n" for text in lines).encode()


def own_size(event):
    return event.size


def printed(events, bytes_of=lambda event: event.bytes):
    counts = counts_of(events, bytes_of)
    return {name: counts[name] for name in COUNTS}


def transactions_json(events, top=None):
    groups = transactions(events)
    lines = [{"transactions": len(groups), "sizes": sizes_of(groups)}]
    for members in largest(groups, top):
        tables = [{"database": name_value(name[0]), "table": name_value(name[1])} | printed(found, own_size) for name, found in tables_of(members).items()]
        lines.append(places_of(members) | printed(members) | {"tables": tables})
    return "".join(map(line, lines)).encode()
