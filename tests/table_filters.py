"""Logs of events of which it is known what tables they are of, and which of them filters of tables take.

What is taken follows from what each event was made of, and not from its bytes.
"""

import random
import re
from collections import namedtuple

import encoded_events as encode
import maria_events
import payload_lines
import row_events
from row_values import SPELLING, framed, start

MYSQL, MARIA = "8.0.36", "10.11.6-MariaDB"
TABLES = [
    (b"shop", b"orders"),
    (b"shop", b"orders_old"),
    (b"shop", b"users"),
    (b"shop_2", b"orders"),
    (b"test", b"t"),
    (b"test", b"a.b"),
    (b"caf\xc3\xa9", b"t\xff*?"),
]
INT = 3

# An event as its type and body. `kind` says what it is: a map or rows of a table, with its names; a statement, with its default
# database; `beside` a statement, a `comment`, an `unknown` change, of the `frame` of a transaction or the log, of `any` table, or `unread`; or a
# `payload`, with the events inside. `is_last` is that of the last row event of a statement.
Made = namedtuple("Made", "type body kind names is_last inside", defaults=[(), False, ()])


def made(kind, event, *names, is_last=False):
    return Made(event.type, event.body, kind, names, is_last)


# ---- events


def table_map(number, names):
    database, table = names
    optional = row_events.names([b"id"])
    parts = {"table_id": number, "flags": 1, "types": bytes([INT]), "metadata": b"", "nulls": [True], "optional": optional}
    return made("map", encode.table_map(SPELLING, database=database, table=table, **parts), *names)


def rows(chance, number, names, is_maria, is_last):
    content = b"\0\7\0\0\0"
    # All bits of the flags but the lowest one say nothing of the end.
    parts = {"table_id": number, "flags": chance.choice([0, 2, 0xFFFE]) + is_last, "before": [True], "after": [True]}
    if is_maria and chance.random() < 0.5:
        kind = chance.choice(maria_events.ROWS_KINDS)
        extra = (None, b"") if kind[0] < 169 else (2, b"")
        event = maria_events.rows_compressed(kind, SPELLING, content, extra, **parts)
    else:
        kind = chance.choice(encode.ROWS_KINDS)
        extra = (None, b"") if kind[0] in encode.OLDER_ROWS else (2, b"")
        event = encode.rows(kind, SPELLING, extra=extra, content=content, **parts)
    return made("rows", event, *names, is_last=is_last)


FRAMES = ["BEGIN", "COMMIT", "ROLLBACK", "SAVEPOINT `s`", "ROLLBACK TO `s`", "RELEASE SAVEPOINT `s`", "XA START X'61',X'',1", "XA COMMIT X'61',X'',1"]
STATEMENTS = ["insert into orders values (1)", "begin_work()", "BEGI", "", "XA", "drop table shop.users", "\u00e9"]
LOAD = {"ids": (1, 2, 3), "file_id": 1, "start_pos": 0, "end_pos": 1, "dup_handling": 0}


def statement(chance, is_maria):
    database = chance.choice([b"shop", b"shop_2", b"test", b""])
    text = chance.choice(STATEMENTS)
    if is_maria and chance.random() < 0.4:
        # What is compressed frames no transaction.
        event = maria_events.query_compressed(chance.choice(["BEGIN", text]), None, schema=database)
    elif chance.random() < 0.2:
        event = encode.execute_load_query(schema=database, text=chance.choice(["BEGIN", text]), **LOAD)
    else:
        event = encode.query(schema=database, text=text)
    return made("statement", event, database)


def frame(chance, is_maria):
    events = [encode.query(schema=chance.choice([b"shop", b"other"]), text=chance.choice(FRAMES)), encode.xid(value=7)]
    events += [encode.kept(38, b"\1xa"), encode.ignored(27, b""), encode.kept(28, b"x"), encode.ignored(3, b"")]
    sid = bytes(range(16))
    of_maria = [maria_events.gtid(1, 0, 7), maria_events.gtid_list(0, [(0, 1, 4)]), maria_events.binlog_checkpoint("maria-bin.000001")]
    of_mysql = [encode.gtid(33, sid=sid, gno=5), encode.gtid(34, sid=bytes(16), gno=0), encode.previous_gtids([])]
    return made("frame", chance.choice(events + (of_maria if is_maria else of_mysql)))


def beside(chance):
    events = [encode.intvar(subtype=1, value=5), encode.rand(seed1=1, seed2=2), encode.null_user_var(name="v")]
    events += [encode.begin_load_query(file_id=1, block=b"x"), encode.kept(9, b"block"), encode.kept(11, b"file")]
    return made("beside", chance.choice(events))


def other(chance, is_maria):
    unknown = [encode.kept(number, b"content") for number in (6, 8, 10, 12, 20, 21, 22)]
    lost = [encode.incident(incident_type=1, message="lost"), encode.unknown(200, b"what"), encode.ignored(0, b""), encode.ignored(43, b"")]
    comment = maria_events.annotate_rows("update orders") if is_maria else encode.rows_query(text="update orders")
    cut = chance.choice([encode.ROWS_KINDS[3], encode.ROWS_KINDS[5]])
    unread = encode.Event(cut[0], cut[1], b"\1\0\0", None)
    return chance.choice([made("unknown", chance.choice(unknown)), made("any", chance.choice(lost)), made("comment", comment), made("unread", unread)])


def payload(chance):
    """A compressed transaction of random events, with table maps of its own."""
    state = State(chance, False, False)
    events = [state.inside() for _ in range(chance.randrange(7))]
    kind, body = payload_lines.with_payload(chance, [(event.type, event.body) for event in events], chance.choice(["none", "raw"]))
    return Made(kind, body, "payload", inside=tuple(events))


class State:
    """The table maps in force, while a log or a compressed transaction is made."""

    def __init__(self, chance, is_maria, is_fixed):
        self.chance, self.is_maria, self.is_fixed, self.maps = chance, is_maria, is_fixed, {}

    def event(self):
        chance = self.chance
        sort = chance.choices(["map", "rows", "statement", "frame", "beside", "other", "rotate", "payload"], [4, 9, 2, 2, 1, 1, 0.2, 2])[0]
        if sort == "payload" and self.is_maria:
            sort = "other"
        return payload(chance) if sort == "payload" else self.of_sort(sort)

    def inside(self):
        """An event inside a compressed transaction. Servers put no statements there."""
        sort = self.chance.choices(["map", "rows", "frame", "other", "statement", "rotate"], [4, 6, 1, 0.2, 0.1, 0.1])[0]
        # Most rows have a table map.
        return self.of_sort("map" if sort == "rows" and not self.maps and self.chance.random() < 0.95 else sort)

    def of_sort(self, sort):
        chance, number = self.chance, self.chance.randrange(1, 6)
        if sort == "map":
            self.maps[number] = TABLES[number] if self.is_fixed else chance.choice(TABLES)
            return table_map(number, self.maps[number])
        if sort == "rows":
            known = [*self.maps] if self.maps and chance.random() < 0.7 else [number]
            number = chance.choice(known)
            return rows(chance, number, self.maps.get(number, ()), self.is_maria, chance.random() < 0.4)
        if sort == "rotate":
            position = chance.choice([0, 4])
            self.maps = {} if position else self.maps
            return made("frame", encode.rotate(position=position, name="bin.000002"))
        return {"statement": statement, "frame": frame, "other": other}[sort](chance, self.is_maria) if sort != "beside" else beside(chance)


def log(seed, is_maria, count, is_fixed=False):
    """A log of as many random events behind its format description, and what each of them is made of. If it is fixed, a table id is
    always that of the same table."""
    state = State(random.Random(seed), is_maria, is_fixed)
    events = [state.event() for _ in range(count)]
    content = start(MARIA if is_maria else MYSQL) + b"".join(framed(event.type, event.body) for event in events)
    return content, [Made(15, b"", "frame"), *events]


# ---- what is taken


def matches(pattern, name):
    forms = {ord("*"): b".*", ord("?"): b"."}
    return re.fullmatch(b"".join(forms.get(byte, re.escape(bytes([byte]))) for byte in pattern), name, re.DOTALL) is not None


class Asked:
    """The patterns of tables and of databases that are asked for."""

    def __init__(self, tables, databases):
        self.tables = [tuple(table.split(b".", 1)) for table in tables]
        self.databases = databases
        self.words = [word for table in tables for word in ("--table", table.decode())]
        self.words += [word for database in databases for word in ("--database", database.decode())]

    def has_database(self, database):
        return not self.databases or any(matches(pattern, database) for pattern in self.databases)

    def has_table(self, database, table):
        is_among = any(matches(first, database) and matches(second, table) for first, second in self.tables)
        return self.has_database(database) and (is_among or not self.tables)

    def takes(self, event, is_for_copy):
        """Whether an event is taken, whatever is before it; None if it isn't known which tables it changes."""
        if event.kind == "map" or (event.kind == "rows" and event.names):
            return self.has_table(*event.names)
        if event.kind == "statement":
            return None if self.tables else self.has_database(*event.names)
        if event.kind == "payload":
            return any(self.takes_inside(inner) for inner in event.inside)
        known = {"frame": is_for_copy, "any": is_for_copy or None, "beside": not self.tables, "comment": False, "unread": True}
        return known.get(event.kind)

    def takes_inside(self, event):
        """Whether an event inside a compressed transaction is taken: also one of which it isn't known which tables it changes."""
        return self.takes(event, False) is not False


def taken(events, asked, is_for_copy, is_met=lambda index: True):
    """The indexes of the events that are taken, and how many are left out of which it isn't known what tables they change. `is_met` says
    whether the other filters take an event."""
    indexes, left_out, is_in_statement = [], 0, False
    for index, event in enumerate(events):
        takes = asked.takes(event, is_for_copy)
        ends = event.kind == "rows" and event.is_last
        is_taken = (bool(takes) or (is_for_copy and is_in_statement and ends)) and is_met(index)
        is_taken = is_taken or (is_for_copy and event.type == 15)
        indexes += [index] * is_taken
        left_out += takes is None and not is_taken and is_met(index)
        if event.kind == "rows":
            is_in_statement = not event.is_last and (is_in_statement or is_taken)
    return indexes, left_out


ASKED = [
    ([b"shop.orders"], []),
    ([b"shop.*"], []),
    ([b"*.orders"], []),
    ([b"*.*"], []),
    ([b"sh?p.ord*s"], []),
    ([b"shop*.orders"], []),
    ([b"shop.*_*", b"test.?"], []),
    ([b"test.a.b"], []),
    ([b"test.?.?"], []),
    ([b"SHOP.orders"], []),
    (["caf\u00e9.*".encode()], []),
    ([b"caf??.t?\\*"], []),
    ([b"caf??.t?*"], []),
    ([b"*o*.*r*s*"], []),
    ([b"????.*"], []),
    ([], [b"shop"]),
    ([], [b"shop*"]),
    ([], [b"shop", b"test"]),
    ([], [b""]),
    ([], [b"*"]),
    ([b"*.orders"], [b"shop_?"]),
    ([b"*.t"], [b"shop"]),
]
