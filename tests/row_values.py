#!/usr/bin/env python3
"""Compares the rows that the library reads with an encoder of rows and with a model of them, over damaged row events.

Usage: row_values.py [--count N] FLAG

FLAG is one of `programs.py`: its programs print the rows of each row event of a log, `json` among other lines. The encoder gives events of every type of
column, with extremes, and the rows that they have, which each program has to print; the model gives those of N damaged events
(1,000,000 if not given), for the first program. The last line is `N passed, M failed`; the exit status is 1 if something failed.
"""

import argparse
import functools
import json
import math
import random
import struct
import subprocess
import sys
from concurrent.futures import ProcessPoolExecutor

import binary_json
import binary_json_model
import encoded_events as encode
import encoded_logs
import event_data_model
import listing_model
import programs
import results
import row_events
import row_model
from binary_json_model import Members
from row_model import Facts, Fault, Float, Json

EVENTS_OF_A_LOG = 2_000
EVENTS_OF_A_PART = 20_000
HEADER = (1, 2, 3, 0)
SPELLING = encode.Spelling(id_width=6)

# The types of row events, their names, and their images.
ROW_TYPES = {kind[0]: kind[2:] for kind in encode.ROWS_KINDS}
WHOLE = [kind for kind in encode.ROWS_KINDS if kind[0] != 39]
(PARTIAL,) = [kind for kind in encode.ROWS_KINDS if kind[0] == 39]
JSON = 245


# ---- logs


def start(version):
    described = encoded_logs.described("rows", encoded_logs.POST_HEADER_LENGTHS, server_version=version, algorithm=0)
    content, _ = encoded_logs.frame(described.event, HEADER, None)
    return listing_model.FILE_HEADER + content


def framed(kind, body):
    return encoded_logs.framed(kind, body, HEADER, has_checksum=False)[0]


def table_map(table_id, types, metadata, optional=b""):
    nulls = [True] * len(types)
    event = encode.table_map(
        SPELLING, table_id=table_id, flags=1, database="d", table="t", types=types, metadata=metadata, nulls=nulls, optional=optional
    )
    return 19, event.body


def row_event(kind, table_id, before, after, content):
    extra = (None, b"") if kind[0] in encode.OLDER_ROWS else (2, b"")
    event = encode.rows(kind, SPELLING, table_id=table_id, flags=1, extra=extra, before=before, after=after, content=content)
    return kind[0], event.body


# ---- what is wanted of an event


class Tables:
    """The table maps in force."""

    def __init__(self, is_maria):
        self.is_maria, self.maps = is_maria, {}

    def take(self, body):
        try:
            found, rest = event_data_model.table_map(body, 8)
        except event_data_model.Fault:
            return
        if not rest:
            self.maps[found["table_id"]] = found

    def wanted(self, kind, body):
        """The members behind the index; None if the event can't be read."""
        lengths = encoded_logs.POST_HEADER_LENGTHS
        try:
            event = event_data_model.fields(kind, body, lengths)
        except event_data_model.Fault:
            return None
        table = self.maps.get(event["table_id"])
        if table is None:
            return [("rows", None)]
        try:
            columns = row_model.columns(table["columns_type"].bytes, table["columns_metadata"].bytes)
        except Fault:
            return [("error", "Columns")]
        if event["num_columns"] != len(columns):
            return [("error", "ColumnCount")]
        return self.members(kind, body, event, table, columns)

    def members(self, kind, body, event, table, columns):
        """Those of an event of a table map with these columns."""
        return [("rows", row_model.rows_of_event(columns, table, event, self.is_maria, kind == PARTIAL[0]))]


def is_same(found, wanted):
    """Whether a value of the program's JSON is the wanted one."""
    if isinstance(wanted, Float):
        (value,) = struct.unpack(wanted.format, wanted.bytes)
        if not math.isfinite(value):
            return found is None
        return isinstance(found, float) and struct.pack(wanted.format, found) == wanted.bytes
    if isinstance(wanted, Json):
        return is_same(found, json.loads(wanted.text, object_pairs_hook=list))
    if isinstance(wanted, (list, tuple)):
        return type(found) is type(wanted) and len(found) == len(wanted) and all(map(is_same, found, wanted))
    return type(found) is type(wanted) and found == wanted


# ---- encoded events


def value_rows(kind):
    """The rows of a table of one column of this kind, one for each value and a NULL: their contents and their JSON."""
    for values, optional in ((kind.values, b""), (kind.unsigned, row_events.field(1, b"\x80"))):
        if values is not None:
            contents = b"".join(b"\0" + content for content, _ in values) + b"\1"
            yield optional, contents, [value for _, value in values] + [None]


def single_columns():
    """Tables of one column."""
    for kind in row_events.kinds():
        for optional, contents, values in value_rows(kind):
            table = table_map(7, bytes([kind.type]), kind.metadata, optional)
            for event in (WHOLE[0], WHOLE[2], WHOLE[3], WHOLE[5]):
                name = "after" if event[3] else "before"
                rows = [[(name, [("@1", value)])] for value in values]
                yield table, row_event(event, 7, [True], [True], contents), [("rows", rows)]


def every_column():
    """A table with a column of each kind, some absent and some NULL, in updates."""
    kinds = list(row_events.kinds())
    types, metadata = bytes(kind.type for kind in kinds), b"".join(kind.metadata for kind in kinds)
    table = table_map(8, types, metadata)
    for step in (1, 2, 3, 7):
        before = [place % step == 0 for place in range(len(kinds))]
        after = [place % (step + 1) == 0 for place in range(len(kinds))]
        images = [encoded_image(kinds, present, step) for present in (before, after)]
        row = [("before", images[0][1]), ("after", images[1][1])]
        contents = images[0][0] + images[1][0]
        yield table, row_event(WHOLE[4], 8, before, after, 3 * contents), [("rows", [row] * 3)]


def encoded_image(kinds, present, step):
    """An image in which each fifth column is NULL."""
    there = [place for place, is_there in enumerate(present) if is_there]
    nulls = [order % 5 == 4 for order in range(len(there))]
    content, members = encode.bits(nulls), []
    for place, is_null in zip(there, nulls):
        bits, value = kinds[place].values[step % len(kinds[place].values)]
        content += b"" if is_null else bits
        members.append((f"@{place + 1}", None if is_null else value))
    return content, members


def many_columns():
    count = 4096
    table = table_map(9, b"\1" * count, b"")
    nulls = [place % 3 == 0 for place in range(count)]
    content = encode.bits(nulls) + b"".join(bytes([place % 128]) for place in range(count) if not nulls[place])
    image = [(f"@{place + 1}", None if nulls[place] else place % 128) for place in range(count)]
    yield table, row_event(WHOLE[3], 9, [True] * count, [True] * count, content), [("rows", [[("after", image)]])]


def stated_facts():
    """Names, UNSIGNED and the character set `binary`, of some columns."""
    types, metadata = bytes([15, 1, 13, 1, 254, 252]), b"\x0a\0" + b"\xfe\x0a" + b"\1"
    texts = [b"a", "\u00e4".encode(), b"\xff", b"id", b"a", b""]
    for is_by_default in (False, True):
        # The second of the three character columns is binary.
        charset = row_events.field(2, b"\x2d\1\x3f") if is_by_default else row_events.field(3, b"\x2d\x3f\x2d")
        optional = row_events.field(1, row_events.first_bits([False, False, True])) + charset + row_events.names(texts)
        optional += row_events.field(200, b"unknown")
        content = b"\0" + b"\2ab" + b"\xff" + b"\1" + b"\xff" + b"\2ab" + b"\1c"
        image = [("a", "ab"), ("\u00e4", -1), ("@3", 1901), ("id", 255), ("a", "6162" + 16 * "0"), ("", "c")]
        table = table_map(10, types, metadata, optional)
        yield table, row_event(WHOLE[3], 10, [True] * 6, [True] * 6, content), [("rows", [[("after", image)]])]


COLORS = [b"red", "gr\u00fcn".encode(), b"\xff", b""]


def enum_cells():
    """Contents of an ENUM of one byte with these colors, and their JSON; the last is beyond them."""
    return [(b"\0", ""), (b"\1", "red"), (b"\2", "gr\u00fcn"), (b"\3", [("hex", "ff")]), (b"\4", ""), (b"\5", 5), (b"\xff", 255)]


def set_cells():
    """Contents of a SET of two bytes with these colors, and their JSON."""
    masks = [(0, ""), (1, "red"), (2, "gr\u00fcn"), (3, "red,gr\u00fcn"), (8, ""), (9, "red,"), (11, "red,gr\u00fcn,")]
    masks += [(4, [("hex", "ff")]), (5, [("hex", "7265642cff")]), (16, 16), (17, 17), (0xFFFF, 0xFFFF)]
    return [(mask.to_bytes(2, "little"), value) for mask, value in masks]


def wide_cells():
    """Contents of a SET of eight bytes with 64 members, and of an ENUM of two bytes with 300."""
    all_bits = ",".join(f"m{place}" for place in range(64))
    masks = [(1 << 63, "m63"), (1 << 63 | 1 << 31 | 1, "m0,m31,m63"), ((1 << 64) - 1, all_bits)]
    indexes = [(1, "e1"), (256, "e256"), (300, "e300"), (301, 301)]
    return [((mask.to_bytes(8, "little"), text), (b"\1\0", "e1")) for mask, text in masks] + [
        ((bytes(8), ""), (index.to_bytes(2, "little"), value)) for index, value in indexes
    ]


def row_of(cells, names):
    return b"\0" + b"".join(content for content, _ in cells), [("after", [(name, value) for name, (_, value) in zip(names, cells)])]


def table_rows(table_id, types, metadata, optional, rows):
    """A table with these rows, of which each is a list of cells."""
    contents, shown = zip(*(row_of(cells, [f"@{place + 1}" for place in range(len(types))]) for cells in rows))
    present = [True] * len(types)
    event = row_event(WHOLE[3], table_id, present, present, b"".join(contents))
    return table_map(table_id, types, metadata, optional), event, [("rows", list(shown))]


def stated_members():
    """The members of ENUM and SET columns, between columns of other classes."""
    types, metadata = bytes([254, 1, 254, 247, 248]), b"\xf8\2" + b"\xf7\1" + b"\xf7\1" + b"\xf8\1"
    number, other, last = (b"\7", 7), (b"\1", "x"), (b"\2", "b")
    lists = row_events.members(6, [COLORS, [b"x"]]) + row_events.members(5, [COLORS, [b"a", b"b"]])
    rows = [[(b"\0\0", ""), number, cell, other, last] for cell in enum_cells()]
    rows += [[cell, number, (b"\1", "red"), other, last] for cell in set_cells()]
    yield table_rows(11, types, metadata, lists, rows)
    # The later field counts.
    yield table_rows(12, types, metadata, row_events.members(6, [[b"no"], [b"no"]]) + lists, rows)
    # A refused field states nothing, but those before it and behind it stand.
    for fields in (row_events.members(6, [COLORS, [b"x"]]), row_events.members(5, [COLORS])), (row_events.members(5, [COLORS]), row_events.members(6, [COLORS, [b"x"]])):
        yield table_rows(13, types, metadata, b"".join(fields), [[(b"\1\0", 1), number, (b"\1", "red"), other, (b"\2", 2)]])
    # No members at all.
    empty = row_events.members(6, [[], [b"x"]]) + row_events.members(5, [[], [b"a", b"b"]])
    yield table_rows(14, types, metadata, empty, [[(b"\0\0", ""), number, (b"\0", ""), other, last], [(b"\1\0", 1), number, (b"\1", 1), other, last]])
    wide = row_events.members(5, [[b"m%d" % place for place in range(64)]]) + row_events.members(6, [[b"e%d" % place for place in range(1, 301)]])
    yield table_rows(15, bytes([254, 254]), b"\xf8\x08\xf7\2", wide, wide_cells())


def padded_strings():
    """BINARY of 4, 1,020 and 0 bytes, CHAR of 4, VARBINARY and BLOB: only a BINARY is padded, behind its bytes."""
    types = bytes([254, 254, 254, 254, 15, 252])
    metadata = b"\xfe\4" + b"\xce\xfc" + b"\xfe\0" + b"\xfe\4" + b"\x0a\0" + b"\1"
    charsets = row_events.field(2, b"\x3f\3\x2d")
    long = 1020 * 2
    rows = [
        [(b"\2ab", "61620000"), (b"\1\0\7", "07".ljust(long, "0")), (b"\0", ""), (b"\2ab", "ab"), (b"\2ab", "6162"), (b"\1c", "63")],
        [(b"\0", "00000000"), (b"\0\0", "0" * long), (b"\0", ""), (b"\0", ""), (b"\0", ""), (b"\0", "")],
        [(b"\4a\0bc", "61006263"), (encode.number(1020, 2) + bytes(1020), "0" * long), (b"\0", ""), (b"\4a\0bc", "a\0bc"), (b"\3\0\0a", "000061"), (b"\1\0", "00")],
    ]
    yield table_rows(16, types, metadata, charsets, rows)


def partial_image(present, nulls, diffs, size):
    """An image after of a table of INT and JSON columns in turn: its contents without options, and its members."""
    content, members = encode.bits(nulls), []
    places = [place for place, is_there in enumerate(present) if is_there]
    for place, is_null in zip(places, nulls):
        text = size * chr(97 + place % 26)
        if place % 2 and diffs[place // 2]:
            document = binary_json_model.diff_list([("insert", b"$." + text.encode(), [text.encode()]), ("remove", b"$[0]", [])])
            value = [("diffs", Json(f'[{{"op":"insert","path":"$.{text}","value":"{text}"}},{{"op":"remove","path":"$[0]"}}]'))]
        else:
            document = binary_json_model.document(text.encode())
            value = [("json", Json(f'"{text}"'))] if place % 2 else place
        content += b"" if is_null else row_events.counted(document, 1) if place % 2 else bytes([place])
        members.append((f"@{place + 1}", None if is_null else value))
    return content, members


def partial_updates():
    """Partial updates of tables with some JSON columns, with and without diffs; options are spelled in one byte and in more."""
    for documents in (0, 1, 3, 8, 9, 20):
        count = 2 * documents + 1
        types = bytes(JSON if place % 2 else 1 for place in range(count))
        table = table_map(11, types, b"\1" * documents)
        before = [place == 0 for place in range(count)]
        for step in (1, 2, 3):
            after = [place % step == 0 for place in range(count)]
            nulls = [order % 4 == 3 for order in range(sum(after))]
            contents, rows = b"", []
            for options, diffs in (
                (b"\0", [False] * documents),
                (b"\1", [True] * documents),
                (b"\xfc\1\0", [place % 3 == 1 for place in range(documents)]),
                (b"\xfd\0\0\0", [False] * documents),
                (b"\xfe\1" + bytes(7), [place >= 8 for place in range(documents)]),
            ):
                image, members = partial_image(after, nulls, diffs, step)
                # Bits beyond the last column mean nothing.
                bits = encode.bits(diffs, step == 2) if b"\1" in options else b""
                contents += b"\0\x07" + options + bits + image
                rows.append([("before", [("@1", 7)]), ("after", members)])
            yield table, row_event(PARTIAL, 11, before, after, contents), [("rows", rows)]


def changed_documents():
    """Documents and lists of diffs, and the texts of the diffs and of the document after them, None where there is none."""
    number = binary_json_model.signed
    members = Members(((b"a", number(1)), (b"b", [number(1), number(2)])))
    deep = functools.reduce(lambda value, _: [value], range(99), [])
    one = '[{"op":"replace","path":"$.a","value":true}]'
    yield members, [], "[]", '{"a":1,"b":[1,2]}'
    yield members, [("replace", b"$.a", [True])], one, '{"a":true,"b":[1,2]}'
    yield members, [("remove", b"$.b[last]", [])], '[{"op":"remove","path":"$.b[last]"}]', '{"a":1,"b":[1]}'
    yield (
        members,
        [("insert", b"$.b[1]", [b"x"]), ("remove", b"$.a", [])],
        '[{"op":"insert","path":"$.b[1]","value":"x"},{"op":"remove","path":"$.a"}]',
        '{"b":[1,"x",2]}',
    )
    yield members, [("replace", b"$", [None])], '[{"op":"replace","path":"$","value":null}]', "null"
    for count in (100, 101):
        yield members, [("replace", b"$.a", [True])] * count, "[" + ",".join([one[1:-1]] * count) + "]", '{"a":true,"b":[1,2]}' if count == 100 else None
    # Refused: by the path, by what the diff does, and by the depth of 101 arrays.
    yield [number(1)], [("replace", b"$.a", [True])], one, None
    yield Members(()), [("replace", b"$.a", [True])], one, None
    yield None, [("replace", b"$.a", [True])], one, None
    yield members, [("remove", b"$.c[", [])], '[{"op":"remove","path":"$.c["}]', None
    yield members, [("insert", b"$.b[0]", [None]), ("remove", b"$.c", [])], '[{"op":"insert","path":"$.b[0]","value":null},{"op":"remove","path":"$.c"}]', None
    yield [number(7)], [("replace", b"$[0]", [deep])], '[{"op":"replace","path":"$[0]","value":%s}]' % ("[" * 100 + "]" * 100), None
    yield [number(7), deep[0]], [("remove", b"$[0]", [])], '[{"op":"remove","path":"$[0]"}]', "[" * 100 + "]" * 100
    # Diffs, and documents after, that aren't text.
    yield members, [("replace", b"$.a", [b"\xff"]), ("remove", b"$.a", [])], None, '{"b":[1,2]}'
    yield [b"\xff", None], [("remove", b"$[0]", [])], '[{"op":"remove","path":"$[0]"}]', "[null]"
    yield [b"\xff", None], [("remove", b"$[1]", [])], '[{"op":"remove","path":"$[1]"}]', None


def documents_after():
    """Partial updates of two JSON columns, with the document of one of them, of both or of none in the image before."""
    types = bytes([JSON, 1, JSON])
    table = table_map(18, types, b"\4\4")
    found = list(changed_documents())
    for before in ((True, True, True), (False, True, True), (True, True, False), (False, True, False)):
        for nulls in ([False] * 3, [True, False, False]):
            there = [is_there for is_there in before if is_there]
            nulls_before = [nulls[place] for place, is_there in enumerate(before) if is_there]
            contents, rows = b"", []
            for step, (first, second) in enumerate(zip(found, found[3:] + found[:3])):
                cells = [(document_cell(first[0]), 4), (bytes([step]), 0), (document_cell(second[0]), 4)]
                values = [shown_document(first[0]), step, shown_document(second[0])]
                members = [(f"@{place + 1}", None if nulls[place] else values[place]) for place in range(3) if before[place]]
                contents += encode.bits(nulls_before) + b"".join(cells[place][0] for place in range(3) if before[place] and not nulls[place])
                assert len(there) == len(members)
                after = [("@1", shown_diffs(first, before[0] and not nulls[0])), ("@2", 9), ("@3", shown_diffs(second, before[2]))]
                contents += b"\1\3\0" + diffs_cell(first[1]) + b"\x09" + diffs_cell(second[1])
                rows.append([("before", members), ("after", after)])
            yield table, row_event(PARTIAL, 18, list(before), [True] * 3, contents), [("rows", rows)]


def document_cell(value):
    return row_events.counted(binary_json_model.document(value), 4)


def diffs_cell(found):
    return row_events.counted(binary_json_model.diff_list(found), 4)


def shown_document(value):
    try:
        return [("json", Json(binary_json_model.text(value)))]
    except binary_json_model.NoText:
        return [("jsonb", binary_json_model.document(value).hex())]


def shown_diffs(changed, has_before):
    """The members of a list of diffs, whose document before is there or not."""
    _, found, diffs, after = changed
    shown = [("diffs", binary_json_model.diff_list(found).hex() if diffs is None else Json(diffs))]
    return shown + [("json", Json(after))] if has_before and after is not None else shown


def encoded():
    for part in (single_columns, every_column, many_columns, stated_facts, stated_members, padded_strings, partial_updates, documents_after):
        for table, event, wanted in part():
            yield part.__name__, [table, event], [wanted]


# ---- damaged events


def random_table(chance, kinds):
    chosen = [chance.choice(kinds) for _ in range(chance.randint(1, 10))]
    if chance.random() < 0.2:
        document = next(kind for kind in kinds if kind.type == JSON)
        chosen = [document if chance.random() < 0.7 else kind for kind in chosen + chosen]
    types, metadata = bytes(kind.type for kind in chosen), b"".join(kind.metadata for kind in chosen)
    optional = b""
    if chance.random() < 0.5:
        optional = random_members(chance, chosen)
        optional += row_events.field(1, chance.randbytes(2)[: (len(chosen) + 7) // 8])
        types_of_text = row_model.character_types(chance.random() < 0.5)
        characters = [column for column in chosen if column.type in types_of_text and real_type(column) == column.type]
        optional += random_collations(chance, 3, len(characters))
        if chance.random() < 0.5:
            optional += random_collations(chance, 11, sum(real_type(column) in (247, 248) for column in chosen))
    return chosen, table_map(chance.randrange(4), types, metadata, optional)


# Of both servers and of MariaDB alone, of decoded sets and of others, and numbers of none.
COLLATIONS = (1, 5, 7, 8, 9, 10, 11, 25, 26, 28, 33, 35, 51, 54, 56, 60, 63, 63, 63, 45, 45, 224, 250, 0, 1032, 2304, 2560, 3271, 65_544)


def random_collations(chance, kind, count):
    """A field with a collation for each column of a class."""
    return row_events.field(kind, b"".join(encode.length_encoded(chance.choice(COLLATIONS)) for _ in range(count)))


def real_type(column):
    """The type of a column; that of an ENUM or a SET is in its metadata."""
    is_listed = column.type in (254, 247, 248) and column.metadata[0] in (247, 248)
    return column.metadata[0] if is_listed else column.type


def random_members(chance, chosen):
    """The members of all ENUM and SET columns."""
    fields = b""
    for kind, real in ((5, 248), (6, 247)):
        columns = [column for column in chosen if real_type(column) == real]
        fields += row_events.members(kind, [[chance.randbytes(chance.randint(0, 3)) for _ in range(chance.randint(0, 9))] for _ in columns])
    return damage(chance, fields) if chance.random() < 0.2 else fields


# Strings of at most ten bytes.
SHORT = [(15, b"\x0a\0"), (253, b"\x0a\0"), (254, b"\xfe\x0a")]
CODECS = ("utf-8", "utf-16-be", "utf-16-le", "utf-32-be", "ascii", "cp1252", "koi8-r", "cp932", "gbk")
LETTERS = "aZ\"\n~\u00e4\u00df\u0434\u20ac\u65e5\ufffd\U0001f600"


@functools.cache
def short_documents():
    """Documents of JSON columns, as a server writes them."""
    chance = random.Random(59)
    contents = (binary_json_model.document(binary_json.random_value(chance, chance.randrange(4))) for _ in range(2_000))
    return [content for content in contents if len(content) < 400]


# Paths of diffs, of which one is no text.
PATHS = (b"$", b"$.a", b'$."a b"[0]', b"$[12]", "$.\u00e4".encode(), b"$.\xff", b"$." + b"k" * 260)


def random_diffs(chance):
    """A list of diffs."""
    content = b""
    for _ in range(chance.randrange(4)):
        operation = chance.randrange(3)
        parts = [chance.choice(PATHS)] + [chance.choice(short_documents()) for _ in range(operation < 2)]
        content += bytes([operation]) + b"".join(encode.length_encoded(len(part)) + part for part in parts)
    return content


def diffs_of(chance, before):
    """A list of diffs that is made for a document."""
    try:
        return binary_json.random_list(chance, binary_json_model.read(before))
    except binary_json_model.Refused:
        return random_diffs(chance)


def random_document(chance):
    content = random_diffs(chance) if chance.random() < 0.3 else chance.choice(short_documents())
    return binary_json.damaged(chance, content) if chance.random() < 0.4 else content


def random_content(chance, kind, before):
    """One of the contents of a kind, a document, a list of diffs for the document before, or a short string of any bytes or of letters
    in some codec."""
    if kind.type == JSON and chance.random() < 0.8:
        if before is not None and chance.random() < 0.7:
            return row_events.counted(diffs_of(chance, before), 4)
        return row_events.counted(random_document(chance), 4)
    if (kind.type, kind.metadata) not in SHORT or chance.random() < 0.3:
        return chance.choice(kind.values)[0]
    letters = "".join(chance.choice(LETTERS) for _ in range(chance.randint(0, 5)))
    text = letters.encode(chance.choice(CODECS), "ignore") if chance.random() < 0.7 else chance.randbytes(chance.randint(0, 10))
    return row_events.counted(text[:10], 1)


def random_image(chance, chosen, present, documents):
    """An image. `documents` are those of the image before, by their columns: they are those of this one then."""
    there = [place for place, is_there in enumerate(present) if is_there]
    nulls = [chance.random() < 0.2 for _ in there]
    image, before = encode.bits(nulls), dict(documents)
    documents.clear()
    for place, is_null in zip(there, nulls):
        content = b"" if is_null else random_content(chance, chosen[place], before.get(place))
        image += content
        if chosen[place].type == JSON and not is_null:
            documents[place] = content[4:]
    return image


def random_options(chance, chosen):
    """Options and diff bits of a partial update."""
    if chance.random() < 0.3:
        return b"\0"
    documents = sum(kind.type == JSON for kind in chosen)
    return b"\1" + chance.randbytes((documents + 7) // 8)


def random_row(chance, kind, chosen, images):
    documents = {}
    contents = [random_image(chance, chosen, present, documents) for present in images]
    if kind == PARTIAL:
        contents.insert(1, random_options(chance, chosen))
    return b"".join(contents)


def random_event(chance, chosen, table_id):
    kind = chance.choice(encode.ROWS_KINDS)
    before, after = ([chance.random() < 0.8 for _ in chosen] for _ in range(2))
    images = [present for present, is_there in ((before, kind[2]), (after, kind[3])) if is_there]
    rows = (random_row(chance, kind, chosen, images) for _ in range(chance.randint(0, 3)))
    return row_event(kind, table_id, before, after, b"".join(rows))


def damage(chance, body):
    """A body with a byte changed, cut, or with bytes more."""
    place = chance.randrange(len(body)) if chance.random() < 0.5 else max(0, len(body) - 1 - chance.randrange(12))
    way = chance.random()
    if way < 0.6:
        return body[:place] + bytes([chance.randrange(256)]) + body[place + 1 :]
    if way < 0.8:
        return body[:place]
    return body[:place] + chance.randbytes(chance.randint(1, 3)) + body[place:]


def damaged_log(chance, kinds, count):
    """Events of a log, and how many row events are among them."""
    events, rows = [], 0
    while rows < count:
        chosen, table = random_table(chance, kinds)
        if chance.random() < 0.2:
            table = (table[0], damage(chance, table[1]))
        events.append(table)
        for _ in range(chance.randint(1, 6)):
            kind, body = random_event(chance, chosen, int.from_bytes(table[1][:6], "little") if chance.random() < 0.95 else 9)
            events.append((kind, damage(chance, body) if chance.random() < 0.9 else body))
            rows += 1
    return events, rows


# ---- runs


def lines_of(events, is_maria):
    """What is wanted of the program: the objects of the events that are read."""
    tables = Tables(is_maria)
    for index, (kind, body) in enumerate(events):
        if kind == 19:
            tables.take(body)
            continue
        wanted = tables.wanted(kind, body)
        if wanted is not None:
            # The description is the first event.
            yield [("index", index + 1), *wanted]


def of_row_event(line):
    """The members of a row event's line of `json`: its index, and its rows or why there are none; the line says more of both."""
    members = dict(line)
    rows = members["rows"]
    refusal = dict(rows[0]) if rows else {}
    if "error" not in refusal or "row" in refusal:
        return [("index", members["index"]), ("rows", rows)]
    # A refusal that is of no row is one of the table's columns, or of their number.
    return [("index", members["index"]), ("error", "ColumnCount" if refusal["error"] == "ColumnCount" else "Columns")]


def printed(words, version, events):
    """The status, and the lines of row events: of `json` those that have a table."""
    content = start(version) + b"".join(framed(kind, body) for kind, body in events)
    # The messages of damaged events are those of their lines.
    finished = subprocess.run(words, input=content, stdout=subprocess.PIPE, stderr=subprocess.DEVNULL)
    parsed = functools.partial(json.loads, object_pairs_hook=list)
    if not programs.is_command(words):
        return finished.returncode, [parsed(line) for line in finished.stdout.splitlines()]
    # With status 2 a table map can't be read.
    status = 0 if finished.returncode == 2 else finished.returncode
    return status, [of_row_event(parsed(line)) for line in finished.stdout.splitlines() if b',"table":' in line]


def failure(name, words, version, events, wanted):
    """None if the program prints what is wanted, else what is wrong."""
    status, lines = printed(words, version, events)
    if status != 0:
        return f"{name}: status {status}"
    if len(lines) != len(wanted):
        return f"{name}: {len(lines)} lines, not {len(wanted)}"
    for found, line in zip(lines, wanted):
        if not is_same(found, line):
            return f"{name}: {str(found)[:300]}, not {str(line)[:300]}"
    return None


def encoded_failures(words):
    for version in ("8.0.36", "10.11.6-MariaDB"):
        for name, events, wanted in encoded():
            is_maria = version != "8.0.36"
            lines = [[("index", 2), *line] for line in wanted]
            model = list(lines_of(events, is_maria))
            yield failure(f"{name}, the encoder", words, version, events, lines)
            yield None if is_same_with_floats(model, lines) else f"{name}: the model has {str(model)[:300]}"


def is_same_with_floats(found, wanted):
    if isinstance(wanted, Json):
        return found == wanted
    if isinstance(wanted, (list, tuple)):
        return len(found) == len(wanted) and all(map(is_same_with_floats, found, wanted))
    return found == wanted or isinstance(found, Float) and wanted is None


def damaged_part(part):
    """How many damaged events of one part are as the model has them, and what is wrong with others."""
    words, seed, count = part
    chance, kinds = random.Random(seed), list(row_events.kinds())
    passed, failures = 0, []
    while count > 0:
        version = chance.choice(("8.0.36", "10.11.6-MariaDB"))
        events, rows = damaged_log(chance, kinds, min(count, EVENTS_OF_A_LOG))
        wanted = list(lines_of(events, version != "8.0.36"))
        wrong = failure(f"damaged events, seed {seed}, {count} left", words, version, events, wanted)
        passed, failures = (passed, [*failures, wrong]) if wrong else (passed + rows, failures)
        count -= rows
    return passed, failures


def damaged_parts(words, count):
    """The same of all damaged events, in parts with a seed each, side by side."""
    parts = [(words, seed, min(EVENTS_OF_A_PART, count - first)) for seed, first in enumerate(range(0, count, EVENTS_OF_A_PART))]
    with ProcessPoolExecutor() as pool:
        yield from pool.map(damaged_part, parts)


def main():
    parser = argparse.ArgumentParser(description="Compares rows with a model.")
    programs.add_flags(parser)
    parser.add_argument("--count", type=int, default=1_000_000)
    arguments = programs.parsed(parser, "rows")
    words, *others = arguments.build.commands("rows")
    encoded_results = [result for command in (words, *others) for result in encoded_failures(command)]
    failures = [result for result in encoded_results if result is not None]
    passed = len(encoded_results) - len(failures)
    for part_passed, part_failures in damaged_parts(words, arguments.count):
        passed += part_passed
        failures += part_failures
    return results.report_counts(passed, failures)


if __name__ == "__main__":
    sys.exit(main())
