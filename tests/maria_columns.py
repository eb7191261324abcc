"""Tables of every type of column and in every character set of a MariaDB server, whose log states nothing of columns, or little; and
what the lines of JSON, with a file of columns that the server's own answer is, say of their rows beside what the server selects.

The values of a line are those of `docs/ROW_VALUES.md`: a text of a set that isn't decoded, or with bytes that are no character of its
set, is its stored bytes, and a value of an ENUM or a SET with a `?` in a member is a number; floats are compared as floats, moments in UTC
as texts.
"""

import json
import struct
import subprocess
from itertools import zip_longest
from typing import NamedTuple

import column_files
from maria_daemon import CLIENT

# How a server logs: all by rows, and each schema under one of the settings that state less than all.
BY_ROWS = ["--server-id=7", "--binlog-format=ROW", "--binlog-checksum=CRC32", "--character-set-server=utf8mb4"]
FORMS = ("NO_LOG", "MINIMAL")

NOT_DECODED = {"big5", "cp932", "eucjpms", "euckr", "gb18030", "gb2312", "gbk", "sjis", "ujis"}
UNICODE = {"ucs2", "utf16", "utf16le", "utf32", "utf8mb3", "utf8mb4"}

# ---- Tables


class Column(NamedTuple):
    """A column: how it is declared, and which kind of values it has; of a text the kind is the name of its character set."""

    name: str
    declared: str
    kind: str


class Table(NamedTuple):
    """A table besides its column `id`: its columns, and its rows as literals of SQL."""

    name: str
    columns: list
    rows: list


def of_type(kind, declared, *literals):
    """A column of each of these types, and rows in which all have the same literal."""
    columns = [Column(f"{kind}{place}", words, kind) for place, words in enumerate(declared)]
    return Table(f"{kind}s", columns, [[literal] * len(columns) for literal in literals])


def numbers():
    sizes = (("tinyint", 1), ("smallint", 2), ("mediumint", 3), ("int", 4), ("bigint", 8))
    signed = [Column(f"{name}_signed", name, "number") for name, _ in sizes]
    unsigned = [Column(f"{name} unsigned", f"{name} unsigned", "number") for name, _ in sizes]
    filled = [Column("filled", "int(7) zerofill", "number"), Column("bool", "bool", "number")]
    least = [str(-(1 << 8 * size - 1)) for _, size in sizes] + ["0"] * 5 + ["4000000000", "1"]
    greatest = [str((1 << 8 * size - 1) - 1) for _, size in sizes] + [str((1 << 8 * size) - 1) for _, size in sizes] + ["12", "0"]
    return Table("numbers", signed + unsigned + filled, [least, greatest, ["null"] * 12])


def many(count):
    return ",".join(f"'m{place}'" for place in range(count))


def members():
    few = "'a','it''s','back\\\\slash','\u65e5\u672c','tab\\tline\\n'"
    columns = [
        Column("few", f"enum({few},'b,c',')')", "member"), Column("many", f"enum({many(300)})", "member"),
        Column("some", f"set({few})", "member"), *(Column(f"set {count}", f"set({many(count)})", "member") for count in (9, 17, 25, 33, 64)),
    ]
    last = ["3", "300", "b'10110'", *(str((1 << count) - 1) for count in (9, 17, 25, 33)), "18446744073709551615"]
    return Table("members", columns, [["1"] * 8, last, ["'b,c'", "'m7'", "''", *(["'m0,m8'"] * 5)], ["null"] * 8])


def moments():
    dates = Table("dates", [Column("date", "date", "moment"), Column("year", "year", "number")], [["'2026-11-28'", "2155"], ["'0000-00-00'", "0"], ["null", "null"]])
    yield dates
    yield of_type("moment", [f"time({digits})" for digits in range(7)], "'-838:59:59'", "'12:34:56.789012'", "0", "null")
    moments_of_days = [f"{name}({digits}) null" for name in ("datetime", "timestamp") for digits in range(7)]
    yield of_type("moment", moments_of_days, "'2026-11-28 17:01:02.345678'", "'1999-01-01 00:00:01'", "0", "null")._replace(name="days")


def strings_of_bytes():
    kinds = ["binary(5)", "varbinary(20)", "tinyblob", "blob", "mediumblob", "longblob", "varbinary(300)"]
    yield of_type("bytes", kinds, "X'00ff41'", "''", "X'610000'", "X'c3a9'", "null")
    yield Table("addresses", [Column("four", "inet4", "inet4"), Column("six", "inet6", "inet6")], [["'10.1.0.0'", "'::1'"], ["'0.0.0.0'", "'2001:db8::'"]])
    yield of_type("uuid", ["uuid"], "'123e4567-e89b-12d3-a456-426655440000'", "'123e4567-e89b-42d3-a456-426655440001'", "'01921f2e-7b3c-7def-8abc-0123456789ab'", "'00000000-0000-0000-0000-000000000000'", "null")
    shapes = ["geometry", "point"]
    yield of_type("geometry", shapes, "ST_PointFromText('POINT(1 -2.5)')", "null")


def all_types():
    yield numbers()
    yield of_type("decimal", ["decimal(5,2)", "decimal(65,30)", "decimal(10,4) unsigned"], "1.5", "0", "123.45", "null")
    yield of_type("float", ["float", "float(7,3)", "float unsigned"], "0.1", "16777217", "1.5e-20", "null")
    yield of_type("double", ["double", "double(20,5)", "real"], "0.1", "1e15", "-2.5", "null")
    yield of_type("bit", ["bit", "bit(9)", "bit(64)"], "b'1'", "0", "null")._replace(name="bits")
    yield members()
    yield from moments()
    yield from strings_of_bytes()
    yield Table("documents", [Column("doc", "json", "utf8mb4")], [["'{\"a\": [1, 2.5, \"\u00e9\"]}'"], ["null"]])


WORDS = ["''", "'plain text'", "'it''s \\\\ \\t \\n'", "'\u00e9\u00fc\u00df'", "'\u0416\u0434'", "'\u0391\u03c9'", "'\u05d0'", "'\u0e01'", "'\u65e5\u672c'", "'\u20ac'", "'\U0001f600'", "null"]
BYTES = ["X'81'", "X'41ff'", "X'98a9'"]


def of_set(name):
    """A table with texts in a character set; bytes that may be no character are stored in those of one byte."""
    kinds = ["char(20)", "varchar(40)", "tinytext", "text", "mediumtext", "longtext"]
    columns = [Column(f"t{place}", f"{kind} character set {name}", name) for place, kind in enumerate(kinds)]
    columns += [Column("one", f"enum('a','it''s','\u00e9') character set {name}", "member"), Column("all", f"set('a','b','\u00fc') character set {name}", "member")]
    rows = [[word] * 6 + [str(1 + place % 3), str(place % 8)] for place, word in enumerate(WORDS)]
    if name not in NOT_DECODED | UNICODE:
        rows += [[word] * 6 + ["1", "3"] for word in BYTES]
    return Table(f"set_{name}", columns, rows)


def quoted(name):
    return f"`{name}`"


def statements(tables):
    """Makes the tables, and inserts, changes and deletes rows."""
    for table in tables:
        columns = ", ".join(f"{quoted(column.name)} {column.declared}" for column in table.columns)
        yield f"create table {quoted(table.name)} (id int unsigned primary key, {columns})"
        for place, row in enumerate(table.rows):
            yield f"insert into {quoted(table.name)} values ({4_000_000_000 + place}, {', '.join(row)})"
        yield f"update {quoted(table.name)} set id = id - 3000000000 where id % 2 = 0"
        yield f"delete from {quoted(table.name)} where id = 4000000001"


def run_load(server):
    """Makes the tables under each form, and gives them."""
    found = server.run(b"select character_set_name from information_schema.character_sets").decode().split()[1:]
    tables = [*all_types(), *(of_set(name) for name in sorted(found) if name != "binary")]
    for form in FORMS:
        head = [f"set global binlog_row_metadata = '{form}'", "set names utf8mb4", "set session sql_mode = '', time_zone = '+00:00'"]
        head += [f"create database {form.lower()}", f"use {form.lower()}"]
        server.run("".join(f"{statement};\n" for statement in [*head, *statements(tables)]).encode())
    return tables


# ---- What the server says


def selected(column):
    """An expression of a text that says what the value of a column is."""
    name = quoted(column.name)
    if column.kind in ("number", "decimal", "bit"):
        # Without the zeros of ZEROFILL.
        return f"cast({name} + 0 as char)"
    if column.kind in ("float", "double"):
        # The eight bytes of the first coordinate of a point: the text of a number may be rounded.
        return f"hex(substr(st_aswkb(point({name}, 0)), 6, 8))"
    if column.kind in ("moment", "uuid"):
        return f"cast({name} as char)"
    if column.kind in ("inet4", "inet6"):
        return f"hex(cast({name} as binary({4 if column.kind == 'inet4' else 16})))"
    if column.kind in ("bytes", "geometry"):
        return f"hex({name})"
    if column.kind == "member":
        return f"concat(hex(convert({name} using utf8mb4)), ' ', {name} + 0)"
    as_text = f"convert({name} using utf8mb4)"
    return f"concat(hex({name}), ' ', hex({as_text}), ' ', hex(convert({as_text} using {column.kind})))"


def rows_of(server, schema, table):
    """The rows of a table by their `id`, each value as `selected` has it; None for NULL."""
    parts = ", ".join(f"ifnull(concat('=', {selected(column)}), '-')" for column in table.columns)
    query = f"set names utf8mb4; set session time_zone = '+00:00'; select id, {parts} from {schema}.{quoted(table.name)};"
    lines = server.run(query.encode()).decode().splitlines()[1:]
    rows = (line.split("\t") for line in lines)
    return {int(number): [None if value == "-" else value[1:] for value in values] for number, *values in rows}


def of_selected(column, text, is_known):
    """The value in a line of JSON, by what was selected. `is_known` says whether the members of an ENUM or a SET are known."""
    if text is None:
        return None
    if column.kind in ("number", "bit"):
        return int(text)
    if column.kind in ("float", "double"):
        return struct.unpack("<d", bytes.fromhex(text))[0]
    if column.kind in ("decimal", "moment"):
        return text
    if column.kind in ("bytes", "geometry", "inet4", "inet6"):
        return text.lower()
    if column.kind == "uuid":
        return text.replace("-", "")
    if column.kind == "member":
        member, number = text.split(" ")
        return bytes.fromhex(member).decode() if is_known else int(number)
    stored, shown, again = text.split(" ")
    characters = bytes.fromhex(shown).decode()
    # In tis620 the server has U+FFFD for bytes that are no characters. In armscii8 all are, and some stand for the same one.
    is_text = "\ufffd" not in characters and (stored == again or column.kind == "armscii8")
    return characters if not stored or is_text and column.kind not in NOT_DECODED else {"hex": stored.lower()}


# ---- What the lines say


class Lines:
    """The rows that the lines of logs leave in the tables, by the names of columns that the file of columns has."""

    def __init__(self):
        self.tables = {}

    def apply(self, line):
        rows = self.tables.setdefault(line["table"], {})
        for row in line["rows"]:
            if "before" in row:
                del rows[row["before"]["id"]]
            if "after" in row:
                rows[row["after"]["id"]] = row["after"]


def is_same(column, found, wanted):
    if column.kind == "float" and found is not None and wanted is not None:
        found = struct.unpack("<f", struct.pack("<f", found))[0]
    return type(found) is type(wanted) and found == wanted


def line_failures(words, columns, logs):
    """What the lines of logs say with the file of columns, and None or the messages that it has."""
    lines = Lines()
    for log in logs:
        finished = subprocess.run([*words, "--columns", columns, log], capture_output=True)
        yield None if finished.returncode == 0 and not finished.stderr else f"status {finished.returncode}: {finished.stderr.decode()[:500]}"
        for line in map(json.loads, finished.stdout.splitlines()):
            if line.get("rows"):
                lines.apply(line)
    return lines


def with_question_marks(columns):
    """The columns of a file with a `?` in their types: the names of each and of its table."""
    fields = (line.split("\t") for line in columns.read_text(encoding="utf-8").split("\n")[1:-1])
    return {(f"{schema}.{table}", name) for schema, table, _, name, kind, _ in fields if "?" in kind}


def table_failures(name, table, found, wanted, unknown):
    """For each value of a table, None or how the server has it otherwise. `unknown` are the columns whose members aren't known."""
    for number, other in zip_longest(sorted(found), sorted(wanted)):
        if number != other:
            yield f"{name}: a row {number}, and the server has {other}"
            continue
        for column, text in zip(table.columns, wanted[number], strict=True):
            value = found[number].get(column.name, "no column")
            expected = of_selected(column, text, (name, column.name) not in unknown)
            is_right = is_same(column, value, expected)
            yield None if is_right else f"{name} {column.name}: {value!r}, and the server has {expected!r}"


def failures(words, server, folder):
    """For each value of each table, None or how the server that ran the load has it otherwise than the lines of its logs."""
    tables = run_load(server)
    columns = folder / "columns.tsv"
    column_files.ask([CLIENT, "--no-defaults", f"--socket={server.socket}"], columns)
    server.run(b"flush binary logs;")
    lines = yield from line_failures(words, columns, server.logs())
    unknown = with_question_marks(columns)
    for form in FORMS:
        for table in tables:
            name = f"{form.lower()}.{table.name}"
            yield from table_failures(name, table, lines.tables.get(name, {}), rows_of(server, form.lower(), table), unknown)
