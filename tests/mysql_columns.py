"""What a MySQL server says of the columns of its tables, and the values of `binlog json` that follow from what it says of a value.

A value that the server or `mysqlbinlog` gives is turned into the one that a line of JSON has to have, by `docs/ROW_VALUES.md`.
Floating-point numbers are floats, those of FLOAT rounded to theirs, and documents are those of `mysql_documents`.
"""

import re
import struct
from typing import NamedTuple

import mysql_documents
from row_model import moment, shown

INTEGERS = ("tinyint", "smallint", "mediumint", "int", "bigint")
NUMBERS = (*INTEGERS, "float", "double", "decimal", "year")
TEXTS = ("char", "varchar", "tinytext", "text", "mediumtext", "longtext")
BYTES = ("binary", "varbinary", "tinyblob", "blob", "mediumblob", "longblob")
GEOMETRIES = ["geometry", "point", "linestring", "polygon", "multipoint", "multilinestring", "multipolygon", "geomcollection"]
MOMENTS = ("date", "time", "datetime", "timestamp")
ZERO = "0000-00-00 00:00:00"

# The text of a character in a string that is printed, behind the backslash.
ESCAPED = re.compile(rb"\\(x[0-9a-f]{2}|.)", re.DOTALL)
ESCAPES = {b"0": b"\0", b"b": b"\b", b"n": b"\n", b"r": b"\r", b"t": b"\t", b"Z": b"\x1a"}


class Column(NamedTuple):
    """A column of a table, as the server describes it."""

    name: str
    kind: str
    full_kind: str
    character_set: str | None
    collation: str | None
    extra: str

    def is_unsigned(self):
        return "unsigned" in self.full_kind

    def is_generated(self):
        return "GENERATED" in self.extra and "DEFAULT_GENERATED" not in self.extra

    def is_visible(self):
        return "INVISIBLE" not in self.extra

    def length(self):
        """The number behind the type: a length, the digits of a fraction of a second, the dimensions of a vector; 0 for none."""
        found = re.fullmatch(r"\w+\((\d+)\)", self.full_kind)
        return int(found[1]) if found else 0

    def members(self):
        """The members of an ENUM or a SET, as text."""
        return [member.replace("''", "'") for member in re.findall(r"'((?:[^']|'')*)'", self.full_kind)]


COLUMNS = """
    select table_schema, table_name, column_name, data_type, column_type, ifnull(character_set_name, ''),
    ifnull(collation_name, ''), extra from information_schema.columns
    where table_schema not in ('mysql', 'sys', 'information_schema', 'performance_schema')
    order by table_schema, table_name, ordinal_position
"""


def columns_of(server):
    """The columns of each table of the server, by its schema and name."""
    found = {}
    for schema, table, name, kind, full_kind, character_set, collation, extra in server.rows(COLUMNS):
        column = Column(name, kind, full_kind, character_set or None, collation or None, extra)
        found.setdefault(f"{schema}.{table}", []).append(column)
    return found


def collations_of(server):
    """For the number of each collation the name of its character set and its own."""
    query = "select id, character_set_name, collation_name from information_schema.collations"
    return {int(number): (character_set, collation) for number, character_set, collation in server.rows(query)}


# ---- What the server selects


def selected(column):
    """An expression of the bytes that say what the value of a column is."""
    name = "`" + column.name.replace("`", "``") + "`"
    if column.kind == "bit":
        return f"cast(cast({name} as unsigned) as char)"
    if column.kind in (*INTEGERS, "decimal", "year"):
        # Without the zeros of ZEROFILL.
        return f"cast({name} + 0 as char)"
    if column.kind in ("float", "double"):
        # The eight bytes of the first coordinate of a point: the text of a number may be rounded.
        return f"substr(st_aswkb(point({name}, 0)), 6, 8)"
    if column.kind in (*MOMENTS, "json"):
        return f"cast({name} as char)"
    if column.kind in ("enum", "set"):
        return f"concat(cast({name} as unsigned), ' ', hex({name}))"
    return name


def of_selected(column, content, has_members):
    """The value in a line of JSON, by the bytes that were selected."""
    if column.kind in ("bit", "year", *INTEGERS):
        return int(content)
    if column.kind in ("float", "double"):
        return struct.unpack("<d", content)[0]
    if column.kind == "decimal" or column.kind in MOMENTS:
        return content.decode()
    if column.kind in ("enum", "set"):
        number, _, digits = content.decode().partition(" ")
        return shown(bytes.fromhex(digits), column.character_set) if has_members else int(number)
    if column.kind == "json":
        return mysql_documents.of_text(content.decode())
    return of_bytes(column, content)


def of_bytes(column, content):
    """A text in the column's character set, or digits where that is `binary`."""
    return shown(content, column.character_set) if column.kind in TEXTS else content.hex()


# ---- What `mysqlbinlog` prints


def of_printed(column, text, has_members):
    """The value in a line of JSON, by the text that was printed for it."""
    if column.kind in INTEGERS:
        signed, _, unsigned = text.decode().partition(" ")
        return int(unsigned.strip("()") if unsigned and column.is_unsigned() else signed)
    if column.kind == "decimal":
        return text.decode()
    if column.kind == "year":
        # The year 0 is printed as 1900, which no column of this type holds.
        return 0 if text == b"1900" else int(text)
    if column.kind == "bit":
        return int(text[2:-1], 2)
    if column.kind == "set":
        # The bits stand in the order of the stored bytes.
        mask = int.from_bytes(int(text[2:-1], 2).to_bytes(len(text[2:-1]) // 8, "big"), "little")
        return members_of_set(column, mask) if has_members else mask
    if column.kind == "enum":
        return member_of_enum(column, int(text)) if has_members else int(text)
    if column.kind == "timestamp":
        seconds, point, fraction = text.decode().partition(".")
        return (moment(int(seconds)) if float(text) else ZERO) + point + fraction
    content = unquoted(text)
    if column.kind in MOMENTS:
        return content.decode().replace(":", "-") if column.kind == "date" else content.decode()
    if column.kind == "binary":
        content = content.ljust(column.length(), b"\0")
    return of_bytes(column, content)


def unquoted(text):
    character = lambda found: bytes.fromhex(found[1][1:].decode()) if len(found[1]) == 3 else ESCAPES.get(found[1], found[1])
    return ESCAPED.sub(character, text[1:-1])


CODECS = {"latin1": "cp1252", "utf8mb4": "utf-8", "cp1251": "cp1251"}


def encoded_members(column):
    """The members in the bytes of the column's character set."""
    return [member.encode(CODECS[column.character_set]) for member in column.members()]


def member_of_enum(column, index):
    return shown(encoded_members(column)[index - 1], column.character_set) if index else ""


def members_of_set(column, mask):
    members = encoded_members(column)
    return shown(b",".join(member for bit, member in enumerate(members) if mask >> bit & 1), column.character_set)


# ---- What a line of JSON says


def of_line(column, value):
    """The value of a line, floats rounded; a document is a `Document`, and a list of diffs is `Diffs`."""
    if value is None:
        return None
    if column.kind == "json" and isinstance(value, dict):
        (name, shown_value), *after = value.items()
        document = mysql_documents.of_json(shown_value)
        if name != "diffs":
            return Document(document)
        return Diffs(mysql_documents.diffs(document), [Document(mysql_documents.of_json(shown)) for _, shown in after])
    if column.kind == "float":
        return struct.unpack("<f", struct.pack("<f", value))[0]
    if column.kind == "double":
        return float(value)
    return list(value.items()) if isinstance(value, dict) else value


class Diffs(NamedTuple):
    """The diffs of a list, and a list of the document after them, if it is there."""

    found: list
    after: list


class Document(NamedTuple):
    value: object


def is_same(found, wanted):
    """Whether a value of a line is the one that the server gives."""
    if isinstance(found, Document):
        return mysql_documents.is_same(found.value, wanted)
    return type(found) is type(wanted) and repr(found) == repr(wanted)


def is_printed(column, found, text, has_members):
    """Whether a value of a line is the one that `mysqlbinlog` prints as this text."""
    if text is None or found is None:
        return text is None and found is None
    if column.kind == "float":
        return f"{found:g}" == text.decode().strip()
    if column.kind == "double":
        return f"{found:.20g}" == text.decode().strip()
    if column.kind == "vector":
        numbers = struct.unpack(f"<{len(found) // 8}f", bytes.fromhex(found))
        return text.decode() == f"[{','.join(f'{number:.5e}' for number in numbers)}]"
    if isinstance(found, Diffs):
        return text.startswith((b"JSON_", b"@"))
    if isinstance(found, Document):
        return is_printed_document(found.value, unquoted(text).decode())
    return is_same(found, of_printed(column, text, has_members))


def is_printed_document(found, text):
    """A document that is a string or a value of another type is printed without quotes."""
    return found == text if isinstance(found, str) else mysql_documents.is_same(found, mysql_documents.of_text(text))
