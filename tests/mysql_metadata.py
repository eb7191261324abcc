"""The optional metadata of a table map, as the server describes the columns and keys of the table.

The fields are read by `docs/ROW_VALUES.md`; which columns are of a class comes from the server.
"""

import row_model
from mysql_columns import GEOMETRIES, NUMBERS, TEXTS, BYTES, encoded_members

SIGNEDNESS, DEFAULT_CHARSET, COLUMN_CHARSET, COLUMN_NAME, SETS, ENUMS, GEOMETRY_TYPE = range(1, 8)
SIMPLE_KEY, KEY_WITH_PREFIX, DEFAULT_MEMBER_CHARSET, MEMBER_CHARSET, VISIBILITY, DIMENSIONS = range(8, 14)

# The fields that are there at all, in the order in which a server has them, without metadata and with all of it.
ORDER = [SIGNEDNESS, DEFAULT_CHARSET, COLUMN_CHARSET, GEOMETRY_TYPE, DIMENSIONS]
FULL_ORDER = [*ORDER, COLUMN_NAME, DEFAULT_MEMBER_CHARSET, MEMBER_CHARSET, SETS, ENUMS, SIMPLE_KEY, KEY_WITH_PREFIX, VISIBILITY]

# A primary key, or without one a unique key of columns that are NOT NULL, which then stands for it.
KEYS = """
    select table_schema, table_name, column_name, ifnull(sub_part, 0) from information_schema.statistics s
    where index_name = 'PRIMARY' or non_unique = 0 and nullable = '' and not exists (
        select * from information_schema.table_constraints c
        where c.table_schema = s.table_schema and c.table_name = s.table_name and constraint_type = 'PRIMARY KEY'
    ) order by table_schema, table_name, seq_in_index
"""


def keys_of(server):
    """The columns of the key of each table, each with the number of its characters that are in the key, 0 for all."""
    found = {}
    for schema, table, column, characters in server.rows(KEYS):
        found.setdefault(f"{schema}.{table}", []).append((column, int(characters)))
    return found


def fields_of(content):
    """The fields: the type of each, and its content."""
    data = row_model.Bytes(content)
    while data.left():
        kind = data.number(1)
        yield kind, data.take(data.lenenc())


def numbers(data):
    while data.left():
        yield data.lenenc()


def member_lists(data):
    while data.left():
        yield [data.take(data.lenenc()) for _ in range(data.lenenc())]


class Described:
    """A table as the server describes it."""

    def __init__(self, columns, key, collations):
        self.columns, self.key = columns, key
        self.collations = {name: number for number, (_, name) in collations.items()}

    def of(self, kinds):
        return [column for column in self.columns if column.kind in kinds]

    def collation(self, column):
        """The number of a column's collation, that of `binary` if it has none."""
        return self.collations[column.collation or "binary"]

    def charsets(self, kinds):
        return [self.collation(column) for column in self.of(kinds)]

    def wanted(self, kind, content):
        """What a field of this type states of the table, and what it has to state."""
        data = row_model.Bytes(content)
        characters = (*TEXTS, *BYTES, "vector")
        if kind == SIGNEDNESS:
            numeric = self.of(NUMBERS)
            # A YEAR has the bit of a number without a sign.
            wanted = [column.is_unsigned() or column.kind == "year" for column in numeric]
            return row_model.bitmap(data, len(numeric)), wanted
        if kind in (DEFAULT_CHARSET, COLUMN_CHARSET):
            return charsets_of(kind == DEFAULT_CHARSET, data, len(self.of(characters))), self.charsets(characters)
        if kind in (DEFAULT_MEMBER_CHARSET, MEMBER_CHARSET):
            count = len(self.of(("enum", "set")))
            return charsets_of(kind == DEFAULT_MEMBER_CHARSET, data, count), self.charsets(("enum", "set"))
        if kind == COLUMN_NAME:
            names = [data.take(data.lenenc()).decode() for _ in self.columns]
            return names, [column.name for column in self.columns]
        if kind in (SETS, ENUMS):
            listed = self.of(("set",) if kind == SETS else ("enum",))
            return list(member_lists(data)), [encoded_members(column) for column in listed]
        if kind == GEOMETRY_TYPE:
            return list(numbers(data)), [GEOMETRIES.index(column.kind) for column in self.of(GEOMETRIES)]
        if kind == DIMENSIONS:
            return list(numbers(data)), [column.length() for column in self.of(("vector",))]
        if kind == VISIBILITY:
            return row_model.bitmap(data, len(self.columns)), [column.is_visible() for column in self.columns]
        return self.keys(kind, list(numbers(data)))

    def keys(self, kind, stated):
        names = [column.name for column in self.columns]
        indexes = [names.index(name) for name, _ in self.key]
        if kind == SIMPLE_KEY:
            return stated, indexes
        parts = [part for index, (_, characters) in zip(indexes, self.key) for part in (index, characters)]
        return stated, parts

    def kinds(self, is_full):
        """The fields that a table map of this table has, where a default character set and one for each column count as one."""
        characters = (*TEXTS, *BYTES, "vector")
        there = {SIGNEDNESS: NUMBERS, DEFAULT_CHARSET: characters, GEOMETRY_TYPE: GEOMETRIES, DIMENSIONS: ("vector",)}
        if is_full:
            there |= {DEFAULT_MEMBER_CHARSET: ("enum", "set"), ENUMS: ("enum",), SETS: ("set",)}
        found = {kind for kind, kinds in there.items() if self.of(kinds)}
        if is_full:
            found |= {COLUMN_NAME, VISIBILITY}
            if self.key:
                found.add(KEY_WITH_PREFIX if any(characters for _, characters in self.key) else SIMPLE_KEY)
        return found


def charsets_of(is_default, data, count):
    return row_model.default_charset(data, count) if is_default else list(numbers(data))


ONE_FOR_EACH = {COLUMN_CHARSET: DEFAULT_CHARSET, MEMBER_CHARSET: DEFAULT_MEMBER_CHARSET}


def failures(described, table_map, is_full):
    """For each field of a table map, None or what else the server says; and whether these are the fields, in this order."""
    fields = list(fields_of(bytes.fromhex(table_map["optional_metadata"])))
    kinds = [kind for kind, _ in fields]
    wanted = described.kinds(is_full)
    are_right = {ONE_FOR_EACH.get(kind, kind) for kind in kinds} == wanted
    order = [kind for kind in FULL_ORDER if kind in kinds]
    name = f"{table_map['database_name']}.{table_map['table_name']}"
    yield None if are_right and kinds == order else f"{name} has the fields {kinds}, and the server states {sorted(wanted)}"
    for kind, content in fields:
        found, stated = described.wanted(kind, content)
        yield None if found == stated else f"{name}, field {kind}: {found}, and the server states {stated}"
