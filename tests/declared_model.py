"""A plain model of what files of columns declare beside what a log states: kinds of columns as a server spells them, which columns
of a log they may be, and what is known of columns by both.

Written from `docs/JSON.md`. Nothing here reads the text of a type: each kind has its text and its meaning side by side.
"""

from collections import namedtuple

import row_model
from row_model import BINARY, Facts

# A column as a file declares it: its type and its character set as texts, and what they mean. `typed` are the types and the metadata
# that it may have in a table map; None where no column is taken for one of this type.
Declared = namedtuple("Declared", "spelled set_name typed is_unsigned text_set members", defaults=[None, None, None])

WIDTHS = {"latin1": 1, "cp1251": 1, "ascii": 1, "ucs2": 2, "gbk": 2, "utf8mb3": 3, "utf8mb4": 4, "utf16": 4, "utf32": 4}
INTEGERS = {"tinyint": 1, "smallint": 2, "mediumint": 9, "int": 3, "bigint": 8}
NEW_TIMES = {"time": (19, 11), "datetime": (18, 12), "timestamp": (17, 7)}
SIZES = {"tiny": 1, "": 2, "medium": 3, "long": 4}
PACKED = " /*M!100301 COMPRESSED*/"
LONGLONG, TIMESTAMP2 = 8, 17

# How many bytes of metadata the columns of a type have.
METADATA = {4: 1, 5: 1, 246: 2, 16: 2, 17: 1, 18: 1, 19: 1, 254: 2, 15: 2, 253: 2, 141: 2}
METADATA |= dict.fromkeys((252, 140, 245, 255, 242), 1)


def typed_columns(types, metadata):
    """The types of the columns of a table map, each with its metadata."""
    found, place = [], 0
    for kind in types:
        size = METADATA.get(kind, 0)
        found.append((kind, metadata[place : place + size]))
        place += size
    return found


# ---- kinds


def fixed(length):
    """The metadata of a CHAR or a BINARY of so many bytes."""
    return bytes([254 ^ (length & 0x300) >> 4, length & 0xFF])


def numbers():
    for name, kind in INTEGERS.items():
        for width in ("", "(11)"):
            yield Declared(name + width, "NULL", [(kind, b"")], False)
            yield Declared(name + width + " unsigned", "NULL", [(kind, b"")], True)
        yield Declared(name + "(5) unsigned zerofill", "NULL", [(kind, b"")], True)
    for name, kind, metadata in (("float", 4, b"\4"), ("double", 5, b"\x08")):
        yield Declared(name, "NULL", [(kind, metadata)], False)
        yield Declared(name + "(7,3) unsigned", "NULL", [(kind, metadata)], True)
    for precision, scale in ((10, 0), (10, 2), (65, 30)):
        yield Declared(f"decimal({precision},{scale})", "NULL", [(246, bytes([precision, scale]))], False)
        yield Declared(f"decimal({precision},{scale}) unsigned", "NULL", [(246, bytes([precision, scale]))], True)
    for count in (1, 8, 13, 64):
        yield Declared(f"bit({count})", "NULL", [(16, bytes([count % 8, count // 8]))])


def times():
    for spelled in ("year", "year(4)", "year(2)"):
        yield Declared(spelled, "NULL", [(13, b"")])
    yield Declared("date", "NULL", [(10, b""), (14, b"")])
    for name, (new, old) in NEW_TIMES.items():
        yield Declared(name, "NULL", [(new, b"\0"), (old, b"")])
        for digits in (3, 6):
            yield Declared(f"{name}({digits})", "NULL", [(new, bytes([digits]))])
        yield Declared(f"{name} /* mariadb-5.3 */", "NULL", [(old, b"")])
        yield Declared(f"{name} /* 5.5 binary format */", "NULL", [(old, b"")])


def old_fractions():
    """Old dates and times of MariaDB's with a fraction, which no column is taken for; behind each the one without a fraction."""
    for name, (_, old) in NEW_TIMES.items():
        yield Declared(f"{name}(3) /* mariadb-5.3 */", "NULL", None), Declared(f"{name} /* mariadb-5.3 */", "NULL", [(old, b"")])


def texts():
    for set_name, width in WIDTHS.items():
        for count in (3, 60):
            length = count * width
            yield Declared(f"char({count})", set_name, [(254, fixed(length))], text_set=set_name)
            two = length.to_bytes(2, "little")
            yield Declared(f"varchar({count})", set_name, [(15, two), (253, two)], text_set=set_name)
        packed = (5 * width + 1).to_bytes(2, "little")
        yield Declared(f"varchar(5){PACKED}", set_name, [(141, packed)], text_set=set_name)
        for size, prefix in SIZES.items():
            yield Declared(f"{size}text", set_name, [(252, bytes([prefix]))], text_set=set_name)
        yield Declared(f"text{PACKED}", set_name, [(140, b"\2")], text_set=set_name)
    yield Declared("char(3)", "utf8", [(254, fixed(9))], text_set="utf8mb3")


def strings_of_bytes():
    for count in (4, 16, 200):
        yield Declared(f"binary({count})", "NULL", [(254, fixed(count))], text_set=BINARY)
        two = count.to_bytes(2, "little")
        yield Declared(f"varbinary({count})", "NULL", [(15, two), (253, two)], text_set=BINARY)
    yield Declared(f"varbinary(5){PACKED}", "NULL", [(141, b"\6\0")], text_set=BINARY)
    for size, prefix in SIZES.items():
        yield Declared(f"{size}blob", "NULL", [(252, bytes([prefix]))], text_set=BINARY)
    for spelled, length in (("inet4", 4), ("inet6", 16), ("uuid", 16)):
        yield Declared(spelled, "NULL", [(254, fixed(length))], text_set=BINARY)
    yield Declared("vector(2)", "NULL", [(15, b"\x08\0"), (253, b"\x08\0"), (242, b"\4")], text_set=BINARY)
    yield Declared("json", "NULL", [(245, b"\4")])
    for spelled in ("geometry", "point", "geomcollection"):
        yield Declared(spelled, "NULL", [(255, b"\4")])


def member_text(member):
    """A member as a server spells it."""
    for plain, spelled in (("\\", "\\\\"), ("'", "''"), ("\0", "\\0"), ("\n", "\\n"), ("\r", "\\r")):
        member = member.replace(plain, spelled)
    return f"'{member}'"


def spelled_members(name, members):
    return f"{name}({','.join(map(member_text, members))})"


FEW = ["a", "", "it's", "back\\slash", "tab\tand\nline", "\u65e5\u672c", ",)("]
UNKNOWN = ["a", "b?", "?"]


def with_members():
    many = [f"m{place}" for place in range(300)]
    for set_name in ("utf8mb4", "latin1", "ucs2", "binary"):
        for members in (FEW, FEW[:1], many, UNKNOWN, UNKNOWN + many):
            size = 1 if len(members) <= 255 else 2
            yield Declared(spelled_members("enum", members), set_name, [(254, bytes([247, size]))], text_set=set_name, members=members)
        for members, size in ((FEW[:1] + FEW[2:4], 1), (UNKNOWN, 1), (many[:9], 2), (many[:17], 3), (many[:25], 4), (many[:33], 8), (many[:64], 8)):
            yield Declared(spelled_members("set", members), set_name, [(254, bytes([248, size]))], text_set=set_name, members=members)


def unknown():
    """Types that no column is taken for, and a set that is none."""
    for spelled in ("", "money", "int (11)", "enum()", "decimal(10)", "INT"):
        yield Declared(spelled, "NULL", None)
    yield Declared("char(3)", "klingon", None)
    yield Declared("text", "klingon", [(252, b"\2")])
    for fraction, _ in old_fractions():
        yield fraction


def kinds():
    yield from numbers()
    yield from times()
    yield from texts()
    yield from strings_of_bytes()
    yield from with_members()


# ---- both


def is_hidden(column, stated, states_signs):
    """Whether MariaDB may have added the column to a table: a BIGINT without sign, or a TIMESTAMP(6)."""
    if column[0] == LONGLONG:
        return stated.is_unsigned or not states_signs
    return column == (TIMESTAMP2, b"\6")


def agrees(column, stated, declared, states_signs):
    if declared.typed is None or column not in declared.typed:
        return False
    if states_signs and declared.is_unsigned is not None and declared.is_unsigned != stated.is_unsigned:
        return False
    return stated.character_set is None or declared.text_set is None or stated.character_set == declared.text_set


def fits(column, stated, declared, states_signs, is_of_maria):
    if column is None:
        return declared is None
    if declared is None:
        return is_of_maria and is_hidden(column, stated, states_signs)
    return agrees(column, stated, declared, states_signs)


def at(items, place):
    return items[place] if place < len(items) else None


def are_known(members):
    """Whether these are members, and in none a `?` may stand for another character."""
    return members is not None and not any("?" in member for member in members)


def completed(stated, name, declared):
    """What is known of a column by both, where a name of the file goes with its type."""
    members = stated.members
    character_set = stated.character_set or declared.text_set
    if are_known(declared.members) and members is None:
        members = [member.encode() for member in declared.members]
        character_set = BINARY if declared.text_set == BINARY else "utf8mb4"
    return Facts(
        name=name if stated.name is None else stated.name,
        is_unsigned=stated.is_unsigned or bool(declared.is_unsigned),
        character_set=character_set,
        members=members,
    )


def are_signs_stated(columns, optional):
    """Whether a field of signs is there that isn't refused: one with a bit for each number, and with no more bytes."""
    size = (sum(kind in row_model.NUMERIC for kind, _ in columns) + 7) // 8
    return any(kind == 1 and content.left() == size for kind, content in row_model.fields_of(optional))


def quoted(name):
    """A name as messages have it."""
    return '"' + name.decode().replace("\t", "\\t") + '"'


class Files:
    """The columns that files declare, in the order of the files: by the names of schemas and tables lists of names and of `Declared`.
    Notes the tables that contradict them."""

    def __init__(self, files):
        self.files, self.contradictions = files, {}

    def known(self, table, stated, is_of_maria):
        """What is known of the columns of a table map."""
        key = (table["database_name"].bytes, table["table_name"].bytes)
        declared = next((file[key] for file in reversed(self.files) if key in file), None)
        if declared is None:
            return stated
        columns = typed_columns(table["columns_type"].bytes, table["columns_metadata"].bytes)
        has_signs = are_signs_stated(columns, table["optional_metadata"].bytes)
        for place in range(max(len(columns), len(declared))):
            name_and_type = at(declared, place)
            if not fits(at(columns, place), at(stated, place), name_and_type and name_and_type[1], has_signs, is_of_maria):
                self.contradictions.setdefault(key, place + 1)
                return stated
        both = [completed(facts, *declared[place]) for place, facts in enumerate(stated[: len(declared)])]
        return both + stated[len(declared) :]

    def messages(self):
        """The messages at the end of a run."""
        for (schema, table), column in sorted(self.contradictions.items()):
            yield f"binlog: table {quoted(schema)}.{quoted(table)}: column {column} contradicts the file of columns, which isn't used for this table"
