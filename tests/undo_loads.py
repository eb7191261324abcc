"""Tables with columns of all types that a MariaDB server or a MySQL server has, and random loads that change their rows."""

import json
import uuid

# The engine of the last table is that of the server's kind.
TABLES = {
    "keyed": "(id INT PRIMARY KEY, name VARCHAR(40), price DECIMAL(10,2), at DATETIME(3), content BLOB, flags BIT(5)) ENGINE=InnoDB",
    "keyless": "(a BIGINT, b TEXT, c DOUBLE, d ENUM('x','y','z')) ENGINE=InnoDB",
    "parent": "(id INT PRIMARY KEY, size INT, twice INT AS (size * 2) VIRTUAL, thrice INT AS (size * 3) STORED) ENGINE=InnoDB",
    "child": "(id INT PRIMARY KEY, parent INT, FOREIGN KEY (parent) REFERENCES parent (id)) ENGINE=InnoDB",
    "typed": "(id INT PRIMARY KEY, {columns}) ENGINE=InnoDB",
    "typed_keyless": "(id INT, {columns}) ENGINE=InnoDB",
    "apart": "(a INT) ENGINE=InnoDB",
    "other": "(id INT AUTO_INCREMENT PRIMARY KEY, t TIMESTAMP(6) NOT NULL DEFAULT '2020-01-01', j LONGTEXT, s SET('p','q')) ENGINE={engine}",
}
CHANGED = [name for name in TABLES if name != "apart"]
# Dates that are zero, or of no month, are values, and what doesn't fit is made to fit.
SESSION = "SET SESSION sql_mode = 'ALLOW_INVALID_DATES', time_zone = '+00:00';"

# ---- Values, as literals of SQL


def number(least, greatest):
    """A whole number, often the least or the greatest one."""
    return lambda chance: str(chance.choice((least, greatest, 0, chance.randint(least, greatest))))


def real(chance):
    return chance.choice(("0", "-0e0", "1.5", "-3e38", repr(chance.uniform(-1e6, 1e6))))


def decimal(digits, places):
    """A number of at most this many digits, so many of them behind the point."""

    def literal(chance):
        value = chance.choice((0, 1, 10**digits - 1, chance.randrange(10**digits)))
        return f"{chance.choice('+-')}{value // 10**places}.{value % 10**places:0{places}}"

    return literal


def bits(count):
    return lambda chance: str(chance.getrandbits(count))


def day(chance, years):
    return f"{chance.randint(*years)}-{chance.randint(1, 12):02}-{chance.randint(1, 28):02}"


def clock(chance):
    return f"{chance.randrange(24):02}:{chance.randrange(60):02}:{chance.randrange(60):02}.{chance.randrange(1_000_000):06}"


def date(chance):
    return chance.choice(("'0000-00-00'", "'2023-02-31'", "'2024-00-00'", "'9999-12-31'", f"'{day(chance, (1000, 9999))}'"))


def time(chance):
    return chance.choice(("'-838:59:59'", "'838:59:59'", "0", f"'{chance.choice(('', '-'))}{clock(chance)}'"))


def datetime(chance):
    return chance.choice(("'0000-00-00'", "'1000-01-01'", "'9999-12-31 23:59:59'", f"'{day(chance, (1000, 9999))} {clock(chance)}'"))


def timestamp(chance):
    return chance.choice(("'0000-00-00'", "'1970-01-01 00:00:01'", "'2038-01-19 03:14:07'", f"'{day(chance, (1971, 2037))} {clock(chance)}'"))


def text(chance):
    letters = "abc'\\\\ é\x01"
    return "NULL" if chance.random() < 0.1 else "X'" + "".join(chance.choice(letters) for _ in range(chance.randrange(12))).encode().hex() + "'"


def long_text(pattern, length):
    """A string, at times one of these bytes again and again, of up to this many bytes."""
    return lambda chance: text(chance) if chance.random() < 0.7 else f"REPEAT(X'{pattern}', {chance.randint(0, 2 * length // len(pattern))})"


def document(chance):
    members = {"a": chance.randint(-70_000, 70_000), "b": [None, True, chance.random()], "c": "d" * chance.choice((0, 3, 300))}
    return f"'{json.dumps(chance.choice((members, [members], [], 'text', 1.5)))}'"


def point(chance):
    return f"ST_GeomFromText('POINT({chance.randint(-9, 9)} {chance.random()})')"


def geometry(chance):
    return chance.choice((point(chance), f"ST_GeomFromText('LINESTRING(0 0, {chance.randint(1, 9)} 5)')", "ST_GeomFromText('POLYGON((0 0, 1 0, 1 1, 0 0))')"))


def vector(chance):
    return f"STRING_TO_VECTOR('[{chance.random()}, -2.5, {chance.randint(-9, 9)}]')"


def address(chance):
    return f"'10.{chance.randrange(256)}.0.0'"


def long_address(chance):
    return f"'2001:db8::{chance.randrange(1 << 16):x}'"


def identifier(chance):
    return f"'{uuid.UUID(int=chance.getrandbits(128), version=chance.choice((1, 4)))}'"


# ---- Columns: how each is declared, and its values


def members(count):
    return ", ".join(f"'m{place}'" for place in range(count))


def numbers():
    for name, width in (("TINYINT", 8), ("SMALLINT", 16), ("MEDIUMINT", 24), ("INT", 32), ("BIGINT", 64)):
        half = 1 << width - 1
        yield name, number(-half, half - 1)
        yield f"{name} UNSIGNED", number(0, 2 * half - 1)
    yield from ((name, real) for name in ("FLOAT", "DOUBLE", "FLOAT(7,3)", "DOUBLE(12,4)"))
    yield from ((f"DECIMAL({digits},{places})", decimal(digits, places)) for digits, places in ((1, 1), (5, 2), (18, 9), (65, 30)))
    yield from ((f"BIT({count})", bits(count)) for count in (1, 8, 9, 33, 64))


def moments():
    yield from (("DATE", date), ("YEAR", number(1901, 2155)))
    for digits in range(7):
        yield from ((f"TIME({digits})", time), (f"DATETIME({digits})", datetime), (f"TIMESTAMP({digits}) NULL", timestamp))


def strings():
    texts = [("CHAR(20)", 20), ("VARCHAR(60)", 60), ("VARCHAR(300)", 300), ("TINYTEXT", 200), ("TEXT", 2000), ("MEDIUMTEXT", 70_000), ("LONGTEXT", 9000)]
    yield from ((f"{name} CHARACTER SET utf8mb4", long_text("c3a9", length)) for name, length in texts)
    yield "CHAR(30) CHARACTER SET latin1", long_text("e9", 30)
    others = [("BINARY(9)", 9), ("VARBINARY(60)", 60), ("VARBINARY(300)", 300), ("TINYBLOB", 200), ("BLOB", 2000), ("MEDIUMBLOB", 70_000), ("LONGBLOB", 9000)]
    yield from ((name, long_text("00ff", length)) for name, length in others)


def choices():
    yield from (("ENUM('x', 'y', 'it''s')", number(0, 3)), (f"ENUM({members(300)})", number(1, 300)))
    yield from ((f"SET({members(count)})", bits(count)) for count in (3, 9, 17, 64))


COLUMNS = [*numbers(), *moments(), *strings(), *choices(), ("JSON", document), ("GEOMETRY", geometry), ("POINT", point)]
COMPRESSED = [("TEXT COMPRESSED", long_text("61", 2000)), ("VARBINARY(300) COMPRESSED", long_text("00ff", 300))]
MARIA = [*COLUMNS, ("INET4", address), ("INET6", long_address), ("UUID", identifier), *COMPRESSED]
MYSQL = [*COLUMNS, ("VECTOR(3)", vector)]

# ---- Loads


def made(columns, engine):
    """The statements that make the tables."""
    declared = ", ".join(f"c{place} {form}" for place, (form, _) in enumerate(columns))
    forms = {name: form.format(columns=declared, engine=engine) for name, form in TABLES.items()}
    return "CREATE DATABASE s; USE s;\n" + "".join(f"CREATE TABLE {name} {form};\n" for name, form in forms.items())


class Load:
    """Random statements on the tables, with keys of new rows that ascend."""

    def __init__(self, chance, columns):
        self.chance, self.columns, self.keys = chance, columns, dict.fromkeys(TABLES, 100)

    def new_key(self, table):
        self.keys[table] += 1
        return self.keys[table]

    def literal(self, place):
        """A value of the column at this place of those of all types."""
        return "NULL" if self.chance.random() < 0.1 else self.columns[place][1](self.chance)

    def row(self, table):
        chance, key = self.chance, self.new_key(table)
        if table == "keyed":
            return f"({key}, {text(chance)}, {chance.randrange(-9999, 9999) / 100}, '2024-01-{chance.randint(1, 28):02d} 01:02:03.456', {text(chance)}, {chance.randrange(32)})"
        if table == "keyless":
            return f"({chance.randrange(8)}, {text(chance)}, {chance.random()}, '{chance.choice('xyz')}')"
        if table == "other":
            return f"({key}, '2023-02-{chance.randint(1, 28):02d} 11:12:13.5', {text(chance)}, '{chance.choice(('p', 'q', 'p,q', ''))}')"
        return f"({key}, {', '.join(map(self.literal, range(len(self.columns))))})"

    def assigned(self, table):
        """What an update sets."""
        if table in ("typed", "typed_keyless"):
            return ", ".join(f"c{place} = {self.literal(place)}" for place in self.chance.sample(range(len(self.columns)), 4))
        column, value = {"keyed": ("name", text(self.chance)), "keyless": ("b", text(self.chance)), "other": ("s", "'p'")}[table]
        return f"{column} = {value}"

    def family(self):
        """A row that another one refers to by a foreign key; and from time to time both are changed, or removed."""
        chance, key, way = self.chance, self.new_key("parent"), self.chance.random()
        first = f"INSERT INTO parent (id, size) VALUES ({key}, {chance.randrange(99)}); INSERT INTO child VALUES ({key}, {key});"
        if way < 0.4:
            return first
        if way < 0.7:
            return f"{first} UPDATE parent SET size = size + 1 WHERE id % 3 = {chance.randrange(3)}; UPDATE child SET parent = {key} WHERE id % 4 = 1;"
        return f"{first} UPDATE child SET parent = NULL WHERE parent = {key}; DELETE FROM parent WHERE id = {key};"

    def change(self):
        """A random statement on a random table, or several on the two tables of a foreign key."""
        chance, table, way = self.chance, self.chance.choice(CHANGED), self.chance.random()
        if table in ("parent", "child"):
            return self.family()
        if way < 0.45:
            return f"INSERT INTO {table} VALUES {', '.join(self.row(table) for _ in range(chance.randint(1, 3)))};"
        where = f"a = {chance.randrange(8)}" if table == "keyless" else f"id % 6 = {chance.randrange(6)}"
        return f"UPDATE {table} SET {self.assigned(table)} WHERE {where};" if way < 0.8 else f"DELETE FROM {table} WHERE {where};"

    def transaction(self):
        """Several statements, of which some are rolled back, or all, if all tables can roll back."""
        first, inner = self.change(), " ".join(self.change() for _ in range(self.chance.randint(0, 3)))
        if " other " in first + inner:
            return f"START TRANSACTION; {first} {inner} COMMIT;"
        end = self.chance.choice(("COMMIT", "COMMIT", "ROLLBACK", "ROLLBACK TO here; COMMIT"))
        return f"START TRANSACTION; {first} SAVEPOINT here; {inner} {end};"

    def statements(self, count):
        """So many statements and transactions, over one log or several."""
        found = [SESSION, "USE s;"]
        for _ in range(count):
            found.append(self.transaction() if self.chance.random() < 0.3 else self.change())
            if self.chance.random() < 0.03:
                found.append("FLUSH BINARY LOGS;")
        return "\n".join([*found, "FLUSH BINARY LOGS;\n"])
