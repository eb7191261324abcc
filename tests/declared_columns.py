#!/usr/bin/env python3
"""Compares what `binlog json --columns` shows of rows with a model of what logs and files of columns state.

Usage: declared_columns.py [--count N] FLAG

FLAG is one of `programs.py`: it says which `binlog` is run. Each kind of column is declared for a log that states nothing of it, for one
that states its sign and its character set, and for one whose field of signs is refused; old dates and times are declared with a fraction,
too. Tables have more columns than their files, in logs of both servers. N random logs (1,500 if not given) have tables whose table maps
change, and several files that declare them, some of them wrong; their lines, their messages and their statuses are those of the model.
Files that can't be read have the status 64, a message with the place of the fault, and no line. The last line is `N passed, M failed`; the
exit status is 1 if something failed.
"""

import argparse
import json
import random
import subprocess
import sys
import tempfile
from pathlib import Path

import character_model
import column_files
import declared_model
import encoded_events as encode
import json_model
import programs
import results
import row_events
import row_values
from declared_model import BINARY, Declared, Files
from row_lines import VERSIONS, content_of, is_same, parsed
from row_model import COMPRESSED, Facts

TABLE_MAP = 19
USAGE = 64
COLLATIONS = {"latin1": 8, "cp1251": 51, "ascii": 11, "ucs2": 35, "gbk": 28, "utf8mb3": 33, "utf8mb4": 45, "utf16": 54, "utf32": 60, BINARY: 63}
SIGNED_TYPES = (1, 2, 9, 3, 8, 4, 5, 13, 246)
TEXT_TYPES = (15, 253, 252, *COMPRESSED)
NULLABLE = 0.1

# The contents that an encoder of rows has for the types that it has.
KNOWN = {(kind.type, kind.metadata): [content for content, _ in kind.values] for kind in row_events.kinds() if kind.values}


# ---- contents of values


def words_in(set_name):
    """Texts in a character set, and bytes that are none."""
    codec = {"ucs2": "utf-16-be", "utf16": "utf-16-be", "utf32": "utf-32-be", "latin1": "cp1252", "cp1251": "cp1251", "gbk": "gbk"}.get(set_name, "utf-8")
    texts = ["", "a", "it's", "\u0416", "\u00e4\u20ac", "\u65e5"]
    return [text.encode(codec, "ignore") for text in texts] + [b"\xff", b"\x80\x81", b"a\0"]


def content_of_value(chance, column, declared):
    """The content of a value of a column of this type and metadata."""
    kind, metadata = column
    if kind == 254 and metadata[0] in (247, 248):
        count = len(declared.members)
        number = chance.choice((0, 1, count)) if metadata[0] == 247 else chance.choice((0, 1, (1 << count) - 1, chance.randrange(1 << count)))
        return number.to_bytes(metadata[1], "little")
    if kind == 254 or kind in TEXT_TYPES:
        greatest = greatest_length(kind, metadata)
        content = chance.choice(words_in(declared.text_set))[:greatest]
        if kind == 254 and declared.text_set != BINARY:
            content = content.rstrip(b" ")
        return len(content).to_bytes(prefix_size(kind, metadata), "little") + content
    if kind == 246:
        precision, scale = metadata
        return row_events.decimal(precision, scale, chance.random() < 0.5, "".join(chance.choices("0123456789", k=precision)))
    return chance.choice(KNOWN[column])


def greatest_length(kind, metadata):
    if kind == 254:
        return metadata[1] + 16 * ((metadata[0] & 0x30) ^ 0x30)
    return 20 if kind in (252, 140) else int.from_bytes(metadata, "little")


def prefix_size(kind, metadata):
    if kind in (252, 140):
        return metadata[0]
    return 1 if greatest_length(kind, metadata) <= 255 else 2


# ---- logs


class Column:
    """A column of a log: how it is declared when the log is written, and its type and metadata there."""

    def __init__(self, chance, declared):
        self.declared, self.typed = declared, chance.choice(declared.typed)


def signs(columns, more=b""):
    """The bits of the columns that are numbers, and more bytes, with which the field is refused."""
    found = [bool(column.declared.is_unsigned) for column in columns if column.typed[0] in SIGNED_TYPES]
    bits = bytearray((len(found) + 7) // 8)
    for place, is_unsigned in enumerate(found):
        bits[place // 8] |= is_unsigned << 7 - place % 8
    return row_events.field(1, bytes(bits) + more) if found else b""


def collations(columns, is_maria):
    """The collation of each text, as the field of all columns has them."""
    extra = 255 if is_maria else 242
    of_texts = [column for column in columns if column.typed[0] in (*TEXT_TYPES, extra) or column.typed[0] == 254 and column.typed[1][0] not in (247, 248)]
    found = [COLLATIONS[column.declared.text_set or BINARY] for column in of_texts]
    return row_events.field(3, b"".join(map(encode.length_encoded, found))) if found else b""


def stated(columns, form, is_maria, names):
    """The optional metadata by the setting `binlog_row_metadata`: nothing, MINIMAL, or that and the names; or a field of signs alone that is
    refused."""
    if form == "NO_LOG":
        return b""
    if form == "REFUSED":
        return signs(columns, b"\0")
    minimal = signs(columns) + collations(columns, is_maria)
    return minimal if form == "MINIMAL" else minimal + row_events.names(names)


def table_map(table_id, key, columns, optional):
    event = encode.table_map(
        row_values.SPELLING, table_id=table_id, flags=1, database=key[0], table=key[1], types=bytes(column.typed[0] for column in columns),
        metadata=b"".join(column.typed[1] for column in columns), nulls=[True] * len(columns), optional=optional,
    )
    return TABLE_MAP, event.body


def image(chance, columns):
    nulls, contents = bytearray((len(columns) + 7) // 8), b""
    for place, column in enumerate(columns):
        if chance.random() < NULLABLE:
            nulls[place // 8] |= 1 << place % 8
        else:
            contents += content_of_value(chance, column.typed, column.declared)
    return bytes(nulls) + contents


def row_event(chance, table_id, columns):
    kind = chance.choice(row_values.WHOLE)
    present = [True] * len(columns)
    images = kind[2] + kind[3]
    content = b"".join(image(chance, columns) for _ in range(images * chance.randrange(1, 4)))
    return row_values.row_event(kind, table_id, present, present, content)


# ---- files


def file_text(tables):
    """The text of a file that declares these tables: lists of names and of `Declared`."""
    lines = [column_files.HEADER]
    for (schema, table), columns in tables.items():
        for place, (name, declared) in enumerate(columns):
            fields = [schema.encode(), table.encode(), str(place + 1).encode(), name.encode(), declared.spelled.encode(), declared.set_name.encode()]
            lines.append(b"\t".join(map(column_files.escaped, fields)))
    return b"".join(line + b"\n" for line in lines)


def as_bytes(tables):
    return {(schema.encode(), table.encode()): columns for (schema, table), columns in tables.items()}


class Runs:
    """Runs of a program over logs, with files of columns in a folder."""

    def __init__(self, binlog, folder):
        self.binlog, self.folder = binlog, Path(folder)

    def run(self, content, texts, words=()):
        """The exit status, the output and the lines of messages; `PLACE` stands for the folder there."""
        options = []
        for place, text in enumerate(texts):
            file = self.folder / f"columns{place}.tsv"
            file.write_bytes(text)
            options += ["--columns", str(file)]
        finished = subprocess.run([*self.binlog, "json", *options, *words], input=content, capture_output=True)
        return finished.returncode, finished.stdout, finished.stderr.decode().replace(str(self.folder), "PLACE").splitlines()

    def compared(self, name, content, tables, words=()):
        """None if the lines, the messages and the status are those of the model, else what is wrong."""
        declared = Files([as_bytes(found) for found in tables])
        lines, wanted_status = json_model.expected(content, "--stored" in words, declared)
        status, output, messages = self.run(content, [file_text(found) for found in tables], words)
        if status != wanted_status:
            return f"{name}: status {status}, not {wanted_status}: {messages}"
        if messages != list(declared.messages()):
            return f"{name}: {messages}, not {list(declared.messages())}"
        found, wanted = parsed(output), parsed(lines)
        if len(found) != len(wanted):
            return f"{name}: {len(found)}, not {len(wanted)} lines"
        for line, wanted_line in zip(found, wanted):
            if not is_same(line, wanted_line):
                return f"{name}: {str(line[9:])[:600]}, not {str(wanted_line[9:])[:600]}"
        return None


# ---- each kind


def each_kind(runs, chance):
    """A table of one column of each kind, with and without what the log states of it, and of numbers where their signs are refused."""
    for place, declared in enumerate(declared_model.kinds()):
        for form in ("NO_LOG", "MINIMAL") + ("REFUSED",) * (declared.is_unsigned is not None):
            version = VERSIONS[(place + len(form)) % 2]
            columns = [Column(chance, declared)]
            optional = stated(columns, form, version == VERSIONS[1], ["c"])
            events = [table_map(1, ("shop", "t"), columns, optional), *(row_event(chance, 1, columns) for _ in range(3))]
            content = content_of(version, events)
            yield runs.compared(f"{declared.spelled[:60]} {declared.set_name}, {form}", content, [{("shop", "t"): [("name", declared)]}])


def old_fractions(runs, chance):
    """A table of one old date or time, in a file that says that it has a fraction."""
    for declared, plain in declared_model.old_fractions():
        columns = [Column(chance, plain)]
        events = [table_map(1, ("shop", "t"), columns, b""), *(row_event(chance, 1, columns) for _ in range(3))]
        for version in VERSIONS:
            yield runs.compared(declared.spelled, content_of(version, events), [{("shop", "t"): [("name", declared)]}])


# ---- columns of the log behind those of the file

SIGNED_BIGINT = Declared("bigint(20)", "NULL", [(8, b"")], False)
UNSIGNED_BIGINT = Declared("bigint(20) unsigned", "NULL", [(8, b"")], True)
MICROSECONDS = Declared("timestamp(6)", "NULL", [(17, b"\6")])
NUMBER = Declared("int(11)", "NULL", [(3, b"")], False)

# Columns of a log, those of its file, and the forms of metadata under which those behind may be ones that MariaDB added.
BEHIND = [
    ([NUMBER, UNSIGNED_BIGINT], [NUMBER], ("NO_LOG", "MINIMAL")),
    ([NUMBER, SIGNED_BIGINT], [NUMBER], ("NO_LOG",)),
    ([NUMBER, MICROSECONDS, MICROSECONDS, UNSIGNED_BIGINT], [NUMBER], ("NO_LOG", "MINIMAL")),
    ([NUMBER, Declared("timestamp(3)", "NULL", [(17, b"\3")])], [NUMBER], ()),
    ([NUMBER, NUMBER], [NUMBER], ()),
]


def columns_behind(runs, chance):
    """Tables with more columns than their files have: a file is used only in MariaDB's logs, and where MariaDB may have added them."""
    for in_log, in_file, forms in BEHIND:
        columns = [Column(chance, declared) for declared in in_log]
        table = {("shop", "t"): [(f"c{place}", declared) for place, declared in enumerate(in_file)]}
        for version in VERSIONS:
            for form in ("NO_LOG", "MINIMAL"):
                optional = stated(columns, form, version == VERSIONS[1], [])
                content = content_of(version, [table_map(1, ("shop", "t"), columns, optional), row_event(chance, 1, columns)])
                name = f"{[declared.spelled for declared in in_log]} and {len(in_file)} declared, {version}, {form}"
                yield runs.compared(name, content, [table])
                message = f'binlog: table "shop"."t": column {len(in_file) + 1} contradicts the file of columns, which isn\'t used for this table'
                wanted = [] if version == VERSIONS[1] and form in forms else [message]
                messages = runs.run(content, [file_text(table)])[2]
                yield None if messages == wanted else f"{name}: {messages}, not {wanted}"


def dropped_column(runs, chance):
    """A table of INT, BIGINT and BIGINT, of which the second was dropped before the file was made. Where MariaDB may have added the third,
    that has no name, and the second the name of the third."""
    columns = [Column(chance, declared) for declared in (NUMBER, SIGNED_BIGINT, SIGNED_BIGINT)]
    row = b"\0" + b"".join(value.to_bytes(size, "little") for value, size in ((1, 4), (22, 8), (33, 8)))
    text = file_text({("shop", "t"): [("a", NUMBER), ("c", SIGNED_BIGINT)]})
    message = 'binlog: table "shop"."t": column 3 contradicts the file of columns, which isn\'t used for this table'
    for version in VERSIONS:
        for form in ("NO_LOG", "MINIMAL"):
            is_taken = version == VERSIONS[1] and form == "NO_LOG"
            wanted = ({"a": 1, "c": 22, "@3": 33}, []) if is_taken else ({"@1": 1, "@2": 22, "@3": 33}, [message])
            optional = stated(columns, form, version == VERSIONS[1], [])
            events = [table_map(1, ("shop", "t"), columns, optional), row_values.row_event(row_values.WHOLE[3], 1, [True] * 3, [True] * 3, row)]
            status, output, messages = runs.run(content_of(version, events), [text])
            found = (json.loads(output.splitlines()[-1])["rows"][0]["after"], messages)
            yield None if status == 0 and found == wanted else f"a dropped column, {version}, {form}: {status}, {found}"


# ---- random logs

TABLES = [("shop", "orders"), ("shop", "o'rders"), ("a.b", "c"), ("a", "b.c"), ("sh\u00f6p", "\u65e5\u672c"), ("SHOP", "orders"), ("shop", "tab\tle")]


def random_names(chance, count):
    return [chance.choice(("id", "note", "name", "NULL", "\u00e4", 'quo"te', "back\\slash")) + str(place) for place in range(count)]


def hidden(chance):
    return chance.choice((SIGNED_BIGINT, UNSIGNED_BIGINT, MICROSECONDS))


def changed(chance, columns, every_kind):
    """Another list of declared columns: mostly one is another, one is missing, or one is there besides."""
    columns = list(columns)
    place, way = chance.randrange(len(columns)), chance.randrange(5)
    if way == 0:
        columns[place] = chance.choice(every_kind)
    elif way == 1 and len(columns) > 1:
        del columns[place]
    elif way == 2:
        columns.insert(place, chance.choice(every_kind))
    elif way == 3:
        columns[place] = chance.choice(list(declared_model.unknown()))
    return columns


def random_case(chance, every_kind):
    """A log, and the tables of the files that declare its tables."""
    version = chance.choice(VERSIONS)
    shapes = {key: [chance.choice(every_kind) for _ in range(chance.randrange(1, 7))] for key in chance.sample(TABLES, k=chance.randrange(1, 4))}
    files = []
    for _ in range(chance.choice((1, 1, 2, 3))):
        tables = {}
        for key, shape in shapes.items():
            if chance.random() < 0.85:
                declared = shape if chance.random() < 0.75 else changed(chance, shape, every_kind)
                tables[key] = list(zip(random_names(chance, len(declared)), declared))
        files.append(tables)
    events, in_force = [], {}
    for _ in range(chance.randrange(3, 12)):
        table_id = chance.randrange(1, 4)
        if table_id not in in_force or chance.random() < 0.4:
            key = chance.choice(list(shapes))
            shape = shapes[key] if chance.random() < 0.8 else [kind for kind in changed(chance, shapes[key], every_kind) if kind.typed]
            columns = [Column(chance, declared) for declared in shape + [hidden(chance)] * (chance.random() < 0.1)]
            if not columns:
                continue
            form = chance.choice(("NO_LOG", "NO_LOG", "MINIMAL", "FULL"))
            optional = stated(columns, form, version == VERSIONS[1], [name.encode() for name in random_names(chance, len(columns))])
            events.append(table_map(table_id, key, columns, optional))
            in_force[table_id] = columns
        events.append(row_event(chance, table_id, in_force[table_id]))
    return content_of(version, events), files


def random_logs(runs, chance, count):
    every_kind = list(declared_model.kinds())
    for place in range(count):
        content, files = random_case(chance, every_kind)
        words = ("--stored",) if place % 10 == 0 else ()
        yield runs.compared(f"random log {place} {words}", content, files, words)


# ---- random logs with one file each, for libraries


class Expected:
    """The lines of JSON of a log with a file of columns, and the tables that contradict the file, by a model."""

    def __init__(self, content, tables):
        declared = Files([as_bytes(tables)])
        self.lines, _ = json_model.expected(content, False, declared)
        self.contradictions = declared.contradictions

    def compared(self, output, columns):
        """None if these are the lines, and these are the columns that contradict the file, from 0, by the indexes of their table
        maps, unless they are None; else what is wrong."""
        found, wanted = parsed(output), parsed(self.lines)
        if len(found) != len(wanted):
            return f"{len(found)}, not {len(wanted)} lines"
        for line, wanted_line in zip(found, wanted):
            if not is_same(line, wanted_line):
                return f"{str(line[9:])[:600]}, not {str(wanted_line[9:])[:600]}"
        if columns is None:
            return None
        first = {}
        for line in map(json.loads, output.splitlines()):
            if line["index"] in columns:
                key = tuple(line["data"][name].encode() for name in ("database_name", "table_name"))
                first.setdefault(key, columns[line["index"]] + 1)
        return None if first == self.contradictions else f"{first}, not {self.contradictions}"


def single_files(count):
    """Random logs: for each a name, the text of a file, the log, and what is `Expected` of both."""
    chance, every_kind = random.Random(78), list(declared_model.kinds())
    for place in range(count):
        content, files = random_case(chance, every_kind)
        yield f"random log {place}", file_text(files[-1]), content, Expected(content, files[-1])


# ---- files that can't be read

GOOD = {("shop", "t"): [("id", Declared("int(11)", "NULL", [(3, b"")], False))]}
HEAD = column_files.HEADER + b"\n"
BAD_FILES = [
    (b"", "line 1, column 1: no line with the names of the six columns"),
    (HEAD[:-1], "line 1, column 1: no line with the names of the six columns"),
    (b"shop\tt\t1\tid\tint\tNULL\n", "line 1, column 1: no line with the names of the six columns"),
    (HEAD + b"shop\tt\t1\tid\tint\n", "line 2, column 16: not six fields"),
    (HEAD + b"shop\tt\t1\tid\tint\tNULL", "line 2, column 21: not six fields"),
    (HEAD + b"shop\tt\t1\tid\tint\tNULL\t\n", "line 2, column 21: not six fields"),
    (HEAD + b"shop\tt\t1\tid\tint\tNULL\n\n", "line 3, column 1: not six fields"),
    (HEAD + b"shop\tt\tone\tid\tint\tNULL\n", "line 2, column 8: no position of a column"),
    (HEAD + b"shop\tt\t0\tid\tint\tNULL\n", "line 2, column 8: no position of a column"),
    (HEAD + b"shop\tt\t1\ti\xffd\tint\tNULL\n", "line 2, column 10: bytes that aren't UTF-8"),
    (HEAD + b"shop\tt\t1\ti\\d\tint\tNULL\n", "line 2, column 10: a byte that stands for none"),
    (HEAD + b"shop\tt\t2\tid\tint\tNULL\n", "line 2, column 8: a column whose position isn't the next one of its table"),
    (HEAD + b"shop\tt\t1\tid\tint\tNULL\nshop\tt\t1\tno\tint\tNULL\n", "line 3, column 8: a column whose position isn't the next one of its table"),
    (HEAD + b"shop\tt\t1\tid\tint\tNULL\nother\ttable\t1\tid\tint\tNULL\nother\ttable\t3\tno\tint\tNULL\n", "line 4, column 13: a column whose position isn't the next one of its table"),
]


def refused(name, found, message):
    """None if a run ended as one with a file that can't be read, else what is wrong."""
    status, output, messages = found
    if status != USAGE or output or messages != [message]:
        return f"{name}: status {status}, {len(output)} bytes, {messages}, not {message}"
    return None


def bad_files(runs, content):
    """Files that can't be read, alone, before good ones and behind them."""
    good = file_text(GOOD)
    for text, message in BAD_FILES:
        for texts in ([text], [text, good], [good, text]):
            place = texts.index(text)
            yield refused(f"{text[len(HEAD):]!r}", runs.run(content, texts), f"binlog: PLACE/columns{place}.tsv: {message}")
    missing = subprocess.run([*runs.binlog, "json", "--columns", str(runs.folder / "none.tsv")], input=content, capture_output=True)
    is_refused = missing.returncode == USAGE and not missing.stdout and missing.stderr.startswith(b"binlog: " + str(runs.folder).encode() + b"/none.tsv: ")
    yield None if is_refused else f"no file: {missing}"


def same_without_files(runs, content):
    """A file that declares none of the tables changes nothing."""
    _, plain, _ = runs.run(content, [])
    for tables in ({}, {("other", "t"): GOOD["shop", "t"]}):
        found = runs.run(content, [file_text(tables)])
        yield None if found[1] == plain and not found[2] else f"a file without the tables: {found}"


def main():
    parser = argparse.ArgumentParser(description="Compares rows with files of columns with a model.")
    programs.add_flags(parser)
    parser.add_argument("--count", type=int, default=1_500)
    arguments = programs.parsed(parser, "binlog")
    chance = random.Random(77)
    content, _ = random_case(random.Random(5), list(declared_model.kinds()))
    with tempfile.TemporaryDirectory() as folder:
        runs = Runs(arguments.build.command("binlog"), folder)
        found = [*each_kind(runs, chance), *old_fractions(runs, chance), *columns_behind(runs, chance), *dropped_column(runs, chance)]
        found += [*random_logs(runs, chance, arguments.count), *bad_files(runs, content), *same_without_files(runs, content)]
    return results.report(found)


if __name__ == "__main__":
    sys.exit(main())
