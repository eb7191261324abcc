"""The rows in the lines of a log: as `mysqlbinlog` prints them, and applied in order, as the server has them at the end."""

from itertools import zip_longest

import mysql_columns
from mysql_columns import Diffs, Document
from mysql_documents import changed

# What is selected between the rows of two tables.
NEXT_TABLE = "next"


def row_events(lines):
    """The lines of row events that have rows."""
    return (line for line in lines if line.get("rows") is not None)


def values_of(columns, image):
    """The values of an image by the indexes of their columns."""
    names = [column.name for column in columns]
    values = {}
    for name, value in image.items():
        index = int(name[1:]) - 1 if name.startswith("@") else names.index(name)
        values[index] = mysql_columns.of_line(columns[index], value)
    return values


def states_names(row):
    """Whether the columns of a row have names, so that members are stated, too."""
    return not any(name.startswith("@") for image in row.values() for name in image)


# ---- As they are printed


def printed_failures(columns_of_tables, lines, printed):
    """For each value, None or how it is printed otherwise."""
    printed = iter(printed)
    for line in row_events(lines):
        columns = columns_of_tables[line["table"]]
        for row in line["rows"]:
            found = next(printed, None)
            if found is None or found.table != line["table"] or not (found.is_cut or list(found.images) == list(row)):
                yield f"a row of {line['table']} before {line['log_pos']}, printed as {found}"
                return
            for name, printed_image in found.images.items():
                yield from image_failures(columns, line, values_of(columns, row[name]), printed_image, states_names(row))
            if found.is_cut:
                break
    yield None if next(printed, None) is None else "more rows are printed"


def image_failures(columns, line, values, printed, has_members):
    yield None if list(values)[: len(printed)] == list(printed) else f"columns {list(values)}, printed as {list(printed)}"
    for index, text in printed.items():
        column, value = columns[index], values.get(index)
        is_right = mysql_columns.is_printed(column, value, text, has_members)
        where = f"{line['table']} {column.name} before {line['log_pos']}"
        yield None if is_right else f"{where}: {value!r}, printed as {text!r}"


# ---- As the server has them


class Tables:
    """The rows of tables, as the events up to here leave them. A column that was never stated isn't in its row."""

    def __init__(self, columns_of_tables):
        self.columns, self.rows, self.has_members = columns_of_tables, {}, {}

    def apply(self, line):
        """Applies the rows of an event; gives those that weren't there to be changed."""
        columns, rows = self.columns[line["table"]], self.rows.setdefault(line["table"], [])
        for row in line["rows"]:
            self.has_members[line["table"]] = states_names(row)
            images = {name: values_of(columns, image) for name, image in row.items()}
            changed_row = {}
            if "before" in images:
                changed_row = next((found for found in rows if matches(found, images["before"])), None)
                if changed_row is None:
                    yield f"{line['table']} before {line['log_pos']}: no row {images['before']}"
                    continue
                rows.remove(changed_row)
            if "after" in images:
                new = {index: with_diffs(value, changed_row.get(index)) for index, value in images["after"].items()}
                rows.append(changed_row | new)

    def failures(self, table, selected_rows):
        """For each value of a table at the end, None or how the server has it otherwise."""
        columns, has_members = self.columns[table], self.has_members.get(table, True)
        found = in_order(columns, self.rows.get(table, []))
        wanted = in_order(columns, [read(columns, row, has_members) for row in selected_rows])
        for row, wanted_row in zip_longest(found, wanted):
            if row is None or wanted_row is None:
                yield f"{table}: a row {row}, and the server has {wanted_row}"
                continue
            for index, column in enumerate(columns):
                if index not in row and column.is_generated():
                    continue
                is_right = mysql_columns.is_same(row.get(index), wanted_row[index])
                yield None if is_right else f"{table} {column.name}: {row.get(index)!r}, and the server has {wanted_row[index]!r}"


def matches(row, image):
    return all(row.get(index) == value for index, value in image.items())


def with_diffs(value, before):
    """The value after: that of the line, which the server has to have, too."""
    if not isinstance(value, Diffs):
        return value
    return value.after[0] if value.after else Document(changed(before.value, value.found))


def in_order(columns, rows):
    """The rows in an order that their first values give."""
    key = lambda row: [repr(plain(row.get(index))) for index in range(len(columns))]
    return sorted(rows, key=key)


def plain(value):
    return value.value if isinstance(value, Document) else value


def selected(server, columns_of_tables):
    """The rows of each table, as the server selects them: the digits of each value, and `-` for NULL."""
    statements = []
    for table, columns in columns_of_tables.items():
        schema, _, name = table.partition(".")
        parts = ", ".join(f"ifnull(concat('=', hex({mysql_columns.selected(column)})), '-')" for column in columns)
        statements.append(f"select '{NEXT_TABLE}'; select {parts} from `{schema}`.`{name.replace('`', '``')}`;")
    found = []
    for row in server.rows("\n".join(statements)):
        if row == [NEXT_TABLE]:
            found.append([])
        else:
            found[-1].append(row)
    return dict(zip(columns_of_tables, found, strict=True))


def read(columns, row, has_members):
    """The values of a row that was selected, as a line of JSON has to have them."""
    contents = [None if digits == "-" else bytes.fromhex(digits[1:]) for digits in row]
    return {
        index: None if content is None else mysql_columns.of_selected(column, content, has_members)
        for index, (column, content) in enumerate(zip(columns, contents, strict=True))
    }
