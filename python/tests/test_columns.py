"""Tests of files of columns beside logs."""

import io
import json
import pickle
import random
import sys
import tempfile
import unittest
import warnings
from pathlib import Path

sys.path.insert(0, str(Path(__file__).resolve().parents[2] / "tests"))

import binlog
import column_files
import declared_columns
import payload_lines
import row_lines
import row_values
from declared_model import Declared

HEAD = column_files.HEADER + b"\n"
DECLARED = [("id", Declared("int unsigned", "NULL", None)), ("size", Declared("enum('small','large')", "latin1", None))]
FILE = declared_columns.file_text({("d", "t"): DECLARED})
# The table d.t with an INT and an ENUM, and a row of it.
TABLE = row_values.table_map(7, bytes([3, 254]), b"\xf7\1")
ROW = row_values.row_event(row_values.WHOLE[3], 7, [True, True], [True, True], b"\0\xff\xff\xff\xff\2")
LOG = row_lines.content_of(row_lines.VERSIONS[0], [TABLE, ROW, ROW])


def rows_of(log):
    """The rows of the last event."""
    *_, event = log
    return event.rows


class Columns(unittest.TestCase):
    def test_rows_have_what_is_declared(self):
        self.assertEqual(rows_of(binlog.Log(LOG)), [{"after": {"@1": -1, "@2": 2}}])
        self.assertEqual(rows_of(binlog.Log(LOG, columns=io.BytesIO(FILE))), [{"after": {"id": 2**32 - 1, "size": "large"}}])

    def test_sources(self):
        other = FILE.replace(b"id", b"key")
        with tempfile.TemporaryDirectory() as folder:
            log, first, last = (Path(folder) / name for name in ("log", "first.tsv", "last.tsv"))
            for path, content in ((log, LOG), (first, FILE), (last, other)):
                path.write_bytes(content)
            for columns, name in ((first, "id"), (str(first), "id"), ([first, last], "key"), ((last, io.BytesIO(FILE)), "id"), ([], "@1")):
                with self.subTest(columns):
                    self.assertIn(name, rows_of(binlog.open(log, columns=columns))[0]["after"])
            with first.open("rb") as file:
                self.assertIn("id", rows_of(binlog.open(log, columns=file))[0]["after"])
            with self.assertRaises(OSError):
                binlog.open(log, columns=Path(folder) / "none.tsv")
        with self.assertRaises(TypeError):
            binlog.Log(LOG, columns=io.StringIO(FILE.decode()))

    def test_random_logs(self):
        """Lines one by one, and all lines, are those of a model; the tables that contradict the file have a warning each, and one where their
        names read alike, as those of `b.c` in `a` and of `c` in `a.b`."""
        for name, text, content, expected in declared_columns.single_files(100):
            with self.subTest(name), warnings.catch_warnings(record=True) as caught:
                warnings.simplefilter("always")
                log = binlog.Log(content, columns=io.BytesIO(text))
                lines = list(log.lines())
                said = [str(warning.message) for warning in caught]
                self.assertTrue(all(warning.category is binlog.ColumnsWarning for warning in caught))
                self.assertEqual([event.line(index) for index, event in enumerate(log)], lines)
                self.assertEqual(len(caught), len(said))
                self.assertIsNone(expected.compared(b"".join(lines), None))
                wanted = {
                    f"table {schema.decode()}.{table.decode()}: column {column} contradicts the file of columns, which isn't used for this table"
                    for (schema, table), column in expected.contradictions.items()
                }
                self.assertEqual(sorted(said), sorted(wanted))

    def test_a_warning_for_each_log(self):
        """Python shows a warning of the same text once; in each log a table is warned of once, also inside compressed transactions."""
        other = declared_columns.file_text({("d", "t"): [("id", Declared("text", "latin1", None)), *DECLARED[1:]]})
        inside = payload_lines.with_payload(random.Random(7), [TABLE, ROW], "raw")
        content = payload_lines.log_of([inside, inside, TABLE, ROW, inside])
        with tempfile.TemporaryDirectory() as folder, warnings.catch_warnings(record=True) as caught:
            warnings.simplefilter("default")
            paths = [Path(folder) / name for name in ("log.1", "log.2")]
            for path in paths:
                path.write_bytes(content)
                rows = list(binlog.rows(binlog.open(path, columns=io.BytesIO(other))))
                self.assertEqual([row.after for row in rows], [{"@1": -1, "@2": 2}] * 4)
        said = "table d.t: column 1 contradicts the file of columns, which isn't used for this table"
        self.assertEqual([str(warning.message) for warning in caught], [f"{path}: {said}" for path in paths])

    def test_a_table_in_whose_file_lines_stand_apart(self):
        lines = FILE.splitlines(keepends=True)
        apart = b"".join([lines[0], lines[1], b"other\tt\t1\tid\tint\tNULL\r\n", lines[2]])
        self.assertEqual(rows_of(binlog.Log(LOG, columns=io.BytesIO(apart)))[0]["after"]["size"], "large")

    def test_refused_files(self):
        for text, message in declared_columns.BAD_FILES:
            for columns in ([io.BytesIO(text)], [io.BytesIO(FILE), io.BytesIO(text)]):
                with self.subTest(text), self.assertRaises(binlog.InvalidColumns) as raised:
                    binlog.Log(LOG, columns=columns)
                error = raised.exception
                self.assertEqual((error.number, error.name, error.path), (103, "InvalidColumns", None))
                self.assertEqual(str(error), message.replace("n't", " not"))
                again = pickle.loads(pickle.dumps(error))
                self.assertEqual((str(again), again.line, again.column), (str(error), error.line, error.column))
        with tempfile.TemporaryDirectory() as folder:
            path = Path(folder) / "columns.tsv"
            path.write_bytes(HEAD + b"shop\n")
            with self.assertRaises(binlog.InvalidColumns) as raised:
                binlog.Log(LOG, columns=path)
            self.assertEqual(str(raised.exception), f"{path}: line 2, column 5: not six fields")

    def test_lines_are_those_of_the_events(self):
        log = binlog.Log(LOG, columns=io.BytesIO(FILE))
        *_, last = map(json.loads, log.lines())
        self.assertEqual(last["rows"], [{"after": {"id": 2**32 - 1, "size": "large"}}])


if __name__ == "__main__":
    unittest.main()
