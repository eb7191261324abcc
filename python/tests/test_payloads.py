"""Tests of the events inside compressed transactions. The program that reads them is the model of the lines of JSON."""

import io
import os
import pickle
import random
import sys
import tempfile
import unittest
import warnings
from pathlib import Path
from unittest import mock

TESTS = Path(__file__).resolve().parents[2] / "tests"
sys.path.insert(0, str(TESTS))

import binlog
import payload_lines
import row_lines
import test_columns
from payload_lines import PAYLOAD, XID

# A program that prints the lines of a model, and keeps the file of columns that it is given.
PROGRAM = """#!{python}
import sys
sys.path.insert(0, {tests!r})
import json_model
command, *options, last = sys.argv[1:]
assert (command, last) == ("json", "-")
if options:
    open({columns!r}, "wb").write(open(options[1], "rb").read())
output, status = json_model.expected(sys.stdin.buffer.read())
sys.stdout.buffer.write(output)
sys.exit(status)
"""
INSIDE = [row_lines.FIRST, row_lines.written(1, 7, b"a"), row_lines.OTHER, row_lines.written(2, 8, b"b"), XID]


def payload(events):
    return payload_lines.with_payload(random.Random(7), events, "raw")


def seen(event):
    return event.event_type, event.type, event.name, event.event_size, event.timestamp, event.server_id, event.flags, event.body, event.table, event.rows


class Payloads(unittest.TestCase):
    def setUp(self):
        folder = tempfile.TemporaryDirectory()
        self.addCleanup(folder.cleanup)
        self.program, self.columns = (Path(folder.name) / name for name in ("binlog", "columns"))
        self.program.write_text(PROGRAM.format(python=sys.executable, tests=str(TESTS), columns=str(self.columns)))
        self.program.chmod(0o755)

    def inside(self, event):
        return list(event.payload_events(self.program))

    def test_events_inside_are_those_outside(self):
        outside = [seen(event) for event in binlog.Log(payload_lines.log_of(INSIDE))][1:]
        for has_checksums in (False, True):
            content = payload_lines.log_of([XID, payload(INSIDE), XID, payload(INSIDE[:1])], has_checksums)
            events = list(binlog.Log(content))
            with self.subTest(has_checksums):
                self.assertEqual([len(self.inside(event)) for event in events], [0, 0, len(INSIDE), 0, 1])
                inside = self.inside(events[2])
                self.assertEqual([seen(event) for event in inside], outside)
                self.assertEqual([event.part for event in inside], list(range(len(INSIDE))))
                self.assertEqual({event.position for event in inside}, {events[2].position})

    def test_the_log_of_the_events_inside(self):
        outside = [seen(event) for event in binlog.Log(payload_lines.log_of(INSIDE))][1:]
        for has_checksums in (False, True):
            content = payload_lines.log_of([XID, payload(INSIDE), XID, payload(INSIDE[:1])], has_checksums)
            logs = [event.payload_log() for event in binlog.Log(content)]
            with self.subTest(has_checksums):
                self.assertEqual([log is None for log in logs], [True, True, False, True, False])
                self.assertEqual([seen(event) for event in logs[2]][1:], outside)
                self.assertEqual([event.event_type for event in logs[4]], [15, INSIDE[0][0]])
                self.assertEqual((logs[2].rest, logs[4].rest), (0, 0))

    def test_a_long_payload(self):
        events = INSIDE * 2_000
        *_, event = binlog.Log(payload_lines.log_of([payload(events)]))
        self.assertEqual([inside.event_type for inside in event.payload_log()][1:], [kind for kind, _ in events])

    def test_payloads_without_a_log(self):
        for body, errors in payload_lines.refused():
            *_, event = binlog.Log(payload_lines.log_of([(PAYLOAD, body)]))
            refusals = [error for error in errors if error not in (None, "Event")]
            with self.subTest(errors):
                if not refusals:
                    self.assertEqual(sum(1 for _ in event.payload_log().items()), 1 + len(errors))
                    continue
                with self.assertRaises(binlog.LogError) as raised:
                    event.payload_log()
                self.assertEqual((raised.exception.name, raised.exception.position), (refusals[0], event.position))

    def test_a_log_without_a_description(self):
        content = payload_lines.log_of([payload(INSIDE)])
        begin = content.index(bytes([PAYLOAD]), 100) - 4
        (event,) = binlog.Log(content[:4] + content[begin:])
        self.assertEqual([inside.event_type for inside in self.inside(event)], [kind for kind, _ in INSIDE])
        self.assertEqual([inside.event_type for inside in event.payload_log()], [kind for kind, _ in INSIDE])

    def test_refusals(self):
        for body, errors in payload_lines.refused():
            *_, event = binlog.Log(payload_lines.log_of([(PAYLOAD, body)]))
            first = next((part for part, error in enumerate(errors) if error), None)
            found = event.payload_events(self.program)
            with self.subTest(errors):
                for part in range(len(errors) if first is None else first):
                    self.assertEqual(next(found).part, part)
                if first is None:
                    self.assertEqual(list(found), [])
                    continue
                with self.assertRaises(binlog.PayloadError) as raised:
                    next(found)
                error = raised.exception
                self.assertEqual((error.name, error.part, error.position), (errors[first], first, event.position))
                self.assertEqual(str(pickle.loads(pickle.dumps(error))), str(error))
                self.assertIn(error.name, str(error))

    def test_files_of_columns_are_passed(self):
        content = payload_lines.log_of([payload([test_columns.TABLE, test_columns.ROW])])
        *_, event = binlog.Log(content, columns=io.BytesIO(test_columns.FILE))
        self.assertEqual([inside.event_type for inside in self.inside(event)], [19, 30])
        self.assertEqual(self.columns.read_bytes(), test_columns.FILE)
        outside = payload_lines.log_of([test_columns.TABLE, test_columns.ROW])
        *_, wanted = binlog.Log(outside, columns=io.BytesIO(test_columns.FILE))
        *_, row = event.payload_log()
        self.assertEqual(row.rows, wanted.rows)

    def test_files_of_columns_that_are_contradicted(self):
        """What the program says of a table is a warning, once a log."""
        said = 'table "d"."t": column 1 contradicts the file of columns, which isn\'t used for this table'
        message = f"binlog: {said}\n"
        program = self.program.read_text().replace("sys.exit(status)", f"sys.stderr.write({message!r})\nsys.exit(status)")
        self.program.write_text(program)
        inside = payload([test_columns.TABLE, test_columns.ROW])
        with warnings.catch_warnings(record=True) as caught:
            warnings.simplefilter("always")
            for event in binlog.Log(payload_lines.log_of([inside, inside]), columns=io.BytesIO(test_columns.FILE)):
                self.inside(event)
        self.assertEqual([(warning.category, str(warning.message)) for warning in caught], [(binlog.ColumnsWarning, said)])

    def test_the_program(self):
        *_, event = binlog.Log(payload_lines.log_of([payload(INSIDE)]))
        with mock.patch.dict(os.environ, {"BINLOG_PROGRAM": str(self.program)}):
            self.assertEqual(len(list(event.payload_events())), len(INSIDE))
        with mock.patch.dict(os.environ, {"PATH": "", "BINLOG_PROGRAM": ""}), self.assertRaises(binlog.ProgramError):
            next(event.payload_events())
        with self.assertRaises(binlog.ProgramError):
            next(event.payload_events(self.program.parent))
        self.program.write_text(f"#!{sys.executable}\nimport sys\nsys.exit('no memory is left')")
        with self.assertRaisesRegex(binlog.ProgramError, "no memory is left"):
            next(event.payload_events(self.program))


if __name__ == "__main__":
    unittest.main()
