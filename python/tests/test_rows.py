"""Tests of the rows of logs, beside the model of the lines of `binlog json --compact`."""

import json
import random
import sys
import tempfile
import unittest
from pathlib import Path

sys.path.insert(0, str(Path(__file__).resolve().parents[2] / "tests"))

import binlog
import compact_model
import encoded_events as encode
import maria_events
import payload_lines
import raced_files
import recipes
import row_lines
import row_values
import samples
from binlog._bodies import row_of
from payload_lines import PAYLOAD, XID

INSIDE = [row_lines.FIRST, row_lines.written(1, 7, b"a"), row_lines.OTHER, row_lines.written(2, 8, b"b"), XID]
# A GTID, and none.
GTIDS = [(event.type, event.body) for event in (encode.gtid(33, sid=recipes.SOURCE, gno=7), encode.gtid(34, sid=bytes(16), gno=0))]
UNDERSIZED = samples.HEADER.pack(1, 2, 3, 18, 4, 0)


def payload(events):
    return payload_lines.with_payload(random.Random(7), events, "raw")


def wanted(content):
    """The rows by the model."""
    for line in compact_model.expected(content, "log")[0].splitlines():
        found = json.loads(line)
        images = row_of({name: found[name] for name in ("before", "after") if name in found})
        table = f"{found['database']}.{found['table']}"
        yield found["pos"], found.get("part"), found["gtid"], found["time"], table, found["op"], images.get("before"), images.get("after")


def refusals(rows):
    """The names of the errors that stand for these rows of an event. Rows without columns have no bytes."""
    if rows == []:
        return ["Unread"]
    return [item[0][1] for item in rows or [] if item[:1] and item[0][0] == "error"]


class Rows(unittest.TestCase):
    def compare(self, content):
        found = list(binlog.rows(binlog.Log(content)))
        self.assertEqual(found, list(wanted(content)))
        return found

    def raised(self, kind, content):
        """The rows in front of what is raised, and that."""
        found = []
        with self.assertRaises(kind) as raised:
            found.extend(binlog.rows(binlog.Log(content)))
        return found, raised.exception

    def test_logs_of_both_servers(self):
        logs = recipes.logs()
        contents = [logs[name] for name in ("mysql-bin.000007", "mysql-bin.000008", "minimal/mysql-bin.000001")]
        contents += [raced_files.Files(made, b"tea").first for made in (raced_files.MysqlLog, raced_files.MariaLog)]
        for content in contents:
            self.assertTrue(self.compare(content))
        gtids = {row.gtid for row in binlog.rows(binlog.Log(contents[-1]))}
        self.assertEqual(gtids, {"0-1-41", "0-1-42"})

    def test_operations(self):
        rows = list(binlog.rows(binlog.Log(recipes.logs()["mysql-bin.000007"])))
        self.assertEqual([row.op for row in rows], ["insert", "insert", "update", "delete", "insert"])
        update = rows[2]
        self.assertEqual((update.table, update.before, update.after), ("shop.orders", {"id": 2, "name": "coffee"}, {"id": 2, "name": "cocoa"}))
        self.assertEqual((rows[0].before, rows[3].after), (None, None))

    def test_types_of_columns(self):
        events = [event for name, added, _ in row_values.encoded() if name != "stated_facts" for event in added]
        self.assertGreater(len(self.compare(row_lines.content_of(row_lines.VERSIONS[0], events))), 100)

    def test_inside_compressed_transactions(self):
        for has_checksums in (False, True):
            events = [GTIDS[0], payload(INSIDE), GTIDS[1], *INSIDE, payload(INSIDE[:2])]
            found = self.compare(payload_lines.log_of(events, has_checksums))
            self.assertEqual([row.part for row in found], [1, 3, None, None, 1])
            self.assertEqual([row.gtid is None for row in found], [False, False, True, True, True])

    def test_a_path_and_a_place(self):
        content = recipes.logs()["mysql-bin.000007"]
        with tempfile.TemporaryDirectory() as folder:
            path = Path(folder, "log")
            path.write_bytes(content)
            self.assertEqual(list(binlog.rows(path)), list(wanted(content)))
            log = binlog.open(path)
        begins = [event.cursor for event in log if event.type == binlog.EventType.GTID_EVENT]
        self.assertEqual(list(binlog.rows(log, begins[1])), list(wanted(content))[2:])

    def test_files_of_columns(self):
        logs = recipes.logs()
        with tempfile.TemporaryDirectory() as folder:
            columns = Path(folder, "columns.tsv")
            columns.write_bytes(logs["columns.tsv"])
            (row,) = binlog.rows(binlog.Log(logs["minimal/mysql-bin.000001"], columns=columns))
        self.assertEqual(row.after, {"id": 4_000_000_000, "size": "large", "name": "\u00c6r\u00f8"})

    def test_damage(self):
        content = payload_lines.log_of(INSIDE) + UNDERSIZED
        found, error = self.raised(binlog.LogError, content)
        self.assertEqual((len(found), error.name, error.position), (2, "EventSizeTooSmall", len(content) - len(UNDERSIZED)))

    def test_a_log_that_ends_within_an_event(self):
        """The rows of the whole events, and then an error in the place of those that are cut."""
        content = recipes.logs()["mysql-bin.000007"]
        starts = [item.position for item in binlog.Log(content).items()]
        for end in range(starts[-3], len(content)):
            log = binlog.Log(content[:end])
            rows = list(wanted(content[:end]))
            with self.subTest(end):
                if end in starts:
                    self.assertEqual(list(binlog.rows(log)), rows)
                    continue
                found, error = self.raised(binlog.RowsError, content[:end])
                self.assertEqual((found, error.name, error.position), (rows, "Tail", max(start for start in starts if start < end)))
                # The same from the last place on, where nothing is whole.
                with self.assertRaises(binlog.RowsError):
                    next(binlog.rows(log, binlog.Cursor(error.position, 4)))
        self.assertEqual(list(binlog.rows(log, binlog.Cursor(starts[-1], 4, 1))), [])

    def test_rows_that_are_refused(self):
        for name, events, members in row_lines.refused():
            content = row_lines.content_of(row_lines.VERSIONS[0], events)
            refused = [name for found in members for name in refusals(dict(found).get("rows"))]
            with self.subTest(name):
                if refused:
                    self.assertEqual(self.raised(binlog.RowsError, content)[1].name, refused[0])
                elif all(members):
                    self.compare(content)
                else:
                    self.raised(binlog.LogError, content)

    def test_rows_without_a_table_map(self):
        row = row_lines.written(1, 7, b"a")
        for events in ([row], [row_lines.FIRST, row_lines.rotate(4), row]):
            content = payload_lines.log_of(events)
            _, error = self.raised(binlog.RowsError, content)
            *_, event = binlog.Log(content)
            self.assertEqual((error.name, error.position), ("NoTableMap", event.position))
        _, error = self.raised(binlog.RowsError, payload_lines.log_of([XID, payload([XID, row])]))
        self.assertEqual((error.name, error.details), ("NoTableMap", {"part": 1}))

    def test_rows_that_are_not_read(self):
        for kind in (20, 26, *range(160, 172), 200):
            for events, details in (([(kind, bytes(40))], {}), ([payload([XID, (kind, bytes(40))])], {"part": 1})):
                found, error = self.raised(binlog.RowsError, payload_lines.log_of([*INSIDE, *events]))
                self.assertEqual((len(found), error.name, error.details), (2, "Unread", {**details, "type": kind}))

    def test_marias_own_events(self):
        """Those that have no rows have none in its own logs, until it encrypts them."""
        own = [maria_events.annotate_rows("a"), maria_events.binlog_checkpoint("b"), maria_events.gtid_list(0, [(0, 1, 2)])]
        own += [maria_events.query_compressed("c", None), maria_events.gtid(1, 0, 7)]
        events = [(event.type, event.body) for event in own]
        found = self.compare(row_lines.content_of(row_lines.VERSIONS[1], [*events, *INSIDE]))
        self.assertEqual(len(found), 2)
        encryption = maria_events.start_encryption(1, 1, bytes(12))
        content = row_lines.content_of(row_lines.VERSIONS[1], [*INSIDE, (encryption.type, encryption.body), *INSIDE])
        found, error = self.raised(binlog.RowsError, content)
        self.assertEqual((len(found), error.name, error.details), (2, "Unread", {"type": encryption.type}))

    def test_rows_without_columns(self):
        none = row_lines.row_event(row_lines.WRITE, 1, [False, False], [False, False], b"")
        found, error = self.raised(binlog.RowsError, payload_lines.log_of([*INSIDE, none]))
        self.assertEqual((len(found), error.name, error.details), (2, "Unread", {"type": row_lines.WRITE[0]}))

    def test_compressed_transactions_that_are_refused(self):
        for body, errors in payload_lines.refused():
            content = payload_lines.log_of([*INSIDE, (PAYLOAD, body)])
            *_, event = binlog.Log(content)
            with self.subTest(errors):
                if not any(errors):
                    self.assertEqual(len(list(binlog.rows(binlog.Log(content)))), 2)
                    continue
                found, error = self.raised(binlog.LogError, content)
                self.assertEqual((len(found), error.position), (2, event.position))


if __name__ == "__main__":
    unittest.main()
