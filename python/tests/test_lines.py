"""Tests of the lines of JSON of events, and of what they say."""

import json
import sys
import threading
import unittest
from pathlib import Path

sys.path.insert(0, str(Path(__file__).resolve().parents[2] / "tests"))

import binlog
import encoded_logs
import json_model
import listing_model
import row_values
import samples

SAMPLE = samples.plain()
CHECKSUMMED = samples.checksummed()
MAGIC = listing_model.FILE_HEADER
# A header that states 18 bytes.
UNDERSIZED = samples.HEADER.pack(1, 2, 3, 18, 4, 0)


def lines(content, **parts):
    return list(binlog.Log(content, **parts).lines())


def wanted(content):
    return json_model.own_lines(content).splitlines(keepends=True)


class Lines(unittest.TestCase):
    def test_samples(self):
        for content in (SAMPLE, CHECKSUMMED, SAMPLE + UNDERSIZED, SAMPLE[:-1], MAGIC):
            self.assertEqual(lines(content), wanted(content))

    def test_encoded_and_damaged_logs(self):
        for log in encoded_logs.logs():
            with self.subTest(log.name):
                found, given = lines(log.content), wanted(log.content)
                self.assertEqual(len(found), len(given))
                for line, wanted_line in zip(found, given):
                    self.assertEqual(line, wanted_line)

    def test_a_line_that_has_no_room_beside_others(self):
        def event(event_type, data):
            return samples.HEADER.pack(1, event_type, 3, 19 + len(data), 4, 0) + data

        xid, statement = event(16, bytes(8)), event(29, b"\0" + b"a" * 300_000)
        content = MAGIC + xid + statement + xid + xid + statement
        self.assertEqual(lines(content), wanted(content))

    def test_an_index(self):
        event = next(iter(binlog.Log(SAMPLE)))
        for index in (0, 7, 2**64 - 1):
            self.assertTrue(event.line(index).startswith(b'{"index":%d,' % index))

    def test_a_wrong_checksum(self):
        content = bytearray(CHECKSUMMED)
        content[-5] ^= 1
        *_, damage = binlog.Log(content, verify=True).items()
        found = {"index": 9, "error": 17, "stored": damage.checksum.hex(), "computed": damage.computed_checksum.hex()}
        self.assertEqual(damage.line(9).decode(), json.dumps(found, separators=(",", ":")) + "\n")
        # The other lines are those of a log that isn't verified.
        self.assertEqual(lines(content, verify=True)[:-1], lines(content)[:-1])

    def test_a_log_that_was_changed(self):
        content = bytearray(SAMPLE)
        event = next(iter(binlog.Log(content)))
        content[event.position + 17] ^= 1
        with self.assertRaises(binlog.LogError) as raised:
            event.line()
        self.assertEqual((raised.exception.name, raised.exception.position), ("InvalidItem", event.position))

    def test_threads(self):
        log = binlog.Log(SAMPLE)
        events = list(log)
        found = {}

        def make(number):
            found[number] = [event.line(index) for index, event in enumerate(events)]

        threads = [threading.Thread(target=make, args=(number,)) for number in range(4)]
        for thread in threads:
            thread.start()
        for thread in threads:
            thread.join()
        self.assertEqual(list(found.values()), 4 * [wanted(SAMPLE)])


class Bodies(unittest.TestCase):
    def test_texts_and_bytes(self):
        for event in binlog.Log(SAMPLE):
            members = json.loads(event.line())["data"]
            if members and "error" not in members:
                self.assertEqual(event.body.keys(), members.keys())
        (query, *_) = (event for event in binlog.Log(SAMPLE) if event.type == binlog.EventType.QUERY_EVENT)
        self.assertIsInstance(query.body.query, (str, bytes))
        self.assertEqual(query.body["query"], query.body.query)
        with self.assertRaises(AttributeError):
            query.body.nothing

    def test_bytes(self):
        content = MAGIC + samples.frame(17, b"\1\0\0\0\xff\0", 0)
        (event,) = binlog.Log(content)
        self.assertEqual(event.body, {"file_id": 1, "block_data": b"\xff\0"})

    def test_a_text_that_is_not_utf_8(self):
        content = MAGIC + samples.frame(29, b"\1\xff", 0)
        (event,) = binlog.Log(content)
        self.assertEqual(event.body.query, b"\xff")

    def test_an_unknown_type(self):
        (event,) = binlog.Log(MAGIC + samples.frame(200, b"data", 0))
        self.assertIsNone(event.body)

    def test_data_that_is_not_a_body(self):
        (event,) = binlog.Log(MAGIC + samples.frame(16, b"1234567", 0))
        with self.assertRaises(binlog.LogError) as raised:
            event.body
        self.assertEqual((raised.exception.name, raised.exception.position), ("EndOfBody", len(MAGIC)))


class Rows(unittest.TestCase):
    def test_documents(self):
        member = b"\0\1\0\x13\0\x0b\0\1\0\2\x0c\0a\1\0\7\0\4\1\0"
        documents = [(b"\4\1", True), (b"", None), (b"\5\xfe\xff", -2), (member, {"a": [True]}), (b"\x0c\1\xff", b"\x0c\1\xff")]
        contents = b"".join(b"\0" + len(document).to_bytes(4, "little") + document for document, _ in documents) + b"\1"
        events = [row_values.table_map(7, bytes([row_values.JSON]), b"\4"), row_values.row_event(row_values.WHOLE[3], 7, [True], [True], contents)]
        content = row_values.start("8.0.36") + b"".join(row_values.framed(*event) for event in events)
        *_, event = binlog.Log(content)
        self.assertEqual([row["after"]["@1"] for row in event.rows], [value for _, value in documents] + [None])

    def test_diffs(self):
        lists = [b"\0\4$[0]\2\4\1\2\3$.a", b"", b"\3"]
        rows = b"".join(b"\1\1\0" + len(diffs).to_bytes(4, "little") + diffs for diffs in lists)
        (partial,) = (kind for kind in row_values.encode.ROWS_KINDS if kind[0] == 39)
        events = [row_values.table_map(7, bytes([row_values.JSON]), b"\4"), row_values.row_event(partial, 7, [False], [True], rows)]
        content = row_values.start("8.0.36") + b"".join(row_values.framed(*event) for event in events)
        *_, event = binlog.Log(content)
        changed, empty, other = (row["after"]["@1"] for row in event.rows)
        self.assertEqual(changed, [{"op": "replace", "path": "$[0]", "value": True}, {"op": "remove", "path": "$.a"}])
        self.assertIsInstance(changed, binlog.Diffs)
        self.assertEqual((empty, other), (binlog.Diffs(), b"\3"))
        self.assertEqual((changed.has_document, changed.document), (False, None))

    def test_documents_after(self):
        changes = [(b"\4\1", b"\0\1$\2\4\0"), (b"\2\1\0\7\0\4\1\0", b"\2\4$[0]"), (b"\4\1", b"\2\4$[0]")]
        rows = b""
        for parts in changes:
            before, diffs = (len(part).to_bytes(4, "little") + part for part in parts)
            rows += b"\0" + before + b"\1\1\0" + diffs
        (partial,) = (kind for kind in row_values.encode.ROWS_KINDS if kind[0] == 39)
        events = [row_values.table_map(7, bytes([row_values.JSON]), b"\4"), row_values.row_event(partial, 7, [True], [True], rows)]
        content = row_values.start("8.0.36") + b"".join(row_values.framed(*event) for event in events)
        *_, event = binlog.Log(content)
        found = [row["after"]["@1"] for row in event.rows]
        self.assertEqual([(diffs.has_document, diffs.document) for diffs in found], [(True, None), (True, []), (False, None)])


if __name__ == "__main__":
    unittest.main()
