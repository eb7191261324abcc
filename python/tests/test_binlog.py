"""Tests of the package, over the logs of the repository's tests."""

import mmap
import operator
import os
import sys
import tempfile
import threading
import unittest
from pathlib import Path

sys.path.insert(0, str(Path(__file__).resolve().parents[2] / "tests"))

import binlog
import encoded_logs
import listing_model
import samples

SAMPLE = samples.plain()
CHECKSUMMED = samples.checksummed()
START = len(listing_model.FILE_HEADER)
# A header that states 18 bytes.
UNDERSIZED = samples.HEADER.pack(1, 2, 3, 18, 4, 0)


def listing(log):
    """The lines of binlog_list without their last word."""
    for index, item in enumerate(log.items()):
        if isinstance(item, binlog.Damage):
            yield f"{index} error E{item.error.number}"
            continue
        checksum = "-" if item.checksum is None else item.checksum.hex()
        yield (
            f"{index} {item.event_type} {item.event_size} {item.log_pos} {item.flags:04x} {len(item.data)} {checksum}"
        )


def wanted(content):
    lines = listing_model.expected(content)[0].decode().splitlines()
    return [line if " error E" in line else line.rsplit(" ", 1)[0] for line in lines]


class Logs(unittest.TestCase):
    def check_listing(self, content):
        lines = wanted(bytes(content))
        found = list(listing(binlog.Log(content)))
        self.assertEqual(len(found), len(lines))
        for line, wanted_line in zip(found, lines):
            self.assertEqual(line, wanted_line)

    def test_samples(self):
        for content in (SAMPLE, CHECKSUMMED, SAMPLE + UNDERSIZED, SAMPLE[:-1]):
            self.check_listing(content)

    def test_encoded_and_damaged_logs(self):
        for log in encoded_logs.logs():
            with self.subTest(log.name):
                self.check_listing(log.content)

    def test_buffers(self):
        changeable = bytearray(CHECKSUMMED)
        for content in (CHECKSUMMED, changeable, memoryview(CHECKSUMMED), memoryview(changeable)):
            self.check_listing(content)

    def test_items_of_other_sizes(self):
        for content in (CHECKSUMMED, SAMPLE):
            whole = content[: len(content) // 8 * 8]
            for format_ in "bcIQ":
                view = memoryview(bytearray(whole)).cast(format_)
                self.check_listing(view)
                self.assertEqual([event.raw for event in binlog.Log(view)], [event.raw for event in binlog.Log(whole)])
        with self.assertRaises(TypeError):
            binlog.Log(memoryview(bytearray(SAMPLE))[::2])

    def test_a_mapping(self):
        with tempfile.TemporaryFile() as file:
            file.write(SAMPLE)
            file.flush()
            for access in (mmap.ACCESS_READ, mmap.ACCESS_COPY, mmap.ACCESS_WRITE):
                mapping = mmap.mmap(file.fileno(), 0, access=access)
                self.assertEqual(list(listing(binlog.Log(mapping))), wanted(SAMPLE))
                log = binlog.Log(mapping)
                # It stays where it is.
                with self.assertRaises(BufferError):
                    mapping.close()
                self.assertEqual(len(list(log)), len(wanted(SAMPLE)))

    def test_a_file_larger_than_memory(self):
        with tempfile.TemporaryDirectory() as folder:
            path = Path(folder, "mysql-bin.000001")
            path.write_bytes(SAMPLE)
            try:
                os.truncate(path, 1 << 40)
            except OSError as error:
                self.skipTest(f"no file of a tebibyte can be made here: {error.strerror}")
            *events, damage = binlog.open(path).items()
        self.assertEqual([event.raw for event in events], [event.raw for event in binlog.Log(SAMPLE)])
        self.assertEqual((damage.error.name, damage.position), ("EventSizeTooSmall", len(SAMPLE)))

    def test_a_pipe(self):
        with tempfile.TemporaryDirectory() as folder:
            path = Path(folder, "pipe")
            os.mkfifo(path)
            writing = threading.Thread(target=path.write_bytes, args=(SAMPLE,), daemon=True)
            writing.start()
            log = binlog.open(path)
            writing.join()
        self.assertEqual([event.raw for event in log], [event.raw for event in binlog.Log(SAMPLE)])

    def test_a_file(self):
        with tempfile.TemporaryDirectory() as folder:
            path = Path(folder, "mysql-bin.000001")
            path.write_bytes(SAMPLE)
            self.assertEqual([event.raw for event in binlog.open(path)], [event.raw for event in binlog.Log(SAMPLE)])
            path.write_bytes(b"")
            with self.assertRaises(binlog.InvalidLog) as raised:
                binlog.open(str(path))
            self.assertEqual(raised.exception.name, "EndOfInput")

    def test_no_log(self):
        for content, name, number in ((b"abc", "EndOfInput", 1), (b"abcd", "InvalidFileHeader", 2)):
            with self.assertRaises(binlog.InvalidLog) as raised:
                binlog.Log(content)
            self.assertEqual((raised.exception.name, raised.exception.number), (name, number))
            self.assertIn(name, str(raised.exception))


class Events(unittest.TestCase):
    def test_the_whole_log_is_its_events(self):
        log = binlog.Log(SAMPLE)
        self.assertEqual(listing_model.FILE_HEADER + b"".join(event.raw for event in log), SAMPLE)
        self.assertEqual(log.size, len(SAMPLE))
        # Nobody makes room for as many events as there are bytes.
        self.assertEqual(operator.length_hint(log), 0)

    def test_fields(self):
        event = next(iter(binlog.Log(SAMPLE)))
        frames, _ = listing_model.split(SAMPLE[START:])
        self.assertEqual(event.raw, frames[0])
        self.assertEqual(event.position, START)
        self.assertEqual(event.event_size, len(frames[0]))
        self.assertEqual(event.timestamp, int.from_bytes(frames[0][:4], "little"))
        self.assertEqual(event.server_id, int.from_bytes(frames[0][5:9], "little"))
        self.assertEqual(event.type, binlog.EventType.FORMAT_DESCRIPTION_EVENT)
        self.assertEqual(event.cursor, binlog.Cursor(START, 0))

    def test_an_unknown_type(self):
        content = listing_model.FILE_HEADER + samples.frame(200, b"data", 0)
        (event,) = binlog.Log(content)
        self.assertEqual((event.event_type, event.type, event.data), (200, None, b"data"))

    def test_an_event_is_given_again(self):
        log = binlog.Log(CHECKSUMMED)
        for item in list(log.items()):
            again = next(log.items(item.cursor))
            self.assertEqual(again._fields, item._fields)

    def test_events_outlive_their_log(self):
        events = list(binlog.Log(bytearray(SAMPLE)))
        self.assertEqual(b"".join(event.raw for event in events), SAMPLE[START:])


class Damaged(unittest.TestCase):
    def test_an_error_in_the_place_of_an_event(self):
        log = binlog.Log(SAMPLE + UNDERSIZED)
        *events, damage = log.items()
        self.assertEqual((damage.error.name, damage.position), ("EventSizeTooSmall", len(SAMPLE)))
        given = []
        with self.assertRaises(binlog.LogError) as raised:
            for event in log:
                given.append(event.raw)
        self.assertEqual(given, [event.raw for event in events])
        self.assertEqual((raised.exception.number, raised.exception.position), (3, len(SAMPLE)))

    def test_cursors_that_are_no_place(self):
        log = binlog.Log(SAMPLE)
        beyond = [(2**64 + 4, 0), (4, 2**64), (4, 0, 2**64), (-1, 0), (4, -1)]
        for place in ((0, 0), (3, 0), (len(SAMPLE) + 1, 0), (2**64 - 1, 0), (4, 5), (4, len(SAMPLE)), (4, 2**64 - 1), *beyond):
            with self.assertRaises(binlog.LogError) as raised:
                next(log.items(binlog.Cursor(*place)))
            self.assertEqual(raised.exception.name, "InvalidCursor")

    def test_a_cursor_that_has_ended(self):
        self.assertEqual(list(binlog.Log(SAMPLE).events(binlog.Cursor(4, 0, 1))), [])


class Verified(unittest.TestCase):
    """Logs whose checksums are verified."""

    def setUp(self):
        self.frames, _ = listing_model.split(CHECKSUMMED[START:])

    def changed(self, index, place):
        """The sample with checksums, of which one bit of an event is changed, and the event."""
        frame = bytearray(self.frames[index])
        frame[place] ^= 0x40
        frames = [*self.frames[:index], bytes(frame), *self.frames[index + 1 :]]
        return listing_model.FILE_HEADER + b"".join(frames), bytes(frame)

    def test_right_checksums(self):
        for content in (CHECKSUMMED, SAMPLE, CHECKSUMMED + UNDERSIZED):
            items = [item._fields for item in binlog.Log(content).items()]
            self.assertEqual([item._fields for item in binlog.Log(content, verify=True).items()], items)

    def test_a_wrong_checksum(self):
        content, frame = self.changed(1, 30)
        first, damage, *others = binlog.Log(content, verify=True).items()
        error = damage.error
        self.assertEqual((error.name, error.number), ("ChecksumMismatch", 17))
        self.assertEqual(error.position, START + len(self.frames[0]))
        computed = samples.crc32(frame[:-4])
        self.assertEqual((damage.checksum, damage.computed_checksum), (frame[-4:], computed))
        self.assertEqual([event.raw for event in (first, *others)], [self.frames[0], *self.frames[2:]])
        self.assertEqual([item.checksum for item in others], [frame[-4:] for frame in self.frames[2:]])

    def test_a_description_that_is_not_in_force(self):
        content, frame = self.changed(0, 30)
        log = binlog.Log(content, verify=True)
        damage, *others = log.items()
        self.assertEqual((damage.error.name, damage.checksum), ("ChecksumMismatch", frame[-4:]))
        found = [(event.raw, event.checksum, event.cursor.description) for event in others]
        self.assertEqual(found, [(frame, None, 0) for frame in self.frames[1:]])
        self.assertEqual([item._fields for item in log.items(others[0].cursor)], [event._fields for event in others])

    def test_an_event_is_not_given(self):
        content, _ = self.changed(2, 20)
        with tempfile.TemporaryDirectory() as folder:
            path = Path(folder, "mysql-bin.000001")
            path.write_bytes(content)
            given = []
            with self.assertRaises(binlog.LogError) as raised:
                for event in binlog.open(path, verify=True):
                    given.append(event.raw)
            self.assertEqual((raised.exception.name, given), ("ChecksumMismatch", self.frames[:2]))
            self.assertEqual(len(list(binlog.open(path))), len(self.frames))


class Library(unittest.TestCase):
    def test_the_version(self):
        self.assertEqual(binlog.library_version(), (0, 1, 0))

    def test_names_are_those_of_the_table(self):
        """docs/FORMAT.md has a row for each error: its number, its variant, its cause."""
        format_page = Path(__file__).resolve().parents[2] / "docs/FORMAT.md"
        rows = [line.split("|") for line in format_page.read_text().splitlines() if line.startswith("| E")]
        self.assertGreaterEqual(len(rows), 18)
        for row in rows:
            name = row[2].strip().split("(")[0].split(" ")[0].strip("`")
            self.assertEqual(binlog.BinlogError(int(row[1].strip()[1:])).name, name)


if __name__ == "__main__":
    unittest.main()
