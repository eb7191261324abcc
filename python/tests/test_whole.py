"""Tests of what is said of whole logs."""

import collections
import itertools
import json
import pickle
import re
import sys
import tempfile
import unittest
import zlib
from pathlib import Path

sys.path.insert(0, str(Path(__file__).resolve().parents[2] / "tests"))

import binlog
import encoded_logs
import gtid_model
import listing_model
import maria_events
import payload_lines
import samples

SAMPLE = samples.plain()
CHECKSUMMED = samples.checksummed()
GTIDS = samples.few_gtids()
MAGIC = listing_model.FILE_HEADER
# A header that states 18 bytes.
UNDERSIZED = samples.HEADER.pack(1, 2, 3, 18, 4, 0)
SOURCE = "abababab-abab-abab-abab-abababababab"


def frames(log):
    return listing_model.split(log[len(MAGIC) :])[0]


def source_of(line):
    """A line of GTIDs: the source as a UUID with hyphens, the tag or "", and the intervals between colons."""
    name, intervals, *_ = line.split(" ")
    source, _, tag = name.partition(":")
    uuid = "-".join((source[:8], source[8:12], source[12:16], source[16:20], source[20:]))
    return uuid, tag, intervals.replace(",", ":")


def set_of(lines):
    """The set of lines of GTIDs, as MySQL writes it, and MariaDB's GTIDs."""
    maria = [line for line in lines if " " not in line]
    sources = []
    for uuid, group in itertools.groupby(map(source_of, lines[: len(lines) - len(maria)]), key=lambda found: found[0]):
        sources.append(":".join([uuid, *(f"{tag}:{intervals}" if tag else intervals for _, tag, intervals in group)]))
    return ",".join([*sources, *maria])


class Files(unittest.TestCase):
    """Tests with a folder for logs."""

    def setUp(self):
        folder = tempfile.TemporaryDirectory()
        self.addCleanup(folder.cleanup)
        self.folder = Path(folder.name)

    def file(self, content, name="mysql-bin.000001"):
        path = self.folder / name
        path.write_bytes(content)
        return path


class Counts(Files):
    def test_the_sample(self):
        every = frames(SAMPLE)
        found = binlog.stats(self.file(SAMPLE))
        self.assertEqual((found.events, found.bytes, found.damaged), (len(every), sum(map(len, every)), 0))
        times = [int.from_bytes(frame[:4], "little") for frame in every]
        self.assertEqual((found.first, found.last), (times[0], times[-1]))
        for name, counts in found.types.items():
            sizes = [len(frame) for frame in every if frame[4] == binlog.EventType[name]]
            self.assertEqual((counts.events, counts.bytes), (len(sizes), sum(sizes)))
        self.assertEqual(sum(counts.events for counts in found.types.values()), len(every))

    def test_damage_and_unknown_types(self):
        unknown = samples.frame(200, b"data", 0)
        found = binlog.stats(self.file(MAGIC + unknown + UNDERSIZED))
        self.assertEqual((found.events, found.bytes, found.damaged), (1, len(unknown), 1))
        self.assertEqual(found.types, {"200": binlog.TypeStats(1, len(unknown))})

    def test_marias_types(self):
        log = next(maria_events.logs())
        every = [json.loads(line) for line in log.lines.splitlines()]
        found = binlog.stats(self.file(log.content))
        names = collections.Counter(event["name"] for event in every)
        self.assertEqual({name: counts.events for name, counts in found.types.items()}, names)
        self.assertEqual([event.name for event in binlog.Log(log.content)], [event["name"] for event in every])
        own = {event["type"]: event["name"] for event in every if event["type"] >= 160}
        self.assertEqual(own, {kind.value: kind.name for kind in binlog.MariaEventType})

    def test_gtid_events_of_both_servers(self):
        frames_of_both = [samples.gtid(1), samples.maria_gtid(0, 1, 2)]
        wanted = {"GTID_EVENT": binlog.TypeStats(2, sum(map(len, frames_of_both)))}
        self.assertEqual(binlog.stats(self.file(MAGIC + b"".join(frames_of_both))).types, wanted)
        one, other = (binlog.stats(self.file(MAGIC + frame)) for frame in frames_of_both)
        self.assertEqual((one + other).types, wanted)

    def test_no_event(self):
        self.assertEqual(binlog.stats(self.file(MAGIC)), binlog.Stats())

    def test_sums(self):
        one, other = binlog.stats(self.file(SAMPLE)), binlog.stats(self.file(CHECKSUMMED))
        both = one + other
        self.assertEqual(one + binlog.Stats(), one)
        self.assertEqual(binlog.Stats() + one, one)
        self.assertEqual((both.events, both.bytes), (one.events + other.events, one.bytes + other.bytes))
        self.assertEqual((both.first, both.last), (min(one.first, other.first), max(one.last, other.last)))
        self.assertEqual(set(both.types), set(one.types) | set(other.types))
        self.assertEqual(sum(counts.bytes for counts in both.types.values()), both.bytes)

    def test_batches(self):
        log = binlog.Log(MAGIC + 1000 * samples.frame(16, b"12345678", 0))
        batches = list(log.batches())
        self.assertEqual([item for batch in batches for item in batch], [event._fields for event in log])
        self.assertEqual(len({item[0] for batch in batches for item in batch}), 1000)


class WholeLogs(Files):
    def test_checksums_are_right(self):
        every = frames(CHECKSUMMED)
        found = binlog.verify(self.file(CHECKSUMMED))
        self.assertEqual(found, binlog.Verification(len(every), sum(map(len, every)), len(every), ()))
        self.assertTrue(found.is_right)

    def test_a_wrong_checksum(self):
        start = len(MAGIC) + len(frames(CHECKSUMMED)[0])
        content = bytearray(CHECKSUMMED)
        content[start + 30] ^= 1
        event = frames(bytes(content))[1]
        computed = zlib.crc32(event[:-4]).to_bytes(4, "little").hex()
        text = f"the stored checksum of an event is not the computed one: stored {event[-4:].hex()}, computed {computed}"
        found = binlog.verify(self.file(content))
        self.assertEqual(found.damaged, (binlog.DamagedEvent(1, start, "ChecksumMismatch", text),))
        self.assertFalse(found.is_right)

    def test_logs_that_end_within_an_event(self):
        ends = list(itertools.accumulate(map(len, frames(CHECKSUMMED)), initial=len(MAGIC)))
        for size in range(ends[-4], ends[-1] + 1):
            rest = size - max(end for end in ends if end <= size)
            path = self.file(CHECKSUMMED[:size])
            found = binlog.verify(path)
            self.assertEqual((binlog.open(path).rest, found.rest, found.damaged), (rest, rest, ()))
            self.assertEqual(found.is_right, rest == 0)
        self.assertEqual(binlog.Log(CHECKSUMMED + UNDERSIZED).rest, 0)

    def test_compressed_transactions(self):
        """One that can't be read is an event, and a damaged one."""
        names = {error.name: error for error in map(binlog.BinlogError, range(256))}
        for has_checksums in (False, True):
            for body, errors in payload_lines.refused():
                content = payload_lines.log_of([payload_lines.XID, (payload_lines.PAYLOAD, body), payload_lines.XID], has_checksums)
                found = binlog.verify(self.file(content))
                every = [event for event in binlog.Log(content)]
                self.assertEqual((found.events, found.bytes, found.rest), (len(every), len(content) - len(MAGIC), 0))
                # The data of a table map, and of a ROTATE, that end within a field.
                refusals = [{"Event": "EndOfBody"}.get(error, error) for error in errors if error]
                wanted = [(2, every[2].position, name, str(names[name]).partition(": ")[2]) for name in refusals[:1]]
                self.assertEqual(list(found.damaged), wanted)
                self.assertEqual(found.is_right, not refusals)
        self.assertEqual(found.checksums, len(every))

    def test_gtids(self):
        every = frames(GTIDS)
        whole = MAGIC + b"".join(every[:4] + every[5:])
        self.assertEqual(binlog.gtid_set(self.file(whole)), f"{SOURCE}:1-2:5:test:1-5")
        untagged = MAGIC + b"".join(map(samples.gtid, (7, 1, 2)))
        self.assertEqual(binlog.gtid_set(self.file(untagged)), f"{SOURCE}:1-2:7")
        self.assertEqual(binlog.gtid_set(self.file(SAMPLE)), "")

    def test_a_damaged_log(self):
        found = binlog.verify(self.file(CHECKSUMMED + UNDERSIZED))
        index, position, name, text = found.damaged[0]
        self.assertEqual((index, position, name), (found.events, len(CHECKSUMMED), "EventSizeTooSmall"))
        self.assertEqual((len(found.damaged), found.bytes), (1, position - len(MAGIC)))

    def check_gtids(self, content):
        """The set is that of the model's lines, or the first of its errors is raised."""
        path = self.file(content)
        lines = gtid_model.expected(content)[0].decode().splitlines()
        wrong = re.fullmatch(r"(\d+) error E(\d+)", lines[0]) if lines else None
        if wrong is None:
            self.assertEqual(binlog.gtid_set(path), set_of(lines))
            return
        index, number = map(int, wrong.groups())
        with self.assertRaises(binlog.LogError) as raised:
            binlog.gtid_set(path)
        position = [item.position for item in binlog.open(path).items()][index]
        self.assertEqual((raised.exception.number, raised.exception.position), (number, position))

    def test_sets_are_those_of_the_model(self):
        for log in encoded_logs.logs():
            self.check_gtids(log.content)
        for events in (samples.gtid_events, samples.maria_gtid_events):
            every = frames(MAGIC + b"".join(events()))
            # Each event alone, and without those that can't be read.
            for frame in every:
                self.check_gtids(MAGIC + frame)
            right = [frame for frame in every if b" error E" not in gtid_model.expected(MAGIC + frame)[0]]
            self.check_gtids(MAGIC + b"".join(right))
            self.check_gtids(MAGIC + samples.maria_start() + b"".join(every))
        self.check_gtids(samples.gtids())

    def test_marias_gtids(self):
        sample = [samples.maria_start(), *list(samples.maria_gtid_events())[:5]]
        wanted = "0-4294967295-18446744073709551615,3-1-16,3-7-15,9-7-5,9-8-1"
        self.assertEqual(binlog.gtid_set(self.file(MAGIC + b"".join(sample))), wanted)

    def test_gtids_that_cannot_be_read(self):
        position = len(MAGIC) + sum(map(len, frames(GTIDS)[:4]))
        with self.assertRaises(binlog.LogError) as raised:
            binlog.gtid_set(self.file(GTIDS))
        self.assertEqual((raised.exception.name, raised.exception.position), ("BadGno", position))

    def test_no_log(self):
        for call in (binlog.stats, binlog.verify, binlog.gtid_set):
            with self.assertRaises(binlog.InvalidLog):
                call(self.file(b"abcd"))
            with self.assertRaises(OSError):
                call(self.folder / "missing")

    def test_errors_are_sent(self):
        rows_error = binlog.RowsError({"error": "Truncated", "row": 3}, 17)
        for error in (binlog.InvalidLog(2), binlog.LogError(3, 17), rows_error):
            sent = pickle.loads(pickle.dumps(error))
            self.assertEqual((type(sent), str(sent), sent.__dict__), (type(error), str(error), error.__dict__))


if __name__ == "__main__":
    unittest.main()
