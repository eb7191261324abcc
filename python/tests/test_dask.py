"""Tests of many logs on many machines. They are skipped where Dask isn't there."""

import importlib.util
import io
import json
import os
import subprocess
import sys
import tempfile
import unittest
import warnings
from dataclasses import asdict
from functools import partial
from pathlib import Path

REPOSITORY = Path(__file__).resolve().parents[2]
sys.path.insert(0, str(REPOSITORY / "tests"))

import binlog
import declared_columns
import json_model
import listing_model
import maria_events
import samples
import test_columns

HAS_DASK = all(importlib.util.find_spec(name) for name in ("dask", "distributed"))
if HAS_DASK:
    import binlog.dask

MAGIC = listing_model.FILE_HEADER
# A header that states 18 bytes.
UNDERSIZED = samples.HEADER.pack(1, 2, 3, 18, 4, 0)
ALL_TYPES = MAGIC + b"".join(samples.frame(number, b"", 0) for number in range(256))
LOGS = (samples.plain(), samples.checksummed(), samples.gtids(), MAGIC + UNDERSIZED, ALL_TYPES, MAGIC)
SOURCE = "abababab-abab-abab-abab-abababababab"


def members(log, left_out):
    """What the model prints of a log, without a member."""
    for line in json_model.own_lines(log).splitlines():
        found = json.loads(line)
        found.pop(left_out, None)
        yield found


def without_place(found):
    """An object as the line of JSON has it."""
    return {name: value for name, value in found.items() if name not in ("file", "position")}


@unittest.skipUnless(HAS_DASK, "no python3-dask and python3-distributed: many logs on many machines aren't tested")
class ManyLogs(unittest.TestCase):
    def setUp(self):
        folder = tempfile.TemporaryDirectory()
        self.addCleanup(folder.cleanup)
        self.folder = Path(folder.name)

    def files(self, contents):
        paths = [self.folder / f"mysql-bin.{number:06}" for number in range(len(contents))]
        for path, content in zip(paths, contents):
            path.write_bytes(content)
        return list(map(str, paths))

    def check_objects(self, found, paths, left_out):
        """Objects, in order: each log's are what the model prints, with the path and the position."""
        wanted = [(path, line) for path, log in zip(paths, LOGS) for line in members(log, left_out)]
        self.assertEqual(len(found), len(wanted))
        positions = {path: [item.position for item in binlog.open(path).items()] for path in paths}
        for given, (path, line) in zip(found, wanted):
            self.assertEqual(given, {"file": path, "position": positions[path][given["index"]], **line})

    def test_events(self):
        paths = self.files(LOGS)
        bag = binlog.dask.events(paths)
        self.assertEqual(bag.npartitions, len(paths))
        self.check_objects(bag.compute(scheduler="sync"), paths, "data")
        rotates = bag.filter(lambda event: event.get("name") == "ROTATE_EVENT").count().compute(scheduler="sync")
        self.assertEqual(rotates, sum(line.get("name") == "ROTATE_EVENT" for log in LOGS for line in members(log, "data")))

    def test_names_of_marias_events(self):
        """MariaDB's own types have names in its logs alone."""
        maria = next(maria_events.logs())
        paths = self.files([maria.content, ALL_TYPES])
        found = binlog.dask.events(paths).compute(scheduler="sync")
        wanted = [json.loads(line).get("name") for line in maria.lines.splitlines()]
        self.assertEqual([event.get("name") for event in found if event["file"] == paths[0]], wanted)
        self.assertTrue({kind.name for kind in binlog.MariaEventType} <= set(wanted))
        self.assertEqual({event.get("name") for event in found if event["file"] == paths[1] and event["index"] >= 160}, {None})

    def test_contents(self):
        paths = self.files(LOGS)
        self.check_objects(binlog.dask.events(paths, contents=True).compute(scheduler="sync"), paths, "nothing")

    def test_columns(self):
        paths = self.files([test_columns.LOG, test_columns.LOG, samples.plain()])
        columns = self.folder / "columns.tsv"
        columns.write_bytes(test_columns.FILE)
        declared = binlog.dask.events(paths, contents=True, columns=columns)
        # No process that reads a log needs the file.
        columns.unlink()
        for bag, row in (
            (declared, {"id": 2**32 - 1, "size": "large"}),
            (binlog.dask.events(paths, contents=True), {"@1": -1, "@2": 2}),
        ):
            rows = [(event["file"], event["rows"]) for event in bag.compute(scheduler="processes") if "rows" in event]
            self.assertEqual(rows, [(path, [{"after": row}]) for path in paths[:2] for _ in range(2)])

    def test_columns_of_random_logs(self):
        for name, text, content, expected in declared_columns.single_files(20):
            with self.subTest(name), warnings.catch_warnings():
                warnings.simplefilter("ignore", binlog.ColumnsWarning)
                (path,) = self.files([content])
                bag = binlog.dask.events(path, contents=True, columns=io.BytesIO(text))
                lines = [without_place(found) for found in bag.compute(scheduler="sync")]
                self.assertEqual(lines, list(map(json.loads, expected.lines.splitlines())))

    def test_columns_that_cannot_be_read(self):
        (path,) = self.files([test_columns.LOG])
        with self.assertRaises(binlog.InvalidColumns):
            binlog.dask.events(path, contents=True, columns=io.BytesIO(b"shop"))
        with self.assertRaises(OSError):
            binlog.dask.events(path, contents=True, columns=self.folder / "none.tsv")
        with self.assertRaises(ValueError):
            binlog.dask.events(path, columns=io.BytesIO(test_columns.FILE))

    def test_stats(self):
        paths = self.files(LOGS)
        found = binlog.dask.stats(map(Path, paths)).compute(scheduler="sync")
        self.assertEqual(found.files, {path: binlog.stats(path) for path in paths})
        self.assertEqual(found.total, sum(found.files.values(), binlog.Stats()))
        self.assertEqual(binlog.dask.stats([]).compute(scheduler="sync"), binlog.dask.AllStats({}, binlog.Stats()))
        one = binlog.dask.stats(paths[0]).compute(scheduler="sync")
        self.assertEqual(one.files, {paths[0]: one.total})

    def test_gtid_sets(self):
        paths = self.files([MAGIC + b"".join(map(samples.gtid, numbers)) for numbers in ((1, 2), (3, 5), ())])
        wanted = dict(zip(paths, (f"{SOURCE}:1-2", f"{SOURCE}:3:5", "")))
        self.assertEqual(binlog.dask.gtid_sets(paths).compute(scheduler="sync"), wanted)

    def test_what_cannot_be_read(self):
        paths = self.files([LOGS[0], b"abcd"])
        contents = partial(binlog.dask.events, contents=True)
        for wanted in (binlog.dask.stats, binlog.dask.events, binlog.dask.gtid_sets, contents):
            with self.assertRaises(binlog.InvalidLog):
                wanted(paths[1:]).compute(scheduler="sync")
        with self.assertRaises(OSError):
            binlog.dask.stats([paths[0], "missing"]).compute(scheduler="sync")


@unittest.skipUnless(HAS_DASK, "no python3-dask and python3-distributed: many logs on many machines aren't tested")
class Fleet(unittest.TestCase):
    """The example: in one process, and in four of which one is lost."""

    def run_fleet(self, *words):
        command = [sys.executable, REPOSITORY / "examples/fleet.py", *words]
        finished = subprocess.run(command, capture_output=True, text=True, timeout=1200)
        self.assertEqual(finished.returncode, 0, finished.stderr)
        return finished

    def test_a_lost_process(self):
        with tempfile.TemporaryDirectory() as folder:
            paths = [f"{folder}/mysql-bin.{number:06}" for number in range(32)]
            event = samples.frame(16, b"12345678", 0)
            for number, path in enumerate(paths):
                # Four logs, which have eight names each.
                if number < 4:
                    Path(path).write_bytes(MAGIC + (100_000 + number) * event + samples.gtid(number + 1))
                else:
                    os.link(paths[number % 4], path)
            words = ["--gtids", *paths]
            in_one = self.run_fleet("--workers", "0", *words)
            in_four = self.run_fleet("--workers", "4", "--lose-worker", *words)
        self.assertRegex(in_four.stderr, "(?m)^killed the process")
        self.assertEqual(in_four.stdout, in_one.stdout)
        *each, total = map(json.loads, in_one.stdout.splitlines())
        self.assertEqual([found["file"] for found in each], paths)
        self.assertEqual(total["events"], 8 * sum(100_001 + number for number in range(4)))
        self.assertEqual(total["types"]["GTID_EVENT"], asdict(binlog.TypeStats(32, 32 * len(samples.gtid(1)))))
        self.assertEqual([found["gtids"] for found in each], [f"{SOURCE}:{number % 4 + 1}" for number in range(32)])


if __name__ == "__main__":
    unittest.main()
