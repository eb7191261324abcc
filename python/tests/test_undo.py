"""Tests of logs that undo others, over a program that answers what is written here."""

import itertools
import os
import pickle
import sys
import tempfile
import unittest
from datetime import datetime, timedelta, timezone
from pathlib import Path
from unittest import mock

import binlog
from binlog import _undo_library

# A program that writes its words to a file, prints what is written in others, and ends with the status there.
PROGRAM = """\
#!{python}
import sys
from pathlib import Path
folder = Path(__file__).parent
(folder / "words").write_text("\\0".join(sys.argv[1:]))
sys.stdout.write((folder / "stdout").read_text())
sys.stderr.buffer.write((folder / "stderr").read_bytes())
sys.exit(int((folder / "status").read_text()))
"""


class Undoing(unittest.TestCase):
    def setUp(self):
        folder = tempfile.TemporaryDirectory()
        self.addCleanup(folder.cleanup)
        self.folder = Path(folder.name)
        self.program = self.folder / "program"
        self.program.write_text(PROGRAM.format(python=sys.executable))
        self.program.chmod(0o755)
        self.answer("transactions 0, row events 0\n")

    def answer(self, stdout="", stderr="", status=0):
        for name, text in (("stdout", stdout), ("stderr", stderr), ("status", str(status))):
            (self.folder / name).write_text(text)

    def undo(self, files, *words, **options):
        return binlog.undo(files, *words, program=self.program, **options)

    def words(self):
        return (self.folder / "words").read_text().split("\0")

    def test_words(self):
        self.undo(["1.bin", Path("2.bin")], "out.bin", tables=["s.t", "s.u"], skip=["Statement"], start="2024-01-01T00:00:00", server_id=7)
        options = ["--table", "s.t", "--table", "s.u", "--skip", "Statement", "--start-datetime", "2024-01-01T00:00:00", "--server-id", "7"]
        self.assertEqual(self.words(), ["undo", *options, "--output", "out.bin", "1.bin", "2.bin"])
        here = timezone(timedelta(hours=2))
        self.undo("-1.bin", stop=datetime(2024, 1, 1, 12, tzinfo=here), include_gtids="0-1-2", exclude_gtids="0-1-3", foreign_key_checks=False, exclude_tables=["s.q"], start_position=4, stop_position=0, plain_old_temporal=True, one_transaction=True)
        options = ["--exclude-table", "s.q", "--start-position", "4", "--stop-position", "0", "--stop-datetime", "2024-01-01T10:00:00", "--include-gtids", "0-1-2", "--exclude-gtids", "0-1-3", "--plain-old-temporal", "--no-foreign-key-checks", "--one-transaction"]
        self.assertEqual(self.words(), ["undo", *options, "--dry-run", "./-1.bin"])

    def test_later_logs(self):
        line = "LaterChanges: s.t: its rows are changed behind those that are undone"
        self.answer("", f"binlog: 3.bin: event 5 at byte 678: {line}\n", 2)
        with self.assertRaises(binlog.UndoRefused) as raised:
            self.undo("1.bin", self.folder / "out", later=["-2.bin", "3.bin"])
        self.assertEqual(self.words()[:5], ["undo", "--later", "./-2.bin", "--later", "3.bin"])
        (refusal,) = raised.exception.refusals
        self.assertEqual((refusal.file, refusal.index, refusal.position, refusal.reason), ("3.bin", 5, 678, "LaterChanges"))
        self.answer("transactions 1, row events 1\n", f"binlog: skipped: 3.bin: event 5 at byte 678: {line}\n")
        self.assertTrue(self.undo("1.bin", later="3.bin", skip=["LaterChanges"]).skipped[0].skipped)
        with self.assertRaises(ValueError):
            binlog.undo([], later="3.bin", library=True)
        self.undo("1.bin", check_rows=True)
        self.assertEqual(self.words(), ["undo", "--check-rows", "--dry-run", "1.bin"])
        with self.assertRaises(ValueError):
            binlog.undo([], check_rows=True, library=True)

    def test_counts(self):
        skipped = "binlog: skipped: a: event 1.bin: event 12 at byte 3456: Statement: a statement can't be undone\n"
        self.answer("transactions 5, row events 8\n", skipped)
        refusal = binlog.Refusal("a: event 1.bin", 12, 3456, "Statement", "a statement can't be undone", True)
        self.assertEqual(self.undo(["a: event 1.bin"]), binlog.Undone(5, 8, (refusal,)))

    def test_tables(self):
        lines = ["table shop.orders 2 events 9 inserted 0 updated 1 deleted", "table s.a table 1 events 0 inserted 3 updated 0 deleted"]
        self.answer("transactions 2, row events 3\n" + "\n".join(lines) + "\n")
        tables = binlog.UndoneTable("shop.orders", 2, 9, 0, 1), binlog.UndoneTable("s.a table", 1, 0, 3, 0)
        self.assertEqual(self.undo("1.bin"), binlog.Undone(2, 3, (), tables))

    def test_names_with_signs_at_which_other_lines_end(self):
        for sign in "\u2028\x85\x0b\x0c\x1c\r":
            text = f"s.a{sign}b: its rows are changed behind those that are undone"
            (self.folder / "stderr").write_bytes(f"binlog: 1.bin: event 5 at byte 678: LaterChanges: {text}\n".encode())
            (self.folder / "status").write_text("2")
            with self.assertRaises(binlog.UndoRefused) as raised:
                self.undo("1.bin", later="1.bin")
            self.assertEqual([one.text for one in raised.exception.refusals], [text])

    def test_refusals(self):
        lines = [
            "binlog: 1.bin: event 12 at byte 3456: Image: the images of the rows lack columns",
            "binlog: skipped: 2.bin: event 0 at byte 4: Xa: a part of an XA transaction",
        ]
        self.answer("", "\n".join(lines) + "\n", 2)
        with self.assertRaises(binlog.UndoRefused) as raised:
            self.undo(["1.bin", "2.bin"], self.folder / "out")
        found = [(one.file, one.index, one.position, one.reason, one.skipped) for one in raised.exception.refusals]
        self.assertEqual(found, [("1.bin", 12, 3456, "Image", False), ("2.bin", 0, 4, "Xa", True)])
        self.assertEqual(str(raised.exception), "1.bin: event 12 at byte 3456: Image")
        self.assertEqual(pickle.loads(pickle.dumps(raised.exception)).refusals, raised.exception.refusals)

    def test_a_name_that_ends_a_line_elsewhere(self):
        name = "1\u2028.bin"
        self.answer("", f"binlog: {name}: event 12 at byte 3456: Image: the images of the rows lack columns\n", 2)
        with self.assertRaises(binlog.UndoRefused) as raised:
            self.undo(name, self.folder / "out")
        self.assertEqual([one.file for one in raised.exception.refusals], [name])

    def test_failures(self):
        self.answer("", "binlog: 1.bin: No such file or directory\n", 1)
        with self.assertRaisesRegex(binlog.ProgramError, "No such file"):
            self.undo("1.bin")
        (self.folder / "out").touch()
        with self.assertRaises(FileExistsError):
            self.undo("1.bin", self.folder / "out")
        with self.assertRaises(binlog.ProgramError):
            binlog.undo("1.bin", program=self.folder / "none")

    @unittest.skipUnless(os.environ.get("BINLOG_PROGRAM"), "no program is named")
    def test_the_program(self):
        log = Path(__file__).parents[2] / "tests/samples/checksummed.binlog"
        out = self.folder / "undo.bin"
        counted = binlog.undo(log, skip=["Statement", "Unfinished"])
        self.assertEqual(binlog.undo(log, out, skip=["Statement", "Unfinished"]), counted)
        self.assertTrue(out.exists())


@unittest.skipUnless(os.environ.get("BINLOG_LIBRARY"), "no library is named")
class UndoingInMemory(unittest.TestCase):
    """The library, over a sample that has nothing but statements."""

    LOG = Path(__file__).parents[2] / "tests/samples/checksummed.binlog"

    def setUp(self):
        folder = tempfile.TemporaryDirectory()
        self.addCleanup(folder.cleanup)
        self.out = Path(folder.name) / "undo.bin"

    def refusals(self, **options):
        with self.assertRaises(binlog.UndoRefused) as raised:
            binlog.undo_logs([self.LOG.read_bytes()] * 2, **options)
        return raised.exception.refusals

    def test_refusals(self):
        with self.assertRaises(binlog.UndoRefused) as raised:
            binlog.undo(self.LOG, self.out, library=True)
        first = raised.exception.refusals[0]
        self.assertEqual((first.file, first.index, first.position, first.reason), (str(self.LOG), 1, 126, "Statement"))
        self.assertFalse(self.out.exists())
        self.assertEqual({one.file for one in self.refusals()}, {"0", "1"})
        (straddles,) = (one for one in self.refusals(skip=["Statement", "Unfinished"], start_position=127) if not one.skipped)
        self.assertRegex(straddles.text, "^a position is within the transaction, which ends at byte [0-9]+$")

    def test_what_is_written(self):
        skip = ["Statement", "Unfinished"]
        undone = binlog.undo(self.LOG, self.out, skip=skip, library=True)
        self.assertEqual((undone.transactions, undone.row_events, self.out.read_bytes()), (0, 0, b"\xfebin"))
        self.assertTrue(all(one.skipped and one.reason in skip for one in undone.skipped))
        made = binlog.undo_logs(self.LOG.read_bytes(), skip=skip, one_transaction=True, foreign_key_checks=False, tables=["s.t"], exclude_tables=["s.u"])
        self.assertEqual(made.log, b"\xfebin")
        with self.assertRaises(FileExistsError):
            binlog.undo(self.LOG, self.out, skip=skip, library=True)

    def test_failures(self):
        for content in (b"abc", b"abcd"):
            with self.assertRaises(binlog.InvalidLog):
                binlog.undo_logs(content)
        positions = [{name: position} for name in ("start_position", "stop_position") for position in (-1, 2**64)]
        for options in ({"skip": ["Damaged"]}, {"skip": ["None"]}, {"tables": ["t"]}, {"exclude_tables": ["s."]}, *positions):
            with self.assertRaises(ValueError):
                binlog.undo_logs(b"", **options)
        with self.assertRaises(ValueError):
            binlog.undo(self.LOG, library=True, server_id=1)
        with self.assertRaisesRegex(ValueError, "no log is named"):
            binlog.undo([], self.out, library=True)
        self.assertFalse(self.out.exists())

    def test_want_of_memory(self):
        """Each call of the library in turn has no memory: none of them gives a refusal that isn't one."""
        undo = _undo_library.LIBRARY.binlog_undo
        for options in ({}, {"skip": ["Statement", "Unfinished"]}):
            for lacking in range(2 if not options else 3):
                numbers = itertools.count()

                def call(*words):
                    if next(numbers) != lacking:
                        return undo(*words)
                    words[-1].value = 12
                    return 0

                with self.subTest(options, lacking=lacking), mock.patch.object(_undo_library.LIBRARY, "binlog_undo", call):
                    with self.assertRaises(binlog.BinlogError) as raised:
                        binlog.undo_logs(self.LOG.read_bytes(), **options)
                    self.assertEqual(raised.exception.name, "Memory")

    @unittest.skipUnless(os.environ.get("BINLOG_PROGRAM"), "no program is named")
    def test_it_is_what_the_program_says(self):
        found = []
        for library in (False, True):
            with self.assertRaises(binlog.UndoRefused) as raised:
                binlog.undo([self.LOG, self.LOG], skip=["Unfinished"], library=library)
            found.append(raised.exception.refusals)
        self.assertEqual(*found)


if __name__ == "__main__":
    unittest.main()
