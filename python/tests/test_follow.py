"""Tests of logs that are followed, over a program that prints what is written here."""

import asyncio
import gc
import sys
import tempfile
import threading
import time
import unittest
from pathlib import Path

import binlog

# A program that writes its words to a file, prints what is written in another, and in a third one once that is there; what is in a fourth
# one it says. Then it waits for ever, or ends with a message.
PROGRAM = """\
#!{python}
import sys
import time
from pathlib import Path
folder = Path(__file__).parent
(folder / "words").write_text("\\0".join(sys.argv[1:]))
sys.stdout.write((folder / "stdout").read_text())
sys.stdout.flush()
while not (folder / "stderr").exists():
    if (folder / "later").exists():
        sys.stdout.write((folder / "later").read_text())
        sys.stdout.flush()
        (folder / "later").unlink()
    if (folder / "warning").exists():
        sys.stderr.write((folder / "warning").read_text())
        sys.stderr.flush()
        (folder / "warning").unlink()
    time.sleep(0.01)
sys.stderr.write((folder / "stderr").read_text())
sys.exit(2)
"""


class Following(unittest.TestCase):
    def setUp(self):
        folder = tempfile.TemporaryDirectory()
        self.addCleanup(folder.cleanup)
        self.folder = Path(folder.name)
        self.program = self.folder / "program"
        self.program.write_text(PROGRAM.format(python=sys.executable))
        self.program.chmod(0o755)
        (self.folder / "stdout").write_text('{"pos":4}\n{"pos":8}\n')

    def follow(self, path="log.1", **options):
        followed = binlog.follow(path, program=self.program, **options)
        self.addCleanup(followed.close)
        return followed

    def print_later(self, text):
        (self.folder / "written").write_text(text)
        (self.folder / "written").rename(self.folder / "later")

    def words(self, **options):
        with self.follow(**options) as rows:
            next(rows)
        return (self.folder / "words").read_text().split("\0")

    def test_words(self):
        self.assertEqual(self.words(), ["json", "--follow", "--compact", "log.1"])
        options = {"state": Path("STATE"), "sync": True, "compact": False, "tables": ["s.t"], "columns": ["c.tsv"]}
        wanted = ["json", "--follow", "--sync", "--state", "STATE", "--table", "s.t", "--columns", "c.tsv", "./-log"]
        self.assertEqual(self.words(path="-log", **options), wanted)
        one_file = ["json", "--follow", "--compact", "--columns", "c.tsv", "log.1"]
        for columns in ("c.tsv", Path("c.tsv")):
            self.assertEqual(self.words(columns=columns), one_file)

    def test_rows(self):
        with self.follow() as rows:
            self.assertEqual([next(rows), next(rows)], [{"pos": 4}, {"pos": 8}])
        with self.assertRaises(StopIteration):
            next(rows)

    def test_ends(self):
        """Where the program ends, what it said is raised; a line that is cut isn't given."""
        (self.folder / "stdout").write_text('{"pos":4}\n{"po')
        (self.folder / "stderr").write_text("binlog: log.1: behind byte 4: the checksum\n")
        rows = self.follow()
        self.assertEqual(next(rows), {"pos": 4})
        with self.assertRaisesRegex(binlog.ProgramError, "behind byte 4"):
            next(rows)
        with self.assertRaisesRegex(binlog.ProgramError, "missing: No such file"):
            binlog.follow("log.1", program=self.folder / "missing")

    def test_messages(self):
        """What the program says is there while it goes on."""
        (self.folder / "warning").write_text("binlog: log.2: the next file isn't there yet\n")
        with self.follow() as rows:
            end = time.monotonic() + 60
            while not rows.messages and time.monotonic() < end:
                time.sleep(0.01)
            self.assertEqual(rows.messages, ["binlog: log.2: the next file isn't there yet"])
            self.assertEqual([next(rows), next(rows)], [{"pos": 4}, {"pos": 8}])

    def test_async(self):
        """Other tasks go on while a row is waited for."""

        async def rows_beside_a_clock():
            found, ticks = [], 0

            async def collect():
                async for row in self.follow():
                    found.append(row)

            collecting = asyncio.ensure_future(collect())
            while len(found) < 2:
                await asyncio.sleep(0.01)
                ticks += 1
            for _ in range(10):
                await asyncio.sleep(0.01)
                ticks += 1
            collecting.cancel()
            return found, ticks

        found, ticks = asyncio.run(rows_beside_a_clock())
        self.assertEqual(found, [{"pos": 4}, {"pos": 8}])
        self.assertGreater(ticks, 10)

    def test_a_wait_that_is_cancelled(self):
        """What comes after its waiter was cancelled is the next row of whoever asks next, in order."""
        rows, found = self.follow(), []

        async def collect(count=None):
            async for row in rows:
                found.append(row["pos"])
                if len(found) == count:
                    return

        async def rows_behind_a_timeout():
            with self.assertRaises(asyncio.TimeoutError):
                await asyncio.wait_for(collect(), 1)
            self.print_later('{"pos":12}\n{"pos":16}\n')
            await asyncio.wait_for(collect(4), 60)
            with self.assertRaises(asyncio.TimeoutError):
                await asyncio.wait_for(collect(), 0.1)

        asyncio.run(rows_behind_a_timeout())
        self.print_later('{"pos":20}\n{"pos":24}\n')
        self.assertEqual([*found, next(rows)["pos"], next(rows)["pos"]], [4, 8, 12, 16, 20, 24])

    def test_two_tasks(self):
        """Each row goes to one of them."""

        async def collected():
            rows, found = self.follow(), []

            async def collect():
                async for row in rows:
                    found.append(row["pos"])

            tasks = [asyncio.ensure_future(collect()) for _ in range(2)]
            await asyncio.sleep(0.01)
            self.print_later("".join(f'{{"pos":{number}}}\n' for number in range(12, 100, 4)))
            while len(found) < 24:
                await asyncio.sleep(0.01)
            for task in tasks:
                task.cancel()
            return found

        found = asyncio.run(asyncio.wait_for(collected(), 60))
        self.assertEqual(sorted(found), list(range(4, 100, 4)))

    def test_it_is_closed_while_a_row_is_waited_for(self):
        rows, found = self.follow(), []

        def collect():
            try:
                found.extend([row["pos"] for row in rows])
            except Exception as error:
                found.append(error)

        waiting = threading.Thread(target=collect)
        waiting.start()
        waiting.join(0.5)
        rows.close()
        waiting.join(60)
        self.assertFalse(waiting.is_alive())
        self.assertEqual(found, [4, 8][: len(found)])

        async def closed_by_another_task():
            followed = self.follow()
            asyncio.get_running_loop().call_later(0.5, followed.close)
            return [row["pos"] async for row in followed]

        found = asyncio.run(asyncio.wait_for(closed_by_another_task(), 60))
        self.assertEqual(found, [4, 8][: len(found)])

    def test_the_program_ends_where_nothing_follows(self):
        rows = binlog.follow("log.1", program=self.program)
        running = rows._running
        next(rows)
        del rows
        gc.collect()
        self.assertIsNotNone(running.wait(60))


if __name__ == "__main__":
    unittest.main()
