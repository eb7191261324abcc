"""Tests of the page about logs, over a program that answers what is written here. They are skipped where matplotlib isn't there."""

import contextlib
import html
import importlib.util
import io
import json
import os
import subprocess
import sys
import tempfile
import unittest
from dataclasses import replace
from pathlib import Path
from unittest import mock
from xml.etree import ElementTree

REPOSITORY = Path(__file__).resolve().parents[2]
sys.path.insert(0, str(REPOSITORY / "tests"))

import binlog
from binlog import _program, _statistics
from page_cells import Cells

HAS_MATPLOTLIB = importlib.util.find_spec("matplotlib") is not None
HAS_DASK = importlib.util.find_spec("dask") is not None
if HAS_MATPLOTLIB:
    from binlog import _charts, report
if HAS_DASK:
    import binlog.dask

# A program that prints the answer for its words, and ends with its status.
PROGRAM = """#!{python}
import json, os, sys
words = [os.path.basename(word) if os.path.exists(word) else word for word in sys.argv[1:]]
answers = json.load(open({answers!r}))
answer = answers.get(" ".join(words), {{"said": "no answer for " + " ".join(words), "status": 64}})
lines = [json.dumps(line, ensure_ascii=False) if isinstance(line, dict) else line for line in answer.get("lines", [])]
sys.stdout.buffer.write("".join(line + "\\n" for line in lines).encode())
sys.stderr.write(answer.get("said", ""))
sys.exit(answer.get("status", 0))
"""

ORDERS, STRANGE, RAW, STAR = ("shop", "orders"), ("a.b", '<i>"&'), ({"hex": "ff"}, "t"), ("shop", "o*")
SID = 32 * "a"
MISMATCH = "binlog: b: event 1 at byte 120: checksum mismatch: stored 00000000, computed 00000001\n"
LEFT_OUT = "binlog: events left out that don't tell which tables they change: 3\n"


def changes(events, size, rows, unread=0):
    return {"events": events, "bytes": size, **dict(zip(("inserted", "updated", "deleted"), rows)), "unread_events": unread}


def table(names, counts, transactions, times):
    own = {"database": names[0], "table": names[1], **counts, "transactions": transactions}
    return own | dict(zip(("first_time", "last_time"), times))


def tables(transactions, unknown, *rows):
    return [{"tables": len(rows), "transactions": transactions, **dict(zip(("unknown_events", "unknown_bytes"), unknown))}, *rows]


def times(seconds, *rows):
    """Lines by time: of each interval its time, events, bytes, transactions, and rows."""
    own = [{"time": time, "events": events, "bytes": size, "transactions": count, **changes(events, size, rows)} for time, events, size, count, rows in rows]
    return [{"intervals": len(rows), "seconds": seconds}, *own]


def transaction(gtid, position, end, first, last, counts, *tables):
    own = [{"database": names[0], "table": names[1], **own_counts} for names, own_counts in tables]
    places = {"gtid": gtid, "position": position, "end_position": end, "first_time": first, "last_time": last, "duration": last - first}
    return {**places, **counts, "tables": own}


def types(*rows):
    """Lines by type: of each type its name and its events, and how many of them are inside."""
    names = ({"type": number, "name": name} for number, name, _, _ in rows)
    own = [{**names_of, "events": events, "bytes": 50 * events} for names_of, (_, _, events, _) in zip(names, rows) if events]
    inside = [{"type": number, "name": name, "inside_events": count, "inside_bytes": 40 * count} for number, name, _, count in rows if count]
    head = {"events": sum(row[2] for row in rows), "bytes": 50 * sum(row[2] for row in rows), "damaged": 0, "transactions": 0}
    return [head, *own, {"inside_events": len(inside), "inside_bytes": 0, "inside_damaged": 0}, *inside]


def transactions(count, sizes, *rows):
    """Lines by transaction; `sizes` are how many have so many binary digits."""
    return [{"transactions": count, "sizes": [sizes.get(digits, 0) for digits in range(65)]}, *rows]


FIRST = transaction(f"{SID}:1", 120, 1020, 7200, 7205, changes(4, 900, (3, 1, 0)), (ORDERS, changes(2, 300, (3, 1, 0))))
SECOND = transaction("0-1-7", 1020, 1120, 7260, 7260, changes(2, 100, (0, 0, 0)))
THIRD = transaction(
    None,
    300,
    1000,
    7290,
    7291,
    changes(3, 700, (0, 2, 9), 1),
    (RAW, changes(1, 90, (0, 0, 0), 1)),
    (STRANGE, changes(2, 400, (0, 2, 9))),
    (ORDERS, changes(1, 80, (0, 0, 1))),
    (STAR, changes(1, 1, (0, 0, 1))),
)
FOURTH = transaction(f"{SID}:tag:5", None, 1100, 7291, 7291, changes(1, 50, (0, 0, 0)))

# What the program says of two logs, each alone and both.
ANSWERS = {
    "stats --by table --json a": tables(2, (0, 0), table(ORDERS, changes(2, 300, (3, 1, 0)), 1, (7201, 7204))),
    "stats --by table --json b": tables(
        1,
        (1, 50),
        table(STRANGE, changes(2, 400, (0, 2, 9)), 1, (7290, 7291)),
        table(ORDERS, changes(1, 150, (5, 0, 0)), 1, (7289, 7289)),
        table(RAW, changes(1, 90, (0, 0, 0), 1), 1, (7291, 7291)),
        table(STAR, changes(1, 10, (1, 0, 0)), 0, (7280, 7280)),
    ),
    "stats --by table --json a b": tables(
        3,
        (1, 50),
        table(ORDERS, changes(3, 450, (8, 1, 0)), 2, (7201, 7289)),
        table(STRANGE, changes(2, 400, (0, 2, 9)), 1, (7290, 7291)),
        table(RAW, changes(1, 90, (0, 0, 0), 1), 1, (7291, 7291)),
        table(STAR, changes(1, 10, (1, 0, 0)), 0, (7280, 7280)),
    ),
    "stats --by time=3600s --json a": times(3600, (7200, 6, 1000, 2, (3, 1, 0))),
    "stats --by time=3600s --json b": times(3600, (7200, 7, 900, 1, (6, 2, 9))),
    "stats --by time=3600s --json a b": times(3600, (7200, 13, 1900, 3, (9, 3, 9))),
    "stats --by time=30s --json a": times(30, (7200, 4, 900, 1, (3, 1, 0)), (7260, 2, 100, 1, (0, 0, 0))),
    "stats --by time=30s --json b": times(30, (7260, 2, 110, 0, (6, 0, 0)), (7290, 5, 790, 1, (0, 2, 9))),
    "stats --by time=30s --json a b": times(
        30, (7200, 4, 900, 1, (3, 1, 0)), (7260, 4, 210, 1, (6, 0, 0)), (7290, 5, 790, 1, (0, 2, 9))
    ),
    "stats --by time=30s --json --table shop.orders a": times(30, (7200, 2, 300, 0, (3, 1, 0))),
    "stats --by time=30s --json --table shop.orders b": times(30, (7260, 1, 150, 0, (5, 0, 0))),
    "stats --by time=30s --json --table shop.orders a b": times(30, (7200, 2, 300, 0, (3, 1, 0)), (7260, 1, 150, 0, (5, 0, 0))),
    "stats --json --table *.* a": types((19, "TABLE_MAP_EVENT", 4, 2), (40, "TRANSACTION_PAYLOAD_EVENT", 2, 0)),
    "stats --json --table *.* b": types((19, "TABLE_MAP_EVENT", 3, 0)),
    "stats --json --table *.* a b": types((19, "TABLE_MAP_EVENT", 7, 2), (40, "TRANSACTION_PAYLOAD_EVENT", 2, 0)),
    "stats --by transaction --top 20 --json a": transactions(2, {7: 1, 10: 1}, FIRST, SECOND),
    "stats --by transaction --top 20 --json b": transactions(2, {6: 1, 10: 1}, THIRD, FOURTH),
    "gtids a": [f"{SID} 1-2 gaps -", f"{SID}:tag 7 gaps 1-6", "0-1-7", "1-1-3"],
    "gtids b": ["3 error E18", f"{SID} 5-6,9 gaps 1-4,7-8", "0-1-6", "0-2-1"],
    "gtids a b": ["3 error E18", f"{SID} 1-2,5-6,9 gaps 3-4,7-8", f"{SID}:tag 7 gaps 1-6", "0-1-6", "0-2-1", "1-1-3"],
    "verify a": ["a: 6 events, 1000 bytes, 6 checksums right, 0 events damaged"],
    "verify b": ["b: 6 events, 800 bytes, 6 checksums right, 1 events damaged"],
    "verify a b": ["a: 6 events, 1000 bytes, 6 checksums right, 0 events damaged", "b: 6 events, 800 bytes, 6 checksums right, 1 events damaged"],
}
DAMAGED = ("verify b", "verify a b", "gtids b", "gtids a b")
UNNAMED = ("stats --json --table *.* b", "stats --json --table *.* a b")

EMPTY = {
    "stats --by table --json a": tables(0, (0, 0)),
    "stats --by time=3600s --json a": times(3600),
    "stats --by time=1s --json a": times(1),
    "stats --by transaction --top 20 --json a": transactions(0, {}),
    "stats --json --table *.* a": types(),
    "gtids a": [],
    "verify a": ["a: 0 events, 0 bytes, 0 checksums right, 0 events damaged"],
}


class WithProgram(unittest.TestCase):
    def setUp(self):
        folder = tempfile.TemporaryDirectory()
        self.addCleanup(folder.cleanup)
        self.folder = Path(folder.name)
        self.files = [str(self.folder / name) for name in "ab"]
        for path in self.files:
            Path(path).write_bytes(b"")
        self.program = self.folder / "program"
        answers = self.folder / "answers.json"
        self.program.write_text(PROGRAM.format(python=sys.executable, answers=str(answers)))
        self.program.chmod(0o755)
        self.answer(ANSWERS)

    def answer(self, lines, **others):
        answers = {words: {"lines": of} for words, of in lines.items()}
        for words in filter(answers.get, DAMAGED):
            answers[words] |= {"said": MISMATCH, "status": 2}
        for words in filter(answers.get, UNNAMED):
            answers[words] |= {"said": LEFT_OUT}
        (self.folder / "answers.json").write_text(json.dumps(answers | others))

    def report(self, *parts):
        return _statistics.report(parts or [self.files], self.program)


class Answers(WithProgram):
    def test_several_logs_are_as_one(self):
        """What is said of logs one by one, put together, is what is said of all of them at once."""
        together, apart = self.report(), self.report(*([path] for path in self.files))
        self.assertEqual(apart, together)

    @unittest.skipUnless(HAS_DASK, "no python3-dask: many logs on many machines aren't tested")
    def test_many_logs(self):
        found = binlog.dask.report(self.files, program=self.program).compute(scheduler="processes")
        self.assertEqual(found, self.report())
        given = binlog.dask.report(map(Path, self.files), program=self.program, seconds=30).compute(scheduler="sync")
        self.assertEqual(given, found)

    def test_tables_that_can_be_asked_for_alone(self):
        self.assertEqual([str(name) for name in self.report().stacked], ["shop.orders"])
        for database in (b"a.b", b"a*", b"-a", b"", b"a\0", b"\xff"):
            self.assertIsNone(_statistics.Name(database, b"t").pattern, database)
        for table in (b"t?", b"", b"\0", b"\xed\xa0\x80"):
            self.assertIsNone(_statistics.Name(b"a", table).pattern, table)
        for text in ("_a.t", "a-b.t.u", "a\nb.-t", "dä.t\u2028"):
            database, _, table = text.encode().partition(b".")
            self.assertEqual(_statistics.Name(database, table).pattern, text.encode())

    def test_names_that_end_lines_elsewhere(self):
        name = "a\x85b\u2028c\u2029d"
        self.answer({"stats --by table --json a": tables(1, (0, 0), table(("shop", name), changes(2, 300, (3, 1, 0)), 1, (7201, 7204)))})
        (row,) = _statistics.tables(self.program, self.files[:1]).rows
        self.assertEqual(str(row.name), f"shop.{name}")

    def test_what_isnt_told_apart_by_table(self):
        self.assertEqual(self.report().untold, _statistics.Untold(3, 2))

    @unittest.skipUnless(HAS_MATPLOTLIB, "no python3-matplotlib: no page about logs is tested")
    def test_one_log(self):
        log = self.files[0]
        for files in (log, Path(log)):
            self.assertEqual(report.read(files, program=self.program), self.report([log]))

    def test_intervals(self):
        for hours, wanted in ((1, 30), (4, 120), (25, 600), (24 * 200, 86400), (24 * 4000, 604800)):
            rows = [_statistics.Interval(time=time, transactions=1) for time in (3600, 3600 * hours)]
            self.assertEqual(_statistics.interval(_statistics.Times(3600, rows)), wanted)

    def test_times_without_changes(self):
        """What begins and ends a log may be of other times than its changes."""
        interval = _statistics.Interval
        rows = [interval(time=0, events=1), interval(time=7200, inserted=1), interval(time=7205, events=1), interval(time=7210, transactions=1), interval(time=10**9)]
        self.assertEqual(_statistics.Times(5, rows).busy.rows, rows[1:4])
        self.assertEqual(_statistics.Times(5, rows[:1]).busy.rows, rows[:1])
        self.assertEqual(_statistics.interval(_statistics.Times(3600, rows)), 30)

    def test_the_program(self):
        with mock.patch.dict(os.environ, {"BINLOG_PROGRAM": "named", "PATH": str(self.folder)}):
            self.assertEqual(_program.program("stated"), "stated")
            self.assertEqual(_program.program(), "named")
            del os.environ["BINLOG_PROGRAM"]
            with self.assertRaises(_program.ProgramError):
                _program.program()
            (self.folder / "binlog").symlink_to(self.program)
            self.assertEqual(_program.program(), str(self.folder / "binlog"))

    def test_refusals(self):
        said = "binlog: the logs have more than 65536 tables\n"
        self.answer(ANSWERS, **{"stats --by table --json a b": {"said": said, "status": 3}})
        with self.assertRaisesRegex(_program.ProgramError, said.strip()):
            self.report()
        with self.assertRaises(_program.ProgramError):
            _statistics.report([self.files], self.folder / "none")
        for lines in ([], ["tables 0"]):
            self.answer(ANSWERS | {"stats --by table --json a b": lines})
            with self.assertRaisesRegex(_program.ProgramError, "lines of JSON"):
                self.report()


@unittest.skipUnless(HAS_MATPLOTLIB, "no python3-matplotlib: no page about logs is tested")
class Page(WithProgram):
    def test_tables(self):
        cells = Cells(report.page(self.report()))
        rows = cells.rows["tables"][1:]
        self.assertEqual(rows[0], ["shop.orders", "8", "1", "0", "3", "450", "2", "1970-01-01 02:00:01", "1970-01-01 02:01:29"])
        self.assertEqual([row[0] for row in rows], ["shop.orders", 'a.b.<i>"&', "\ufffd.t", "shop.o*"])
        unread = "The rows of 1 event can't be read, and aren't counted."
        unknown = "1 event of 50 bytes may have rows of tables that aren't known."
        unnamed = "3 events may change tables without saying which, as statements do."
        self.assertIn(f"{unread} {unknown} {unnamed}", cells.texts)
        self.assertIn(unread, cells.texts)
        self.assertIn("Of 2 compressed transactions all bytes count for each table inside.", cells.texts)
        first, last = self.files
        self.assertEqual(
            [row[:9] for row in cells.rows["largest"][1:]],
            [
                [f"{SID}:1", first, "120", "900", "4", "3", "1", "0", "1970-01-01 02:00:00"],
                ["", last, "300", "700", "3", "0", "2", "9", "1970-01-01 02:01:30"],
                ["0-1-7", first, "1020", "100", "2", "0", "0", "0", "1970-01-01 02:01:00"],
                [f"{SID}:tag:5", last, "", "50", "1", "0", "0", "0", "1970-01-01 02:01:31"],
            ],
        )
        many = 'a.b.<i>"&: 11 rows, 400 bytes; \ufffd.t: 0 rows, 90 bytes; shop.orders: 1 row, 80 bytes; 1 more table'
        self.assertEqual([row[10] for row in cells.rows["largest"][1:]], ["shop.orders: 4 rows, 300 bytes", many, "", ""])
        self.assertEqual(cells.rows["gtids"][1:][:3], [[SID, "1-2,5-6,9", "3-4,7-8"], [f"{SID}:tag", "7", "1-6"], ["0-1-6", "", ""]])
        self.assertIn("2 sources with gaps. GTIDs of 1 event can't be read.", cells.texts)
        self.assertIn("2 files, 4 tables, 4 transactions; 1970-01-01 02:00:00 to 1970-01-01 02:02:00 UTC", cells.texts)

    def test_one_log(self):
        for file in (self.files[0], Path(self.files[0])):
            self.assertEqual(report.read(file, program=self.program), _statistics.report([self.files[:1]], self.program))

    def test_damage_is_at_the_top(self):
        cells = Cells(report.page(self.report()))
        self.assertEqual(cells.texts.index("Damage") + 1, cells.texts.index(MISMATCH.strip()))
        self.assertLess(cells.names.index("damage"), cells.names.index("bytes"))
        self.assertNotIn("Damage", Cells(report.page(_statistics.report([self.files[:1]], self.program))).texts)

    def test_names_of_files_that_are_not_utf_8(self):
        named = self.report()
        named.files = ["log\udcff.1", "b"]
        named.transactions.rows[0].file = named.files[0]
        out = self.folder / "page"
        report.write(named, out)
        cells = Cells(out.read_text(encoding="utf-8"))
        self.assertIn("log\ufffd.1, b", cells.texts)
        self.assertEqual(cells.rows["largest"][1][1], "log\ufffd.1")

    def test_pictures(self):
        page = report.page(self.report())
        cells = Cells(page)
        for name in ("bytes", "transactions", "rows", "tables", "sizes"):
            self.assertIn(f"chart-{name}", cells.names)
        # No name twice, nothing from elsewhere, no script.
        self.assertEqual(len(set(cells.names)), len(cells.names))
        self.assertNotRegex(page, r'(?i)<script|src=|href="(?!#)|url\((?!#)|@import')
        for picture in page.split("<svg ")[1:]:
            ElementTree.fromstring("<svg " + picture.split("</svg>")[0] + "</svg>")
        self.assertEqual(report.page(self.report()), page)

    def test_heights(self):
        """The parts of the charts over time: bytes of all events, of each table, and the others' zero where nothing was."""
        found = self.report()
        axes = _charts.bytes_over_time(found).axes[0]
        tops = [sorted({round(y) for path in part.get_paths() for _, y in path.vertices}) for part in axes.collections]
        self.assertEqual(tops, [[0, 210, 790, 900], [0, 150, 300]])
        bars = [bar.get_width() for bar in _charts.changed_tables(found).axes[0].patches]
        self.assertEqual(bars, [8, 0, 0, 1, 1, 2, 0, 0, 0, 9, 0, 0])
        bars = [(bar.get_x(), bar.get_height()) for bar in _charts.sizes(found.transactions).axes[0].patches]
        self.assertEqual(bars, [(5, 1), (6, 1), (9, 2)])

    def legend(self, *names):
        """The legend of the bytes of these tables, and the picture."""
        found = self.report()
        figure = _charts.bytes_over_time(replace(found, stacked={name: found.times for name in names}))
        texts = [text.get_text() for text in figure.axes[0].get_legend().get_texts()]
        return texts, html.unescape(_charts.svg(figure, "bytes"))

    def test_names(self):
        """No name is left out or changed, and those that begin alike differ."""
        names = [_statistics.Name(*parts) for parts in ((b"_audit", b"log"), (b"d", b'x id="y" url(#z)'))]
        texts, picture = self.legend(*names)
        self.assertEqual(texts, ['d.x id="y" url(#z)', "_audit.log", "all others"])
        for text in texts:
            self.assertIn(f">{text}</text>", picture)
        alike = [_charts._short(f"shop_production_eu.orders_2024_{month}") for month in ("01", "02")]
        self.assertEqual(alike, ["shop_product…rders_2024_01", "shop_product…rders_2024_02"])

    def test_rows_that_arent_read(self):
        found = self.report()
        found.times.rows[0].unread_events = 2
        said = "The rows of 2 events can't be read, or are of tables that aren't known, and aren't counted."
        self.assertIn(said, Cells(report.page(found)).texts)

    def test_nothing(self):
        self.answer(EMPTY)
        cells = Cells(report.page(_statistics.report([self.files[:1]], self.program)))
        self.assertEqual(cells.texts.count("Nothing to show."), 5)
        self.assertIn("No transaction begins with the event of a GTID.", cells.texts)
        self.assertIn("1 file, 0 tables, 0 transactions; no event", cells.texts)

    def run_main(self, *words):
        with contextlib.redirect_stderr(io.StringIO()) as said:
            try:
                return report.main(list(words)), said.getvalue()
            except SystemExit as ended:
                return ended.code, said.getvalue()

    def test_the_command(self):
        out, folder = self.folder / "report.html", self.folder / "pictures/of/logs"
        words = ["--program", str(self.program), "-o", str(out)]
        self.assertEqual(self.run_main(*words, "--png", str(folder), *self.files), (2, ""))
        self.assertEqual(out.read_text(), report.page(self.report()))
        self.assertEqual(sorted(path.name for path in folder.iterdir()), ["bytes.png", "rows.png", "sizes.png", "tables.png", "transactions.png"])
        for path in folder.iterdir():
            self.assertEqual(path.read_bytes()[:8], b"\x89PNG\r\n\x1a\n")
        self.assertEqual(self.run_main(*words, "--interval", "30s", self.files[0]), (0, ""))
        self.assertEqual(self.run_main(*words, "--interval", "2h", self.files[0])[0], 3)
        for wrong in (["--interval", "1d"], ["--interval", "0s"], ["--none"]):
            self.assertEqual(self.run_main(*words, *wrong, self.files[0])[0], 64)
        self.assertEqual(self.run_main("-o", str(out))[0], 64)
        self.assertEqual(self.run_main("--program", str(self.folder / "none"), "-o", str(out), self.files[0])[0], 3)
        self.assertEqual(self.run_main("--program", str(self.program), "-o", str(self.folder / "none/page"), self.files[0])[0], 3)

    def test_logs_stay(self):
        """No page is written over a file that it is about, or another log."""
        other, link = self.folder / "other", self.folder / "link"
        link.symlink_to(self.files[0])
        for path, content in ((Path(self.files[0]), b"read"), (link, b"read"), (other, b"\xfebin"), (other, b"\xfdbin\1")):
            path.write_bytes(content)
            status, said = self.run_main("--program", str(self.program), "-o", str(path), self.files[0])
            self.assertEqual((status, said), (3, f"binlog.report: {path}: a log isn't written over\n"))
            with self.assertRaises(FileExistsError):
                report.write(self.report(), path)
            self.assertEqual(path.read_bytes(), content)
        other.write_bytes(b"an older page")
        self.assertEqual(self.run_main("--program", str(self.program), "-o", str(other), self.files[0]), (0, ""))

    def test_without_matplotlib(self):
        words = ["--program", str(self.program), "-o", str(self.folder / "page"), self.files[0]]
        script = f"import sys; sys.modules['matplotlib'] = None; from binlog import report; sys.exit(report.main({words!r}))"
        environment = os.environ | {"PYTHONPATH": str(REPOSITORY / "python"), "PYTHONDONTWRITEBYTECODE": "1"}
        ran = subprocess.run([sys.executable, "-c", script], env=environment, capture_output=True, text=True)
        self.assertEqual(ran.returncode, 3)
        self.assertRegex(ran.stderr, r"^binlog\.report: .*matplotlib.*\n$")


if __name__ == "__main__":
    unittest.main()
