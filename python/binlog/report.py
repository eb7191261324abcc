"""A page about binary logs: which tables are written, by how many rows and bytes, when, and by which transactions.

    python3 -m binlog.report mysql-bin.000001 mysql-bin.000002 -o report.html

It shows what the program `binlog` says of the logs, and counts nothing itself. Needs matplotlib.
"""

import argparse
import html
import importlib
import os
import re
import sys
from collections.abc import Iterable, Sequence
from datetime import datetime, timezone
from pathlib import Path
from typing import Optional, Union

from . import _program, _statistics
from ._program import ProgramError
from ._statistics import Changes, Report, Transaction

__all__ = ["ProgramError", "Report", "page", "read", "write", "write_pictures"]

_Path = Union[str, "os.PathLike[str]"]
Files = Union[_Path, Iterable[_Path]]

# What a cell of a table has.
_Value = Union[str, int]

_SHOWN_TABLES = 20
# How many tables of a transaction.
_TABLES_OF_ONE = 3
# The first bytes of a log, and of one that MySQL encrypted.
_FILE_HEADERS = (b"\xfebin", b"\xfdbin")
_FAILED, _USAGE = 3, 64

_CSS = """
body { color: #1d2430; font: 15px/1.45 system-ui, sans-serif; margin: 0 auto; max-width: 72rem; padding: 1.5rem; background: white }
h1 { font-size: 1.5rem; margin: 0 0 .3rem } h2 { font-size: 1.1rem; margin: 2rem 0 .4rem }
p { margin: .3rem 0 } .quiet { color: #5d6675 }
figure { margin: 0 } figure svg { display: block; height: auto; width: 100% }
table { border-collapse: collapse; font-size: .84rem; width: 100% }
th, td { border-bottom: 1px solid #e6e8ec; padding: .22rem .5rem; text-align: left; vertical-align: top }
th { color: #5d6675; font-weight: 600 } td.number, th.number { text-align: right; font-variant-numeric: tabular-nums }
td { white-space: nowrap } td:first-child { min-width: 11rem } #gtids td { min-width: 14rem }
td:first-child, #gtids td { overflow-wrap: anywhere; white-space: normal }
.damage { background: #fdecea; border-left: 4px solid #c62828; padding: .6rem 1rem } .damage h2 { margin: 0 }
.well { border-left: 4px solid #009e73; padding: .1rem 1rem }
.wide { overflow-x: auto }
"""


def read(files: Files, *, program: Optional[_statistics.Path] = None, seconds: Optional[int] = None) -> Report:
    """What the program says of logs, or of one.

    program: the program `binlog`; if not given, the one that the variable BINLOG_PROGRAM names, or the one that the system finds.
    seconds: the length of an interval of time; if not given, one of which some 200 cover the logs at most, and no longer than a week.

    Raises ProgramError where the program isn't found, or fails.
    """
    return _statistics.report([list(map(os.fspath, _statistics._listed(files)))], program, seconds)


# ---- parts of the page


def _time(seconds: Optional[int]) -> str:
    """A time in UTC."""
    return "" if seconds is None else datetime.fromtimestamp(seconds, timezone.utc).strftime("%Y-%m-%d %H:%M:%S")


def _count(number: int) -> str:
    return f"{number:,}"


def _cell(value: _Value, tag: str = "td", is_number: bool = False) -> str:
    text = html.escape(_count(value) if isinstance(value, int) else value)
    return f'<{tag} class="number">{text}</{tag}>' if is_number else f"<{tag}>{text}</{tag}>"


def _table(heads: Sequence[str], rows: Sequence[Sequence[_Value]]) -> str:
    """A table, in which columns of numbers are to the right."""
    is_number = [bool(rows) and isinstance(value, int) for value in rows[0]] if rows else []
    head = "".join(_cell(name, "th", of) for name, of in zip(heads, is_number))
    body = "\n".join("<tr>" + "".join(_cell(value, "td", of) for value, of in zip(row, is_number)) + "</tr>" for row in rows)
    return f'<div class="wide"><table>\n<thead><tr>{head}</tr></thead>\n<tbody>\n{body}\n</tbody>\n</table></div>'


def _section(name: str, title: str, *parts: str) -> str:
    return "\n".join([f'<section id="{name}">', f"<h2>{html.escape(title)}</h2>", *filter(None, parts), "</section>"])


def _paragraph(text: str) -> str:
    return f'<p class="quiet">{html.escape(text)}</p>' if text else ""


def _some(count: int, of_what: str) -> str:
    return f"{_count(count)} {of_what}" + ("" if count == 1 else "s")


def _span(report: Report) -> str:
    busy = report.times.busy
    if not busy.rows:
        return "no event"
    return f"{_time(busy.rows[0].time)} to {_time(busy.rows[-1].time + busy.seconds)} UTC"


def _other_times(report: Report) -> str:
    """How many events the charts over time don't show."""
    count, shown = (sum(row.events for row in found.rows) for found in (report.times, report.times.busy))
    return "" if count == shown else f"{_some(count - shown, 'event')} of other times, without rows and transactions, aren't shown."


def _summary(report: Report) -> str:
    names = ", ".join(report.files[:4]) + (f" and {len(report.files) - 4} more" if len(report.files) > 4 else "")
    counts = [_some(len(report.files), "file"), _some(report.tables.tables, "table"), _some(report.transactions.transactions, "transaction")]
    return f"<p>{html.escape(names)}</p>\n" + _paragraph(f"{', '.join(counts)}; {_span(report)}")


def _damage(report: Report) -> str:
    """What is damaged, or that nothing is."""
    answer = report.verified
    lines = "".join(f"<p>{html.escape(line)}</p>" for line in [*answer.messages, *answer.lines])
    if answer.status or answer.messages:
        return f'<section id="damage" class="damage">\n<h2>Damage</h2>\n{lines}\n</section>'
    return f'<section id="damage" class="well">\n{lines}\n</section>'


def _rows_of(changes: Changes) -> list[int]:
    return [changes.inserted, changes.updated, changes.deleted]


def _table_rows(report: Report) -> str:
    heads = ("Table", "Inserted", "Updated", "Deleted", "Events", "Bytes", "Transactions", "First", "Last")
    rows: list[list[_Value]] = [
        [str(row.name), *_rows_of(row), row.events, row.bytes, row.transactions, _time(row.first_time), _time(row.last_time)]
        for row in report.tables.rows[:_SHOWN_TABLES]
    ]
    return _table(heads, rows) if rows else ""


def _unread(rows: Iterable[Changes], or_else: str = "") -> str:
    """How many events have rows that aren't counted."""
    count = sum(row.unread_events for row in rows)
    return f"The rows of {_some(count, 'event')} can't be read{or_else}, and aren't counted." if count else ""


def _not_counted(report: Report) -> str:
    """What the rows of the tables don't have."""
    found, unnamed = report.tables, report.untold.unnamed
    said = [_unread(found.rows)]
    if len(found.rows) > _SHOWN_TABLES:
        said.insert(0, f"These are the tables with most bytes, of {_count(len(found.rows))}.")
    if found.unknown_events:
        said.append(f"{_some(found.unknown_events, 'event')} of {_some(found.unknown_bytes, 'byte')} may have rows of tables that aren't known.")
    if unnamed:
        said.append(f"{_some(unnamed, 'event')} may change tables without saying which, as statements do.")
    return " ".join(filter(None, said))


def _compressed(report: Report) -> str:
    """What the bytes of tables over time have too much."""
    count = report.untold.compressed
    return f"Of {_some(count, 'compressed transaction')} all bytes count for each table inside." if count else ""


def _place(transaction: Transaction) -> str:
    """Where a transaction begins, as other programs take it."""
    return "" if transaction.position is None else str(transaction.position)


def _tables_of(transaction: Transaction) -> str:
    """The rows and the bytes of the tables of a transaction, those with most bytes first."""
    tables = sorted(transaction.tables, key=lambda it: -it.bytes)
    shown = [f"{it.name}: {_some(it.rows, 'row')}, {_some(it.bytes, 'byte')}" for it in tables[:_TABLES_OF_ONE]]
    more = len(tables) - _TABLES_OF_ONE
    return "; ".join([*shown, _some(more, "more table")] if more > 0 else shown)


def _largest(report: Report) -> str:
    heads = ("GTID", "File", "Position", "Bytes", "Events", "Inserted", "Updated", "Deleted", "Begins", "Ends", "Tables")
    rows: list[list[_Value]] = [
        [it.gtid or "", it.file, _place(it), it.bytes, it.events, *_rows_of(it), _time(it.first_time), _time(it.last_time), _tables_of(it)]
        for it in report.transactions.rows
    ]
    if not rows:
        return _paragraph("No transaction begins with the event of a GTID.")
    return _table(heads, rows) + "\n" + _paragraph(_unread(report.transactions.rows))


def _gaps(rows: Sequence[Sequence[str]]) -> str:
    """How many sources have gaps."""
    if not rows:
        return "No GTID."
    if not any(row[1] for row in rows):
        return "Of MariaDB's GTIDs these are the last ones of each domain and server."
    gaps = sum(row[2] not in ("", "-") for row in rows)
    return f"{_some(gaps, 'source')} with gaps." if gaps else "No gaps."


def _gtids(report: Report) -> str:
    """The GTIDs of each source, and which are missing."""
    found = [line.split() for line in report.gtids if not _statistics.is_error(line)]
    rows = [(parts[0], *(parts[1:4:2] or ("", ""))) for parts in found]
    unread = len(report.gtids) - len(rows)
    said = _gaps(rows) + (f" GTIDs of {_some(unread, 'event')} can't be read." if unread else "")
    return _paragraph(said) + ("\n" + _table(("Source", "Numbers", "Gaps"), rows) if rows else "")


def _chart(pictures: dict[str, str], name: str) -> str:
    """A chart, or that there is nothing to show."""
    return f'<figure id="chart-{name}">\n{pictures[name]}</figure>' if name in pictures else _paragraph("Nothing to show.")


def page(report: Report) -> str:
    """The page, in HTML. It needs no other file."""
    from . import _charts

    pictures = {name: _charts.svg(figure, name) for name, figure in _charts.charts(report).items()}
    unread = _unread(report.times.rows, ", or are of tables that aren't known")
    sections = [
        _damage(report),
        _section("bytes", "Bytes over time, by table", _chart(pictures, "bytes"), _paragraph(_other_times(report)), _paragraph(_compressed(report))),
        _section("transactions", "Transactions over time", _chart(pictures, "transactions")),
        _section("rows", "Rows over time", _chart(pictures, "rows"), _paragraph(unread)),
        _section("tables", "Tables", _chart(pictures, "tables"), _table_rows(report), _paragraph(_not_counted(report))),
        _section("sizes", "Sizes of transactions", _chart(pictures, "sizes")),
        _section("largest", "The largest transactions", _largest(report)),
        _section("gtids", "GTIDs", _gtids(report)),
    ]
    head = f'<meta charset="utf-8">\n<meta name="viewport" content="width=device-width">\n<title>Binary logs</title>\n<style>{_CSS}</style>'
    body = "\n".join(["<h1>Binary logs</h1>", _summary(report), *sections])
    text = f'<!DOCTYPE html>\n<html lang="en">\n<head>\n{head}\n</head>\n<body>\n{body}\n</body>\n</html>\n'
    # Names of files need not be UTF-8.
    return text.encode(errors="surrogateescape").decode(errors="replace")


def _keep_logs(path: _Path, files: Iterable[str]) -> None:
    """Raises FileExistsError where a page would be written over one of these files, or another log, as by `-o mysql-bin.*`."""
    if not Path(path).is_file():
        return
    with open(path, "rb") as file:
        is_log = file.read(4) in _FILE_HEADERS
    if is_log or any(os.path.exists(file) and os.path.samefile(path, file) for file in files):
        raise FileExistsError(f"{os.fspath(path)}: a log isn't written over")


def write(report: Report, path: _Path) -> None:
    """Writes the page to a file.

    Raises FileExistsError where the file is a log, or one of those that the page is about.
    """
    _keep_logs(path, report.files)
    Path(path).write_text(page(report), encoding="utf-8")


def write_pictures(report: Report, folder: _Path) -> list[Path]:
    """Writes each chart as a PNG into a folder, which is made if it isn't there, and gives their paths."""
    from . import _charts

    Path(folder).mkdir(parents=True, exist_ok=True)
    paths = []
    for name, figure in _charts.charts(report).items():
        paths.append(Path(folder) / f"{name}.png")
        _charts.png(figure, paths[-1])
    return paths


# ---- the command


class _Parser(argparse.ArgumentParser):
    """A parser that ends as `binlog` does where it is called wrongly."""

    def error(self, message: str) -> None:  # type: ignore[override]
        self.print_usage(sys.stderr)
        self.exit(_USAGE, f"{self.prog}: {message}\n")


def _seconds(text: str) -> int:
    """A length of time, as `binlog stats --by time=` takes it: a whole number of seconds, minutes or hours."""
    found = re.fullmatch(r"([1-9]\d*)([smh])", text)
    if not found:
        raise argparse.ArgumentTypeError(f"{text!r} isn't a whole number of seconds, minutes or hours, as 60s, 5m or 1h")
    return int(found[1]) * {"s": 1, "m": 60, "h": 3600}[found[2]]


def _arguments(words: Optional[Sequence[str]]) -> argparse.Namespace:
    parser = _Parser(prog="python3 -m binlog.report", description="Makes a page about binary logs.")
    parser.add_argument("files", metavar="FILE", nargs="+", help="a binary log")
    parser.add_argument("-o", "--output", metavar="OUT", required=True, help="the page, in HTML")
    parser.add_argument("--png", metavar="DIR", help="also a picture of each chart, in this folder")
    parser.add_argument("--interval", metavar="LENGTH", type=_seconds, help="as 60s, 5m or 1h; if not given, as fits")
    parser.add_argument("--program", metavar="PATH", help=f"the program binlog; if not given, {_program.VARIABLE} names it, or it is found")
    return parser.parse_args(words)


def main(words: Optional[Sequence[str]] = None) -> int:
    """Writes the page. The exit status is that of `binlog verify`, or 3 where the page can't be made."""
    given = _arguments(words)
    try:
        # Before the logs are read.
        _keep_logs(given.output, given.files)
        importlib.import_module("matplotlib")
        report = read(given.files, program=given.program, seconds=given.interval)
        write(report, given.output)
        if given.png:
            write_pictures(report, given.png)
    except (ProgramError, OSError, ImportError) as error:
        print(f"binlog.report: {error}", file=sys.stderr)
        return _FAILED
    return report.verified.status


if __name__ == "__main__":
    sys.exit(main())
