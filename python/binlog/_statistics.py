"""What the program `binlog` says of logs: its statistics, as docs/STATISTICS.md has their lines, its GTIDs and the damage.

The members of the lines are named here and nowhere else.
"""

import json
import os
import re
import subprocess
from collections.abc import Callable, Iterable, Sequence
from dataclasses import dataclass, field, fields, replace
from typing import Any, Optional, TypeVar, Union

from ._program import ProgramError, program
from ._types import EventType
from ._whole import _merged

Path = Union[str, "os.PathLike[str]"]

# The exit statuses with which what is printed is whole: all is well, a file that is no log, damage.
_WHOLE = (0, 1, 2)

# How many of the largest transactions are kept.
LARGEST = 20

# The intervals that are tried, in seconds, from the shortest, until this many cover the logs.
_INTERVALS = (1, 2, 5, 10, 30, 60, 120, 300, 600, 1800, 3600, 7200, 21600, 86400, 604800)
_MOST_INTERVALS = 200
_HOUR = 3600

# How many tables are shown over time.
_STACKED = 6

# The names that `--table` takes for what they are: an argument that is no option, and a pattern without signs.
_DATABASE, _TABLE = re.compile(rb"[^-.*?\0][^.*?\0]*"), re.compile(rb"[^*?\0]+")

# The message of how many events may change tables and don't say which.
_LEFT_OUT = re.compile(r"binlog: events left out that don't tell which tables they change: (\d+)")

Row = TypeVar("Row")


def _argument(path: Path) -> str:
    """A path that is no option, nor standard input."""
    text = os.fspath(path)
    return f"./{text}" if text.startswith("-") else text


def _listed(files: Union[Path, Iterable[Path]]) -> list[Path]:
    """Files, or one."""
    return [files] if isinstance(files, (str, os.PathLike)) else list(files)


@dataclass
class Answer:
    """What the program printed, and its messages, which are lines, too, and its exit status."""

    lines: list[str]
    messages: list[str]
    status: int


def ask(stated: Optional[Path], words: Sequence[Union[str, bytes]], files: Iterable[Path]) -> Answer:
    """Asks the program about files. Raises ProgramError where it can't be run, or what it prints isn't whole."""
    command = program(stated)
    try:
        ran = subprocess.run([command, *words, *map(_argument, files)], stdin=subprocess.DEVNULL, capture_output=True)
    except OSError as error:
        raise ProgramError(f"{command}: {error.strerror}") from error
    lines, messages = map(_lines, (ran.stdout, ran.stderr))
    if ran.returncode not in _WHOLE:
        raise ProgramError("\n".join(messages) or f"{command}: status {ran.returncode}")
    return Answer(lines, messages, ran.returncode)


def _lines(printed: bytes) -> list[str]:
    """Lines of the program. Names may have characters that end lines elsewhere, as U+2028."""
    return printed.decode(errors="replace").removesuffix("\n").split("\n") if printed else []


# ---- names


@dataclass(frozen=True, order=True)
class Name:
    """The names of a table, as bytes."""

    database: bytes
    table: bytes

    def __str__(self) -> str:
        return f"{_shown(self.database)}.{_shown(self.table)}"

    @property
    def pattern(self) -> Optional[bytes]:
        """What `--table` takes for this table and no other; None if there is none."""
        name = self.database + b"." + self.table
        is_plain = _DATABASE.fullmatch(self.database) and _TABLE.fullmatch(self.table)
        return name if is_plain and name.decode(errors="ignore").encode() == name else None


def _shown(name: bytes) -> str:
    return name.decode(errors="replace")


def _bytes(value: Union[str, dict[str, str]]) -> bytes:
    """A name, which is an object with its digits where it isn't UTF-8."""
    return value.encode() if isinstance(value, str) else bytes.fromhex(value["hex"])


def _name(line: dict[str, Any]) -> Name:
    return Name(_bytes(line["database"]), _bytes(line["table"]))


# ---- rows


@dataclass
class Changes:
    """How many events changed tables, their bytes, and rows."""

    events: int = 0
    bytes: int = 0
    inserted: int = 0
    updated: int = 0
    deleted: int = 0
    unread_events: int = 0

    @property
    def rows(self) -> int:
        """How many rows were changed."""
        return self.inserted + self.updated + self.deleted


@dataclass
class TableChanges(Changes):
    """Those of a table; and the transactions that changed it, and the times of its first and its last event."""

    name: Name = Name(b"", b"")
    transactions: int = 0
    first_time: Optional[int] = None
    last_time: Optional[int] = None


@dataclass
class Interval(Changes):
    """The events and transactions of an interval of time, which begins at `time`."""

    time: int = 0
    transactions: int = 0


@dataclass
class TransactionTable(Changes):
    """The row events of a table in a transaction."""

    name: Name = Name(b"", b"")


@dataclass
class Transaction(Changes):
    """A transaction: its file, its GTID, if it has one, where it begins in the file, if that is known, the times of its first and its last
    event, and the tables of which it has rows, in the order of their first row events."""

    file: str = ""
    gtid: Optional[str] = None
    position: Optional[int] = None
    first_time: int = 0
    last_time: int = 0
    tables: list[TransactionTable] = field(default_factory=list)


def _row(kind: Callable[..., Row], line: dict[str, Any], **others: Any) -> Row:
    """A row of the members of a line that it has a field for."""
    names = {it.name for it in fields(kind)} - set(others)  # type: ignore[arg-type]
    return kind(**{name: value for name, value in line.items() if name in names}, **others)


def _table(line: dict[str, Any]) -> TableChanges:
    return _row(TableChanges, line, name=_name(line))


# ---- answers


@dataclass
class Tables:
    """The changes by table: how many tables there are, how many transactions, what is of tables that aren't known, and the tables,
    those with most bytes first."""

    tables: int = 0
    transactions: int = 0
    unknown_events: int = 0
    unknown_bytes: int = 0
    rows: list[TableChanges] = field(default_factory=list)


@dataclass
class Times:
    """The events by intervals of so many seconds, without those that have none."""

    seconds: int = 1
    rows: list[Interval] = field(default_factory=list)

    @property
    def busy(self) -> "Times":
        """From the first interval with rows or a transaction to the last one; all where there is none. Descriptions and the ends of
        logs may be of other times."""
        places = [place for place, row in enumerate(self.rows) if row.rows or row.transactions]
        return Times(self.seconds, self.rows[places[0] : places[-1] + 1]) if places else self


@dataclass
class Untold:
    """What isn't told apart by table: how many events may change tables and don't say which, as statements, and how many compressed
    transactions there are, each of which counts with all of its bytes where the events of one of its tables are counted over time."""

    unnamed: int = 0
    compressed: int = 0


@dataclass
class Transactions:
    """How many transactions there are, the largest of them, and how many have a size of so many binary digits, in bytes."""

    transactions: int = 0
    sizes: dict[int, int] = field(default_factory=dict)
    rows: list[Transaction] = field(default_factory=list)


def _objects(answer: Answer) -> tuple[dict[str, Any], list[dict[str, Any]]]:
    try:
        head, *rows = map(json.loads, answer.lines)
    except ValueError as error:
        raise ProgramError("the program doesn't print statistics as lines of JSON") from error
    return head, rows


def tables(stated: Optional[Path], files: Iterable[Path]) -> Tables:
    """The changes by table."""
    head, rows = _objects(ask(stated, ["stats", "--by", "table", "--json"], files))
    return _row(Tables, head, rows=list(map(_table, rows)))


def times(stated: Optional[Path], files: Iterable[Path], seconds: int, table: Optional[bytes] = None) -> Times:
    """The events by time, or only those of a table."""
    filters = [] if table is None else [b"--table", table]
    head, rows = _objects(ask(stated, ["stats", "--by", f"time={seconds}s", "--json", *filters], files))
    return Times(head["seconds"], [_row(Interval, row) for row in rows])


def times_by_table(stated: Optional[Path], files: Sequence[Path], seconds: int, names: Iterable[Name]) -> list[Times]:
    """For each of these tables its events by time."""
    return [times(stated, files, seconds, name.pattern) for name in names]


def transactions(stated: Optional[Path], files: Iterable[Path]) -> Transactions:
    """The transactions. Each file is asked about alone, since the answer has no names of files."""
    return merged(all_transactions, [_transactions_in(stated, file) for file in files])


def _transactions_in(stated: Optional[Path], file: Path) -> Transactions:
    head, rows = _objects(ask(stated, ["stats", "--by", "transaction", "--top", str(LARGEST), "--json"], [file]))
    sizes = {digits: count for digits, count in enumerate(head["sizes"]) if count}
    return Transactions(head["transactions"], sizes, [_transaction(row, file) for row in rows])


def _transaction(line: dict[str, Any], file: Path) -> Transaction:
    tables = [_row(TransactionTable, table, name=_name(table)) for table in line["tables"]]
    return _row(Transaction, line, file=os.fspath(file), tables=tables)


def untold(stated: Optional[Path], files: Iterable[Path]) -> Untold:
    """What isn't told apart by table."""
    answer = ask(stated, ["stats", "--json", "--table", "*.*"], files)
    _, rows = _objects(answer)
    compressed = sum(row.get("events", 0) for row in rows if row.get("type") == EventType.TRANSACTION_PAYLOAD_EVENT)
    return Untold(sum(int(found[1]) for found in map(_LEFT_OUT.fullmatch, answer.messages) if found), compressed)


def gtids(stated: Optional[Path], files: Iterable[Path]) -> list[str]:
    """The lines of GTIDs, behind those of events whose GTIDs can't be read."""
    return ask(stated, ["gtids"], files).lines


def is_error(line: str) -> bool:
    """Whether a line of GTIDs is that of an event whose GTIDs can't be read."""
    return line.split()[1:2] == ["error"]


def verified(stated: Optional[Path], files: Iterable[Path]) -> Answer:
    """A line for each file, and a message for each damage."""
    return ask(stated, ["verify"], files)


def stacked(found: Tables) -> list[Name]:
    """The tables with most bytes, of which the events of each can be asked for alone."""
    return [row.name for row in found.rows if row.name.pattern is not None][:_STACKED]


def interval(found: Times) -> int:
    """The shortest interval of which few cover the logs, whose events by hours these are; none is longer than a week."""
    rows = found.busy.rows
    span = rows[-1].time + found.seconds - rows[0].time if rows else 0
    return next((seconds for seconds in _INTERVALS if span <= seconds * _MOST_INTERVALS), _INTERVALS[-1])


# ---- several logs, each asked for alone


def _sum(rows: Sequence[Any]) -> Any:
    """A row with the sums of the counts of several."""
    counts = {name: sum(getattr(row, name) for row in rows) for name in (*_COUNTS, "transactions")}
    return replace(rows[0], **counts)


_COUNTS = [it.name for it in fields(Changes)]


def _grouped(rows: Iterable[Row], key: Callable[[Row], Any]) -> list[list[Row]]:
    groups: dict[Any, list[Row]] = {}
    for row in rows:
        groups.setdefault(key(row), []).append(row)
    return list(groups.values())


def _by_bytes(rows: Iterable[Row]) -> list[Row]:
    return sorted(rows, key=lambda row: -row.bytes)  # type: ignore[attr-defined]


def all_tables(logs: Sequence[Tables]) -> Tables:
    """The changes by table of several logs."""
    groups = _grouped((row for log in logs for row in log.rows), lambda row: row.name)
    rows = [replace(_sum(rows), last_time=rows[-1].last_time) for rows in groups]
    unknown = (sum(log.unknown_events for log in logs), sum(log.unknown_bytes for log in logs))
    return Tables(len(rows), sum(log.transactions for log in logs), *unknown, rows=_by_bytes(rows))


def all_times(logs: Sequence[Times]) -> Times:
    """The events by time of several logs, by intervals of one length."""
    groups = _grouped((row for log in logs for row in log.rows), lambda row: row.time)
    rows = sorted(map(_sum, groups), key=lambda row: row.time)
    return Times(logs[0].seconds if logs else _INTERVALS[0], rows)


def all_times_by_table(logs: Sequence[Sequence[Times]]) -> list[Times]:
    """For each of some tables its events by time of several logs."""
    return [all_times(of_table) for of_table in zip(*logs)]


def all_transactions(logs: Sequence[Transactions]) -> Transactions:
    """The transactions of several logs, none of which lies in two."""
    sizes: dict[int, int] = {}
    for log in logs:
        for size, count in log.sizes.items():
            sizes[size] = sizes.get(size, 0) + count
    rows = _by_bytes(row for log in logs for row in log.rows)[:LARGEST]
    return Transactions(sum(log.transactions for log in logs), dict(sorted(sizes.items())), rows)


def _intervals(text: str) -> list[tuple[int, int]]:
    """Intervals from the first number to before the second, of a text as `1-3,5`."""
    bounds = (part.split("-") for part in text.split(","))
    return [(int(ends[0]), int(ends[-1]) + 1) for ends in bounds]


def _text(intervals: Iterable[tuple[int, int]]) -> str:
    return ",".join(str(start) if start + 1 == end else f"{start}-{end - 1}" for start, end in intervals)


def _line(source: str, intervals: list[tuple[int, int]]) -> str:
    """The line of a source's GTIDs."""
    found = list(_merged(intervals))
    ends = [1, *(end for _, end in found)]
    gaps = [(end, start) for end, (start, _) in zip(ends, found) if end < start]
    return f"{source} {_text(found)} gaps {_text(gaps) or '-'}"


def all_gtids(logs: Iterable[list[str]]) -> list[str]:
    """The lines of the GTIDs of several logs, which follow one another."""
    errors: list[str] = []
    sets: dict[str, list[tuple[int, int]]] = {}
    last: dict[tuple[int, ...], str] = {}
    for line in (line for log in logs for line in log):
        source, *rest = line.split()
        if is_error(line):
            errors.append(line)
        elif rest:
            sets.setdefault(source, []).extend(_intervals(rest[0]))
        else:
            last[tuple(map(int, source.split("-")[:2]))] = line
    return [*errors, *(_line(*item) for item in sorted(sets.items())), *(line for _, line in sorted(last.items()))]


def all_untold(logs: Sequence[Untold]) -> Untold:
    """What isn't told apart by table in several logs."""
    return Untold(sum(log.unnamed for log in logs), sum(log.compressed for log in logs))


def all_verified(logs: Sequence[Answer]) -> Answer:
    """The lines and messages of several logs, and their worst status."""
    lines, messages = ([line for log in logs for line in getattr(log, name)] for name in ("lines", "messages"))
    return Answer(lines, messages, max((log.status for log in logs), default=0))


def merged(merge: Callable[[Sequence[Any]], Any], logs: Sequence[Any]) -> Any:
    """The answers about several parts as one; of one part it is that of the program."""
    return logs[0] if len(logs) == 1 else merge(logs)


# ---- all together


@dataclass
class Report:
    """What is shown of logs. `stacked` are some tables, each with its events by time."""

    files: list[str]
    tables: Tables
    times: Times
    stacked: dict[Name, Times]
    transactions: Transactions
    gtids: list[str]
    verified: Answer
    untold: Untold = field(default_factory=Untold)


def _report(files: list[str], found: dict[str, Any], names: list[Name], by_table: list[Times]) -> Report:
    return Report(files, **found, stacked=dict(zip(names, by_table)))


def _at_once(question: Callable[..., Any]) -> Callable[..., Any]:
    return question


def report(
    parts: Sequence[list[str]],
    stated: Optional[Path] = None,
    seconds: Optional[int] = None,
    later: Callable[[Callable[..., Any]], Callable[..., Any]] = _at_once,
) -> Any:
    """What is shown of logs, in parts that are asked for one by one, by intervals of so many seconds, or as many as fit. `later` makes
    of a function one that is called later, as `dask.delayed` does.
    """

    def every(question: Callable[..., Any], merge: Callable[[Sequence[Any]], Any], *words: Any) -> Any:
        return later(merged)(merge, [later(question)(stated, part, *words) for part in parts])

    length = seconds or later(interval)(every(times, all_times, _HOUR))
    by_table = every(tables, all_tables)
    names = later(stacked)(by_table)
    found = {
        "tables": by_table,
        "times": every(times, all_times, length),
        "transactions": every(transactions, all_transactions),
        "gtids": every(gtids, all_gtids),
        "verified": every(verified, all_verified),
        "untold": every(untold, all_untold),
    }
    over_time = every(times_by_table, all_times_by_table, length, names)
    return later(_report)([file for part in parts for file in part], found, names, over_time)
