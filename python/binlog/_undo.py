"""Logs that undo the changes of rows of others, which the program `binlog` writes, or the library."""

import os
import re
import subprocess
from collections.abc import Iterable, Sequence
from datetime import datetime, timezone
from pathlib import Path as FilePath
from typing import Optional, Union

from ._program import ProgramError, program as program_at
from ._refusals import Refusal, Undone, UndoneTable, UndoRefused
from ._statistics import Path, _argument, _listed
from ._undo_library import made_log

# The exit status with which something is refused.
_REFUSED = 2

# The line of a table.
_TABLE = re.compile(r"table (.*?) (\d+) events (\d+) inserted (\d+) updated (\d+) deleted\n", re.DOTALL)

Time = Union[str, datetime]


def undo(
    files: Union[Path, Iterable[Path]],
    out: Optional[Path] = None,
    *,
    tables: Iterable[str] = (),
    exclude_tables: Iterable[str] = (),
    skip: Iterable[str] = (),
    later: Union[Path, Iterable[Path]] = (),
    check_rows: bool = False,
    start: Optional[Time] = None,
    stop: Optional[Time] = None,
    server_id: Optional[int] = None,
    include_gtids: Optional[str] = None,
    exclude_gtids: Optional[str] = None,
    start_position: Optional[int] = None,
    stop_position: Optional[int] = None,
    plain_old_temporal: bool = False,
    foreign_key_checks: bool = True,
    one_transaction: bool = False,
    program: Optional[Path] = None,
    library: bool = False,
) -> Undone:
    """Writes a log that undoes the changes of rows of logs; without `out` it only counts them, also by table.

    files: the logs, in order, or one of them.
    out: the log that is written. It may not be there before, and is there whole or not at all.
    tables, exclude_tables: rows of these tables alone, and none of these, each as "shop.orders"; * stands for any bytes, ? for one.
    skip: the names of reasons: transactions that are refused for one of them are left as they are.
    later: logs behind the others, in order, or one of them: where they, or what isn't undone of the others, may change what is undone, that is refused.
    check_rows: whether it is refused only if it removes a row that what is undone has left behind, or if rows aren't known; also without later logs.
    start, stop: transactions that ended at this time or later, and before it: a datetime, or a text in UTC.
    server_id, include_gtids, exclude_gtids: transactions that this server created, and with one of these GTIDs, or with none of them.
    start_position, stop_position: transactions that begin at this byte of the first log or behind it, and before this byte of the last one.
    plain_old_temporal: whether columns of MariaDB's old types of dates and times have no fractions.
    foreign_key_checks: whether the server checks foreign keys while the log is applied.
    one_transaction: whether all that is undone is one transaction. The logs need the same format description then.
    program: the program `binlog`; if not given, the one that the variable BINLOG_PROGRAM names, or the one that the system finds.
    library: whether the library makes the log, in memory, and no program is run. It doesn't choose by times, servers and GTIDs, takes no later logs,
        and checks no rows.

    Raises UndoRefused where something can't be undone, FileExistsError if there is a file `out`, and ProgramError where the program isn't
    found, or fails; where the library makes the log, in place of it BinlogError or OSError, or ValueError for what it doesn't take. Nothing
    is written then.
    """
    paths, behind = _listed(files), _listed(later)
    if out is not None and os.path.exists(out):
        raise FileExistsError(f"{os.fspath(out)}: there is a file of this name")
    if library:
        if any(option is not None for option in (start, stop, server_id, include_gtids, exclude_gtids)):
            raise ValueError("the library doesn't choose by times, servers and GTIDs")
        if behind:
            raise ValueError("the library takes no later logs")
        if check_rows:
            raise ValueError("the library checks no rows")
        if not paths:
            raise ValueError("no log is named")
        made = made_log(
            [FilePath(path).read_bytes() for path in paths],
            [os.fspath(path) for path in paths],
            tables=tables,
            exclude_tables=exclude_tables,
            skip=skip,
            start_position=start_position or 0,
            stop_position=stop_position,
            plain_old_temporal=plain_old_temporal,
            foreign_key_checks=foreign_key_checks,
            one_transaction=one_transaction,
        )
        if out is not None:
            _write(made.log, os.fspath(out))
        return Undone(made.transactions, made.row_events, made.skipped)
    given = [("--table", tables), ("--exclude-table", exclude_tables), ("--skip", skip), ("--later", [_argument(path) for path in behind])]
    words = [word for option, texts in given for text in texts for word in (option, text)]
    stated = {
        "--start-position": start_position,
        "--stop-position": stop_position,
        "--start-datetime": _text(start),
        "--stop-datetime": _text(stop),
        "--server-id": server_id,
        "--include-gtids": include_gtids,
        "--exclude-gtids": exclude_gtids,
    }
    words += [str(word) for option, value in stated.items() if value is not None for word in (option, value)]
    words += ["--plain-old-temporal"] if plain_old_temporal else []
    words += [] if foreign_key_checks else ["--no-foreign-key-checks"]
    words += ["--one-transaction"] if one_transaction else []
    words += ["--check-rows"] if check_rows else []
    words += ["--dry-run"] if out is None else ["--output", _argument(out)]
    return _asked(program, words, [_argument(path) for path in paths], [_argument(path) for path in behind])


def _write(log: bytes, out: str) -> None:
    """Writes a log, which is there whole or not at all."""
    part = f"{out}.part"
    with open(part, "xb") as file:
        try:
            file.write(log)
            file.flush()
            os.fsync(file.fileno())
            os.rename(part, out)
        except BaseException:
            os.unlink(part)
            raise


def _text(time: Optional[Time]) -> Optional[str]:
    """A time as the program takes it. A datetime without a zone is in UTC."""
    if not isinstance(time, datetime):
        return time
    return (time.astimezone(timezone.utc) if time.tzinfo else time).strftime("%Y-%m-%dT%H:%M:%S")


def _asked(stated: Optional[Path], words: list[str], paths: list[str], behind: list[str]) -> Undone:
    command = program_at(stated)
    try:
        ran = subprocess.run([command, "undo", *words, *paths], stdin=subprocess.DEVNULL, capture_output=True)
    except OSError as error:
        raise ProgramError(f"{command}: {error.strerror}") from error
    lines = os.fsdecode(ran.stderr).removesuffix("\n").split("\n")
    refusals = [refusal for line in lines for refusal in _refusals(line, [*paths, *behind])]
    if ran.returncode == _REFUSED and refusals:
        raise UndoRefused(refusals)
    if ran.returncode != 0:
        raise ProgramError("\n".join(lines) or f"{command}: status {ran.returncode}")
    # "transactions 5, row events 8", and where nothing is written a line for each table.
    first, _, others = os.fsdecode(ran.stdout).partition("\n")
    transactions, row_events = (int(part.split()[-1]) for part in first.split(","))
    tables = [UndoneTable(name, *map(int, counts)) for name, *counts in _TABLE.findall(others)]
    return Undone(transactions, row_events, tuple(refusals), tuple(tables))


def _refusals(line: str, paths: Sequence[str]) -> list[Refusal]:
    """The refusal that a line is, if it is one."""
    for start, skipped in (("binlog: ", False), ("binlog: skipped: ", True)):
        for path in paths:
            before = f"{start}{path}: event "
            if line.startswith(before):
                index, _, rest = line[len(before) :].partition(" at byte ")
                position, reason, text = rest.split(": ", 2)
                return [Refusal(path, int(index), int(position), reason, text, skipped)]
    return []
