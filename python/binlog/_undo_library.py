"""Logs that undo the changes of rows of others in memory, which the library makes."""

import ctypes
from collections.abc import Iterable, Sequence
from dataclasses import dataclass
from typing import Optional, Union

from ._errors import BinlogError, InvalidLog
from ._library import LIBRARY, REFUSED, RefusalStruct, UndoneStruct, UndoOptionsStruct
from ._refusals import Refusal, UndoRefused

# The names of the reasons of include/binlog.h, from the number 1 on, and what they mean, as the program says it.
_REASONS = (
    ("Unfinished", "the transaction isn't finished"),
    ("Statement", "a statement can't be undone"),
    ("LoadData", "a file was loaded by a statement"),
    ("Xa", "a part of an XA transaction"),
    ("Rollback", "changes were rolled back"),
    ("Incident", "an incident"),
    ("Payload", "a compressed transaction is too long, or has row events in front of it"),
    ("OldRows", "row events of a version before 5.1.16"),
    ("UnknownEvent", "an event of an unknown type"),
    ("Encrypted", "encrypted events"),
    ("NoTableMap", "the rows have no table map in their transaction"),
    ("Rows", "the rows can't be read"),
    ("OldTemporal", "a column of a date or time whose form isn't in the log"),
    ("Image", "the images of the rows lack columns"),
    ("PartialJson", "partial updates of documents"),
    ("Compressed", "the compressed rows are too long"),
    ("Damaged", "a damaged event"),
    ("Tail", "the file ends within an event"),
    ("Description", "no format description that can be written"),
    ("Straddles", "a position is within the transaction, which ends at byte {end}"),
)
_NUMBERS = {name: number for number, (name, _) in enumerate(_REASONS, 1)}
_KEPT = ("Encrypted", "Damaged", "Tail", "Description", "Straddles")

# The flags.
_NO_FOREIGN_KEY_CHECKS, _ONE_TRANSACTION, _PLAIN_OLD_TEMPORAL = 1, 2, 4
_TO_END = 2**64 - 1

# The errors of bytes that aren't a log.
_INVALID_LOG = (1, 2)


@dataclass(frozen=True)
class UndoLog:
    """A log that undoes others.

    log: its bytes.
    transactions, row_events: how many are undone.
    skipped: what is left as it is. The file of each is the number of its log, from 0.
    """

    log: bytes
    transactions: int
    row_events: int
    skipped: tuple[Refusal, ...] = ()


def _skip(reasons: Iterable[str]) -> int:
    bits = 0
    for reason in reasons:
        if reason not in _NUMBERS or reason in _KEPT:
            raise ValueError(f"{reason!r} is no reason that can be skipped")
        bits |= 1 << _NUMBERS[reason]
    return bits


def _position(name: str, position: int) -> int:
    """A position, which the library takes in 64 bits."""
    if not 0 <= position <= _TO_END:
        raise ValueError(f"{name} isn't in 0 to 2**64 - 1")
    return position


def _tables(names: Iterable[str]) -> bytes:
    """The names of tables as the library takes them."""
    text = b""
    for name in names:
        database, _, table = name.partition(".")
        if not database or not table or "\0" in name:
            raise ValueError(f"{name!r} is no table, as DB.TABLE")
        text += database.encode(errors="surrogateescape") + b"\0" + table.encode(errors="surrogateescape") + b"\0"
    return text


def _refusal(one: RefusalStruct, names: Sequence[str]) -> Refusal:
    name, text = _REASONS[one.reason - 1]
    return Refusal(names[one.log], one.index, one.position, name, text.format(end=one.end), bool(one.is_skipped))


class _Call:
    """A call of the library, which can be made again with more room."""

    def __init__(self, logs: Sequence[bytes], options: UndoOptionsStruct, tables: bytes, excluded: bytes) -> None:
        self._bytes = logs[0] if len(logs) == 1 else b"".join(logs)
        self._sizes = (ctypes.c_uint64 * len(logs))(*map(len, logs))
        self._options, self._tables, self._excluded = options, tables, excluded
        self._refusals = (RefusalStruct * 0)()
        self.undone = UndoneStruct()
        self.error = 0

    def length(self, out: Optional[ctypes.Array] = None) -> int:
        """The length of the log; the log is written if there is room for it."""
        error = ctypes.c_uint8()
        tables, excluded = (self._tables, len(self._tables)), (self._excluded, len(self._excluded))
        room = (out, 0 if out is None else len(out))
        refusals = (self._refusals, len(self._refusals))
        logs = (self._bytes, len(self._bytes), self._sizes, len(self._sizes))
        length = LIBRARY.binlog_undo(*logs, self._options, *tables, *excluded, *refusals, self.undone, *room, error)
        self.error = error.value
        return length

    def refusals(self, names: Sequence[str]) -> tuple[Refusal, ...]:
        """What can't be undone, by the last call; another one is made if there was no room for all, which may lack memory."""
        if self.undone.refusals > len(self._refusals):
            self._refusals = (RefusalStruct * self.undone.refusals)()
            self.length()
            if self.error not in (0, REFUSED):
                raise BinlogError(self.error)
        return tuple(_refusal(one, names) for one in self._refusals[: self.undone.refusals])


def made_log(
    logs: Sequence[bytes],
    names: Sequence[str],
    *,
    tables: Iterable[str],
    exclude_tables: Iterable[str],
    skip: Iterable[str],
    start_position: int,
    stop_position: Optional[int],
    plain_old_temporal: bool,
    foreign_key_checks: bool,
    one_transaction: bool,
) -> UndoLog:
    """The log that undoes logs, of which refusals have these names."""
    flags = [(_NO_FOREIGN_KEY_CHECKS, not foreign_key_checks), (_ONE_TRANSACTION, one_transaction), (_PLAIN_OLD_TEMPORAL, plain_old_temporal)]
    options = UndoOptionsStruct(
        _position("start_position", start_position),
        _TO_END if stop_position is None else _position("stop_position", stop_position),
        _skip(skip),
        sum(flag for flag, is_given in flags if is_given),
    )
    call = _Call(logs, options, _tables(tables), _tables(exclude_tables))
    length = call.length()
    if call.error == REFUSED:
        raise UndoRefused(call.refusals(names))
    if call.error == 0:
        out = (ctypes.c_uint8 * length)()
        call.length(out)
    if call.error in _INVALID_LOG:
        raise InvalidLog(call.error)
    if call.error:
        raise BinlogError(call.error)
    return UndoLog(bytes(out), call.undone.transactions, call.undone.row_events, call.refusals(names))


def undo_logs(
    logs: Union[bytes, Iterable[bytes]],
    *,
    tables: Iterable[str] = (),
    exclude_tables: Iterable[str] = (),
    skip: Iterable[str] = (),
    start_position: int = 0,
    stop_position: Optional[int] = None,
    plain_old_temporal: bool = False,
    foreign_key_checks: bool = True,
    one_transaction: bool = False,
) -> UndoLog:
    """The log that undoes the changes of rows of logs in memory, by the library: that which `undo` writes.

    logs: the bytes of the logs, in order, or those of one log.

    The other parameters are those of `undo`. Raises UndoRefused where something can't be undone, in which the file of a refusal is the
    number of its log, from 0; InvalidLog where a log doesn't begin as one; and BinlogError where there is no memory, or the logs can't be
    one transaction.
    """
    parts = [logs] if isinstance(logs, bytes) else list(logs)
    return made_log(
        parts,
        [str(number) for number in range(len(parts))],
        tables=tables,
        exclude_tables=exclude_tables,
        skip=skip,
        start_position=start_position,
        stop_position=stop_position,
        plain_old_temporal=plain_old_temporal,
        foreign_key_checks=foreign_key_checks,
        one_transaction=one_transaction,
    )
