"""Reads MySQL binary logs through the library that include/binlog.h declares.

    import binlog

    for event in binlog.open("mysql-bin.000001"):
        print(event.position, event.event_type, len(event.data))
"""

from ._bodies import Body, Diffs
from ._errors import BinlogError, ColumnsWarning, InvalidColumns, InvalidLog, LogError, PayloadError, RowsError
from ._follow import Followed, follow
from ._library import library_version
from ._log import Cursor, Damage, Event, Log, open
from ._payloads import PayloadEvent
from ._program import ProgramError
from ._refusals import Refusal, Undone, UndoneTable, UndoRefused
from ._rows import Row, rows
from ._types import EventType, MariaEventType
from ._undo import undo
from ._undo_library import UndoLog, undo_logs
from ._whole import DamagedEvent, Stats, TypeStats, Verification, gtid_set, stats, verify

__all__ = [
    "BinlogError",
    "Body",
    "ColumnsWarning",
    "Cursor",
    "Damage",
    "DamagedEvent",
    "Diffs",
    "Event",
    "EventType",
    "Followed",
    "InvalidColumns",
    "InvalidLog",
    "Log",
    "LogError",
    "MariaEventType",
    "PayloadError",
    "PayloadEvent",
    "ProgramError",
    "Refusal",
    "Row",
    "RowsError",
    "Stats",
    "TypeStats",
    "UndoLog",
    "UndoRefused",
    "Undone",
    "UndoneTable",
    "Verification",
    "follow",
    "gtid_set",
    "library_version",
    "open",
    "rows",
    "stats",
    "undo",
    "undo_logs",
    "verify",
]
