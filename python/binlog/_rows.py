"""The rows of a log, one after the other, which the library reads."""

from collections.abc import Iterator
from typing import Any, NamedTuple, Optional, Union

from ._errors import LogError, RowsError
from ._log import Cursor, Damage, Event, Log, open
from ._types import EventType, MariaEventType
from ._whole import Path

_OPERATIONS = {
    EventType.WRITE_ROWS_EVENT_V1: "insert",
    EventType.UPDATE_ROWS_EVENT_V1: "update",
    EventType.DELETE_ROWS_EVENT_V1: "delete",
    EventType.WRITE_ROWS_EVENT: "insert",
    EventType.UPDATE_ROWS_EVENT: "update",
    EventType.PARTIAL_UPDATE_ROWS_EVENT: "update",
    EventType.DELETE_ROWS_EVENT: "delete",
}

# The types of the events with which transactions begin.
_BEGINNINGS = (EventType.GTID_EVENT, EventType.GTID_TAGGED_LOG_EVENT, EventType.ANONYMOUS_GTID_EVENT, MariaEventType.GTID_EVENT)

# Those whose rows aren't read, and those of events which say that events are lost, or that all behind them are encrypted.
_UNREAD = frozenset(
    (
        EventType.PRE_GA_WRITE_ROWS_EVENT,
        EventType.PRE_GA_UPDATE_ROWS_EVENT,
        EventType.PRE_GA_DELETE_ROWS_EVENT,
        EventType.INCIDENT_EVENT,
        MariaEventType.START_ENCRYPTION_EVENT,
        *(kind for kind in MariaEventType if "ROWS_COMPRESSED" in kind.name),
    )
)


class Row(NamedTuple):
    """A row that was inserted, updated or deleted.

    position: where its event begins, in bytes from the start of the log; inside a compressed transaction, the event that has it.
    part: inside a compressed transaction the number of its event there, from 0; otherwise None.
    gtid: the GTID of its transaction, as docs/JSON.md has it; None where that has none.
    timestamp: when its event was created, in seconds since 1970.
    table: its schema and its table with a dot between; bytes if they aren't UTF-8.
    op: "insert", "update" or "delete".
    before, after: its images, as Event.rows has them: dicts of its values by the columns; None where the operation has none.
    """

    position: int
    part: Optional[int]
    gtid: Optional[str]
    timestamp: int
    table: Union[str, bytes]
    op: str
    before: Optional[dict[str, Any]]
    after: Optional[dict[str, Any]]


def rows(log: Union[Path, Log], start: Optional[Cursor] = None) -> Iterator[Row]:
    """The rows of a log, in order, also those inside compressed transactions. No program is run for them.

    log: its path, or the log.
    start: the place of the event to begin with; from the first if not given. Table maps and GTIDs in front of it aren't known.

    None is passed over. It raises LogError in the place of a damaged event, of one with rows or a GTID that can't be read, and of a
    compressed transaction that can't be, or has such an event; and RowsError where a row can't be read: its name is NoTableMap where no
    table map is in force, and Unread of events that may have rows, or say that some are lost, and aren't read, or have no bytes of rows.
    Their type is in `details`. Unread is also an event of an unknown type, and the one behind which a log of MariaDB's is encrypted. Tail
    comes last, where the log ends within an event, as one that was cut, or is being written.
    """
    found = log if isinstance(log, Log) else open(log)
    gtid: Optional[str] = None
    place = found._first if start is None else Cursor(*start)
    for event in found.events(start):
        place = Cursor(event.position + event.event_size, 0)
        if event.event_type in _BEGINNINGS:
            gtid = _gtid(event)
        elif event.event_type == EventType.TRANSACTION_PAYLOAD_EVENT:
            yield from _rows_inside(event, gtid)
        else:
            yield from _rows_of(event, event.position, None, gtid)
    if found._rest_at(place):
        raise RowsError({"error": "Tail"}, place.position)


def _gtid(event: Event) -> Optional[str]:
    """The GTID of the transaction that an event begins; None if it has none."""
    if event.event_type == EventType.ANONYMOUS_GTID_EVENT:
        return None
    body = event.body
    if body is None:
        raise _unread(event)
    if "gtid" in body:
        return body["gtid"]
    return ":".join((body["sid"], *filter(None, [body["tag"]]), str(body["gno"])))


def _rows_of(event: Event, position: int, part: Optional[int], gtid: Optional[str]) -> list[Row]:
    """The rows of an event; none if it isn't a row event."""
    op = _OPERATIONS.get(event.event_type)  # type: ignore[call-overload]
    if op is None:
        if event.event_type in _UNREAD or event.name is None:
            raise _unread(event)
        return []
    found, table = event.rows, event.table
    if found is None or table is None:
        # The data may be no row event's.
        event.body
        raise RowsError({"error": "NoTableMap"}, event.position)
    if not found:
        # Rows without columns have no bytes, so how many there are isn't known.
        raise _unread(event)
    return [Row(position, part, gtid, event.timestamp, table, op, row.get("before"), row.get("after")) for row in found]


def _rows_inside(event: Event, gtid: Optional[str]) -> Iterator[Row]:
    """The rows inside a compressed transaction. Errors are those of the event that has it."""
    inside = event.payload_log()
    assert inside is not None
    # The description in force isn't one of them.
    items = (item for item in inside.items() if item.event_type != EventType.FORMAT_DESCRIPTION_EVENT)
    for part, item in enumerate(items):
        yield from _rows_of_part(item, event.position, part, gtid)


def _rows_of_part(item: Union[Event, Damage], position: int, part: int, gtid: Optional[str]) -> list[Row]:
    try:
        if isinstance(item, Damage):
            raise item.error
        return _rows_of(item, position, part, gtid)
    except LogError as error:
        raise LogError(error.number, position) from None
    except RowsError as error:
        raise RowsError({"error": error.name, "part": part, **error.details}, position) from None


def _unread(event: Event) -> RowsError:
    return RowsError({"error": "Unread", "type": event.event_type}, event.position)
