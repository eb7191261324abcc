"""What is said of a whole log: whether its checksums are right, its GTIDs, and how many events it has of each type."""

import os
from collections.abc import Iterable, Iterator
from dataclasses import dataclass, field
from itertools import chain
from typing import NamedTuple, Optional, Union

from ._errors import LogError
from ._library import MEMORY, error_name, error_text
from ._log import Event, Log, open
from ._types import EventType, MariaEventType, name_of

Path = Union[str, "os.PathLike[str]"]


class DamagedEvent(NamedTuple):
    """A damaged event.

    index: the number of the event in the log, from 0.
    position: where it begins, in bytes from the start of the log.
    name: the name of its error.
    text: what is wrong with it.
    """

    index: int
    position: int
    name: str
    text: str


class Verification(NamedTuple):
    """What was found in a log whose checksums were verified.

    events: how many events could be read.
    bytes: how many bytes these have.
    checksums: how many of them have a checksum, which is right.
    damaged: the other events, and those whose compressed transaction can't be read, which are among the events, too, in the order of the
        log.
    rest: how many bytes lie behind them: where the log ends within an event, those of its beginning, otherwise 0.
    """

    events: int
    bytes: int
    checksums: int
    damaged: tuple[DamagedEvent, ...]
    rest: int = 0

    @property
    def is_right(self) -> bool:
        """Whether no event is damaged, and the log doesn't end within one."""
        return not self.damaged and self.rest == 0


def _damaged_event(index: int, fields: tuple) -> DamagedEvent:
    text = error_text(fields[10])
    if fields[12]:
        text += f": stored {fields[11].hex()}, computed {fields[13].to_bytes(4, 'little').hex()}"
    return DamagedEvent(index, fields[0], error_name(fields[10]), text)


def _payload_error(log: Log, fields: tuple) -> int:
    """The number of what is wrong first with a compressed transaction, or 0."""
    try:
        inside = log._inside(fields)
    except LogError as error:
        if error.number == MEMORY:
            raise
        return error.number
    return next((item[10] for batch in inside.batches() for item in batch if item[10]), 0)


def verify(path: Path) -> Verification:
    """Verifies all checksums of a log, and reads its compressed transactions.

    Raises InvalidLog where the file doesn't begin with the file header, OSError where it can't be read, and LogError, Memory, where memory
    runs out.
    """
    count = size = checksums = 0
    damaged: list[DamagedEvent] = []
    log = open(path, verify=True)
    for index, fields in enumerate(chain.from_iterable(log.batches())):
        if fields[10]:
            damaged.append(_damaged_event(index, fields))
            continue
        count += 1
        size += fields[6]
        checksums += fields[12]
        error = _payload_error(log, fields) if fields[9] == EventType.TRANSACTION_PAYLOAD_EVENT else 0
        if error:
            damaged.append(DamagedEvent(index, fields[0], error_name(error), error_text(error)))
    return Verification(count, size, checksums, tuple(damaged), log.rest)


# MariaDB's types of events with GTIDs. In another server's log they have no data.
_MARIA_WITH_GTIDS = (MariaEventType.GTID_EVENT, MariaEventType.GTID_LIST_EVENT)

_WITH_GTIDS = frozenset(
    (
        EventType.GTID_EVENT,
        EventType.GTID_TAGGED_LOG_EVENT,
        EventType.PREVIOUS_GTIDS_EVENT,
        *_MARIA_WITH_GTIDS,
    )
)

# The greatest number of a transaction, and the error of one that is no number of a transaction.
_LAST_GNO = 2**63 - 1
_BAD_GNO = 18

# The numbers from the first to before the second.
_Interval = tuple[int, int]


def _merged(intervals: Iterable[_Interval]) -> Iterator[_Interval]:
    """The same numbers in intervals as long as they can be, in order."""
    ordered = iter(sorted(intervals))
    first, end = next(ordered)
    for start, last in ordered:
        if start > end:
            yield first, end
            first, end = start, last
        else:
            end = max(end, last)
    yield first, end


class _GtidSet:
    """The GTIDs of events."""

    def __init__(self) -> None:
        # By the source and the tag, or "".
        self._groups: dict[tuple[str, str], list[_Interval]] = {}
        # Of MariaDB the last sequence number, by the domain and the server.
        self._last: dict[tuple[int, int], int] = {}

    def add(self, event: Event) -> None:
        """Raises LogError where the GTIDs can't be read."""
        body = event.body
        if body is None:
            return
        if event.event_type == EventType.PREVIOUS_GTIDS_EVENT:
            for entry in body["sids"]:
                for start, end in entry["intervals"]:
                    self._add_interval((entry["uuid"], entry["tag"] or ""), start, end, event.position)
        elif event.event_type in _MARIA_WITH_GTIDS:
            for text in body.get("gtids", [body.get("gtid")]):
                domain, server, sequence = map(int, text.split("-"))
                self._last[domain, server] = sequence
        else:
            self._add_interval((body["sid"], body["tag"] or ""), body["gno"], body["gno"] + 1, event.position)

    def _add_interval(self, group: tuple[str, str], start: int, end: int, position: int) -> None:
        """An interval whose end isn't above its start has no numbers."""
        if start >= end:
            return
        if start < 1 or end - 1 > _LAST_GNO:
            raise LogError(_BAD_GNO, position)
        intervals = self._groups.setdefault(group, [])
        # Most events follow on the one before them.
        if intervals and intervals[-1][1] == start:
            intervals[-1] = intervals[-1][0], end
        else:
            intervals.append((start, end))

    def __str__(self) -> str:
        sources: dict[str, list[str]] = {}
        for (source, tag), intervals in sorted(self._groups.items()):
            texts = [f"{start}-{end - 1}" if start + 1 < end else str(start) for start, end in _merged(intervals)]
            sources.setdefault(source, [source]).extend([tag, *texts] if tag else texts)
        maria = (f"{domain}-{server}-{sequence}" for (domain, server), sequence in sorted(self._last.items()))
        return ",".join([*map(":".join, sources.values()), *maria])


def gtid_set(path: Path) -> str:
    """The set of the GTIDs of a log's events, with those of its PREVIOUS_GTIDS, as MySQL writes a set: one source after
    another with "," between, and "" for the empty set. Of a MariaDB log the last GTID of each domain and server, with "," between.

    Raises LogError for the first event that is damaged or whose GTIDs can't be read, InvalidLog where the file doesn't
    begin with the file header, and OSError where it can't be read.
    """
    found = _GtidSet()
    log = open(path)
    for batch in log.batches():
        for fields in batch:
            if fields[10]:
                raise LogError(fields[10], fields[0])
            if fields[9] in _WITH_GTIDS:
                found.add(Event(log, fields))
    return str(found)


@dataclass
class TypeStats:
    """How many events there are of a type, and how many bytes these have."""

    events: int = 0
    bytes: int = 0


@dataclass
class Stats:
    """How many events there are, and how many bytes these have, in all and by type. The sum of several is of all their logs.

    events, bytes: those of all types.
    damaged: how many events are damaged, which are in no other number.
    first, last: the timestamps of the first event and the last one, in seconds since 1970; None without events. Those of a
        sum are the least of the first ones and the greatest of the last ones.
    types: for each type that has events, by its name, or its number if that is unknown. MariaDB's own types have their names, too;
        a GTID_EVENT is one of either server.
    """

    events: int = 0
    bytes: int = 0
    damaged: int = 0
    first: Optional[int] = None
    last: Optional[int] = None
    types: dict[str, TypeStats] = field(default_factory=dict)

    def __add__(self, other: "Stats") -> "Stats":
        types = dict(self.types)
        for name, found in other.types.items():
            own = types.get(name, TypeStats())
            types[name] = TypeStats(own.events + found.events, own.bytes + found.bytes)
        return Stats(
            self.events + other.events,
            self.bytes + other.bytes,
            self.damaged + other.damaged,
            min((time for time in (self.first, other.first) if time is not None), default=None),
            max((time for time in (self.last, other.last) if time is not None), default=None),
            types,
        )


def stats(path: Path) -> Stats:
    """How many events of each type a log has, and how many bytes these have.

    Raises InvalidLog where the file doesn't begin with the file header, and OSError where it can't be read.
    """
    found = Stats()
    events, sizes = [0] * 256, [0] * 256
    for batch in open(path).batches():
        for _, _, _, _, timestamp, _, event_size, _, _, event_type, error, _, _, _ in batch:
            if error:
                found.damaged += 1
                continue
            events[event_type] += 1
            sizes[event_type] += event_size
            if found.first is None:
                found.first = timestamp
            found.last = timestamp
    for kind in filter(events.__getitem__, range(256)):
        own = found.types.setdefault(name_of(kind), TypeStats())
        own.events += events[kind]
        own.bytes += sizes[kind]
    found.events, found.bytes = sum(events), sum(sizes)
    return found
