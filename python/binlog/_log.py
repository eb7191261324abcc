"""Logs that lie in memory, and their events."""

import builtins
import ctypes
import json
import mmap
import os
import warnings
from collections.abc import Iterator
from typing import Any, NamedTuple, Optional, Union

from ._bodies import value_of
from ._columns import Columns, DeclaredTables, TableName, declared
from ._content import Content
from ._errors import ColumnsWarning, InvalidLog, LogError
from ._library import INVALID_CURSOR, ITEM, LIBRARY, CacheStruct, CursorStruct, address_of, line_cache
from ._payloads import PayloadEvent, payload_events
from ._types import EventType, MariaEventType, name_of

# How many items a call has room for.
_BATCH = 512

# How many bytes a line has room for at first.
_LINE = 4096
# And the events inside a compressed transaction.
_PAYLOAD = 1 << 16

# How many bytes the lines of a call have room for.
_LINES = 1 << 18

# The types whose events name a table map by its id.
_ROWS = frozenset((23, 24, 25, 30, 31, 32, 39))

# MariaDB's own types.
_MARIAS = frozenset(MariaEventType)

# What the library has for no column of a table.
_NO_COLUMN = ctypes.c_size_t(-1).value

Buffer = Union[bytes, bytearray, memoryview, mmap.mmap]


class Cursor(NamedTuple):
    """A place in a log: three numbers, which can be stored and sent.

    position: where the next event begins, in bytes from the start of the log.
    description: where the event begins whose format description is in force, or 0 for the default one.
    ended: 0 while events may follow.
    """

    position: int
    description: int
    ended: int = 0


def _place(cursor: Cursor) -> CursorStruct:
    """A cursor as the library takes it, which has 64 bits for each number."""
    if any(not 0 <= number < 1 << 64 for number in cursor):
        raise LogError(INVALID_CURSOR, cursor[0])
    return CursorStruct(*cursor)


class _TableMaps:
    """The table maps that are in force at a place of an iteration.

    Tables are found by the first four bytes of the data, which are those of the id: where ids have four bytes, flags are behind
    them. The few table maps that have these in common are given to the library, which looks at the whole id.
    """

    def __init__(self, log_bytes: memoryview) -> None:
        self._bytes = log_bytes
        self._maps: dict[bytes, dict[bytes, tuple]] = {}

    def after(self, fields: tuple) -> tuple[tuple, ...]:
        """The table maps for a row event; none for another event, which may bring one into force, or clear all."""
        event_type, start = fields[9], fields[2]
        if event_type in _ROWS:
            return tuple(self._maps.get(bytes(self._bytes[start : start + 4]), {}).values())
        if event_type == EventType.TABLE_MAP_EVENT:
            table_id = bytes(self._bytes[start : start + 6])
            maps = self._maps.setdefault(table_id[:4], {})
            maps.pop(table_id, None)
            maps[table_id] = fields
        elif event_type == EventType.ROTATE_EVENT and any(self._bytes[start : start + 8]):
            self._maps.clear()
        return ()


def _runs(batch: list[tuple], table_maps: _TableMaps) -> Iterator[tuple[list[tuple], tuple[tuple, ...]]]:
    """The items of a batch, in runs, each with the table maps that all of its row events have."""
    run: list[tuple] = []
    maps: Optional[tuple[tuple, ...]] = None
    for fields in batch:
        found = () if fields[10] else table_maps.after(fields)
        if not fields[10] and fields[9] in _ROWS:
            if maps is not None and found != maps:
                yield run, maps
                run = []
            maps = found
        run.append(fields)
    if run:
        yield run, maps or ()


class _TableColumns:
    """What files of columns declare of the tables of a log."""

    def __init__(self, log: "Log", declared: DeclaredTables) -> None:
        self._log = log
        self._declared = declared
        # By what stands behind the table id, and the place of the description, the names of the table.
        self._names: dict[tuple[int, bytes], TableName] = {}
        self._texts: dict[tuple[TableName, ...], bytes] = {}
        self._warned: set[TableName] = set()
        self._said: set[str] = set()

    def inside(self, log: "Log") -> "_TableColumns":
        """The same of the events inside a compressed transaction of this log. A table has no second warning there."""
        found = _TableColumns(log, self._declared)
        found._warned, found._said = self._warned, self._said
        return found

    def say(self, message: str) -> None:
        """Warns of a table, once a log."""
        if message not in self._said:
            self._said.add(message)
            path = "" if self._log._path is None else f"{self._log._path}: "
            warnings.warn(f"{path}{message}", ColumnsWarning, stacklevel=2)

    @property
    def whole_text(self) -> bytes:
        """The text of a file of all declared tables."""
        return self._declared.whole_text

    def text(self, table_maps: tuple[tuple, ...]) -> bytes:
        """The text of a file of the tables of these table maps; empty where none is declared."""
        names = tuple(map(self._name, table_maps))
        text = self._texts.get(names)
        if text is None:
            text = self._texts[names] = self._declared.text(names)
        return text

    def _name(self, table_map: tuple) -> TableName:
        """The names of the table of a table map. A table that contradicts its file has a warning."""
        start = table_map[2]
        key = (table_map[1], bytes(self._log._bytes[start + 6 : start + table_map[3]]))
        name = self._names.get(key)
        if name is None:
            members = json.loads(self._log._plain_line(table_map))["data"]
            schema, table = (value_of(members[of]) for of in ("database_name", "table_name"))
            name = self._names[key] = (_as_bytes(schema), _as_bytes(table))
            self._warn(name, table_map)
        return name

    def _warn(self, name: TableName, table_map: tuple) -> None:
        text = self._declared.text([name])
        if not text or name in self._warned:
            return
        error = ctypes.c_uint8()
        log, size, item = self._log._at, self._log._size, ITEM.pack(*table_map)
        column = LIBRARY.binlog_columns_contradiction(log, size, item, text, len(text), error)
        if error.value:
            raise LogError(error.value, table_map[0])
        if column != _NO_COLUMN:
            self._warned.add(name)
            table = b".".join(name).decode(errors="replace")
            self.say(f"table {table}: column {column + 1} contradicts the file of columns, which isn't used for this table")


def _as_bytes(name: Union[str, bytes]) -> bytes:
    return name.encode() if isinstance(name, str) else name


class _Item:
    """What stands at a place of a log. It keeps the log."""

    __slots__ = ("_log", "_fields")

    def __init__(self, log: "Log", fields: tuple) -> None:
        self._log = log
        self._fields = fields

    def line(self, index: int = 0) -> bytes:
        """The line of JSON of the item, as the program `binlog json` prints it (docs/JSON.md): an object that begins with this
        index, and a line feed.

        Raises LogError, Memory, where memory runs out.
        """
        return self._log._line(self._fields, (), index)

    @property
    def position(self) -> int:
        """Where the event begins, in bytes from the start of the log."""
        return self._fields[0]

    @property
    def cursor(self) -> Cursor:
        """The place before the event: Log.events gives it again from there."""
        return Cursor(self._fields[0], self._fields[1])

    @property
    def timestamp(self) -> int:
        """When the event was created, in seconds since 1970."""
        return self._fields[4]

    @property
    def server_id(self) -> int:
        """The id of the server that created the event."""
        return self._fields[5]

    @property
    def event_size(self) -> int:
        """How many bytes the event has, as its header states."""
        return self._fields[6]

    @property
    def log_pos(self) -> int:
        """The position behind the event in its server's file, modulo 2 ** 32."""
        return self._fields[7]

    @property
    def flags(self) -> int:
        """All bits of the flags, known or not."""
        return self._fields[8]

    @property
    def event_type(self) -> int:
        """The number of the event's type, known or not."""
        return self._fields[9]

    @property
    def type(self) -> Optional[EventType]:
        """The event's type; None for an unknown number."""
        try:
            return EventType(self._fields[9])
        except ValueError:
            return None

    @property
    def checksum(self) -> Optional[bytes]:
        """The four bytes of the checksum, as they stand in the log, or None. A Damage has them with ChecksumMismatch alone."""
        return self._fields[11] if self._fields[12] else None


class Event(_Item, Content):
    """An event of a log: its header, its data and its checksum."""

    __slots__ = ("_maps", "_members")

    @property
    def name(self) -> Optional[str]:
        """The name of the event's type, as the lines of JSON have it: also of one of MariaDB's own in a log that MariaDB wrote. None for an
        unknown type."""
        kind = self._fields[9]
        if kind in _MARIAS:
            return name_of(kind) if self._log._is_marias(self._fields) else None
        return None if self.type is None else name_of(kind)

    def __init__(self, log: "Log", fields: tuple, table_maps: tuple[tuple, ...] = ()) -> None:
        super().__init__(log, fields)
        self._maps = table_maps
        self._members: Optional[dict[str, Any]] = None

    @property
    def data(self) -> bytes:
        """The event's data: its bytes without header, algorithm byte and checksum."""
        start = self._fields[2]
        return bytes(self._log._bytes[start : start + self._fields[3]])

    @property
    def raw(self) -> bytes:
        """All bytes of the event, as they stand in the log."""
        start = self._fields[0]
        return bytes(self._log._bytes[start : start + self._fields[6]])

    def line(self, index: int = 0) -> bytes:
        return self._log._line(self._fields, self._maps, index)

    def _member(self, name: str) -> Any:
        """A member of the line's object. The line is made once."""
        if self._members is None:
            self._members = json.loads(self.line())
        return self._members.get(name)

    def payload_log(self) -> Optional["Log"]:
        """The events inside a compressed transaction as a log of their own, which the library decompresses; None where this is no event
        with a payload. Its first item is the description in force for this event, if there is one. Its files of columns are those
        of this log.

        Raises LogError where the payload is refused, or isn't whole events: its number is one of 105 to 117.
        """
        if self.event_type != EventType.TRANSACTION_PAYLOAD_EVENT:
            return None
        return self._log._inside(self._fields)

    def payload_events(self, program: Optional[Union[str, "os.PathLike[str]"]] = None) -> Iterator[PayloadEvent]:
        """The events inside a compressed transaction, in order; none where this is no event with a payload. Their rows are those of the
        table maps inside, and of the log's files of columns.

        program: the program `binlog`, which reads them; if not given, the one that the variable BINLOG_PROGRAM names, or the one that
            the system finds.

        Raises PayloadError in the place of an event inside that is damaged, or of all where the payload can't be read, and ProgramError
        where the program can't be run.
        """
        if self.event_type != EventType.TRANSACTION_PAYLOAD_EVENT:
            return iter(())
        columns, alone = self._log._columns, self._log._alone(self)
        if columns is None:
            return payload_events(program, alone, self.position)
        return payload_events(program, alone, self.position, columns.whole_text, columns.say)

    def __repr__(self) -> str:
        return f"<Event type {self.event_type} at {self.position}, {self.event_size} bytes>"


class Damage(_Item):
    """An error in the place of an event. The fields of the header are what stands in the log."""

    __slots__ = ()

    @property
    def error(self) -> LogError:
        """The error, as an exception that can be raised."""
        return LogError(self._fields[10], self._fields[0])

    @property
    def computed_checksum(self) -> Optional[bytes]:
        """With ChecksumMismatch the four bytes that the checksum would have to be, otherwise None."""
        return self._fields[13].to_bytes(4, "little") if self._fields[12] else None

    def __repr__(self) -> str:
        return f"<Damage {self.error.name} at {self.position}>"


class Log:
    """A binary log in memory, which isn't copied: bytes, or what else gives its bytes, as a memoryview or an mmap.

    Iterating over it gives its events, and raises LogError in the place of a damaged one. `items` goes on behind such.
    The bytes have to stay as they are while the log is in use.

    verify: whether an event is damaged, too, if its stored checksum isn't the CRC-32 of its bytes: its error is
        ChecksumMismatch then. A format description whose checksum is wrong says nothing of the events behind it.
    columns: files of columns, for what the log doesn't state of columns: a path, a binary file, or several of these, of which the
        last one that has a table counts. They are read at once. A table that contradicts its file has a ColumnsWarning, once, and
        its rows have nothing of the file.

    Raises InvalidLog where the bytes don't begin with the file header, InvalidColumns where a file of columns isn't one, and OSError
    where it can't be read.
    """

    def __init__(self, content: Buffer, *, verify: bool = False, columns: Optional[Columns] = None) -> None:
        # As single bytes, whatever the items of the content are. The view keeps the content where it is.
        self._bytes = memoryview(content).cast("B")
        self._size = self._bytes.nbytes
        self._at = address_of(self._bytes)
        first = CursorStruct()
        error = LIBRARY.binlog_open(self._at, self._size, first)
        if error:
            raise InvalidLog(error)
        self._first = Cursor(first.position, first.description, first.ended)
        self._fill = LIBRARY.binlog_next_verified if verify else LIBRARY.binlog_next
        self._rest: Optional[int] = None
        # That of the file, where the log is opened by it.
        self._path: Optional[str] = None
        # Whether a description is MariaDB's, by its place.
        self._marias: dict[int, bool] = {}
        self._columns = None if columns is None else _TableColumns(self, declared(columns))

    @property
    def size(self) -> int:
        """How many bytes the log has. It has no length, of which `list` and `tuple` would make room for as many events."""
        return self._size

    @property
    def rest(self) -> int:
        """How many bytes lie behind the last item: 0 where all bytes are whole events, and after EventSizeTooSmall. Otherwise the
        log ends within an event, and these bytes are its beginning.

        The log is read to its end for it, unless an iteration from its start has come there.
        """
        if self._rest is None:
            for _ in self.batches():
                pass
        return self._rest or 0

    def _rest_at(self, cursor: Cursor) -> int:
        """How many bytes there are from a place on, if they are the beginning of an event; otherwise 0."""
        return LIBRARY.binlog_rest(self._at, self._size, _place(cursor))

    def _line(self, fields: tuple, table_maps: tuple[tuple, ...], index: int) -> bytes:
        """The line of JSON of an item, with these table maps."""
        columns = self._columns_of(table_maps)
        call = LIBRARY.binlog_json_with_columns if columns else LIBRARY.binlog_json
        item = ITEM.pack(*fields)
        maps = b"".join(ITEM.pack(*table_map) for table_map in table_maps)
        error = ctypes.c_uint8()
        room, size = 0, _LINE
        while room < size:
            room = size
            text = ctypes.create_string_buffer(room)
            size = call(self._at, self._size, item, maps, len(table_maps), *columns, index, text, room, error)
            if error.value:
                raise LogError(error.value, fields[0])
        return ctypes.string_at(text, size)

    def _inside(self, fields: tuple) -> "Log":
        """The log of the events inside a compressed transaction."""
        item, error = ITEM.pack(*fields), ctypes.c_uint8()
        room, size = 0, _PAYLOAD
        while room < size:
            room = size
            content = ctypes.create_string_buffer(room)
            size = LIBRARY.binlog_payload_log(self._at, self._size, item, content, room, error)
            if error.value:
                raise LogError(error.value, fields[0])
        inside = Log(ctypes.string_at(content, size))
        inside._path = self._path
        if self._columns is not None:
            inside._columns = self._columns.inside(inside)
        return inside

    def _alone(self, event: Event) -> bytes:
        """A log of an event alone, behind the description under which it stands."""
        place = event.cursor.description
        size = int.from_bytes(self._bytes[place + 9 : place + 13], "little") if place else 0
        return bytes(self._bytes[:4]) + bytes(self._bytes[place : place + size]) + event.raw

    def _plain_line(self, fields: tuple) -> bytes:
        """The line of JSON of an item that isn't a row event."""
        return self._line(fields, (), 0)

    def _is_marias(self, fields: tuple) -> bool:
        """Whether MariaDB wrote an event of one of its own types: these have names in a log whose description in force is one of MariaDB's."""
        found = self._marias.get(fields[1])
        if found is None:
            found = self._marias[fields[1]] = json.loads(self._plain_line(fields))["name"] is not None
        return found

    def _columns_of(self, table_maps: tuple[tuple, ...]) -> Union[tuple[()], tuple[bytes, int]]:
        """The text of a file of the columns of these tables, and its length; nothing if there is none."""
        text = self._columns.text(table_maps) if self._columns and table_maps else b""
        return (text, len(text)) if text else ()

    def _lines(
        self, run: list[tuple], table_maps: tuple[tuple, ...], index: int, kept: CacheStruct
    ) -> Iterator[bytes]:
        """The lines of JSON of items, of which the first has this index, with these table maps, by what is kept of lines before."""
        columns = self._columns_of(table_maps)
        call = LIBRARY.binlog_json_lines_with_columns if columns else LIBRARY.binlog_json_lines_cached
        cache = () if columns else (kept,)
        items = b"".join(ITEM.pack(*fields) for fields in run)
        maps = b"".join(ITEM.pack(*table_map) for table_map in table_maps)
        text = ctypes.create_string_buffer(_LINES)
        count, error = ctypes.c_size_t(), ctypes.c_uint8()
        room = (text, _LINES, *cache, count, error)
        done = 0
        while done < len(run):
            left, first = items[done * ITEM.size :], index + done
            size = call(self._at, self._size, left, len(run) - done, maps, len(table_maps), *columns, first, *room)
            yield from ctypes.string_at(text, size).splitlines(keepends=True)
            done += count.value
            if error.value:
                raise LogError(error.value, run[done][0])
            if count.value == 0:
                yield self._line(run[done], table_maps, index + done)
                done += 1

    def batches(self, start: Optional[Cursor] = None) -> Iterator[list[tuple]]:
        """The items from a place on, as they stand in the library's structures, batch after batch: for each a tuple of the
        members of `binlog_item` in their order, which are in include/binlog.h. It is the fastest way to the fields of headers.

        Raises LogError, InvalidCursor, where the place isn't one of this log.
        """
        place = _place(self._first if start is None else start)
        items = ctypes.create_string_buffer(_BATCH * ITEM.size)
        error = ctypes.c_uint8()
        count = _BATCH
        while count == _BATCH:
            count = self._fill(self._at, self._size, place, items, _BATCH, error)
            if error.value:
                raise LogError(error.value, place.position)
            if count < _BATCH and start is None:
                self._rest = LIBRARY.binlog_rest(self._at, self._size, place)
            yield list(ITEM.iter_unpack(memoryview(items)[: count * ITEM.size]))

    def items(self, start: Optional[Cursor] = None) -> Iterator[Union[Event, Damage]]:
        """The events from a place on, and a Damage in the place of each damaged one; from the first event if not given.

        Raises LogError, InvalidCursor, where the place isn't one of this log.
        """
        table_maps = _TableMaps(self._bytes)
        for batch in self.batches(start):
            for fields in batch:
                yield Damage(self, fields) if fields[10] else Event(self, fields, table_maps.after(fields))

    def events(self, start: Optional[Cursor] = None) -> Iterator[Event]:
        """The events from a place on; from the first if not given.

        Raises LogError in the place of a damaged event, and where the place isn't one of this log.
        """
        for item in self.items(start):
            if isinstance(item, Damage):
                raise item.error
            yield item

    def lines(self) -> Iterator[bytes]:
        """The lines of JSON of all items, each with its index, as the program `binlog json` prints them."""
        table_maps = _TableMaps(self._bytes)
        index = 0
        with line_cache() as kept:
            for batch in self.batches():
                for run, maps in _runs(batch, table_maps):
                    yield from self._lines(run, maps, index, kept)
                    index += len(run)

    def __iter__(self) -> Iterator[Event]:
        return self.events()


def open(path: Union[str, "os.PathLike[str]"], *, verify: bool = False, columns: Optional[Columns] = None) -> Log:
    """The binary log in a file, which is mapped into memory and has to stay as long as it is. What isn't a file, as a pipe, is read to its end.

    verify: whether checksums are verified, as Log says.
    columns: files of columns, as Log says: a path, a binary file, or several of these.

    Raises InvalidLog where the file doesn't begin with the file header, InvalidColumns where a file of columns isn't one, and OSError
    where a file can't be read.
    """
    with builtins.open(path, "rb") as file:
        if os.fstat(file.fileno()).st_size == 0:
            content: Buffer = file.read()
        else:
            content = mmap.mmap(file.fileno(), 0, access=mmap.ACCESS_READ)
    log = Log(content, verify=verify, columns=columns)
    log._path = os.fsdecode(path)
    return log
