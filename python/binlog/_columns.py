"""Files of columns: what a server's information_schema.COLUMNS says of tables, for what table maps don't state of columns."""

import builtins
import ctypes
import os
from collections.abc import Iterable
from typing import BinaryIO, Optional, Union

from ._errors import BinlogError, InvalidColumns
from ._library import INVALID_COLUMNS, LIBRARY, ColumnsFaultStruct

Source = Union[str, "os.PathLike[str]", BinaryIO]
Sources = Union[Source, Iterable[Source]]

# The names of a schema and of a table, as bytes.
TableName = tuple[bytes, bytes]

# How a byte of a name is spelled in a file.
_SPELLED = ((b"\\", b"\\\\"), (b"\t", b"\\t"), (b"\n", b"\\n"), (b"\0", b"\\0"))


def _spelled(name: bytes) -> bytes:
    for byte, spelled in _SPELLED:
        name = name.replace(byte, spelled)
    return name


def _is_one(sources: Sources) -> bool:
    return isinstance(sources, (str, os.PathLike)) or hasattr(sources, "read")


def _read(source: Source) -> tuple[Optional[str], bytes]:
    """The path of a file, if it has one, and its text."""
    if isinstance(source, (str, os.PathLike)):
        with builtins.open(source, "rb") as file:
            return os.fspath(source), file.read()
    text = source.read()
    if not isinstance(text, bytes):
        raise TypeError("a file of columns has to be opened as bytes")
    return getattr(source, "name", None), text


def _check(path: Optional[str], text: bytes) -> None:
    """Raises InvalidColumns where a text isn't that of a file of columns."""
    fault = ColumnsFaultStruct()
    error = LIBRARY.binlog_columns_check(text, len(text), ctypes.byref(fault))
    if error == INVALID_COLUMNS:
        raise InvalidColumns(path, fault.line, fault.column, fault.kind)
    if error:
        raise BinlogError(error)


class DeclaredTables:
    """The tables that files of columns declare: of those that have a table the last one counts."""

    def __init__(self, sources: Sources) -> None:
        self._head = b""
        self._lines: dict[TableName, list[bytes]] = {}
        for source in [sources] if _is_one(sources) else sources:  # type: ignore[list-item,union-attr]
            path, text = _read(source)  # type: ignore[arg-type]
            _check(path, text)
            self._head, *lines = text.split(b"\n")[:-1]
            self._lines.update(_by_table(lines))

    def text(self, names: Iterable[TableName]) -> bytes:
        """The text of a file of these tables alone; empty where none is declared. It is short, since it is read for each event."""
        found = {name: self._lines.get((_spelled(name[0]), _spelled(name[1])), []) for name in names}
        return self._text_of(found.values())

    @property
    def whole_text(self) -> bytes:
        """The text of a file of all tables."""
        return self._text_of(self._lines.values())

    def _text_of(self, tables: Iterable[list[bytes]]) -> bytes:
        lines = [line for of_table in tables for line in of_table]
        return b"".join(line + b"\n" for line in [self._head, *lines]) if lines else b""


Columns = Union[Sources, DeclaredTables]


def declared(columns: Columns) -> DeclaredTables:
    """The tables that files of columns declare, which may have been read."""
    return columns if isinstance(columns, DeclaredTables) else DeclaredTables(columns)


def _by_table(lines: Iterable[bytes]) -> dict[TableName, list[bytes]]:
    """The lines of each table, by its names as they are spelled. Those of a table may stand apart."""
    found: dict[TableName, list[bytes]] = {}
    for line in lines:
        schema, table, _ = line.split(b"\t", 2)
        found.setdefault((schema, table), []).append(line)
    return found
