"""The exceptions. Those of logs have the error's number and name."""

from typing import Any, Optional

from . import _library


class BinlogError(Exception):
    """An error of the library.

    number: the error's number, as include/binlog.h has it.
    name: the error's name, "EventSizeTooSmall" for instance.
    """

    number: int
    name: str

    def __init__(self, number: int) -> None:
        self.number = number
        self.name = _library.error_name(number)
        super().__init__(f"{self.name}: {_library.error_text(number)}")

    def __reduce__(self) -> tuple:
        return type(self), (self.number,)


class InvalidLog(BinlogError):
    """The bytes aren't a binary log: EndOfInput or InvalidFileHeader."""


class LogError(BinlogError):
    """An error in the place of an event, or a cursor that is no place of the log.

    position: where the event begins, or what the cursor says.
    """

    position: int

    def __init__(self, number: int, position: int) -> None:
        super().__init__(number)
        self.position = position
        self.args = (f"{self.args[0]}, at {position}",)

    def __reduce__(self) -> tuple:
        return type(self), (self.number, self.position)


class InvalidColumns(BinlogError):
    """A text isn't that of a file of columns.

    path: the file's path, or None if it has none.
    line: the line of the first fault, from 1.
    column: the byte of the line, from 1.
    kind: the number of what is wrong there, as include/binlog.h has it.
    """

    path: Optional[str]
    line: int
    column: int
    kind: int

    def __init__(self, path: Optional[str], line: int, column: int, kind: int) -> None:
        super().__init__(_library.INVALID_COLUMNS)
        self.path, self.line, self.column, self.kind = path, line, column, kind
        named = "" if path is None else f"{path}: "
        self.args = (f"{named}line {line}, column {column}: {_library.columns_fault_text(kind)}",)

    def __reduce__(self) -> tuple:
        return type(self), (self.path, self.line, self.column, self.kind)


class ColumnsWarning(UserWarning):
    """A table of the log contradicts the file that declares it, so its rows have nothing of the file."""


class RowsError(Exception):
    """A row of a row event can't be read, or all of them, since their table map can't.

    name: what is wrong, as docs/ROW_VALUES.md has it: "Truncated" for instance.
    position: where the event begins.
    details: the numbers that say where in the event it is, by their names: `row`, `image`, `column` for instance.
    """

    name: str
    position: int
    details: dict[str, Any]

    def __init__(self, found: dict[str, Any], position: int) -> None:
        self.name = found["error"]
        self.position = position
        self.details = {name: of for name, of in found.items() if name != "error"}
        super().__init__(found, position)

    def __str__(self) -> str:
        where = "".join(f", {name} {of}" for name, of in self.details.items())
        return f"{self.name}{where}, in the event at {self.position}"


class PayloadError(Exception):
    """A compressed transaction can't be read, or an event inside can't.

    name: what is wrong, as docs/JSON.md has it: "Zstd" for instance.
    position: where the event that has the payload begins.
    part: the number of the event inside, from 0; all of the payload is meant where nothing inside can be read.
    details: what else is known, by its name: `zstd` for instance.
    """

    name: str
    position: int
    part: int
    details: dict[str, Any]

    def __init__(self, found: dict[str, Any], position: int) -> None:
        self.name = found["error"]
        self.position = position
        self.part = found["part"]
        self.details = {name: of for name, of in found.items() if name not in ("index", "part", "error")}
        super().__init__(found, position)

    def __str__(self) -> str:
        more = "".join(f", {name} {of}" for name, of in self.details.items())
        return f"{self.name}{more}, part {self.part} of the event at {self.position}"
