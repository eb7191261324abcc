"""The events inside MySQL's compressed transactions, which the program `binlog` reads."""

import json
import os
import subprocess
import tempfile
from collections.abc import Callable, Iterator
from typing import Any, Optional, Union

from ._content import Content
from ._errors import PayloadError
from ._program import ProgramError, program
from ._types import EventType

# The exit statuses with which what is printed is whole: all is well, and damage.
_WHOLE = (0, 2)

# How the message ends of a table that contradicts the file of columns.
_CONTRADICTS = b"contradicts the file of columns, which isn't used for this table"


class PayloadEvent(Content):
    """An event inside a compressed transaction. It has no checksum, and its log_pos is 0."""

    __slots__ = ("_position", "_members")

    def __init__(self, members: dict[str, Any], position: int) -> None:
        self._position = position
        self._members = members

    def _member(self, name: str) -> Any:
        return self._members.get(name)

    @property
    def position(self) -> int:
        """Where the event begins that has the payload, in bytes from the start of the log."""
        return self._position

    @property
    def part(self) -> int:
        """The number of the event among those inside, from 0."""
        return self._members["part"]

    @property
    def event_type(self) -> int:
        """The number of the event's type, known or not."""
        return self._members["type"]

    @property
    def type(self) -> Optional[EventType]:
        """The event's type; None for an unknown number."""
        try:
            return EventType(self.event_type)
        except ValueError:
            return None

    @property
    def name(self) -> Optional[str]:
        """The name of the event's type, as the lines of JSON have it; None for an unknown type."""
        return self._members["name"]

    @property
    def timestamp(self) -> int:
        """When the event was created, in seconds since 1970."""
        return self._members["timestamp"]

    @property
    def server_id(self) -> int:
        """The id of the server that created the event."""
        return self._members["server_id"]

    @property
    def event_size(self) -> int:
        """How many bytes the event has, as its header states."""
        return self._members["event_size"]

    @property
    def flags(self) -> int:
        """All bits of the flags, known or not."""
        return self._members["flags"]

    def __repr__(self) -> str:
        return f"<PayloadEvent {self.part} of type {self.event_type} inside that at {self.position}, {self.event_size} bytes>"


def payload_events(
    stated: Optional[Union[str, "os.PathLike[str]"]],
    log: bytes,
    position: int,
    columns: bytes = b"",
    warn: Optional[Callable[[str], None]] = None,
) -> Iterator[PayloadEvent]:
    """The events inside the last event of a small log, which begins at this place of its own log, with the text of a file of columns. `warn`
    is told of each table that contradicts it.

    Raises what Event.payload_events says.
    """
    lines, messages = _lines(program(stated), log, columns)
    for message in messages:
        if warn and message.endswith(_CONTRADICTS):
            warn(message.removeprefix(b"binlog: ").decode(errors="replace"))
    for line in lines:
        members = json.loads(line)
        if "part" not in members:
            continue
        if "error" in members:
            raise PayloadError(members, position)
        yield PayloadEvent(members, position)


def _lines(command: str, log: bytes, columns: bytes) -> tuple[list[bytes], list[bytes]]:
    """What the program prints, and its messages."""
    if not columns:
        return _asked([command, "json", "-"], log)
    with tempfile.NamedTemporaryFile(prefix="binlog-", suffix=".tsv") as file:
        file.write(columns)
        file.flush()
        return _asked([command, "json", "--columns", file.name, "-"], log)


def _asked(words: list[str], log: bytes) -> tuple[list[bytes], list[bytes]]:
    try:
        ran = subprocess.run(words, input=log, capture_output=True)
    except OSError as error:
        raise ProgramError(f"{words[0]}: {error.strerror}") from error
    if ran.returncode not in _WHOLE:
        raise ProgramError(ran.stderr.decode(errors="replace").strip() or f"{words[0]}: status {ran.returncode}")
    return ran.stdout.splitlines(), ran.stderr.split(b"\n")
