"""What a line of JSON says of an event: its body, and of a row event its table and its rows."""

from typing import Any, Optional, Union

from ._bodies import Body, row_of, value_of
from ._errors import LogError, RowsError


class Content:
    """What the line of an event says."""

    __slots__ = ()

    @property
    def position(self) -> int:
        """Where the event begins, in bytes from the start of the log."""
        raise NotImplementedError

    def _member(self, name: str) -> Any:
        """A member of the line's object; None if it has none of this name."""
        raise NotImplementedError

    @property
    def body(self) -> Optional[Body]:
        """What the data says, by the names of docs/JSON.md; None for a type that isn't known.

        Raises LogError where the data isn't a body of the event's type.
        """
        found = value_of(self._member("data"))
        if found is not None and found.keys() == {"error"}:
            raise LogError(found["error"], self.position)
        return found

    @property
    def table(self) -> Union[str, bytes, None]:
        """The name of the table whose rows these are, its schema and a dot in front; bytes if it isn't UTF-8; None if this is no row event, or no table
        map is in force for it."""
        return value_of(self._member("table"))

    @property
    def rows(self) -> Optional[list[dict[str, dict[str, Any]]]]:
        """The rows of a row event: for each a dict of its images, `before` and `after`, in which columns are found by their
        names, or by `@1`, `@2` and so on where neither the table map nor a file of columns has names. None if this is no row event, no table map is in
        force for it, or its rows aren't decoded.

        A value is None, an int, a float, a str or bytes, and that of a JSON column what `json.loads` makes of the document, as
        docs/ROW_VALUES.md has it.

        Raises RowsError where a row, or the table map, isn't right.
        """
        found = self._member("rows")
        if found is None:
            return None
        if found and "error" in found[-1]:
            raise RowsError(found[-1], self.position)
        return [row_of(row) for row in found]
