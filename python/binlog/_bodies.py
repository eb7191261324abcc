"""The data of events as Python's values, from the members of their lines of JSON, which docs/JSON.md describes."""

from collections.abc import Iterable
from typing import Any, Optional

# The members that are bytes, in hexadecimal digits.
_BYTES = {
    "block_data",
    "bqual",
    "columns_metadata",
    "columns_type",
    "event_type_header_lengths",
    "extra_data",
    "gtrid",
    "nonce",
    "optional_metadata",
    "raw",
    "rows_data",
    "status_vars_rest",
}

# The status variables whose values are bytes.
_BYTES_VARIABLES = {"Catalog", "CommitTs", "CommitTs2", "MasterDataWritten"}


class Body(dict[str, Any]):
    """The data of an event: its members by their names, which are attributes, too.

    Numbers are ints, texts are strs, or bytes where they aren't UTF-8, and bytes are bytes.
    """

    __slots__ = ()

    def __getattr__(self, name: str) -> Any:
        try:
            return self[name]
        except KeyError:
            raise AttributeError(f"the data of the event has no member {name!r}") from None


class Diffs(list[dict[str, Any]]):
    """How a document of a JSON column was changed by a partial update: its diffs, in order.

    Each is a dict of `op`, which is "replace", "insert" or "remove", of `path`, and but for a removal of `value`. Where the image
    before has the document, and they can be applied to it, `has_document` is true, and `document` is the document after them.
    """

    __slots__ = ("document", "has_document")

    def __init__(self, diffs: Iterable[dict[str, Any]] = (), *after: Any) -> None:
        super().__init__(diffs)
        self.has_document = bool(after)
        self.document = after[0] if after else None


def _is_bytes(members: dict[str, Any], name: str) -> bool:
    """Whether a member is bytes: of the members named `value` those of some status variables, and that of a user variable."""
    if name == "value":
        return members.get("key") in _BYTES_VARIABLES or "value_type" in members
    return name in _BYTES


def value_of(found: Any) -> Any:
    """What a value of a line of JSON says."""
    if isinstance(found, list):
        return [value_of(item) for item in found]
    if not isinstance(found, dict):
        return found
    if found.keys() == {"hex"}:
        return bytes.fromhex(found["hex"])
    return Body((name, bytes.fromhex(of) if _is_bytes(found, name) else value_of(of)) for name, of in found.items())


def _cell_of(found: Any) -> Any:
    """The value of a column. In the line a JSON document is an object of one member, and so are a list of diffs, but for the document
    after them, and the bytes of what is no text in its character set, of what is no document or no such list, and of compressed
    values."""
    if not isinstance(found, dict):
        return found
    (name, value), *after = found.items()
    if name == "json":
        return value
    return Diffs(value, *(document for _, document in after)) if isinstance(value, list) else bytes.fromhex(value)


def _image_of(found: Optional[dict[str, Any]]) -> dict[str, Any]:
    return {name: _cell_of(cell) for name, cell in (found or {}).items()}


def row_of(found: dict[str, Any]) -> dict[str, dict[str, Any]]:
    """A row: its images, `before` and `after`, by the names of the columns."""
    return {image: _image_of(cells) for image, cells in found.items()}
