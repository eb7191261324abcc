"""What is undone, and what can't be."""

from collections.abc import Sequence
from dataclasses import dataclass


@dataclass(frozen=True)
class Refusal:
    """A transaction, or a log, that can't be undone.

    file: the log's path.
    index: the index of the event, from 0.
    position: where the event begins in its log, in bytes.
    reason: its name, as docs/UNDO.md has it: "Statement" for instance.
    text: what it says.
    skipped: whether it is one of those that are left as they are.
    """

    file: str
    index: int
    position: int
    reason: str
    text: str
    skipped: bool = False


@dataclass(frozen=True)
class UndoneTable:
    """What is undone of a table, whose name is "shop.orders": its row events, and the rows that these inserted, updated and deleted."""

    name: str
    row_events: int
    inserted: int
    updated: int
    deleted: int


@dataclass(frozen=True)
class Undone:
    """What is undone: how many transactions and row events; what is left as it is; and where the program only counts, the tables."""

    transactions: int
    row_events: int
    skipped: tuple[Refusal, ...] = ()
    tables: tuple[UndoneTable, ...] = ()


class UndoRefused(Exception):
    """Something can't be undone, so nothing was written. `refusals` has each, in the order of the logs, the skipped ones too."""

    refusals: tuple[Refusal, ...]

    def __init__(self, refusals: Sequence[Refusal]) -> None:
        self.refusals = tuple(refusals)
        named = [f"{one.file}: event {one.index} at byte {one.position}: {one.reason}" for one in self.refusals if not one.skipped]
        super().__init__("; ".join(named))

    def __reduce__(self) -> tuple:
        return type(self), (self.refusals,)
