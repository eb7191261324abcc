"""Charts of what is said of logs, by matplotlib."""

import re
from collections.abc import Callable, Iterable, Sequence
from datetime import datetime, timezone
from io import StringIO
from operator import attrgetter
from typing import Any

import matplotlib
from matplotlib.axes import Axes
from matplotlib.dates import AutoDateLocator, ConciseDateFormatter
from matplotlib.figure import Figure
from matplotlib.ticker import EngFormatter

from ._statistics import Interval, Report, Times, Transactions

# Colors that differ for all kinds of eyes: of the kinds of changes, of tables, and of what isn't told apart.
_KINDS = {"inserted": "#009e73", "updated": "#0072b2", "deleted": "#d55e00"}
_COLORS = ("#0072b2", "#e69f00", "#009e73", "#cc79a7", "#56b4e9", "#d55e00")
_OTHERS = "#c9ced6"

_WIDTH = 9.6
_SHOWN_TABLES = 15
_LONGEST_NAME = 26
_MOST_LABELS = 12

_STYLE = {
    "axes.axisbelow": True,
    "axes.edgecolor": "#8a919c",
    "axes.grid": True,
    "axes.spines.right": False,
    "axes.spines.top": False,
    "font.size": 9,
    "grid.color": "#e6e8ec",
    "legend.frameon": False,
    "svg.fonttype": "none",
    "svg.hashsalt": "binlog",
    "text.parse_math": False,
}


def _length_text(seconds: int) -> str:
    """A length of time in the largest unit that it is a whole number of."""
    size, unit = next((size, unit) for size, unit in ((86400, "d"), (3600, "h"), (60, "min"), (1, "s")) if seconds % size == 0)
    return f"{seconds // size} {unit}"


def _short(name: str) -> str:
    """A name that isn't longer than there is room for. Both of its ends stay: the names of a database's tables often begin alike."""
    half = _LONGEST_NAME // 2
    return name if len(name) <= _LONGEST_NAME else f"{name[: half - 1]}…{name[-half:]}"


def _figure(height: float, left: float = 0.08, below: float = 0.5) -> tuple[Figure, Axes]:
    """A chart of so many inches, with room for a legend beside it. All charts end at one place, and those over time begin at one."""
    figure = Figure(figsize=(_WIDTH, height))
    figure.subplots_adjust(left=left, right=0.79, bottom=below / height, top=1 - 0.12 / height)
    return figure, figure.subplots()


# ---- over time


def _edges(found: Times) -> list[int]:
    """The times at which an interval begins or ends."""
    return sorted({edge for row in found.busy.rows for edge in (row.time, row.time + found.seconds)})


def _heights(edges: Sequence[int], rows: Iterable[Interval], value: Callable[[Interval], int]) -> list[int]:
    """The value of the interval that begins at each edge; 0 where none does. The last edge is an end."""
    values = {row.time: value(row) for row in rows}
    return [*(values.get(edge, 0) for edge in edges[:-1]), 0]


def _over_time(
    found: Times, what: str, total: Callable[[Interval], int], color: str = _OTHERS, unit: str = ""
) -> tuple[Figure, Axes, list[datetime]]:
    """A chart of the total of each interval."""
    figure, axes = _figure(2.7)
    edges = _edges(found)
    places = [datetime.fromtimestamp(edge, timezone.utc) for edge in edges]
    axes.fill_between(places, _heights(edges, found.rows, total), step="post", color=color, linewidth=0)
    locator = AutoDateLocator(tz=timezone.utc)
    axes.xaxis.set_major_locator(locator)
    axes.xaxis.set_major_formatter(ConciseDateFormatter(locator, tz=timezone.utc))
    axes.yaxis.set_major_formatter(EngFormatter(unit=unit))
    axes.yaxis.get_major_locator().set_params(integer=True)
    axes.set_ylabel(f"{what} in {_length_text(found.seconds)}")
    axes.yaxis.set_label_coords(-0.085, 0.5)
    axes.set_xlabel("UTC")
    axes.margins(x=0)
    axes.set_ylim(bottom=0)
    return figure, axes, places


def _stack(axes: Axes, places: Sequence[datetime], heights: Sequence[Sequence[int]], colors: Sequence[str]) -> None:
    if heights:
        axes.stackplot(places, *heights, step="post", colors=colors, linewidth=0)


def _legend(axes: Axes, names: Sequence[str]) -> None:
    """A legend beside the chart with the names of its last parts, the highest part of a stack first. Matplotlib leaves out what is
    called `_..`, so the names come last."""
    parts = list(axes.collections)[: -len(names) - 1 : -1]
    legend = axes.legend(parts, [str(place) for place in range(len(parts))], loc="upper left", bbox_to_anchor=(1.0, 1.0))
    for text, name in zip(legend.get_texts(), reversed(names)):
        text.set_text(name)


def bytes_over_time(report: Report) -> Figure:
    """The bytes of all events, and before them those of the tables with most bytes, one on another."""
    figure, axes, places = _over_time(report.times, "bytes", attrgetter("bytes"), unit="B")
    edges = _edges(report.times)
    heights = [_heights(edges, found.rows, attrgetter("bytes")) for found in report.stacked.values()]
    _stack(axes, places, heights, _COLORS)
    _legend(axes, ["all others", *(_short(str(name)) for name in report.stacked)])
    return figure


def rows_over_time(report: Report) -> Figure:
    """The rows that were inserted, updated and deleted, one kind on another."""
    figure, axes, places = _over_time(report.times, "rows", attrgetter("rows"))
    edges = _edges(report.times)
    heights = [_heights(edges, report.times.rows, attrgetter(kind)) for kind in _KINDS]
    _stack(axes, places, heights, list(_KINDS.values()))
    _legend(axes, list(_KINDS))
    return figure


def transactions_over_time(report: Report) -> Figure:
    """The transactions."""
    figure, _, _ = _over_time(report.times, "transactions", attrgetter("transactions"), color=_COLORS[0])
    return figure


# ---- tables and transactions


def changed_tables(report: Report) -> Figure:
    """The rows of the tables with most bytes, by kind."""
    rows = report.tables.rows[:_SHOWN_TABLES]
    figure, axes = _figure(0.7 + 0.25 * len(rows), left=0.2)
    names = [_short(str(row.name)) for row in rows]
    starts = [0] * len(rows)
    for kind, color in _KINDS.items():
        counts = [getattr(row, kind) for row in rows]
        axes.barh(range(len(rows)), counts, left=starts, color=color, label=kind, height=0.7)
        starts = [start + count for start, count in zip(starts, counts)]
    axes.set_yticks(range(len(rows)), names)
    axes.invert_yaxis()
    axes.xaxis.set_major_formatter(EngFormatter())
    axes.set_xlabel("rows")
    axes.grid(axis="y", visible=False)
    axes.legend(loc="upper left", bbox_to_anchor=(1.0, 1.0))
    return figure


def _power_text(power: int) -> str:
    """A power of two, in bytes."""
    return f"{1 << power % 10} {('B', 'KiB', 'MiB', 'GiB', 'TiB', 'PiB', 'EiB')[power // 10]}"


def sizes(found: Transactions) -> Figure:
    """How many transactions have so many bytes, by powers of two."""
    figure, axes = _figure(2.7)
    powers = [digits - 1 for digits in found.sizes]
    axes.bar(powers, list(found.sizes.values()), width=1, align="edge", color=_COLORS[0], edgecolor="white")
    every = max(1, -(-(max(powers) - min(powers) + 2) // _MOST_LABELS))
    ticks = range(max(min(powers), 0), max(powers) + 2, every)
    axes.set_xticks(ticks, list(map(_power_text, ticks)))
    if max(found.sizes.values()) > 100 * min(found.sizes.values()):
        axes.set_yscale("log")
    axes.yaxis.set_major_formatter(EngFormatter())
    axes.set_xlabel("bytes, from one power of two to before the next")
    axes.set_ylabel("transactions")
    axes.grid(axis="x", visible=False)
    return figure


def charts(report: Report) -> dict[str, Figure]:
    """The charts of which there is something to show, by their names."""
    with matplotlib.rc_context(_STYLE):
        found: dict[str, Figure] = {}
        if report.times.rows:
            found["bytes"] = bytes_over_time(report)
            found["transactions"] = transactions_over_time(report)
            found["rows"] = rows_over_time(report)
        if report.tables.rows:
            found["tables"] = changed_tables(report)
        if report.transactions.sizes:
            found["sizes"] = sizes(report.transactions)
        return found


# ---- pictures


def svg(figure: Figure, name: str) -> str:
    """A picture for a page, whose ids begin with this name."""
    text = StringIO()
    with matplotlib.rc_context(_STYLE):
        figure.savefig(text, format="svg", transparent=True, metadata={"Creator": None, "Date": None, "Format": None, "Type": None})
    picture = text.getvalue()
    picture = picture[picture.index("<svg") :]
    # In tags alone: texts have names of tables.
    picture = re.sub(r"<[^>]*>", lambda tag: re.sub(r'(\bid="|url\(#|href="#)', rf"\g<1>{name}-", tag[0]), picture)
    return re.sub(r'<svg ([^>]*?)\bwidth="[^"]*"', r"<svg \1", re.sub(r'<svg ([^>]*?)\bheight="[^"]*"', r"<svg \1", picture, 1), 1)


def png(figure: Figure, path: Any) -> None:
    """Writes a picture to a file."""
    with matplotlib.rc_context(_STYLE):
        figure.savefig(path, format="png", dpi=110)
