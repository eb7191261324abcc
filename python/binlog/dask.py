"""Many logs on many machines, by Dask: each log is a task, which a worker reads where it runs.

    from dask.distributed import Client
    import binlog.dask

    with Client("scheduler:8786"):
        print(binlog.dask.stats(files).compute().total)

The calls take the paths of logs, and read no log before they are computed. A worker needs this package and each log at its
path. If a worker is lost, the engine has its logs read again by others.
"""

import json
import os
from collections.abc import Iterable, Iterator
from dataclasses import dataclass
from typing import Any, Optional, Union

import dask
import dask.bag
from dask.delayed import Delayed

from . import _log, _statistics, _whole
from ._columns import DeclaredTables, Sources
from ._log import Damage, Event
from ._whole import Stats

Files = Union[str, "os.PathLike[str]", Iterable[Union[str, "os.PathLike[str]"]]]


@dataclass
class AllStats:
    """The counts of several logs.

    files: those of each log, by its path.
    total: those of all together.
    """

    files: dict[str, Stats]
    total: Stats


def _paths(files: Files) -> list[str]:
    """The paths of the files, each once, in their order. A single path is that of one file."""
    if isinstance(files, (str, os.PathLike)):
        files = [files]
    return list(dict.fromkeys(map(os.fspath, files)))


def _all_stats(paths: list[str], found: list[Stats]) -> AllStats:
    return AllStats(dict(zip(paths, found)), sum(found, Stats()))


def _by_path(paths: list[str], found: list[str]) -> dict[str, str]:
    return dict(zip(paths, found))


def stats(files: Files) -> Delayed:
    """How many events of each type the logs have, each and all together: computed, an AllStats. `binlog.stats` counts one log
    and raises what its computation raises.
    """
    paths = _paths(files)
    count = dask.delayed(_whole.stats)
    return dask.delayed(_all_stats)(paths, [count(path) for path in paths])


def gtid_sets(files: Files) -> Delayed:
    """The set of the GTIDs of each log: computed, a dict of the texts by path. `binlog.gtid_set` reads one log and raises what
    its computation raises.
    """
    paths = _paths(files)
    collect = dask.delayed(_whole.gtid_set)
    return dask.delayed(_by_path)(paths, [collect(path) for path in paths])


def report(files: Files, *, program: Optional[_statistics.Path] = None, seconds: Optional[int] = None) -> Delayed:
    """What `binlog.report` shows of all logs together: computed, a Report. The program `binlog` is asked about each log where it is
    read; program and seconds are those of `binlog.report.read`, which raises what its computation raises.
    """
    return _statistics.report([[path] for path in _paths(files)], program, seconds, dask.delayed)


def _object(path: str, index: int, item: Union[Event, Damage]) -> dict[str, Any]:
    found = {"file": path, "index": index, "position": item.position}
    if isinstance(item, Damage):
        return {**found, "error": item.error.number}
    return {
        **found,
        "type": item.event_type,
        "name": item.name,
        "timestamp": item.timestamp,
        "server_id": item.server_id,
        "event_size": item.event_size,
        "log_pos": item.log_pos,
        "flags": item.flags,
        "checksum": None if item.checksum is None else item.checksum.hex(),
    }


def _bare_objects(path: str) -> Iterator[dict[str, Any]]:
    for index, item in enumerate(_log.open(path).items()):
        yield _object(path, index, item)


def _objects(path: str, columns: Optional[DeclaredTables]) -> Iterator[dict[str, Any]]:
    for index, item in enumerate(_log.open(path, columns=columns).items()):
        yield {"file": path, "position": item.position, **json.loads(item.line(index))}


def events(files: Files, contents: bool = False, columns: Optional[Sources] = None) -> dask.bag.Bag:
    """The events of the logs as a bag of JSON objects, each log a partition. The members are those of the lines of JSON
    (docs/JSON.md), and `file`, the path, and `position`, where the event begins in bytes from the start of its log. In the
    place of a damaged event, the object has `error`, the number of the error, and no field of the header.

    With contents, the objects have the other members of the lines too: `data`, the event's body, and of row events `table` and
    `rows`. columns are files of columns for these rows, as Log says. They are read by this call, so that no worker needs them.

    Raises ValueError for columns without contents, InvalidColumns where a file of columns isn't one, and OSError where it can't be
    read. Its computation raises InvalidLog for a file that doesn't begin with the file header, and OSError for one that can't be
    read.
    """
    if columns is not None and not contents:
        raise ValueError("files of columns are for contents")
    logs = dask.bag.from_sequence(_paths(files), partition_size=1)
    if not contents:
        return logs.map(_bare_objects).flatten()
    declared = None if columns is None else dask.delayed(DeclaredTables(columns))
    return logs.map(_objects, columns=declared).flatten()
