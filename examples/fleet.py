#!/usr/bin/env python3
"""Counts the events of many logs, on many machines or in many processes of this one, by Dask.

Usage: fleet.py [--scheduler ADDRESS | --workers N] [--gtids] [--lose-worker] FILE..

Prints a line of JSON for each log, and at last one of all together: how many events there are, and how many bytes these have,
in all and by type, how many are damaged, and the timestamps of the first and the last. Needs Debian's python3-dask and
python3-distributed, and the package binlog, as docs/PYTHON.md says.

--scheduler ADDRESS  the scheduler of a cluster, as 10.0.0.1:8786, whose workers have the logs at the same paths
--workers N          as many processes of this machine, 4 if not given; 0: this process alone
--gtids              also the set of the GTIDs of each log
--lose-worker        ends one of the processes by SIGKILL in the middle, to show that its logs are read again
"""

import argparse
import json
import os
import signal
import sys
import time
from contextlib import ExitStack
from dataclasses import asdict

import binlog.dask
import dask
from dask.distributed import Client, Future, LocalCluster


def lose_worker(client: Client, wanted: list[Future]) -> None:
    """Ends a worker that has read a log and has another one to read."""
    pids = client.run(os.getpid)
    while not all(future.done() for future in wanted):
        has_read, has_to_read = client.has_what(), client.processing()
        for worker, pid in pids.items():
            if has_read.get(worker) and has_to_read.get(worker):
                os.kill(pid, signal.SIGKILL)
                print(f"killed the process {pid}, which had {len(has_to_read[worker])} tasks left", file=sys.stderr)
                return
        time.sleep(0.001)
    print("no process was killed: all were done", file=sys.stderr)


def computed(client: Client, wanted: list, is_losing: bool) -> list:
    """What the cluster computes."""
    futures = client.compute(wanted)
    if is_losing:
        lose_worker(client, futures)
    return client.gather(futures)


def arguments() -> argparse.Namespace:
    parser = argparse.ArgumentParser(description="Counts the events of many logs, by Dask.")
    where = parser.add_mutually_exclusive_group()
    where.add_argument("--scheduler", metavar="ADDRESS", help="the scheduler of a cluster")
    where.add_argument("--workers", metavar="N", type=int, default=4, help="processes of this machine; 0: this one alone")
    parser.add_argument("--gtids", action="store_true", help="also the set of the GTIDs of each log")
    parser.add_argument("--lose-worker", action="store_true", help="end one process in the middle")
    parser.add_argument("files", metavar="FILE", nargs="+")
    given = parser.parse_args()
    if given.lose_worker and (given.scheduler or given.workers < 2):
        parser.error("--lose-worker needs two processes of this machine")
    return given


def main() -> None:
    given = arguments()
    wanted = [binlog.dask.stats(given.files)]
    if given.gtids:
        wanted.append(binlog.dask.gtid_sets(given.files))
    with ExitStack() as stack:
        if given.scheduler:
            client = stack.enter_context(Client(given.scheduler))
        elif given.workers:
            cluster = LocalCluster(n_workers=given.workers, threads_per_worker=1, dashboard_address=None)
            client = stack.enter_context(Client(stack.enter_context(cluster)))
        else:
            client = None
        found = dask.compute(*wanted, scheduler="sync") if client is None else computed(client, wanted, given.lose_worker)
    stats, *gtid_sets = found
    for path, counts in stats.files.items():
        of_gtids = {"gtids": sets[path] for sets in gtid_sets}
        print(json.dumps({"file": path, **asdict(counts), **of_gtids}))
    print(json.dumps({"file": None, **asdict(stats.total)}))


if __name__ == "__main__":
    main()
