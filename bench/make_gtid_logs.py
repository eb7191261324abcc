#!/usr/bin/env python3
"""Makes the logs of the benchmark of GTIDs; files that exist already stay.

Usage: make_gtid_logs.py FOLDER [EVENTS]

Each log, `gtids_KIND.binlog`, has 5,000,000 GTID events of some 80 bytes if not told otherwise, and a small one,
`gtids_KIND_small.binlog`, has a hundredth of them, for counts of instructions. The kinds are those of KINDS. The contents are
the same in every run.
"""

import random
import sys
from pathlib import Path

from arguments import arguments
from make_binlogs import GTID, event, gtid_times, untagged_gtid

import samples  # found by way of make_binlogs

EVENTS = 5_000_000
SOURCES = 4
# How far a number may be from its place in a log that is out of order.
REACH = 1_000
# The parts of a body after the number are made so many times, and repeat.
BODIES = 4_096


def in_order(count, _generator):
    """One source, its numbers in order."""
    return ((0, number) for number in range(count))


def interleaved(count, generator):
    """Four sources in a random order, the numbers of each in order."""
    behind = [0] * SOURCES
    for _ in range(count):
        source = generator.randrange(SOURCES)
        yield source, behind[source]
        behind[source] += 1


def shuffled(count, generator):
    """One source, each stretch of REACH numbers in a random order."""
    for start in range(0, count, REACH):
        stretch = list(range(start, min(start + REACH, count)))
        generator.shuffle(stretch)
        yield from ((0, number) for number in stretch)


# A kind is a function from a count and a generator to the source and the number, from 0, of each event.
KINDS = {"in_order": in_order, "interleaved": interleaved, "shuffled": shuffled}


def gtid_event(source, number, sids, templates):
    """The event of a source's number; all but these is taken from a template."""
    times, length = templates[number % len(templates)]
    return event(GTID, untagged_gtid(sids[source], number, times, length), number)


def log_name(kind, is_small):
    return f"gtids_{kind}{'_small' if is_small else ''}.binlog"


def make_log(path, kind, count):
    if path.exists():
        return
    print(f"making {path}", file=sys.stderr)
    generator = random.Random(kind)
    sids = [generator.randbytes(16) for _ in range(SOURCES)]
    templates = [(gtid_times(generator), generator.randrange(200, 100_000)) for _ in range(BODIES)]
    unfinished = path.with_suffix(".unfinished")
    with open(unfinished, "wb", buffering=1 << 20) as file:
        file.write(samples.file_start())
        for source, number in KINDS[kind](count, generator):
            file.write(gtid_event(source, number, sids, templates))
    unfinished.rename(path)


def make_logs(folder, count=EVENTS):
    folder.mkdir(parents=True, exist_ok=True)
    for kind in KINDS:
        make_log(folder / log_name(kind, is_small=False), kind, count)
        make_log(folder / log_name(kind, is_small=True), kind, max(1, count // 100))


def main(arguments):
    if len(arguments) not in (1, 2):
        sys.exit("usage: make_gtid_logs.py FOLDER [EVENTS]")
    make_logs(Path(arguments[0]), *map(int, arguments[1:]))


if __name__ == "__main__":
    main(arguments(__doc__))
