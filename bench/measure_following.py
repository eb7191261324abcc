#!/usr/bin/env python3
"""Measures how soon `binlog json --compact --follow` prints a transaction's lines, and what it takes while nothing comes; prints Markdown
tables.

Usage: measure_following.py [PROGRAM [FOLDER]]

PROGRAM is the built binlog, if not given. FOLDER, `work` beside this file if not given, holds the files. A transaction is appended to a
log in one write, and its last line is read from a pipe: the latency is the time between the two. Transactions have one row, or 10,000; they
come at random moments, 200 and 50 of them, without a state and with one. Then the program reads a log of 100 MB, without and with the
beginning of a transaction at its end, and nothing comes for 30 seconds: the share of a processor is its processor time divided by these.
Latencies depend on what else the machine does.
"""

import random
import statistics
import struct
import subprocess
import sys
import time
from pathlib import Path

from arguments import arguments
from make_binlogs import TABLE_MAP, XID, event
from make_row_logs import MARIA_GTID, maria_start
from measure_undo import STMT_END, WRITE_ROWS_V1, make_row_log, print_table, start

HERE = Path(__file__).resolve().parent
COUNTS = {1: 200, 10_000: 50}
PAUSE = (0.05, 0.25)
# Rows of one event. A server splits what is longer than 8 KiB.
ROWS_OF_AN_EVENT = 800
SECONDS_OF_REST, SECONDS_BETWEEN_LOOKS = 30, 2
LARGE = 100_000_000


def transaction(number, count):
    """A transaction that inserts rows of two INT columns, of which the first one has the number."""
    table = (7).to_bytes(6, "little")
    yield event(MARIA_GTID, struct.pack("<QIB6x", number, 0, 0), number)
    yield event(TABLE_MAP, table + b"\1\0\4shop\0\4cart\0\2\3\3\0\3", number)
    for first in range(0, count, ROWS_OF_AN_EVENT):
        rows = range(first, min(first + ROWS_OF_AN_EVENT, count))
        flags = STMT_END if rows.stop == count else 0
        images = b"".join(struct.pack("<Bii", 0xFC, number, place) for place in rows)
        yield event(WRITE_ROWS_V1, table + flags.to_bytes(2, "little") + b"\2\3" + images, number)
    yield event(XID, struct.pack("<Q", number), number)


def following(program, log, state):
    words = [program, "json", "--compact", "--follow"] + (["--state", state] if state else [])
    return subprocess.Popen([*words, log], stdout=subprocess.PIPE)


def new_state(folder):
    state = folder / "following.state"
    state.unlink(missing_ok=True)
    return state


def latencies(program, folder, count, has_state):
    """The seconds between the write of each transaction and its last line."""
    log, found = folder / "following.000001", []
    log.write_bytes(start(maria_start(), has_checksums=False))
    run = following(program, log, new_state(folder) if has_state else None)
    chance = random.Random("following")
    try:
        with open(log, "ab", buffering=0) as file:
            for number in range(COUNTS[count]):
                content = b"".join(transaction(number, count))
                time.sleep(chance.uniform(*PAUSE))
                file.write(content)
                written = time.monotonic()
                for _ in range(count):
                    line = run.stdout.readline()
                found.append(time.monotonic() - written)
                if f'"@1":{number},"@2":{count - 1}'.encode() not in line:
                    sys.exit(f"transaction {number} ends with the line {line!r}")
    finally:
        end(run)
    return sorted(found)


def end(run):
    run.kill()
    run.communicate()


def latency_row(program, folder, count, has_state):
    found = latencies(program, folder, count, has_state)
    high = found[len(found) * 95 // 100]
    times = [f"{1000 * seconds:.1f}" for seconds in (statistics.median(found), high, found[-1])]
    return [f"{count:,}", "yes" if has_state else "no", *times]


def processor_seconds(run):
    """The processor time of a process so far."""
    return int(Path(f"/proc/{run.pid}/schedstat").read_text().split()[0]) / 1e9


def settle(run):
    """Waits until a process has nothing to do."""
    before, now = 0, processor_seconds(run)
    while now > 1.1 * before:
        time.sleep(SECONDS_BETWEEN_LOOKS)
        before, now = now, processor_seconds(run)


def rest_row(program, log, name, state):
    """The share of a processor that the program takes behind a log, while nothing comes."""
    run = following(program, log, state)
    reader = subprocess.Popen(["cat"], stdin=run.stdout, stdout=subprocess.DEVNULL)
    settle(run)
    before, begin = processor_seconds(run), time.monotonic()
    time.sleep(SECONDS_OF_REST)
    share = (processor_seconds(run) - before) / (time.monotonic() - begin)
    run.kill()
    run.wait()
    reader.wait()
    return [name, "yes" if state else "no", f"{100 * share:.3f} %"]


def rests(program, folder):
    large = make_row_log(folder, "maria", False, LARGE)
    begun = folder / "following_begun"
    begun.write_bytes(large.read_bytes() + b"".join(transaction(1, 1))[:-1])
    for log, name in ((large, "100 MB"), (begun, "100 MB and the beginning of a transaction")):
        for state in (None, new_state(folder)):
            yield rest_row(program, log, name, state)
    begun.unlink()


def main(arguments):
    given = arguments + [None] * (2 - len(arguments))
    program = given[0] or str(HERE.parent / "crates/binlog/out/binlog")
    folder = Path(given[1] or HERE / "work")
    folder.mkdir(parents=True, exist_ok=True)
    columns = ["Rows of a transaction", "State", "Median, ms", "95 %, ms", "Most, ms"]
    print_table(columns, (latency_row(program, folder, count, has_state) for count in COUNTS for has_state in (False, True)))
    print_table(["Log", "State", "Processor at rest"], rests(program, folder))


if __name__ == "__main__":
    main(arguments(__doc__))
