#!/usr/bin/env python3
"""Runs `binlog undo` and `binlog copy` with each of their calls failing in turn: the log that is written is there whole, or not at all.

Usage: undo_failures.py FLAG

FLAG is one of `programs.py`. Two logs are undone, as their transactions and as one, and copied. A library that is preloaded (`fail_files.c`) makes
the first call fail that opens, reads, seeks, writes, syncs, renames or removes a file, in the next run the second one, and so on; another
one (`watch_allocations.c`) refuses each allocation. The status is 1 or 3 then, and there is no log; nothing of it is left behind, where
the program isn't aborted and can remove it. The last line is `N passed, M failed`, where each run counts; the exit status is 1 if one
failed. Without the C compiler `cc` nothing is run, and both numbers are 0.
"""

import argparse
import os
import random
import shutil
import subprocess
import sys
import tempfile
from itertools import count
from pathlib import Path
from signal import SIGABRT

import programs
import results
import row_events
import undo_command
import watched

SOURCE = Path(__file__).resolve().parent / "fail_files.c"
NOT_OPENED, FAILED = 1, 3


def library_in(folder):
    library = folder / "fail_files.so"
    subprocess.run([watched.COMPILER, "-shared", "-fPIC", "-O1", "-o", library, SOURCE, "-ldl"], check=True)
    return library


def logs_in(folder):
    """Two logs in which something is undone, in the second one of a compressed transaction."""
    chance, kinds = random.Random(3), list(row_events.kinds())
    logs = []
    while len(logs) < 2:
        events = [(kind, body, undo_command.random_header(chance)) for kind, body in undo_command.random_transaction(chance, kinds, True, False)]
        content = undo_command.log_of(undo_command.with_payload(chance, events, True) if logs else events, 1, "8.0.36")
        model = undo_command.Model()
        model.take("log", content)
        if model.transactions() and not model.refused:
            logs.append(folder / f"{len(logs)}.bin")
            logs[-1].write_bytes(content)
    return logs


def run_failing(command, folder, library, number):
    """The status of a run in which the call with this number fails, and the name of that call; None if there are fewer."""
    with tempfile.TemporaryFile() as report:
        environment = os.environ | {
            "LD_PRELOAD": str(library),
            "FAILING_FOLDER": str(folder),
            "FAILING_CALL": str(number),
            "FAILING_REPORT": str(report.fileno()),
        }
        run = subprocess.run(command, env=environment, capture_output=True, pass_fds=[report.fileno()])
        report.seek(0)
        return run.returncode, report.read().decode().strip() or None


def wrong_end(out, status, statuses, may_be_left):
    """What is wrong with what a run left behind, if something is."""
    left = Path(f"{out}.part")
    found = f"status {status}" if status not in statuses else "there is a log" if out.exists() else None
    found = found or ("what was written is left behind" if left.exists() and not may_be_left else None)
    for path in (out, left):
        path.unlink(missing_ok=True)
    return found


def call_failures(command, folder, library, out, whole):
    for number in count(1):
        status, call = run_failing(command, folder, library, number)
        if call is None:
            is_whole = status == 0 and out.read_bytes() == whole
            yield None if is_whole else f"without a failure: status {status}"
            return
        wrong = wrong_end(out, status, (NOT_OPENED, FAILED), call in ("unlink", "remove"))
        yield wrong and f"call {number}, {call}: {wrong}"


def memory_failures(command, watch, out, whole, is_cargo):
    for number in count(1):
        run = watch.run(command, refused=number)
        if run.status == 0:
            # Some calls do without an allocation.
            wrong = None if out.read_bytes() == whole else "the log isn't whole"
            out.unlink()
        else:
            wrong = wrong_end(out, run.status, (NOT_OPENED, FAILED, -SIGABRT) if is_cargo else (NOT_OPENED, FAILED), run.status == -SIGABRT)
        yield wrong and f"allocation {number}: {wrong}"
        if not run.is_refused:
            return


def failures(words, folder, is_cargo):
    library, logs, out = library_in(folder), logs_in(folder), folder / "out"
    before = [log.read_bytes() for log in logs]
    with watched.Watch() as watch:
        for command in (["undo"], ["undo", "--one-transaction"], ["copy"]):
            command = [*words, *command, "-o", str(out), *map(str, logs)]
            subprocess.run(command, check=True, stdout=subprocess.DEVNULL)
            whole = out.read_bytes()
            out.unlink()
            yield from call_failures(command, folder, library, out, whole)
            out.unlink(missing_ok=True)
            yield from memory_failures(command, watch, out, whole, is_cargo)
            out.unlink(missing_ok=True)
        yield None if [log.read_bytes() for log in logs] == before else "the logs are changed"


def main():
    parser = argparse.ArgumentParser(description="Runs undo and copy with calls that fail.")
    programs.add_flags(parser)
    arguments = programs.parsed(parser, "binlog")
    if shutil.which(watched.COMPILER) is None:
        return results.report([])
    with tempfile.TemporaryDirectory() as folder:
        return results.report(failures(arguments.build.command("binlog"), Path(folder), arguments.build.has_rusts_runtime))


if __name__ == "__main__":
    sys.exit(main())
