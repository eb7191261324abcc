#!/usr/bin/env python3
"""Runs commands side by side, and adds up how many tests passed and failed.

Usage: side_by_side.py COMMAND.. [-- COMMAND..]..

Each command is one argument; its last line of the form `N passed, M failed` counts. As many run at a time as there are
processors; those behind a `--` begin when those before it have ended. Each command's output is printed whole, in the order of
the commands, behind its name and before its time and that of the processors. One that fails without a failed test counts as a
failed one. At the end, of each that failed, stand the lines that say so. The last line is `N passed, M failed`; the exit status
is 1 if something failed.
"""

import os
import re
import shlex
import subprocess
import sys
import tempfile
import time
from concurrent.futures import ThreadPoolExecutor
from itertools import groupby
from pathlib import Path

import results

NOT_FOUND = 127
SECONDS_BETWEEN_LOOKS = 0.2
# Lines of `rt ci` that name what failed. They are shown, and the last lines.
NAMES_A_FAILURE = re.compile(r"NOT PROVED|NOT REFUSED|FAILED|: error: |failed: [^0]")
SHOWN_LINES, SHOWN_LENGTH = 60, 400
SHOWN_LAST_LINES = 25


class Run:
    """A run of a command, whose output goes to a file."""

    def __init__(self, command, file):
        self.command, self.file = command, file
        self.status, self.seconds, self.processor_seconds = None, 0, 0

    def run(self):
        start = time.monotonic()
        words = shlex.split(self.command)
        with open(self.file, "wb") as output:
            try:
                process = subprocess.Popen(words, stdin=subprocess.DEVNULL, stdout=output, stderr=subprocess.STDOUT)
            except OSError as error:
                output.write(f"{self.command}: {error.strerror}\n".encode())
                self.status = NOT_FOUND
                return
        _, status, usage = os.wait4(process.pid, 0)
        self.status = process.returncode = os.waitstatus_to_exitcode(status)
        self.seconds, self.processor_seconds = time.monotonic() - start, usage.ru_utime + usage.ru_stime

    def counts(self):
        """How many tests passed and failed."""
        passed, failed = results.closed(self.text()) or (0, 0)
        return passed, max(failed, int(self.status != 0))

    def text(self):
        return self.file.read_text(errors="replace")

    def failures(self):
        """The lines that say what failed."""
        lines = self.text().splitlines()
        named = [line for line in lines[:-SHOWN_LAST_LINES] if NAMES_A_FAILURE.search(line)]
        return [line[:SHOWN_LENGTH] for line in [*named[:SHOWN_LINES], *lines[-SHOWN_LAST_LINES:]]]


def show(run, future):
    """Prints the output of a run as it comes, until the run ends."""
    print(f"== {run.command}", flush=True)
    run.file.touch()
    with open(run.file, "rb") as output:
        while True:
            is_done = future.done()
            sys.stdout.buffer.write(output.read())
            sys.stdout.buffer.flush()
            if is_done:
                break
            time.sleep(SECONDS_BETWEEN_LOOKS)
    future.result()
    print(f"-- {run.command}: status {run.status}, {run.seconds:.0f} s, {run.processor_seconds:.0f} s of processors", flush=True)


def run_all(runs):
    """Runs all of these commands, and prints their outputs."""
    with ThreadPoolExecutor(len(os.sched_getaffinity(0))) as pool:
        for run, future in [(run, pool.submit(run.run)) for run in runs]:
            show(run, future)


def phases(arguments):
    """The commands between the arguments `--`."""
    return [list(group) for is_end, group in groupby(arguments, lambda argument: argument == "--") if not is_end]


def main(arguments):
    with tempfile.TemporaryDirectory() as folder:
        places = iter(range(len(arguments)))
        runs = [[Run(command, Path(folder, str(next(places)))) for command in phase] for phase in phases(arguments)]
        for phase in runs:
            run_all(phase)
        every = [run for phase in runs for run in phase]
        counts = [run.counts() for run in every]
        for run in (run for run, (_, failed) in zip(every, counts) if failed):
            print(f"== {run.command} failed, status {run.status}", *run.failures(), sep="\n")
    return results.close(*(sum(count[place] for count in counts) for place in (0, 1)))


if __name__ == "__main__":
    sys.exit(main(sys.argv[1:]))
