"""Runs built programs and tests, records their allocations, and refuses one if asked to."""

import os
import shutil
import subprocess
import tempfile
from pathlib import Path
from typing import NamedTuple

import results
from programs import CRATES

SOURCE = Path(__file__).resolve().parent / "watch_allocations.c"
COMPILER = "cc"


class Run(NamedTuple):
    """The result of a run: its output, its status, whether an allocation was refused; for each other one the bytes
    before it and the bytes asked for; and the number of blocks that were not freed, and the most bytes that were allocated at a
    time, both None if the program didn't exit."""

    output: bytes
    status: int
    is_refused: bool
    allocations: list
    left: int | None
    peak: int | None


class Watch:
    """Runs programs. Its library is built in a temporary folder, which is deleted with it."""

    def __init__(self):
        self.folder = tempfile.TemporaryDirectory()
        self.library = Path(self.folder.name) / "watch_allocations.so"
        command = [COMPILER, "-shared", "-fPIC", "-O1", "-o", self.library, SOURCE]
        subprocess.run(command, check=True)

    def __enter__(self):
        return self

    def __exit__(self, *raised):
        self.folder.cleanup()

    def run(self, command, content=b"", refused=0, stdin=None, stderr=subprocess.STDOUT):
        """A run over the content, or over the descriptor `stdin`, in which the allocation with this number is refused. The
        messages are among the output, if `stderr` isn't another file."""
        with tempfile.TemporaryFile() as report:
            environment = {
                **os.environ,
                "LD_PRELOAD": str(self.library),
                "ALLOCATION_REPORT": str(report.fileno()),
                "REFUSED_ALLOCATION": str(refused),
                "RUST_BACKTRACE": "0",
            }
            finished = subprocess.run(
                command,
                **({"input": content} if stdin is None else {"stdin": stdin}),
                stdout=subprocess.PIPE,
                stderr=stderr,
                env=environment,
                pass_fds=[report.fileno()],
            )
            report.seek(0)
            lines = report.read().decode().splitlines()
        number = lambda word: next((int(line.split()[1]) for line in reversed(lines) if line.startswith(word)), None)
        sizes = [tuple(map(int, line.split())) for line in lines if line[0].isdigit()]
        return Run(finished.stdout, finished.returncode, "refused" in lines, sizes, number("left"), number("peak"))


def tests():
    """The built test programs, each with the full name of one of its tests."""
    for path in sorted(CRATES.glob("*/out/*_tests")):
        listed = subprocess.run([path, "--list"], stdout=subprocess.PIPE, check=True).stdout
        for line in listed.decode().splitlines():
            name = line.removesuffix(": test")
            if name != line:
                yield str(path), name


def report(all_results):
    """Prints the failures among the results, each None or a message, and the counts; returns the exit status."""
    if shutil.which(COMPILER) is None:
        return results.left_out(f"{COMPILER} is missing, so no allocation is watched")
    with Watch() as watch:
        return results.report(all_results(watch))
