#!/usr/bin/env python3
"""Measures the programs against the baselines, and reading alone; prints a Markdown table of each.

Usage: measure.py LISTING PROBE SLICE_LISTING BASELINE SLICE_BASELINE FOLDER

FOLDER holds the files of make_binlogs.py. The exit status is 1 if a program
and the baseline differ on one of them, or if one of them doesn't write back
the very file.
"""

import os
import re
import shutil
import subprocess
import sys
import time
from collections import Counter
from pathlib import Path

from arguments import arguments
import make_binlogs

BASELINE = Path(__file__).resolve().parent / "baseline"
KINDS = list(make_binlogs.KINDS)
ROUNDS = 5
TIME_COMMAND = "/usr/bin/time"
BLOCK = 1 << 20

COLUMNS = [
    "Input",
    "cat, MB/s",
    "MB/s",
    "Events/s",
    "Time / baseline",
    "Peak memory, KiB",
    "Instructions / event",
    "Baseline's",
    "Allocations / event",
]

READING_COLUMNS = ["Input", "Borrowed from a file", "Of a slice"]

SLICE_COLUMNS = ["Input", "Listing of a slice", "Baseline's", "Listing / baseline's"]

ALLOCATING = {"malloc", "calloc", "realloc"}


class Difference(Exception):
    """Program and baseline do not agree."""


def build_baseline(name):
    """The hand-written program of this name, built."""
    manifest = ["--manifest-path", BASELINE / "Cargo.toml", "--target-dir", BASELINE / "target"]
    subprocess.run(["cargo", "build", "--release", "--offline", *manifest], check=True, stdout=sys.stderr)
    return str(BASELINE / "target/release" / name)


def progress(message):
    print(message, file=sys.stderr, flush=True)


def run(command, path, output=subprocess.DEVNULL, errors=None):
    """The exit status of the command with the file as its standard input."""
    with open(path, "rb") as file:
        return subprocess.run(command, stdin=file, stdout=output, stderr=errors).returncode


def printing(command, path, output_path):
    """The exit status; the standard output goes to `output_path`."""
    with open(output_path, "wb") as output:
        return run(command, path, output)


def compare_outputs(program, baseline, path):
    """Both commands read the file, and print the same."""
    program_output = path.with_suffix(".program_output")
    baseline_output = path.with_suffix(".baseline_output")
    try:
        program_status = printing(program, path, program_output)
        baseline_status = printing(baseline, path, baseline_output)
        if program_status != baseline_status:
            raise Difference(f"{path}: status {program_status}, baseline {baseline_status}")
        if baseline_status != 0:
            raise Difference(f"{path}: status {baseline_status}, though a valid binlog")
        if subprocess.run(["cmp", program_output, baseline_output]).returncode != 0:
            raise Difference(f"{path}: the outputs differ")
    finally:
        program_output.unlink(missing_ok=True)
        baseline_output.unlink(missing_ok=True)


def compare_written_back(program, baseline, path):
    """Both commands write back the very file."""
    for command in (program, baseline):
        with open(path, "rb") as file:
            with subprocess.Popen(command, stdin=file, stdout=subprocess.PIPE) as process:
                compared = subprocess.run(["cmp", "-", path], stdin=process.stdout)
        if compared.returncode != 0 or process.returncode != 0:
            raise Difference(f"{path}: not written back by {command}")


def count_events(baseline, path):
    """The lines of its listing."""
    with open(path, "rb") as file:
        with subprocess.Popen(baseline, stdin=file, stdout=subprocess.PIPE) as process:
            blocks = iter(lambda: process.stdout.read(BLOCK), b"")
            return sum(block.count(b"\n") for block in blocks)


def seconds(command, path):
    begin = time.perf_counter()
    status = run(command, path)
    elapsed = time.perf_counter() - begin
    if status != 0:
        raise Difference(f"{command}: status {status} on {path}")
    return elapsed


def best_times(commands, path):
    """The commands take turns, so that a slow moment does not hit one of them alone."""
    times = {name: [] for name in commands}
    for _ in range(ROUNDS):
        for name, command in commands.items():
            times[name].append(seconds(command, path))
    return {name: min(measured) for name, measured in times.items()}


def peak_memory(command, path):
    """The greatest resident set in KiB."""
    if os.access(TIME_COMMAND, os.X_OK):
        report = path.with_suffix(".memory")
        run([TIME_COMMAND, "--format=%M", f"--output={report}", *command], path)
        kibibytes = int(report.read_text().split()[-1])
        report.unlink()
        return kibibytes
    return peak_memory_of_child(command, path)


def peak_memory_of_child(command, path):
    """Measured in a fresh process, since the figure is the maximum of all children.

    It is never below what Python itself takes.
    """
    code = (
        "import resource, subprocess, sys; "
        "subprocess.run(sys.argv[1:], stdout=subprocess.DEVNULL); "
        "print(resource.getrusage(resource.RUSAGE_CHILDREN).ru_maxrss)"
    )
    with open(path, "rb") as file:
        output = subprocess.check_output([sys.executable, "-c", code, *command], stdin=file)
    return int(output)


def counts(command, path, name):
    """What callgrind counts for a run, instructions and allocations, or None if it could not."""
    if shutil.which("valgrind") is None:
        return None
    report = path.with_name(f"callgrind.{path.stem}.{name}.out")
    report.unlink(missing_ok=True)
    valgrind = ["valgrind", "--tool=callgrind", f"--callgrind-out-file={report}", *command]
    status = run(valgrind, path, errors=subprocess.DEVNULL)
    if status != 0 or not report.exists():
        progress(f"no instruction count of {name} on {path.name} (status {status})")
        return None
    text = report.read_text()
    total = re.search(r"^(?:summary|totals): (\d+)", text, re.MULTILINE)
    return (int(total[1]), count_allocations(text)) if total else None


def count_allocations(report):
    """How often a program called one of the allocating functions of the C library.

    A report names a function where it stands first, as `cfn=(7) malloc`, and
    later by its number alone. The line `calls=` follows that of the callee.
    """
    names, calls, callee = {}, Counter(), None
    for kind, number, name, count in re.findall(
        r"^(?:(c?fn)=\((\d+)\)(?: (\S+))?|calls=(\d+) )", report, re.MULTILINE
    ):
        if name:
            names[number] = name
        if kind == "cfn":
            callee = names[number]
        elif count:
            calls[callee] += int(count)
    return sum(calls[name] for name in ALLOCATING)


def counts_per_event(command, lister, folder, kind, name):
    """Without the cost of starting: the start file, of the first event alone or with table maps, is counted too."""
    paths = [folder / f"{kind}_small.binlog", folder / make_binlogs.start_name(kind)]
    counted = [counts(command, path, name) for path in paths]
    if None in counted:
        return None
    whole, start = (count_events(lister, path) for path in paths)
    return [(one - other) / (whole - start) for one, other in zip(*counted)]


def rate(amount, elapsed):
    return f"{amount / elapsed:,.0f}"


def per_event(counted, place, decimals):
    return "not counted" if counted is None else f"{counted[place]:,.{decimals}f}"


def measured_row(program, baseline, lister, folder, kind):
    path = folder / f"{kind}.binlog"
    events = count_events(lister, path)
    progress(f"{kind}: measuring times and memory")
    times = best_times({"cat": ["cat"], "program": program, "baseline": baseline}, path)
    memory = peak_memory(program, path)

    progress(f"{kind}: counting instructions")
    counted = counts_per_event(program, lister, folder, kind, "program")
    baseline_counted = counts_per_event(baseline, lister, folder, kind, "baseline")

    megabytes = path.stat().st_size / 1e6
    return [
        f"{kind} ({events:,} events, {megabytes:,.0f} MB)",
        rate(megabytes, times["cat"]),
        rate(megabytes, times["program"]),
        rate(events, times["program"]),
        f"{times['program'] / times['baseline']:.2f}",
        f"{memory:,}",
        per_event(counted, 0, 0),
        per_event(baseline_counted, 0, 0),
        per_event(counted, 1, 2),
    ]


def reading_row(bench, lister, folder, kind):
    """Instructions for an event; those of a slice without taking the log into memory."""
    progress(f"{kind}: counting instructions of reading")
    ways = [[], ["slice"], ["memory"]]
    counted = [counts_per_event([bench, "reading", *way], lister, folder, kind, "reading") for way in ways]
    if None in counted:
        return [kind, "not counted", "not counted"]
    borrowed, sliced, memory = (one[0] for one in counted)
    return [kind, f"{borrowed:,.0f}", f"{sliced - memory:,.0f}"]


def measure_reading(bench, lister, folder):
    """A row for each kind; the long events are too few to be counted so."""
    kinds = [kind for kind in KINDS if kind != "long"]
    return [reading_row(bench, lister, folder, kind) for kind in kinds]


def slice_row(lister, baseline, counter, folder, kind):
    """Instructions for a line, those aside that take the log into memory. The whole outputs are the same."""
    progress(f"{kind}: counting instructions of the listing over a slice")
    compare_outputs([lister, "slice-listing"], [baseline], folder / f"{kind}_small.binlog")
    commands = [[lister, "slice-listing"], [lister, "slice-listing", "memory"], [baseline], [baseline, "--memory"]]
    counted = [counts_per_event(command, counter, folder, kind, "slice") for command in commands]
    if None in counted:
        return [kind, *["not counted"] * 3]
    whole, memory, baseline_whole, baseline_memory = (one[0] for one in counted)
    line, baseline_line = whole - memory, baseline_whole - baseline_memory
    return [kind, f"{line:,.0f}", f"{baseline_line:,.0f}", f"{line / baseline_line:.2f}"]


def measure_slices(lister, baseline, counter, folder):
    """A row for each kind but the long events."""
    kinds = [kind for kind in KINDS if kind != "long"]
    return [slice_row(lister, baseline, counter, folder, kind) for kind in kinds]


def measure(program, baseline, compare, lister, folder):
    rows = []
    for kind in KINDS:
        progress(f"{kind}: comparing the outputs")
        paths = [folder / f"{kind}.binlog", folder / f"{kind}_small.binlog"]
        for path in paths:
            compare(program, baseline, path)
        rows.append(measured_row(program, baseline, lister, folder, kind))
    return rows


def print_table(title, columns, rows):
    print(f"{title}:\n")
    print("| " + " | ".join(columns) + " |")
    print("|---|" + "---:|" * (len(columns) - 1))
    for cells in rows:
        print("| " + " | ".join(cells) + " |")
    print(flush=True)


def main(arguments):
    if len(arguments) != 6:
        sys.exit(__doc__)
    lister, bench, slice_lister, baseline, slice_baseline = (str(Path(it).resolve()) for it in arguments[:5])
    folder = Path(arguments[5])
    works = {
        "Listing": ([lister], [baseline], compare_outputs),
        "Writing back": ([bench, "write-back"], [baseline, "--write-back"], compare_written_back),
        "Typed": ([bench, "typed"], [baseline, "--typed"], compare_outputs),
    }
    try:
        for title, (program, yardstick, compare) in works.items():
            progress(title)
            rows = measure(program, yardstick, compare, [baseline], folder)
            print_table(title, COLUMNS, rows)
        progress("Reading")
        print_table("Reading", READING_COLUMNS, measure_reading(bench, [baseline], folder))
        rows = measure_slices(slice_lister, slice_baseline, [baseline], folder)
        print_table("Listing of a slice", SLICE_COLUMNS, rows)
    except Difference as difference:
        sys.exit(f"measure.py: {difference}")


if __name__ == "__main__":
    main(arguments(__doc__))
