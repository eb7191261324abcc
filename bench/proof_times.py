#!/usr/bin/env python3
"""Prints what the proof of each function of a crate cost, slowest first.

Usage: proof_times.py CRATE [COUNT]
       proof_times.py --check CRATE [COUNT]

With --check it checks the crate from nothing, in one job, and takes the processor time that the check used until each of the files
that it leaves in out/incremental: what lies between two files is the time of the second one. That is right beside other work, too. What
earlier checks of the crate kept goes.

Without it, it reads the times of the files that the last check left, which are times of the clock: so check the crate from nothing
before, in one job, with nothing else running:

    rm -rf crates/CRATE/out/incremental && cd crates/CRATE && rt check --jobs 1

The columns are the seconds of a function in all, of its lifetimes (Lts), of its Proof, and of its other modules. The rows after
the functions are the modules of specs/ and of proofs/, each by itself. COUNT is how many rows are printed, 40 if left out.
"""

import os
import shutil
import subprocess
import sys
import time
from collections import defaultdict
from pathlib import Path

from arguments import arguments

CRATES = Path(__file__).resolve().parent.parent / "crates"

# The modules that rattle makes of a function, below its path.
PARTS = {
    *("Lts", "Proof", "Met", "Statement", "Symbol", "TheLink", "Key", "Code", "Mir", "Answers", "Invariants"),
    *("Tie", "Kinds", "Reads", "Given"),
}

# How often a check is looked at, in seconds.
PAUSE = 0.1

TICKS = os.sysconf("SC_CLK_TCK")


def written_files(folder):
    """When each module's file of the last check was written: seconds of the clock, and names."""
    return sorted((file.stat().st_mtime, file.stem) for file in folder.glob("*.oantt"))


def processor_seconds(session):
    """The processor seconds of each process of a session, by its number."""
    found = {}
    for stat in Path("/proc").glob("[0-9]*/stat"):
        try:
            fields = stat.read_text().rpartition(")")[2].split()
        except OSError:
            continue
        if int(fields[3]) == session:
            found[stat.parent.name] = (int(fields[11]) + int(fields[12])) / TICKS
    return found


def checked_files(crate):
    """Checks a crate from nothing, in one job. When each module's file was there: processor seconds, and names."""
    kept = CRATES / crate / "out/incremental"
    shutil.rmtree(kept, ignore_errors=True)
    check = subprocess.Popen(["rt", "check", "--jobs", "1"], cwd=CRATES / crate, stdout=sys.stderr, start_new_session=True)
    used, found = {}, {}
    while True:
        is_ended = check.poll() is not None
        used |= processor_seconds(check.pid)
        for file in sorted(kept.glob("*/*.oantt"), key=lambda file: file.stat().st_mtime):
            found.setdefault(file.stem, sum(used.values()))
        if is_ended:
            return [(end, name) for name, end in found.items()]
        time.sleep(PAUSE)


def seconds_by_module(files):
    """Each module's name and the seconds until its file was written, from the file before."""
    return [(name, end - start) for (start, _), (end, name) in zip(files, files[1:])]


def place_of(module):
    """The function, or module of specs or proofs, that a module belongs to, and which part of it it is."""
    names, part = module.split("."), "other"
    while len(names) > 1 and names[-1] in PARTS:
        part = names.pop()
    return ".".join(names), part


def table(files):
    rows = defaultdict(lambda: defaultdict(float))
    for module, seconds in seconds_by_module(files):
        place, part = place_of(module)
        rows[place][part if part in ("Lts", "Proof") else "other"] += seconds
    return sorted(((sum(parts.values()), place, parts) for place, parts in rows.items()), key=lambda row: -row[0])


def files_of(crate, is_checked):
    """The files of a check from nothing, or of the last check; none if there was none."""
    if is_checked:
        return checked_files(crate)
    folders = [folder for folder in (CRATES / crate / "out/incremental").glob("*") if folder.is_dir()]
    return written_files(max(folders, key=lambda folder: folder.stat().st_mtime)) if folders else []


def main(given):
    is_checked = "--check" in given
    given = [word for word in given if word != "--check"]
    if len(given) not in (1, 2):
        print(__doc__, file=sys.stderr)
        return 64
    crate, count = given[0], int(given[1]) if len(given) == 2 else 40
    files = files_of(crate, is_checked)
    if not files:
        print(f"{CRATES / crate / 'out/incremental'} is empty: check the crate first", file=sys.stderr)
        return 1
    rows = table(files)
    print(f"{'seconds':>8} {'Lts':>7} {'Proof':>7} {'other':>7}  of {sum(row[0] for row in rows):.0f} in all")
    for seconds, place, parts in rows[:count]:
        print(f"{seconds:8.1f} {parts['Lts']:7.1f} {parts['Proof']:7.1f} {parts['other']:7.1f}  {place}")
    return 0


if __name__ == "__main__":
    sys.exit(main(arguments(__doc__, ["--check"])))
