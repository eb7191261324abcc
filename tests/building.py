#!/usr/bin/env python3
"""Tries bin/build with a stand-in of the prover: what is built again, and what is left where a build is ended.

Usage: building.py

bin/build runs in a folder of its own, over two libraries and a program. `rt` is a script there, which notes the crates that it is asked
for, waits, and copies sources. A test each: a second build does nothing; a change is built with what stands on it, and nothing else; a
source that is changed during a build is built by the next one; where a build is ended, what was kept of its crates is in its place, no
process goes on, and no copy is left; bin/binlog runs what is built, also by a link. The last line is `N passed, M failed`; the exit status
is 1 if something failed.
"""

import os
import shutil
import signal
import subprocess
import sys
import tempfile
import time
from pathlib import Path

import results

REPOSITORY = Path(__file__).resolve().parent.parent
CRATES = "lower:\nupper: lower\nbinlog: upper lower\n"
SOURCES = {"lower": "src/lib.rt", "upper": "src/lib.rt", "binlog": "src/main.rt"}
PROVER = """#!/bin/sh
crate=$(basename "$PWD")
case $1 in
    version) echo "a kit logic 0" ;;
    lib)
        rm -rf out/rlib && mkdir -p out/rlib
        echo "$crate $$" >> "$RT_ASKED"
        sleep "$RT_SECONDS"
        cp src/lib.rt out/rlib/library ;;
    run)
        echo "$crate $$" >> "$RT_ASKED"
        mkdir -p out && cp src/main.rt "out/$crate" && chmod +x "out/$crate" ;;
esac
"""
PATIENCE, LONG = 20, 60


class Folder:
    """A repository of two libraries and a program."""

    def __init__(self, folder):
        self.folder, self.asked_file = Path(folder), Path(folder, "asked")
        (self.folder / "bin").mkdir()
        for script in ("build", "binlog"):
            shutil.copy(REPOSITORY / "bin" / script, self.folder / "bin")
        (self.folder / "bin/rt").write_text(PROVER)
        (self.folder / "bin/rt").chmod(0o755)
        (self.folder / "crates.txt").write_text(CRATES)
        for crate in SOURCES:
            (self.folder / "crates" / crate / "src").mkdir(parents=True)
            self.change(crate, "#!/bin/sh\necho $* is run\n")
        (self.folder / "crates/binlog/stdin").touch()
        self.asked_file.touch()

    def change(self, crate, text):
        (self.folder / "crates" / crate / SOURCES[crate]).write_text(text)

    def begin(self, *words, seconds=0):
        stated = {"RT_ASKED": str(self.asked_file), "RT_SECONDS": str(seconds)}
        environment = os.environ | stated | {"PATH": f"{self.folder / 'bin'}:{os.environ['PATH']}"}
        return subprocess.Popen([self.folder / "bin/build", *words, "binlog"], env=environment, stderr=subprocess.DEVNULL)

    def build(self, *words, seconds=0):
        return self.begin(*words, seconds=seconds).wait(LONG)

    def asked(self):
        """The crates that the prover was asked for, each with its process."""
        return [line.split() for line in self.asked_file.read_text().splitlines()]

    def newly_asked(self, known):
        return [crate for crate, _ in self.asked()[known:]]


def waited_for(holds):
    """Whether something holds soon."""
    end = time.monotonic() + PATIENCE
    while not holds() and time.monotonic() < end:
        time.sleep(0.02)
    return holds()


def is_running(process):
    try:
        status = Path(f"/proc/{process}/stat").read_text()
    except (FileNotFoundError, ProcessLookupError):
        return False
    # One that has ended may wait for a parent that asks for it.
    return status.rpartition(")")[2].split()[0] != "Z"


def built(folder):
    """What is built, and built again."""
    yield None if folder.build("--is-built") == 1 else "nothing is built, and is said to be"
    yield None if (folder.build(), folder.newly_asked(0)) == (0, ["lower", "upper", "binlog"]) else f"asked for {folder.asked()}"
    known = len(folder.asked())
    statuses = folder.build("--is-built"), folder.build()
    yield None if (statuses, folder.newly_asked(known)) == ((0, 0), []) else f"what is built is built again: {statuses}, {folder.asked()}"
    folder.change("upper", "second")
    statuses = folder.build("--is-built"), folder.build()
    yield None if (statuses, folder.newly_asked(known)) == ((1, 0), ["upper", "binlog"]) else f"a change: {statuses}, {folder.asked()}"


def not_built(folder):
    """Without a program, and without what builds one by cargo."""
    status = subprocess.run([folder.folder / "bin/binlog"], stderr=subprocess.DEVNULL).returncode
    yield None if status == 69 else f"bin/binlog without a program: status {status}"


def run_by_a_link(folder):
    link = folder.folder / "linked"
    link.symlink_to(folder.folder / "bin/binlog")
    ran = subprocess.run([link, "a", "b"], capture_output=True, text=True)
    yield None if (ran.stdout, ran.returncode) == ("a b is run\n", 0) else f"bin/binlog by a link: {ran}"


def changed_meanwhile(folder):
    """A source that is changed once its crate is built."""
    folder.change("lower", "third")
    known = len(folder.asked())
    building = folder.begin(seconds=0.5)
    yield None if waited_for(lambda: "upper" in folder.newly_asked(known)) else "a second library isn't built"
    folder.change("lower", "fourth")
    statuses = building.wait(LONG), folder.build("--is-built"), folder.build(), folder.build("--is-built")
    yield None if statuses == (0, 1, 0, 0) else f"changed during a build: {statuses}"
    library = (folder.folder / "crates/lower/out/rlib/library").read_text()
    yield None if library == "fourth" else f"changed during a build: {library} is built"


def ended(folder):
    """A build that is ended while a library is proved."""
    kept = folder.folder / "crates/lower/out/kept"
    kept.touch()
    folder.change("lower", "fifth")
    known = len(folder.asked())
    building = folder.begin(seconds=LONG)
    yield None if waited_for(lambda: "lower" in folder.newly_asked(known)) else "a library isn't built"
    building.send_signal(signal.SIGTERM)
    yield None if building.wait(PATIENCE) != 0 else "an ended build succeeds"
    prover = int(folder.asked()[-1][1])
    yield None if waited_for(lambda: not is_running(prover)) else "the prover goes on"
    yield None if kept.exists() else "what was kept of a crate is gone"
    left = list((folder.folder / "out").iterdir())
    yield None if not left else f"copies are left: {left}"
    yield None if folder.build() == 0 and kept.exists() else "it isn't built any more"


def main():
    with tempfile.TemporaryDirectory() as name:
        folder = Folder(name)
        return results.report(failure for part in (not_built, built, run_by_a_link, changed_meanwhile, ended) for failure in part(folder))


if __name__ == "__main__":
    sys.exit(main())
