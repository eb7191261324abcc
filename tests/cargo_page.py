#!/usr/bin/env python3
"""Runs the steps of `docs/CARGO.md` that make and build the cargo packages with Debian's crates, as they stand there.

Usage: cargo_page.py [--missing]

The folder in which they build is a temporary one. The steps that install packages are left out where nothing is missing; with
--missing they are run in any case. The page has to name the packages of `cargo/debian_packages`, and the program has to say how
it was made. The last line is `N passed, M failed`; the exit status is 1 if something failed.
"""

import os
import re
import shutil
import subprocess
import sys
import tempfile

import results
from cargo_crate import CONVERTER, INSTALLER
from programs import REPOSITORY

OUT = "/tmp/binlog"
VERSION = r"binlog \d+\.\d+\.\d+ \(made from the proved sources, compiled by rustc, tested\)\n"


def section():
    """What the page says of Debian's crates."""
    page = (REPOSITORY / "docs/CARGO.md").read_text()
    return page.partition("### Debian's crates\n")[2].partition("\n### ")[0]


def packages_named(text):
    named = re.findall(r"`(librust-[\w-]+)`", text)
    listed = (CONVERTER / "debian_packages").read_text().split()
    return None if named == listed else f"the page names {named}, and cargo/debian_packages {listed}"


def steps_run(text, installs):
    """None if the steps build the program, else what they print."""
    steps = re.search(r"```text\n(.*?)```", text, re.DOTALL)[1].splitlines(keepends=True)
    kept = "".join(step for step in steps if installs or not step.startswith("apt-get"))
    environment = {name: value for name, value in os.environ.items() if name != "CARGO_TARGET_DIR"}
    with tempfile.TemporaryDirectory() as folder:
        script = kept.replace(OUT, f"{folder}/binlog")
        command = ["bash", "-euo", "pipefail", "-c", script]
        finished = subprocess.run(command, cwd=REPOSITORY, env=environment, capture_output=True, text=True)
    is_right = finished.returncode == 0 and re.search(VERSION + r"\Z", finished.stdout)
    return None if is_right else f"the steps: status {finished.returncode}\n{finished.stdout}{finished.stderr}"


def can_install():
    return os.geteuid() == 0 and shutil.which("apt-get") is not None


def main(arguments):
    text = section()
    installs = "--missing" in arguments or subprocess.run([INSTALLER, "--is-needed"]).returncode == 0
    if installs and not can_install():
        return results.left_out("The steps of docs/CARGO.md aren't run: packages are missing, and only root installs them.")
    return results.report([packages_named(text), steps_run(text, installs)])


if __name__ == "__main__":
    sys.exit(main(sys.argv[1:]))
