#!/usr/bin/env python3
"""Makes the cargo packages, and tests them.

Usage: cargo_crate.py [--make [--if-possible] | --made]

The packages are made in `programs.PACKAGES`, and built without network, with checks of overflow: the crates that they depend on
are Debian's. A test each: that the packages are made and their program built; what the converter's own tests check; each test
of the sources, converted, and each written by hand; and that neither clippy nor the documentation gives a warning. With --make
the first of these is run alone, and with --made all others. The last line is `N passed, M failed`; the exit status is 1 if
something failed.

Where cargo or those crates aren't there, `cargo/install_crates` installs them; where it can't, one test failed, with
--if-possible none.
"""

import argparse
import re
import shutil
import subprocess
import sys

import results
from programs import PACKAGES, PROFILE, REPOSITORY

CONVERTER = REPOSITORY / "cargo"
INSTALLER = CONVERTER / "install_crates"
NOT_INSTALLED = 69

# The features of the packages, and the tests that each needs.
FEATURES = {"crc32fast": "crc32", "serde_json": "documents"}


def make():
    """Makes the packages and builds their program. Returns whether that succeeds."""
    made = subprocess.run([REPOSITORY / "bin/cargo-crate", "--debian", PACKAGES])
    return made.returncode == 0 and cargo("build", "--workspace").returncode == 0


def tests_of_converter():
    """How many of the converter's own tests passed and failed."""
    command = [sys.executable, "-m", "unittest", "discover", "-s", "tests", "-t", "."]
    finished = subprocess.run(command, cwd=CONVERTER, stderr=subprocess.PIPE, text=True)
    count = int(re.search(r"^Ran (\d+) test", finished.stderr, re.MULTILINE)[1])
    failed = sum(map(int, re.findall(r"(?:failures|errors)=(\d+)", finished.stderr)))
    if finished.returncode != 0:
        print(finished.stderr)
        failed = max(failed, 1)
    return count - failed, failed


def cargo(*arguments):
    """Runs cargo on the packages; its output goes to ours if it fails."""
    command = ["cargo", arguments[0], "--target-dir", "target", "--profile", PROFILE, *arguments[1:]]
    finished = subprocess.run(command, cwd=PACKAGES, stdout=subprocess.PIPE, stderr=subprocess.STDOUT, text=True)
    if finished.returncode != 0:
        print(finished.stdout)
    return finished


def tests_of_packages(*arguments):
    """How many of the packages' tests passed and failed; one failure if they weren't built."""
    finished = cargo("test", "--no-fail-fast", *arguments)
    counts = re.findall(r"^test result: .* (\d+) passed; (\d+) failed", finished.stdout, re.MULTILINE)
    passed, failed = (sum(int(count[place]) for count in counts) for place in (0, 1))
    return passed, max(failed, int(finished.returncode != 0))


def lints():
    """Of the checks of the packages' own code without a warning, how many passed and failed: clippy's, where it is there,
    and those of the documentation, which has to be complete."""
    checks = [("doc", "--no-deps", "--workspace")]
    if shutil.which("cargo-clippy") is None:
        print("The cargo packages aren't checked by clippy: there is no cargo-clippy.")
    else:
        checks.append(("clippy", "--workspace", "--all-targets"))
    failed = 0
    for check in checks:
        finished = cargo(*check)
        if finished.returncode == 0 and (warnings := re.findall(r"^warning: .*\n.*", finished.stdout, re.MULTILINE)):
            print("\n".join([f"cargo {check[0]}:", *warnings]))
            failed += 1
        failed += finished.returncode != 0
    return len(checks) - failed, failed


def tests():
    """The counts of all tests of what is made, each (passed, failed)."""
    yield tests_of_converter()
    yield tests_of_packages("--workspace")
    for feature, test in FEATURES.items():
        yield tests_of_packages("--package", "binlog-tests", "--test", test, "--features", feature)
    yield lints()


def main():
    parser = argparse.ArgumentParser(description="Makes the cargo packages, and tests them.")
    which = parser.add_mutually_exclusive_group()
    which.add_argument("--make", action="store_true")
    which.add_argument("--made", action="store_true")
    parser.add_argument("--if-possible", action="store_true")
    arguments = parser.parse_args()
    counts = []
    if not arguments.made:
        installed = subprocess.run([INSTALLER]).returncode
        if installed == NOT_INSTALLED and arguments.if_possible:
            return results.left_out("The cargo packages aren't made.")
        is_made = installed == 0 and make()
        counts.append((int(is_made), int(not is_made)))
    if not arguments.make and not any(failed for _, failed in counts):
        counts += tests()
    return results.close(*(sum(count[place] for count in counts) for place in (0, 1)))


if __name__ == "__main__":
    sys.exit(main())
