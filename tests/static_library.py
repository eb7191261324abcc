#!/usr/bin/env python3
"""Builds a static library over the libraries that `rt ci` has proved and left, of which it proves none again.

Usage: static_library.py [NAME]

NAME is binlog_c if not given. `rt ci` checks a static library and builds none. So this proves the crate NAME alone and builds
crates/NAME/out/libNAME.a. Over libraries that other commands than `rt ci` have built nothing is built; `bin/build NAME` takes
them. Exit status: 0 where the library is built, 2 where a library below is missing or isn't that of `rt ci`, else the prover's.
"""

import subprocess
import sys
from pathlib import Path

import prover

REPOSITORY = Path(__file__).resolve().parent.parent


def build(name, repository=REPOSITORY):
    """Builds the static library, and returns the prover's exit status, or else that of bin/add-heap. Raises prover.NotLeft."""
    folder = repository / f"crates/{name}"
    archive = f"out/lib{name}.a"
    words = prover.command(repository, name, "build")
    words += ["--toolchain", prover.toolchain() / "toolchain", "--backend", "llvm", "-o", archive]
    (folder / "out").mkdir(exist_ok=True)
    status = subprocess.run(words, cwd=folder, stdin=subprocess.DEVNULL).returncode
    if status == 0:
        status = subprocess.run([repository / "bin/add-heap", folder / archive]).returncode
    return status


def main():
    name = sys.argv[1] if len(sys.argv) > 1 else "binlog_c"
    try:
        return build(name)
    except prover.NotLeft as error:
        print(f"lib{name}.a is not built: {error}", file=sys.stderr)
        return 2


if __name__ == "__main__":
    sys.exit(main())
