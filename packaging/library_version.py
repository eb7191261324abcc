#!/usr/bin/env python3
"""Prints the version of a shared library for C: library_version FILE."""

import ctypes
import sys
from pathlib import Path

if __name__ == "__main__":
    number = ctypes.CDLL(str(Path(sys.argv[1]).resolve())).binlog_library_version()
    print(f"{number // 1_000_000}.{number // 1000 % 1000}.{number % 1000}")
