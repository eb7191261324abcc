#!/usr/bin/env python3
"""Writes logs of encoded events back: the output must be the input.

Usage: written_back.py FLAG

FLAG is one of `programs.py`. Of the proved programs `probe write-back` computes each checksum anew; the command `copy` of `binlog`
writes what it reads. The checksums of the logs are the encoder's: CRC-32 of the bytes before them, with only the lowest of the
header's flags cleared. The last line is `N passed, M failed`; the exit status is 1 if something failed.
"""

import argparse
import sys
from concurrent.futures import ThreadPoolExecutor

import encoded_logs
import programs
import results
from damaged_copies import PROCESSES_AT_A_TIME


def failure(words, name, content):
    """None if a log is written back as it is, else what is wrong."""
    output, status = programs.run(words, content)
    if (output, status) == (content, 0):
        return None
    return f"{' '.join(words)}: {name}: written back as {len(output)} other bytes, status {status}"


def main():
    parser = argparse.ArgumentParser(description="Writes logs back.")
    programs.add_flags(parser)
    commands = programs.parsed(parser, "write back").build.commands("write back")
    cases = [(words, log.name, log.content) for words in commands for log in encoded_logs.described_events()]
    with ThreadPoolExecutor(PROCESSES_AT_A_TIME) as pool:
        return results.report(pool.map(lambda case: failure(*case), cases))


if __name__ == "__main__":
    sys.exit(main())
