#!/usr/bin/env python3
"""Counts the instructions that decompression takes, of `probe inflate` and of zlib.

Usage: measure_inflate.py [PROGRAM [FOLDER]]

PROGRAM is by default the built `probe`. The texts are statements of SQL and the bytes of row
events, of 1, 10 and 100 KB, compressed by zlib at level 6. They are put into FOLDER (by default
bench/work/inflate), and so is `zlib_baseline`, which a C compiler builds with zlib. Both programs have
to write each text. `valgrind --tool=callgrind` counts, less what it counts for an empty text in a
stored block, so that the start of the process and its buffers are left out. Prints a table: the
instructions for a text, the mean of several texts.
"""

import random
import re
import struct
import subprocess
import sys
import zlib
from pathlib import Path

from arguments import arguments

BENCH = Path(__file__).resolve().parent
PROGRAM = BENCH.parent / "crates/probe/out/probe"
FOLDER = BENCH / "work/inflate"

# The mode of `probe`; the baseline reads no words.
MODE = "inflate"

LENGTHS = [1_000, 10_000, 100_000]
TEXTS = 4
LEVEL = 6
WORDS = 3_000
COUNTRIES = [b"DE", b"FR", b"US", b"GB", b"JP"]


class Texts:
    """Random statements and rows about the same customers."""

    def __init__(self, seed):
        self.rng = random.Random(seed)
        letters = b"abcdefghijklmnopqrstuvwxyz"
        self.words = [bytes(self.rng.choice(letters) for _ in range(self.rng.randrange(3, 12))) for _ in range(WORDS)]

    def word(self):
        return self.rng.choice(self.words)

    def values(self):
        rng = self.rng
        date = b"2026-%02d-%02d %02d:%02d:%02d" % (
            rng.randrange(1, 13),
            rng.randrange(1, 29),
            rng.randrange(24),
            rng.randrange(60),
            rng.randrange(60),
        )
        return b"(%d,'%s','%s %s','%s@%s.com','%s',%d.%02d,'%s')" % (
            rng.randrange(1, 10**7),
            self.word().capitalize(),
            self.word().capitalize(),
            self.word(),
            self.word(),
            self.word(),
            date,
            rng.randrange(10_000),
            rng.randrange(100),
            rng.choice(COUNTRIES),
        )

    def statement(self, length):
        text = b"INSERT INTO customers (id, first_name, full_name, email, created_at, balance, country) VALUES "
        while len(text) < length:
            text += self.values() + b", "
        return text[:length]

    def row(self):
        rng = self.rng
        texts = [self.word(), self.word() + b" " + self.word(), self.word() + b"@" + self.word() + b".com"]
        return (
            b"\x00"
            + struct.pack("<I", rng.randrange(1, 10**7))
            + b"".join(bytes([len(text)]) + text for text in texts)
            + b"\x99"
            + struct.pack(">I", rng.randrange(2**29, 2**29 + 2**24))
            + struct.pack(">I", 0x8000_0000 + rng.randrange(10_000))
            + bytes([rng.randrange(100), 2])
            + rng.choice(COUNTRIES)
            + struct.pack("<q", rng.randrange(5))
        )

    def rows(self, length):
        text = bytes.fromhex("4500000000000100020007ff")
        while len(text) < length:
            text += self.row()
        return text[:length]


def build_baseline(folder):
    baseline = folder / "zlib_baseline"
    subprocess.run(["cc", "-O2", "-o", baseline, BENCH / "zlib_baseline.c", "-lz"], check=True)
    return baseline


def counted(program, mode, stream, text):
    """The instructions of the program over the stream, of which it has to write the text."""
    command = ["valgrind", "--tool=callgrind", "--callgrind-out-file=/dev/null", program, mode]
    result = subprocess.run(command, input=stream, capture_output=True, check=True)
    if result.stdout != text:
        sys.exit(f"{program} wrote another text of {len(result.stdout)} bytes")
    return int(re.search(rb"Collected : (\d+)", result.stderr).group(1))


def main():
    given = [Path(word) for word in arguments(__doc__)]
    program, folder = given + [PROGRAM, FOLDER][len(given) :]
    folder.mkdir(parents=True, exist_ok=True)
    programs = [program, build_baseline(folder)]
    starts = [counted(each, MODE, zlib.compress(b"", 0), b"") for each in programs]
    texts = Texts(1)
    print("| | Bytes | Compressed | Instructions | zlib's | Instructions / zlib's |")
    print("|---|---:|---:|---:|---:|---:|")
    for kind, make in [("statements", texts.statement), ("rows", texts.rows)]:
        for length in LENGTHS:
            pairs = [(text, zlib.compress(text, LEVEL)) for text in (make(length) for _ in range(TEXTS))]
            compressed = sum(len(stream) for _, stream in pairs) // TEXTS
            counts = [
                sum(counted(each, MODE, stream, text) - start for text, stream in pairs) // TEXTS
                for each, start in zip(programs, starts)
            ]
            ratio = counts[0] / counts[1]
            print(f"| {kind} | {length:,} | {compressed:,} | {counts[0]:,} | {counts[1]:,} | {ratio:.2f} |", flush=True)


if __name__ == "__main__":
    main()
