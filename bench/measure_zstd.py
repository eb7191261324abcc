#!/usr/bin/env python3
"""Counts the instructions that decompression of Zstandard frames takes, of `probe zstd` and of libzstd.

Usage: measure_zstd.py [PROGRAM [FOLDER]]

PROGRAM is by default the built `probe`. The texts are those of `measure_inflate.py`, compressed by the program `zstd` at level 3,
the one that servers use. They are put into FOLDER (by default bench/work/zstd), and so is `zstd_baseline`, which a C compiler builds
with libzstd. Both programs have to write each text. `valgrind --tool=callgrind` counts, less what it counts for an empty text in a
raw block, so that the start of the process and its buffers are left out. Prints a table: the instructions for a text, the mean of
several texts; and the processor time of both programs for frames of 40 MB of such texts, the best of several runs.
"""

import os
import subprocess
import sys
from pathlib import Path

from arguments import arguments
from measure_inflate import LENGTHS, TEXTS, Texts, counted

BENCH = Path(__file__).resolve().parent
PROGRAM = BENCH.parent / "crates/probe/out/probe"
FOLDER = BENCH / "work/zstd"

# The mode of `probe`; the baseline reads no words.
MODE = "zstd"

LIBRARY = "libzstd.so.1"
LEVEL = 3
# A frame of no bytes, in a raw block.
EMPTY = bytes.fromhex("28b52ffd2000010000")

# The bytes of content in the frames that are timed, and the runs.
TIMED = 40_000_000
RUNS = 5


def compressed(text):
    """A frame as a server writes it: with the size of the text, and without a checksum."""
    words = ["zstd", "-q", f"-{LEVEL}", "--no-check", f"--stream-size={len(text)}", "-c"]
    return subprocess.run(words, input=text, capture_output=True, check=True).stdout


def build_baseline(folder):
    baseline = folder / "zstd_baseline"
    subprocess.run(["cc", "-O2", "-o", baseline, BENCH / "zstd_baseline.c", f"-l:{LIBRARY}"], check=True)
    return baseline


def seconds(program, path):
    """The processor time of the program over the frames in a file, with the output to /dev/null."""
    times = []
    for _ in range(RUNS):
        with path.open("rb") as frames:
            process = subprocess.Popen([program, MODE], stdin=frames, stdout=subprocess.DEVNULL)
            _, status, used = os.wait4(process.pid, 0)
        if status != 0:
            sys.exit(f"{program} refused {path}")
        times.append(used.ru_utime + used.ru_stime)
    return min(times)


def main():
    given = [Path(word) for word in arguments(__doc__)]
    program, folder = given + [PROGRAM, FOLDER][len(given) :]
    folder.mkdir(parents=True, exist_ok=True)
    programs = [program, build_baseline(folder)]
    starts = [counted(each, MODE, EMPTY, b"") for each in programs]
    texts = Texts(1)
    print("| | Bytes | Compressed | Instructions | libzstd's | Instructions / libzstd's | Time / libzstd's |")
    print("|---|---:|---:|---:|---:|---:|---:|")
    for kind, make in [("statements", texts.statement), ("rows", texts.rows)]:
        for length in LENGTHS:
            pairs = [(text, compressed(text)) for text in (make(length) for _ in range(TEXTS))]
            size = sum(len(frame) for _, frame in pairs) // TEXTS
            counts = [
                sum(counted(each, MODE, frame, text) - start for text, frame in pairs) // TEXTS
                for each, start in zip(programs, starts)
            ]
            path = folder / f"{kind}-{length}.zst"
            path.write_bytes(b"".join(frame for _, frame in pairs) * (TIMED // (TEXTS * length)))
            times = [seconds(each, path) for each in programs]
            print(
                f"| {kind} | {length:,} | {size:,} | {counts[0]:,} | {counts[1]:,} | {counts[0] / counts[1]:.2f} "
                f"| {times[0] / times[1]:.2f} |",
                flush=True,
            )


if __name__ == "__main__":
    main()
