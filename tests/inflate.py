#!/usr/bin/env python3
"""Compares the texts of zlib streams with those of Python's zlib, on random streams and on damaged copies of them.

Usage: inflate.py [--streams N] FLAG
       inflate.py [--streams N] --cases FOLDER

FLAG is one of `programs.py`: its program writes the text of the zlib stream on standard input, or fails with status 1. A stream
is accepted if zlib reads it to its end and nothing is left behind it; then the program has to write the same text, and else to
refuse the stream. With --cases no program is run: the streams and what is wanted of each are written into FOLDER, one folder
for each. The last line of the output is `N passed, M failed`; the exit status is 1 if something failed.
"""

import argparse
import random
import subprocess
import sys
import zlib
from concurrent.futures import ThreadPoolExecutor
from pathlib import Path

import programs
import results
from compressible_texts import random_text

STREAMS = 1500
DAMAGED_COPIES = 3
LONGEST_TEXT = 70_000
PROCESSES_AT_A_TIME = 2

STRATEGIES = [
    zlib.Z_DEFAULT_STRATEGY,
    zlib.Z_FILTERED,
    zlib.Z_HUFFMAN_ONLY,
    zlib.Z_RLE,
    zlib.Z_FIXED,
]
FLUSHES = [zlib.Z_NO_FLUSH, zlib.Z_SYNC_FLUSH, zlib.Z_FULL_FLUSH, zlib.Z_PARTIAL_FLUSH]


def compressed(rng, text):
    """A zlib stream of the text, in pieces, under random parameters."""
    compressor = zlib.compressobj(
        rng.randrange(10), zlib.DEFLATED, rng.randrange(9, 16), rng.randrange(1, 10), rng.choice(STRATEGIES)
    )
    stream = b""
    place = 0
    while place < len(text):
        count = rng.choice([len(text), 1000, 50])
        stream += compressor.compress(text[place : place + count])
        stream += compressor.flush(rng.choice(FLUSHES))
        place += count
    return stream + compressor.flush()


def with_checksum(stream, text):
    return stream[:-4] + zlib.adler32(text).to_bytes(4, "big")


def damaged(rng, stream):
    """The stream with a bit, a byte or a piece changed, left out or added."""
    place = rng.randrange(len(stream))
    kind = rng.randrange(6)
    if kind == 0:
        return stream[:place]
    if kind == 1:
        return stream[:place] + stream[place + 1 :]
    if kind == 2:
        return stream[:place] + bytes([rng.randrange(256)]) + stream[place:]
    if kind == 3:
        return stream + rng.randbytes(rng.randrange(1, 5))
    # Most damage is in the first bytes, where the codes of a block are.
    place = min(place, rng.choice([20, 100, place]))
    byte = stream[place] ^ (1 << rng.randrange(8)) if kind == 4 else rng.randrange(256)
    return stream[:place] + bytes([byte]) + stream[place + 1 :]


def wanted_of(stream):
    """The text of the stream, or None if zlib refuses it or bytes are left."""
    decompressor = zlib.decompressobj()
    try:
        text = decompressor.decompress(stream)
    except zlib.error:
        return None
    if not decompressor.eof or decompressor.unused_data:
        return None
    return text


def streams(count):
    for seed in range(count):
        rng = random.Random(seed)
        stream = compressed(rng, random_text(rng, LONGEST_TEXT))
        yield f"stream {seed}", stream
        for copy in range(DAMAGED_COPIES):
            changed = damaged(rng, stream)
            yield f"copy {copy} of stream {seed}", changed
            # With the checksum of the text that zlib makes of it, a change may be accepted.
            text = zlib_text(changed)
            if text is not None and len(changed) > 6:
                yield f"copy {copy} of stream {seed}, with its checksum", with_checksum(changed, text)


def zlib_text(stream):
    """What zlib makes of the compressed data of the stream, whatever its checksum."""
    decompressor = zlib.decompressobj(-15)
    try:
        text = decompressor.decompress(stream[2:])
    except zlib.error:
        return None
    return text if decompressor.eof else None


def failure_of(words, name, stream):
    result = subprocess.run(words, input=stream, capture_output=True, check=False)
    wanted = wanted_of(stream)
    if wanted is None:
        right = result.returncode == 1 and not result.stdout
    else:
        right = result.returncode == 0 and result.stdout == wanted
    if right:
        return None
    was = "refused" if wanted is None else f"a text of {len(wanted)} bytes"
    return f"{name}: {stream[:60].hex()}: zlib: {was}, the program: status {result.returncode}, {result.stderr!r}"


def write_cases(folder, count):
    for number, (name, stream) in enumerate(streams(count)):
        case = folder / f"{number:05}"
        case.mkdir(parents=True)
        wanted = wanted_of(stream)
        (case / "stdin").write_bytes(stream)
        (case / "stdout").write_bytes(wanted or b"")
        (case / "status").write_text("1\n" if wanted is None else "0\n")


def main():
    parser = argparse.ArgumentParser(description="Compares texts of zlib streams with zlib's.")
    programs.add_flags(parser)
    parser.add_argument("--streams", type=int, default=STREAMS)
    parser.add_argument("--cases", type=Path)
    if (arguments := parser.parse_args()).cases:
        write_cases(arguments.cases, arguments.streams)
        return 0
    words = programs.parsed(parser, "texts").build.command("texts")
    cases = list(streams(arguments.streams))
    with ThreadPoolExecutor(PROCESSES_AT_A_TIME) as pool:
        outcomes = list(pool.map(lambda case: failure_of(words, *case), cases))
    accepted = sum(wanted_of(stream) is not None for _, stream in cases)
    print(f"{accepted} of {len(cases)} streams are accepted by zlib")
    return results.report(outcomes)


if __name__ == "__main__":
    sys.exit(main())
