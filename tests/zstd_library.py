#!/usr/bin/env python3
"""Compares the contents of Zstandard frames, and which frames are refused, with libzstd and with what the program `zstd` compressed.

Usage: zstd_library.py [--count N] [--longest N] FLAG

FLAG is one of `programs.py`: its program answers questions of frames, as `crates/probe/src/streams.rt` says. There are N frames
beside libzstd's `ZSTD_decompress`: worked ones, one for each rule and each refusal, random ones that are written block by block, those
that libzstd compresses, and damaged copies of all. Both have to read a frame, and give the same content, or both to refuse it, but
where libzstd lacks a rule of the format, or has one more: `LACKING` and `FURTHER` have each of these. Where a rule is lacking, the
model without it has to give libzstd's content; only where libzstd reads bits that a stream doesn't have, no model can.

The frames of the program `zstd` are of each level from 1 to 22, with and without checksums, sizes and `--long`, of texts of up to
--longest bytes, and two of 10 MB. Their contents are what was compressed.

The last line of the output is `N passed, M failed`; the exit status is 1 if something failed. Without libzstd nothing is run.
"""

import argparse
import collections
import ctypes
import random
import shutil
import subprocess
import sys

import programs
import results
import zstd_model as model
from compressible_texts import TEXTS, random_text
from zstd_frames import LIMIT, answers, crafted, damaged, frame

COUNT = 50_000
LONGEST = 100_000
LIBRARY = "libzstd.so.1"

# Of each frame so many damaged copies. Questions are asked so many at a time.
COPIES = 24
ASKED_AT_ONCE = 20_000

# Of texts that libzstd compresses, in bytes. Its windows are from 1 KB on.
LONGEST_TEXT = 5_000

LONG_TEXT = 10_000_000

# Rules that libzstd lacks, by the names of our refusals.
LACKING = {
    "Window": "an offset is beyond the window, but within the content",
    "BlockSize": "a block is larger than a block may be",
    "BlockOutput": "a block makes more content than a block may",
    "LiteralsSize": "a block has more literals than a block may make",
    "Tree": "a code has 12 bits",
    "Weight": "a code has 12 bits",
    "OneSymbol": "a distribution has one symbol",
    "BitsLeft": "bits are left behind the last sequence, no more than the next states would take",
    "Offset": "an offset is the last one less one, and that is 0; it is taken as 1",
    "Modes": "reserved bits of the modes are set",
    "LeftOver": "bytes are behind a count of 0 sequences; it reads no count of 0 in two bytes, but modes",
}

# Bits that libzstd reads though the stream doesn't have them.
BEYOND_LITERALS = "four streams of literals end too early or too late; its fast loop doesn't look at where they end"
BEYOND_SEQUENCES = "the bits of sequences run out"
BEYOND_DISTRIBUTION = "the bits of a distribution run out; it goes on with bits that it has read before"
BEYOND_WEIGHTS = "the bits of the first states of a tree's weights run out"
BEYOND = {("four streams", name): BEYOND_LITERALS for name in ("BitsLeft", "BitsOut", "NoMark")}
BEYOND |= {("sequences", "BitsOut"): BEYOND_SEQUENCES, ("weights", "BitsOut"): BEYOND_WEIGHTS}
BEYOND |= {("distribution", "Short"): BEYOND_DISTRIBUTION}

OLDER_FORMAT = "the magic number is that of an older format, which this build of libzstd reads"
OLDER_MAGICS = [bytes([first]) + bytes.fromhex("b52ffd") for first in range(0x22, 0x28)]

# What libzstd refuses though the format has it.
FURTHER = {
    "a window of 2^32 bytes": "the window is of 2^32 bytes or more",
    "a count of 0 in two bytes": "a count of 0 sequences is written in two bytes",
}


class Library:
    """libzstd: `ZSTD_decompress`, and a compressor with parameters."""

    LEVEL, WINDOW, STATES_SIZE, HAS_CHECKSUM = 100, 101, 200, 201

    def __init__(self):
        self.calls = ctypes.CDLL(LIBRARY)
        for name in ("decompress", "compress2", "compressBound", "CCtx_setParameter"):
            getattr(self.calls, f"ZSTD_{name}").restype = ctypes.c_size_t
        self.calls.ZSTD_createCCtx.restype = ctypes.c_void_p
        self.compressor = ctypes.c_void_p(self.calls.ZSTD_createCCtx())
        self.room = ctypes.create_string_buffer(LIMIT)

    def content(self, frames):
        """The content of the frames, of at most LIMIT bytes; None if they are refused."""
        size = self.calls.ZSTD_decompress(self.room, ctypes.c_size_t(LIMIT), frames, ctypes.c_size_t(len(frames)))
        return None if size > LIMIT else ctypes.string_at(self.room, size)

    def compressed(self, text, parameters):
        for parameter, value in parameters.items():
            self.calls.ZSTD_CCtx_setParameter(self.compressor, parameter, value)
        most = self.calls.ZSTD_compressBound(ctypes.c_size_t(len(text)))
        found = ctypes.create_string_buffer(most)
        size = self.calls.ZSTD_compress2(self.compressor, found, ctypes.c_size_t(most), text, ctypes.c_size_t(len(text)))
        assert size <= most
        return found.raw[:size]


# ---- frames beside libzstd


def undamaged(library):
    """Frames without end."""
    yield from ((name, data) for name, data, _ in crafted(0))
    seed = 0
    while True:
        rng = random.Random(f"library {seed}")
        parameters = {
            Library.LEVEL: rng.choice([-5, -1, 1, 2, 3, 4, 5, 7, 9, 12, 15, 17, 19, 22]),
            Library.WINDOW: rng.choice([0, 10, 10, 11, 12, 14]),
            Library.STATES_SIZE: rng.randrange(2),
            Library.HAS_CHECKSUM: rng.choice([0, 0, 0, 1]),
        }
        yield f"of libzstd {seed}", library.compressed(random_text(rng, LONGEST_TEXT), parameters)
        yield f"random {seed}", frame(rng)
        seed += 1


def frames(library, count):
    """So many frames, each with a name."""
    made = 0
    for name, data in undamaged(library):
        rng = random.Random(name)
        copies = (f"{name}, copy {copy}" for copy in range(COPIES))
        for asked in [(name, data), *((copy, damaged(rng, data)) for copy in copies if data)]:
            yield asked
            made += 1
            if made == count:
                return


def lacking_rule(data, content):
    """Why libzstd alone reads the frames, and gives this content; None if there is no reason."""
    first = None
    model.left_out.clear()
    try:
        while True:
            try:
                found = model.decompressed(data, LIMIT)
                return first if found == content else None
            except model.Refusal as refusal:
                name = refusal.args[0]
                if (refusal.bits, name) in BEYOND:
                    return BEYOND[refusal.bits, name]
                if name == "Magic" and any(magic in data for magic in OLDER_MAGICS):
                    return OLDER_FORMAT
                if name not in LACKING or name in model.left_out:
                    return None
                model.left_out.add(name)
                first = first or LACKING[name]
    finally:
        model.left_out.clear()


def further_rule(data):
    """Why libzstd alone refuses the frames; None if there is no reason."""
    model.met.clear()
    model.decompressed(data, LIMIT)
    return next((reason for name, reason in FURTHER.items() if name in model.met), None)


def compared(library, name, data, answer, counts):
    """What is wrong with the answer, or None."""
    content = library.content(data)
    is_content = isinstance(answer, bytes)
    if is_content and content is not None:
        counts["both read"] += 1
        return None if answer == content else f"{name}: {data[:60].hex()}: another content"
    if not is_content and content is None:
        counts["both refuse"] += 1
        return None
    reason = further_rule(data) if is_content else lacking_rule(data, content)
    counts[f"{'only libzstd refuses' if is_content else 'only libzstd reads'}: {reason}"] += 1
    return None if reason else f"{name}: {data.hex()}: {answer if not is_content else 'read'}, libzstd differs for no known reason"


def beside_library(words, count):
    """What is wrong with the answers beside libzstd, for each frame, or None."""
    library = Library()
    print(f"libzstd {'.'.join(str(library.calls.ZSTD_versionNumber() // unit % 100) for unit in (10_000, 100, 1))}")
    counts, asked = collections.Counter(), []
    for number, (name, data) in enumerate(frames(library, count), 1):
        asked.append((name, data))
        if len(asked) == ASKED_AT_ONCE or number == count:
            found = answers(words, [(LIMIT, data) for _, data in asked])
            for (name, data), answer in zip(asked, found):
                yield compared(library, name, data, answer, counts)
            asked = []
    for reason, number in sorted(counts.items()):
        print(f"{number:>9,} {reason}")


# ---- frames of the program zstd


def commands(longest):
    """Levels, options and texts: the words of the program, and the text."""
    for level in range(1, 23):
        for size in (0, 1, 300, 20_000, longest):
            rng = random.Random(f"{level} {size}")
            words = [f"-{level}", *(["--ultra"] if level > 19 else []), *rng.choice([[], ["--long"]])]
            words += rng.choice([["--check"], ["--no-check"]]) + rng.choice([[], [f"--stream-size={size}"]])
            yield words, rng.choice(TEXTS)(rng, size)
    rng = random.Random(1)
    yield ["-3", "--check"], TEXTS[0](rng, LONG_TEXT)
    half = TEXTS[1](rng, LONG_TEXT // 2)
    yield ["-5", "--long=27", "--no-check"], half + half


def of_program(words, longest):
    """What is wrong with the answers for the frames of the program, for each frame, or None."""
    if shutil.which("zstd") is None:
        print("zstd isn't installed: none of its frames")
        return
    for options, text in commands(longest):
        data = subprocess.run(["zstd", "-q", *options, "-c"], input=text, capture_output=True, check=True).stdout
        name = f"zstd {' '.join(options)} of {len(text)} bytes"
        wanted = [(len(text), text)] + ([(len(text) - 1, "Limit")] if text else [])
        found = answers(words, [(limit, data) for limit, _ in wanted])
        for (limit, answer), given in zip(wanted, found):
            yield None if given == answer else f"{name}, at most {limit} bytes: {given!r:.60}"


def main():
    parser = argparse.ArgumentParser(description=__doc__, formatter_class=argparse.RawDescriptionHelpFormatter)
    parser.add_argument("--count", type=int, default=COUNT, help="how many frames beside libzstd")
    parser.add_argument("--longest", type=int, default=LONGEST, help="the longest text of each level, in bytes")
    programs.add_flags(parser)
    arguments = programs.parsed(parser, "frames")
    words = arguments.build.command("frames")
    try:
        ctypes.CDLL(LIBRARY)
    except OSError:
        return results.left_out("There is no libzstd: nothing is compared with it.")
    return results.report([*of_program(words, arguments.longest), *beside_library(words, arguments.count)])


if __name__ == "__main__":
    sys.exit(main())
