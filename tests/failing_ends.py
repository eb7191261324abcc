#!/usr/bin/env python3
"""Runs listings with an input that fails, and with an output that fails: the exit status is 3.

Usage: failing_ends.py [--json | --gtids] FLAG

FLAG is one of `programs.py`: each of its programs that list a log, with --json those that print lines of JSON, or with --gtids
those that list GTIDs. An input that fails is a folder, a closed descriptor, and a terminal that hangs up after a prefix of the
sample: all events that were whole by then must be listed, or their GTIDs. An output that fails is a full device, a closed descriptor and a pipe that nobody reads; the listing is short, so that the failure shows
when it is flushed, or long. For the program `binlog` a pipe that nobody reads is no failure. For a program of Rust's runtime a
closed descriptor is the null device: its input is empty, and it writes nothing. The last line is `N passed, M failed`; the exit
status is 1 if something failed.
"""

import argparse
import os
import subprocess
import sys
import tty
from concurrent.futures import ThreadPoolExecutor
from types import ModuleType
from typing import NamedTuple

import gtid_model
import json_model
import listing_model
import programs
import results
import samples
from damaged_copies import EVENT, MAGIC, PROCESSES_AT_A_TIME, frame_starts

FINE, NOT_A_BINLOG, DAMAGED, FAILED = 0, 1, 2, 3


class Listing(NamedTuple):
    """A listing's model, a sample, a log whose listing is longer than an output buffer of 65,536 bytes, and the status of both
    logs where nothing fails."""

    model: ModuleType
    sample: bytes
    long_log: bytes
    status: int


LONG_LOG = MAGIC + 20_000 * EVENT
LONG_GTIDS = MAGIC + 20_000 * samples.gtid(0)
LISTINGS = {
    "list": Listing(listing_model, samples.plain(), LONG_LOG, FINE),
    "json": Listing(json_model, samples.plain(), LONG_LOG, FINE),
    "gtids": Listing(gtid_model, samples.gtids(), LONG_GTIDS, DAMAGED),
}


def hung_up(content):
    """A descriptor that gives the content and then fails."""
    master, slave = os.openpty()
    tty.setraw(slave)
    written = os.write(slave, content)
    os.close(slave)
    if written != len(content):
        raise ValueError(f"the terminal took {written} bytes of {len(content)}")
    return master


def listed(words, **ends):
    finished = subprocess.run(words, stdout=subprocess.PIPE, stderr=subprocess.DEVNULL, **ends)
    return finished.stdout, finished.returncode


def listed_until_it_fails(words, front):
    descriptor = hung_up(front)
    try:
        return listed(words, stdin=descriptor)
    finally:
        os.close(descriptor)


def front_failure(words, listing, length):
    """None if the whole events in a prefix of the sample are listed, else what is wrong."""
    front = listing.sample[:length]
    return difference(
        f"an input that fails behind {length} bytes",
        listed_until_it_fails(words, front),
        (listing.model.expected(front)[0], FAILED),
    )


def difference(name, found, wanted):
    if found == wanted:
        return None
    return f"{name}: status {found[1]} and {len(found[0])} bytes, not {wanted[1]} and {len(wanted[0])}"


def unread_inputs(words, build):
    folder = os.open("/", os.O_RDONLY)
    try:
        yield difference("a folder as input", listed(words, stdin=folder), (b"", FAILED))
    finally:
        os.close(folder)
    closed = listed(words, preexec_fn=lambda: os.close(0))
    yield difference("a closed input", closed, (b"", NOT_A_BINLOG if build.has_rusts_runtime else FAILED))


def status_with_output(words, log, **ends):
    process = subprocess.Popen(words, stdin=subprocess.PIPE, stderr=subprocess.DEVNULL, **ends)
    try:
        process.communicate(log)
    except BrokenPipeError:
        process.wait()
    return process.returncode


def failing_outputs(words, build, listing):
    unread, writing = os.pipe()
    os.close(unread)
    with open("/dev/full", "wb") as full:
        outputs = {
            "a full device": ({"stdout": full}, True),
            "a pipe that nobody reads": ({"stdout": writing}, not programs.is_command(words)),
            "a closed output": ({"preexec_fn": lambda: os.close(1)}, not build.has_rusts_runtime),
        }
        for length, log in (("short", listing.sample), ("long", listing.long_log)):
            for name, (ends, is_failure) in outputs.items():
                status = status_with_output(words, log, **ends)
                # One that is no failure may end the listing before it comes to an error.
                is_right = status == FAILED if is_failure else status in (FINE, listing.status)
                yield None if is_right else f"a {length} listing to {name}: status {status}"
    os.close(writing)


def lengths(sample):
    """Prefixes: each up to some length, then those that end with an event or one byte off."""
    ends = [*frame_starts(sample), len(sample)]
    beside = {end + more for end in ends for more in (-1, 0, 1)}
    return sorted(set(range(300)) | {length for length in beside if length <= len(sample)})


def all_failures(words, build, listing):
    with ThreadPoolExecutor(PROCESSES_AT_A_TIME) as pool:
        yield from pool.map(lambda length: front_failure(words, listing, length), lengths(listing.sample))
    yield from unread_inputs(words, build)
    yield from failing_outputs(words, build, listing)


def main():
    parser = argparse.ArgumentParser(description="Runs listings with ends that fail.")
    programs.add_flags(parser)
    programs.add_purposes(parser)
    arguments = programs.parsed(parser)
    build, listing = arguments.build, LISTINGS[arguments.purpose]
    commands = build.commands(arguments.purpose)
    named = ((" ".join(words), wrong) for words in commands for wrong in all_failures(words, build, listing))
    return results.report(wrong and f"{name}: {wrong}" for name, wrong in named)


if __name__ == "__main__":
    sys.exit(main())
