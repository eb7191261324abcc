#!/usr/bin/env python3
"""Refuses each allocation in turn, in the programs and in the tests of refused memory.

Usage: refused_memory.py FLAG

FLAG is --proved or --cargo. Each program runs with its first allocation refused, then with its second one, and so on until a run
makes fewer.

With --proved the programs and the tests are those that are built in crates/NAME/out. Listings must be a prefix of all lines, with
status 3, and so must what `binlog json` and `binlog copy` print, unless they do without the allocation, and `binlog gtids` of the
events in front of a refused one; what is written back must be a prefix of the log; and a program must free all its memory. A test
must pass; those are run whose full name contains `memory`. A test whose name ends in `takes_no_memory` or `take_no_memory` must
make no allocation, not even one whose refusal it would hide. One whose name ends in `makes_one_allocation` or
`make_two_allocations` must make exactly as many; the names count to nine.

With --cargo the commands `list`, `json` and `copy` of the packages' `binlog` print a prefix of all lines, or of the log. They end
with status 3, or are aborted where the allocation is one of Rust's runtime or of another crate's, or do without it, and then
they print all.

The last line is `N passed, M failed`, where each run counts; the exit status is 1 if one failed. Without the C compiler `cc`
nothing is run, and both numbers are 0.
"""

import argparse
import re
import subprocess
import sys
from functools import partial
from itertools import accumulate, count
from signal import SIGABRT

import gtid_model
import json_model
import listing_model
import maria_events
import programs
import row_lines
import samples
import watched
from damaged_copies import MAGIC

SUCCESS, FAILURE, OUTSIDE = 0, 1, 3

# More bytes than a buffer may grow by at a time.
LONG_EVENT = samples.frame(samples.QUERY, samples.query_body(b"test", b"x" * 70_000), 0)
LOGS = {
    "the sample": samples.plain(),
    "the sample with checksums": samples.checksummed(),
    "each body": samples.bodies(),
    "GTIDs": samples.gtids(),
    "MariaDB's GTIDs": samples.maria_gtids(),
    "long events": samples.plain() + 3 * LONG_EVENT,
    "MariaDB's events": (programs.REPOSITORY / "tests/samples/maria.binlog").read_bytes(),
    "documents": row_lines.documents_sample(),
}


def failures(watch, name, command, content, fault):
    """For each allocation, None or what is wrong if it is refused."""
    for number in count(1):
        run = watch.run(command, content, refused=number)
        if not run.is_refused:
            return
        wrong = fault(run) or left_fault(run)
        yield wrong and f"{name}, its allocation {number} refused: {wrong}"


def left_fault(run):
    """None if nothing is left, or the program, a test, runs in a process that doesn't exit by itself."""
    return f"{run.left} blocks aren't freed" if run.left else None


def status_fault(run, wanted):
    return None if run.status == wanted else f"status {run.status}, not {wanted}"


def lines_fault(model, content):
    lines, _ = model.expected(content)

    def fault(run):
        if not lines.startswith(run.output) or not (b"\n" + run.output).endswith(b"\n"):
            return f"{len(run.output)} bytes that are no first lines of the listing"
        return status_fault(run, OUTSIDE)

    return fault


def command_fault(lines):
    """The same of a command of `binlog`, whose message stands before the lines. It may do without an allocation."""

    def fault(run):
        output = re.sub(rb"\A(binlog|error): [^\n]*out of memory[^\n]*\n", b"", run.output)
        if not lines.startswith(output) or not (b"\n" + output).endswith(b"\n"):
            return f"{len(output)} bytes that are no first lines"
        return status_fault(run, SUCCESS if run.output == lines and run.status == SUCCESS else OUTSIDE)

    return fault


def listing_fault(content):
    return lines_fault(listing_model, content)


def mode_listing_fault(content):
    """As `listing_fault`, of a program with a mode: where its words can't be read it lists nothing, and its status is 1."""
    fault = listing_fault(content)
    return lambda run: None if (run.status, run.output) == (FAILURE, b"") else fault(run)


def written_back_fault(content):
    def fault(run):
        if not content.startswith(run.output):
            return "no front of the log is written back"
        return status_fault(run, FAILURE)

    return fault


def failure_fault(_content):
    return lambda run: status_fault(run, FAILURE)


def bodies_fault(content):
    """What is written for bodies and for their copies is right, up to the event whose allocation is refused."""
    lines, _ = programs.run(programs.proved("probe", "events"), content)

    def fault(run):
        if not lines.startswith(run.output) or not (b"\n" + run.output).endswith(b"\n"):
            return f"{len(run.output)} bytes that are no first lines of all bodies"
        return status_fault(run, FAILURE)

    return fault


# What is wrong with a run of each program, a crate's with its arguments.
PROGRAMS = {
    "binlog_list": listing_fault,
    "probe slice-listing": mode_listing_fault,
    "probe write-back": written_back_fault,
    "probe typed": failure_fault,
    "probe events": bodies_fault,
    "probe reading owned": failure_fault,
    "probe maria-gtids": failure_fault,
    "probe row-sums": failure_fault,
}


def test_fault(run):
    return None if run.status == SUCCESS else f"it fails:\n{run.output.decode(errors='replace')}"


NUMBERS = ["one", "two", "three", "four", "five", "six", "seven", "eight", "nine"]
MADE = re.compile(rf"makes?_({'|'.join(NUMBERS)})_allocations?$")


def stated_allocations(name):
    """How many allocations a test makes according to its name, or None if the name doesn't state it."""
    if name.endswith(("takes_no_memory", "take_no_memory")):
        return 0
    made = MADE.search(name)
    return NUMBERS.index(made[1]) + 1 if made else None


def stated_fault(run, stated):
    made = len(run.allocations)
    return test_fault(run) if made == stated else f"it makes {made} allocations, not {stated}"


def proved_failures(watch):
    for name, fault in PROGRAMS.items():
        for log, content in LOGS.items():
            command = programs.proved(*name.split())
            yield from failures(watch, f"{name} over {log}", command, content, fault(content))
    maria = maria_events.sample()
    for title, content, lines in (("MariaDB's events", maria.content, maria.lines), ("rows", *row_lines.sample())):
        command = programs.proved("binlog", "json")
        yield from failures(watch, f"binlog json over {title}", command, content, command_fault(lines))
    yield from command_failures(watch, programs.PROVED, {"json": json_model, "gtids": gtid_model}, (OUTSIDE,))
    for program, name in watched.tests():
        stated = stated_allocations(name)
        if stated is not None:
            wrong = stated_fault(watch.run([program, name]), stated)
            yield wrong and f"{name}: {wrong}"
        elif "memory" in name:
            yield from failures(watch, name, [program, name], b"", test_fault)


# ---- commands of `binlog`


def output_fault(run, fronts, whole, statuses):
    """What is wrong with a run of a command that would print the whole output with its status, or, refused, a front of one of these
    outputs with one of those statuses."""
    if not any(front.startswith(run.output) for front in fronts):
        return f"{len(run.output)} bytes that are no front of the output"
    return None if (run.output, run.status) == whole or run.status in statuses else f"status {run.status}"


def fronts_of(purpose, content, output):
    """The outputs of a command of which a refused run prints a front: of `gtids` those of the log up to each of its events."""
    if purpose != "gtids":
        return [output]
    frames, _ = listing_model.split(content[len(MAGIC) :])
    ends = accumulate(map(len, frames), initial=len(MAGIC))
    return [gtid_model.expected(content[:end])[0] for end in ends] + [output]


def command_failures(watch, build, models, statuses):
    """For each allocation of each of these commands over each log, None or what is wrong if it is refused."""
    for log, content in LOGS.items():
        outputs = {purpose: listing_model.of_command(model.expected)(content) for purpose, model in models.items()}
        if listing_model.expected(content)[1] == SUCCESS:
            outputs["write back"] = content, SUCCESS
        for purpose, whole in outputs.items():
            words = next(filter(programs.is_command, build.commands(purpose)))
            fronts = fronts_of(purpose, content, whole[0])
            run = partial(watch.run, words, content, stderr=subprocess.DEVNULL)
            for number in count(1):
                if not (found := run(refused=number)).is_refused:
                    break
                wrong = output_fault(found, fronts, whole, statuses)
                yield wrong and f"{' '.join(words)} over {log}, its allocation {number} refused: {wrong}"


def packaged_failures(watch):
    models = {"list": listing_model, "json": json_model}
    return command_failures(watch, programs.CARGO, models, (OUTSIDE, -SIGABRT))


def main():
    parser = argparse.ArgumentParser(description="Refuses each allocation in turn.")
    programs.add_flags(parser)
    build = programs.parsed(parser, "list", "json", "gtids", "write back").build
    return watched.report(packaged_failures if build is programs.CARGO else proved_failures)


if __name__ == "__main__":
    sys.exit(main())
