#!/usr/bin/env python3
"""Compares the rows that undo those of row events, and the events that have them, as the library makes them, with a model, over
sound and damaged row events.

Usage: undone_rows.py [--count N] FLAG

FLAG is one of `programs.py`: its program prints the bytes that undo the rows of each row event of a log, and the type and the body of
the event that undoes it, with checks of foreign keys as they are and without them; or why it refuses. The model gives those of N events (200,000 if not given), of which some are damaged. The last line is `N passed, M failed`; the exit status is 1
if something failed.
"""

import argparse
import random
import sys
from concurrent.futures import ProcessPoolExecutor

import encoded_events as encode
import programs
import results
import row_events
import row_model
import row_values
from row_model import Bytes, Fault

EVENTS_OF_A_LOG = 1_000
EVENTS_OF_A_PART = 10_000
VERSIONS = ("8.0.36", "10.11.6-MariaDB")


# ---- the model: `docs/UNDO.md`


class Refused(Exception):
    """Its argument is the members of the line."""


def image(found, stated, present, data):
    """The bytes of an image, and its columns as they are stored: by their places the bytes of the value, or None for NULL."""
    first = data.place
    there = [place for place, is_there in enumerate(present) if is_there]
    columns, place = {}, None
    try:
        nulls = data.take((len(there) + 7) // 8)
        for order, place in enumerate(there):
            start = data.place
            is_null = nulls[order // 8] >> order % 8 & 1 == 1
            if not is_null:
                found[place].read(data, stated[place])
            columns[place] = None if is_null else data.content[start : data.place]
    except Fault as fault:
        raise Fault(fault.args[0], place)
    return data.content[first : data.place], columns


def made_image(columns):
    """The bytes of an image with these columns: bits beyond the last are set."""
    values = [columns[place] for place in sorted(columns)]
    nulls = [value is None for value in values]
    nulls += [True] * (-len(nulls) % 8)
    return encode.bits(nulls) + b"".join(value for value in values if value is not None)


def is_needed(images, key):
    """Whether the images have what is needed."""
    before, after = images
    has_key = lambda present: bool(key) and all(place < len(present) and present[place] for place in key)
    if before is None:
        return all(after) or has_key(after)
    if after is None:
        return all(before)
    return all(b or not a for b, a in zip(before, after)) and (all(before) or has_key(before))


def undone(found, stated, event, key, is_partial):
    """Whether images are completed, and the rows that undo the rows, each as its bytes."""
    images = tuple(event[f"columns_{name}_image"] for name in ("before", "after"))
    if not is_needed(images, key):
        raise Refused([("error", "Image")])
    if is_partial:
        raise Refused([("error", "PartialJson")])
    completes = None not in images and images[0] != images[1]
    data, rows = Bytes(event["rows_data"].bytes), []
    while data.left():
        row, start = [], data.place
        for name, present in zip(("before", "after"), images):
            if present is None:
                row.append((b"", {}))
                continue
            try:
                row.append(image(found, stated, present, data))
            except Fault as fault:
                raise Refused(row_model.refusal(fault.args[0], len(rows), ("image", name), ("column", fault.args[1])))
        if data.place == start:
            raise Refused(row_model.refusal("LeftOver", len(rows)))
        (before, olds), (after, news) = row
        rows.append((made_image(olds | news) if completes else after) + before)
    return completes, rows[::-1]


# The type of the event that undoes one of a type.
INVERSE_TYPES = {23: 25, 24: 24, 25: 23, 30: 32, 31: 31, 32: 30, 39: 31}
STMT_END, NO_FOREIGN_KEY_CHECKS = 1, 2


def parts_of(kind, body):
    """The table id, the flags, the number of columns as it is encoded, and the bitmaps of a body that can be read."""
    data = Bytes(body)
    table_id, flags = data.take(6), int.from_bytes(data.take(2), "little")
    if kind not in encode.OLDER_ROWS:
        data.take(max(0, int.from_bytes(data.take(2), "little") - 2))
    first = data.take(1)[0]
    count = first if first < 251 else int.from_bytes(data.take({252: 2, 253: 3, 254: 8}[first]), "little")
    has_images = next(kind_of[2:] for kind_of in encode.ROWS_KINDS if kind_of[0] == kind)
    before, after = (data.take((count + 7) // 8) if is_there else b"" for is_there in has_images)
    return table_id, flags, count, before, after


def shortest(number):
    """A number in the shortest length-encoded form."""
    if number < 251:
        return bytes([number])
    for first, width in ((252, 2), (253, 3)):
        if number < 256**width:
            return bytes([first]) + number.to_bytes(width, "little")
    return bytes([254]) + number.to_bytes(8, "little")


def inverse(kind, body, completes, rows, added_flags):
    """The type and the body of the event that undoes one with this type and body."""
    table_id, flags, count, before, after = parts_of(kind, body)
    extra = b"" if kind in encode.OLDER_ROWS else bytes([2, 0])
    images = before + before if completes else after + before
    head = table_id + (flags | STMT_END | added_flags).to_bytes(2, "little") + extra
    return [INVERSE_TYPES[kind], (head + shortest(count) + images + rows).hex()]


class Tables(row_values.Tables):
    """The table maps in force, and a primary key of the columns at these places. `count` is that of the rows of the last event."""

    def __init__(self, is_maria, key):
        super().__init__(is_maria)
        self.key, self.count = key, 0

    def members(self, kind, body, event, table, columns):
        stated, _ = row_model.facts(columns, table["optional_metadata"].bytes, self.is_maria)
        try:
            completes, rows = undone(columns, stated, event, self.key, kind == row_values.PARTIAL[0])
        except Refused as refused:
            return refused.args[0]
        self.count, rows = len(rows), b"".join(rows)
        events = [inverse(kind, body, completes, rows, flags) for flags in (0, NO_FOREIGN_KEY_CHECKS)]
        return [("completes", completes), ("rows", rows.hex()), ("event", events[0]), ("unchecked", events[1])]


# ---- events


def random_images(chance, count):
    """Which columns are in the images: those of FULL, FULL_NODUP, MINIMAL, or any."""
    way = chance.random()
    everything = [True] * count
    some = [chance.random() < 0.5 for _ in range(count)]
    if way < 0.4:
        return everything, everything
    if way < 0.7:
        return everything, some
    if way < 0.9:
        within = [is_there and chance.random() < 0.7 for is_there in some]
        return [True, *some[1:]], [chance.random() < 0.5, *within[1:]]
    return some, [chance.random() < 0.8 for _ in range(count)]


def random_event(chance, chosen, table_id):
    kind = chance.choice(encode.ROWS_KINDS)
    before, after = random_images(chance, len(chosen))
    images = [present for present, is_there in ((before, kind[2]), (after, kind[3])) if is_there]
    rows = (row_values.random_row(chance, kind, chosen, images) for _ in range(chance.randint(0, 4)))
    flags, extra = chance.choice((0, 1, 2, 9, 65_535)), bytes(chance.randrange(256) for _ in range(chance.choice((0, 0, 1, 5))))
    stated = (None, b"") if kind[0] in encode.OLDER_ROWS else (2 + len(extra), extra)
    content = b"".join(rows)
    event = encode.rows(kind, row_values.SPELLING, table_id=table_id, flags=flags, extra=stated, before=before, after=after, content=content)
    return kind[0], event.body


def random_log(chance, kinds, count):
    events, rows = [], 0
    while rows < count:
        chosen, table = row_values.random_table(chance, kinds)
        events.append(table)
        for _ in range(chance.randint(1, 6)):
            kind, body = random_event(chance, chosen, int.from_bytes(table[1][:6], "little"))
            events.append((kind, row_values.damage(chance, body) if chance.random() < 0.4 else body))
            rows += 1
    return events, rows


# ---- runs


def lines_of(events, is_maria, key):
    tables = Tables(is_maria, key)
    for index, (kind, body) in enumerate(events):
        if kind == 19:
            tables.take(body)
            continue
        wanted = tables.wanted(kind, body)
        if wanted is not None:
            yield [("index", index + 1), *wanted]


def part_results(part):
    """How many events of one part are as the model has them, and what is wrong with others."""
    words, seed, count = part
    chance, kinds = random.Random(seed), list(row_events.kinds())
    passed, failures = 0, []
    while count > 0:
        version, key = chance.choice(VERSIONS), chance.choice(([], [0], [0, 1]))
        events, rows = random_log(chance, kinds, min(count, EVENTS_OF_A_LOG))
        wanted = list(lines_of(events, version != VERSIONS[0], key))
        name = f"seed {seed}, {count} left"
        wrong = row_values.failure(name, [*words, *map(str, key)], version, events, wanted)
        passed, failures = (passed, [*failures, wrong]) if wrong else (passed + rows, failures)
        count -= rows
    return passed, failures


def main():
    parser = argparse.ArgumentParser(description="Compares the rows that undo others with a model.")
    programs.add_flags(parser)
    parser.add_argument("--count", type=int, default=200_000)
    arguments = programs.parsed(parser, "undone rows")
    words = arguments.build.command("undone rows")
    starts = range(0, arguments.count, EVENTS_OF_A_PART)
    parts = [(words, seed, min(EVENTS_OF_A_PART, arguments.count - first)) for seed, first in enumerate(starts)]
    passed, failures = 0, []
    with ProcessPoolExecutor() as pool:
        for part_passed, part_failures in pool.map(part_results, parts):
            passed += part_passed
            failures += part_failures
    return results.report_counts(passed, failures)


if __name__ == "__main__":
    sys.exit(main())
