#!/usr/bin/env python3
"""Compares the lines of compressed transactions by `binlog json` with those of the same events outside, and with a model of them.

Usage: payload_lines.py [--count N] FLAG

FLAG is one of `programs.py`: it says which `binlog` is run. The events of `row_lines.py` and `row_values.py` stand in a payload, which
isn't compressed, or is by raw frames or by the program `zstd`, where it is installed; their lines are those that the model of JSON
lines gives of them in a log, with a place inside. Random logs (N of them, 2,000 if not given) have events outside and inside, many
payloads damaged; theirs are the model's. Each refusal comes up. A log of MySQL 8.0.40 is read, too, where Debian's package
`mariadb-test-data` is installed. The last line is `N passed, M failed`; the exit status is 1 if something failed.
"""

import argparse
import hashlib
import json
import random
import re
import shutil
import subprocess
import sys
from pathlib import Path

import encoded_logs
import json_model
import listing_model
import payload_model
import payloads
import programs
import results
import row_lines
import row_values
from row_lines import FIRST, NEWER, OTHER, VERSIONS, rotate, written
from row_values import HEADER, framed, start

PAYLOAD, XID = 40, (16, bytes(8))
VERSION = VERSIONS[0]
LARGEST = 50_000
LOG = Path("/usr/share/mysql/mysql-test/std_data/mdev35643_mysql_80_binlog.000001")
LOG_EVENTS, LOG_CONTENT = 202, "67df15421e779ad2485e6d6859fee3f7ceb9ad04228001f6d6711870fb7a6b1f"
REFUSALS = set(payloads.REFUSALS) - {"Limit"} | {"Event"}


# ---- logs with payloads


def zstd(content, chance):
    words = ["zstd", "-q", f"-{chance.randrange(1, 20)}", *chance.choice([[], ["--check"]]), f"--stream-size={len(content)}", "-c"]
    return subprocess.run(words, input=content, capture_output=True, check=True).stdout


def packed(chance, content, kind):
    """The data of an event with a payload: not compressed, by raw frames, or by `zstd`."""
    payload = {"none": lambda: content, "raw": lambda: payloads.frame_of(chance, content), "zstd": lambda: zstd(content, chance)}[kind]()
    size = chance.choice([len(content), len(content), None])
    return payload_model.written(255 if kind == "none" else 0, size, payload)


def kinds():
    return ["none", "raw", "zstd"] if shutil.which("zstd") else ["none", "raw"]


def inside(events):
    """The content of a payload."""
    return b"".join(framed(kind, body) for kind, body in events)


def with_payload(chance, events, kind):
    return PAYLOAD, packed(chance, inside(events), kind)


def log_of(events, has_checksums=False, version=VERSION):
    """A log with these events. The checksums are those of the log."""
    if not has_checksums:
        return start(version) + b"".join(framed(kind, body) for kind, body in events)
    described = encoded_logs.described("payloads", encoded_logs.POST_HEADER_LENGTHS, server_version=version, algorithm=1)
    content, _ = encoded_logs.frame(described.event, HEADER, bytes(4))
    return listing_model.FILE_HEADER + content + b"".join(encoded_logs.framed(kind, body, HEADER, has_checksum=True)[0] for kind, body in events)


# ---- runs


def output_of(binlog, content, *words):
    finished = subprocess.run([*binlog, "json", *words], input=content, capture_output=True)
    return finished.stdout, finished.returncode


def difference(name, found, wanted):
    """None if the lines are the wanted ones, else what is wrong."""
    if found == wanted:
        return None
    pairs = zip(found.split(b"\n"), wanted.split(b"\n"))
    one = next(((have, want) for have, want in pairs if have != want), (b"", b"the same, but more or fewer lines"))
    return f"{name}: {one[0][:300]!r}, not {one[1][:300]!r}"


def agrees(name, binlog, content, *words):
    """Compares with the model, and the rows alone with theirs."""
    found, status = output_of(binlog, content, *words)
    wanted, wanted_status = json_model.expected(content, "--stored" in words)
    wrong = difference(name, found, wanted) or (f"{name}: status {status}" if status != wanted_status else None)
    return wrong or row_lines.compact_failure(name, binlog, content, words)


# ---- the same events outside and inside


def placed(lines, index):
    """Lines of events outside as those of the parts of the item with this index."""
    for number, line in enumerate(lines):
        line = re.sub(rb'^{"index":\d+,', f'{{"index":{index},"part":{number},'.encode(), line)
        yield re.sub(rb'^({"index":\d+,"part":\d+,)"error":(\d+)}$', rb'\1"error":"Event","number":\2}', line)


def same_inside(name, binlog, events, words=()):
    """None if the lines inside are those that the model of lines has outside, else what is wrong."""
    chance = random.Random(name)
    outside = json_model.expected(log_of(events), "--stored" in words)[0].splitlines()[1:]
    for kind in kinds():
        for has_checksums in (False, True):
            content = log_of([XID, with_payload(chance, events, kind), XID], has_checksums)
            found = output_of(binlog, content, *words)[0].splitlines()
            yield difference(f"{name}, {kind} {words}", b"\n".join(found[3:-1]), b"\n".join(placed(outside, 2)))
            yield agrees(f"{name}, {kind} {words}", binlog, content, *words)


def same_events(binlog):
    for words in ((), ("--stored",)):
        for name, events, _ in row_lines.cases():
            yield from same_inside(name, binlog, events, words)
        for name, events, _ in row_values.encoded():
            if sum(len(body) for _, body in events) < LARGEST:
                yield from same_inside(f"encoded {name}", binlog, events, words)


# ---- which table maps are in force


ORDERS, ABSENT = "shop.orders", None


def maps_in_force():
    """Events of a log, those in a list inside a payload, and the tables that are wanted of the row events, in order."""
    row = written(1, 7, b"a")
    yield "inside", [[FIRST, row]], [ORDERS]
    yield "of the payload before", [[FIRST, row], [row]], [ORDERS, ABSENT]
    yield "from outside", [FIRST, row, [row], row], [ORDERS, ABSENT, ORDERS]
    yield "behind the payload", [[FIRST, row], row], [ORDERS, ABSENT]
    yield "another one inside", [FIRST, [NEWER, row], row], ["shop.old_orders", ORDERS]
    yield "two tables", [[FIRST, OTHER, row, written(2, 7, b"a")]], [ORDERS, "shop.users"]
    yield "cleared inside", [FIRST, [FIRST, row, rotate(4), row], row], [ORDERS, ABSENT, ORDERS]
    yield "cleared outside", [FIRST, rotate(4), [FIRST, row], row], [ORDERS, ABSENT]
    yield "not cleared", [[FIRST, rotate(0), row]], [ORDERS]
    yield "refused", [[FIRST, (19, NEWER[1][:12]), row]], [ORDERS]


def tables(binlog):
    for name, events, wanted in maps_in_force():
        for kind in kinds():
            chance = random.Random(name)
            content = log_of([with_payload(chance, event, kind) if isinstance(event, list) else event for event in events])
            lines = [json.loads(line) for line in output_of(binlog, content)[0].splitlines()]
            found = [line["table"] for line in lines if "table" in line]
            yield None if found == wanted else f"table maps {name}, {kind}: {found}, not {wanted}"
            yield agrees(f"table maps {name}, {kind}", binlog, content)


# ---- refusals, and filters


def refused():
    """Data of events with a payload, and the names of the refusals of their parts."""
    none = lambda content: payload_model.written(255, len(content), content)
    xid = framed(*XID)
    yield b"", ["EventTruncated"]
    yield none(xid)[:-1], ["PayloadSize"]
    yield payload_model.written(0, 5, b"\x28\xb5\x2f\xfc"), ["Zstd"]
    yield payload_model.written(255, len(xid) + 1, xid), ["UncompressedSize"]
    yield payload_model.written(255, 2**30 + 1, xid), ["Limit"]
    yield none(xid + xid[:18]), [None, "InnerTruncated"]
    yield none(xid + bytes(19)), [None, "InnerSize"]
    yield none(xid + framed(PAYLOAD, b"") + xid), [None, "Type"]
    yield none(xid + framed(15, b"")), [None, "Type"]
    yield none(framed(19, b"") + xid), ["Event", None]
    yield none(framed(4, bytes(7)) + xid), ["Event", None]
    yield none(b""), []


def refusals(binlog):
    for index, (body, wanted) in enumerate(refused()):
        content = log_of([XID, (PAYLOAD, body), XID])
        output, status = output_of(binlog, content)
        lines = [json.loads(line) for line in output.splitlines()]
        found = [line.get("error") for line in lines if "part" in line]
        places = [(line["index"], line["part"]) for line in lines if "part" in line]
        is_right = found == wanted and places == [(2, number) for number in range(len(wanted))] and [lines[2]["index"], lines[-1]["index"]] == [2, 3]
        is_right &= status == (listing_model.STATUS_ERRORS if any(wanted) else listing_model.STATUS_FINE)
        yield None if is_right else f"refusal {index}: {found} at {places}, not {wanted}; status {status}"
        yield agrees(f"refusal {index}", binlog, content)


def filters(binlog):
    """The events inside are taken with the event that has the payload."""
    content = log_of([FIRST, with_payload(random.Random(1), [FIRST, written(1, 7, b"a"), XID], "none"), XID])
    lines = json_model.expected(content)[0].splitlines(keepends=True)
    for type_name, taken in (("TRANSACTION_PAYLOAD", lines[2:6]), ("WRITE_ROWS", []), ("XID", lines[6:])):
        found = output_of(binlog, content, "--type", type_name)[0]
        yield difference(f"--type {type_name}", found, b"".join(taken))


# ---- random logs


def random_log(chance):
    outside = [FIRST, OTHER, written(1, 7, b"a"), written(2, 8, b"b"), XID, rotate(4)]
    events = []
    for _ in range(chance.randrange(1, 5)):
        if chance.random() < 0.3:
            events.append(chance.choice(outside))
        elif chance.random() < 0.5:
            events.append(with_payload(chance, [chance.choice(outside) for _ in range(chance.randrange(6))], chance.choice(["none", "raw"])))
        else:
            _, body = payloads.random_event(chance)
            events.append((PAYLOAD, payloads.damaged(chance, body) if chance.random() < 0.5 else body))
    return log_of(events, chance.random() < 0.5)


def random_logs(binlog, count):
    chance, seen = random.Random(40), set()
    for index in range(count):
        content, words = random_log(chance), chance.choice([(), ("--stored",)])
        output = json_model.expected(content, "--stored" in words)[0]
        seen |= {name.decode() for name in re.findall(rb'"part":\d+,"error":"(\w+)"', output)}
        yield agrees(f"random log {index} {words}", binlog, content, *words)
    yield None if seen >= REFUSALS or count < 1_000 else f"nothing is refused as {REFUSALS - seen}"


# ---- a server's log


def server_log(binlog):
    if not LOG.exists():
        print(f"no log of a server at {LOG}")
        return
    content = LOG.read_bytes()
    yield agrees("a server's log", binlog, content)
    yield agrees("a server's log, stored", binlog, content, "--stored")
    lines = [json.loads(line) for line in output_of(binlog, content)[0].splitlines()]
    yield None if sum("part" in line for line in lines) == LOG_EVENTS else "a server's log: not all events"
    rows = [line["rows"] for line in lines if "part" in line and "rows" in line]
    yield None if len(rows) == 100 and all(rows) else f"a server's log: {len(rows)} row events"
    frames, _ = listing_model.split(content[4:])
    data = next(listing_model.cut(frame, 1)[0] for frame in frames if frame[4] == PAYLOAD)
    found = hashlib.sha256(bytes(payload_model.content_of(*payload_model.event_of(data), 2**30))).hexdigest()
    yield None if found == LOG_CONTENT else "a server's log: another content"


def main():
    parser = argparse.ArgumentParser(description="Compares the lines of compressed transactions with those outside, and with a model.")
    programs.add_flags(parser)
    parser.add_argument("--count", type=int, default=2_000)
    arguments = programs.parsed(parser, "binlog")
    binlog = arguments.build.command("binlog")
    found = [result for part in (same_events, tables, refusals, filters, server_log) for result in part(binlog)]
    return results.report([*found, *random_logs(binlog, arguments.count)])


if __name__ == "__main__":
    sys.exit(main())
