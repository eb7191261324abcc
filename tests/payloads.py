#!/usr/bin/env python3
"""Compares what `probe` reads of TRANSACTION_PAYLOAD events with cases, and with a model of its own.

Usage: payloads.py [--count N] FLAG

FLAG is one of `programs.py`: its program answers the questions `payload LIMIT BYTES` and `inner BYTES BYTES`, which
`questions.rs` of the packages' `probe` lists. The cases are `tests/cases/payloads.txt`, one of a server and one for each refusal, and below
what the reader of a stream reads of a content. The model, `payload_model.py`, reads the cases and N random events
(20,000 if not given), most of them damaged. Each refusal comes up. The last line of the output is `N passed, M failed`; the exit
status is 1 if something failed.
"""

import argparse
import random
import sys

import cases
import payload_model
import programs
import questions
import results
from payload_model import HEADER, KINDS, Refusal, content_of, event_of, lenenc_bytes, written

TABLE = cases.CASES / "payloads.txt"
LARGEST_BLOCK = 1 << 17
REFUSALS = (
    "EventTruncated Lenenc FieldTwice FieldLength Kind NoField PayloadSize Limit UncompressedSize Zstd InnerTruncated InnerSize Type"
).split()


# ---- the answers


def inner_events(content):
    """The events, and the refusal behind them, as the answer has them."""
    frames, refusal = payload_model.inner_frames(content)
    for frame in frames:
        yield f"{frame[4]}:{len(frame)}:{len(frame) - HEADER}"
    if refusal:
        yield refusal


def expected(limit, data):
    """The answer of the program."""
    try:
        kind, size, payload = event_of(data)
    except Refusal as refusal:
        return f"refused {refusal}"
    stated = "None" if size is None else f"Some({size})"
    line = f"{KINDS[kind]} {stated} {len(payload)} {written(kind, size, payload).hex()}"
    try:
        content = bytes(content_of(kind, size, payload, limit))
    except Refusal as refusal:
        return f"{line} refused {refusal}"
    return " ".join([line, content.hex() or "-", *inner_events(content)])


# ---- random events


def any_lenenc(chance, number):
    """A form of a number, seldom a longer one than need be."""
    sizes = [size for size in (2, 3, 8) if number < 256**size]
    if chance.random() < 0.85 or not sizes:
        return lenenc_bytes(number)
    size = chance.choice(sizes)
    return bytes([{2: 0xFC, 3: 0xFD, 8: 0xFE}[size]]) + number.to_bytes(size, "little")


def field(chance, kind, value):
    return any_lenenc(chance, kind) + any_lenenc(chance, len(value)) + value


def random_content(chance):
    content = b""
    for _ in range(chance.randrange(5)):
        body = chance.randbytes(chance.randrange(40))
        size = chance.choice([HEADER + len(body)] * 12 + [HEADER - 1, 0, HEADER + len(body) + 1, 2**32 - 1])
        kind = chance.choice([2, 4, 16, 19, 30, 31, 32, 38, 39] * 2 + [40, 15, 0, 255])
        content += chance.randbytes(4) + bytes([kind]) + chance.randbytes(4) + size.to_bytes(4, "little") + bytes(6) + body
    return content + (chance.randbytes(chance.randrange(20)) if chance.random() < 0.1 else b"")


def frame_of(chance, content):
    """A frame of raw blocks, and of such as repeat a byte, with a window of 128 KiB or of the content."""
    has_size = chance.random() < 0.5 and 256 <= len(content) < 256 + 0x10000
    blocks, place = [], 0
    while place < len(content):
        size = chance.randrange(1, min(len(content) - place, LARGEST_BLOCK) + 1)
        part = content[place : place + size]
        same = len(set(part)) == 1
        blocks.append((2 if same else 0, size, part[:1] if same else part))
        place += size
    blocks = blocks or [(0, 0, b"")]
    head = bytes.fromhex("28b52ffd") + (b"\x60" + (len(content) - 256).to_bytes(2, "little") if has_size else b"\x00\x38")
    for index, (kind, size, part) in enumerate(blocks):
        head += (size << 3 | kind | (index == len(blocks) - 1)).to_bytes(3, "little") + part
    return head


def random_event(chance):
    content = random_content(chance)
    kind = chance.choice([0, 0, 0, 255])
    payload = content if kind == 255 else frame_of(chance, content)
    size = len(content) + chance.choice([0] * 12 + [1, -1, 1000])
    fields = [field(chance, 2, any_lenenc(chance, chance.choice([kind] * 15 + [1, 254, 256]))), field(chance, 1, any_lenenc(chance, len(payload)))]
    if size >= 0 and chance.random() < 0.8:
        fields.append(field(chance, 3, any_lenenc(chance, size)))
    for _ in range(chance.choice([0, 0, 0, 1, 2])):
        fields.append(field(chance, chance.randrange(4, 400), chance.randbytes(chance.randrange(6))))
    if chance.random() < 0.05:
        fields.append(chance.choice(fields))
    if chance.random() < 0.05:
        fields.pop(chance.randrange(len(fields)))
    chance.shuffle(fields)
    return chance.choice([len(content)] * 6 + [len(content) - 1, 10_000]), b"".join(fields) + any_lenenc(chance, 0) + payload


def damaged(chance, data):
    copy, place = bytearray(data), chance.randrange(min(len(data), 24))
    kind = chance.randrange(4)
    if kind == 0:
        return bytes(copy[:place])
    if kind == 1:
        copy[place] = chance.choice([0, 1, 2, 3, 9, 0xFB, 0xFC, 0xFD, 0xFE, 0xFF])
    elif kind == 2:
        copy[place] ^= 1 << chance.randrange(8)
    else:
        copy[place:place] = chance.randbytes(1)
    return bytes(copy)


def random_questions(count):
    chance = random.Random(40)
    for index in range(count):
        limit, data = random_event(chance)
        yield max(limit, 0), damaged(chance, data) if index % 3 else data


# ---- events that the reader of a stream reads


def of_type(kind, body):
    return bytes(4) + bytes([kind]) + bytes(4) + (HEADER + len(body)).to_bytes(4, "little") + bytes(6) + body


def description(algorithm):
    """A format description of a server that has checksums, under this algorithm."""
    return of_type(15, b"\4\0" + b"8.0.40".ljust(50, b"\0") + bytes(4) + b"\x13" + bytes([algorithm]) + bytes(4))


def table_map(number):
    """The table map of a table with one column."""
    return number.to_bytes(6, "little") + bytes.fromhex("0100 0164 00 0174 00 01 03 00 00")


def rows_of(number):
    return number.to_bytes(6, "little") + bytes.fromhex("0100 0200 01 01 00 2a000000")


def inner_cases():
    """Events of a stream, a content, and the answer: worked by hand."""
    for algorithm, checksum in ((0, b""), (1, b"\1\2\3\4")):
        before = description(algorithm)
        outside = before + of_type(19, table_map(7) + checksum)
        xid = of_type(16, bytes(8))
        yield before, b"", "0"
        yield before, xid, "16:8:false 0"
        yield before, of_type(19, table_map(7)) + of_type(30, rows_of(7)) + xid, "19:18:true 30:17:true 16:8:false 0"
        yield before, of_type(30, rows_of(7)) + of_type(19, table_map(7)), "30:17:false 19:18:true 0"
        yield before, of_type(19, table_map(7)) + of_type(30, rows_of(8)), "19:18:true 30:17:false 0"
        # What came outside is in force inside.
        yield outside, of_type(30, rows_of(7)), "30:17:true 0"
        # A ROTATE of another position than 0 clears the table maps.
        yield outside, of_type(4, bytes(8) + b"log") + of_type(30, rows_of(7)), "4:11:false 30:17:true 0"
        yield outside, of_type(4, b"\4" + bytes(7) + b"log") + of_type(30, rows_of(7)), "4:11:false 30:17:false 0"
        # A table map that is refused changes nothing, and the next event follows.
        yield outside, of_type(19, table_map(7)[:-1]) + of_type(30, rows_of(7)), "Event(EndOfBody) 30:17:true 0"
        yield outside, of_type(4, bytes(7)) + xid, "Event(EndOfBody) 16:8:false 0"
        # Where no event begins, nothing follows.
        yield outside, xid + of_type(40, b"") + xid, "16:8:false Type(40) 0"
        yield outside, xid + before, "16:8:false Type(15) 0"
        yield outside, xid + bytes(18), "16:8:false InnerTruncated 0"
        yield outside, xid + bytes(19), "16:8:false InnerSize 0"
        yield outside, xid + xid[:-1], "16:8:false InnerTruncated 0"


# ---- running


def cases_of():
    """The limit and the bytes of each case, and the answer that is wanted."""
    names = {}
    for number, line in cases.whole_lines(TABLE)[1:]:
        if " = " in line.split(":", 1)[0]:
            name, _, text = line.partition(" = ")
            names[name] = cases.bytes_of(text, names)
            continue
        name, limit, rest = line.split(": ", 2)
        text, *wanted = [part.strip() for part in rest.split("=>")]
        data = cases.bytes_of(text, names) if text != '""' else b""
        yield f"line {number}, {name}", int(limit), data, " ".join(wanted_of(data, wanted, names)).strip()


def wanted_of(data, wanted, names):
    """The words of an answer: what is said, what is written, the content, and its events."""
    said, *parts = wanted
    yield said
    if parts:
        yield (data if parts[0] == "same" else cases.bytes_of(parts[0], names)).hex()
    if len(parts) > 1:
        yield parts[1] if parts[1].startswith("refused") else (cases.bytes_of(parts[1], names).hex() or "-")
    yield from parts[2:]


def faults(words, count):
    wanted = []
    for name, limit, data, answer in cases_of():
        found = expected(limit, data)
        # The model is right about the cases, too.
        yield None if found == answer else f"{name}: the model has {found[:300]}, not {answer[:300]}"
        wanted.append((f"payload {limit} {data.hex() or '-'}", answer))
    for limit, data in random_questions(count):
        wanted.append((f"payload {limit} {data.hex() or '-'}", expected(limit, data)))
    for stream, content, answer in inner_cases():
        wanted.append((f"inner {stream.hex()} {content.hex() or '-'}", answer))
    yield from questions.compared(words, wanted)
    for refusal in REFUSALS:
        count = sum(f" {refusal}" in answer for _, answer in wanted)
        yield None if count else f"nothing is refused as {refusal}"


def main():
    parser = argparse.ArgumentParser(description="Compares what is read of payloads with cases and a model.")
    programs.add_flags(parser)
    parser.add_argument("--count", type=int, default=20_000)
    arguments = programs.parsed(parser, "questions")
    return results.report(faults(arguments.build.command("questions"), arguments.count))


if __name__ == "__main__":
    sys.exit(main())
