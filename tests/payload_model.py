"""A plain model of compressed transactions: the data of a TRANSACTION_PAYLOAD event, its content, and the events in it."""

import zstd_model

HEADER = 19
KINDS = {0: "ZSTD", 255: "NONE"}


class Refusal(Exception):
    """The name of a refusal, as Rust's `{:?}` writes it."""


def lenenc(data, place):
    """A length-encoded number, and the place behind it."""
    if place >= len(data):
        raise Refusal("EventTruncated")
    first = data[place]
    if first <= 0xFA:
        return first, place + 1
    if first in (0xFB, 0xFF):
        raise Refusal("Lenenc")
    size = {0xFC: 2, 0xFD: 3, 0xFE: 8}[first]
    if place + 1 + size > len(data):
        raise Refusal("EventTruncated")
    return int.from_bytes(data[place + 1 : place + 1 + size], "little"), place + 1 + size


def lenenc_bytes(number):
    """The shortest form."""
    if number <= 0xFA:
        return bytes([number])
    first, size = next((first, size) for first, size in ((0xFC, 2), (0xFD, 3), (0xFE, 8)) if number < 256**size)
    return bytes([first]) + number.to_bytes(size, "little")


def event_of(data):
    """The compression type, the content's size or None, and the payload."""
    stated, place = {}, 0
    while True:
        kind, place = lenenc(data, place)
        if kind == 0:
            break
        length, place = lenenc(data, place)
        if length > len(data) - place:
            raise Refusal("EventTruncated")
        value, place = data[place : place + length], place + length
        if kind not in (1, 2, 3):
            continue
        if kind in stated:
            raise Refusal("FieldTwice")
        if length != {0xFC: 3, 0xFD: 4, 0xFE: 9}.get(value[0] if value else 0, 1):
            raise Refusal("FieldLength")
        stated[kind], _ = lenenc(value, 0)
        if kind == 2 and stated[2] not in KINDS:
            raise Refusal(f"Kind({stated[2]})")
    if 1 not in stated or 2 not in stated:
        raise Refusal("NoField")
    if stated[1] != len(data) - place:
        raise Refusal("PayloadSize")
    return stated[2], stated.get(3), data[place:]


def written(kind, size, payload):
    fields = [(2, kind), (3, size), (1, len(payload))]
    numbers = [(field, lenenc_bytes(number)) for field, number in fields if number is not None]
    return b"".join(bytes([field, len(number)]) + number for field, number in numbers) + b"\0" + payload


def content_of(kind, size, payload, limit):
    if size is not None and size > limit:
        raise Refusal("Limit")
    if kind == 255:
        content = payload
        if len(content) > limit:
            raise Refusal("Limit")
    else:
        try:
            content = zstd_model.decompressed(payload, limit if size is None else size)
        except zstd_model.Refusal as refusal:
            name = str(refusal)
            if name != "Limit":
                raise Refusal(f"Zstd({name})") from None
            raise Refusal("Limit" if size is None else "UncompressedSize") from None
    if size is not None and size != len(content):
        raise Refusal("UncompressedSize")
    return content


def inner_frames(content):
    """The events of a content, and the name of the refusal behind them, or None."""
    frames, place = [], 0
    while place < len(content):
        left = len(content) - place
        if left < HEADER:
            return frames, "InnerTruncated"
        size, kind = int.from_bytes(content[place + 9 : place + 13], "little"), content[place + 4]
        if size < HEADER or size > left or kind in (40, 15):
            return frames, "InnerSize" if size < HEADER else "InnerTruncated" if size > left else f"Type({kind})"
        frames.append(content[place : place + size])
        place += size
    return frames, None
