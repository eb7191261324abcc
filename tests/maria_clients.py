"""Statements that clients send in every character set, and what the lines of JSON of their log say of the texts beside the characters
that the server made of the same bytes: each statement inserts a text, which the server converts and then selects.

A statement in a set that isn't decoded, or with a byte that is no character of its set, is its stored bytes.
"""

import json
import subprocess

import character_model

# How the server logs: all by statements.
BY_STATEMENTS = ["--server-id=7", "--binlog-format=STATEMENT", "--binlog-checksum=CRC32"]
SCHEMA = "clients"

# The text in the sets of more than one byte, by Python's codec.
UNICODE = {"utf8mb3": ("utf-8", "caf\u00e9 \u65e5\u672c \u20ac"), "utf8mb4": ("utf-8", "caf\u00e9 \U0001f600")}
NOT_DECODED = {
    "big5": "big5",
    "cp932": "cp932",
    "eucjpms": "euc_jp",
    "euckr": "euc_kr",
    "gb2312": "gb2312",
    "gbk": "gbk",
    "sjis": "shift_jis",
    "ujis": "euc_jp",
}
CHARACTERS = "\u4e2d\u6587"


def texts_of_bytes(name):
    """A text of all characters from 20 on of a set of one byte that need no escape, and one with each byte that is no character."""
    points = character_model.single_byte_sets()[name]
    yield bytes(byte for byte in range(0x20, 0x100) if points[byte] is not None and byte not in b"'\\?")
    yield from (b"a" + bytes([byte]) for byte in range(0x20, 0x100) if points[byte] is None)


def texts():
    """Texts as bytes, each with the name of its character set."""
    for name in sorted(character_model.single_byte_sets()):
        yield from ((name, text) for text in texts_of_bytes(name))
    for name, (codec, text) in UNICODE.items():
        yield name, text.encode(codec)
    for name, codec in NOT_DECODED.items():
        yield name, CHARACTERS.encode(codec)


def statement(number, text):
    return b"insert into said values (%d, '%s')" % (number, text)


def run_load(server, inserted):
    """Inserts the texts, every second one by a statement that is compressed in the log."""
    head = f"create database {SCHEMA}; use {SCHEMA}; create table said (id int primary key, text text character set utf8mb4);\n"
    server.run(head.encode())
    for is_compressed in (False, True):
        server.run(f"set global log_bin_compress = {int(is_compressed)}; set global log_bin_compress_min_len = 10;\n".encode())
        parts = [f"use {SCHEMA}; set session sql_mode = '';\n".encode()]
        for number, (name, text) in enumerate(inserted):
            if number % 2 == is_compressed:
                parts.append(b"set names %s;\n%s;\n" % (name.encode(), statement(number, text)))
        server.run(b"".join(parts))


def selected(server):
    """The texts by their numbers, as the server has them."""
    lines = server.run(f"select id, hex(text) from {SCHEMA}.said;".encode()).decode().splitlines()[1:]
    rows = (line.split("\t") for line in lines)
    return {int(number): bytes.fromhex(digits) for number, digits in rows}


def wanted(name, number, text, found):
    """The text of a statement as JSON, by what the server selects of the text that it inserts."""
    # What is no character becomes `?`, and U+FFFD in tis620. No text has either.
    is_text = name not in NOT_DECODED and not set("?\ufffd") & set(found.decode())
    return statement(number, found).decode() if is_text else {"hex": statement(number, text).hex()}


def queries(words, logs):
    """The statements of the lines of logs, with whether each was compressed."""
    for log in logs:
        finished = subprocess.run([*words, log], capture_output=True, check=True)
        for line in map(json.loads, finished.stdout.splitlines()):
            if line["name"] in ("QUERY_EVENT", "QUERY_COMPRESSED_EVENT"):
                yield line["data"]["query"], line["name"] == "QUERY_COMPRESSED_EVENT"


def is_insert(query):
    text = query if isinstance(query, str) else bytes.fromhex(query["hex"]).decode("latin-1")
    return text.startswith("insert into said")


def failures(words, server):
    """For each statement, None or how its line of JSON has another text than the server."""
    inserted = list(texts())
    run_load(server, inserted)
    stored = selected(server)
    found = [(query, is_compressed) for query, is_compressed in queries(words, server.logs()) if is_insert(query)]
    order = [*range(0, len(inserted), 2), *range(1, len(inserted), 2)]
    yield None if len(found) == len(order) else f"{len(found)} statements, not {len(order)}"
    for number, (query, is_compressed) in zip(order, found):
        name, text = inserted[number]
        expected = wanted(name, number, text, stored[number]), number % 2 == 1
        yield None if (query, is_compressed) == expected else f"a statement in {name}: {query!r}, and the server has {expected!r}"
