#!/usr/bin/env python3
"""Compares the characters of texts, by their character sets, with Python's codecs, with what a MariaDB server answered, and with a server.

Usage: character_sets.py FLAG
       character_sets.py --tables

FLAG is one of `programs.py`: its program answers questions, which `questions.rs` of the packages' `probe` lists. Each byte of each
single-byte set is compared with tests/cases/character_sets.tsv, and so is a text of all characters of each set, and one of a byte that is
none; with Python's codecs where these are known to be as the servers'. Texts of the Unicode sets are compared with Python's codecs:
all single units, edges of the planes and of the surrogates, random texts, and damaged ones. All numbers of collations are compared with
tests/cases/collations.tsv. Where a MariaDB server is there (`maria_daemon.py` says where it comes from), it converts each byte of each
single-byte set, and states its collations; where there is none, a line says so. With --tables the tables of
`crates/character_sets/src/tables.rt` are printed, as they are made of tests/cases/character_sets.tsv. The last line is
`N passed, M failed`; the exit status is 1 if something failed.
"""

import argparse
import random
import sys
import tempfile
from pathlib import Path

import programs
import questions
import results
from character_model import UNICODE, collations, single_byte_sets, unicode_text
from maria_daemon import LeftOut, Server, program_in

# Python's codecs that have the characters of a set, and the bytes at which they differ.
CODECS = {
    "ascii": ("ascii", b""),
    "cp1250": ("cp1250", b""),
    "cp1251": ("cp1251", b""),
    "cp1256": ("cp1256", bytes.fromhex("8a8f989a9faac0ff")),
    "cp1257": ("cp1257", b""),
    "cp850": ("cp850", b""),
    "cp852": ("cp852", b""),
    "cp866": ("cp866", bytes.fromhex("fcfd")),
    "greek": ("iso8859-7", bytes.fromhex("a1a2a4a5aa")),
    "hebrew": ("iso8859-8", bytes.fromhex("af")),
    "hp8": ("hp-roman8", b""),
    "koi8r": ("koi8-r", b""),
    "koi8u": ("koi8-u", bytes.fromhex("95")),
    "latin1": ("cp1252", bytes.fromhex("818d8f909d")),
    "latin2": ("iso8859-2", b""),
    "latin5": ("iso8859-9", b""),
    "latin7": ("iso8859-13", b""),
    "macce": ("mac_latin2", b""),
    "macroman": ("mac_roman", b""),
    "tis620": ("tis-620", b""),
}

UNDECODED = ["big5", "binary", "cp932", "eucjpms", "euckr", "gb18030", "gb2312", "gbk", "sjis", "ujis"]

RANDOM_TEXTS = 3000
SURROGATES = range(0xD800, 0xE000)

# ---- Questions and answers


def question(name, content):
    return f"text {name} {content.hex() or '-'}"


def answer(text):
    """What is answered for a text, and for None, where the bytes are none."""
    if text is None:
        return "none"
    points = ",".join(f"{ord(character):x}" for character in text)
    return f"{points or '-'} {text.encode().hex() or '-'}"


def single_byte_cases(sets):
    for name, entries in sets.items():
        for byte, point in enumerate(entries):
            yield question(name, bytes([byte])), answer(None if point is None else chr(point))
        known = bytes(byte for byte, point in enumerate(entries) if point is not None)
        text = "".join(chr(point) for point in entries if point is not None)
        yield question(name, known), answer(text)
        yield question(name, b""), answer("")
        for byte, point in enumerate(entries):
            if point is None:
                yield question(name, known + bytes([byte]) + known), answer(None)
    for name in UNDECODED:
        yield question(name, b"a"), answer(None)


def codec_cases(sets):
    for name, (codec, differing) in CODECS.items():
        for byte in set(range(256)) - set(differing):
            content = bytes([byte])
            try:
                text = content.decode(codec)
            except UnicodeDecodeError:
                text = None
            yield question(name, content), answer(text)
    # Every set has a codec, or is known by the server's answers alone.
    assert set(CODECS) < set(sets)


def unicode_contents(name):
    """Bytes that may be a text of the set: valid ones, and others."""
    codec, _ = UNICODE[name]
    rng = random.Random(name)
    edges = [0, 0x7F, 0x80, 0x7FF, 0x800, 0xD7FF, 0xE000, 0xFEFF, 0xFFFD, 0xFFFE, 0xFFFF, 0x10000, 0x1FFFF, 0xFFFFF, 0x100000, 0x10FFFF]
    points = [*edges, *(rng.randrange(0x110000) for _ in range(2000))]
    yield from (chr(point).encode(codec, "surrogatepass") for point in points)
    if "16" in name or name == "ucs2":
        yield from (number.to_bytes(2, "big") for number in range(0x10000))
        halves = [0xD7FF, 0xD800, 0xDBFF, 0xDC00, 0xDFFF, 0xE000]
        yield from (a.to_bytes(2, "big") + b.to_bytes(2, "big") for a in halves for b in halves)
        yield from (a.to_bytes(2, "little") + b.to_bytes(2, "little") for a in halves for b in halves)
    elif name == "utf32":
        numbers = [0xD7FF, 0xD800, 0xDFFF, 0xE000, 0x10FFFF, 0x110000, 0x1000041, 0xFFFFFFFF]
        yield from (number.to_bytes(4, "big") for number in numbers)
    else:
        yield from (bytes([a, b]) for a in range(256) for b in range(256))
        yield from (bytes([a, b, c]) for a in range(0xE0, 0xF0) for b in range(0x70, 0xD0) for c in (0x7F, 0x80, 0xBF, 0xC0))
        yield from (bytes([a, b, 0x80, c]) for a in range(0xF0, 0x100) for b in range(0x70, 0xD0) for c in (0x7F, 0x80, 0xBF, 0xC0))
    for _ in range(RANDOM_TEXTS):
        chosen = [rng.choice([rng.randrange(0x80), rng.randrange(0x10000), rng.randrange(0x110000)]) for _ in range(rng.randrange(12))]
        content = "".join(chr(point) for point in chosen if point not in SURROGATES).encode(codec)
        yield content
        yield damaged(rng, content)


def damaged(rng, content):
    """The bytes with one left out, added or changed."""
    place = rng.randrange(len(content) + 1)
    added = bytes([rng.randrange(256)]) if rng.randrange(2) else b""
    return content[:place] + added + content[place + rng.randrange(2) :]


def unicode_cases():
    for name in UNICODE:
        for content in unicode_contents(name):
            yield question(name, content), answer(unicode_text(name, content))


def collation_cases(sets):
    for number in range(0x10000):
        yield f"collation {number}", sets["mysql"].get(number, "none")
        yield f"mariadb {number}", sets["mariadb"].get(number, "none")
    yield "collation 65536", "unknown"


def name_cases(sets):
    for name in [*sets, *UNICODE]:
        yield f"name {name}", f"{name} decoded"
    for name in UNDECODED:
        yield f"name {name}", name
    yield "name utf8", "utf8mb3 decoded"
    yield from ((f"name {name}", "none") for name in ("utf", "LATIN1", "latin", "latin11", "utf8mb"))


def server_cases(server):
    """What a server answers now. A byte that is no character is a question mark; in tis620 it is U+FFFD, by the server's own table."""
    for name in single_byte_sets():
        selects = (f"hex(convert(_{name} X'{byte:02x}' using utf8mb4))" for byte in range(256))
        shown = server.run(f"select {','.join(selects)};".encode()).decode().splitlines()[1].split("\t")
        for byte, digits in enumerate(shown):
            is_known = digits != "EFBFBD" and (digits != "3F" or byte == 0x3F)
            yield question(name, bytes([byte])), answer(bytes.fromhex(digits).decode() if is_known else None)
    rows = server.run(b"select id, character_set_name from information_schema.collation_character_set_applicability;")
    for row in rows.decode().splitlines()[1:]:
        number, name = row.split("\t")
        yield f"mariadb {number}", name


# ---- The comparison


def all_failures(words):
    sets = single_byte_sets()
    yield from questions.compared(words, single_byte_cases(sets))
    yield from questions.compared(words, codec_cases(sets))
    yield from questions.compared(words, unicode_cases())
    yield from questions.compared(words, collation_cases(collations()))
    yield from questions.compared(words, name_cases(sets))
    try:
        with tempfile.TemporaryDirectory() as folder:
            daemon = program_in(Path(folder) / "unpacked")
            with Server(daemon, Path(folder) / "server", []) as server:
                cases = list(server_cases(server))
        yield from questions.compared(words, cases)
    except LeftOut as reason:
        print(f"{reason}: no server is asked")


# ---- The tables


def print_tables():
    """The arrays of the upper halves, and the lower half of `swe7`."""
    sets = single_byte_sets()
    halves = {name.upper(): entries[128:] for name, entries in sets.items() if any(entries[128:])}
    halves["SWE7_LOWER"] = sets["swe7"][:128]
    for name, entries in sorted(halves.items()):
        print(f"pub(crate) static {name}: [u16; HALF] = [")
        for first in range(0, 128, 12):
            codes = (f"0x{0xFFFF if point is None else point:04x}" for point in entries[first : first + 12])
            print(f"    {', '.join(codes)},")
        print("];")


def main():
    parser = argparse.ArgumentParser(description="Compares the characters of texts.")
    programs.add_flags(parser)
    parser.add_argument("--tables", action="store_true")
    if parser.parse_known_args()[0].tables:
        print_tables()
        return 0
    words = programs.parsed(parser, "questions").build.command("questions")
    return results.report(all_failures(words))


if __name__ == "__main__":
    sys.exit(main())
