#!/usr/bin/env python3
"""Compares what `probe` reads of types of columns with types as servers spell them, and with a model.

Usage: column_types.py [--count N] FLAG

FLAG is one of `programs.py`: its program answers questions, which `questions.rs` of the packages' `probe` lists. The types of servers, and
texts that no server writes, are `tests/cases/column_types.txt`. The model reads N random texts (20,000 if not given): types, most of
them damaged. The last line is `N passed, M failed`; the exit status is 1 if something failed.
"""

import argparse
import random
import re
import sys
from pathlib import Path

import programs
import questions
import results

CASES = Path(__file__).resolve().parent / "cases/column_types.txt"
GREATEST = 0xFFFF_FFFF
NONE = "none"

# ---- the model: a pattern for each kind of types

NUMBER = rb"\(([0-9]+)\)"
TWO = rb"\(([0-9]+),([0-9]+)\)"
SIGN = rb"( unsigned(?: zerofill)?)?"
PACKED = rb"( /\*M!100301 COMPRESSED\*/)?"
OLD = rb"( /\* mariadb-5\.3 \*/| /\* 5\.5 binary format \*/)?"
MEMBER = rb"'(?:[^'\\\0\n\r]|''|\\[\\0nr])*'"
MEMBERS = rb"\((" + MEMBER + rb"(?:," + MEMBER + rb")*)\)"

INTEGERS = {b"tinyint": "Tiny", b"smallint": "Small", b"mediumint": "Medium", b"int": "Regular", b"bigint": "Big"}
TEMPORAL = {b"time": "Time", b"datetime": "DateTime", b"timestamp": "Timestamp"}
SIZES = {b"tiny": "Tiny", b"": "Regular", b"medium": "Medium", b"long": "Long"}
WITHOUT_NUMBERS = {b"date": "Date", b"json": "Json", b"inet4": "Inet4", b"inet6": "Inet6", b"uuid": "Uuid"}
GEOMETRIES = (
    b"geometry point linestring polygon multipoint multilinestring multipolygon geometrycollection geomcollection".split()
)
ONE_NUMBER = {b"bit": "Bit", b"char": "Char", b"binary": "Binary", b"vector": "Vector"}
ESCAPES = {b"''": b"'", b"\\\\": b"\\", b"\\0": b"\0", b"\\n": b"\n", b"\\r": b"\r"}


def flag(text):
    return "true" if text else "false"


def member_of(spelled):
    return re.sub(rb"''|\\[\\0nr]", lambda found: ESCAPES[found[0]], spelled[1:-1])


def members_of(text):
    return "[" + ", ".join(str(list(member_of(found))) for found in re.findall(MEMBER, text)) + "]"


def simple(text):
    """A type without members, or None."""
    if text in WITHOUT_NUMBERS:
        return WITHOUT_NUMBERS[text]
    if text in GEOMETRIES:
        return "Geometry"
    if text in (b"year", b"year(2)", b"year(4)"):
        return "Year"
    if found := re.fullmatch(rb"(tinyint|smallint|mediumint|int|bigint)(?:" + NUMBER + rb")?" + SIGN, text):
        return f"Integer {{ size: {INTEGERS[found[1]]}, is_unsigned: {flag(found[3])} }}"
    if found := re.fullmatch(rb"(float|double)(?:" + TWO + rb")?" + SIGN, text):
        return f"{found[1].decode().capitalize()} {{ is_unsigned: {flag(found[4])} }}"
    if found := re.fullmatch(rb"decimal" + TWO + SIGN, text):
        return f"Decimal {{ precision: {int(found[1])}, scale: {int(found[2])}, is_unsigned: {flag(found[3])} }}"
    if found := re.fullmatch(rb"(time|datetime|timestamp)(?:" + NUMBER + rb")?" + OLD, text):
        return f"Temporal {{ kind: {TEMPORAL[found[1]]}, digits: {int(found[2] or 0)}, is_old: {flag(found[3])} }}"
    if found := re.fullmatch(rb"(bit|char|binary|vector)" + NUMBER, text):
        return f"{ONE_NUMBER[found[1]]}({int(found[2])})"
    if found := re.fullmatch(rb"var(char|binary)" + NUMBER + PACKED, text):
        return f"Var{found[1].decode().capitalize()} {{ length: {int(found[2])}, is_compressed: {flag(found[3])} }}"
    if found := re.fullmatch(rb"(tiny||medium|long)(text|blob)(?:" + NUMBER + rb")?" + PACKED, text):
        return f"{found[2].decode().capitalize()} {{ size: {SIZES[found[1]]}, is_compressed: {flag(found[4])} }}"
    return None


def expected(text):
    """The answer of the program."""
    if found := re.fullmatch(rb"(enum|set)" + MEMBERS, text, re.DOTALL):
        return f"{found[1].decode().capitalize()}({members_of(found[2])})"
    if any(int(number) > GREATEST for number in re.findall(rb"[0-9]+", text.partition(b"(")[2].partition(b")")[0])):
        return NONE
    found = simple(text)
    return NONE if found is None else f"Simple({found})"


# ---- random texts

WORDS = (
    list(INTEGERS) + list(TEMPORAL) + list(WITHOUT_NUMBERS) + GEOMETRIES + list(ONE_NUMBER)
    + [size + kind for size in SIZES for kind in (b"text", b"blob")]
    + [b"float", b"double", b"decimal", b"varchar", b"varbinary", b"year", b"enum", b"set"]
)
NUMBERS = (b"", b"(4)", b"(2)", b"(0)", b"(007)", b"(10,2)", b"(65,30)", b"(4294967295)", b"(4294967296)", b"()", b"(,)", b"(1,)", b"(+1)", b"(1,2,3)")
ENDINGS = (
    b"", b"", b" unsigned", b" unsigned zerofill", b" zerofill", b" /*M!100301 COMPRESSED*/", b" /* mariadb-5.3 */",
    b" /* 5.5 binary format */", b" ", b"unsigned",
)
PIECES = (b"a", b"''", b"\\\\", b"\\0", b"\\n", b"\\r", b",", b")", b"(", b'"', b"\xe6\x97\xa5", b" ", b"\t", b"\x1a", b"'", b"\\", b"\n", b"\0", b"\r", b"\\t")
SOUND_PIECES = 14


def random_member(chance):
    pieces = PIECES if chance.random() < 0.05 else PIECES[:SOUND_PIECES]
    return b"'" + b"".join(chance.choices(pieces, k=chance.randrange(5))) + b"'"


def random_type(chance):
    word = chance.choice(WORDS) if chance.random() < 0.7 else chance.choice((b"enum", b"set"))
    if word in (b"enum", b"set"):
        return word + b"(" + b",".join(random_member(chance) for _ in range(chance.randrange(4))) + b")"
    return word + chance.choice(NUMBERS) + chance.choice(ENDINGS)


def damaged(text, chance):
    place = chance.randrange(len(text) + 1)
    kind = chance.randrange(4)
    if kind == 0:
        return text[:place]
    if kind == 1:
        return text[:place] + chance.choice(PIECES) + text[place:]
    return text[:place] + text[place + 1 :] if kind == 2 else text


# ---- running


def cases():
    for line in CASES.read_text().splitlines()[1:]:
        if line and not line.startswith("#"):
            text, _, answer = line.partition(" => ")
            yield text.encode(), answer


def random_texts(count):
    chance = random.Random(62)
    for index in range(count):
        text = random_type(chance)
        yield text if index % 4 == 0 else damaged(text, chance)


def faults(words, count):
    return questions.beside_model(words, "type", cases(), random_texts(count), expected)


def main():
    parser = argparse.ArgumentParser(description="Compares what is read of types of columns with cases and a model.")
    programs.add_flags(parser)
    parser.add_argument("--count", type=int, default=20_000)
    arguments = programs.parsed(parser, "questions")
    return results.report(faults(arguments.build.command("questions"), arguments.count))


if __name__ == "__main__":
    sys.exit(main())
