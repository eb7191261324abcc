"""The characters of texts by their character sets: those of the Unicode sets by Python's codecs, those of the single-byte sets by
tests/cases/character_sets.tsv, and the sets of collations by tests/cases/collations.tsv, which servers answered.
"""

from functools import cache
from pathlib import Path

CASES = Path(__file__).resolve().parent / "cases"

# The Unicode sets, Python's codec, and the first code point that the set doesn't have.
UNICODE = {
    "ucs2": ("utf-16-be", 0x10000),
    "utf16": ("utf-16-be", 0x110000),
    "utf16le": ("utf-16-le", 0x110000),
    "utf32": ("utf-32-be", 0x110000),
    "utf8mb3": ("utf-8", 0x10000),
    "utf8mb4": ("utf-8", 0x110000),
}


def lines_of(name):
    lines = (CASES / name).read_text().splitlines()
    return [line.split("\t") for line in lines if not line.startswith("#")]


@cache
def single_byte_sets():
    """The code points of the 256 bytes of each set, None for a byte that is no character."""
    sets = {}
    for name, first, *points in lines_of("character_sets.tsv"):
        entries = sets.setdefault(name, [])
        assert len(entries) == int(first, 16)
        entries += [None if point == "-" else int(point, 16) for point in points]
    assert all(len(entries) == 256 for entries in sets.values())
    return sets


@cache
def collations():
    """The set of each collation's number, for each server."""
    sets = {"mysql": {}, "mariadb": {}}
    for server, name, *numbers in lines_of("collations.tsv"):
        for number in numbers:
            first, _, last = number.partition("-")
            sets[server] |= dict.fromkeys(range(int(first), int(last or first) + 1), name)
    mysql = {number: name for number, name in sets["mariadb"].items() if number < 324} | sets["mysql"]
    return {"mysql": mysql, "mariadb": sets["mariadb"] | sets["mysql"]}


def set_of_collation(number, is_maria):
    """The name of the set of a collation of a server; None if it has none of this number."""
    return collations()["mariadb" if is_maria else "mysql"].get(number)


def unicode_text(name, content):
    """The text by Python's codec, of a set that is Unicode; None if the bytes are none."""
    codec, end = UNICODE[name]
    try:
        text = content.decode(codec)
    except UnicodeDecodeError:
        return None
    return text if all(ord(character) < end for character in text) else None


def text(name, content):
    """The text of these bytes in a set; None if they are none, or the set isn't decoded, whose only text here is the empty one."""
    if not content:
        return ""
    if name in UNICODE:
        return unicode_text(name, content)
    if name not in single_byte_sets():
        return None
    points = [single_byte_sets()[name][byte] for byte in content]
    return None if None in points else "".join(map(chr, points))
