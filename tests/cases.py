#!/usr/bin/env python3
"""Compares what the library reads and writes with the cases of `tests/cases`, which were worked by hand.

Usage: cases.py FLAG [FILE..]

FLAG is one of `programs.py`: it says which programs are run. Of each case, a line of a FILE, an event under a format description
is put into a log, or the events of its table; all files if none is named. The lines of JSON have the values of the case, and
`events` prints the bytes that are written for the body, or why it is refused; `texts` prints the text of a zlib stream, or why it is
refused. tests/cases/README.md says what a line has. The last line is `N passed, M failed`; the exit status is 1 if something failed.
"""

import argparse
import json
import re
import subprocess
import sys
from itertools import chain
from pathlib import Path
from typing import NamedTuple

import programs
import results
from samples import FILE_HEADER, FORMAT_DESCRIPTION, ROTATE, frame

CASES = Path(__file__).resolve().parent / "cases"

TABLE_MAP, WRITE_ROWS = 19, 30
# The purposes of the programs that print a listing.
LISTINGS = {"list": ("list", "list a slice"), "gtids": ("gtids",)}
IN_FORCE = (ROTATE, FORMAT_DESCRIPTION, TABLE_MAP)

# The numbers of the errors that lines of JSON have in the place of a body.
NUMBERS = {"EndOfBody": 5, "InvalidData": 6, "RemainingBytes": 7}

# What may be stated of the column of a value, as a field of optional metadata.
STATED = {"unsigned": b"\1\1\x80", "binary": b"\2\1\x3f"}

# The fields of a GTID without parts.
GTID = {
    "flags": 0,
    "sid": "00000000-0000-0000-0000-000000000000",
    "gno": 0,
    "tag": None,
    "lc_typecode": None,
    "last_committed": 0,
    "sequence_number": 0,
    "immediate_commit_timestamp": 0,
    "original_commit_timestamp": 0,
    "tx_length": 0,
    "immediate_server_version": 999_999,
    "original_server_version": 999_999,
    "commit_group_ticket": 0,
}

ARROW = " => "
TOKEN = re.compile(r'(?:(\d+)\*)?(?:"([^"]*)"|([A-Z][A-Z0-9_]*)|((?:[0-9a-f]{2})+)|\[(\d+) ([^]]*)\])(?:\s+|\Z)')
DECODER = json.JSONDecoder()


class Refused(Exception):
    """A line that is no case."""


class Case(NamedTuple):
    """A case of which an event is looked at: its frames, and what is wanted of the last one: a member of its line of JSON, as a text, and the line of
    `events`; None for what isn't looked at."""

    name: str
    frames: list
    member: str
    text: str | None
    line: dict | None = None


class Stream(NamedTuple):
    """A case of a zlib stream: its text, or the name of its refusal, and the exit status."""

    name: str
    content: bytes
    text: bytes
    refusal: bytes
    status: int


class Listing(NamedTuple):
    """A case of which a whole log is listed: its events, for which purpose, the lines, and the exit status."""

    name: str
    content: bytes
    purpose: str
    lines: list
    status: int


# ---- what a line has


def bytes_of(text, names):
    """The bytes that a text spells: hexadecimal digits, texts in quotes, names and events by their types, of which each may be
    repeated."""
    content, place, text = b"", 0, text.strip()
    while place < len(text):
        token = TOKEN.match(text, place)
        if token is None or token[3] and token[3] not in names:
            raise Refused(f"no bytes: {text[place:]}")
        content += int(token[1] or 1) * part_of(token, names)
        place = token.end()
    return content


def part_of(token, names):
    _, quoted, name, digits, number, body = token.groups()
    if number:
        return frame(int(number), bytes_of(body, names), 0)
    return names[name] if name else bytes.fromhex(digits) if digits else quoted.encode()


def description(server, lengths):
    """A format description of this server version, which has no checksums."""
    footer = bytes(5) if server else b""
    body = b"\4\0" + server.encode().ljust(50, b"\0") + bytes(4) + b"\x13" + lengths + footer
    return frame(FORMAT_DESCRIPTION, body, 0)


def numbers_of(text):
    """The numbers of a list: `1, 8-10`."""
    for part in text.split(","):
        first, _, last = part.partition("-")
        yield from range(int(first), int(last or first) + 1)


def bodies(name, head, parts, names):
    """Bodies by their types: `TYPES [under LENGTHS] [fronts N]`, the bytes, and the data and what is written, or an error."""
    found = re.fullmatch(r"([\d, -]+?)( under .+?)?( fronts (\d+))?", head)
    if found is None or not 2 <= len(parts) <= 3:
        raise Refused("no body")
    lengths = bytes_of((found[2] or "").removeprefix(" under"), names)
    content = bytes_of(parts[0], names)
    contents = [content[:count] for count in range(int(found[4]))] if found[3] else [content]
    for number in numbers_of(found[1]):
        for body in contents:
            frames = [description(names["SERVER"].decode(), lengths), frame(number, body, 0)]
            yield Case(name, frames, *wanted_of(number, body, parts[1:], names))


def wanted_of(number, body, parts, names):
    """What is wanted of a body: the member of the line of JSON, its text, and the line of `events`."""
    wanted, *written = parts
    # Data that isn't compared.
    wanted = None if wanted == "{..}" else wanted
    if wanted is None or wanted.startswith("{"):
        digits = (body if written == ["same"] else bytes_of(*written, names)).hex()
        return "data", wanted, {"type": number, "written": digits}
    if wanted == "null":
        return "data", wanted, {"type": number}
    error = str(NUMBERS[wanted.partition("(")[0]])
    # In the place of an event that would bring something into force stands the error.
    if number in IN_FORCE:
        return "error", error, {"refused": wanted}
    return "data", f'{{"error":{error}}}', {"type": number, "refused": wanted}


def variables(name, head, parts, names):
    """Status variables of a QUERY without schema and text: their bytes, the variables, and the bytes behind these, if any."""
    if head != "2" or not 2 <= len(parts) <= 3:
        raise Refused("no status variables")
    content, wanted, *rest = parts
    content = bytes_of(content, names)
    body = bytes(11) + len(content).to_bytes(2, "little") + content + b"\0"
    rest = f'"status_vars_rest":"{rest[0]}",' if rest else ""
    text = f'{{"thread_id":0,"execution_time":0,"error_code":0,"status_vars":{wanted},{rest}"schema":"","query":""}}'
    yield from bodies(name, head, [body.hex(), text, "same"], names)


def gtids(name, head, parts, names):
    """GTIDs: as bodies, but of the fields those are stated that a GTID without parts has not."""
    content, wanted, *written = parts
    if wanted.startswith("{"):
        wanted = json.dumps(GTID | json.loads(wanted), separators=(",", ":"))
    yield from bodies(name, head, [content, wanted, *written], names)


def table_of(types, metadata, optional):
    """The body of the table map of the table 5, `d`.`t`, all of whose columns may be NULL."""
    nulls = bytes((len(types) + 7) // 8)
    head = b"\5\0\0\0\0\0\1\0\1d\0\1t\0"
    return head + bytes([len(types)]) + types + bytes([len(metadata)]) + metadata + nulls + optional


def values(name, head, parts, names):
    """The value of a column: `TYPE METADATA [unsigned|binary]`, or another field of optional metadata behind `with`; its bytes,
    and its JSON or the error."""
    found = re.fullmatch(r"(\d+)((?: [0-9a-f]+)?)( unsigned| binary| with .+)?", head)
    if found is None or len(parts) != 2:
        raise Refused("no value")
    stated = (found[3] or "").strip()
    optional = STATED[stated] if stated in STATED else bytes_of(stated.removeprefix("with"), names)
    table = table_of(bytes([int(found[1])]), bytes.fromhex(found[2]), optional)
    row = b"\5\0\0\0\0\0\1\0\2\0\1\1" + b"\0" + bytes_of(parts[0], names)
    wanted = parts[1]
    is_refused = wanted in ("BadValue", "Truncated")
    shown = f'"error":"{wanted}","row":0,"image":"after","column":0' if is_refused else f'"after":{{"@1":{wanted}}}'
    yield of_table(name, table, WRITE_ROWS, row, names, f'"rows":[{{{shown}}}]')


def of_table(name, table, number, body, names, members):
    """A case of a row event of a table: the members of its line behind the data and the table's name."""
    frames = [description(names["SERVER"].decode(), b""), frame(TABLE_MAP, table, 0), frame(number, body, 0)]
    return Case(name, frames, "table", f'null,{members}' if members == '"rows":null' else f'"d.t",{members}')


def rows(name, head, parts, names):
    """A row event beside its table map: `TYPE of TABLE`, its bytes, and its rows; what is refused of the table's metadata may
    stand before these."""
    found = re.fullmatch(r"(\d+) of (.+)", head)
    if found is None or not 2 <= len(parts) <= 3:
        raise Refused("no rows")
    body, *metadata, wanted = parts
    members = "".join(f'"metadata":{text},' for text in metadata) + f'"rows":{wanted}'
    yield of_table(name, bytes_of(found[2], names), int(found[1]), bytes_of(body, names), names, members)


def logs(name, head, parts, names):
    """The events of a log, and its listing: `list` or `gtids`, and the exit status if it isn't 0."""
    found = re.fullmatch(r"(list|gtids)( \d)?", head)
    if found is None or len(parts) != 2:
        raise Refused("no listing")
    lines = [] if parts[1] == "-" else parts[1].split("; ")
    yield Listing(name, bytes_of(parts[0], names), found[1], lines, int(found[2] or 0))


def streams(name, head, parts, names):
    """A zlib stream: its `text`, or why it is `refused`."""
    if head not in ("text", "refused") or len(parts) != 2:
        raise Refused("no stream")
    content = bytes_of(parts[0], names)
    if head == "text":
        yield Stream(name, content, bytes_of(parts[1], names), b"", 0)
    else:
        yield Stream(name, content, b"", f"{parts[1]}\n".encode(), 1)


KINDS = {
    "bodies": bodies,
    "variables": variables,
    "gtids": gtids,
    "values": values,
    "rows": rows,
    "logs": logs,
    "streams": streams,
}


def whole_lines(path):
    """The lines of a file, with their numbers, without comments. An indented line continues the one before it: bytes behind a
    blank, what is wanted without one."""
    whole = []
    for number, line in enumerate(path.read_text().splitlines(), 1):
        text = line.strip()
        if not text or text.startswith("#"):
            continue
        if line[0] != " ":
            whole.append((number, text))
        else:
            first, before = whole.pop()
            is_of_value = before.count(ARROW) == 1 and not text.startswith("=>") and not before.endswith(";")
            whole.append((first, before + ("" if is_of_value else " ") + text))
    return whole


def kind_of(path):
    """The kind of a file's cases, its first line. Files of other kinds than `KINDS` are those of other scripts."""
    return whole_lines(path)[0][1]


def cases_of(path):
    """The cases of a file, whose first line says their kind. `SERVER` is the version of the server that wrote their logs."""
    names, ((_, kind), *lines) = {"SERVER": b""}, whole_lines(path)
    for number, line in lines:
        try:
            if defined := re.fullmatch(r"([A-Z][A-Z0-9_]*) = (.+)", line):
                names[defined[1]] = bytes_of(defined[2], names)
            else:
                name, head, rest = line.split(": ", 2)
                yield from KINDS[kind](f"{path.stem}, line {number}, {name}", head, rest.split(ARROW), names)
        except (Refused, KeyError, ValueError) as error:
            raise SystemExit(f"{path}:{number}: {error}")


# ---- runs


def lines_of(words, content):
    """The lines of a program's output, but those of events inside compressed transactions."""
    finished = subprocess.run(words, input=content, stdout=subprocess.PIPE, stderr=subprocess.DEVNULL)
    return [line for line in finished.stdout.decode().splitlines() if '"part":' not in line]


def text_of(member, line):
    """The text of a member of a line, and for `table` of what follows it up to the data; the line if it has no such member."""
    before, key, _ = line.partition(f'"{member}":')
    if not key:
        return line
    start = len(before) + len(key)
    end = line.rindex(',"data":{') if member == "table" else DECODER.raw_decode(line, start)[1]
    return line[start:end]


def fault(case, json_line, events_line):
    """None, or what is wrong with the lines of a case."""
    found = text_of(case.member, json_line)
    if case.text is not None and found != case.text:
        return f"{case.name}: {case.member} {found[:300]}, not {case.text[:300]}"
    if case.line is not None and events_line != json.dumps(case.line, separators=(",", ":")):
        return f"{case.name}: {events_line[:300]}, not {case.line}"
    return None


def listing_fault(build, case):
    """None, or what is wrong with one of the listings of a log."""
    wanted = "".join(f"{line}\n" for line in case.lines).encode(), case.status
    for words in chain.from_iterable(build.commands(purpose) for purpose in LISTINGS[case.purpose]):
        found = programs.run(words, FILE_HEADER + case.content)
        if found != wanted:
            return f"{case.name}: {words[0]} prints {found}, not {wanted}"
    return None


def stream_fault(build, case):
    """None, or what is wrong with the text of a stream."""
    words = build.command("texts")
    finished = subprocess.run(words, input=case.content, stdout=subprocess.PIPE, stderr=subprocess.PIPE)
    found = finished.stdout, finished.stderr, finished.returncode
    if found != (case.text, case.refusal, case.status):
        return f"{case.name}: {words[0]} prints {found}, not {case[2:]}"
    return None


# The cases of which each is a run of its own.
ALONE = {Listing: listing_fault, Stream: stream_fault}


def faults(build, cases):
    """For each case, None or what is wrong."""
    if cases and type(cases[0]) in ALONE:
        yield from (ALONE[type(case)](build, case) for case in cases)
        return
    content = FILE_HEADER + b"".join(part for case in cases for part in case.frames)
    json_lines, events_lines = (lines_of(build.command(purpose), content) for purpose in ("json", "events"))
    last = -1
    for case in cases:
        last += len(case.frames)
        if last >= min(len(json_lines), len(events_lines)):
            yield f"{case.name}: no line"
        else:
            yield fault(case, json_lines[last], events_lines[last])


def main():
    parser = argparse.ArgumentParser(description="Compares what is read and written with cases that were worked by hand.")
    programs.add_flags(parser)
    parser.add_argument("files", nargs="*", type=Path, metavar="FILE")
    arguments = programs.parsed(parser, "json", "events", "texts")
    files = arguments.files or [path for path in sorted(CASES.glob("*.txt")) if kind_of(path) in KINDS]
    return results.report(result for path in files for result in faults(arguments.build, list(cases_of(path))))


if __name__ == "__main__":
    sys.exit(main())
