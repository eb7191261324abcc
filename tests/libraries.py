#!/usr/bin/env python3
"""Tests the library for C, C++ and Python over the logs of the other tests.

Usage: libraries.py [--build | --over-ci]

A C program and a C++ one over include/binlog.h list the samples, the encoder's logs and the damaged copies: their listing has to be that
of the built binlog_list without its last word. The C program also lists with room for one item, built with the sanitizers of the C
compiler, and with checksums verified, as the built `probe verifying` does; it computes the checksums by itself, bit by bit. A third
program calls the library with 10,000 cursors that it did not make over each of some logs. A C program and a C++ one print the lines of
JSON of all these logs: they have to be those of the built `binlog json`; another C program asks for those of 10,000 items that it changed
over each of some logs, and one refuses each of their allocations in turn, also with a cache. A C program prints the lines of random logs with files of
columns, and which columns contradict these: they have to be those of a model of both, and the faults of files that can't be read those
that are worked by hand. Another one prints the lines of the events inside compressed transactions, or why they are refused, as the built
`binlog json` does, with each allocation refused in turn; and one undoes random logs, beside the model of undo_command.py, with each
allocation refused in turn. Then the tests of the Python package run over the shared library, which is made of the static one. At last
what bin/install and bin/package make of the library: a C program is built against each by pkg-config and lists the sample, and Python
lists it by the package that is installed. The C compiler takes the examples of docs/C.md, and the shared library exports what the header
declares. Without pkg-config the flags are written out; without dpkg-deb there is no package; a line says so.

With --build the static library is first proved and built by bin/build if a source is newer. With --over-ci it is built by
static_library.py over what `rt ci` left, which proves the crate binlog_c alone once more. Where there is no library then, a
line says so, nothing is run, and both numbers are 0; the same is true without the C compiler `cc`. Without a C++ compiler
`c++`, sanitizers, Dask, or the programs `probe` and `binlog`, a line says so, and what needs them isn't run. The
last line is `N passed, M failed`; the exit status is 1 if something failed.
"""

import os
import random
import re
import shutil
import struct
import subprocess
import sys
import tempfile
from concurrent.futures import ThreadPoolExecutor
from pathlib import Path

import declared_columns
import encoded_logs
import payload_lines
import programs
import prover
import results
import row_events
import samples
import static_library
import undo_command
from damaged_copies import PROCESSES_AT_A_TIME, all_cases, first_difference, rows_log
from programs import REPOSITORY

LIBRARY = REPOSITORY / "crates/binlog_c/out/libbinlog_c.a"
LISTING = programs.PROVED.command("list")
VERIFYING = programs.PROVED.command("verify")
JSON = programs.PROVED.command("json")
# Those that may have Debian's Dask.
INTERPRETERS = (sys.executable, "/usr/bin/python3")
SOURCES = REPOSITORY / "tests/c"
WARNINGS = ["-Wall", "-Wextra", "-Wpedantic", "-Wconversion", "-Werror", "-O1", "-g"]
SANITIZERS = ["-fsanitize=address,undefined", "-fno-sanitize-recover=all"]
DAMAGED_CURSORS = 10_000
DAMAGED_ITEMS = 10_000
COLUMNS = 400
PAYLOADS = 400
UNDONE = 150
TO_END = 2**64 - 1
# The reasons of include/binlog.h, from the number 1 on, and the flags.
REASONS = ["Unfinished", "Statement", "LoadData", "Xa", "Rollback", "Incident", "Payload", "OldRows", "UnknownEvent", "Encrypted", "NoTableMap"]
REASONS += ["Rows", "OldTemporal", "Image", "PartialJson", "Compressed", "Damaged", "Tail", "Description", "Straddles"]
NO_FOREIGN_KEY_CHECKS, ONE_TRANSACTION, PLAIN_OLD_TEMPORAL = 1, 2, 4
# The numbers of errors of payloads, by the names that `binlog json` has for them; `Event` is the number of the event's error.
PAYLOAD_ERRORS = ["EventTruncated", "Lenenc", "FieldTwice", "FieldLength", "Kind", "NoField", "PayloadSize", "Limit", "UncompressedSize"]
PAYLOAD_ERRORS = {name: 105 + place for place, name in enumerate([*PAYLOAD_ERRORS, "Zstd", "InnerTruncated", "InnerSize", "Type"])}
# What the examples of docs/C.md take from what stands around them.
EXAMPLE = """
#include "binlog.h"
#include <fcntl.h>
#include <inttypes.h>
#include <stdio.h>
#include <stdlib.h>
#include <sys/mman.h>
#include <sys/stat.h>
int example(const uint8_t *log, size_t size, const uint8_t *columns, size_t columns_size, uint64_t index) {{
    binlog_cursor cursor = {{0}};
    binlog_item items[64] = {{{{0}}}}, maps[64] = {{{{0}}}};
    uint8_t error = 0;
    size_t count = 0, length = 0, map_count = 0, i = 0;
    char text[4096] = {{0}};
    {{
{code}
    }}
    return 0;
}}
"""
# The kinds of faults of a file of columns, by the messages of the program.
FAULTS = {
    "no line with the names of the six columns": (1, "no line with the names of the six columns"),
    "bytes that aren't UTF-8": (2, "bytes that are not UTF-8"),
    "a byte that stands for none": (3, "a byte that stands for none"),
    "not six fields": (4, "not six fields"),
    "no position of a column": (5, "no position of a column"),
    "a column whose position isn't the next one of its table": (6, "a column whose position is not the next one of its table"),
}


def build(folder, name, source, flags=(), library=(f"-I{REPOSITORY / 'include'}", LIBRARY)):
    """The program of a source file, over the static library, or over what these flags for the compiler name."""
    compiler, standard = ("cc", "-std=c11") if source.endswith(".c") else ("c++", "-std=c++17")
    program = folder / name
    command = [compiler, standard, *WARNINGS, *flags, SOURCES / source, *library, "-o", program]
    subprocess.run(command, check=True)
    return program


def has_sanitizers(folder):
    source = folder / "empty.c"
    source.write_text("int main(void) { return 0; }\n")
    command = ["cc", *SANITIZERS, source, "-o", folder / "empty"]
    return subprocess.run(command, stderr=subprocess.DEVNULL).returncode == 0


def packed(contents):
    """Logs one after another, each behind its size, as tests/c/logs.h reads them."""
    return b"".join(struct.pack("<Q", len(content)) + content for content in contents)


def listings(program, contents, *arguments):
    """What the program lists of each log, and the status that it states; None where it failed."""
    finished = subprocess.run(
        [program, *arguments], input=packed(contents), stdout=subprocess.PIPE, stderr=subprocess.PIPE
    )
    if finished.returncode != 0:
        print(f"{program.name} {' '.join(arguments)}: status {finished.returncode}: {finished.stderr.decode()}")
        return None
    found, lines = [], []
    for line in finished.stdout.splitlines(keepends=True):
        if line.startswith(b"status "):
            found.append((b"".join(lines), int(line.split()[1])))
            lines = []
        else:
            lines.append(line)
    return found


def without_word(listing):
    """The lines of binlog_list without the last word of an event's line."""
    return b"".join(
        line if b" error E" in line else line.rsplit(b" ", 1)[0] + b"\n" for line in listing.splitlines(keepends=True)
    )


def listed(content, words=LISTING):
    listing, status = programs.run(words, content)
    return without_word(listing), status


def listing_failures(name, found, names, wanted):
    """For each log, None or what is wrong with the program's listing of it."""
    if found is None or len(found) != len(wanted):
        yield from (f"{name}: not all logs are listed" for _ in wanted)
        return
    for log, (output, status), (wanted_output, wanted_status) in zip(names, found, wanted):
        if output != wanted_output:
            yield f"{name}, {log}: {first_difference(output, wanted_output)}"
        else:
            yield None if status == wanted_status else f"{name}, {log}: status {status}, not {wanted_status}"


def wanted_listings(words, contents):
    """What a built program lists of each log, without the last words, and its status."""
    with ThreadPoolExecutor(PROCESSES_AT_A_TIME) as pool:
        return list(pool.map(lambda content: listed(content, words), contents))


def program_failures(folder, cases):
    names, contents = zip(*((name, content) for name, content, *_ in cases))
    wanted = wanted_listings(LISTING, contents)
    plain = build(folder, "list", "list.c")
    yield from listing_failures("C", listings(plain, contents), names, wanted)
    yield from listing_failures("C, one item a call", listings(plain, contents, "1"), names, wanted)
    flags = SANITIZERS if has_sanitizers(folder) else []
    if not flags:
        print("no sanitizers: the programs run without them")
    checked = build(folder, "list_sanitized", "list.c", flags)
    yield from listing_failures("C with sanitizers", listings(checked, contents), names, wanted)
    cursors = build(folder, "damaged", "damaged.c", flags)
    if Path(VERIFYING[0]).exists():
        yield from verified_failures(plain, checked, names, contents)
    else:
        print("no program probe: no checksum is verified")
    if shutil.which("c++"):
        yield from listing_failures("C++", listings(build(folder, "list_cpp", "list.cpp"), contents), names, wanted)
    else:
        print("no c++: the C++ program isn't run")
    yield from damaged_failures("damaged cursors", cursors, DAMAGED_CURSORS)
    yield from json_failures(folder, names, contents, flags, [status for _, status in wanted])


def verified_failures(plain, checked, names, contents):
    """For each log, None or what is wrong with the programs' listings of it with checksums verified."""
    wanted = wanted_listings(VERIFYING, contents)
    one_a_call = listings(plain, contents, "1", "verified")
    yield from listing_failures("C, verified, one item a call", one_a_call, names, wanted)
    yield from listing_failures("C, verified", listings(checked, contents, "64", "verified"), names, wanted)


def without_parts(lines):
    """Lines without those of events in compressed transactions, which the library doesn't print."""
    return re.sub(rb'^{"index":\d+,"part":[^\n]*\n', b"", lines, flags=re.MULTILINE)


def json_failures(folder, names, contents, flags, statuses):
    """For each log, None or what is wrong with the programs' lines of JSON of it. The statuses are those of its listing: `binlog json`
    has another one for a log that ends within an event."""
    plain = build(folder, "json", "json.c")
    checked = build(folder, "json_checked", "json.c", flags)
    if Path(JSON[0]).exists():
        with ThreadPoolExecutor(PROCESSES_AT_A_TIME) as pool:
            lines = pool.map(lambda content: without_parts(programs.run(JSON, content)[0]), contents)
            wanted = list(zip(lines, statuses))
        yield from listing_failures("C, JSON", listings(plain, contents), names, wanted)
        yield from listing_failures("C with sanitizers, JSON", listings(checked, contents), names, wanted)
        if shutil.which("c++"):
            found = listings(build(folder, "json_cpp", "json.cpp"), contents)
            yield from listing_failures("C++, JSON", found, names, wanted)
        yield from payload_failures(folder, flags)
    else:
        print("no program binlog: no line of JSON is compared")
    found = listings(checked, contents, "verified")
    yield None if found is not None and len(found) == len(contents) else "C, JSON, verified: not all logs are printed"
    yield from damaged_failures("damaged items", build(folder, "damaged_items", "damaged_items.c", flags), DAMAGED_ITEMS)
    yield from refused_memory_failures(folder)
    yield from undo_failures(folder, flags)
    yield from columns_failures(folder, flags)


def columns_failures(folder, flags):
    """None or what is wrong with a log's lines of JSON by a file of columns, with what contradicts the file, or with its fault."""
    program = build(folder, "columns", "columns.c", [*flags, "-Wl,--wrap=malloc,--wrap=realloc"])
    cases = list(declared_columns.single_files(COLUMNS))
    found = listings(program, [part for _, text, content, _ in cases for part in (text, content)])
    if found is None or len(found) != len(cases):
        yield from ("C, columns: not all logs are printed" for _ in cases)
        return
    for (name, _, _, expected), (output, _) in zip(cases, found):
        wrong = expected.compared(*split_contradictions(output))
        yield wrong and f"C, columns, {name}: {wrong}"
    content = cases[0][2]
    found = listings(program, [part for text, _ in declared_columns.BAD_FILES for part in (text, content)])
    for (text, message), (output, _) in zip(declared_columns.BAD_FILES, found or []):
        place, fault = message.split(": ", 1)
        line, column = re.findall(r"\d+", place)
        wanted = f"fault {line} {column} {FAULTS[fault][0]} {FAULTS[fault][1]}\n"
        yield None if output.decode() == wanted else f"C, columns, {text!r}: {output.decode()}, not {wanted}"
    yield None if found else "C, columns: a file with a fault"


def payload_logs():
    """Logs with compressed transactions: one for each refusal, and random ones."""
    outside = payload_lines.XID
    for body, _ in payload_lines.refused():
        yield payload_lines.log_of([outside, (payload_lines.PAYLOAD, body), outside])
    chance = random.Random(40)
    yield from (payload_lines.random_log(chance) for _ in range(PAYLOADS))


def wanted_payloads(content):
    """What tests/c/payloads.c prints of a log: the lines of the events inside by `binlog json`, or the refusal alone."""
    lines = {}
    for line in programs.run(JSON, content)[0].splitlines(keepends=True):
        if found := re.fullmatch(rb'{"index":(\d+),"part":(\d+),(.*)\n', line):
            index, number, rest = found.groups()
            refusal = re.match(rb'"error":"(\w+)"(?:,"number":(\d+))?', rest)
            parts = lines.setdefault(index, [])
            if refusal is None:
                parts.append(b'%s {"index":%s,%s\n' % (index, number, rest))
            elif refusal[1] == b"Event":
                parts.append(b'%s {"index":%s,"error":%s}\n' % (index, number, refusal[2]))
            else:
                lines[index] = [b"%s refused %d %s\n" % (index, PAYLOAD_ERRORS[refusal[1].decode()], refusal[1])]
    return b"".join(part for parts in lines.values() for part in parts)


def payload_failures(folder, flags):
    """For each log, None or what is wrong with the events inside its compressed transactions."""
    program = build(folder, "payloads", "payloads.c", [*flags, "-Wl,--wrap=malloc,--wrap=realloc"])
    logs = list(payload_logs())
    names = [f"log {number}" for number in range(len(logs))]
    with ThreadPoolExecutor(PROCESSES_AT_A_TIME) as pool:
        wanted = [(lines, 0) for lines in pool.map(wanted_payloads, logs)]
    yield from listing_failures("C, payloads", listings(program, logs), names, wanted)
    yield from listing_failures("C, payloads, refused memory", listings(program, logs[:40], "memory"), names, wanted[:40])


def undo_parts(logs, start=0, stop=TO_END, skip=0, flags=0, tables=b"", excluded=b"", sizes=None):
    """A case, as tests/c/undo.c reads it."""
    sizes = list(map(len, logs)) if sizes is None else sizes
    packed_sizes = struct.pack(f"<{len(sizes)}Q", *sizes)
    return [struct.pack("<5Q", start, stop, skip, flags, len(sizes)), tables, excluded, packed_sizes, b"".join(logs)]


def table_names(tables):
    """The names of tables, as the library takes them."""
    return b"".join(name.encode() + b"\0" for table in tables for name in table.split("."))


def refusal_line(name, index, place, reason, *end):
    return f"refusal {name} {index} {place} {end[0] if end else 0} {REASONS.index(reason) + 1} 0\n"


def random_undo(seed):
    """Logs that are undone, as undo_command.py makes them: a case, and what the model says of it."""
    chance, kinds = random.Random(seed), list(row_events.kinds())
    is_sound = chance.random() < 0.5
    _, chosen, excluded, is_plain = undo_command.random_options(chance)
    contents = [undo_command.random_file(chance, kinds, is_sound) for _ in range(chance.randint(1, 3))]
    start = undo_command.random_position(chance, contents[0]) if chance.random() < 0.3 else 0
    stop = undo_command.random_position(chance, contents[-1]) if chance.random() < 0.3 else None
    model = undo_command.Model(chosen, excluded, is_plain)
    for number, content in enumerate(contents):
        is_first, is_last = number == 0, number == len(contents) - 1
        model.take(number, content, undo_command.Choice(start=start if is_first else 0, stop=stop if is_last else None))
    stated = {"tables": table_names(chosen), "excluded": table_names(excluded), "flags": PLAIN_OLD_TEMPORAL * is_plain}
    is_one = chance.random() < 0.3
    stated["flags"] |= ONE_TRANSACTION * is_one
    case = undo_parts(contents, start, TO_END if stop is None else stop, **stated)
    if model.refused:
        return case, "".join([*(refusal_line(*one) for one in model.refused), "error 119 Refused\n"]).encode()
    if is_one and not model.is_under_one():
        return case, b"error 120 OtherDescription\n"
    return case, f"counts {model.transactions()} {model.changes()}\nlog {model.written(is_one).hex()}\n".encode()


def single_undos():
    """Cases of other options and of errors, and what is printed of each."""
    chance, kinds = random.Random(1), list(row_events.kinds())
    events = [event for _ in range(4) for event in undo_command.random_transaction(chance, kinds, True, False)]
    statement, rows = (2, undo_command.query("DROP TABLE d.w")), [(kind, body, undo_command.random_header(chance)) for kind, body in events]
    log = undo_command.log_of(rows, 1, "8.0.36")
    model = undo_command.Model()
    model.take(0, log)
    counts = f"counts {model.transactions()} {model.changes()}\n".encode()
    whole, one = (b"log %s\n" % model.written(is_one).hex().encode() for is_one in (False, True))
    yield "one transaction", undo_parts([log, log[: len(undo_command.FILE_HEADER)]], flags=ONE_TRANSACTION), counts + one
    yield "no log", undo_parts([], sizes=[]), b"counts 0 0\nlog fe62696e\n"
    refused = undo_command.log_of([*rows, (*statement, (0, 1, 0))], 1, "8.0.36")
    index, place = len(rows) + 1, len(log)
    said = f"refusal 0 {index} {place} 0 2 {{}}\n"
    yield "a statement", undo_parts([refused]), said.format(0).encode() + b"error 119 Refused\n"
    yield "a statement, skipped", undo_parts([refused], skip=1 << 2), said.format(1).encode() + counts + whole
    other = undo_command.log_of(rows, 0, "8.0.36")
    yield "two descriptions", undo_parts([log, other], flags=ONE_TRANSACTION), b"error 120 OtherDescription\n"
    for name, case in [
        ("a flag", undo_parts([log], flags=8)), ("a reason that can't be skipped", undo_parts([log], skip=1 << 17)),
        ("a reason that there isn't", undo_parts([log], skip=1)), ("a size too much", undo_parts([log], sizes=[len(log), 1])),
        ("a size too little", undo_parts([log], sizes=[len(log) - 1])), ("a size beyond", undo_parts([log], sizes=[TO_END])),
        ("a name without a zero", undo_parts([log], tables=b"d\0t")), ("a name alone", undo_parts([log], excluded=b"d\0t\0e\0")),
    ]:  # fmt: skip
        yield name, case, b"error 118 InvalidOptions\n"
    yield "three bytes", undo_parts([log, log[:3]]), b"error 1 EndOfInput\n"
    yield "no log's bytes", undo_parts([b"\xff" + log[1:]]), b"error 2 InvalidFileHeader\n"


def undo_failures(folder, flags):
    """For each case, None or what is wrong with the log that undoes its logs."""
    program = build(folder, "undo", "undo.c", [*flags, "-Wl,--wrap=malloc,--wrap=realloc"])
    cases = [(f"seed {seed}", *random_undo(seed)) for seed in range(UNDONE)]
    cases += single_undos()
    names = [name for name, *_ in cases]
    wanted = [(lines, 0) for *_, lines in cases]
    parts = lambda chosen: [part for _, case, _ in chosen for part in case]
    yield from listing_failures("C, undo", listings(program, parts(cases)), names, wanted)
    small = [place for place, (_, case, lines) in enumerate(cases) if b"log " in lines and 500 < len(case[-1]) < 5000][:6]
    found = listings(program, parts([cases[place] for place in small]), "memory")
    yield from listing_failures("C, undo, refused memory", found, [names[place] for place in small], [wanted[place] for place in small])


def split_contradictions(output):
    """The lines of JSON of a log, and the columns that contradict the file, by the indexes of their table maps."""
    lines, columns = [], {}
    for line in output.splitlines(keepends=True):
        if line.startswith(b"contradiction "):
            index, column = map(int, line.split()[1:])
            columns[index] = column
        else:
            lines.append(line)
    return b"".join(lines), columns


def refused_memory_failures(folder):
    """None or what is wrong with a line of JSON for which each allocation in turn is refused, also by a cache."""
    refusing = build(folder, "refused_memory", "refused_memory.c", ["-Wl,--wrap=malloc,--wrap=realloc,--wrap=free"])
    logs = packed([samples.plain(), samples.checksummed()])
    finished = subprocess.run([refusing], input=logs, stdout=subprocess.PIPE, stderr=subprocess.PIPE)
    wrong = finished.stderr.decode() or f"status {finished.returncode}"
    yield None if finished.returncode == 0 else f"refused memory: {wrong}"


def damaged_failures(name, program, count):
    """Over each of some logs, None or what is wrong with an answer for a cursor, or an item, that isn't the library's."""
    logs = {
        "the sample": samples.plain(),
        "the sample with checksums": samples.checksummed(),
        "a log of rows": rows_log(),
        "all descriptions": encoded_logs.log("", encoded_logs.descriptions()).content,
        "no byte": b"",
    }
    for log, content in logs.items():
        finished = subprocess.run(
            [program, str(count)], input=packed([content]), stdout=subprocess.PIPE, stderr=subprocess.PIPE
        )
        wrong = finished.stderr.decode() or f"status {finished.returncode}"
        yield None if finished.returncode == 0 else f"{name}, {log}: {wrong}"


def interpreter():
    """The first interpreter that has Dask, or else this one."""
    for command in filter(shutil.which, INTERPRETERS):
        found = subprocess.run([command, "-c", "import dask, distributed"], stderr=subprocess.DEVNULL)
        if found.returncode == 0:
            return command
    return sys.executable


def python_failures(folder):
    """For each test of the Python package that was run, None or what failed. What is skipped is said once."""
    shared = folder / "libbinlog.so"
    subprocess.run([REPOSITORY / "bin/shared-library", shared, LIBRARY], check=True)
    environment = os.environ | {"BINLOG_LIBRARY": str(shared), "PYTHONPATH": str(REPOSITORY / "python")}
    command = [interpreter(), "-m", "unittest", "discover", "--verbose", "--start-directory", REPOSITORY / "python/tests"]
    said = subprocess.run(command, env=environment, stderr=subprocess.PIPE, text=True).stderr
    skipped = re.findall(r" skipped ['\"](.*)['\"]$", said, re.MULTILINE)
    for reason in sorted(set(skipped)):
        print(reason)
    ran = re.search(r"^Ran (\d+) tests? in ", said, re.MULTILINE)
    wrong = sum(map(int, re.findall(r"(?:failures|errors)=(\d+)", said.splitlines()[-1])))
    if ran is None or wrong:
        print(said)
    yield from ["Python: a test failed"] * (1 if ran is None else wrong)
    yield from [None] * (0 if ran is None else int(ran[1]) - wrong - len(skipped))


def export_failures(shared):
    """None if the shared library exports the functions of the header, and nothing else; else what differs."""
    text = subprocess.run(["nm", "--dynamic", "--defined-only", shared], stdout=subprocess.PIPE, text=True, check=True).stdout
    exported = {line.split()[-1] for line in text.splitlines()}
    declared = set(re.findall(r"\b(binlog_\w+)\(", (REPOSITORY / "include/binlog.h").read_text()))
    yield None if exported == declared else f"the shared library and the header differ by {exported ^ declared}"


def flags_of(prefix):
    """The compiler's flags for the library that is installed below a prefix."""
    if not shutil.which("pkg-config"):
        print("no pkg-config: its file isn't read")
        return [f"-I{prefix / 'include'}", f"-L{prefix / 'lib'}", "-lbinlog_c"]
    environment = os.environ | {"PKG_CONFIG_PATH": str(prefix / "lib/pkgconfig")}
    command = ["pkg-config", "--cflags", "--libs", "binlog = 0.1.0"]
    return subprocess.run(command, capture_output=True, text=True, check=True, env=environment).stdout.split()


# Prints what the library that is installed says of a log, as binlog_list does.
LISTER = """
import sys, binlog
for index, event in enumerate(binlog.open(sys.argv[1])):
    checksum = "-" if event.checksum is None else event.checksum.hex()
    print(index, event.event_type, event.event_size, event.log_pos, f"{event.flags:04x}", len(event.data), checksum)
"""


def installed_failures(folder, name, library, python):
    """None or what is wrong with the library below one prefix and the Python package below another."""
    content = samples.plain()
    wanted = [listed(content)]
    folder.mkdir()
    static = build(folder, "static", "list.c", library=flags_of(library))
    yield from listing_failures(f"{name}, C", listings(static, [content]), ["the sample"], wanted)
    flags = [f"-I{library / 'include'}", f"-L{library / 'lib'}", f"-Wl,-rpath,{library / 'lib'}", "-lbinlog"]
    shared = build(folder, "shared", "list.c", library=flags)
    yield from listing_failures(f"{name}, C, shared", listings(shared, [content]), ["the sample"], wanted)
    (folder / "log").write_bytes(content)
    environment = {name: value for name, value in os.environ.items() if name != "BINLOG_LIBRARY"}
    environment |= {"PYTHONPATH": str(python / "lib/python3/dist-packages"), "PYTHONDONTWRITEBYTECODE": "1"}
    command = [sys.executable, "-c", LISTER, folder / "log"]
    finished = subprocess.run(command, cwd=folder, env=environment, capture_output=True)
    found = [(finished.stdout, finished.returncode)]
    yield from listing_failures(f"{name}, Python", found, ["the sample"], wanted)


def install_failures(folder):
    """None or what is wrong with what is installed and what the packages hold."""
    parts = [f"library={LIBRARY}", f"python={LIBRARY}"]
    prefix = folder / "prefix"
    subprocess.run([REPOSITORY / "bin/install", prefix, *parts], check=True)
    yield from installed_failures(folder / "installed", "bin/install", prefix, prefix)
    wrong = subprocess.run([REPOSITORY / "bin/install", prefix, "libraries"], stderr=subprocess.DEVNULL)
    yield None if wrong.returncode == 64 else "bin/install takes an unknown part"
    if not shutil.which("dpkg-deb"):
        print("no dpkg-deb: no package is tried")
        return
    packages = folder / "packages"
    subprocess.run([REPOSITORY / "bin/package", packages, *parts], check=True, stdout=subprocess.DEVNULL)
    for name in ("libbinlog-dev", "python3-binlog"):
        (package,) = packages.glob(f"{name}_0.1.0_*.deb")
        subprocess.run(["dpkg-deb", "-x", package, folder / name], check=True)
    (package,) = packages.glob("libbinlog-dev_0.1.0_*.deb")
    triggers = subprocess.run(["dpkg-deb", "-I", package, "triggers"], capture_output=True, text=True).stdout
    yield None if triggers == "activate-noawait ldconfig\n" else f"libbinlog-dev: {triggers!r}"
    below = [folder / name / "usr" for name in ("libbinlog-dev", "python3-binlog")]
    yield from installed_failures(folder / "packaged", "bin/package", *below)
    wrong = subprocess.run([REPOSITORY / "bin/package", folder / "both.deb", *parts], stderr=subprocess.DEVNULL)
    yield None if wrong.returncode == 64 else "bin/package puts two packages into one file"


def example_failures(folder):
    """For each example of docs/C.md, None or what the compiler says of it."""
    examples = re.findall(r"^```c\n(.*?)^```", (REPOSITORY / "docs/C.md").read_text(), re.MULTILINE | re.DOTALL)
    for number, code in enumerate(examples, 1):
        source = folder / "example.c"
        source.write_text(EXAMPLE.format(code=code))
        command = ["cc", "-std=c11", "-Wall", "-Werror", "-Wno-unused", "-fsyntax-only", f"-I{REPOSITORY / 'include'}", source]
        finished = subprocess.run(command, stderr=subprocess.PIPE, text=True)
        yield None if finished.returncode == 0 else f"docs/C.md, example {number}: {finished.stderr}"


def missing():
    """What is missing to test the library, or None."""
    if not shutil.which("cc"):
        return "no cc"
    if not LIBRARY.exists():
        return "the library for C isn't built: tests/libraries.py --build builds it"
    return None


def is_built_over_ci():
    """Whether the library is built over what `rt ci` left, or can't be since something is missing."""
    try:
        status = static_library.build("binlog_c")
    except prover.NotLeft as error:
        print(error)
        return True
    if status != 0:
        print(f"tests/static_library.py: FAILED: status {status}")
    return status == 0


def main():
    if sys.argv[1:] == ["--build"]:
        subprocess.run([REPOSITORY / "bin/build", "binlog_c"], check=True)
    if sys.argv[1:] == ["--over-ci"] and not is_built_over_ci():
        return results.close(0, 1)
    reason = missing()
    if reason:
        return results.left_out(f"{reason}: nothing is run")
    with tempfile.TemporaryDirectory() as name:
        folder = Path(name)
        cases = list(all_cases(samples.plain(), lambda log: None))
        found = [*example_failures(folder), *program_failures(folder, cases), *python_failures(folder)]
        return results.report([*found, *export_failures(folder / "libbinlog.so"), *install_failures(folder)])


if __name__ == "__main__":
    sys.exit(main())
