#!/usr/bin/env python3
"""Reads what servers wrote: the logs and tables of Debian's package mariadb-test-data, of MySQL 4.0 to 8.0 and of MariaDB.

Usage: debian_data.py FLAG

FLAG is one of `programs.py`. Each log is listed, printed as lines of JSON, and its GTIDs are listed, as the models do. The tables
are MySQL 5.7's, with columns of type JSON: each of their documents is read as the text that MySQL gave for it, which stands beside
it, and is written again as the bytes that MySQL wrote. These documents and random ones have the text that a MariaDB server gives by
its plugin for them (`maria_documents.py`), where one can run. Where the package isn't installed it is unpacked in a folder, if
apt-get can download it within `SECONDS_TO_DOWNLOAD`; nothing is installed. The last line is `N passed, M failed`; the exit status
is 1 if something failed.
"""

import argparse
import random
import subprocess
import sys
import tempfile
from pathlib import Path

import damaged_copies
import listing_model
import maria_documents
import mysql_documents
import programs
import results
from maria_daemon import LeftOut

PACKAGE = "mariadb-test-data"
INSTALLED = Path("/usr/share/mysql/mysql-test")
SECONDS_TO_DOWNLOAD = 60
SECONDS_TO_READ = 60

TABLES = "std_data/mysql_json/mysql_json_test*.MYD"
RANDOM_DOCUMENTS = 5_000

PURPOSES = ["list", "list a slice", "json", "gtids"]


# ---- The package


def unpacked(folder):
    """The package's files, in the folder; None if they can't be had."""
    command = ["apt-get", "--quiet", "--option", "Acquire::Retries=0", "download", PACKAGE]
    try:
        subprocess.run(command, cwd=folder, capture_output=True, timeout=SECONDS_TO_DOWNLOAD, check=True)
        (package,) = folder.glob("*.deb")
        subprocess.run(["dpkg-deb", "-x", package, folder], check=True)
    except (OSError, ValueError, subprocess.SubprocessError):
        return None
    return folder / INSTALLED.relative_to("/")


def data_in(folder):
    """The package's files; None if they can't be had."""
    return INSTALLED if (INSTALLED / "std_data").is_dir() else unpacked(folder)


# ---- Logs


def logs(data):
    """The names and bytes of the files that begin as a log does."""
    for path in sorted(data.rglob("*")):
        if path.is_file() and not path.is_symlink():
            content = path.read_bytes()
            if content.startswith(listing_model.FILE_HEADER):
                yield str(path.relative_to(data)), content


def log_results(build, data):
    for case in logs(data):
        for purpose in PURPOSES:
            commands = build.commands(purpose)
            if commands:
                yield damaged_copies.failure(commands, purpose.removesuffix(" a slice"), case)


# ---- Tables of MyISAM, whose records have as many bytes as they need


def records(content):
    """The records of a table. Each is one block, whose head has its type (1 to 4), the record's length in two bytes or three, and
    in some types the number of spare bytes behind the record. A deleted block (0) has its own length in three bytes."""
    place = 0
    while place < len(content):
        kind = content[place]
        width = 2 if kind in (1, 3) else 3
        length = int.from_bytes(content[place + 1 : place + 1 + width], "big")
        if kind == 0:
            place += length
            continue
        start = place + 1 + width + (kind > 2)
        yield content[start : start + length]
        place = start + length + (content[start - 1] if kind > 2 else 0)


def documents(record):
    """MySQL's text of a document, and the document: the second and the third column, behind two bytes of flags and a VARCHAR. Each
    has its length in front, in four bytes."""
    place = 3 + record[2]
    for _ in range(2):
        length = int.from_bytes(record[place : place + 4], "little")
        yield record[place + 4 : place + 4 + length]
        place += 4 + length


def rows_of(path):
    return [tuple(documents(record)) for record in records(path.read_bytes())]


def answers(command, asked):
    """The answers to questions; that there are others, for each, if they aren't as many."""
    finished = subprocess.run(command, input="".join(f"{line}\n" for line in asked).encode(), capture_output=True, timeout=SECONDS_TO_READ)
    found = finished.stdout.decode().splitlines()
    return found if len(found) == len(asked) else [f"one of {len(found)} answers to {len(asked)}"] * len(asked)


def text_failure(name, answer, text, strict=True):
    """None if the answer is the document of the server's text, else what is wrong."""
    try:
        is_same = mysql_documents.is_same(mysql_documents.of_text(answer), mysql_documents.of_text(text, strict))
    except ValueError:
        is_same = False
    return None if is_same else f"{name} is {answer[:200]}, and not {text[:200]}"


def table_results(command, path):
    """What is wrong with the answers for the documents of a table."""
    rows = rows_of(path)
    found = answers(command, [f"{word} {document.hex()}" for _, document in rows for word in ("document", "rewritten")])
    for index, (text, document) in enumerate(rows):
        shown, written = found[2 * index : 2 * index + 2]
        yield text_failure(f"{path.name}: document {index}", shown, text.decode())
        yield None if written == document.hex() else f"{path.name}: document {index} is written as other bytes"


def plugin_results(command, data, folder):
    """The same for the documents of all tables, and for random ones, beside the texts of MariaDB's plugin, which escapes no control
    character."""
    tables = sorted(data.glob(TABLES))
    asked = [document for path in tables for _, document in rows_of(path)]
    asked += maria_documents.random_documents(random.Random(59), RANDOM_DOCUMENTS)
    texts = maria_documents.shown(asked, tables[0].with_suffix(".frm"), folder)
    found = answers(command, [f"document {document.hex()}" for document in asked])
    for document, answer, text in zip(asked, found, texts, strict=True):
        yield text_failure(f"{document.hex()[:200]}, by the plugin,", answer, text, strict=False)


def all_results(build, data, folder):
    yield from log_results(build, data)
    for command in build.commands("questions"):
        for path in sorted(data.glob(TABLES)):
            yield from table_results(command, path)
        try:
            yield from plugin_results(command, data, folder)
        except LeftOut as reason:
            print(f"{reason}: no documents are compared with those of MariaDB's plugin")


def main():
    parser = argparse.ArgumentParser(description="Reads the logs and tables of Debian's package mariadb-test-data.")
    programs.add_flags(parser)
    arguments = programs.parsed(parser, *PURPOSES)
    with tempfile.TemporaryDirectory() as folder:
        data = data_in(Path(folder))
        if data is None:
            return results.left_out(f"there is no {PACKAGE}, and it can't be downloaded")
        return results.report(all_results(arguments.build, data, Path(folder)))


if __name__ == "__main__":
    sys.exit(main())
