#!/usr/bin/env python3
"""Checks that the documents name what there is.

A test for each link to a file of the repository or to a heading in one, and for each name in the column of a table that has contracts
or laws: it has to be a word of the sources, in `crates`. The last line is `N passed, M failed`; the exit status is 1 if something
failed.
"""

import re
import sys
from functools import cache
from pathlib import Path

import results

REPOSITORY = Path(__file__).resolve().parent.parent
LINK = re.compile(r"\[[^\]]*\]\((?P<file>[^)\s#]*)(?:#(?P<heading>[^)\s]*))?\)")
HEADING = re.compile(r"^#+ (.*)$", re.MULTILINE)
BLOCK = re.compile(r"^ *```.*?^ *```$", re.MULTILINE | re.DOTALL)
DOCUMENTS = ("*.md", "docs/*.md", "bench/*.md", "tests/*/*.md")
SOURCES = ("crates/*/src/**/*.rt", "crates/*/specs/**/*.antt", "crates/*/proofs/**/*.antt")
# The heads of the columns that name contracts and laws.
COLUMNS = ("Contract", "Main contract", "Law")


@cache
def headings(file):
    """The names by which links find the headings of a document."""
    texts = HEADING.findall(BLOCK.sub("", file.read_text()))
    return {re.sub(r"[^\w\- ]", "", re.sub(r"\]\([^)]*\)", "", text).lower()).replace(" ", "-") for text in texts}


def link_faults(document, text):
    """For each link of a document within the repository, None or what is wrong with it."""
    for link in LINK.finditer(text):
        if link["file"].startswith(("http:", "https:", "mailto:")):
            continue
        file = (document.parent / link["file"]).resolve() if link["file"] else document
        is_there = file.exists() and (not link["heading"] or link["heading"] in headings(file))
        yield None if is_there else f"{document.name}: nothing is behind {link[0]}"


def contracts(text):
    """The names in the columns of tables that have contracts and laws."""
    place = None
    for line in text.splitlines():
        cells = [cell.strip() for cell in line.strip("|").split(" | ")] if line.startswith("|") else []
        if place is None or not cells:
            place = next((cells.index(head) for head in COLUMNS if head in [cell.strip("| ") for cell in cells]), None)
        elif place < len(cells):
            for quoted in re.findall(r"`([^`]+)`", cells[place]):
                yield from re.findall(r"[A-Za-z_]\w+", quoted)


def main():
    sources = (file for pattern in SOURCES for file in REPOSITORY.glob(pattern))
    words = {word for file in sources for word in re.findall(r"\w+", file.read_text())}
    words |= {folder.name for folder in (REPOSITORY / "crates").iterdir()}
    found = []
    for document in sorted(file for pattern in DOCUMENTS for file in REPOSITORY.glob(pattern)):
        text = BLOCK.sub("", document.read_text())
        found += link_faults(document, text)
        found += (None if name in words else f"{document.name}: no source has {name}" for name in contracts(text))
    return results.report(found)


if __name__ == "__main__":
    sys.exit(main())
