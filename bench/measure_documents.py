#!/usr/bin/env python3
"""Measures `binlog json` over a table with a JSON column beside a hand-written program and a decoder in Python; prints Markdown tables.

Usage: measure_documents.py [PRINTER [FOLDER]]

PRINTER is the built binlog, `crates/binlog/out/binlog` if not given. FOLDER, `work` beside this file if not given, holds the logs of
make_document_logs.py, which are made if they are missing. The hand-written program, `json_baseline`, is built first.

The first table is of lines of JSON: the outputs of both programs must be equal, and so must be the documents in them and the texts that
`tests/binary_json_model.py` has for the documents of the small log. Instructions and allocations are those of the small log, less those
of its start; megabytes are those of the binary JSON alone, though the programs read and write all of the log. The second is of the
model in Python, which decodes the documents and makes their texts, and does nothing else of the log. Times are processor times, the
best of 5, the programs in turns, with output to /dev/null.
"""

import json
import sys
import time
from pathlib import Path

from arguments import arguments
import make_document_logs
from make_document_logs import model
from measure import build_baseline
from measure_rows import best_times, compared_lines, figures, further, output_of

ROUNDS = 5
HERE = Path(__file__).resolve().parent
COUNTED = ["Documents", "Bytes / document", "Instructions / document", "Baseline's", "ratio", "Allocations / document", "ns / document", "Baseline's", "ratio"]
RATES = ["MB of binary JSON / s", "Baseline's"]
PYTHON = ["ns / document", "Python's", "Times as fast"]


def shown(output):
    """The texts of documents in lines of JSON with rows, in order."""
    for line in output.splitlines():
        for row in json.loads(line, parse_float=str, parse_int=str).get("rows", []):
            yield from (image["doc"]["json"] for image in (row.get("before"), row.get("after")) if image)


def compared_documents(printer, path, texts):
    """The documents of the lines have the texts of the model."""
    wanted = [json.loads(text, parse_float=str, parse_int=str) for text in texts]
    found = list(shown(output_of(printer, path)))
    if not found or any(one != wanted[number % len(wanted)] for number, one in enumerate(found)):
        sys.exit(f"{path}: a document isn't that of the model")
    return len(found)


def python_time(contents):
    """The processor time of a pass over the documents in Python, the best of several."""

    def one_pass():
        began = time.process_time()
        for content in contents:
            model.text(model.read(content))
        return time.process_time() - began

    return min(one_pass() for _ in range(ROUNDS))


def print_table(title, columns, cells):
    print(f"## {title}\n")
    print("| " + " | ".join(columns) + " |")
    print("|" + "---:|" * len(columns))
    print("| " + " | ".join(cells) + " |\n", flush=True)


def main(arguments):
    given = arguments + [None] * (2 - len(arguments))
    printer = [given[0] or str(HERE.parent / "crates/binlog/out/binlog"), "json", "-"]
    folder = Path(given[1] or HERE / "work")
    folder.mkdir(parents=True, exist_ok=True)
    make_document_logs.make(folder)
    baseline = build_baseline("json_baseline")
    path, small, start = (folder / f"{name}.binlog" for name in ("rows_documents", "rows_documents_small", "start_rows_documents"))
    _, contents = make_document_logs.events_and_documents()
    texts = [model.text(model.read(content)) for content in contents]
    compared_lines(printer, baseline, small)
    compared_lines(printer, baseline, path)
    few, first = (compared_documents(printer, each, texts) for each in (small, start))
    count = few * path.stat().st_size // small.stat().st_size
    size = sum(map(len, contents)) / len(contents)
    counted = [further(lambda _: command, folder, "documents", few - first) for command in (printer, [baseline])]
    times = best_times(lambda _: printer, lambda _: [baseline], path)
    rates = [f"{count * size / time / 1e6:,.0f}" for time in times]
    print_table("Lines of JSON with documents", COUNTED + RATES, [f"{count:,}", f"{size:,.0f}", *figures(counted, times, count), *rates])
    one = times[0] / count
    python = python_time(contents) / len(contents)
    print_table("Documents in Python", PYTHON, [f"{one * 1e9:,.0f}", f"{python * 1e9:,.0f}", f"{python / one:.0f}"])


if __name__ == "__main__":
    main(arguments(__doc__))
