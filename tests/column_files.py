#!/usr/bin/env python3
"""Compares what `probe` reads of files of columns with cases that were worked by hand, and with a model.

Usage: column_files.py [--count N] FLAG

FLAG is one of `programs.py`: its program answers questions, which `questions.rs` of the packages' `probe` lists. The cases are
`tests/cases/column_files.txt`. The model reads N random texts (20,000 if not given): files of random columns, most of them damaged.
The last line is `N passed, M failed`; the exit status is 1 if something failed.
"""

import argparse
import random
import re
import subprocess
import sys
from pathlib import Path

import programs
import questions
import results

CASES = Path(__file__).resolve().parent / "cases/column_files.txt"
COMMANDS = programs.REPOSITORY / "docs/COMMANDS.md"
QUERY = re.compile(r'mysql (?P<options>--default-character-set=\S+ -B) -e "(?P<query>SELECT TABLE_SCHEMA.*)" > columns\.tsv')
NAMES = (b"TABLE_SCHEMA", b"TABLE_NAME", b"ORDINAL_POSITION", b"COLUMN_NAME", b"COLUMN_TYPE", b"CHARACTER_SET_NAME")
HEADER = b"\t".join(NAMES)
LINE_ENDS = (b"\n", b"\r\n")

# A field as `mysql -B` prints it, the letters behind a backslash, and the third field.
FIELD = re.compile(rb"(?:[^\t\n\0\\]|\\[tn0\\])*")
ESCAPES = {b"\t": b"\\t", b"\n": b"\\n", b"\0": b"\\0", b"\\": b"\\\\"}
LETTERS = {escape: byte for byte, escape in ESCAPES.items()}
POSITION = re.compile(rb"[1-9][0-9]*")
GREATEST_POSITION = 0xFFFF_FFFF
THIRD, SIXTH = 2, 5


class Fault(Exception):
    """Why a text is no file, and at which byte."""


# ---- a server's file


def ask(client, path):
    """Writes what a server answers, by the command that `docs/COMMANDS.md` has; the client's words say which server."""
    command = QUERY.search(COMMANDS.read_text())
    with path.open("wb") as file:
        subprocess.run([*client, *command["options"].split(), "-e", command["query"]], stdout=file, check=True)


# ---- the model


def text_of(field):
    return re.sub(rb"\\[tn0\\]", lambda found: LETTERS[found[0]], field)


def is_utf8(field):
    try:
        field.decode()
    except UnicodeDecodeError:
        return False
    return True


def line_at(text, start):
    """The six fields of the line that begins there, and where the next one begins."""
    fields = []
    for index in range(6):
        end = min((place for place in (text.find(b"\t", start), text.find(b"\n", start)) if place >= 0), default=len(text))
        field = text[start:end]
        if index == SIXTH:
            field = field.removesuffix(b"\r")
        if index == THIRD:
            if not POSITION.fullmatch(field) or int(field) > GREATEST_POSITION:
                raise Fault("Position", start)
        elif not is_utf8(field):
            raise Fault("Encoding", start)
        elif not FIELD.fullmatch(field):
            raise Fault("Escape", start)
        if text[end : end + 1] != (b"\n" if index == SIXTH else b"\t"):
            raise Fault("Fields", end)
        fields.append(field if index == THIRD else text_of(field))
        start = end + 1
    return fields, start


def columns_of(text):
    start = next((len(HEADER + end) for end in LINE_ENDS if text.startswith(HEADER + end)), None)
    if start is None:
        raise Fault("Header", 0)
    lines = []
    while start < len(text):
        fields, start = line_at(text, start)
        lines.append(fields)
    return lines


def shown(lines):
    columns = (",".join(field.decode() if index == THIRD else field.hex() or "-" for index, field in enumerate(line)) for line in lines)
    return ";".join(columns) or "none"


def expected(text):
    """The answer of the program."""
    try:
        return shown(columns_of(text))
    except Fault as fault:
        kind, place = fault.args
        before = text[:place]
        return f"refused {kind} {before.count(10) + 1} {place - before.rfind(10)}"


# ---- random texts


def escaped(text):
    return re.sub(rb"[\t\n\0\\]", lambda found: ESCAPES[found[0]], text)


def random_text(chance):
    return "".join(chance.choices("\t\n\0\\tn0a' ,()\xe9\u65e5\U0001f600\r\x1a", k=chance.randrange(6))).encode()


def random_file(chance):
    content = HEADER + chance.choice(LINE_ENDS)
    for _ in range(chance.randrange(5)):
        fields = [escaped(random_text(chance)) for _ in range(6)]
        fields[THIRD] = str(chance.choice((1, 2, 10, 4096, GREATEST_POSITION, chance.randrange(1, 100)))).encode()
        content += b"\t".join(fields) + chance.choice(LINE_ENDS)
    return content


def damaged(content, chance):
    """The text with a byte replaced, left out or put in, or cut; mostly behind the header."""
    place = chance.randrange(len(HEADER) - 1 if chance.random() < 0.9 else 0, len(content) + 1)
    other = bytes(chance.choices(b"\t\n\0\\tn0123a\r\xe9\xff", k=1))
    return chance.choice((content[:place] + other + content[place + 1 :], content[:place] + content[place + 1 :], content[:place] + other + content[place:], content[:place]))


def random_texts(count):
    chance = random.Random(62)
    for index in range(count):
        content = random_file(chance)
        yield content if index % 4 == 0 else damaged(content, chance)


# ---- cases


def bytes_of(text):
    """The bytes of a case: `HEADER`, the first line with its end, `NAMES`, the same without it, and texts in quotes, in which `\\xNN`,
    `\\t` and such are bytes."""
    assert re.sub(r'HEADER|NAMES|"(?:[^"\\]|\\.)*"', "", text).strip() == "", text
    words = {"HEADER": HEADER + b"\n", "NAMES": HEADER}
    places = re.finditer(r'(HEADER|NAMES)|"((?:[^"\\]|\\.)*)"', text)
    return b"".join(words[found[1]] if found[1] else found[2].encode().decode("unicode_escape").encode("latin-1") for found in places)


def cases():
    for line in CASES.read_text().splitlines()[1:]:
        if line and not line.startswith("#"):
            text, _, wanted = line.partition(" => ")
            yield bytes_of(text), wanted


def wanted_answer(wanted):
    """What is wanted, as the program prints it: columns as lists of six texts in quotes, or a refusal."""
    if wanted.startswith("refused") or wanted == "none":
        return wanted
    texts = [found.encode().decode("unicode_escape").encode("latin-1") for found in re.findall(r'"((?:[^"\\]|\\.)*)"', wanted)]
    return shown([texts[start : start + 6] for start in range(0, len(texts), 6)])


# ---- runs


def faults(words, count):
    answered = ((text, wanted_answer(wanted)) for text, wanted in cases())
    return questions.beside_model(words, "file", answered, random_texts(count), expected)


def main():
    parser = argparse.ArgumentParser(description="Compares what is read of files of columns with cases and a model.")
    programs.add_flags(parser)
    parser.add_argument("--count", type=int, default=20_000)
    arguments = programs.parsed(parser, "questions")
    return results.report(faults(arguments.build.command("questions"), arguments.count))


if __name__ == "__main__":
    sys.exit(main())
