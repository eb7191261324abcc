#!/usr/bin/env python3
"""Compares what the library says of the transactions of logs with cases that were worked by hand, and with a model.

Usage: transactions.py [--count N] FLAG

FLAG is one of `programs.py`: its program answers questions, which `questions/transactions.rs` of the packages' `probe` lists. The cases are those of
`tests/cases/transactions.txt`. The model tells the kinds of N random texts and the transactions of N random lists of events (20,000
of each if not given). The last line is `N passed, M failed`; the exit status is 1 if something failed.
"""

import argparse
import random
import re
import sys
from pathlib import Path

import programs
import questions
import results

CASES = Path(__file__).resolve().parent / "cases/transactions.txt"

# ---- the model: `docs/UNDO.md`

WHOLE = {"BEGIN": "Begin", "COMMIT": "Commit", "ROLLBACK": "Rollback"}
PREFIXES = [
    (r"ROLLBACK TO ", "RollbackToSavepoint"),
    (r"SAVEPOINT ", "Harmless"),
    (r"DROP TEMPORARY TABLE ", "Harmless"),
    (r"DROP /\*!40005 TEMPORARY \*/ TABLE ", "Harmless"),
    (r"XA START ", "XaStart"),
    (r"XA (COMMIT|ROLLBACK) ", "XaEnd"),
    (r"XA ", "Xa"),
]

# The refusal of a word, and whether it ends a transaction: always, never, or unless it is open.
STATEMENTS = {
    "COMMIT": (None, "always"),
    "ROLLBACK": (None, "always"),
    "ROLLBACK-TO": ("Rollback", "never"),
    "SAVEPOINT": (None, "unless open"),
    "XA-START": ("Xa", "never"),
    "XA-COMMIT": ("Xa", "always"),
    "XA-END": ("Xa", "never"),
    "STATEMENT": ("Statement", "unless open"),
}
EVENTS = {
    "xa-prepare": ("Xa", "always"),
    "payload": ("Payload", "always"),
    "load": ("LoadData", "unless open"),
    "load-part": ("LoadData", "never"),
    "incident": ("Incident", "unless open"),
    "old-rows": ("OldRows", "unless open"),
    "unknown-event": ("UnknownEvent", "unless open"),
}
ROWS = ("rows", "last-rows", "other-rows", "last-other-rows")
GTIDS = {"gtid": ("announced", None), "group": ("open", None), "xa-gtid": ("announced", "Xa"), "xa-group": ("open", "Xa")}


def kind_of(text):
    if text in WHOLE:
        return WHOLE[text]
    return next((kind for prefix, kind in PREFIXES if re.match(prefix, text, re.IGNORECASE | re.ASCII)), "Other")


class Reading:
    """The transaction that is read: how it ends, or None; whether it has nothing but a GTID; whether it has rows to be undone."""

    def __init__(self):
        self.way, self.fresh, self.rows = None, False, False
        self.told = []

    def say(self, cut, begins, ends, refusal):
        place = {(True, True): "Alone", (True, False): "First", (False, True): "Last", (False, False): "Within"}[begins, ends]
        self.told.append(place + ("!" if cut else "") + (f":{refusal}" if refusal else ""))
        if ends:
            self.way = None

    def outside(self, cut, refusal=None):
        self.way = None
        self.told.append("Outside" + ("!" if cut else "") + (f":{refusal}" if refusal else ""))

    def begin(self, way):
        """Whether a transaction begins, since none is there."""
        if self.way is not None:
            return False
        self.way, self.fresh, self.rows = way, True, False
        return True

    def take(self, word):
        was = self.way is not None
        if word in ("nothing", "encryption"):
            refusal = "Encrypted" if word == "encryption" else None
            return self.say(False, False, False, refusal) if was else self.outside(False, refusal)
        if word == "border":
            return self.outside(was)
        if word in GTIDS:
            way, refusal = GTIDS[word]
            self.way = None
            self.begin(way)
            return self.say(was, True, False, refusal)
        if word == "BEGIN":
            cut = was and not self.fresh
            if cut:
                self.way = None
            begins = self.begin("open")
            self.way, self.fresh = "open", False
            return self.say(cut, begins, False, None)
        if word in STATEMENTS:
            return self.take_part(word, *STATEMENTS[word], "announced")
        if word == "xid":
            return self.take_part(word, None, "always", "announced")
        if word in EVENTS:
            return self.take_part(word, *EVENTS[word], "implicit")
        begins = self.begin("implicit")
        self.fresh = False
        if self.way == "announced":
            self.way = "implicit"
        self.rows = self.rows or word in ("rows", "last-rows")
        self.say(False, begins, self.way == "implicit" and word.startswith("last"), None)

    def take_part(self, word, refusal, ends, way):
        begins = self.begin(way)
        self.fresh = False
        if word == "ROLLBACK" and self.rows:
            refusal = "Rollback"
        is_last = ends == "always" or ends == "unless open" and self.way != "open"
        if word == "XA-START":
            self.way = "open"
        self.say(False, begins, is_last, refusal)


def transactions_of(words):
    reading = Reading()
    for word in words:
        reading.take(word)
    return " ".join([*reading.told, "outside" if reading.way is None else "within"])


# ---- random questions

WORDS = ["nothing", "border", "encryption", "BEGIN", "xid", "map", *ROWS, *GTIDS, *STATEMENTS, *EVENTS]
COMMON = ["gtid", "group", "BEGIN", "map", "rows", "last-rows", "xid", "COMMIT", "nothing", "STATEMENT"]
TEXTS = [
    "BEGIN", "COMMIT", "ROLLBACK", "ROLLBACK TO ", "SAVEPOINT ", "DROP TEMPORARY TABLE ", "DROP /*!40005 TEMPORARY */ TABLE ",
    "XA ", "XA START ", "XA COMMIT ", "XA ROLLBACK ", "XA END ", "INSERT INTO ",
]


def random_words(chance):
    known = WORDS if chance.random() < 0.5 else COMMON
    return [chance.choice(known) for _ in range(chance.randint(1, 12))]


def random_text(chance):
    text = chance.choice(TEXTS)
    place, way = chance.randrange(len(text)), chance.random()
    if way < 0.2:
        text = text[:place]
    elif way < 0.4:
        text = text[:place] + chr(chance.randrange(32, 127)) + text[place + 1 :]
    elif way < 0.6:
        text = "".join(letter.lower() if chance.random() < 0.5 else letter for letter in text)
    return text + chance.choice(["", "", " ", "x", "`a`", "TO x"])


# ---- running


def cases():
    for line in CASES.read_text().splitlines()[1:]:
        if line and not line.startswith("#"):
            question, _, answer = line.rpartition(" => ")
            if found := re.fullmatch(r'statement "(.*)"', question):
                question = f"statement {found[1].encode().hex() or '-'}"
            yield question, answer


def random_questions(count):
    chance = random.Random(17)
    for _ in range(count):
        text, words = random_text(chance), random_words(chance)
        yield f"statement {text.encode().hex() or '-'}", kind_of(text)
        yield "marks " + " ".join(words), transactions_of(words)


def main():
    parser = argparse.ArgumentParser(description="Compares the transactions of logs with cases and with a model.")
    programs.add_flags(parser)
    parser.add_argument("--count", type=int, default=20_000)
    arguments = programs.parsed(parser, "questions")
    asked = [*cases(), *random_questions(arguments.count)]
    return results.report(questions.compared(arguments.build.command("questions"), asked))


if __name__ == "__main__":
    sys.exit(main())
