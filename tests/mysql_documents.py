"""Documents of MySQL's type JSON: the server's text for them, as values that can be compared; and lists of diffs.

An object is a dictionary, an array a list, a number a `Decimal`, and a value that is none of JSON's, such as a date, is the string
that the server prints for it.
"""

import json
import re
from decimal import Decimal

STEP = re.compile(r'\.(?:"((?:[^"\\]|\\.)*)"|([^.\[]+))|\[(\d+)\]')


def of_text(text, strict=True):
    """The document of the server's text; if it isn't strict, the text may have control characters."""
    return json.loads(text, strict=strict, parse_int=Decimal, parse_float=Decimal)


class Number(float):
    """A number of a line of JSON, by its text."""

    def __init__(self, text):
        self.text = text


def of_json(found):
    """The document of a value of a line of JSON."""
    if isinstance(found, list):
        return list(map(of_json, found))
    if isinstance(found, dict):
        return {key: of_json(member) for key, member in found.items()}
    if isinstance(found, Number):
        return Decimal(found.text)
    return Decimal(found) if type(found) is int else found


def is_same(found, wanted):
    """Whether a document is the one of the server's text."""
    if isinstance(found, list) and isinstance(wanted, list):
        return len(found) == len(wanted) and all(map(is_same, found, wanted))
    if isinstance(found, dict) and isinstance(wanted, dict):
        return list(found) == list(wanted) and all(is_same(found[key], wanted[key]) for key in found)
    return type(found) is type(wanted) and found == wanted


# ---- Lists of diffs


def diffs(found):
    """The diffs of a list of a line: what is done, the steps of the path, and the document, None where something is removed."""
    return [(diff["op"], steps(diff["path"]), diff.get("value")) for diff in found]


def steps(path):
    """The keys and indexes of a path, which begins with `$`."""
    found = []
    for quoted, plain, index in STEP.findall(path[1:]):
        found.append(int(index) if index else json.loads(f'"{quoted}"') if quoted else plain)
    return found


def changed(document, found):
    """The document after the diffs of a list."""
    root = [document]
    for operation, path, new in found:
        *way, last = [0, *path]
        parent = root
        for step in way:
            parent = parent[step]
        if operation == "remove":
            del parent[last]
        elif operation == "insert" and isinstance(parent, list):
            parent.insert(last, new)
        else:
            parent[last] = new
    return sorted_keys(root[0])


def sorted_keys(document):
    """The document with its keys in the order in which the server keeps them: by length, then by their bytes."""
    if isinstance(document, list):
        return [sorted_keys(item) for item in document]
    if isinstance(document, dict):
        keys = sorted(document, key=lambda key: (len(key.encode()), key.encode()))
        return {key: sorted_keys(document[key]) for key in keys}
    return document
