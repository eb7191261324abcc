"""A model of diffs of MySQL's JSON documents, applied: the paths, and what each operation does.

Values are those of `binary_json_model.py`. An operation does what MySQL's function does: JSON_REPLACE, JSON_INSERT for a member,
JSON_ARRAY_INSERT for an element, JSON_REMOVE. Where the function would change nothing, the diff is refused.
"""

import re

import binary_json_model as model
from binary_json_model import Members, Refused

NAME = re.compile(rb"[A-Za-z_$\x80-\xff][A-Za-z0-9_$\x80-\xff]*")
PLACE = re.compile(rb"\[(?:([0-9]+)|(last)(?:-([0-9]+))?)\]")
ESCAPED = re.compile(rb'\\(?:(["\\/bfnrt])|u00([0-7][0-9a-fA-F]))')
SHORTS = {b"b": b"\b", b"f": b"\f", b"n": b"\n", b"r": b"\r", b"t": b"\t"}
MOST_KEY_BYTES = 0xFFFF


class NotApplied(Exception):
    """A list that isn't applied: why, as the program names it."""


# ---- Paths


def legs_of(path):
    """The legs of a path: a name, or a place and whether it is counted from the end."""
    if path[:1] != b"$":
        raise NotApplied("Path(Root)")
    legs, at = [], 1
    while at < len(path):
        if path[at : at + 2] == b'."':
            name, at = quoted(path, at + 2)
            legs.append(name)
        elif path[at : at + 1] == b".":
            found = NAME.match(path, at + 1)
            if not found:
                raise NotApplied("Path(Name)")
            legs.append(found[0])
            at = found.end()
        elif path[at : at + 1] == b"[":
            found = PLACE.match(path, at)
            number = int(found[1] or found[3] or 0) if found else 1 << 32
            if number >= 1 << 32:
                raise NotApplied("Path(Place)")
            legs.append((number, found[2] is not None))
            at = found.end()
        else:
            raise NotApplied("Path(Leg)")
    return legs


def quoted(path, at):
    """A name in quotes, and the place behind it."""
    name = b""
    while path[at : at + 1] != b'"':
        if at >= len(path):
            raise NotApplied("Path(Quote)")
        if path[at : at + 1] == b"\\":
            found = ESCAPED.match(path, at)
            if not found:
                raise NotApplied("Path(Escape)")
            name += SHORTS.get(found[1], found[1]) if found[1] else bytes([int(found[2], 16)])
            at = found.end()
        else:
            name += path[at : at + 1]
            at += 1
    return name, at + 1


# ---- Changes


def parts_of(value, leg):
    """The keys and the values of what holds the value at a leg. An array has no keys."""
    if isinstance(leg, bytes):
        if not isinstance(value, Members):
            raise NotApplied("Change(NoObject)")
        return [key for key, _ in value.pairs], [member for _, member in value.pairs]
    if not isinstance(value, list):
        raise NotApplied("Change(NoArray)")
    return None, list(value)


def index_of(keys, values, leg):
    """The index of the value at a leg."""
    if keys is not None:
        if leg not in keys:
            raise NotApplied("Change(NoMember)")
        return keys.index(leg)
    number, is_from_end = leg
    if number >= len(values):
        raise NotApplied("Change(NoElement)")
    return len(values) - 1 - number if is_from_end else number


def whole_of(keys, values):
    return values if keys is None else Members(tuple(zip(keys, values)))


def changed(value, operation, legs, new):
    """The value with one of its parts changed. `new` is a list of the value that comes in."""
    if not legs:
        if operation != "replace":
            raise NotApplied("Change(Document)")
        return new[0]
    leg, *rest = legs
    keys, values = parts_of(value, leg)
    if rest or operation == "replace":
        index = index_of(keys, values, leg)
        values[index] = changed(values[index], operation, rest, new)
    elif operation == "remove":
        index = index_of(keys, values, leg)
        del values[index]
        if keys is not None:
            del keys[index]
    elif keys is None:
        number, is_from_end = leg
        values.insert(max(len(values) - 1 - number, 0) if is_from_end else number, new[0])
    else:
        if leg in keys:
            raise NotApplied("Change(MemberExists)")
        index = next((index for index, key in enumerate(keys) if (len(key), key) >= (len(leg), leg)), len(keys))
        keys.insert(index, leg)
        values.insert(index, new[0])
    return whole_of(keys, values)


def nesting(value):
    if isinstance(value, Members):
        return 1 + max((nesting(member) for _, member in value.pairs), default=0)
    return 1 + max(map(nesting, value), default=0) if isinstance(value, list) else 0


def step(value, operation, path, new):
    """The value after one diff."""
    legs = legs_of(path)
    after = changed(value, operation, legs, new)
    if operation == "insert" and isinstance(legs[-1], bytes) and len(legs[-1]) > MOST_KEY_BYTES:
        raise NotApplied("Change(Write(KeyTooLong))")
    if nesting(after) > model.MOST_NESTED:
        raise NotApplied("Change(Write(TooDeep))")
    return after


# ---- Lists


def next_diff(content, place):
    """What the diff at a place does, its path, a list of its value, and the place behind it."""
    try:
        if content[place] >= len(model.OPERATIONS):
            raise Refused("Operation", place)
        operation = model.OPERATIONS[content[place]]
        path, place = model.behind_length(content, place + 1)
        if operation == "remove":
            return operation, path, [], place
        whole, place = model.behind_length(content, place)
    except Refused as refused:
        raise NotApplied(f"Diff({refused.name})") from None
    try:
        return operation, path, [model.read(whole)], place
    except Refused as refused:
        raise NotApplied(f"Diff(Document(JsonError {{ refusal: {refused.name}, place: {refused.place} }}))") from None


def applied(value, content):
    """The value after all diffs of a list. Raises `NotApplied`."""
    place = 0
    while place < len(content):
        operation, path, new, place = next_diff(content, place)
        value = step(value, operation, path, new)
    return value


# ---- Lists of a server


def counted(content):
    """Bytes behind their length."""
    size = len(content)
    if size < 251:
        return bytes([size]) + content
    return b"\xfc" + size.to_bytes(2, "little") + content if size < 1 << 16 else b"\xfd" + size.to_bytes(3, "little") + content


def diff(operation, path, new=()):
    """A diff, as a server writes it."""
    return bytes([model.OPERATIONS.index(operation)]) + counted(path) + b"".join(counted(model.document(value)) for value in new)


def spelled(leg):
    """The text of a leg, as a server writes it."""
    if isinstance(leg, bytes):
        escapes = {ord('"'): b'\\"', ord("\\"): b"\\\\", 8: b"\\b", 12: b"\\f", 10: b"\\n", 13: b"\\r", 9: b"\\t"}
        if NAME.fullmatch(leg):
            return b"." + leg
        return b'."' + b"".join(escapes.get(byte) or (b"\\u%04x" % byte if byte < 32 else bytes([byte])) for byte in leg) + b'"'
    number, is_from_end = leg
    return b"[last" + (b"-%d" % number if number else b"") + b"]" if is_from_end else b"[%d]" % number
