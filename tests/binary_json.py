#!/usr/bin/env python3
"""Compares what the library reads of MySQL's binary JSON, and its text, with cases worked by hand and with a model.

Usage: binary_json.py FLAG [--count N] [--seed N]

FLAG is one of `programs.py`: its program answers questions, which `questions.rs` of the packages' `probe` lists. The cases are those of
tests/cases/documents.txt. The model is `binary_json_model.py`: random documents as a server writes them, N damaged ones (100,000
if it isn't stated), documents whose offsets name the same bytes again and again, 99 to 101 arrays within one another, offsets into
headers, the greatest counts, and lengths of up to six bytes; and lists of diffs that are applied, by `json_diff_model.py`. The
questions of each kind, and each 100,000 of damaged documents, have to be answered within a minute. The last line is `N passed, M
failed`; the exit status is 1 if something failed.
"""

import argparse
import random
import struct
import subprocess
import sys
import time

import binary_json_model as model
import cases
import json_diff_model as diff_model
import programs
import results
from binary_json_model import Double, Integer, Members, NoText, Opaque, Refused

CASES = cases.CASES / "documents.txt"
SECONDS = 60
DAMAGED_OF_A_PART = 100_000

KEYS = [b"", b"a", b"b", b"ab", b"key", "\u00e9".encode(), b"a\tb", b"k" * 300]
STRINGS = [b"", b"x", b'"\\/\b\f\n\r\t\x00\x1f\x7f', "\u20ac\U0001f600".encode(), b"s" * 127, b"s" * 128, b"s" * 20000, b"\xff", b"\xed\xa0\x80"]
DOUBLES = [0.0, -0.0, 1.0, 0.1, 1e15, 1e14, 123456789012345680.0, 1.5e-20, 1e-5, 1e-14, 1e-15, 1.25e-15, 9007199254740992.0, 1125899906842624.25, 2.0**-1017, 5e-324, 1.7976931348623157e308, 1e16, 12345678901234.5, 999999999999999.9, 1e22, 1e23, float("inf"), float("nan")]
INTEGERS = [0, 1, -1, 127, 128, -128, 32767, 32768, -32768, -32769, 65535, 65536, 2**31 - 1, 2**31, -(2**31), 2**32 - 1, 2**32, 2**63 - 1, -(2**63)]


# ---- Answers


def answer(content):
    """What is answered for a document."""
    try:
        return model.text(model.read(content))
    except Refused as refused:
        return f"refused {refused.name} {refused.place}"
    except NoText:
        return "no text"


def question(content):
    return f"document {content.hex() or '-'}"


# ---- Documents


def bits_of(number):
    return struct.unpack("<Q", struct.pack("<d", number))[0]


def random_double(rng):
    if rng.random() < 0.3:
        return Double(bits_of(rng.choice(DOUBLES)))
    if rng.random() < 0.5:
        return Double(bits_of(float(f"{rng.randrange(10 ** rng.randrange(1, 18))}e{rng.randrange(-25, 25)}")))
    return Double(rng.getrandbits(64))


def random_opaque(rng):
    column = rng.choice([7, 10, 11, 12, 246, 246, 13, 16, 252, 255])
    if column == model.DECIMAL:
        scale = rng.randrange(39)
        digits = "".join(rng.choice("0000123456789") for _ in range(rng.randrange(max(scale, 1), 82)))
        return model.decimal(rng.random() < 0.5, digits, scale)
    if column in model.TEMPORAL:
        return model.packed_time(column, rng.choice([0, -1, -(2**63), rng.getrandbits(64) - 2**63, rng.getrandbits(50), -rng.getrandbits(40)]))
    return Opaque(column, rng.randbytes(rng.choice([0, 1, 2, 3, 56, 57, 58, 114, 115, 200])))


def random_scalar(rng):
    return rng.choice(
        [
            lambda: rng.choice(model.LITERALS),
            lambda: model.signed(rng.choice(INTEGERS)),
            lambda: model.unsigned(abs(rng.choice(INTEGERS))),
            lambda: random_double(rng),
            lambda: rng.choice(STRINGS),
            lambda: random_opaque(rng),
        ]
    )()


def random_value(rng, depth):
    if depth == 0 or rng.random() < 0.4:
        return random_scalar(rng)
    values = [random_value(rng, depth - 1) for _ in range(rng.randrange(5))]
    if rng.random() < 0.5:
        return values
    return model.members((rng.choice(KEYS) + bytes([rng.randrange(97, 110)]), value) for value in values)


def damaged(rng, content):
    """A document with some bytes changed, left out or added."""
    content = bytearray(content)
    for _ in range(rng.randrange(1, 4)):
        place = rng.randrange(min(len(content), 60) if rng.random() < 0.7 else len(content)) if content else 0
        change = rng.random()
        if change < 0.6 and content:
            content[place] = rng.choice([rng.randrange(256), rng.randrange(16), 0, 255, content[place] ^ 1 << rng.randrange(8)])
        elif change < 0.8:
            del content[place : place + rng.randrange(1, 4)]
        else:
            content[place:place] = rng.randbytes(rng.randrange(1, 3))
    return bytes(content)


# ---- Documents that are built


def words_of(value):
    """The words of which the program builds a value."""
    if value is None or isinstance(value, bool):
        yield {None: "null", True: "true", False: "false"}[value]
    elif isinstance(value, Integer):
        yield f"{'i' if value.kind in model.SIGNED else 'u'}:{value.number}"
    elif isinstance(value, Double):
        yield f"d:{value.bits}"
    elif isinstance(value, bytes):
        yield f"s:{value.hex() or '-'}"
    elif isinstance(value, Opaque):
        yield f"o:{value.column}:{value.content.hex() or '-'}"
    elif isinstance(value, Members):
        yield "{"
        for key, member in value.pairs:
            yield f"k:{key.hex() or '-'}"
            yield from words_of(member)
        yield "}"
    else:
        yield "["
        for element in value:
            yield from words_of(element)
        yield "]"


def building(words):
    return f"built {','.join(words)}"


def is_built(value):
    """Whether the program builds such values: integers of the least width."""
    if isinstance(value, Members):
        return all(is_built(member) for _, member in value.pairs)
    if isinstance(value, list):
        return all(map(is_built, value))
    if isinstance(value, Integer):
        return value == (model.signed if value.kind in model.SIGNED else model.unsigned)(value.number)
    return True


def refused_members(pairs):
    """Why members are refused, in this order; None if they aren't."""
    before = None
    for key, _ in pairs:
        if len(key) > 0xFFFF:
            return "KeyTooLong"
        if before is not None and (len(before), before) >= (len(key), key):
            return "KeyOrder"
        before = key
    return None


def built(rng, values):
    """Questions of documents that are built, with their answers."""
    for value in values:
        if is_built(value):
            yield building(words_of(value)), model.document(value).hex()
    # Members in any order, equal keys, and keys of the greatest length and of one byte more.
    keys = [b"", b"a", b"b", b"aa", b"ab", b"b\0", b"\xff", b"k" * 0xFFFF, b"k" * 0x10000]
    for _ in range(2000):
        pairs = [(rng.choice(keys[:7]) if rng.random() < 0.98 else rng.choice(keys), None) for _ in range(rng.randrange(5))]
        if rng.random() < 0.5:
            pairs.sort(key=lambda pair: (len(pair[0]), pair[0]))
        why = refused_members(pairs)
        yield building(words_of(Members(pairs))), f"refused {why}" if why else model.document(Members(pairs)).hex()
    # 99 to 102 arrays and objects within one another.
    for depth in range(99, 103):
        for front, back in (("[", "]"), ("{,k:61", "}")):
            words = [front] * depth + ["u:7"] + [back] * depth
            value = Integer(6, 7)
            for _ in range(depth):
                value = [value] if front == "[" else Members([(b"a", value)])
            yield building(words), model.document(value).hex() if depth <= 100 else "refused TooDeep"
    # Arrays and objects about the greatest small size: of long values, of many short ones, and of integers in their entries.
    for size in range(65_520, 65_545):
        yield from ((building(words_of(value)), model.document(value).hex()) for value in about(size))


def rewritten(content):
    """What is answered for a document that is written anew: its value is read and written by the model."""
    try:
        return model.document(model.read(content)).hex()
    except Refused as refused:
        return f"refused {refused.name} {refused.place}"


def about(size):
    """Values whose small form has about this many bytes."""
    yield [b"s" * (size - 10)]
    yield [Integer(5, -3), Integer(6, 40_000), Integer(7, -40_000), Integer(8, 2**31), None, True, b"s" * (size - 40)]
    yield Members([(b"k", Integer(5, -1)), (b"key", b"s" * (size - 30))])
    yield [Integer(5, -1)] * (size // 3)
    yield [[b"s" * (size - 20)], Integer(5, -2), Integer(7, 2**30)]
    yield [[[b"s" * (size - 26)]], Members([(b"a", None)])]


# ---- Lists of diffs that are applied


def applying(document, content):
    return f"applied {document.hex() or '-'} {content.hex() or '-'}"


def applied(document, content):
    """What is answered for a document and a list of diffs."""
    try:
        return model.document(diff_model.applied(model.read(document), content)).hex()
    except diff_model.NotApplied as why:
        return f"refused {why}"


def random_legs(rng, value):
    """Legs that lead into a value, and at times beyond it."""
    while rng.random() < 0.85:
        if isinstance(value, Members) and rng.random() < 0.95:
            key, member = rng.choice(value.pairs) if value.pairs and rng.random() < 0.8 else (rng.choice(KEYS) + bytes([rng.randrange(97, 110)]), None)
            yield key
            value = member
        elif isinstance(value, list) or rng.random() < 0.1:
            size = len(value) if isinstance(value, list) else 1
            number, is_from_end = rng.randrange(size + 3), rng.random() < 0.2
            yield number, is_from_end
            value = value[-1 - number if is_from_end else number] if isinstance(value, list) and number < size else None
        else:
            return


def random_diff(rng, value):
    operation = rng.choice(model.OPERATIONS)
    path = b"$" + b"".join(map(diff_model.spelled, random_legs(rng, value)))
    if rng.random() < 0.05:
        path = damaged(rng, path)
    return diff_model.diff(operation, path, [] if operation == "remove" else [random_value(rng, rng.randrange(3))])


def random_list(rng, value):
    """Diffs, of which each leads into what those before it make."""
    content = b""
    for _ in range(rng.randrange(1, 5)):
        one = random_diff(rng, value)
        content += one
        try:
            value = diff_model.applied(value, one)
        except diff_model.NotApplied:
            if rng.random() < 0.7:
                break
    return content if rng.random() < 0.95 else damaged(rng, content)


def lists_by_hand():
    """Values, lists of diffs, and the values after."""
    number = model.signed
    members = Members(((b"a", number(1)), (b"b", [number(1), number(2)])))
    yield members, [("replace", b"$.b", [b"x" * 150])], Members(((b"a", number(1)), (b"b", b"x" * 150)))
    yield members, [("insert", b"$.aa", [None])], Members((*members.pairs, (b"aa", None)))
    yield members, [("insert", b"$.b[0]", [True])], Members((members.pairs[0], (b"b", [True, number(1), number(2)])))
    yield members, [("insert", b"$.b[7]", [True])], Members((members.pairs[0], (b"b", [number(1), number(2), True])))
    yield members, [("insert", b"$.b[last]", [True])], Members((members.pairs[0], (b"b", [number(1), True, number(2)])))
    yield members, [("remove", b"$.b[last-1]")], Members((members.pairs[0], (b"b", [number(2)])))
    yield members, [("remove", b"$.b"), ("remove", b"$.a")], Members(())
    yield members, [("remove", b"$.b[0]"), ("replace", b"$.b[0]", [None])], Members((members.pairs[0], (b"b", [None])))
    yield Members(((b'na"me', None),)), [("replace", b'$."na\\"me"', [True])], Members(((b'na"me', True),))
    yield Members(((b"\1", None),)), [("replace", b'$."\\u0001"', [True])], Members(((b"\1", True),))
    yield [number(5)], [("replace", b"$", [None])], None


def applied_lists(rng, values):
    """Questions of documents and lists of diffs, with their answers."""
    for value, found, after in lists_by_hand():
        content = b"".join(diff_model.diff(*one) for one in found)
        yield applying(model.document(value), content), model.document(after).hex()
    for path in (b"", b"a", b"$.", b"$a", b"$.1", b'$."a', b'$."a\\', b'$."\\x"', b'$."\\u0080"', b'$."\\u00zz"', b"$[", b"$[]", b"$[x]", b"$[1", b"$[4294967295]", b"$[4294967296]", b"$[007]", b"$[last", b"$[last-]", b"$[last-1]", b"$[last-4294967296]", b"$[las]", b"$.*", b"$**.a", b"$ .a", b"$.a-b", b"$[1 to 2]", b"$.a[0]b", b'$."a"b', b'$.""', "$.\u00e9".encode()):
        for operation in model.OPERATIONS:
            for value in ([None] * 3, Members(((b"", None), (b"a", [None]))), None):
                document, content = model.document(value), diff_model.diff(operation, path, [] if operation == "remove" else [True])
                yield applying(document, content), applied(document, content)
    # Names of the greatest length and of one byte more, and 99 to 102 arrays and objects within one another.
    for size in (0xFFFF, 0x10000):
        document, content = model.document(Members(())), diff_model.diff("insert", b"$." + b"k" * size, [None])
        yield applying(document, content), applied(document, content)
    for depth in (49, 50, 51, 52):
        value, inner = [], []
        for _ in range(depth - 1):
            value = [value]
        for _ in range(49):
            inner = Members(((b"a", inner),))
        document, content = model.document(value), diff_model.diff("insert", b"$" + b"[0]" * depth, [inner])
        yield applying(document, content), applied(document, content)
    containers = [value for value in values if isinstance(value, (list, Members))]
    for _ in range(20_000):
        value = rng.choice(containers if rng.random() < 0.95 else values)
        document = model.document(value)
        if len(document) < 5000:
            content = random_list(rng, value)
            yield applying(document, content), applied(document, content)
    # Documents that no server writes: members in any order, and equal keys.
    for _ in range(5000):
        value = Members(tuple((rng.choice([b"a", b"b", b"c", b"bb"]), rng.choice([None, [True]])) for _ in range(rng.randrange(6))))
        document, content = model.document(value), random_list(rng, value)
        yield applying(document, content), applied(document, content)


# ---- Crafted documents


def array(values, size=None, width=2):
    """An array by its entries, pairs of a type and what stands in the entry, and bytes behind them."""
    entries, body = values
    content = b"".join(bytes([kind]) + number.to_bytes(width, "little") for kind, number in entries) + body
    size = 2 * width + len(content) if size is None else size
    return len(entries).to_bytes(width, "little") + size.to_bytes(width, "little") + content


def nested(depth):
    """So many arrays within one another."""
    content = array(([], b""))
    for _ in range(depth - 1):
        content = array(([(2, 7)], content))
    return b"\2" + content


def doubled(depth):
    """Arrays of two entries, both of which name the next one."""
    content = array(([], b""))
    for _ in range(depth - 1):
        content = array(([(2, 10), (2, 10)], content))
    return b"\2" + content


def crafted():
    """Documents that no server writes."""
    yield b""
    yield from (bytes([kind]) for kind in range(256))
    yield from (nested(depth) for depth in (1, 2, 99, 100, 101, 150))
    yield from (doubled(depth) for depth in range(1, 40))
    yield from (doubled(depth) + bytes(spare) for depth in range(2, 9) for spare in (1, 10, 100, 1000))
    # Spare bytes, one less than what is read, and as many.
    for depth in range(2, 8):
        cost = 10 * (2 ** (depth - 1) - 1) + 4 * 2 ** (depth - 1)
        content = doubled(depth)
        yield from (content + bytes(max(cost + extra + 1 - len(content), 0)) for extra in (-1, 0, 1))
    # An array that names itself, its header, or bytes beyond its size.
    for width, large in ((2, 0), (4, 1)):
        header = 2 * width + width + 1
        for kind in (0, 1, 2, 3, 11, 12, 15, 13):
            for offset in (0, 1, width, header - 1, header, header + 1, header + 2, 0xFFFF):
                yield bytes([2 + large]) + array(([(kind, offset)], b"\1a"), width=width)
                yield bytes([2 + large]) + array(([(kind, offset)], b"\1a"), size=header + 1, width=width)
        # The greatest counts and sizes, and sizes from 0 on.
        top = 256**width - 1
        for kind in (large, 2 + large):
            for count in (0, 1, 2, top // 11, top):
                for size in (0, 2 * width - 1, 2 * width, header, top):
                    yield bytes([kind]) + count.to_bytes(width, "little") + size.to_bytes(width, "little") + bytes(40)
    # Keys: empty ones at the end, in the header, beyond the end, and shared ones.
    for offset in (0, 10, 11, 12, 13, 14):
        for length in (0, 1, 2, 3, 0xFFFF):
            content = (1).to_bytes(2, "little") + (13).to_bytes(2, "little") + offset.to_bytes(2, "little") + length.to_bytes(2, "little") + b"\4\1\0ab"
            yield b"\0" + content
            yield b"\0" + content + bytes(3)
    # Lengths of one to six bytes, in any spelling, and of 2^32 and more.
    for kind, front in ((12, b""), (15, b"\x0d")):
        for length in (b"\0", b"\1", b"\x81\0", b"\x81\x80\x80\x80\0", b"\x81\x80\x80\x80\x80\0", b"\x80", b"\xff\xff\xff\xff\x0f", b"\xff\xff\xff\xff\x10", b"\xff\xff\xff\xff\x7f", b"\x80\x80\x80\x80\x10", b"\xff" * 5, b"\xff" * 6):
            yield from (bytes([kind]) + front + length + rest for rest in (b"", b"x", b"xyz"))
    # Decimal numbers of each precision and scale, and temporal values of other lengths.
    for precision in range(0, 85):
        for scale in (0, 1, 9, 37, 38, 39, 81, precision):
            for filling in (b"\x80", b"\xff", b"\x7f", b"\0"):
                content = bytes([precision, scale]) + filling + (b"\xff" if filling == b"\x7f" else b"\0") * (size_of(precision, scale) - 1)
                yield b"\x0f\xf6" + model.variable(len(content)) + content
    yield from (b"\x0f" + bytes([column, length]) + bytes(length) for column in (7, 10, 11, 12, 13) for length in (0, 7, 8, 9))
    # Literals in entries and by themselves.
    yield from (b"\4" + bytes([number]) for number in range(5))
    yield from (b"\2" + array(([(4, number)], b"")) for number in (0, 1, 2, 3, 0x102, 0x100))
    # Integers that stand in an entry in small arrays and in large ones.
    yield from (bytes([2 + large]) + array(([(kind, 0xFFFE)], b""), width=2 + 2 * large) for large in (0, 1) for kind in range(4, 12))


def size_of(precision, scale):
    whole = max(precision - scale, 0)
    return max(sum(model.GROUP_BYTES[size] for size in (whole % 9, scale % 9)) + 4 * (whole // 9 + scale // 9), 1)


def written(rng, count):
    """Documents as a server writes them, with their values."""
    for index in range(count):
        yield random_value(rng, rng.randrange(5))
    # Large ones: many values, and long ones.
    yield [model.signed(number) for number in range(30000)]
    yield [b"s" * 66000, [None], members_of(3)]
    yield members_of(20000)
    yield [[b"x" * 40000], [b"y" * 40000], Integer(7, -5)]


def members_of(count):
    return model.members((str(number).encode(), model.signed(number)) for number in range(count))


# ---- The comparison


def hand_made():
    """The cases of the file, worked by hand: what is asked, and the answer."""
    names = {}
    for number, line in cases.whole_lines(CASES)[1:]:
        name, head, rest = line.split(": ", 2)
        content, wanted = rest.split(cases.ARROW)
        yield f"{head} {cases.bytes_of(content, names).hex() or '-'}", wanted


def compared(name, words, asked):
    """What is wrong with the answers to pairs of a question and the answer."""
    asked = list(asked)
    content = "".join(f"{line}\n" for line, _ in asked).encode()
    began = time.monotonic()
    finished = subprocess.run(words, input=content, stdout=subprocess.PIPE, timeout=SECONDS * 5)
    took = time.monotonic() - began
    found = finished.stdout.decode().split("\n")[:-1]
    is_whole = finished.returncode == 0 and len(found) == len(asked)
    yield None if is_whole else f"{name}: {len(found)} answers to {len(asked)}, status {finished.returncode}"
    yield None if took <= SECONDS else f"{name}: {took:.0f} seconds"
    for (line, wanted), answered in zip(asked, found):
        yield None if answered == wanted else f"{name}: {line[:400]}: {answered[:300]}, not {wanted[:300]}"


def all_failures(words, count, seed):
    rng = random.Random(seed)
    values = list(written(rng, 3000))
    documents = [model.document(value) for value in values]
    yield from compared("worked by hand", words, hand_made())
    yield from compared("written", words, zip(map(question, documents), (answer_of(value) for value in values)))
    yield from compared("built", words, built(rng, values))
    yield from compared("crafted", words, ((question(content), answer(content)) for content in crafted()))
    yield from compared("applied", words, applied_lists(rng, values))
    contents = [*documents, *crafted()]
    yield from compared("rewritten", words, ((f"rewritten {content.hex() or '-'}", rewritten(content)) for content in contents))
    short = [content for content in documents if len(content) < 600]
    for first in range(0, count, DAMAGED_OF_A_PART):
        contents = [damaged(rng, rng.choice(short)) for _ in range(min(DAMAGED_OF_A_PART, count - first))]
        yield from compared("damaged", words, ((question(content), answer(content)) for content in contents))


def answer_of(value):
    """What is answered for a document that was made of a value."""
    try:
        return model.text(value)
    except NoText:
        return "no text"


def main():
    parser = argparse.ArgumentParser(description="Compares documents of MySQL's binary JSON with a model.")
    programs.add_flags(parser)
    parser.add_argument("--count", type=int, default=100_000, help="how many damaged documents")
    parser.add_argument("--seed", type=int, default=1)
    arguments = programs.parsed(parser, "questions")
    return results.report(all_failures(arguments.build.command("questions"), arguments.count, arguments.seed))


if __name__ == "__main__":
    sys.exit(main())
