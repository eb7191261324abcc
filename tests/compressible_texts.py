"""Random texts that compress in different ways."""

WORDS = [b"apple", b"bridge", b"cloud", b"door", b"engine", b"forest", b"garden", b"harbour"]

# How far back copies begin, at the most.
REACH = 32_768


def random_text(rng, longest):
    """Bytes of a few kinds, fewer than `longest`: random ones, words, runs, and copies from far back."""
    text, wanted = bytearray(), int(longest ** rng.random())
    alphabet = bytes(rng.randrange(256) for _ in range(rng.choice([1, 2, 5, 20, 256])))
    while len(text) < wanted:
        kind, count = rng.randrange(4), rng.randrange(1, 400)
        if kind == 0:
            text += bytes(rng.choice(alphabet) for _ in range(count))
        elif kind == 1:
            text += bytes([rng.choice(alphabet)]) * count
        elif kind == 2 and text:
            start = rng.randrange(max(0, len(text) - REACH), len(text))
            text += text[start : start + count]
        else:
            text += rng.randbytes(count % 40)
    return bytes(text)


def statements(rng, length):
    """Statements that insert random values."""
    rows, text = [b"(%d,'%s','%s',%d)" % (rng.randrange(10**6), rng.randbytes(4).hex().encode(), rng.choice(WORDS), index) for index in range(500)], bytearray()
    while len(text) < length:
        text += b"INSERT INTO t (id, code, word, number) VALUES " + b",".join(rng.choices(rows, k=40)) + b";"
    return bytes(text[:length])


def rows(rng, length):
    """Bytes of row images: numbers and short texts."""
    parts, text = [rng.randrange(10**6).to_bytes(4, "little") + bytes([len(word := rng.choice(WORDS))]) + word for _ in range(500)], bytearray()
    while len(text) < length:
        text += b"\x00" + b"".join(rng.choices(parts, k=40))
    return bytes(text[:length])


def random_bytes(rng, length):
    return rng.randbytes(length)


def repetitive(rng, length):
    """A short piece again and again, with a byte changed now and then."""
    piece = rng.randbytes(rng.randrange(1, 50))
    text = bytearray(piece * (length // len(piece) + 1))[:length]
    for _ in range(length // 5_000):
        text[rng.randrange(length)] = rng.randrange(256)
    return bytes(text)


# Texts of a length, by kind.
TEXTS = [statements, rows, random_bytes, repetitive]
