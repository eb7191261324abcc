"""Allocators go: Rust's own is used everywhere."""

from rt_to_rust.source import OPENING, segments

PARAMETERS = [("alloc", ":", "Global"), ("_alloc", ":", "Global")]

# Expressions of an allocator; `*` stands for the path of a field.
EXPRESSIONS = [("alloc",), ("_alloc",), ("self", ".", "alloc"), ("rt", ".", "alloc", "(", ")")]

# Of a field that other modules of its crate see.
SEEN_IN_CRATE = ("pub", "(", "crate", ")")

WORDS = ("alloc", "_alloc", "Global", "allocator")


def is_allocator(texts):
    """Whether a parameter, a field or an argument is an allocator."""
    texts = tuple(texts)
    if texts[:4] == SEEN_IN_CRATE:
        texts = texts[4:]
    return (
        texts in PARAMETERS
        or texts in EXPRESSIONS
        or (texts[:1] == ("*",) and texts[-3:] == ("allocator", "(", ")"))
    )


def group_without(source, opening):
    """The changes that take allocators out of one bracketed group."""
    parts = segments(source, opening)
    for first, last in parts:
        if not is_allocator(source.texts(first, last + 1)):
            continue
        start = source.code[first - 1].end
        has_comma = source.is_at(last + 1, ",")
        yield start, source.code[last + has_comma].end, ""


def bindings(source):
    """`let alloc = ..;`"""
    for index in source.places("let", "alloc", "="):
        end = index
        while source.code[end].text != ";":
            end += 1
        if not is_allocator(source.texts(index + 3, end)):
            raise source.refusal(index, "an allocator of a form that isn't known")
        yield source.span(index, end)


def lone_values(source):
    """`let (a) = (b);`: what is left of a pair with an allocator."""
    for index in source.places("let", "("):
        close = source.partner[index + 1]
        if close != index + 3 or not source.is_at(close + 1, "=", "("):
            continue
        end = source.partner[close + 2]
        if source.is_at(end + 1, ";"):
            for bracket in (index + 1, close, close + 2, end):
                yield source.span(bracket, bracket)


def without_allocators(source):
    """The source without allocators: parameters, fields, arguments, bindings."""
    source = source.changed(bindings(source))
    # Of nested groups the inner ones hold the allocators themselves, so no change is in another.
    groups = [index for index, token in enumerate(source.code) if token.text in OPENING]
    source = source.changed(change for opening in groups for change in group_without(source, opening))
    source = source.changed(lone_values(source))
    for word in WORDS:
        for index in source.places(word):
            raise source.refusal(index, f"`{word}` in a place that isn't known")
    return source
