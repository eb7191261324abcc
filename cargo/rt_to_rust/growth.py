"""Vectors and texts that grow: Rust's `push` aborts where memory runs out, the toolchain's returns an error. A growth
that was proved to have room (`.unwrap()`) is Rust's own call; any other one is that of the crate's `TryGrow` or
`TryGrowText`."""

from rt_to_rust.kinds import kind_of, receiver

# The toolchain's calls that may be refused, and what stands for them; those of vectors, but for `TEXT_CALLS`.
CALLS = {
    "push": "try_push",
    "insert": "try_insert",
    "resize": "try_resize",
    "extend_from_slice": "try_extend_from_slice",
    "reserve": "try_reserve",
    "reserve_exact": "try_reserve_exact",
    "push_str": "try_push_str",
}
TEXT_CALLS = ("push_str",)
# The maps, and their calls that may be refused.
MAPS, MAP_CALLS = ("BTreeMap", "IndexMap"), ("insert", "sort_by")
# The call of texts that has the name of one of vectors.
PUSH, PUSH_CHARACTER = "push", "try_push_char"
# Calls that make a vector or text with memory, and the functions of the library's module for memory in their place.
CONSTRUCTORS = {
    ("Vec", "with_capacity"): "vec_with_capacity",
    ("Vec", "from_slice"): "vec_from_slice",
    ("String", "from_str"): "string_from",
}


def growing_calls(source):
    """Calls of vectors and texts that grow."""
    for index, token in enumerate(source.code):
        if token.text not in CALLS or not source.is_at(index - 1, ".") or not source.is_at(index + 1, "("):
            continue
        if not grows(source, index):
            continue
        end = source.partner[index + 1]
        if source.is_at(end + 1, ".", "unwrap", "(", ")"):
            yield source.span(end + 1, end + 4)
        elif token.text == PUSH and is_text(source, index):
            yield source.span(index, index, PUSH_CHARACTER)
        else:
            yield source.span(index, index, CALLS[token.text])


def grows(source, index):
    """Whether this call's receiver is a vector or a text, and not a type of the crates with a call of that name."""
    if source.code[index].text == PUSH and is_text(source, index):
        return True
    return kind_of(source, index - 1) == ("String" if source.code[index].text in TEXT_CALLS else "Vec")


def is_text(source, index):
    """Whether this call's receiver is a text."""
    return kind_of(source, index - 1) == "String"


def constructors(source):
    """Vectors and texts that are made with memory."""
    for (kind, call), name in CONSTRUCTORS.items():
        for index in source.places(kind, "::", call, "("):
            yield source.span(index, index + 2, name)


def copied(source):
    """Vectors of the items of a slice, which are made with memory."""
    for index in source.places(".", "to_vec", "("):
        first = receiver(source, index)
        close = source.partner[index + 2]
        yield source.span(first, close, f"vec_from_slice({source.between(first, index - 1)})")


def maps(source):
    """Maps that grow or are sorted: Rust has no call of theirs that returns an error where memory runs out."""
    for call in MAP_CALLS:
        for index in source.places(".", call, "("):
            close = source.partner[index + 2]
            if kind_of(source, index) not in MAPS:
                continue
            if not source.is_at(close + 1, "?"):
                raise source.refusal(index, "a map's growth whose refusal is kept")
            yield source.span(close + 1, close + 1)


def formatted(source):
    """Texts with their arguments, which are made with memory."""
    for index in source.places("format", "!", "(", "in"):
        arguments = index
        while source.code[arguments].text != ";":
            arguments += 1
        close = source.partner[index + 2]
        yield source.span(index, arguments, "try_format(format_args!(")
        yield source.span(close, close, "))")


def filled(source):
    """Vectors of so many copies of a value, which are made with memory."""
    for index in source.places("vec", "!", "[", "in"):
        value = index
        while source.code[value].text != ";":
            value += 1
        count = value + 1
        while source.code[count].text != ";":
            count += 1
        close = source.partner[index + 2]
        yield source.span(index, value, "vec_filled(")
        yield source.span(count, count, ",")
        yield source.span(close, close, ")")


def collected(source):
    """Vectors of the items of an iterator, which are made with memory."""
    for index in source.places(".", "collect", "("):
        yield source.span(index + 1, index + 1, "try_collect_vec")


def failures(source):
    """A failed growth holds no value: conversions of its error to `AllocError` are none."""
    for index in source.places(".", "map_err", "(", "AllocError", "::", "from", ")"):
        yield source.span(index, index + 6)
    for index in source.places("AllocError", "::", "from", "("):
        close = source.partner[index + 3]
        yield source.span(index, index + 3)
        yield source.span(close, close)


def kept_values(source):
    """Conversions of the error of a failed growth that holds the value."""
    for index in source.places("From", "<", "AllocFailed", "<"):
        first, opening = index, index
        while source.code[first].text != "impl":
            first -= 1
        while source.code[opening].text != "{":
            opening += 1
        yield source.span(first, source.partner[opening])


def grown(source):
    """The source with growth that may be refused."""
    source = source.changed(kept_values(source))
    return source.changed([*growing_calls(source), *maps(source), *copied(source), *constructors(source), *formatted(source), *filled(source), *collected(source), *failures(source)])
