"""Failures of readers and writers. In the packages they have the device's `io::Error`, and an interrupted read or write
is tried again; the modules of `crates.BY_HAND` do that, and here is what else of the sources knows of it."""

from rt_to_rust.items import after_generics, block_at, functions
from rt_to_rust.source import segments

# The variants of `Error` that say that a device failed.
VARIANTS = ("Reader", "ReaderInFrame", "Writer")

FIELD = "(#[source] binlog_ends::DeviceError)"

# A device's error in a test, in which any is equal to any other.
ANY = "std::io::ErrorKind::Other.into()"

# Tests that an interruption is a failure, and so not of the packages.
LEFT_OUT = [
    "an_interruption_is_a_failure",
    "too_many_interruptions_in_a_row_are_a_failure",
    "too_many_interruptions_of_a_writer_are_a_failure",
]

OTHER = ["ErrorKind", "::", "Other"]
INTERRUPTED = ["ErrorKind", "::", "Interrupted"]


def without_copy(source, enum):
    """The change that takes `Copy` out of the derive in front of an enumeration."""
    index = enum - 1
    while source.code[index].text in ("pub", ")"):
        index = source.partner.get(index, index) - 1
    while source.is_at(index, "]"):
        opening = source.partner[index]
        for place in range(opening, index):
            if source.is_at(opening + 1, "derive") and source.is_at(place, ",", "Copy"):
                yield source.span(place, place + 1)
        index = opening - 2


def declarations(source):
    """The variants of `Error`, that of a buffer which a reader filled in part, and what has an `Error`."""
    for enum in source.places("enum"):
        body = after_generics(source, enum + 2)
        for first, last in segments(source, body, of_types=True):
            name = source.code[last].text
            if source.is_at(enum, "enum", "Error") and name in VARIANTS:
                yield source.span(last, last, name + FIELD)
                yield from without_copy(source, enum)
            elif source.is_at(last - 3, "Failed", "(", "usize", ")"):
                yield source.span(last - 1, last - 1, "usize, Failed")
                yield from without_copy(source, enum)
            elif source.is_at(last - 3, "Event", "(", "EventError", ")"):
                yield from without_copy(source, enum)


def arm_end(source, index):
    """The index behind the expression of an arm that begins here."""
    if source.is_at(index, "{"):
        return source.partner[index] + 1
    while source.code[index].text not in (",", "}"):
        index = source.partner.get(index, index) + 1
    return index


def arms(source):
    """The arms of a failure: the changes of the pattern, the index at which the expression begins, and how it calls the
    error."""
    for index in source.places("Err", "(", "Failed", ")", "=>"):
        yield (index + 2, index + 2, "failed"), index + 5, "failed"
    for index in source.places("Filled", "::", "Failed", "("):
        close = source.partner[index + 3]
        if source.is_at(close + 1, "=>"):
            text = source.between(index + 4, close - 1)
            yield (index + 4, close - 1, f"{text}, failed"), close + 2, "failed"
    for index in source.places("Err", "(", "_", ")", "=>", "Err", "(", "Error", "::"):
        if source.code[index + 9].text in VARIANTS:
            yield (index + 2, index + 2, "error"), index + 5, "error"
    for index in source.places("Err", "(", "Error", "::"):
        variant = source.code[index + 4].text
        if variant in VARIANTS and source.is_at(index + 5, ")", "=>"):
            yield (index + 4, index + 4, f"{variant}(error)"), index + 7, "error"


def in_arms(source):
    """The changes in arms of failures, and the places of the variants that they have."""
    changes, known = [], set()
    for (first, last, text), start, name in arms(source):
        end, is_used = arm_end(source, start), False
        known.add(first - 2)
        for index in range(start, end):
            if source.is_at(index, "Error", "::") and source.code[index + 2].text in VARIANTS:
                changes.append(source.span(index + 2, index + 2, f"{source.code[index + 2].text}({name}.into())"))
                known.add(index)
                is_used = True
            elif source.is_at(index, "Filled", "::", "Failed", "("):
                close = source.partner[index + 3]
                changes.append(source.span(close, close, f", {name})"))
                is_used = True
        changes.append(source.span(first, last, text if is_used else text.replace(name, "_")))
    return changes, known


def flushes(source):
    """`if CALL.is_err() { return Err(Error::Writer); }`"""
    changes, known = [], set()
    for index in source.places(".", "is_err", "(", ")", "{", "return", "Err", "(", "Error", "::"):
        if source.code[index + 10].text not in VARIANTS:
            continue
        start = index
        while source.code[start - 1].text != "if":
            start -= 1
            if source.code[start].text in ("{", ";", "||", "&&"):
                raise source.refusal(index, "a failure of a form that isn't known")
        call = source.between(start, index - 1)
        variant = index + 10
        changes.append(source.span(start, index + 3, f"let Err(failed) = {call}"))
        changes.append(source.span(variant, variant, f"{source.code[variant].text}(failed.into())"))
        known.add(index + 8)
    return changes, known


def others(source, known, is_test):
    """The variants in patterns, and in what tests compare with."""
    for index in source.places("Error", "::"):
        name = source.code[index + 2].text
        if name not in VARIANTS or index in known:
            continue
        before, behind = source.code[index - 1].text, source.code[index + 3].text
        is_closure = source.is_at(index - 3, "|", "_", "|")
        if not is_closure and ("|" in (before, behind) or behind == "=>"):
            yield source.span(index + 2, index + 2, f"{name}(_)")
        elif is_test:
            yield source.span(index + 2, index + 2, f"{name}({ANY})")
        else:
            raise source.refusal(index, "a failure whose device isn't known")


def of_tests(source):
    """What tests compare a failure with, and devices that are interrupted where they have to fail."""
    for index in source.places("Err", "(", "Failed", ")"):
        if not source.is_at(index + 4, "=>"):
            yield source.span(index + 2, index + 2, ANY)
    for index in source.places("[", *OTHER, ",", *INTERRUPTED, "]"):
        yield source.span(index + 4, index + 7)
    for index in source.places("Err", "(", *INTERRUPTED, ".", "into", "(", ")"):
        yield source.span(index + 4, index + 4, "Other")
    # The kind with which a device that a test makes is to fail.
    for index in source.places(",", *INTERRUPTED, ")"):
        yield source.span(index + 3, index + 3, "Other")


def without_left_out(source, used):
    """The source without the tests of interruptions, and without what they alone call. Adds to `used` those that it
    found."""
    changes = []
    for function in functions(source):
        name = source.code[function.name].text
        if name in LEFT_OUT and source.is_at(function.first - 4, "#", "[", "test", "]"):
            used.add(name)
            changes.append(whole(source, function, function.first - 4))
    if not changes:
        return source
    source = source.changed(changes)
    return source.changed(
        whole(source, function, function.first)
        for function in functions(source)
        if source.is_at(function.first, "fn") and source.code[function.first - 1].text in (";", "}") and not is_called(source, function)
    )


def is_called(source, function):
    """Whether a function of a module is called; one of a block may be called anywhere."""
    calls = source.places(source.code[function.name].text, "(")
    return block_at(source, function.name) is not None or any(call != function.name for call in calls)


def whole(source, function, first):
    """The change that takes out a function, which begins with this index."""
    return source.with_docs(first), source.code[source.partner[function.body]].end, ""


def tried_again(source):
    """`Counted::new(Retrying::new(DEVICE))`: `Counted` tries again by itself here, and `Retrying` costs time."""
    for index in source.places("Counted", "::", "new", "(", "Retrying", "::", "new", "("):
        close = source.partner[index + 7]
        yield source.span(index + 4, index + 7)
        yield source.span(close, close)


def cloned(source):
    """`Err(*error)` and `error: *error`: an error with a device's isn't `Copy`."""
    for before in (("Err", "("), ("error", ":")):
        for index in source.places(*before, "*", "error"):
            yield source.span(index + 2, index + 3, "Clone::clone(error)")


def with_devices(source, is_test, used):
    """The source in which failures have the device's error."""
    if is_test:
        source = without_left_out(source, used)
        source = source.changed(of_tests(source))
    source = source.changed(declarations(source))
    in_arm, known = in_arms(source)
    flushed, more = flushes(source)
    changes = [*in_arm, *flushed, *others(source, known | more, is_test), *cloned(source)]
    return source.changed(changes)
