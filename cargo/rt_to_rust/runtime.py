"""The runtime that programs and tests take: Rust's tests and programs need none."""

from rt_to_rust.allocators import is_allocator
from rt_to_rust.items import functions
from rt_to_rust.source import segments

MACROS = ("assert", "assert_eq", "assert_ne")


def parameters(source):
    """Parameters of the runtime, and arguments: `rt` and `&rt`."""
    openings = [index for index, token in enumerate(source.code) if token.text == "("]
    for opening in openings:
        for first, last in segments(source, opening, of_types=True):
            is_parameter = source.is_at(first, "rt", ":") or source.is_at(first, "_rt", ":")
            if is_parameter or source.texts(first, last + 1) in (["rt"], ["&", "rt"]):
                has_comma = source.is_at(last + 1, ",")
                yield source.code[first - 1].end, source.code[last + has_comma].end, ""


def asserts(source):
    """`assert!(rt; ..)`"""
    for macro in MACROS:
        for index in source.places(macro, "!", "("):
            if not source.is_at(index + 3, "rt", ";"):
                raise source.refusal(index, f"{macro}! without the runtime")
            yield source.span(index + 3, index + 4)


def made_texts(source):
    """`format!(in alloc; ..)?` and `vec![in alloc; ..]?`: Rust's macros abort where memory runs out."""
    for macro in ("format", "vec"):
        for index in source.places(macro, "!"):
            close, end = source.partner[index + 2], index + 3
            while source.code[end].text != ";" and end < close:
                end += 1
            if not source.is_at(index + 3, "in") or not is_allocator(source.texts(index + 4, end)):
                raise source.refusal(index, f"{macro}! without an allocator")
            yield source.span(index + 3, end)
            if source.is_at(close + 1, "?"):
                yield source.span(close + 1, close + 1)
            else:
                yield source.code[index].start, source.code[index].start, "Ok::<_, Error>("
                yield source.code[close].end, source.code[close].end, ")"


def law_statements(source):
    """Laws that a test states."""
    for index, token in enumerate(source.code):
        if not token.text.endswith("laws") or not source.is_at(index + 1, "::"):
            continue
        end = index
        while source.code[end].text != ";":
            end += 1
        if source.code[index - 1].text in ("{", ";", "}"):
            yield source.span(index, end)
        elif not source.is_at(index - 1, "::"):
            raise source.refusal(index, "a law in an expression")


def empty_tests(source):
    """Tests of which nothing is left."""
    for function in functions(source):
        if source.is_at(function.body, "{", "}") and source.is_at(function.first - 4, "#", "[", "test", "]"):
            yield source.with_docs(function.first - 4), source.code[function.body + 1].end, ""


def without_runtime(source):
    """The source without the runtime."""
    source = source.changed([*asserts(source), *made_texts(source), *law_statements(source)])
    source = source.changed(parameters(source))
    return source.changed(empty_tests(source))
