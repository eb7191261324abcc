"""Bounds, derives, labels and signatures that Rust has no use for, or writes otherwise."""

from rt_to_rust.items import function_at
from rt_to_rust.source import segments

LOOPS = ("for", "while", "loop")

CLONE = "fn clone ( & self ) -> Result < Self , AllocError > { Ok (".split()

FORMATTER = "< W : fmt :: Write > ( & self , f : & mut fmt :: Formatter < W >".split()


def drop_bounds(source):
    """Any value may be dropped."""
    for index in source.places("Drop"):
        before, after = source.code[index - 1].text, source.code[index + 1].text
        if before == "+":
            yield source.span(index - 1, index)
        elif source.is_at(index - 3, "where") and after == ",":
            is_only = source.is_at(index + 2, "{")
            yield source.span(index - 3 if is_only else index - 2, index + 1)
        elif before == ":" and after in (",", ">", "{"):
            yield source.span(index - 1, index)
        elif before == ":" and after == "+":
            yield source.span(index, index + 1)


def drop_derives(source):
    """The derive of `Drop`."""
    for index in source.places("derive", "("):
        parts = segments(source, index + 1)
        kept = [source.between(first, last) for first, last in parts if not source.is_at(first, "Drop")]
        if len(kept) == len(parts):
            continue
        if kept:
            yield source.span(index + 1, source.partner[index + 1], f"({', '.join(kept)})")
        else:
            yield source.span(index - 2, source.partner[index - 1])


def drop_impls(source):
    """An `impl` of `Drop` that drops parts of the value, as Rust does by itself."""
    for index in source.places("impl", "Drop", "for"):
        body = next(place for place in range(index, len(source.code)) if source.is_at(place, "{"))
        end = source.partner[body]
        for call in range(body, end):
            is_call = source.is_at(call + 1, "(") and source.code[call].kind == "word" and not source.is_at(call - 1, "::")
            if is_call and not (source.is_at(call, "drop") or source.is_at(call - 1, "fn")):
                raise source.refusal(call, "an `impl` of `Drop` that does more than dropping parts")
        yield source.span(index, end)


def formatters(source):
    """A formatter over any writer is Rust's own."""
    for index in source.places(*FORMATTER):
        yield source.span(index, index + len(FORMATTER) - 1, "(&self, f: &mut fmt::Formatter<'_>")
    # A method of a trait that isn't imported, as its name is that of ours.
    for index in source.places("f", ".", "write_char", "("):
        yield source.span(index, index + 3, "fmt::Write::write_char(f, ")


def copies(source):
    """Copies that are never refused, as Rust's `Clone` has them."""
    for index in source.places(*CLONE):
        value = index + len(CLONE)
        end = source.partner[value - 1]
        yield source.span(index, value - 1, "fn clone(&self) -> Self { ")
        yield source.span(end, end)


def labels(source):
    """Labels to which nothing jumps: the proof's invariants name their loops."""
    for index, token in enumerate(source.code):
        if token.kind != "lifetime" or not source.is_at(index + 1, ":"):
            continue
        if source.code[index + 2].text not in LOOPS:
            continue
        if not is_jumped_to(source, index):
            yield source.span(index, index + 1)


def is_jumped_to(source, label):
    """Whether anything in the function jumps to a label."""
    text, function = source.code[label].text, function_at(source, label)
    jumps = [*source.places("break", text), *source.places("continue", text)]
    return any(function_at(source, jump) == function for jump in jumps)


def without_drops(source):
    """The source with Rust's bounds and signatures."""
    source = source.changed([*drop_derives(source), *drop_impls(source), *formatters(source), *copies(source), *labels(source)])
    source = source.changed(drop_bounds(source))
    for index in source.places("Drop"):
        raise source.refusal(index, "a bound of `Drop` in a place that isn't known")
    return source
