"""Calls that fail only where memory runs out. The proved form is `try_NAME`, and NAME is the form that a user of Rust
expects, which panics then."""

from rt_to_rust.allocators import is_allocator
from rt_to_rust.docs import rewritten, sentences_without
from rt_to_rust.items import block_at, functions, head_of
from rt_to_rust.kinds import kind_of
from rt_to_rust.source import segments

# The calls that have both forms.
BOTH_FORMS = [
    "clone",
    "into_owned",
    # Lossy texts.
    "as_str",
    "database_name",
    "message",
    "name",
    "query",
    "schema",
    "server_version",
    "table_name",
]

SELF = (["self"], ["&", "self"])


def has_both_forms(source, function):
    """Whether a function is the proved form of such a call: it takes an allocator at most, and gives a `Result`."""
    if source.code[function.name].text not in BOTH_FORMS:
        return False
    parts = segments(source, function.parameters, of_types=True)
    parts = [source.texts(first, last + 1) for first, last in parts]
    if not parts or parts[0] not in SELF or not all(map(is_allocator, parts[1:])):
        return False
    return source.is_at(source.partner[function.parameters] + 1, "->", "Result", "<")


def fallible_clones(source):
    """The names of the types whose copies may be refused."""
    for function in functions(source):
        block = block_at(source, function.name)
        if block and source.is_at(function.name, "clone") and has_both_forms(source, function):
            yield block.type_name


def called(source, types):
    """Calls of the proved forms: those that pass an allocator, and `clone()?`."""
    for index, token in enumerate(source.code):
        if token.text not in BOTH_FORMS or not source.is_at(index - 1, ".") or not source.is_at(index + 1, "("):
            continue
        close = source.partner[index + 1]
        arguments = segments(source, index + 1)
        if len(arguments) == 1 and is_allocator(source.texts(arguments[0][0], arguments[0][1] + 1)):
            yield source.span(index, index, f"try_{token.text}")
        elif token.text == "clone" and close == index + 2:
            if kind_of(source, index - 1) in types:
                yield source.span(index, index, "try_clone")
            elif source.is_at(close + 1, "?"):
                yield source.span(close + 1, close + 1)
            else:
                raise source.refusal(index, "a copy whose refusal is kept")


def renamed(source, types, used):
    """The source in which the proved forms, and calls of them, are `try_NAME`. `types` are those whose copies may be
    refused; adds to `used` the names that it found."""
    changes = list(called(source, types))
    for function in functions(source):
        if has_both_forms(source, function):
            name = source.code[function.name].text
            used.add(name)
            changes.append(source.span(function.name, function.name, f"try_{name}"))
    return source.changed(changes)


def plain_docs(source, function):
    """The documentation of the form that panics: that of the proved one, without its errors."""
    start, end = source.with_docs(function.first), source.code[function.first].start
    lines = [line.strip() for line in source.text[start:end].splitlines()]
    texts = [line[3:].strip() for line in lines if line.startswith("///")]
    if "# Errors" in texts:
        texts = texts[: texts.index("# Errors")]
    kept = sentences_without(texts, "Error::Memory")
    return rewritten([*kept, "", "# Panics", "", "If memory runs out."], "///", "    ")


def answer(source, function):
    """The value of a function's `Result`."""
    first = source.partner[function.parameters] + 4
    last = function.body - 1
    if not source.is_at(last - 2, ",", "Error", ">"):
        raise source.refusal(function.name, "a call with two forms whose error isn't `Error`")
    return source.between(first, last - 3)


def clone_of(source, block):
    """`Clone` by `try_clone`, behind the block that has it."""
    generics, of = head_of(source, block)
    end = source.code[source.partner[block.body]].end
    body = '{ fn clone(&self) -> Self { self.try_clone().expect("out of memory") } }'
    note = "/// Panics if memory runs out; `try_clone` returns an error then."
    return end, end, f"\n\n{note}\n{generics} Clone for {of} {body}"


def into_owned_of(source, block, function):
    """`into_owned` by `try_into_owned`, behind the block of `IntoOwned`."""
    generics, of = head_of(source, block)
    end = source.code[source.partner[block.body]].end
    texts = ["The same value, which borrows nothing.", "", "# Panics", "", "If memory runs out."]
    body = '{ self.try_into_owned().expect("out of memory") }'
    plain = f"{rewritten(texts, '///', '    ')}pub fn into_owned(self) -> {answer(source, function)} {body}"
    return end, end, f"\n\n{generics} {of} {{ {plain} }}"


def with_plain_forms(source, public):
    """The source with the forms that a user of Rust expects beside the proved ones, of the types with `public`
    names."""
    changes = []
    for function in functions(source):
        name = source.code[function.name].text.removeprefix("try_")
        if not source.is_at(function.name, f"try_{name}") or name not in BOTH_FORMS:
            continue
        block = block_at(source, function.name)
        if block is None or block.type_name not in public:
            continue
        if name == "clone":
            changes.append(clone_of(source, block))
            continue
        if block.trait == "IntoOwned":
            changes.append(into_owned_of(source, block, function))
            continue
        start = source.with_docs(function.first)
        takes = source.between(function.parameters, source.partner[function.parameters])
        head = source.between(function.first, function.name).removesuffix(f"try_{name}") + name
        body = f'{{ self.try_{name}().expect("out of memory") }}'
        text = f"{plain_docs(source, function)}{head}{takes} -> {answer(source, function)} {body}\n\n"
        changes.append((start, start, text))
    return source.changed(changes)
