"""A type that is made of nothing has a `Default` in Rust."""

from rt_to_rust.items import block_at, functions, head_of


def has_default(source, type_name):
    """Whether a type of the source implements `Default`, or derives it."""
    if source.places("Default", "for", type_name):
        return True
    declarations = [index for kind in ("struct", "enum") for index in source.places(kind, type_name)]
    return any(derives_default(source, index) for index in declarations)


def derives_default(source, index):
    """Whether an attribute in front of a type, whose keyword has this index, derives `Default`."""
    while source.code[index - 1].text in ("pub", ")"):
        index = source.partner.get(index - 1, index - 1)
    while source.is_at(index - 1, "]"):
        opening = source.partner[index - 1]
        if "Default" in source.texts(opening, index) and source.is_at(opening + 1, "derive"):
            return True
        index = opening - 1
    return False


def with_defaults(source):
    """The source in which each public type whose `new` takes nothing has a `Default`."""
    changes = []
    for function in functions(source):
        block = block_at(source, function.name)
        is_new = source.is_at(function.first, "pub", "fn", "new", "(", ")")
        if not is_new or block is None or has_default(source, block.type_name):
            continue
        generics, of = head_of(source, block)
        end = source.code[source.partner[block.body]].end
        changes.append((end, end, f"\n\n{generics} Default for {of} {{ fn default() -> Self {{ Self::new() }} }}"))
    return source.changed(changes)
