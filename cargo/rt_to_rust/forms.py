"""Calls of the toolchain's standard library that Rust's has in another form."""


def shared_owners(source):
    """`Arc`: Rust has no call of it that returns an error where memory runs out."""
    for index in source.places("Arc", "::", "try_clone", "("):
        close = source.partner[index + 3]
        if not source.is_at(close + 1, "?"):
            raise source.refusal(index, "`Arc::try_clone` without `?`")
        yield source.span(index + 2, index + 2, "clone")
        yield source.span(close + 1, close + 1)
    for index in source.places("Arc", "::", "new", "("):
        yield from made_owner(source, index)


def made_owner(source, index):
    """`match Arc::new(VALUE) { Ok(x) => Ok(x), Err(_) => .. }` or `Arc::new(VALUE).map_err(|_| ..)`; no other form is
    known."""
    close = source.partner[index + 3]
    if source.is_at(close + 1, ".", "map_err", "(", "|", "_", "|"):
        yield source.code[index].start, source.code[index].start, "Ok("
        yield source.span(close + 1, source.partner[close + 3], ")")
        return
    body = close + 1
    names = source.texts(body + 3, body + 4)
    wanted = ["{", "Ok", "(", *names, ")", "=>", "Ok", "(", *names, ")", ",", "Err", "(", "_", ")", "=>"]
    if not source.is_at(index - 1, "match") or not source.is_at(body, *wanted):
        raise source.refusal(index, "`Arc::new` of a form that isn't known")
    yield source.span(index - 1, index - 1, "Ok(")
    yield source.span(body, source.partner[body], ")")


# Functions of the toolchain's standard library, and Rust's of the same meaning.
FUNCTIONS = {"f32_from_bits_with_nan": "f32::from_bits", "f64_from_bits_with_nan": "f64::from_bits"}


def functions(source):
    """Calls of such functions."""
    for name, rusts in FUNCTIONS.items():
        for index in source.places(name, "("):
            yield source.span(index, index, rusts)


def lossy_texts(source):
    """`bstr`'s lossy text, which may be refused."""
    for index in source.places(".", "to_str_lossy", "(", ")"):
        name = source.code[index - 1].text
        yield source.span(index - 1, index + 3, f"try_lossy_text({name})")


# What a function returns where a buffer is refused, which Rust's isn't.
REFUSED_BUFFER = (["Err", "(", "Error", "::", "Memory", ")"], ["Err", "(", "out_of_memory", "(", "rt", ")", ")"], ["false"])


def buffers(source):
    """The buffers of a program or a test: `let Ok(x) = Buf::with_capacity(..) else { return Err(Error::Memory); };`"""
    for index in source.places("let", "Ok", "("):
        close = source.partner[index + 2]
        call = close + 2
        if source.texts(call, call + 1) not in (["BufReader"], ["BufWriter"]):
            continue
        behind = source.partner[call + 3] + 1
        end = source.partner[behind + 1] if source.is_at(behind, "else", "{", "return") else behind
        if source.texts(behind + 3, end - 1) not in REFUSED_BUFFER:
            raise source.refusal(index, "a buffer whose refusal isn't known")
        yield source.span(index + 1, index + 2)
        yield source.span(close, close)
        yield source.span(behind, end)


def passed_buffers(source):
    """`BufReader::with_capacity(..)?`: the buffer isn't refused."""
    for kind in ("BufReader", "BufWriter"):
        for index in source.places(kind, "::", "with_capacity", "("):
            close = source.partner[index + 3]
            if source.is_at(close + 1, "?"):
                yield source.span(close + 1, close + 1)


def matched_buffers(source):
    """`match BufWriter::with_capacity(..) { Ok(..) => .., Err(_) => .. }`: the buffer isn't refused."""
    for kind in ("BufReader", "BufWriter"):
        for index in source.places("match", kind, "::", "with_capacity", "("):
            end = source.code[source.partner[index + 4]].end
            start = source.code[index + 1].start
            yield start, start, "Ok::<_, ()>("
            yield end, end, ")"


def json_writers(source):
    """The type of a writer of JSON, which names its allocator."""
    for index in source.places("Writer", "<", "Global", ">"):
        yield source.span(index + 1, index + 3)


def rust_calls(source):
    """The source with Rust's calls."""
    source = source.changed([*shared_owners(source), *functions(source), *lossy_texts(source)])
    return source.changed([*buffers(source), *passed_buffers(source), *matched_buffers(source)])
