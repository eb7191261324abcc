"""What only a proof reads goes: clauses, ghost items, models, laws, tactics, and the tests that a file holds."""

from rt_to_rust.items import blocks


def clauses(source):
    """Clauses of contracts, with the comments in front of them: those are the clause's."""
    for index, token in enumerate(source.tokens):
        if token.kind != "clause":
            continue
        start = token.start
        for before in reversed(source.tokens[:index]):
            if before.kind not in ("space", "comment"):
                break
            start = before.start if before.kind == "comment" else start
        yield start, token.end, ""


def ghost_items(source):
    """Ghost items and members, with their documentation."""
    for index, token in enumerate(source.code):
        if token.kind == "ghost":
            first = index - 1 if source.is_at(index - 1, "pub") else index
            yield source.with_docs(first), token.end, ""


def models(source):
    """What contracts see of a type."""
    for block in blocks(source):
        if block.trait == "Model":
            end = source.code[source.partner[block.body]].end
            yield source.with_docs(block.first), end, ""


def tactics(source):
    """Attributes that only the prover reads."""
    for index in source.places("tactic") + source.places("[", "cycle", "("):
        index += source.is_at(index, "[")
        if source.code[index - 1].text != "[":
            raise source.refusal(index, "`tactic` outside of an attribute")
        first = index - 3 if source.is_at(index - 3, "#", "!") else index - 2
        yield source.span(first, source.partner[index - 1])


def own_tests(source):
    """Modules of tests: a crate's tests are converted as a whole, or not at all."""
    for index in source.places("#", "[", "cfg", "(", "test", ")", "]", "mod"):
        end = index + 9
        if source.code[end].text not in (";", "{"):
            raise source.refusal(index, "a module that neither has a body nor is a file")
        yield source.span(index, source.partner.get(end, end))


def law_modules(source):
    """Modules of laws: their functions state what is proved, and do nothing."""
    for index in source.places("mod", "laws", ";"):
        first = index - 1 if source.is_at(index - 1, "pub") else index
        yield source.with_docs(first), source.code[index + 2].end, ""


def law_calls(source):
    """Laws that a function calls, so that its proof may use them, and their imports."""
    for index in source.places("laws", "::"):
        first = index
        while source.code[first].text != "use":
            first -= 1
            if source.code[first].text in (";", "{", "}"):
                raise source.refusal(index, "a law outside of an import")
        law = source.code[index + 2].text
        if not source.is_at(index + 3, ";"):
            raise source.refusal(index, "an import of several laws")
        yield source.span(first, index + 3)
        for call in source.places(law, "(", ")", ";"):
            yield source.span(call, call + 3)


def without_proofs(source, is_test=False):
    """The source without what only a proof reads, and, but for a crate of tests, without tests."""
    source = source.changed([*models(source), *tactics(source)])
    source = source.changed([*ghost_items(source), *clauses(source)])
    if is_test:
        return source
    source = source.changed(own_tests(source))
    return source.changed([*law_modules(source), *law_calls(source)])
