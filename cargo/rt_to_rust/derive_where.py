"""`derive_where`, written out: derives whose bounds aren't those of the type's parameters."""

from rt_to_rust.items import after_generics
from rt_to_rust.source import segments

TRAITS = {
    "Clone": "Clone",
    "Debug": "std::fmt::Debug",
    "PartialEq": "PartialEq",
    "Eq": "Eq",
    "Hash": "std::hash::Hash",
}


def struct_fields(source, body):
    """The names of a struct's fields, and whether each is compared and shown."""
    is_tuple = source.code[body].text == "("
    for place, (first, last) in enumerate(segments(source, body, of_types=True)):
        is_skipped = source.is_at(first, "#", "[", "derive_where", "(", "skip", ")", "]")
        first += 7 if is_skipped else 0
        first += source.is_at(first, "pub")
        yield (str(place) if is_tuple else source.code[first].text), is_skipped


def copied(name, fields, is_tuple):
    """An expression for a copy of a struct."""
    values = [
        (field, "PhantomData" if is_skipped else f"self.{field}.clone()")
        for field, is_skipped in fields
    ]
    if is_tuple:
        return f"{name}({', '.join(value for _, value in values)})"
    return f"{name} {{ {', '.join(f'{field}: {value}' for field, value in values)} }}"


def method(trait, name, fields, is_tuple):
    """The body of a trait's implementation."""
    shown = [field for field, is_skipped in fields if not is_skipped]
    if trait == "Clone":
        return f"fn clone(&self) -> Self {{ {copied(name, fields, is_tuple)} }}"
    if trait == "Debug":
        kind = "tuple" if is_tuple else "struct"
        calls = [f".field(&self.{f})" if is_tuple else f'.field("{f}", &self.{f})' for f in shown]
        return (
            "fn fmt(&self, f: &mut std::fmt::Formatter<'_>) -> std::fmt::Result "
            f'{{ f.debug_{kind}("{name}"){"".join(calls)}.finish() }}'
        )
    if trait == "PartialEq":
        same = " && ".join(f"self.{field} == other.{field}" for field in shown)
        return f"fn eq(&self, other: &Self) -> bool {{ {same} }}"
    if trait == "Hash":
        calls = " ".join(f"self.{field}.hash(state);" for field in shown)
        return f"fn hash<H: std::hash::Hasher>(&self, state: &mut H) {{ {calls} }}"
    return ""


def implementations(source, attribute, struct):
    """The implementations that an attribute in front of a struct stands for."""
    opening = attribute + 3
    close = source.partner[opening]
    listed, _, bounded = source.between(opening + 1, close - 1).partition(";")
    name = source.code[struct + 1].text
    body = after_generics(source, struct + 2)
    generics = source.between(struct + 2, body - 1)
    own = [source.code[first].text for first, _ in generic_parameters(source, struct + 2)]
    is_tuple = source.code[body].text == "("
    fields = list(struct_fields(source, body))
    for trait in (part.strip() for part in listed.split(",")):
        if trait not in TRAITS:
            raise source.refusal(attribute, f"derive_where of {trait}")
        where = f" where {bounded.strip()}: {TRAITS[trait]}" if bounded else ""
        head = f"impl{generics} {TRAITS[trait]} for {name}<{', '.join(own)}>{where}"
        yield f"\n\n{head} {{ {method(trait, name, fields, is_tuple)} }}"


def generic_parameters(source, index):
    """The generic parameters that begin here, each as (first, last)."""
    end, start, depth = after_generics(source, index) - 1, index + 1, 0
    for place in range(index + 1, end):
        depth += {"<": 1, ">": -1}.get(source.code[place].text, 0)
        if depth == 0 and source.code[place].text == ",":
            yield start, place - 1
            start = place + 1
    yield start, end - 1


def written_out(source):
    """The source with each `derive_where` as implementations behind its struct."""
    changes = []
    for attribute in source.places("#", "[", "derive_where", "("):
        if source.is_at(attribute + 4, "skip", ")"):
            changes.append(source.span(attribute, source.partner[attribute + 1]))
            continue
        struct = source.partner[attribute + 1] + 1
        struct += source.is_at(struct, "pub")
        if not source.is_at(struct, "struct"):
            raise source.refusal(attribute, "derive_where in front of no struct")
        end = source.partner[after_generics(source, struct + 2)]
        end += source.is_at(end + 1, ";")
        offset = source.code[end].end
        changes.append((offset, offset, "".join(implementations(source, attribute, struct))))
        changes.append(source.span(attribute, source.partner[attribute + 1]))
    return source.changed(changes)
