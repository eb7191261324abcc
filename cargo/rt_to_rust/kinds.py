"""The types of receivers, as far as a function's own text states them: enough to tell the standard library's vectors
and texts from types of the crates. What isn't stated stops the converter."""

from rt_to_rust.items import block_at, fields, function_at, functions
from rt_to_rust.source import segments

# What a type's first name is after references.
REFERENCE = ("&", "mut")

# Functions of other sources that are called for a vector.
RETURN_VECTORS = ("joined", "written")

# The types of fields that another source than the one that calls declares.
FIELDS_OF_OTHERS = {"gnos": ["GnoSet"], "types": ["Vec"]}


def base(texts):
    """The name of a type, without references, lifetimes and generics."""
    for text in texts:
        if text not in REFERENCE and not text.startswith("'"):
            return text
    return None


def element(texts):
    """The name of the type of a vector's elements."""
    return base(texts[texts.index("<") + 1 :]) if "<" in texts else None


def receiver(source, dot):
    """The first index of the path in front of a `.`: names, fields and indices; a call is none."""
    index = dot - 1
    while True:
        if source.code[index].text == "]":
            index = source.partner[index] - 1
            continue
        if source.code[index].kind not in ("word", "number"):
            raise source.refusal(index, "a receiver that is neither a name nor a field")
        if source.code[index - 1].text != ".":
            return index
        index -= 2


def parameter_type(source, function, name):
    """The texts of the type of a parameter, or None."""
    for first, last in segments(source, function.parameters, of_types=True):
        texts = source.texts(first, last + 1)
        if ":" in texts and texts[texts.index(":") - 1] == name:
            return texts[texts.index(":") + 1 :]
    return None


def local_type(source, function, name, before):
    """The texts of the type that a `let` states or constructs, or that of a variant that a pattern binds; or None."""
    for index in range(before, function.body, -1):
        if not source.is_at(index, name):
            continue
        if source.is_at(index + 1, "=") and source.code[index - 1].text in ("let", "mut"):
            return value_type(source, index + 2)
        if source.is_at(index + 1, ":") and source.code[index - 1].text in ("let", "mut"):
            return source.texts(index + 2, index + 4)
        if is_bound_field(source, index):
            return fields(source).get(name)
        if source.is_at(index - 1, "(") and source.is_at(index + 1, ")", "=>"):
            return variant_type(source, source.code[index - 2].text)
    return None


def is_bound_field(source, index):
    """Whether a name is bound to a field of its name: `let TYPE { .. } = ..;`"""
    first = index - 1 if source.is_at(index - 1, "mut") else index
    if source.code[first - 1].text not in ("{", ",") or source.code[index + 1].text not in (",", "}"):
        return False
    while source.code[first].text not in ("{", ";"):
        first -= 1
    return source.is_at(first, "{") and source.is_at(first - 2, "let")


def value_type(source, index):
    """The texts of the type of a value: what the function returns that is called, or the type that is named."""
    call = index + 2 if source.is_at(index, "self", ".") else index
    if source.is_at(call + 1, "("):
        return returned_type(source, source.code[call].text)
    return source.texts(index, index + 1) if call == index else None


def variant_type(source, variant):
    """The texts of the payload of a variant that the source itself defines, or None."""
    for enum in source.places("enum"):
        body = enum + 2
        while source.code[body].text != "{":
            body += 1
        for first, last in segments(source, body, of_types=True):
            if source.is_at(first, variant, "("):
                return source.texts(first + 2, last)
    return None


def returned_type(source, name):
    """The texts of the type that a function of the source returns, that of a `Result` its value's; or None."""
    for function in functions(source):
        end = source.partner[function.parameters]
        if source.is_at(function.name, name) and source.is_at(end + 1, "->"):
            first = end + 4 if source.is_at(end + 2, "Result", "<") else end + 2
            return source.texts(first, function.body)
    return ["Vec"] if name in RETURN_VECTORS else None


def kind_of(source, dot):
    """The name of the type of what stands in front of a `.`, or a refusal."""
    if source.code[dot - 1].text == ")":
        name = source.code[source.partner[dot - 1] - 1].text
        if source.is_at(source.partner[dot - 1] - 2, ".") or not returned_type(source, name):
            raise source.refusal(dot, f"the type that `{name}` returns isn't stated")
        return base(returned_type(source, name))
    first = receiver(source, dot)
    name, is_indexed = source.code[first].text, source.code[dot - 1].text == "]"
    last = source.partner[dot - 1] - 1 if is_indexed else dot - 1
    if first == last:
        stated = named_type(source, name, dot)
    else:
        field = source.code[last].text
        stated = fields(source).get(field) or FIELDS_OF_OTHERS.get(field)
    kind = stated and (element(stated) if is_indexed else base(stated))
    if kind is None:
        raise source.refusal(dot, f"the type of `{source.between(first, dot - 1)}` isn't stated")
    return kind


def named_type(source, name, place):
    """The texts of the type of a name in a function, or None."""
    if name in ("self", "Self"):
        block = block_at(source, place)
        return [block.type_name] if block else None
    function = function_at(source, place)
    if function is None:
        return None
    stated = local_type(source, function, name, place)
    if stated and len(stated) == 1:
        # A local that is made of a parameter has its type.
        return parameter_type(source, function, stated[0]) or stated
    return stated or parameter_type(source, function, name)
