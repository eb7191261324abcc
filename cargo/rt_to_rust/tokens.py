"""The tokens of a Rattle source. What only a proof reads is one token: a clause of a contract, or a ghost item."""

import re
from typing import NamedTuple


class Refusal(Exception):
    """A form that the converter doesn't know, with its place."""

    def __init__(self, path, line, message):
        # All are kept, so that another process can hand it over.
        super().__init__(path, line, message)

    def __str__(self):
        path, line, message = self.args
        return f"{path}:{line}: {message}"


class Token(NamedTuple):
    kind: str
    text: str
    start: int
    end: int
    line: int


# Tokens that are no code.
TRIVIA = {"space", "doc", "comment"}

KINDS = re.compile(
    r"""(?P<space>\s+)
      | (?P<doc>///(?!/)[^\n]*|//![^\n]*)
      | (?P<comment>//[^\n]*|/\*.*?\*/)
      | (?P<string>b?"(?:\\.|[^"\\])*")
      | (?P<char>b?'(?:\\x[0-9a-fA-F]{2}|\\u\{[0-9a-fA-F]+\}|\\.|[^'\\\n])')
      | (?P<lifetime>'[A-Za-z_]\w*)
      | (?P<number>\d\w*(?:\.\d\w*)?)
      | (?P<word>[A-Za-z_]\w*)
      | (?P<sign>::|->|=>|\.\.=|\.\.|==|!=|<=|>=|&&|\|\||[-+*/%^&|!=<>.,;:?@\#$(){}\[\]])""",
    re.VERBOSE | re.DOTALL | re.ASCII,
)
CLAUSE = re.compile(r"(?:requires|ensures)\*?(?:\s+[a-z_]\w*)?\s*(?=\{)", re.ASCII)
GHOST = re.compile(r"ghost\s+(?=[A-Za-z_])")


def closing_brace(text, at):
    """The end of the braces that open here. A proof's text has no literals, so braces are only counted; None if they
    don't close."""
    depth = 0
    for place in re.compile(r"[{}]").finditer(text, at):
        depth += 1 if place.group() == "{" else -1
        if depth == 0:
            return place.end()
    return None


def ghost_end(text, at):
    """The end of a ghost item: after the first `;` or `,` that isn't in braces; None if there is none."""
    while found := re.compile(r"[;,{}]").search(text, at):
        if found.group() == "}":
            return None
        if found.group() != "{":
            return found.end()
        at = closing_brace(text, found.start())
        if at is None:
            return None
    return None


def proof_part(path, text, at, line):
    """The kind and end of the clause or ghost item that begins here, or None."""
    if found := CLAUSE.match(text, at):
        kind, end = "clause", closing_brace(text, found.end())
    elif found := GHOST.match(text, at):
        kind, end = "ghost", ghost_end(text, found.end())
    else:
        return None
    if end is None:
        raise Refusal(path, line, f"this {kind} doesn't end")
    return kind, end


def split(path, text):
    """All tokens of a source, trivia among them."""
    tokens, at, line = [], 0, 1
    while at < len(text):
        found = KINDS.match(text, at)
        if not found:
            raise Refusal(path, line, f"not a token of Rust: {text[at : at + 20]!r}")
        kind, end = found.lastgroup, found.end()
        if kind == "word" and (part := proof_part(path, text, at, line)):
            kind, end = part
        tokens.append(Token(kind, text[at:end], at, end, line))
        line += text.count("\n", at, end)
        at = end
    return tokens
