"""Documentation speaks to a user of Rust: sentences on contracts and laws go."""

import re
import textwrap

from rt_to_rust.tokens import Refusal

# What only a reader of the proofs asks for.
PROOFS = re.compile(r"\b[Cc]ontracts?\b|\bproved?\b|\bprover\b|specs/|\blaws?\b|\bghost\b")

# What isn't so in the packages, in which interruptions are tried again, and what is inlined is another thing.
OTHERWISE = re.compile(r"\binterrupted (isn't\s+retried|write is a failure)|\bIt isn't inlined, since the inlined code\b")

# Words of the sources on what the packages have in another form, and what is said in place of them.
REWORDED = {
    re.compile(r"\.collect\(alloc\)\?"): ".collect::<Vec<_>>()",
    re.compile(r"Counted::new\(Retrying::new\((\w+)\)\)"): r"Counted::new(\1)",
    re.compile(r"\bNeeds no allocator\b"): "Takes no memory",
    re.compile(r",? with memory from this set's allocator\b"): "",
    re.compile(r": it has no allocator\b"): "",
    re.compile(r"\bwithout an allocator\b"): "without memory of their own",
    # A file's code needn't import what its documentation links to.
    re.compile(r"\[`GtidTracker::group`\](?!\()"): "[`GtidTracker::group`](binlog::GtidTracker::group)",
}

# Words that a user of the packages doesn't know.
UNKNOWN = re.compile(r"\(alloc\)|\ballocator\b|Retrying::new\(|(?<!::)\bbinlog_file\b")

# A paragraph that begins so is about a contract as a whole.
CONTRACT = re.compile(r"Its contract is\b")

SENTENCE = re.compile(r"(?<=[.:;])\s+(?=[A-Z`\[])")

WIDTH = 120
# Lines of a source that are longer than that by as much stay as they are.
SPARE = 8


def paragraphs(lines):
    """Documentation as lists of lines without a blank one among them; a list's points and code are left as they are."""
    paragraph = []
    for line in lines:
        if line and any(paragraph) and not line.lstrip().startswith(("- ", "#", "|", "```")):
            paragraph.append(line)
            continue
        if paragraph:
            yield paragraph
        paragraph = [line]
    if paragraph:
        yield paragraph


def without_sentences(paragraph, is_left_out):
    """A paragraph without some of its sentences; none if all of them go."""
    text = " ".join(line.strip() for line in paragraph)
    sentences = SENTENCE.split(text)
    kept = [sentence for sentence in sentences if not is_left_out(sentence)]
    if len(kept) == len(sentences):
        return paragraph
    text = " ".join(kept)
    return [re.sub(r"[:;]$", ".", text)] if text else []


def without_blank_ends(lines):
    """Lines in which no two blank ones follow each other, and none is first or last."""
    kept = []
    for line in lines:
        if line or (kept and kept[-1]):
            kept.append(line)
    while kept and not kept[-1]:
        kept.pop()
    return kept


def sentences_without(lines, words):
    """Lines of documentation without the sentences that have these words; a half-sentence after `;` goes alone."""
    kept = []
    for paragraph in paragraphs(lines):
        text = " ".join(paragraph)
        if words in text and "; " in text and words not in text.split("; ")[0]:
            kept.append(text.split("; ")[0] + ".")
        else:
            kept += without_sentences(paragraph, lambda sentence: words in sentence)
    return without_blank_ends(kept)


def for_users(lines, unspoken):
    """Lines of documentation without what only a reader of the proofs asks for, sentences on contracts, and on the
    names that only proofs need; and without what isn't so in the packages."""

    def is_of_proofs(sentence):
        return PROOFS.search(sentence) or OTHERWISE.search(sentence) or any(f"`{name}`" in sentence for name in unspoken)

    kept = []
    for paragraph in paragraphs(lines):
        if not CONTRACT.match(paragraph[0]):
            kept += reworded(without_sentences(paragraph, is_of_proofs))
    return without_blank_ends(kept)


def reworded(paragraph):
    """A paragraph in the words of the packages."""
    text = new = " ".join(paragraph)
    for words, others in REWORDED.items():
        new = words.sub(others, new)
    return paragraph if new == text else [new]


def rewritten(lines, mark, indent):
    """Lines as comments of the mark, wrapped."""
    width = WIDTH - len(indent) - len(mark) - 1
    out = []
    for line in lines:
        hanging = "  " if line.lstrip().startswith("- ") else ""
        wrapped = [line]
        if len(line) > width + SPARE:
            wrapped = textwrap.wrap(line, width, subsequent_indent=hanging, break_on_hyphens=False)
        out += [f"{indent}{mark} {part}".rstrip() for part in wrapped]
    return "".join(line + "\n" for line in out)


def blocks_of(source):
    """The runs of documentation of one mark, each as a list of tokens."""
    run = []
    for token in source.tokens:
        if token.kind == "doc" and (not run or run[-1].text[:3] == token.text[:3]):
            run.append(token)
        elif token.kind != "space" or token.text.count("\n") > 1:
            if run:
                yield run
            run = [token] if token.kind == "doc" else []
    if run:
        yield run


def ghost_members(source):
    """The names of the ghost members of a source, but for those that are also the names of code."""
    words = {token.text for token in source.code if token.kind == "word"}
    names = {token.text.split()[1].rstrip(":") for token in source.code if token.kind == "ghost"}
    return names - words


def spoken(source, unspoken, is_test):
    """The source whose documentation is for users of Rust; `unspoken` are names of which it has no sentence: the ghost
    members that it had, and the parameters that are fixed."""
    changes = []
    for run in blocks_of(source):
        lines = [token.text[3:].removeprefix(" ") for token in run]
        kept = for_users(lines, unspoken)
        if not is_test and (unknown := UNKNOWN.search(" ".join(kept))):
            raise Refusal(source.path, run[0].line, f"documentation on `{unknown.group()}`, which the packages don't have")
        if kept == without_blank_ends(lines):
            continue
        mark = run[0].text[:3]
        changes.append((run[0].start, run[-1].end, rewritten(kept, mark, "").rstrip("\n")))
    return source.changed(changes)

