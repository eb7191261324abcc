"""A source as tokens, with the partner of each bracket, and changes of its text that keep its lines."""

from rt_to_rust.tokens import TRIVIA, Refusal, split

OPENING = {"(": ")", "[": "]", "{": "}"}
CLOSING = {close: opening for opening, close in OPENING.items()}


# The mark of a line that went.
GONE = "\f\n"


class Source:
    """A file's text. `code` has its tokens but for trivia, and `partner` the index of each bracket's partner in it."""

    def __init__(self, path, text):
        self.path = path
        self.text = text
        self.tokens = split(path, text)
        self.code = [token for token in self.tokens if token.kind not in TRIVIA]
        self.partner = self._partners()
        self.indices = {}
        for index, token in enumerate(self.code):
            self.indices.setdefault(token.text, []).append(index)

    def _partners(self):
        partner, open_places = {}, []
        for index, token in enumerate(self.code):
            if token.text in OPENING:
                open_places.append(index)
            elif token.text in CLOSING:
                if not open_places or self.code[open_places[-1]].text != CLOSING[token.text]:
                    raise self.refusal(index, f"{token.text} closes nothing")
                opening = open_places.pop()
                partner[opening], partner[index] = index, opening
        if open_places:
            raise self.refusal(open_places[-1], "this bracket isn't closed")
        return partner

    def refusal(self, index, message):
        """A refusal at a token of the code."""
        line = self.code[min(index, len(self.code) - 1)].line if self.code else 1
        return Refusal(self.path, line, message)

    def texts(self, start, end):
        """The texts of the code from index to index, the last excluded."""
        return [token.text for token in self.code[max(start, 0) : end]]

    def is_at(self, index, *texts):
        """Whether the code from this index has these texts."""
        if index < 0 or index + len(texts) > len(self.code):
            return False
        return all(self.code[index + place].text == text for place, text in enumerate(texts))

    def places(self, *texts):
        """The indices at which the code has these texts."""
        return [index for index in self.indices.get(texts[0], ()) if self.is_at(index, *texts)]

    def between(self, start, end):
        """The text from one code token to another, both included."""
        return self.text[self.code[start].start : self.code[end].end]

    def span(self, start, end, text=""):
        """The change that puts a text in place of the code from index to index, both included."""
        return self.code[start].start, self.code[end].end, text

    def with_docs(self, index):
        """The offset at which the documentation and comments in front of a token begin, or the token itself."""
        place = self.tokens.index(self.code[index])
        start = self.code[index].start
        for token in reversed(self.tokens[:place]):
            if token.kind in ("doc", "comment") and not token.text.startswith("//!"):
                start = token.start
            elif token.kind != "space" or token.text.count("\n") > 1:
                break
        return start

    def whole_lines(self, start, end):
        """A place without text, with the rest of its lines where that is blank."""
        before = self.text.rfind("\n", 0, start) + 1
        behind = self.text.find("\n", end) + 1
        if behind and not self.text[before:start].strip() and not self.text[end:behind].strip():
            return before, behind
        return start, end

    def changed(self, changes):
        """The source with these changes, each (start, end, text). A line that goes stays as a mark, so that a refusal
        names the line of the file, until `marks_removed`."""
        changes, out, at = sorted(set(changes)), [], 0
        if not changes:
            return self
        for start, end, text in changes:
            start, end = (start, end) if text else self.whole_lines(start, end)
            if start < at:
                line = self.text.count("\n", 0, start) + 1
                raise Refusal(self.path, line, "two changes of one place")
            lost = self.text.count("\n", start, end) - text.count("\n")
            out += [self.text[at:start], text, GONE * lost]
            at = end
        return Source(self.path, "".join(out) + self.text[at:])

    def marks_removed(self):
        """The text without the marks of lines that went."""
        return self.text.replace(GONE, "")


def segments(source, opening, of_types=False):
    """The parts of a bracketed group between its commas, each as (first, last) index of the code; empty ones left out.
    In a group of fields or parameters `of_types` the commas of generics separate nothing."""
    close, start, found = source.partner[opening], opening + 1, []
    index, depth = start, 0
    while index < close:
        text = source.code[index].text
        if text in OPENING:
            index = source.partner[index]
        elif of_types and text in "<>":
            depth += 1 if text == "<" else -1
        elif text == "," and depth == 0:
            found.append((start, index - 1))
            start = index + 1
        index += 1
    found.append((start, close - 1))
    return [(first, last) for first, last in found if first <= last]
