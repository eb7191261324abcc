"""What stands on a page in HTML."""

from html.parser import HTMLParser


class Cells(HTMLParser):
    """The cells of a page's tables, row by row, by the sections; the texts of its other parts; its pictures."""

    def __init__(self, page):
        super().__init__()
        self.rows, self.texts, self.section, self.names, self.open = {}, [], None, [], []
        self.feed(page)
        self.close()

    def handle_starttag(self, tag, attributes):
        found = dict(attributes)
        self.names += [found["id"]] if "id" in found else []
        if tag == "section":
            self.section = found["id"]
        if tag == "tr":
            self.rows.setdefault(self.section, []).append([])
        if tag in ("td", "th"):
            self.rows[self.section][-1].append("")
        if tag not in ("meta", "br"):
            self.open.append(tag)

    def handle_endtag(self, tag):
        assert self.open.pop() == tag, tag

    def handle_data(self, data):
        if self.open and self.open[-1] in ("td", "th"):
            self.rows[self.section][-1][-1] += data
        elif self.open and self.open[-1] in ("p", "h2"):
            self.texts.append(data)
