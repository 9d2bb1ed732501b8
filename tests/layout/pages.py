"""A layout page as a browser would take it apart: its bytes, its list and its links."""
import html.parser

VOID = ("meta", "col", "br")


class Page(html.parser.HTMLParser):
    """What stands in a page: the digits of its bytes, the rows of its list, ids and links, and what does not belong
    there."""

    def __init__(self, text):
        super().__init__()
        self.open, self.wrong, self.ids, self.links, self.rows, self.digits = [], [], [], [], [], []
        self.in_bytes = self.in_row = False
        self.feed(text)
        self.close()
        self.wrong += [f"{tag} is not closed" for tag in self.open]

    def handle_starttag(self, tag, attributes):
        named = dict(attributes)
        if tag not in VOID:
            self.open.append(tag)
        self.ids += [named["id"]] if "id" in named else []
        self.links += [named["href"]] if "href" in named else []
        self.in_bytes = tag == "a" and "b" in named.get("class", "").split()
        if self.in_bytes and not named.get("title"):
            self.wrong.append("bytes without their meaning")
        if tag == "tr":
            self.in_row = "data-p" in named
            self.rows += [[]] if self.in_row else []
        self.wrong += [f"{tag} has {name}" for name in named if name in ("src", "srcset")]
        self.wrong += [f"a tag {tag}"] if tag in ("link", "img", "iframe", "base") else []

    def handle_endtag(self, tag):
        self.in_bytes = False
        self.in_row = self.in_row and tag != "tr"
        if not self.open or self.open.pop() != tag:
            self.wrong.append(f"an end of {tag} that was not open")

    def handle_data(self, data):
        if self.in_bytes:
            self.digits.append(data)
        elif self.in_row and self.open[-1] in ("td", "a"):
            self.rows[-1].append(data)
