"""The pieces of HTML that a page is made of, and the page itself: one document that needs nothing beside it."""

import base64
import hashlib
import os
import re
import sys

from reporting import texts

FOLDER = os.path.dirname(os.path.dirname(os.path.abspath(__file__)))
LIBRARY = ("array", "collection", "color", "interpolate", "format", "time", "time-format", "scale", "hierarchy", "selection", "axis")
PRINTED = 50


def read(*names):
    """The text of a file of the report's own."""
    with open(os.path.join(FOLDER, *names), encoding="utf-8") as file:
        return file.read()


def own_digest():
    """One SHA-256 for all files that the report is made by: of the lines that sha256sum would have of them, the program first."""
    names = [os.path.join(place, it) for place in ("", "reporting", "d3") for it in os.listdir(os.path.join(FOLDER, place))
             if it.endswith((".py", ".js", ".css", ".html"))]
    files = [("pst_report", os.path.realpath(sys.argv[0])), *((it, it) for it in sorted(names))]
    lines = "".join(f"{hashlib.sha256(read(path).encode()).hexdigest()}  {name}\n" for name, path in files)
    return hashlib.sha256(lines.encode()).hexdigest()


def source(text):
    """How a policy names what it lets run: by its digest."""
    return f"'sha256-{base64.b64encode(hashlib.sha256(text.encode()).digest()).decode()}'"


def policy(style, *scripts):
    """What the page may do: use this style and run these scripts, and nothing else, so that no text of a store ever can."""
    allowed = " ".join(map(source, scripts))
    return f"default-src 'none'; style-src {source(style)}; script-src {allowed}; base-uri 'none'; form-action 'none'"


def document(kind, heading, title, sections, data, footer):
    """A page: sections are triples of an identifier, a title and what is below it; the first is the verdict."""
    style, script = read("page.css"), read("page.js")
    library = "\n".join([f"/*\n{read('d3', 'LICENSE')}*/", *(read("d3", f"d3-{name}.js") for name in LIBRARY)])
    links = "".join(f'<li><a href="#{name}">{texts.escaped(below)}</a></li>' for name, below, _ in sections)
    parts = {
        "policy": texts.escaped(policy(style, library, script)), "title": title, "style": style, "kind": kind, "heading": heading,
        "contents": f'<nav aria-label="Contents"><ul>{links}</ul></nav>', "main": "\n".join(section(*it) for it in sections),
        "footer": footer, "data": texts.data(data), "library": library, "script": script,
    }
    return re.sub(r"\{\{(\w+)\}\}", lambda found: parts[found[1]], read("template.html"))


def section(name, title, body):
    heading = f'<h2 id="{name}-title">{texts.escaped(title)}</h2>'
    return f'<section id="{name}" aria-labelledby="{name}-title">\n{heading}\n{body}\n</section>'


def paragraph(text, kind=""):
    """A paragraph of HTML."""
    return f'<p class="{kind}">{text}</p>' if kind else f"<p>{text}</p>"


def code(text):
    return f"<code>{texts.escaped(text)}</code>"


def facts(pairs, kind="facts"):
    """Pairs of a word of ours and HTML."""
    rows = "".join(f"<div><dt>{texts.escaped(word)}</dt><dd>{what}</dd></div>" for word, what in pairs if what is not None)
    return f'<dl class="{kind}">{rows}</dl>'


def picture(name, title, about, legend=""):
    """A place for a picture, which the script draws of the data of this name. Without script it takes no room."""
    return (f'<figure class="picture" id="{name}-picture" data-picture="{name}" data-title="{texts.escaped(title)}" hidden>'
            f'<div class="canvas"></div><p class="line"></p><figcaption>{about}</figcaption></figure>{legend}')


def legend(entries):
    """Triples of the name of a colour, a word and HTML."""
    items = "".join(f'<li><span class="key {kind}" aria-hidden="true"></span>{texts.escaped(word)} <b>{what}</b></li>'
                    for kind, word, what in entries)
    return f'<ul class="legend">{items}</ul>'


class Cell:
    """What a table shows at one place: HTML, and what it is sorted by, a number or, where that is None, its text."""

    def __init__(self, shown, key=None, kind=""):
        self.shown, self.key, self.kind = shown, key, kind

    def html(self, tag="td", more=""):
        kind = f' class="{self.kind}"' if self.kind else ""
        key = "" if self.key is None else f' data-key="{self.key}"'
        return f"<{tag}{more}{kind}{key}>{self.shown}</{tag}>"


def numeral(value, none="\u2014"):
    """A cell with a number, or without one; what has none is sorted behind all others."""
    return Cell(none, -1, "number") if value is None else Cell(texts.number(value), value, "number")


def size(value):
    """A cell with a number of bytes as people say it."""
    return Cell(texts.size(value), value, "number")


def place(value):
    """A cell with a place or an identifier of a block, in hexadecimal; 0 is none."""
    return Cell(f"<code>{value:#x}</code>", value, "number") if value else numeral(None)


def node(nid):
    """A cell with the identifier of a node."""
    return Cell(f"<code>{nid}</code>", int(nid, 16), "number")


def text(value, none="\u2014"):
    """A cell with a text of the store."""
    return Cell(none, kind="none") if value is None else Cell(texts.foreign(value) if value else "<i>empty</i>", kind="text")


def head(title, is_number, order):
    """The head of a column."""
    number = ' class="number"' if is_number else ""
    sort = f' aria-sort="{order[1]}"' if order and order[0] == title else ""
    return f'<th scope="col"{number}{sort}>{texts.escaped(title)}</th>'


def table(name, caption, columns, rows, total=None, order=None, kind=""):
    """A table that the script lets a reader sort: columns are pairs of a title and whether it has numbers. `total` is how many
    rows there would be where only the first are here; `order` is the column by which they stand, and which way."""
    count = len(rows) if total is None else total
    told = texts.counted(count, "row") if count <= len(rows) else f"the first {len(rows):,} of {count:,}"
    heads = "".join(head(title, is_number, order) for title, is_number in columns)
    body = "\n".join("<tr>" + "".join(cell.html() for cell in row) + "</tr>" for row in rows)
    paper = f'<p class="paper">On paper: the first {PRINTED} rows, as they were sorted.</p>' if len(rows) > PRINTED else ""
    return (f'<div class="scroll {kind}" tabindex="0" role="region" aria-labelledby="{name}-caption">'
            f'<table id="{name}-table" data-rows="{len(rows)}">'
            f'<caption id="{name}-caption">{texts.escaped(caption)} <span>({told})</span></caption>'
            f"<thead><tr>{heads}</tr></thead>\n<tbody>\n{body}\n</tbody></table></div>{paper}")
