"""What is looked for on each page: in its text, and in the browser."""

import html.parser
import os
import re

from reporting.texts import is_hidden, shown, subject
from trying.chromium import Page
from trying.stores import HOSTILE

LONGEST_PAGE = 5_000_000
MOST_SECONDS = 1  # of the processor, for opening a page
ALONE = {"meta", "br", "hr", "img", "link", "input"}


class Tags(html.parser.HTMLParser):
    """Whether each tag that is opened is closed, in order."""

    def __init__(self, text):
        super().__init__(convert_charrefs=False)
        self.open, self.wrong = [], []
        self.feed(text)
        self.close()

    def handle_starttag(self, tag, attributes):
        if tag not in ALONE:
            self.open.append(tag)

    def handle_endtag(self, tag):
        if not self.open or self.open.pop() != tag:
            self.wrong.append(f"</{tag}> at {self.getpos()}")


def of_text(text):
    """What is wrong with the text of a page."""
    wrong = []
    tags = Tags(text)
    wrong += tags.wrong[:3] + [f"<{it}> is not closed" for it in tags.open]
    wrong += [f"a hidden character: {it!r}" for it in sorted(set(text)) if is_hidden(it) and it != "\n"]
    wrong += [f"a page of {len(text.encode()):,} bytes"] * (len(text.encode()) > LONGEST_PAGE)
    elsewhere = re.findall(r"<(?:script|link|img|iframe|object)[^>]*\b(?:src|href)=[^>]*>", text)
    wrong += [f"names what lies elsewhere: {it}" for it in elsewhere]
    return wrong


def look(page, *names):
    """What these functions of look.js find."""
    with open(os.path.join(os.path.dirname(__file__), "look.js"), encoding="utf-8") as file:
        page.value(file.read() + "; 0")
    return [f"{name}: {it}" for name in names for it in page.value(f"look.{name}().slice(0, 5)")]


def opening(browser, path):
    """The processor seconds that opening a page takes; of up to three times the least, since other work slows it down."""
    taken = []
    while len(taken) < 3 and min(taken, default=MOST_SECONDS) >= MOST_SECONDS:
        page = Page(browser, path)
        taken.append(page.seconds())
        page.leave()
    return min(taken)


def in_browser(browser, path, out):
    """What is wrong with a page light and wide, dark, narrow, without scripts and on paper; pictures of it begin with `out`."""
    page = Page(browser, path)
    wrong = [] if page.value("document.documentElement.dataset.ready") == "yes" else ["the script did not end"]
    page.shot(f"{out}.png")
    wrong += look(page, "marks", "labels", "contrast", "names", "width") + keys(page) + look(page, "sorting") + page.complaints()
    dark = Page(browser, path, scheme="dark")
    dark.shot(f"{out}-dark.png")
    wrong += [f"dark, {it}" for it in look(dark, "contrast") + dark.complaints()]
    narrow = Page(browser, path, width=420)
    wrong += [f"narrow, {it}" for it in look(narrow, "width", "labels", "marks") + narrow.complaints()]
    plain = Page(browser, path, has_scripts=False)
    wrong += [f"without script, {it}" for it in scriptless(plain)]
    page.paper(f"{out}.pdf")
    for it in (page, dark, narrow, plain):
        it.leave()
    return wrong


def keys(page):
    """The keyboard: from mark to mark of each picture, and a table by Enter."""
    wrong = []
    for number in range(page.value("look.all('figure[data-picture]').length")):
        figure = f"look.all('figure[data-picture]')[{number}]"
        marks = page.value(f"look.all('.mark', {figure}).length")
        page.value(f"{figure}.querySelector('.mark[tabindex=\"0\"]').focus()")
        page.press("ArrowRight" if marks > 1 else "Home")
        at = page.value(f"look.all('.mark', {figure}).indexOf(document.activeElement)")
        line = page.value(f"{figure}.querySelector('.line').textContent")
        said = page.value("document.activeElement.getAttribute('aria-label')")
        if at != min(1, marks - 1) or line != said or page.value(f"look.all('.mark[tabindex=\"0\"]', {figure}).length") != 1:
            wrong.append(f"the keys do not go through picture {number}: at {at}, {line!r}")
    if page.value("look.all('thead button').length"):
        page.value("look.all('thead button')[0].focus()")
        before = page.value("look.all('thead th')[0].getAttribute('aria-sort')")
        page.press("Enter")
        if page.value("look.all('thead th')[0].getAttribute('aria-sort')") == before:
            wrong.append("Enter sorts nothing")
        page.press("Tab")
        if page.value("document.activeElement.tagName") != "BUTTON":
            wrong.append("Tab does not go to the next column")
    return wrong


def scriptless(page):
    """Without script: no room is left for pictures, and the tables are there."""
    shape = "Array.from(document.querySelectorAll('%s')).filter((it) => it.getClientRects().length).length"
    frames, tables, all_tables = (page.value(shape % it) for it in ("figure", "table", "table")) if page.value("1") == 1 else (0, 0, 0)
    wrong = [f"{frames} empty frames"] * (frames > 0)
    return wrong + ["a table is hidden"] * (tables != page.value("document.querySelectorAll('table').length") or not all_tables)


def hostile(browser, path):
    """That the texts of HOSTILE are on the page as texts, and did nothing."""
    page = Page(browser, path)
    text = page.value("document.body.textContent.replace(/\\s+/g, ' ')")
    wrong = [f"not shown: {shown(it)!r}" for it in map(subject, HOSTILE) if " ".join(shown(it).split()) not in text]
    if "taken" in page.value("document.title") or page.value("document.scripts.length") != 3 or page.value("document.images.length"):
        wrong.append("a text of the store became markup")
    page.value("const it = document.createElement('script'); it.textContent = 'document.title = `taken`'; document.body.append(it); 0")
    if page.value("document.title") == "taken":
        wrong.append("the page would run another script")
    page.leave()
    return wrong
