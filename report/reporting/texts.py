"""How things are shown: a text of a store as a text and never as markup, numbers, sizes, times."""

import html
import json
import unicodedata

LONGEST = 200
JOINERS = "\u200c\u200d"  # they make words of Persian, and one picture of several
MOST_MARKS = 4  # of those that stand on one character
HIDDEN = {"Cc", "Cf", "Cs", "Co", "Cn", "Zl", "Zp"}


def named(character):
    """A character that would not be seen, or that would move its neighbours, by its number."""
    return f"[U+{ord(character):04X}]"


def is_hidden(character):
    return character not in JOINERS and unicodedata.category(character) in HIDDEN


def unpiled(text):
    """A text in which no character bears so many marks that they would cover what stands above and below; how many more there
    were is told."""
    made, marks = [], 0
    for character in [*text, ""]:
        if character and unicodedata.combining(character):
            marks += 1
            if marks > MOST_MARKS:
                continue
        else:
            made.append(f"[{marks - MOST_MARKS} more marks]" if marks > MOST_MARKS else "")
            marks = 0
        made.append(character)
    return "".join(made)


def shown(text, longest=LONGEST):
    """A text in which each character can be seen, and cut where it is long."""
    text, rest = text[:longest], text[longest:]
    if not text.isascii() or not text.isprintable():
        text = "".join(named(it) if is_hidden(it) else it for it in unpiled(text))
    return text + ("\u2026" if rest else "")


def subject(text):
    """A subject without the two characters with which Outlook says how long its prefix is."""
    return text[2:] if text[:1] == "\x01" and len(text) > 1 else text


def escaped(text):
    """A text of our own for HTML."""
    return html.escape(text, quote=True)


def foreign(text, longest=LONGEST):
    """A text of the store, or the name of a file, for HTML: apart from what stands beside it, whichever way it is read."""
    return f"<bdi>{escaped(shown(text, longest))}</bdi>"


def data(value):
    """A value as JSON that may stand in a script element: in ASCII, and without a character of markup."""
    made = json.dumps(value, ensure_ascii=True, separators=(",", ":"))
    return made.replace("<", "\\u003c").replace(">", "\\u003e").replace("&", "\\u0026")


def number(value):
    return f"{value:,}"


def counted(value, one, many=None):
    """So many of a thing, as `1 folder` and `2 folders`."""
    return f"{value:,} {one if value == 1 else many or one + 's'}"


def size(value):
    """A number of bytes as people say it."""
    if abs(value) < 1000:
        return counted(value, "byte")
    for unit in ("kB", "MB", "GB", "TB", "PB"):
        value /= 1000
        if abs(value) < 999.5:
            break
    return f"{value:.3g} {unit}" if abs(value) < 999.5 else f"{value:,.0f} {unit}"


def time(text):
    """A time of pst_show's to the minute."""
    return f"{text[:10]} {text[11:16]}"
