"""The page of one store."""

import os

from reporting import texts
from reporting.again import again
from reporting.broken import broken
from reporting.contents import folders, largest, times, unlisted
from reporting.document import document, paragraph
from reporting.strip import strip
from reporting.verdict import about_file, classed, counts, verdict

LEFT = "No folders and messages are shown of a file that is not a whole store."


def page(store, now):
    """The document: the verdict first, then what the file is and what is in it, and how to check it again."""
    name = os.path.basename(store.path)
    data, sections = {}, [("verdict", "Verdict", verdict(store)), ("file", "The file", about_file(store, now))]
    sections.append(("counts", "Counts", counts(store)))
    data["strip"], made = strip(store)
    sections.append(("strip", "The file as a strip", made))
    if store.folders is not None:
        data["folders"], made = folders(store)
        sections.append(("folders", "Folders", part(store) + made))
        data["times"], made = times(store)
        sections.append(("times", "Messages over time", part(store) + made))
        sections.append(("largest", "The largest messages", largest(store)))
    elif store.damage:
        sections.append(("folders", "Folders and messages", paragraph(LEFT, "none")))
    sections.append(("broken", "What is broken", broken(store)))
    if store.folders is not None:
        sections.append(("unlisted", "Messages that no folder lists", unlisted(store)))
    sections.append(("again", "How to check this again", again(store)))
    heading = f'<span class="of">Report on</span> {texts.foreign(name, 1000)}'
    version = texts.escaped(store.program.version)
    footer = f"Made by pst_report of the answers of {version}. The pictures are drawn by d3. This page needs no network."
    title = "A file that is no mail store which pst_show reads" if classed(store) == "other" and not store.damage else "A mail store of Outlook (.pst)"
    return document(title, heading, f"Report on {texts.escaped(texts.shown(name))}", sections, data, footer)


def part(store):
    """A line where only what is whole is shown."""
    return paragraph("Only what is whole is shown here: the file has a fault.", "note") if store.is_part else ""
