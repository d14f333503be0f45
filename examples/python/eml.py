#!/usr/bin/env python3
"""Writes every message of an exported store as an .eml file, in folders by their paths: eml.py EXPORTED FOLDER

EXPORTED is a folder that `pst_show export FILE | tar x` made; nothing but it is read, and no library is needed. Each file is
FOLDER/PATH/NID.eml: the folder's path in the store, and the message's identifier. A message that no folder lists lies in FOLDER/lost,
and one that several list in each of them. Headers come from properties and recipients; the body is plain text, HTML, or both, or RTF
where there is no HTML; attachments keep their names, and messages that are embedded are message/rfc822.

What is left out is said, a line for each on standard error: RTF beside HTML, what is no compressed RTF, attachments that are neither bytes nor a
message. So are, without a line, the headers that a message came with (headers.txt), which are old beside the properties, messages about
folders (associated), and all other properties.
"""

import datetime
import email.policy
import json
import os
import sys
from email.headerregistry import Address, Group
from email.message import EmailMessage

import rtf

# The types of a recipient (0C15), and the header that lists them.
HEADERS = {1: "To", 2: "Cc", 3: "Bcc"}

# Code pages (3FDE) that Python names otherwise than by their number.
CODE_PAGES = {65001: "utf-8", 20127: "ascii", 28591: "latin-1", 28605: "iso8859-15"}

# From where times are counted, in steps of 100 nanoseconds.
START = datetime.datetime(1601, 1, 1, tzinfo=datetime.timezone.utc)


class Part:
    """A message or an attachment, by its folder: what stands in its props.json, and its files."""

    def __init__(self, place):
        self.place = place
        with open(os.path.join(place, "props.json"), encoding="utf-8") as file:
            self.told = json.load(file)
        self.props = {it["id"]: it for it in self.told["props"]}

    def bytes(self, id):
        """The bytes of a property that is a file; None where it is none."""
        name = self.props.get(id, {}).get("file")
        if name is None:
            return None
        with open(os.path.join(self.place, name), "rb") as file:
            return file.read()

    def value(self, id, type):
        """The value of a property with a type; a text that is a file is read."""
        prop = self.props.get(id)
        if prop is None or prop["type"] != type:
            return None
        return self.bytes(id).decode() if "file" in prop else prop["value"]

    def text(self, id):
        return self.value(id, "001F")


def plain(text):
    """A text of one line, for a header."""
    return "".join(" " if c < " " or c == "\x7f" else c for c in text or "").strip()


def title_of(subject):
    """A subject without its mark: \x01, and a character that tells how long its prefix is."""
    return (subject or "")[2:] if (subject or "").startswith("\x01") else subject


def mailbox(name, address):
    """A mailbox; a name without a usable address is a group of nobody, which mail programs show as a name."""
    user, _, host = plain(address).rpartition("@")
    if user and host and host.isascii() and " " not in user + host:
        try:
            return Address(plain(name), user, host)
        except (ValueError, IndexError):
            pass
    return Group(plain(name) or plain(address) or "unknown", ())


def set_times(message, part):
    for time in (part.value(id, "0040") for id in ("0039", "0E06")):
        try:
            if time is not None:
                message["Date"] = START + datetime.timedelta(microseconds=time // 10)
                return
        except OverflowError:
            pass


def recipients(part):
    """The cells of each recipient, by their tags."""
    return [{cell["tag"]: cell["value"] for cell in row["cells"]} for row in part.told["recipients"]]


def set_headers(message, part):
    message["Subject"] = plain(title_of(part.text("0037")))
    message["From"] = mailbox(part.text("0C1A"), part.text("5D01") or part.text("0C1F"))
    set_times(message, part)
    for kind, header in HEADERS.items():
        boxes = [
            mailbox(it.get("3001001F"), it.get("39FE001F") or it.get("3003001F"))
            for it in recipients(part)
            if it.get("0C150003") == kind
        ]
        if boxes:
            message[header] = boxes
    for id, header in (("1035", "Message-ID"), ("1042", "In-Reply-To"), ("1039", "References")):
        if text := plain(part.text(id)):
            message[header] = text


def html_of(part):
    """The HTML body: a text, or bytes in the code page of the message."""
    if part.text("1013") is not None:
        return part.text("1013")
    body = part.bytes("1013")
    if body is None:
        return None
    page = part.value("3FDE", "0003") or 65001
    try:
        return body.decode(CODE_PAGES.get(page, f"cp{page}"), "replace")
    except LookupError:
        return body.decode("latin-1")


def rtf_of(part):
    """The RTF body, as it is without compression."""
    body = part.bytes("1009")
    if not body:
        return None
    try:
        return rtf.decompressed(body)
    except ValueError as error:
        say(f"{part.place}: its compressed RTF: {error}")
        return None


def set_body(message, part):
    text, html, rich = part.text("1000"), html_of(part), rtf_of(part)
    if rich is not None and html is not None:
        say(f"{part.place}: its RTF, since it has HTML")
        rich = None
    if text is not None or (html is None and rich is None):
        message.set_content(text or "")
        if html is not None:
            message.add_alternative(html, subtype="html")
        elif rich is not None:
            message.add_alternative(rich, maintype="text", subtype="rtf")
    elif html is not None:
        message.set_content(html, subtype="html")
    else:
        message.set_content(rich, maintype="text", subtype="rtf")


def is_type(main, sub):
    """Whether it is a type of a body that an attachment can have."""
    word = sub.replace("-", "").replace(".", "").replace("+", "")
    return main.isalnum() and main not in ("multipart", "message") and word.isalnum() and (main + word).isascii()


def add_attachment(message, part):
    name = plain(part.text("3707") or part.text("3704")) or None
    embedded, data = part.told["embedded"], part.bytes("3701")
    if embedded is not None:
        message.add_attachment(message_of(Part(os.path.join(part.place, embedded))), filename=name)
    elif data is None:
        say(f"{part.place}: it is neither bytes nor a message")
    else:
        main, _, sub = plain(part.text("370E")).lower().partition("/")
        if not is_type(main, sub):
            main, sub = "application", "octet-stream"
        message.add_attachment(data, maintype=main, subtype=sub, filename=name)


def message_of(part):
    """A message with all that is in it."""
    message = EmailMessage(email.policy.SMTP)
    set_headers(message, part)
    set_body(message, part)
    for attachment in part.told["attachments"]:
        add_attachment(message, Part(os.path.join(part.place, attachment["nid"])))
    return message


def folder_name(folder):
    """A name that is one step of a path and leads nowhere else."""
    name = "".join("_" if c < " " or c in "/\\:\x7f" else c for c in folder["name"] or folder["nid"])[:60]
    return name if name.strip(". ") else folder["nid"]


def places_of(exported):
    """The folder on the disk of each folder of the store."""
    with open(os.path.join(exported, "folders.json"), encoding="utf-8") as file:
        folders = {it["nid"]: it for it in json.load(file)["folders"]}
    return {
        nid: os.path.join(*(folder_name(folders[step]) for step in it["path"])) if it["path"] else os.path.join("lost", nid)
        for nid, it in folders.items()
    }


def messages_of(exported):
    with open(os.path.join(exported, "messages.jsonl"), encoding="utf-8") as file:
        yield from map(json.loads, file)


def write(path, message):
    """Makes a file, which must not be there yet."""
    os.makedirs(os.path.dirname(path), exist_ok=True)
    with open(path, "xb") as out:
        out.write(message.as_bytes())


def say(text):
    print(f"left out: {text}", file=sys.stderr)


def main():
    if len(sys.argv) != 3:
        print(f"usage: {sys.argv[0]} EXPORTED FOLDER", file=sys.stderr)
        return 2
    exported, folder = sys.argv[1:]
    # Messages lie in one another up to 128 deep, and Python's email writes each by some calls within those of the one around it.
    sys.setrecursionlimit(20_000)
    try:
        places = places_of(exported)
        for it in messages_of(exported):
            message = message_of(Part(os.path.join(exported, "messages", it["nid"])))
            for place in [places[nid] for nid in it["folders"]] or ["lost"]:
                write(os.path.join(folder, place, f"{it['nid']}.eml"), message)
    except OSError as error:
        print(f"{error.filename}: {error.strerror}", file=sys.stderr)
        return 3
    return 0


if __name__ == "__main__":
    sys.exit(main())
