"""Stores that the report is tried with, made by the parts of which bench/make_store is made."""

import os
import random
import struct
import sys
from datetime import datetime, timezone

ROOT = os.path.dirname(os.path.dirname(os.path.dirname(os.path.abspath(__file__))))
sys.path.insert(0, os.path.join(ROOT, "bench"))

from stores import mail  # noqa: E402
from stores.contexts import INTEGER32, STRING, TIME, text  # noqa: E402
from stores.database import NodeDatabase, check_value  # noqa: E402

# What a text of a store may try: markup, the ends of what it may stand in, what turns or hides its neighbours, what is no character.
HOSTILE = [
    "<script>document.title = 'taken'</script>", "</script><script>document.title = 'taken'</script>", "]]> --> */ <!--",
    "<img src=x onerror=\"document.title = 'taken'\">", "</title></style></table><h1>taken</h1>", "\u202egpj.eciovni\u202c.exe",
    "\u2066\u2067\u2068 isolates", "a\x00b\x07c\x1bd\x7fe\x85f", "line\nfeed\ttab\r\u2028\u2029",
    "zero\u200bwidth\ufeff\u00ad", "\ufffe\ud7ff\ue000",
    "{{main}} {{script}} \\1 \\g<0> $& $$", "javascript:alert(1)", "&lt;script&gt; &amp; \" ' `",
    "\u05e9\u05dc\u05d5\u05dd \u0645\u0631\u062d\u0628\u0627", "\U0001f600\U0001f468\u200d\U0001f469\u200d\U0001f467",
    "e" + "\u0301" * 150, "long " * 2000, "%3Cscript%3E", "__proto__", "constructor", "\x01\x05RE: a prefix", "\x01", "",
]


def filetime(when):
    """A time as stores have it: units of 100 nanoseconds since 1601."""
    return round((when - datetime(1601, 1, 1, tzinfo=timezone.utc)).total_seconds()) * 10_000_000


class Mailbox:
    """A store that is made folder by folder: `folder` and `message` first, `write` last."""

    def __init__(self):
        self.below, self.rows, self.names, self.made, self.next = {}, {}, {}, [], 0x20000
        self.names[mail.ROOT], self.below[mail.ROOT], self.rows[mail.ROOT] = "", [], []

    def folder(self, identifier, parent, name, is_lost=False):
        self.names[identifier], self.below[identifier], self.rows[identifier] = name, [], []
        if not is_lost:
            self.below[parent].append(identifier)
        return identifier

    def message(self, folder, subject, sender, received, size):
        """A message; folder is None where no folder is to list it."""
        identifier, self.next = self.next << 5 | 4, self.next + 1
        self.made.append((identifier, folder or mail.ROOT, subject, sender, received, size))
        if folder:
            self.rows[folder].append((identifier, {mail.MESSAGE_CLASS: text("IPM.Note"), mail.MESSAGE_SIZE: size & 0xFFFFFFFF}))

    def write(self, path):
        with open(path, "wb") as file:
            store = NodeDatabase(file)
            mail.message_store(store)
            for made in self.made:
                self.write_message(store, *made)
            for identifier, name in self.names.items():
                parent = next((it for it, below in self.below.items() if identifier in below), mail.ROOT)
                below = [(it, self.names[it], len(self.rows[it])) for it in self.below[identifier]]
                mail.folder(store, identifier, parent, name, below, self.rows[identifier])
            store.close()

    @staticmethod
    def write_message(store, identifier, folder, subject, sender, received, size):
        properties = [(mail.MESSAGE_CLASS, STRING, text("IPM.Note")), (mail.SUBJECT, STRING, text(subject)),
                      (mail.SENDER_NAME, STRING, text(sender)), (mail.MESSAGE_SIZE, INTEGER32, size & 0xFFFFFFFF)]
        if received is not None:
            properties.append((mail.DELIVERY_TIME, TIME, struct.pack("<Q", received)))
        made = mail.context(store, properties)
        made.subnode(*mail.table(store, mail.RECIPIENT_COLUMNS, []), identifier=mail.RECIPIENTS)
        store.node(identifier, *made.write(), folder)


FOLDERS = [
    (1, 0, "Top of Outlook data file", 0), (2, 1, "Inbox", 420), (3, 1, "Sent Items", 260), (4, 1, "Archive", 40), (5, 4, "2022", 110),
    (6, 4, "2023", 160), (7, 1, "Projects", 12), (8, 7, "Harbour bridge", 130), (9, 8, "Tenders", 60), (10, 8, "Minutes", 35),
    (11, 7, "School roof", 75), (12, 1, "Newsletters", 180), (13, 1, "Deleted Items", 55), (14, 1, "Drafts", 4),
    (15, 1, "Junk E-mail", 30), (16, 2, "From the council", 85),
]
SUBJECTS = ["Agenda for Thursday", "Invoice 4711", "Re: site visit", "Photos of the north pier", "Minutes, second draft", "Lunch?",
            "Budget 2024", "Out of office", "Drawings, sheet 12", "Re: Re: delivery dates", "Contract for signature", "Weekly summary"]
SENDERS = ["Ada Berg", "Council office", "M. Duarte", "Print shop", "Ruth Okafor", "Site engineer", "no-reply", "Tomasz W."]


def mailbox(path):
    """A store as people have them, in 16 folders over three years; one folder is lost, and three messages are in none."""
    chance, made = random.Random(7), Mailbox()
    places = {0: mail.ROOT} | {number: 0x8000 + number * 32 | 2 for number, *_ in FOLDERS}
    start = datetime(2021, 9, 3, tzinfo=timezone.utc).timestamp()
    for number, parent, name, count in FOLDERS:
        folder = made.folder(places[number], places[parent], name)
        for _ in range(count):
            one(made, folder, chance, start)
    lost = made.folder(0x9002, mail.ROOT, "Old inbox", is_lost=True)
    for _ in range(24):
        one(made, lost, chance, start)
    for _ in range(3):
        one(made, None, chance, start)
    made.write(path)


def one(made, folder, chance, start):
    """One message, somewhere in three years and more in autumn, of a size as those of messages are."""
    day = chance.triangular(0, 1100, chance.choice((60, 420, 790)))
    when = filetime(datetime.fromtimestamp(start + day * 86400, timezone.utc))
    made.message(folder, "\x01\x01" + chance.choice(SUBJECTS), chance.choice(SENDERS), when, int(chance.lognormvariate(10, 1.6)))


def hostile(path):
    """A store whose texts are those of HOSTILE, as subjects, senders and names of folders; its times and sizes are odd, too."""
    made = Mailbox()
    times = [None, 0, filetime(datetime(9999, 12, 31, tzinfo=timezone.utc)), filetime(datetime(2020, 2, 29, tzinfo=timezone.utc))]
    parent = mail.ROOT
    for number, words in enumerate(HOSTILE):
        parent = made.folder(0x8000 + number * 32 | 2, parent if number % 3 else mail.ROOT, words[:900], is_lost=number % 5 == 4)
        for size in (1000 + number, -5, 0):
            made.message(parent if number % 4 else None, words, words, times[(number + size) % 4], size)
    made.write(path)


def months(path, count=3000):
    """A store with a message in each of so many months."""
    made = Mailbox()
    folder = made.folder(0x8022, mail.ROOT, "Each month")
    for number in range(count):
        when = filetime(datetime(1700 + number // 12, number % 12 + 1, 5, tzinfo=timezone.utc))
        made.message(folder, f"Month {number}", "Clock", when, 100 + number)
    made.write(path)


def unclosed(source, path):
    """A copy whose header marks the allocation maps as invalid ([MS-PST] 2.2.2.5), with check values that fit (2.2.2.6)."""
    with open(source, "rb") as file:
        held = bytearray(file.read())
    held[0xF8] = 0
    for at, length in ((4, 471), (524, 516)):
        held[at:at + 4] = struct.pack("<I", check_value(held[8:8 + length]))
    with open(path, "wb") as file:
        file.write(held)


def damaged(source, path, count=6):
    """A copy with a byte changed in so many places, the first of them behind the pages of the trees."""
    with open(source, "rb") as file:
        held = bytearray(file.read())
    for number in range(count):
        held[len(held) * (2 * number + 9) // (2 * count + 12)] ^= 0x55
    with open(path, "wb") as file:
        file.write(held)
