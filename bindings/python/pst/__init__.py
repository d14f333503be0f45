"""Proved answers about Outlook stores (.pst), over bytes in memory: the program pst_show as a library.

    import pst

    with pst.open("mail.pst", decode=True) as store:
        print(store.report)
        for message in store.messages():
            for attachment in store.props(message.nid).attachments:
                print(message.title, attachment.name)

A store that breaks a rule of the format raises `Refused`, with the first rule that it breaks and the place; a node that has no
properties, as a table, `NodeRefused`, and the store may be whole. Values are not copied: `value.view` is a `memoryview` of the file's
own bytes, and ends with the store.

docs/LIBRARY.md says what is proved of an answer, and what the caller owes.
"""

from ._errors import BadWords, Error, Fault, InUse, Missing, NodeRefused, Refused, Unread
from ._library import answer
from ._store import Folder, Lost, Message, Report, Store, title_of
from ._store import open_store as open
from ._values import (
    Attachment,
    Cell,
    Node,
    Properties,
    Property,
    Recipient,
    Value,
    time_of,
)

__version__ = "1.0.4"

__all__ = [
    "Attachment",
    "BadWords",
    "Cell",
    "Error",
    "Fault",
    "Folder",
    "InUse",
    "Lost",
    "Message",
    "Missing",
    "Node",
    "NodeRefused",
    "Properties",
    "Property",
    "Recipient",
    "Refused",
    "Report",
    "Store",
    "Unread",
    "Value",
    "answer",
    "open",
    "time_of",
    "title_of",
]
