"""A mail store ([MS-PST] 2.4): folders and their tables, messages with recipients and attachments."""
import random
import struct

from stores.contexts import (BINARY, BOOLEAN, INTEGER32, OBJECT, STRING, TIME, PropertyContext, TableContext, text)

STORE, NAME_MAP, ROOT = 0x21, 0x61, 0x122
TOP, SEARCH_ROOT, DELETED_ITEMS, INBOX = 0x8022, 0x8042, 0x8062, 0x8082
RECIPIENTS, ATTACHMENTS, EMBEDDED_MESSAGE = 0x692, 0x671, 0x200024
HIERARCHY, CONTENTS, ASSOCIATED = 0x0D, 0x0E, 0x0F

MESSAGE_CLASS, SUBJECT, SUBMIT_TIME, SENT_FOR = 0x001A, 0x0037, 0x0039, 0x0042
TOPIC, RECIPIENT_TYPE, SENDER_NAME, SENDER_KIND, SENDER_ADDRESS = 0x0070, 0x0C15, 0x0C1A, 0x0C1E, 0x0C1F
DISPLAY_TO, DELIVERY_TIME, MESSAGE_FLAGS, MESSAGE_SIZE = 0x0E04, 0x0E06, 0x0E07, 0x0E08
HAS_ATTACHMENTS, ATTACHMENT_SIZE, RECORD_KEY, OBJECT_TYPE = 0x0E1B, 0x0E20, 0x0FF9, 0x0FFE
BODY, CREATED, MODIFIED, CODE_PAGE = 0x1000, 0x3007, 0x3008, 0x3FDE
DISPLAY_NAME, ADDRESS_KIND, ADDRESS = 0x3001, 0x3002, 0x3003
FOLDER_MASK, TOP_ENTRY, DELETED_ENTRY, SEARCH_ENTRY = 0x35DF, 0x35E0, 0x35E3, 0x35E7
CONTENT_COUNT, UNREAD_COUNT, HAS_SUBFOLDERS = 0x3602, 0x3603, 0x360A
ATTACHMENT_DATA, FILE_NAME, ATTACHMENT_METHOD, LONG_FILE_NAME, POSITION = 0x3701, 0x3704, 0x3705, 0x3707, 0x370B

FOLDER_COLUMNS = [(DISPLAY_NAME, STRING), (CONTENT_COUNT, INTEGER32), (UNREAD_COUNT, INTEGER32),
                  (HAS_SUBFOLDERS, BOOLEAN)]
MESSAGE_COLUMNS = [(MESSAGE_CLASS, STRING), (SUBJECT, STRING), (SENDER_NAME, STRING), (DELIVERY_TIME, TIME),
                   (MESSAGE_FLAGS, INTEGER32), (MESSAGE_SIZE, INTEGER32), (SENT_FOR, STRING)]
RECIPIENT_COLUMNS = [(RECIPIENT_TYPE, INTEGER32), (DISPLAY_NAME, STRING), (ADDRESS_KIND, STRING), (ADDRESS, STRING),
                     (OBJECT_TYPE, INTEGER32)]
ATTACHMENT_COLUMNS = [(ATTACHMENT_SIZE, INTEGER32), (FILE_NAME, STRING), (ATTACHMENT_METHOD, INTEGER32),
                      (POSITION, INTEGER32)]
UNPLACED = 0xFFFFFFFF
FIRST_TIME = 132_000_000_000_000_000  # of 2019, in units of 100 nanoseconds since 1601
MINUTE = 600_000_000
PROVIDER = bytes(range(0x10, 0x20))
POOL = 1 << 20


def context(store, properties):
    """A property context of these properties, triples of property, type and value."""
    made = PropertyContext(store)
    for identifier, kind, value in properties:
        made.set(identifier, kind, value)
    return made


def table(store, columns, rows):
    """Writes a table; answers its data and the list of its subnodes."""
    made = TableContext(store, columns)
    for identifier, cells in rows:
        made.add(identifier, cells)
    return made.write()


def entry_identifier(folder):
    """The entry identifier of a folder (2.4.3.2)."""
    return bytes(4) + PROVIDER + struct.pack("<I", folder)


def message_store(store):
    """The properties of the store (2.4.3), and its map of named properties (2.4.7) with two of them."""
    store.node(STORE, *context(store, [
        (RECORD_KEY, BINARY, PROVIDER), (DISPLAY_NAME, STRING, text("Personal Folders")),
        (FOLDER_MASK, INTEGER32, 0x89), (TOP_ENTRY, BINARY, entry_identifier(TOP)),
        (DELETED_ENTRY, BINARY, entry_identifier(DELETED_ITEMS)),
        (SEARCH_ENTRY, BINARY, entry_identifier(SEARCH_ROOT)), (0x67FF, INTEGER32, 0)]).write())
    number, name = struct.pack("<IHH", 0x8554, 6, 0), struct.pack("<IHH", 0, 7, 1)
    words = text("Keywords")
    store.node(NAME_MAP, *context(store, [
        (1, INTEGER32, 251), (2, BINARY, PROVIDER), (3, BINARY, number + name),
        (4, BINARY, struct.pack("<I", len(words)) + words), (0x1000, BINARY, number)]).write())


def folder(store, identifier, parent, name, subfolders=(), messages=()):
    """A folder (2.4.4): its properties and three tables. Subfolders are triples of identifier, name and message
    count, messages are rows of its contents table."""
    store.node(identifier, *context(store, [
        (DISPLAY_NAME, STRING, text(name)), (CONTENT_COUNT, INTEGER32, len(messages)), (UNREAD_COUNT, INTEGER32, 0),
        (HAS_SUBFOLDERS, BOOLEAN, int(bool(subfolders)))]).write(), parent)
    rows = [(below, {DISPLAY_NAME: text(title), CONTENT_COUNT: count, UNREAD_COUNT: 0, HAS_SUBFOLDERS: 0})
            for below, title, count in subfolders]
    base = identifier & ~0x1F
    store.node(base | HIERARCHY, *table(store, FOLDER_COLUMNS, rows))
    store.node(base | CONTENTS, *table(store, MESSAGE_COLUMNS, messages))
    store.node(base | ASSOCIATED, *table(store, MESSAGE_COLUMNS, ()))


def message_context(store, number, body, has_attachments):
    """The properties of a message (2.4.5.1)."""
    sender, subject, time = number % 50, f"Message number {number}", struct.pack("<Q", FIRST_TIME + number * MINUTE)
    first = struct.pack("<Q", FIRST_TIME)
    return context(store, [
        (MESSAGE_CLASS, STRING, text("IPM.Note")), (SUBJECT, STRING, text("\x01\x01" + subject)),
        (TOPIC, STRING, text(subject)), (SUBMIT_TIME, TIME, time), (SENDER_NAME, STRING, text(f"Sender {sender}")),
        (SENDER_ADDRESS, STRING, text(f"s{sender}@example.org")), (SENDER_KIND, STRING, text("SMTP")),
        (SENT_FOR, STRING, text(f"Sender {sender}")), (DELIVERY_TIME, TIME, time),
        (MESSAGE_FLAGS, INTEGER32, 0x11 if has_attachments else 1), (DISPLAY_TO, STRING, text("Reader")),
        (MESSAGE_SIZE, INTEGER32, len(body) * 2), (CREATED, TIME, first), (MODIFIED, TIME, first),
        (BODY, STRING, text(body)), (HAS_ATTACHMENTS, BOOLEAN, int(has_attachments)), (CODE_PAGE, INTEGER32, 65001)])


def attachment(store, name, size, method, kind, value):
    """The properties of an attachment (2.4.6.2), without its data where that has to be set by its number."""
    made = context(store, [
        (ATTACHMENT_SIZE, INTEGER32, size), (FILE_NAME, STRING, text(name)), (LONG_FILE_NAME, STRING, text(name)),
        (ATTACHMENT_METHOD, INTEGER32, method), (POSITION, INTEGER32, UNPLACED)])
    made.set(ATTACHMENT_DATA, kind, value)
    return made


def embedded_attachment(store, message):
    """An attachment that is a message, given as its data and the list of its subnodes."""
    value = struct.pack("<II", EMBEDDED_MESSAGE, 100)
    made = attachment(store, "embedded", 100, 5, OBJECT, value)
    made.subnode(*message, identifier=EMBEDDED_MESSAGE)
    return made


def message(store, number, body, file=None, embedded=None):
    """Writes a message (2.4.5) with one recipient, and a file's bytes and an embedded message where given; answers
    its data and the list of its subnodes."""
    made = message_context(store, number, body, file is not None or embedded is not None)
    to = {RECIPIENT_TYPE: 1, DISPLAY_NAME: text("Reader"), ADDRESS_KIND: text("SMTP"),
          ADDRESS: text("reader@example.org"), OBJECT_TYPE: 6}
    made.subnode(*table(store, RECIPIENT_COLUMNS, [(0, to)]), identifier=RECIPIENTS)
    attached = []
    if file is not None:
        name = f"file{number}.bin"
        attached.append((0x8025, name, len(file), 1, attachment(store, name, len(file), 1, BINARY, file)))
    if embedded is not None:
        attached.append((0x8045, "embedded", 100, 5, embedded_attachment(store, embedded)))
    rows = [(identifier, {ATTACHMENT_SIZE: size, FILE_NAME: text(name), ATTACHMENT_METHOD: method, POSITION: UNPLACED})
            for identifier, name, size, method, _ in attached]
    if attached:
        made.subnode(*table(store, ATTACHMENT_COLUMNS, rows), identifier=ATTACHMENTS)
    for identifier, _, _, _, properties in attached:
        made.subnode(*properties.write(), identifier=identifier)
    return made.write()


def mail(store, messages=3, body=200, file=100):
    """MESSAGES BODY FILE: so many messages in one folder, with bodies of so many characters; every other message
    has a file of so many bytes attached, none has where that is 0. Of at most ten, the second has a message
    attached."""
    chance = random.Random(1)
    pool = chance.randbytes(max(2 * file, POOL))
    words = " ".join(f"word{chance.randrange(9999)}" for _ in range(20_000 + body // 5))
    message_store(store)
    rows = []
    for number in range(messages):
        start = number * 7919 % 100_000
        place = number * 104_729 % (len(pool) - file)
        own_file = pool[place:place + file] if file and number % 2 == 0 else None
        own_body = words[start:start + body]
        embedded = message(store, 10**6, "An embedded body") if messages <= 10 and number == 1 else None
        identifier = 0x20000 + number << 5 | 4
        store.node(identifier, *message(store, number, own_body, own_file, embedded), INBOX)
        rows.append((identifier, {
            MESSAGE_CLASS: text("IPM.Note"), SUBJECT: text(f"Message number {number}"), SENDER_NAME: text("Sender"),
            DELIVERY_TIME: FIRST_TIME + number, MESSAGE_FLAGS: 1, MESSAGE_SIZE: body, SENT_FOR: text("S")}))
    folders(store, rows)


def folders(store, rows):
    """The folders of a store (2.4.4), of which one has messages, given as rows of its contents table."""
    top = "Top of Personal Folders"
    folder(store, ROOT, ROOT, "", [(TOP, top, 0), (SEARCH_ROOT, "Search Root", 0)])
    folder(store, TOP, ROOT, top, [(DELETED_ITEMS, "Deleted Items", 0), (INBOX, "Inbox", len(rows))])
    folder(store, SEARCH_ROOT, ROOT, "Search Root")
    folder(store, DELETED_ITEMS, TOP, "Deleted Items")
    folder(store, INBOX, TOP, "Inbox", messages=rows)


def many_folders(store, count=20_000):
    """FOLDERS: so many folders without messages below one, each of four nodes."""
    message_store(store)
    below = [(0x10000 + number << 5 | 2, f"Folder {number}", 0) for number in range(count)]
    folder(store, ROOT, ROOT, "", below)
    for identifier, name, _ in below:
        folder(store, identifier, ROOT, name)


def bare_nodes(store, count=300_000):
    """NODES: a store without messages, and so many nodes that have nothing."""
    message_store(store)
    folder(store, ROOT, ROOT, "")
    for number in range(count):
        store.node(0x10000 + number << 5 | 0x1F, 0)


MAKERS = (mail, many_folders, bare_nodes)
