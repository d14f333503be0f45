"""What a page says of one file in words: the verdict with the first fault explained, what the file is, what was counted."""

from reporting import texts
from reporting.document import code, facts, paragraph
from reporting.store import ENCODINGS

LONGEST_LINE = 2000
OUTSIDE = {"Short", "Magic", "Version", "Encoded"}
UNCLOSED = "MapsInvalid"
# In themselves no sign of damage.
OUTSIDE_OF_PROFILE = {"Version", "Encoded", UNCLOSED}


def classed(store):
    """Which of the three verdicts it is: yes, no, or that the file is none of which pst_show says more."""
    if store.check:
        return "yes"
    return "other" if store.fault.kind in OUTSIDE or is_unclosed_alone(store) else "no"


def is_unclosed_alone(store):
    """Whether all that is told of the file is that its maps are marked as invalid."""
    return store.fault.kind == UNCLOSED and store.damage is not None and parts_broken(store.damage) == "the header"


def words(store):
    """The verdict in a few words, and what it says."""
    encoded = " It is encoded, and was decoded in memory." if store.encoding else ""
    if store.check:
        return ("Yes: this file is a mail store, whole by all rules that pst_show checks.",
                "Its header, both index trees, every block by its check value, the allocation maps, and the properties and tables of every "
                "folder, message and attachment are what these rules ask for, and all that they name is there." + encoded)
    if store.fault.kind in OUTSIDE:
        return ("No: this file is none of the stores that pst_show checks.",
                "Nothing more of it was looked at, so nothing is said of damage.")
    if store.damage is None:
        return ("No: this file breaks a rule of the format.", "What else may be broken is not told." + encoded)
    if is_unclosed_alone(store):
        return ("No: the allocation maps of this store are marked as invalid.", "Its header marks them so, as Outlook does where it is cut off; it "
                "makes them anew when it next opens the store. Nothing else is broken." + encoded)
    return ("No: this file is damaged.", f"The first rule that it breaks is told below. Broken: {parts_broken(store.damage)}."
            + encoded + hidden(store.damage))


def hidden(damage):
    """Where an index page is broken there may be more than is told."""
    pages = len(damage["pages"])
    return f" What only {'that index page names' if pages == 1 else 'those index pages name'} may not be known." if pages else ""


def parts_broken(damage):
    """As `the header, 1 index page and 3 blocks`."""
    header = "the header, or the length of the file" if damage["header"] and damage["header"]["kind"] == "Root" else "the header"
    parts = [word for key, word in (("header", header), ("maps", "the allocation maps")) if damage[key]]
    lists = (("pages", "index page"), ("blocks", "block"), ("nodes", "node"))
    parts += [texts.counted(len(damage[key]), word) for key, word in lists if damage[key]]
    return " and ".join(filter(None, (", ".join(parts[:-1]), parts[-1])))


def verdict(store):
    """The verdict, the fault explained, and the line of check itself."""
    first, then = words(store)
    answer = next(it for it in store.program.answers if it.words[0] == "check")
    line = answer.line or answer.text.rstrip("\n")
    cut = paragraph(f"Its first {LONGEST_LINE:,} of {len(line):,} characters.", "note") if len(line) > LONGEST_LINE else ""
    told = "" if store.check else explained(store.fault)
    return (f'<div class="verdict {classed(store)}"><p class="word">{first}</p>{paragraph(then)}</div>{told}'
            f'<h3>The line of {code("check")}</h3><pre>{texts.escaped(line[:LONGEST_LINE])}</pre>{cut}')


def explained(fault):
    """A fault piece by piece, in the words of explain."""
    told = fault.told
    rows = [("The first fault", f"<b>{fault.name}</b>: {texts.escaped(told.get('says', ''))}")]
    for key, word, value in (("at", "at", fault.at), ("bid", "bid", fault.bid), ("nid", "nid", fault.nid)):
        rows.append((word, f"{code(f'{value:#x}')}: {texts.escaped(told.get(key, '').removeprefix('0x0, '))}"))
    rows.append(("What to do", texts.escaped(told.get("to do", ""))))
    rows.append(("The rule comes from", texts.escaped(f"[MS-PST] {told.get('[MS-PST]', '')}")))
    return facts(rows)


def about_file(store, now):
    """Name, length, digest, date, encoding."""
    encoded = "no"
    if store.encoding:
        encoded = f"yes, by {texts.escaped(ENCODINGS[store.encoding])}; read with {code('--decode')}"
    elif store.fault and store.fault.kind in OUTSIDE:
        encoded = f"{texts.escaped(store.fault.name)}" if store.fault.kind == "Encoded" else "not known"
    return facts([
        ("Name", texts.foreign(store.path, 1000)),
        ("Length", f"{texts.counted(store.seal.length, 'byte')} ({texts.size(store.seal.length)})" if store.seal.length >= 1000
         else texts.counted(store.seal.length, "byte")),
        ("SHA-256", code(store.seal.sha256)),
        ("Date of this report", f'<time datetime="{now:%Y-%m-%dT%H:%M:%SZ}">{now:%-d %B %Y, %H:%M} UTC</time>'),
        ("Encoded", encoded),
        ("Read with", f"{texts.escaped(store.program.version)}, SHA-256 {code(store.program.sha256)}"),
    ])


def counts(store):
    """The numbers of the store: of a damaged one those that are whole."""
    if store.check:
        rows = [(it.capitalize(), store.check[it]) for it in ("folders", "messages", "nodes", "blocks", "pages")]
        rows.append(("Bytes lost", sum(it["len"] for it in store.check["lost"])))
        about = ("Messages count those that belong to folders themselves, too. A node is a unit that a store is made of; its bytes lie in "
                 "blocks, and pages index both. Bytes are lost where the maps mark them as used and nothing uses them: no fault.")
    elif store.damage:
        whole = store.damage["whole"]
        rows = [(f"{it.capitalize()} whole", whole[it]) for it in ("folders", "messages", "nodes")]
        rows += [(f"{it.capitalize()} broken", len(store.damage[it])) for it in ("nodes", "blocks", "pages")]
        about = ("A node is a unit that a store is made of: a folder, one of its tables, a message. Its bytes lie in blocks; pages index "
                 "both.")
    else:
        return paragraph("Nothing is counted of a file that is no such store.", "none")
    return facts([(word, texts.number(value)) for word, value in rows], "counts") + paragraph(about, "note")
