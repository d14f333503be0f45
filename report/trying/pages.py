"""The pages that are tried: of which store each is, how its report ends, and its numbers beside those of pst_show's own answers."""

import json
import os
import resource
import subprocess
import sys
from collections import Counter
from typing import NamedTuple

from trying import stores
from trying.chromium import Page

HERE = os.path.dirname(os.path.dirname(os.path.abspath(__file__)))
ROOT = os.path.dirname(HERE)
REPORT = os.path.join(HERE, "pst_report")
MOST_SECONDS = 10


def sample(name):
    """A sample as it lies there."""
    return lambda room: os.path.join(ROOT, "samples", f"{name}.pst")


def by(maker, *words):
    """A store that a function makes."""
    def make(room):
        path = os.path.join(room, f"{maker.__name__}.pst")
        maker(path, *words)
        return path
    return make


def of_bench(*words):
    """A store of bench/make_store."""
    def make(room):
        path = os.path.join(room, f"{'_'.join(words)}.pst")
        subprocess.run([sys.executable, os.path.join(ROOT, "bench", "make_store"), words[0], path, *words[1:]], check=True)
        return path
    return make


def broken(room):
    """The mailbox with some bytes changed."""
    path = os.path.join(room, "damaged.pst")
    stores.damaged(by(stores.mailbox)(room), path)
    return path


def unclosed(room):
    """A sample whose maps are marked as invalid."""
    path = os.path.join(room, "unclosed.pst")
    stores.unclosed(sample("mail")(room), path)
    return path


def cut(room):
    """A store of which only the header is left, and not all of that."""
    path = os.path.join(room, "cut.pst")
    with open(sample("mail")(room), "rb") as file, open(path, "wb") as other:
        other.write(file.read(300))
    return path


def verdicts(room, program):
    """A table of verdicts over the samples and some that are none."""
    table = os.path.join(room, "verdicts.tsv")
    names = sorted(it for it in os.listdir(os.path.join(ROOT, "samples")) if it.endswith(".pst"))
    paths = [os.path.join(ROOT, "samples", it) for it in names] + [cut(room), broken(room), unclosed(room), os.path.join(room, "gone.pst")]
    with open(table, "w", encoding="utf-8") as file:
        for path in paths:
            ran = subprocess.run([program, "check", "--decode", path], capture_output=True, text=True, check=False)
            file.write(f"{ran.returncode}\t{path}\t{' '.join((ran.stdout + ran.stderr).splitlines())}\n")
    return table


# The name of each page, the store that it is of, and the status with which its report ends.
TRIALS = {
    "whole": (sample("mail"), 0), "encoded": (sample("mail_permute"), 0), "cyclic": (sample("mail_cyclic"), 0),
    "least": (sample("m0"), 0),
    "lost-runs": (sample("growths"), 0), "lost-folders": (sample("paths1"), 0), "in-no-folder": (sample("listed"), 0),
    "mailbox": (by(stores.mailbox), 0), "hostile": (by(stores.hostile), 0), "months": (by(stores.months), 0),
    "damaged": (broken, 1), "unclosed": (unclosed, 1), "pages-alone": (sample("outlook_pages"), 1), "cut": (cut, 1),
    "folders": (of_bench("many_folders", "3000"), 0), "lost-space": (of_bench("lost_runs", "8"), 0),
    "messages": (of_bench("mail", "20000", "60", "0"), 0),
    "large": (of_bench("mail", "80000", "60", "0"), 0), "many": (None, 0),
}
QUICK = ("whole", "encoded", "mailbox", "hostile", "damaged", "messages", "many")


class Made(NamedTuple):
    """A page: where it is, its text, what is wrong with it, and what else is told."""
    path: str
    text: str
    wrong: list
    more: str


def spent(words, **how):
    """Runs a command; answers what it printed, its status, and the processor seconds that it and those below it took."""
    before = resource.getrusage(resource.RUSAGE_CHILDREN)
    ran = subprocess.run(words, capture_output=True, check=False, **how)
    after = resource.getrusage(resource.RUSAGE_CHILDREN)
    return ran, after.ru_utime + after.ru_stime - before.ru_utime - before.ru_stime


def made(name, program, room):
    """Makes a page and looks at its numbers."""
    maker, status = TRIALS[name]
    words = ["--many", verdicts(room, program)] if maker is None else [maker(room)]
    folder, file = os.path.split(words[-1])
    ran, seconds = spent([REPORT, "--program", program, *words[:-1], file], cwd=folder)
    path = os.path.join(HERE, "out", f"{name}.html")
    with open(path, "wb") as file:
        file.write(ran.stdout)
    wrong = [] if ran.returncode == status and not ran.stderr else [f"status {ran.returncode}, {ran.stderr.decode()}"]
    text = ran.stdout.decode()
    if maker is None:
        return Made(path, text, wrong + many(text, words[1]), "")
    told, beside = answers(program, words[0], status)
    wrong += numbers(text, told) + ([f"{seconds - beside:.1f} s beside the commands"] if seconds - beside > MOST_SECONDS else [])
    return Made(path, text, wrong, f"; {max(seconds - beside, 0):.1f} s beside the {beside:.1f} s of the commands")


def answers(program, path, status):
    """What the commands answer, and the processor seconds of those that the report asks."""
    told, beside = {}, 0.0
    decode = ["--decode"] * (b"Encoded" in spent([program, "check", path])[0].stderr)
    for command in ("head", "check", "folders", "messages") if status == 0 else ("head", "check", "damage"):
        ran, seconds = spent([program, command, *decode, path])
        beside += seconds
        told[command] = [json.loads(it) for it in ran.stdout.split(b"\n") if it]
    return told, beside


def data_of(text):
    return json.loads(text.partition('<script type="application/json" id="data">')[2].partition("</script>")[0])


def rows_of(text, name):
    """How many rows a table has, as it says; 0 where it is not there."""
    return int((text.partition(f'<table id="{name}-table" data-rows="')[2].partition('"')[0]) or 0)


def differ(what, one, other):
    return [] if one == other else [f"{what}: {one} and not {other}"]


def numbers(text, told):
    """The numbers of a page beside those of the answers."""
    data, damage = data_of(text), (told.get("damage") or [None])[0]
    if damage:
        return [it for name in ("nodes", "blocks", "pages") for it in differ(name, rows_of(text, name), min(len(damage[name]), 500))]
    if "messages" not in told:
        return differ("data", data, {"strip": None})
    rows, every = told["messages"], told["folders"][0]["folders"]
    months = Counter(it["received"][:7] for it in rows if it["received"])
    held = sum(max(it["size"] or 0, 0) * len(it["folders"]) for it in rows)
    lost = sum(it["len"] for it in told["check"][0]["lost"])
    bars, parts = (data["times"] or {"bars": []})["bars"], {it["kind"]: it["bytes"] for it in data["strip"]["parts"]}
    wrong = differ("bytes of folders", sum(it["bytes"] for it in data["folders"]), held)
    wrong += differ("months", Counter({it["when"]: it["count"] for it in bars}), by_year(months) if len(months) > 1200 else months)
    wrong += differ("folders", rows_of(text, "folders"), min(sum(it["path"] is not None for it in every), 500))
    wrong += differ("lost folders", rows_of(text, "lost-folders"), min(sum(it["path"] is None for it in every), 500))
    wrong += differ("largest", rows_of(text, "largest"), min(len(rows), 500))
    wrong += differ("messages in no folder", rows_of(text, "unlisted"), min(sum(not it["folders"] for it in rows), 500))
    wrong += differ("lost bytes", parts.get("lost", 0), lost)
    return wrong + differ("free bytes", parts.get("free", 0), told["head"][0]["free"])


def by_year(months):
    years = Counter()
    for name, count in months.items():
        years[name[:4]] += count
    return years


def many(text, table):
    """The numbers of the page over many stores beside its table."""
    with open(table, encoding="utf-8") as file:
        lines = [it.split("\t") for it in file.read().splitlines()]
    data = data_of(text)
    wrong = differ("files", rows_of(text, "stores"), len(lines))
    wrong += differ("refused", sum(it["count"] for it in data["kinds"]), sum(it[0] != "0" for it in lines))
    held = sum(os.path.getsize(it[1]) for it in lines if os.path.exists(it[1]))
    return wrong + differ("bytes", sum(it["bytes"] for it in data["sizes"]), held)


def pictures(browser, program, room):
    """Writes the pictures of docs/: what is drawn of a whole store, and the beginning of the page of a damaged one, in the dark."""
    for name, scheme, first, last in (("mailbox", "light", "#strip", "#times figure"), ("damaged", "dark", "header", "#strip")):
        made(name, program, room)
        page = Page(browser, os.path.join(HERE, "out", f"{name}.html"), width=1200, scheme=scheme)
        page.shot(os.path.join(ROOT, "docs", f"report-{name}.png"), first, last)
        page.leave()
