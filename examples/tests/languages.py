"""The examples in C, Rust and Python, beside the program."""

import json
import os
import re

from tests.trial import EXAMPLES, SANITIZERS, VALGRIND, python, sample

NAMES = ("verdicts", "attachments", "messages")


def builds(trial):
    """What is built first, as jobs."""
    if not trial.lacks("the examples in C", "gcc"):
        for name in NAMES:
            sources = [f"c/{name}.c", "c/store.c", "c/json.c"]
            yield trial.build_c, name, sources
            if trial.is_sanitized:
                yield trial.build_c, f"{name}-checked", sources, *SANITIZERS
    if not trial.lacks_rust("the examples in Rust"):
        yield build_rust, trial


def build_rust(trial):
    words = ["cargo", "build", "-q"] if trial.is_quick else ["cargo", "build", "-q", "--release"]
    trial.need("the examples in Rust are built", *words, cwd=f"{trial.rust}/examples/rust")


def jobs(trial):
    yield verdicts, trial
    for path in few(trial, trial.samples):
        yield table, trial, path
    for name in few(trial, ["mail.pst", "mail_permute.pst", "mail_cyclic.pst"]):
        yield attachments, trial, sample(name)


def few(trial, names):
    """Of a list of samples some where the trial is quick."""
    wanted = ("mail.pst", "mail_permute.pst", "growths.pst", "m0.pst")
    return [it for it in names if not trial.is_quick or os.path.basename(it) in wanted]


def each_language(trial, name, path):
    """The words that begin a run of an example, over this file."""
    if trial.has("gcc"):
        yield "C", [trial.path(name)]
        if trial.is_sanitized:
            yield "C, sanitized", [trial.path(f"{name}-checked")]
        if trial.has("valgrind") and (not trial.is_quick or os.path.basename(path) == "mail.pst"):
            yield "C under valgrind", [*VALGRIND, trial.path(name)]
    if trial.has_rust:
        yield "Rust", [os.path.join(trial.work, "cargo", "debug" if trial.is_quick else "release", name)]
    yield "Python", python(f"{EXAMPLES}/python/{name}.py")


def said(ran):
    return (ran.stdout + ran.stderr).decode(errors="replace")


def verdicts(trial):
    wanted = b""
    for path in trial.samples:
        ran = trial.show(path, "check", "--decode", "-")
        wanted += f"{path}\t{ran.returncode}\t".encode() + (ran.stdout or ran.stderr)
    for language, words in each_language(trial, "verdicts", ""):
        ran = trial.run(*words, os.path.dirname(trial.samples[0]))
        trial.tally.note(f"verdicts in {language}", (ran.returncode, ran.stdout) == (0, wanted), said(ran))


def cell(value):
    """A cell of a table, in CSV."""
    if isinstance(value, str):
        return '"' + value.replace('"', '""') + '"'
    return "" if value is None else str(value)


def row(message, names):
    """The row of a message, by what the program says of it."""
    title = re.sub(r"\A\x01.", "", message["subject"] or "", flags=re.DOTALL)
    folders = (names.get(nid) for nid in message["folders"])
    folders = [nid if name is None else name for nid, name in zip(message["folders"], folders)]
    cells = [*(message[key] for key in ("nid", "sent", "sender")), title, message["size"], "; ".join(folders)]
    return ",".join(map(cell, cells)) + "\n"


def messages_of(trial, path):
    """The messages of a store, by the program; None where it is none."""
    ran = trial.show(path, "messages", "--decode", "-")
    return None if ran.returncode else [json.loads(line) for line in ran.stdout.splitlines()]


def table(trial, path):
    listed, wanted = messages_of(trial, path), None
    if listed is not None:
        folders = trial.told(path, "folders", "--decode", "-")["folders"]
        names = {it["nid"]: it["name"] for it in folders}
        wanted = "".join(row(message, names) for message in listed).encode()
    for language, words in each_language(trial, "messages", path):
        ran = trial.run(*words, path)
        holds = ran.returncode == 1 if wanted is None else (ran.returncode, ran.stdout) == (0, wanted)
        trial.tally.note(f"messages of {os.path.basename(path)} in {language}", holds, said(ran))


def text_of(props, key):
    return next((it["value"] for it in props if it["id"] == key and it["type"] == "001F"), None)


def attachments_told(trial, path, nid):
    """The attachments of a message by the program: the lines that an example prints, and the files that it writes."""
    lines, files = "", {}
    for it in trial.told(path, "props", "--decode", "-", nid)["attachments"]:
        name = text_of(it["props"], "3707") or text_of(it["props"], "3704") or "unnamed"
        name = re.sub(r"[\x00-\x1f/\\]", "_", name)
        if any((prop["id"], prop["type"]) == ("3701", "0102") for prop in it["props"]):
            value = trial.show(path, "value", "--decode", "-", f"{nid}/{it['nid']}", "3701").stdout
            files[f"{it['nid']}-{name}"] = value
            lines += f"{it['nid']} {name} {len(value)}\n"
        else:
            lines += f"{it['nid']} {name} none\n"
    return lines.encode(), files


def attachments(trial, path):
    base = os.path.basename(path)
    for nid in (message["nid"] for message in messages_of(trial, path)):
        wanted = attachments_told(trial, path, nid)
        for n, (language, words) in enumerate(each_language(trial, "attachments", path)):
            folder = trial.path(f"attachments-{base}-{nid}-{n}")
            os.mkdir(folder)
            ran = trial.run(*words, path, nid, folder)
            written = {it: open(os.path.join(folder, it), "rb").read() for it in os.listdir(folder)}
            trial.tally.note(f"attachments of {nid} of {base} in {language}", (ran.stdout, written) == wanted, said(ran))
