"""Exported stores: what tars make of the archive, and what the scripts make of the files."""

import glob
import io
import json
import os
import re
import tarfile

from tests.trial import EXAMPLES, python

# The tars that are tried where they are there, and the words with which each takes an archive apart below a folder.
TARS = ("tar", "bsdtar")
# What a name in an archive may be: words and identifiers, with slashes between them.
NAME = re.compile(r"([a-z]+(\.[a-z]+)+|damage\.json|([a-z]+/)?0x[0-9a-f]+(/0x[0-9a-f]+)*/(data|[a-z]+(\.[a-z]+)+))")


def jobs(trial):
    if b"\n  export " not in trial.run(trial.program, "--help").stdout:
        trial.tally.pass_over("exported stores", "the program has no command export")
        return
    missing = [name for name in TARS if not trial.has(name)]
    if missing:
        trial.tally.pass_over("exported stores, by another tar", f"{' and '.join(missing)} is not there")
    wanted = ("mail.pst", "mail_permute.pst", "names2.pst", "m0.pst")
    for path in trial.samples:
        if not trial.is_quick or os.path.basename(path) in wanted:
            yield exported, trial, path


def members_of(archive):
    """The bytes and the time of each member, by Python's tarfile."""
    with tarfile.open(fileobj=io.BytesIO(archive)) as tar:
        members = tar.getmembers()
        return [(it.name, (tar.extractfile(it).read(), it.mtime)) for it in members if it.isreg()], len(members)


def files_below(folder):
    """The bytes and the time of each file below a folder, by their paths from there."""
    found = {}
    for place, _, names in os.walk(folder):
        for name in names:
            path = os.path.join(place, name)
            with open(path, "rb") as file:
                found[os.path.relpath(path, folder)] = file.read(), int(os.stat(path).st_mtime)
    return found


def exported(trial, path):
    base = os.path.basename(path)
    ran, checked = (trial.show(path, word, "--decode", "-") for word in ("export", "check"))
    if checked.returncode:
        trial.same(f"{base} is not exported", ran, checked)
        return
    members, count = members_of(ran.stdout)
    files = dict(members)
    trial.tally.note(f"{base} is exported", (ran.returncode, ran.stderr) == (0, b""), ran.stderr.decode(errors="replace"))
    trial.tally.note(f"each member of {base} is a file of its own", len(files) == len(members) == count)
    trial.tally.note(f"the names in {base}", all(NAME.fullmatch(it) for it in files), str([it for it in files if not NAME.fullmatch(it)]))
    for name, words in (("store.json", ["props", "--decode", "-", "0x21"]), ("folders.json", ["folders", "--decode", "-"])):
        trial.tally.note(f"{name} of {base}", files[name][0] == trial.show(path, *words).stdout)
    trial.tally.note(f"messages.jsonl of {base}", files["messages.jsonl"][0] == trial.show(path, "messages", "--decode", "-").stdout)
    values(trial, path, files)
    for name in TARS:
        if trial.has(name):
            folder = taken_apart(trial, base, name, ran.stdout)
            trial.tally.note(f"{base} by {name}", files_below(folder) == files)
    folder = taken_apart(trial, base, "tarfile", ran.stdout)
    mails(trial, base, folder)
    names(trial, base, folder, files)


def taken_apart(trial, base, name, archive):
    folder = trial.path(f"exported-{base}-{name}")
    os.mkdir(folder)
    if name == "tarfile":
        with tarfile.open(fileobj=io.BytesIO(archive)) as tar:
            tar.extractall(folder)
    else:
        ran = trial.run(name, "-x", "-f", "-", "-C", folder, stdin=None, input=archive)
        trial.tally.note(f"{name} takes {base} apart", (ran.returncode, ran.stderr) == (0, b""), ran.stderr.decode(errors="replace"))
    return folder


def values(trial, path, files):
    """Each file of a value is what `value` writes, a few of them where the trial is quick."""
    ids = {"data": "3701", "headers.txt": "007D", "body.txt": "1000", "body.html": "1013", "body.rtf.lzfu": "1009"}
    for name in [it for it in files if os.path.basename(it) in ids][: 5 if trial.is_quick else None]:
        node, _, last = name.partition("/")[2].rpartition("/")
        ran = trial.show(path, "value", "--text", "--decode", "-", node, ids[last])
        trial.tally.note(f"{name} of {os.path.basename(path)}", files[name][0] == ran.stdout)


def said(ran):
    return (ran.stdout + ran.stderr).decode(errors="replace")


def mails(trial, base, folder):
    """Messages as .eml files: each is there."""
    out = trial.path(f"eml-{base}")
    ran = trial.run(*python(f"{EXAMPLES}/python/eml.py"), folder, out)
    trial.tally.note(f"{base} as .eml", ran.returncode == 0, said(ran))
    with open(os.path.join(folder, "messages.jsonl"), encoding="utf-8") as file:
        listed = {json.loads(line)["nid"] for line in file}
    written = glob.glob(os.path.join(glob.escape(out), "**", "*.eml"), recursive=True)
    trial.tally.note(f"each message of {base} is there", {os.path.basename(it)[:-4] for it in written} == listed)


def names(trial, base, folder, files):
    """Attachments under their own names: the bytes of each, below its identifiers, and nothing else."""
    out = trial.path(f"names-{base}")
    ran = trial.run(*python(f"{EXAMPLES}/export/names.py"), folder, out)
    trial.tally.note(f"the attachments of {base} by their names", ran.returncode in (0, 1), said(ran))
    wanted = {os.path.dirname(it): files[it] for it in files if os.path.basename(it) == "data"}
    made = files_below(out) if os.path.isdir(out) else {}
    trial.tally.note(f"each attachment of {base} has a name", {os.path.dirname(it): made[it] for it in made} == wanted and len(made) == len(wanted))
