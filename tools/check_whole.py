#!/usr/bin/env python3
"""Holds `damage` to `check`, and what is shown with --whole to `damage` and to the sound samples: over damaged copies, and over the samples.

Each copy of a sample has one to four other bytes, or is cut, as a seed chooses. `damage` finds nothing broken exactly where `check` says
yes, and else the fault that `check` says is among those that it tells. Of a node that `damage` tells, `props` and `value`
say its fault; of each other node of the sample `props` shows what it shows of the sample (but for the names, where the name map is
broken), or tells the fault of a broken page. `messages` and `folders` show exactly those that are whole, and `contents` each row as
in the sample, or with the fault of its message. Of a sample that is sound each of the five commands answers with --whole what it
answers without. --program names the program in place of ./pst_show, --copies how many copies there are, --seed the seed. The
status is 0 where all of it holds.
"""
import argparse
import json
import os
import random
import subprocess
import sys
import tempfile
from concurrent.futures import ThreadPoolExecutor

ROOT = os.path.dirname(os.path.dirname(os.path.abspath(__file__)))
NAME_MAP = "0x61"
ENCODED = ["mail_cyclic.pst", "mail_permute.pst"]
# the kinds of fault that say why a whole node has no properties
BARE = {17, 21, 22, 23, 24}


def line_of(fault):
    """What is said of a fault on standard error."""
    return f"no: {fault['number']} {fault['kind']} at {fault['at']:#x} bid {fault['bid']:#x} nid {fault['nid']}\n"


def unnamed(value):
    """A document without the names of properties."""
    if isinstance(value, dict):
        return {key: unnamed(it) for key, it in value.items() if key not in ("name", "set")}
    return [unnamed(it) for it in value] if isinstance(value, list) else value


class Program:
    """The program, over one file."""

    def __init__(self, program, file, words=()):
        self.program, self.file, self.words = program, file, words

    def __call__(self, command, *rest):
        """The status and both outputs of a command over the file."""
        ran = subprocess.run([self.program, command, *self.words, self.file, *rest], cwd=ROOT, capture_output=True, check=False)
        return ran.returncode, ran.stdout, ran.stderr.decode()

    def documents(self, command, *rest):
        """The lines of what it shows, each as a document."""
        return [json.loads(line) for line in self(command, *rest)[1].splitlines()]

    def with_whole(self):
        return Program(self.program, self.file, ("--whole", *self.words))


class Sample:
    """What is shown of a sound sample."""

    def __init__(self, program, name, words=()):
        self.name, shown = name, Program(program, f"samples/{name}", words)
        self.is_sound = shown("check")[0] == 0
        if not self.is_sound:
            return
        self.shown = shown
        self.nodes = [node["nid"] for node in shown.documents("nodes")[0]["nodes"]]
        self.props = {nid: shown("props", nid) for nid in self.nodes}
        self.messages = [message["nid"] for message in shown.documents("messages")]
        self.folders = [folder["nid"] for folder in shown.documents("folders")[0]["folders"]]
        self.contents = {nid: shown("contents", nid) for nid in self.folders if int(nid, 16) % 32 == 2}
        with open(f"{ROOT}/samples/{name}", "rb") as file:
            self.bytes = file.read()
        self.used = [at for at, byte in enumerate(self.bytes) if byte or at < 600]

    def differing(self):
        """The commands that answer otherwise with --whole."""
        over = self.shown.with_whole()
        asked = [("folders",), ("messages",), *(("contents", nid) for nid in self.contents)]
        asked += [("value", nid, "3001") for nid in self.nodes[:8]]
        found = [words for words in asked if over(*words) != self.shown(*words)]
        return found + [("props", nid) for nid, answer in self.props.items() if over("props", nid) != answer]

    def copy(self, chance):
        """A damaged copy, and what was done."""
        held = bytearray(self.bytes)
        if chance.random() < 0.05:
            length = chance.randrange(16384, len(held))
            return held[:length], f"cut to {length}"
        places = [chance.choice(self.used) for _ in range(chance.randint(1, 4))]
        for at in places:
            held[at] ^= chance.randint(1, 255)
        return held, f"changed at {places}"


class Copy:
    """What has to hold of a damaged copy of a sample."""

    def __init__(self, program, sample, file, what):
        self.sample, self.plain = sample, Program(program, file)
        self.over, self.what, self.faults = self.plain.with_whole(), what, []

    def expect(self, holds, *words):
        if not holds:
            self.faults.append(f"{self.sample.name} {self.what}: {' '.join(map(str, words))}")

    def is_shown(self, nid, answer):
        """Whether a node is shown as in the sample."""
        wanted = self.sample.props[nid]
        if answer == wanted or answer[0] or wanted[0] or not self.is_unnamed:
            return answer == wanted
        return unnamed(json.loads(answer[1])) == unnamed(json.loads(wanted[1]))

    def shown_nodes(self):
        """The nodes of the sample that are shown; each other one has to have its fault, or that of a page."""
        shown = set()
        for nid in self.sample.nodes:
            answer = self.over("props", nid)
            if nid in self.broken:
                self.expect(answer == (1, b"", line_of(self.broken[nid])), "props", nid, answer)
            elif answer[0] and answer[2] in self.pages:
                continue
            else:
                shown.add(nid)
                self.expect(self.is_shown(nid, answer), "props", nid, answer)
        return shown

    def is_row(self, row, wanted):
        """Whether a row is that of the sample, or has the fault of its message."""
        if "fault" not in row:
            return row["nid"] not in self.broken and unnamed(row) == unnamed(wanted)
        told = self.broken.get(row["nid"])
        return row["nid"] == wanted["nid"] and (row["fault"] == told or told is None and line_of(row["fault"]) in self.pages)

    def hold_contents(self, nid, shown):
        """The contents of a folder: its fault, or that of its table, or of a page; or each row."""
        answer, table = self.over("contents", nid), f"{int(nid, 16) - 2 + 14:#x}"
        first = self.broken.get(nid) or self.broken.get(table)
        if nid in shown and first is None and answer[0] == 0:
            rows, wanted = (json.loads(it[1])["messages"] for it in (answer, self.sample.contents[nid]))
            good = len(rows) == len(wanted) and all(self.is_row(*both) for both in zip(rows, wanted))
        else:
            good = answer[:2] == (1, b"") and (answer[2] in self.pages or first is not None and answer[2] == line_of(first))
        self.expect(good, "contents", nid, answer)

    def hold_verdict(self, status, damage):
        """What `check` says, beside what `damage` tells: nothing and yes, or something and one of it."""
        told = [damage["header"], *damage["pages"], *damage["blocks"], damage["maps"], *(it["fault"] for it in damage["nodes"])]
        lines = {line_of(it) for it in told if it}
        checked = self.plain("check")
        good = status == 1 and checked[:2] == (1, b"") and checked[2] in lines if lines else status == checked[0] == 0
        self.expect(good, "check", checked)

    def hold(self):
        """Holds all of it, and returns what does not hold."""
        status, damage, line = self.plain("damage")
        if not damage:
            asked = [("folders",), ("messages",), ("contents", "0x122"), ("props", "0x21"), ("value", "0x21", "3001")]
            for words in asked:
                self.expect(self.over(*words) == (status, b"", line), *words)
            return self.faults
        damage = json.loads(damage)
        self.hold_verdict(status, damage)
        self.broken = {it["node"]: it["fault"] for it in damage["nodes"]}
        self.pages = {line_of(it) for it in damage["pages"]}
        self.is_unnamed = NAME_MAP in self.broken or bool(self.pages)
        shown = self.shown_nodes()
        for nid in list(self.broken)[:3]:
            self.expect(self.over("value", nid, "3001") == (1, b"", line_of(self.broken[nid])), "value", nid)
        for command, nids in (("messages", self.sample.messages), ("folders", self.sample.folders)):
            status, out, line = self.over(command)
            lines = [json.loads(it) for it in out.splitlines()]
            found = [it["nid"] for it in (lines if command == "messages" or not lines else lines[0]["folders"])]
            # (folders to which no path leads come last)
            self.expect(status == 0 and not line and sorted(found) == sorted(nid for nid in nids if nid in shown), command, found)
        for nid in self.sample.contents:
            self.hold_contents(nid, shown)
        return self.faults


def held(program, sample, seed):
    """What does not hold of the copy that a seed makes."""
    made, what = sample.copy(random.Random(seed))
    with tempfile.NamedTemporaryFile(suffix=".pst") as file:
        file.write(made)
        file.flush()
        return Copy(program, sample, file.name, what).hold()


def main():
    parser = argparse.ArgumentParser(description="Holds what is shown with --whole to `damage` and to the sound samples.")
    parser.add_argument("--program", default=f"{ROOT}/pst_show", help="the program, in place of ./pst_show")
    parser.add_argument("--copies", type=int, default=500, help="how many damaged copies there are")
    parser.add_argument("--seed", type=int, default=1, help="what chooses the damage")
    given = parser.parse_args()
    program = os.path.abspath(given.program)
    names = sorted(name for name in os.listdir(f"{ROOT}/samples") if name.endswith(".pst"))
    with ThreadPoolExecutor(os.cpu_count()) as pool:
        samples = [it for it in pool.map(lambda name: Sample(program, name), names) if it.is_sound]
        decoded = pool.map(lambda name: Sample(program, name, ("--decode",)), ENCODED)
        encoded = [it for it in decoded if it.is_sound]
        same = [(it, found) for it, found in zip(samples + encoded, pool.map(Sample.differing, samples + encoded))]
        copies = [(samples[number % len(samples)], f"{given.seed} {number}") for number in range(given.copies)]
        found = list(pool.map(lambda it: held(program, *it), copies))
    for sample, words in same:
        for it in words:
            print(f"{sample.name}: {' '.join(it)} is another with --whole")
    for it in found:
        print(*it[:3], sep="\n", end="\n" if it else "")
    alike, good = sum(not words for _, words in same), sum(not it for it in found)
    print(f"whole: {alike} of {len(same)} sound samples answer the same, {good} of {len(found)} damaged copies hold")
    return 0 if len(encoded) == len(ENCODED) and alike == len(same) and good == len(found) else 1


if __name__ == "__main__":
    sys.exit(main())
