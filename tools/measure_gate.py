#!/usr/bin/env python3
"""Measures what the gate costs, crate by crate: how the tables of docs/GATE.md are made.

  tools/measure_gate.py LOG..                 prints the table of what the logs hold
  tools/measure_gate.py --edits LOG..         and the seconds of each must-fail edit
  tools/measure_gate.py --run LOG [NAME..]    runs `tools/rt.py ci NAME..`, writes into LOG what its provers took, and prints the table
  tools/measure_gate.py --watch PID LOG       the same of an rt that runs already, until that ends
  tools/measure_gate.py --functions NAME..    proves each crate from nothing, one function after another, and prints the
                                              seconds before the first one, and those of each that takes over 15

A prover is told by its command line and its folder: a crate's own check and its tests run in crates/NAME, each try of an
edit, or of several in one check, in a folder rt-edit-.., over what a proof of the crate left in a folder rt-edits-... (with a kit that
tries a crate's edits in turn it is not told how many a check has, and the last one of them is of no edit). Seconds are processor
seconds of the prover and of all that it started, as the system counts them, looked at five times a second; the last
fifth of a second is missed. Beside other work they are up to a fifth more. A log has a line for each prover, and may be
written by several runs: of what was proved twice the last counts. What a check takes before its first function is what the
check takes that ends a crate's edits, in which no function is looked at anew.

What a change of a crate costs is all that the crate takes, with its tests and edits, and all that those above it take.
A number that lacks something which was not measured has a + behind it. What is neither proof nor edit (the tests as they
run, rt itself) stands in the log's last line alone, the seconds of the whole run.
"""
import json
import os
import re
import resource
import shutil
import subprocess
import sys
import threading
import time

ROOT = os.path.dirname(os.path.dirname(os.path.abspath(__file__)))
TICKS = os.sysconf("SC_CLK_TCK")
PAUSE = 0.2
SLOW = 15
OVER = re.compile(r"/rt-edits-[^/]*(?:/(\w+)(-[^/]+/kept)?)?$")
CHECKED = re.compile(r"checked (\S+), \d+ of \d+$")


def processes():
    """Each process by its number: what started it, its name, and its seconds with those of what it started and has ended."""
    found = {}
    for pid in filter(str.isdigit, os.listdir("/proc")):
        try:
            with open(f"/proc/{pid}/stat", encoding="utf-8", errors="replace") as it:
                text = it.read()
        except OSError:
            continue
        rest = text[text.rindex(")") + 2 :].split()
        seconds = sum(map(int, rest[11:15])) / TICKS
        name = text[text.index("(") + 1 : text.rindex(")")]
        found[int(pid)] = {"parent": int(rest[1]), "name": name, "seconds": seconds}
    return found


def below(pid, every):
    """What a process started, and what that started."""
    found = [it for it in every if every[it]["parent"] == pid]
    return found + [low for it in found for low in below(it, every)]


def provers(top, every):
    """The provers that `top` started, each with its seconds and those of its copies."""
    for pid in below(top, every):
        it = every[pid]
        above = every.get(it["parent"], {"name": ""})
        if it["name"].startswith("rattle") and not above["name"].startswith("rattle"):
            yield pid, it["seconds"] + sum(every[low]["seconds"] for low in below(pid, every))


def told_of(pid):
    """What a prover does, and for which crate; None where that cannot be told."""
    try:
        with open(f"/proc/{pid}/cmdline", "rb") as it:
            words = it.read().decode(errors="replace").split("\0")
        folder = os.readlink(f"/proc/{pid}/cwd")
    except OSError:
        return None
    if os.path.basename(words[0]) == "rattle-link":
        return "link", os.path.basename(folder)
    if "--crate-name" not in words:
        return None
    crate = words[words.index("--crate-name") + 1]
    if "/rt-edit-" in folder:
        over = OVER.search(words[words.index("--incremental") + 1]) if "--incremental" in words else None
        if not over:
            return "edit from nothing", crate
        if not over[1]:
            return "edits in turn", crate
        return "edits together" if over[2] else f"edit {over[1]}", crate
    if "--crate-checked" in words:
        return "compile", crate
    return "tests" if "--test" in words else "check", crate


def watch(top, log, is_over):
    """Looks at the provers that a process starts until that is over, and writes a line as each of them ends."""
    seen = {}
    while True:
        over, every = is_over(), processes()
        for pid, seconds in provers(top, every):
            told = None if pid in seen else told_of(pid)
            if told:
                seen[pid] = {"what": told[0], "crate": told[1], "began": time.time(), "seconds": 0}
            if pid in seen:
                seen[pid]["seconds"] = round(max(seen[pid]["seconds"], seconds), 2)
        for pid in [it for it in seen if over or it not in every]:
            log.write(json.dumps({**seen.pop(pid), "ended": time.time()}) + "\n")
            log.flush()
        if over:
            return
        time.sleep(PAUSE)


def run(names, log):
    """Runs `rt ci` and watches it; the log's last line has what the system says of all of it."""
    began, over = time.time(), threading.Event()
    with subprocess.Popen([sys.executable, f"{ROOT}/tools/rt.py", "ci", *names], cwd=ROOT) as gate:
        watcher = threading.Thread(target=watch, args=(gate.pid, log, over.is_set))
        watcher.start()
        gate.wait()
        over.set()
        watcher.join()
    used = resource.getrusage(resource.RUSAGE_CHILDREN)
    whole = {"what": "whole", "crate": "", "seconds": used.ru_utime + used.ru_stime}
    log.write(json.dumps({**whole, "began": began, "ended": time.time()}) + "\n")
    return gate.returncode


def functions(name):
    """Proves a crate from nothing, one function after another, and prints the slow ones."""
    folder = f"{ROOT}/crates/{name}"
    shutil.rmtree(f"{folder}/out/incremental", ignore_errors=True)
    found, last = [], 0
    with subprocess.Popen(["rt", "check", "--jobs", "1"], cwd=folder, stdout=subprocess.PIPE, text=True, errors="replace") as rt:
        for line in rt.stdout:
            checked = CHECKED.match(line.strip())
            seconds = max([it for _, it in provers(rt.pid, processes())], default=last)
            if checked:
                found.append((seconds - last, checked[1]))
                last = seconds
    if not found:
        print(f"{name}: no function was proved", file=sys.stderr)
        return rt.returncode or 1
    print(f"{name}: {last:.0f} seconds up to the last function, of which {found[0][0]:.0f} up to the first")
    for seconds, function in sorted(found[1:], reverse=True):
        if seconds > SLOW:
            print(f"  {seconds:.0f} {function}")
    return rt.returncode


def lists():
    """What each crate of crates.txt lists of this repository."""
    found = {}
    with open(f"{ROOT}/crates.txt", encoding="utf-8") as it:
        for line in it:
            name, colon, words = line.partition(":")
            if colon and not line.startswith("#"):
                found[name.split()[0]] = words.split()
    return {name: [it for it in words if it in found] for name, words in found.items()}


def all_under(deps):
    """All that each crate stands on."""
    found = {}

    def under(crate):
        if crate not in found:
            found[crate] = set(deps[crate]).union(*map(under, deps[crate]))
        return found[crate]

    return {crate: under(crate) for crate in deps}


def edits_of(crate):
    """The names of a crate's edits, in the order in which rt numbers them."""
    folder = f"{ROOT}/crates/{crate}/must-fail"
    return sorted(it for it in os.listdir(folder) if it.endswith(".edit")) if os.path.isdir(folder) else []


def has_tests(crate):
    """Whether a crate has tests, which are proved apart."""
    for at, _, names in os.walk(f"{ROOT}/crates/{crate}/src"):
        for name in names:
            with open(f"{at}/{name}", encoding="utf-8") as it:
                if "#[test]" in it.read():
                    return True
    return False


def read(files):
    """The seconds of each thing that was done for each crate, one after another."""
    found = {}
    for file in files:
        with open(file, encoding="utf-8") as it:
            for line in map(json.loads, it):
                done = found.setdefault(line["crate"], {}).setdefault(line["what"], [])
                done.append(line["seconds"])
    return found


def row(crate, done):
    """What a crate took, and how much of it was not measured. Its edits end with a proof of the crate, over what is kept, and may begin
    with one. How many are tried in one check is not seen."""
    last = lambda what: done.get(what, [None])[-1]
    edits = {name: last(f"edit {number}") for number, name in enumerate(edits_of(crate))}
    tried = [it for it in edits.values() if it is not None]
    together = [*done.get("edits together", []), *done.get("edits in turn", [])]
    others = sum(done.get("edit seed", [])[-2:]) + sum(done.get("edit from nothing", [])) + sum(together)
    lacks = (last("check") is None) + (has_tests(crate) and last("tests") is None) + (0 if together else len(edits) - len(tried))
    made = sum(sum(done.get(it, [])[-2:]) for it in ("compile", "link"))
    found = {"check": last("check"), "tests": last("tests"), "edits": edits, "tried": [*tried, *together], "lacks": lacks}
    found["of_edits"] = sum(tried) + others
    found["before"] = last("edit seed")
    found["all"] = (found["check"] or 0) + (found["tests"] or 0) + found["of_edits"] + made
    return found


def table(found):
    """Prints the table, and gives its rows."""
    deps = lists()
    under = all_under(deps)
    rows = {it: row(it, found.get(it, {})) for it in deps}
    shown = lambda it: f"{it:.0f}" if it else ""
    print("| Crate | Alone | Its tests | Its edits | Before the first function | Edits | Checks of edits | The dearest | A change, in minutes |")
    print("|---|---|---|---|---|---|---|---|---|")
    for crate, it in rows.items():
        every = [rows[crate], *(rows[up] for up in deps if crate in under[up])]
        change = f"{sum(one['all'] for one in every) / 60:.0f}{'+' if any(one['lacks'] for one in every) else ''}"
        many = [len(it["edits"]) or "", len(it["tried"]) or ""]
        cells = [crate, shown(it["check"]), shown(it["tests"]), shown(it["of_edits"]), shown(it["before"]), *many, shown(max(it["tried"], default=0)), change]
        print(f"| {' | '.join(map(str, cells))} |")
    parts = [sum(it[part] or 0 for it in rows.values()) / 60 for part in ("all", "check", "tests", "of_edits")]
    print("\nIn minutes: {:.0f} in all, of which {:.0f} for the crates alone, {:.0f} for tests and {:.0f} for edits.".format(*parts))
    return rows


def main(words):
    verb = words.pop(0) if words and words[0].startswith("-") else ""
    if not words or verb not in ("", "--edits", "--run", "--watch", "--functions"):
        print(__doc__, file=sys.stderr)
        return 2
    if verb == "--functions":
        return max(map(functions, words))
    status, files = 0, words
    if verb == "--run":
        files = words[:1]
        with open(words[0], "a", encoding="utf-8") as log:
            status = run(words[1:], log)
    elif verb == "--watch":
        files = words[1:2]
        with open(words[1], "a", encoding="utf-8") as log:
            watch(int(words[0]), log, lambda: not os.path.exists(f"/proc/{words[0]}"))
    rows = table(read(files))
    if verb == "--edits":
        for crate, it in rows.items():
            for name, seconds in sorted(it["edits"].items(), key=lambda one: -(one[1] or 0)):
                print(f"{crate} {name}: {'not measured' if seconds is None else round(seconds)}")
    return status


if __name__ == "__main__":
    sys.exit(main(sys.argv[1:]))
