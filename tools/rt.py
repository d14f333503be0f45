#!/usr/bin/env python3
"""Runs the kit's rt, with what it works out again and again worked out once.

    tools/rt.py WORD..          as `rt WORD..`

rt works out which crates lie below one, and a sum of all their sources, by every path of crates.txt, each time that it asks:
there are over three million paths below the program. For the first it asks some thousand times before its first proof of `rt ci`;
the sum it takes twice for each library, and would be busy with those of the upper ones for hours. Here what lies below is
remembered, since crates.txt does not change while rt runs, and a sum as long as no file has changed of which it was taken.

`rt ci` proves a library, and begins its edits with another proof of it, a fifth of the whole gate. Here the library is proved by
`rattle check -o` and built from that, as rt does with programs, and the edits begin over what it holds of this proof, which may be
an earlier run's: the modules that were checked, laid where rattle keeps its work between two checks. Before the edits the functions
that they change are proved over that folder as they stand, and before one that is tried by a check of the whole crate all of it is;
where they are not, each edit is tried from nothing.

Each edit is a check of the whole crate, over what those before it left, so that what they had changed is proved again. Here those
edits of a crate that change the bodies of different functions are tried in one check of these functions, over a copy of what was
proved (tools/edits_together.py).

Each proof, test and program is judged by the kit's own code, and each edit by what the kit's prover says of its function. Where this
rt is made otherwise, it is run as it is.
"""
import hashlib
import importlib.machinery
import importlib.util
import inspect
import json
import os
import shutil
import subprocess
import sys
import tempfile

sys.dont_write_bytecode = True  # nothing is written beside the sources

from edits_together import Together, copied  # noqa: E402

# The kit's calls on which this stands: how a crate is proved, how its edits are tried, and how one is checked; and the sum of their
# text. With the first kit the edits of a crate are one call, with the second each is a task among others.
CALLS_OF_ONE = ["must_fail", "must_fail_all", "checked"], "c71afacf31b6d7b1fda794a1b475bfd094e36770e5bc9d650546965b939015d6"
CALLS_OF_TASKS = ["must_fail", "checked", "seeded", "add_edits"], "5b582855a7407fdd84f0bf28539b0a0c73d6c23e66c1f75bec6b287113b7420d"
# A crate without anything: its check makes the folder in which rattle keeps its work.
NOTHING = "#![tactic(auto)]\n//! Nothing.\n"


def kit_rt():
    """The kit's rt as a module, or None where there is none that can be taken so."""
    path = shutil.which("rt")
    if path is None:
        return None
    try:
        loader = importlib.machinery.SourceFileLoader("kit_rt", path)
        made = importlib.util.module_from_spec(importlib.util.spec_from_loader("kit_rt", loader))
        loader.exec_module(made)
        calls = made.rtlib.Crate.below, made.rtlib.Crate.stamp, made.rtlib.files_of, made.main
        return made if all(map(callable, calls)) else None
    except (AttributeError, ImportError, OSError, SyntaxError, ValueError):
        return None


def remembered(made):
    """What lies below a crate, by its folder, as it was found first."""
    found = {}

    def below(crate):
        if crate.folder not in found:
            found[crate.folder] = made(crate)
        return list(found[crate.folder])

    return below


def marks(files):
    """By what it is seen that one of these files has changed."""
    told = []
    for file in files:
        it = os.stat(file)
        told.append((file, it.st_ino, it.st_size, it.st_mtime_ns, it.st_ctime_ns))
    return told


def remembered_sum(made, files_of):
    """The sum of a crate's sources and of those below it, which is taken anew where a file of theirs has changed."""
    found = {}

    def stamp(crate):
        now = [marks(files_of(it.folder)) for it in [*crate.below(), crate]]
        if found.get(crate.folder, (None, None))[0] != now:
            found[crate.folder] = now, made(crate)
        return found[crate.folder][1]

    return stamp


def is_known(rt, known):
    """Whether the kit proves a crate and tries its edits by these calls, as this file takes for granted."""
    names, wanted = known
    try:
        text = "".join(inspect.getsource(it) for it in [rt.Crate.ci, *(getattr(rt, name) for name in names)])
    except (AttributeError, OSError, TypeError):
        return False
    return hashlib.sha256(text.encode()).hexdigest() == wanted


def held_by(crate):
    """The folder of a built library with what its proof checked; none of a program or a static library."""
    return os.path.join(crate.rlib, "toolchain")


def proved_for_others(rt, crate, words):
    """Proves a crate from nothing as one on which others stand: rt holds a library's build, and not a check, to it that no tactic
    chose a term which a contract of theirs may read."""
    crate.out.seek(0, os.SEEK_END)
    begin = crate.out.tell()
    status = crate.prove(["check", *words])
    crate.out.seek(begin)
    if not status and rt.rtlib.chose_a_term(crate.out.read(), True):
        rt.say("a tactic chose a term that a contract may read, as the lines above say: write the term yourself", crate.out)
        status = 1
    crate.out.seek(0, os.SEEK_END)
    return status


def prove_library(rt, crate, flags):
    """Proves a library from nothing, and builds it of what was proved."""
    words = crate.words(flags, keeps=False)
    with tempfile.TemporaryDirectory(prefix="rt-proved-") as room:
        proved = os.path.join(room, "proved")
        status = proved_for_others(rt, crate, [*words, "-o", proved])
        if status:
            return status
        for flag in ("--logic-built", "--jobs"):
            at = words.index(flag)
            words = [*words[:at], *words[at + 2 :]]
        shutil.rmtree(os.path.dirname(crate.rlib), ignore_errors=True)
        os.makedirs(os.path.dirname(crate.rlib))
        return crate.call(rt.rtlib.RATTLE, "build", *words, "--crate-checked", proved, "--statements", "-o", crate.rlib)


def crate_proved(rt, made):
    """How `rt ci` proves a crate or its tests, but for libraries."""

    def ci(crate, flags, tests):
        if tests or crate.is_program or crate.is_static:
            return made(crate, flags, tests)
        return prove_library(rt, crate, flags)

    return ci


def lay(rt, proved, kept):
    """Lays what a proof has checked where rattle keeps its work, below a folder."""
    with tempfile.TemporaryDirectory(prefix="rt-nothing-") as room:
        os.mkdir(os.path.join(room, "src"))
        with open(os.path.join(room, "src", "lib.rt"), "w", encoding="utf-8") as file:
            file.write(NOTHING)
        logic = ["--antt-project", f"{rt.KIT}/rattle/logic/antt-project.json", "--logic-built", f"{rt.KIT}/logic_built"]
        words = ["check", "--crate-name", "nothing", "src/lib.rt", "-L", f"dependency={rt.KIT}/rlibs", *logic, "--incremental", kept]
        subprocess.run([rt.rtlib.RATTLE, *words], cwd=room, capture_output=True, check=False)
    folders = os.listdir(kept)
    if len(folders) != 1:
        return
    with open(os.path.join(proved, "checked.json"), encoding="utf-8") as rows, open(os.path.join(proved, "checked.a"), "rb") as all_of:
        for name, at, length in map(json.loads, rows):
            if "/" in name:
                continue
            all_of.seek(at)
            with open(os.path.join(kept, folders[0], f"{name}.oantt"), "wb") as file:
                file.write(all_of.read(length))


def edits_tried(rt, together, made):
    """How `rt ci` tries a crate's edits, over what its library holds of its proof where there is one: several in one check, over a
    copy each, and those that are not refused so as rt does, where the whole crate is proved over that, too."""

    def must_fail_all(crate, edits, flags):
        if not edits or not os.path.isdir(held_by(crate)):
            together.groups(crate, edits)
            return made(crate, edits, flags)
        with tempfile.TemporaryDirectory(prefix="rt-edits-") as room:
            kept = os.path.join(room, "kept")
            os.mkdir(kept)
            lay(rt, held_by(crate), kept)
            found = together.in_turn(crate, edits, flags, kept)
            left = [it for it in edits if it not in found]
            if left and not rt.checked(crate, {}, flags, kept).returncode:
                for edit in left:
                    with copied(rt, kept) as over:
                        found[edit] = rt.must_fail(crate, edit, flags, over)
        return [found[it] if found.get(it, [False])[0] else rt.must_fail(crate, it, flags) for it in edits]

    return must_fail_all


def seeds_of_proofs(rt, together, made):
    """How the folder is made that a crate's edits begin with: of what its library holds of its proof, where there is one; over which the
    functions that they change are checked as they stand."""

    def seeded(crate, flags, start=None):
        if start or not os.path.isdir(held_by(crate)):
            return made(crate, flags, start)
        room = tempfile.mkdtemp(prefix=f"rt-edits-{os.getpid()}-")
        rt.SEEDS.append(room)
        os.mkdir(os.path.join(room, "seed"))
        lay(rt, held_by(crate), os.path.join(room, "seed"))
        together.begin(crate, flags, os.path.join(room, "seed"))
        return room

    return seeded


def checked_once(together, made):
    """How a crate is checked: not once more as it stands over what its edits began with, where no edit was tried by a check of all of it."""

    def checked(crate, texts, flags, kept):
        if kept and not texts and together.stands(crate, kept):
            return subprocess.CompletedProcess([], 0, "")
        return made(crate, texts, flags, kept)

    return checked


def edits_added(together, made):
    """How a crate's edits become tasks: the folder that they begin with comes behind the crate's proof, and of those that are tried
    in one check all others behind the first."""

    def add_edits(tasks, crate, edits, *words, **named):
        results = made(tasks, crate, edits, *words, **named)
        for group in together.as_tasks(crate, edits):
            for edit in group[1:]:
                key = crate.name, "edits", edits.index(edit)
                waits, *rest = tasks[key]
                tasks[key] = [*waits, (crate.name, "edits", edits.index(group[0]))], *rest
        seed = tasks.get((crate.name, "seed"))
        if seed and (crate.name, "proof") in tasks:
            tasks[crate.name, "seed"] = [*seed[0], (crate.name, "proof")], *seed[1:]
        return results

    return add_edits


def main(words):
    rt = kit_rt()
    if rt is None:
        os.execvp("rt", ["rt", *words])
    crate = rt.rtlib.Crate
    crate.below = remembered(crate.below)
    crate.stamp = remembered_sum(crate.stamp, rt.rtlib.files_of)
    known = next((it for it in (CALLS_OF_ONE, CALLS_OF_TASKS) if is_known(rt, it)), None)
    together = Together(rt)
    if known:
        rt.Crate.ci = crate_proved(rt, rt.Crate.ci)
        rt.must_fail = together.must_fail(rt.must_fail)
    if known is CALLS_OF_ONE:
        rt.must_fail_all = edits_tried(rt, together, rt.must_fail_all)
    elif known is CALLS_OF_TASKS:
        rt.seeded = seeds_of_proofs(rt, together, rt.seeded)
        rt.checked = checked_once(together, rt.checked)
        rt.add_edits = edits_added(together, rt.add_edits)
    status = rt.main(words)
    sys.stdout.flush()
    return status


if __name__ == "__main__":
    sys.exit(main(sys.argv[1:]))
