#!/usr/bin/env python3
"""Runs the gate, and then tries the program and the library that it built; with --quick it tries the kept ones and proves nothing.

    tools/gate.py [--quick [-v]]

`rt ci` proves every crate and its tests, each from nothing where this machine has kept nothing of it, tries the must-fail edits and
runs the tests, and leaves the program in crates/pst_show/out; the library is then made of crates/pst_c. Both must have the bytes of
those that are kept in built/. Each command of TRIED is then run over the program, LIBRARY over the library, and REPORT over the
program where there is a Chromium; each counts as one that passed or failed. They need two to four minutes. Where something failed
before, they are not run. With --quick the lines of tools/refuse/refuse, one for each command line, are shown where it fails, and
with -v. The last line is 'N passed, M failed'.
"""
import os
import re
import resource
import subprocess
import sys
import time

ROOT = os.path.dirname(os.path.dirname(os.path.abspath(__file__)))
sys.dont_write_bytecode = True
sys.path.insert(0, os.path.join(ROOT, "report"))

from trying import chromium  # noqa: E402

KEEP = os.path.join(ROOT, "tools", "keep")
RT = os.path.join(ROOT, "tools", "rt.py")
PROGRAM = os.path.join(ROOT, "crates", "pst_show", "out", "pst_show")
CALLS = ["--calls", os.path.join(ROOT, "crates", "pst_refused", "out", "pst_refused")]
COUNTS = re.compile(r"(\d+) passed, (\d+) failed\s*")
# What a proof takes at most, in bytes, with room for what others take beside it.
PROOF = 4_500_000_000
REFUSE = ["tools/refuse/refuse"]
TRIED = [
    ["tools/compare_answers.py"],
    ["tools/check_whole.py"],
    ["tools/check_export.py"],
    ["tools/compare_kinds.py"],
    ["tools/check_pages.py"],
    ["tools/write_words.py", "--compare"],
    ["tools/check_examples.py", "--some"],
    ["tools/check_schemas.py"],
    ["tools/try_terminal"],
    ["tools/try_package"],
    REFUSE,
]
LAUNCHER = "tools/try_launcher"
LIBRARY = "examples/try"
REPORT = "report/try"


def printed(*words):
    """What tools/keep prints, or None where it fails, for which it says why."""
    ran = subprocess.run([KEEP, *words], stdout=subprocess.PIPE, text=True, check=False)
    return ran.stdout.strip() if ran.returncode == 0 else None


def lanes():
    """How many proofs go side by side: one for each processor, as far as the free memory holds what they take. rt plans with
    twice as much for the upper crates, so that processors would be idle for the last hour."""
    with open("/proc/meminfo", encoding="utf-8") as it:
        free = 1024 * int(re.search(r"^MemAvailable: +(\d+)", it.read(), re.M)[1])
    return max(1, min(len(os.sched_getaffinity(0)), free // PROOF))


def prove():
    """Runs `rt ci` (tools/rt.py) and shows what it says, but for the counts that it ends with, which are given; and how long it
    took."""
    counts = (0, 1)
    sources = printed("--sources")
    began, env = time.monotonic(), {"RT_JOBS": str(lanes()), **os.environ}
    with subprocess.Popen([sys.executable, RT, "ci"], cwd=ROOT, env=env, stdout=subprocess.PIPE, text=True, errors="replace") as gate:
        for line in gate.stdout:
            last = COUNTS.fullmatch(line)
            if last:
                counts = (int(last[1]), int(last[2]))
            else:
                print(line, end="", flush=True)
    used = resource.getrusage(resource.RUSAGE_CHILDREN)
    minutes, taken = (time.monotonic() - began) / 60, (used.ru_utime + used.ru_stime) / 60
    print(f"rt ci took {minutes:.0f} minutes, {taken:.0f} of a processor, with {env['RT_JOBS']} proofs side by side", flush=True)
    if gate.returncode != 0 and counts[1] == 0:
        counts = (counts[0], 1)
    if counts[1] == 0 and printed("--proved", sources) is None:
        counts = (counts[0], 1)
    return counts


def is_good(words, is_shown=True):
    """Whether a command finds nothing wrong. What it prints is shown; or only where something is wrong, and else how many lines."""
    print(f"== {' '.join(words)}", flush=True)
    ran = subprocess.run(words, cwd=ROOT, stdout=None if is_shown else subprocess.PIPE, text=True, errors="replace", check=False)
    if not is_shown:
        count = len(ran.stdout.splitlines())
        print(f"{count} command lines, none answered otherwise" if ran.returncode == 0 else ran.stdout, flush=True)
    return ran.returncode == 0


def report_tried(words):
    """Whether the report is found good, where there is a browser to open it in; else nothing, and that is told."""
    if chromium.found() is None:
        print(f"== {REPORT}: not run, there is no Chromium here (apt-get install chromium)", flush=True)
        return []
    return [is_good([sys.executable, REPORT, *words])]


def try_all(program, calls, library, is_shown=True):
    """How many of the commands that try a program and a library find nothing wrong, and how many do. `calls` names the built
    program that makes each call which takes memory, for the one that refuses it, whose lines are shown or not; `library` are the
    words for the one that tries the library, None where there is none."""
    good = []
    for words in TRIED:
        more = calls if words is REFUSE else []
        good.append(is_good([sys.executable, *words, "--program", program, *more], is_shown or words is not REFUSE))
    good.append(is_good([sys.executable, LAUNCHER]))
    good.append(library is not None and is_good([sys.executable, LIBRARY, "--program", program, *library]))
    good += report_tried(["--program", program, *([] if library == [] else ["--quick"])])
    return sum(good), len(good) - sum(good)


def gate():
    passed, failed = prove()
    if failed:
        print("the built program was not tried")
        return passed, failed
    if not (is_good([KEEP, "--make"]) and is_good([KEEP, "--compare"])):
        print("what is kept is not what was built: it was not tried")
        return passed, 1
    tried = try_all(PROGRAM, CALLS, [])
    return passed + 1 + tried[0], tried[1]


def quick(is_shown):
    start = time.monotonic()
    program = printed("--program")
    library = printed("--library")
    words = None if library is None else ["--quick", "--library", library]
    passed, failed = (0, 1) if program is None else try_all(program, [], words, is_shown)
    seconds = time.monotonic() - start
    print(f"{passed} passed, {failed} failed in {seconds:.0f} s; nothing was proved here, ./check proves all")
    return failed


def main():
    if sys.argv[1:] not in ([], ["--quick"], ["--quick", "-v"]):
        print("usage: ./check [--quick [-v]]", file=sys.stderr)
        return 2
    if sys.argv[1:]:
        return 1 if quick("-v" in sys.argv) else 0
    passed, failed = gate()
    print(f"{passed} passed, {failed} failed")
    return 1 if failed else 0


if __name__ == "__main__":
    sys.exit(main())
