"""The calls of the library, by C: each command, memory that is refused, damaged images."""

import os
import shutil

from tests.trial import SANITIZERS, VALGRIND, WRAP, sample

WORDS = [
    ["check", "-"],
    ["check", "--strict", "--digest", "-"],
    ["check", "--decode", "-"],
    ["damage", "-"],
    ["damage", "--digest", "--decode", "-"],
    ["head", "-"],
    ["nodes", "-"],
    ["folders", "-"],
    ["contents", "-", "0x8082"],
    ["contents", "-", "0x21"],
    ["messages", "-"],
    ["messages", "--decode", "-"],
    ["props", "-", "0x21", "0x122"],
    ["props", "--places", "-", "0x400004", "0x400024/0x8045/0x200024"],
    ["props", "-", "0x400024/0x8045/0x999"],
    ["value", "-", "0x400004/0x8025", "3701"],
    ["value", "--text", "-", "0x400004", "1000"],
    ["value", "-", "0x21", "9999"],
    ["export", "-"],
    ["export", "--decode", "-"],
    ["folders", "--whole", "-"],
    ["contents", "--whole", "--decode", "-", "0x8082"],
    ["messages", "--whole", "-"],
    ["props", "--whole", "--decode", "--places", "-", "0x400004", "0x400024/0x8045/0x200024"],
    ["value", "--whole", "-", "0x400004/0x8025", "3701"],
    ["export", "--whole", "--decode", "-"],
]
# And such as need no store, or are none.
OTHER_WORDS = [
    [],
    ["--help"],
    ["--version"],
    ["check", "--help"],
    ["explain"],
    ["explain", "14"],
    ["explain", "none"],
    ["check"],
    ["chek", "-"],
    ["props", "-", "0x"],
    ["value", "-", "0x21", "37"],
]
# Of both, for a quick trial of what is slow.
FEW = [WORDS[2], WORDS[4], WORDS[11], WORDS[13], WORDS[16], OTHER_WORDS[6]]


def builds(trial):
    """What is built first, as jobs."""
    if trial.lacks("the calls, memory that is refused, and damaged images, by C", "gcc"):
        return
    yield trial.build_c, "call", ["tests/call.c", "c/store.c"]
    yield trial.build_c, "damaged", ["tests/damaged.c"]
    yield trial.build_c, "refused", ["tests/refused.c", "c/store.c"], WRAP
    if trial.is_sanitized:
        yield trial.build_c, "call-checked", ["tests/call.c", "c/store.c"], *SANITIZERS
        yield trial.build_c, "damaged-checked", ["tests/damaged.c"], *SANITIZERS
    else:
        trial.tally.pass_over("what is sanitized", "gcc's -fsanitize is not there")


def jobs(trial):
    if not trial.has("gcc"):
        return
    mail, permute = sample("mail.pst"), sample("mail_permute.pst")
    for path in trial.samples:
        yield call_all, trial, path
    yield no_bytes, trial
    few = FEW if trial.is_quick else [*WORDS, *OTHER_WORDS]
    for words in few:
        if trial.is_sanitized:
            yield call_by, trial, "sanitized", [trial.path("call-checked")], mail, words
        if trial.has("valgrind"):
            yield call_by, trial, "under valgrind", [*VALGRIND, trial.path("call")], mail, words
        if words:
            for path in [mail] if trial.is_quick else [mail, permute]:
                yield memory_refused, trial, path, words
    trial.lacks("the calls by C under valgrind", "valgrind")
    yield images, trial, "damaged", trial.damaged
    if trial.is_sanitized:
        yield images, trial, "damaged-checked", trial.damaged // 4
    if trial.has("valgrind"):
        yield images_under_valgrind, trial


def call_by(trial, how, begin, path, words):
    ran = trial.run(*begin, path, *words)
    trial.same(f"{words} over {os.path.basename(path)}, {how}", ran, trial.show(path, *words))


def call_all(trial, path):
    """Each command over a sample, as the program answers it."""
    for words in WORDS if path != trial.samples[0] else [*WORDS, *OTHER_WORDS]:
        call_by(trial, "by C", [trial.path("call")], path, words)


def no_bytes(trial):
    empty = trial.path("empty.pst")
    open(empty, "wb").close()
    for name in ("call", "call-checked")[: 1 + trial.is_sanitized]:
        call_by(trial, name, [trial.path(name)], empty, ["check", "-"])


def memory_refused(trial, path, words):
    """Each request for memory of a call refused in turn."""
    trial.need(f"{words} over {os.path.basename(path)} with memory refused", trial.path("refused"), path, *words)


def images(trial, name, count):
    """Damaged images from four threads; each hundredth again by the program."""
    folder = trial.path(f"images-{name}")
    os.mkdir(folder)
    ran = trial.need(f"{count} images: {name}", trial.path(name), str(count), folder, *trial.samples)
    lines = ran.stdout.decode().splitlines()
    trial.tally.note("each image has an answer", len(lines) == count)
    for number in range(0, len(lines), 100):
        path = os.path.join(folder, f"{number}.pst")
        wanted = trial.show(path, "check", "--decode", "-")
        line = (wanted.stdout or wanted.stderr).decode().rstrip("\n")
        said = f"{number} {wanted.returncode} {line}"
        trial.tally.note(f"image {number} of {name}", lines[number] == said, f"  {lines[number]}\n  {said}")
        call_by(trial, name, [trial.path(name.replace("damaged", "call"))], path, ["damage", "--decode", "-"])
    shutil.rmtree(folder)


def images_under_valgrind(trial):
    folder = trial.path("images-valgrind")
    os.mkdir(folder)
    count = min(100, trial.damaged // 10)
    trial.need(f"{count} images under valgrind", *VALGRIND, trial.path("damaged"), str(count), folder, *trial.samples[:4])
