"""The bindings' own tests, the wheel in an environment of its own, and what ./install places, as a newcomer uses it."""

import glob
import json
import os
import re
import shutil
import subprocess

from tests.trial import ROOT, python, sample

PYTHON = os.path.join(ROOT, "bindings", "python")


def jobs(trial):
    if not trial.lacks_rust("the tests in Rust, and the crate's documentation"):
        yield rust_tests, trial
    yield python_tests, trial
    yield wheel, trial
    if not trial.lacks("the type hints of the Python package", "mypy"):
        yield type_hints, trial
    yield newcomers, trial


def rust_tests(trial):
    """The crate's tests, its examples, and its documentation."""
    environment = dict(trial.environment, RUSTDOCFLAGS="-D warnings")
    own = f"{trial.rust}/bindings/rust"
    trial.need("the tests in Rust", "cargo", "test", "-q", cwd=own, env=environment)
    trial.need("the documentation in Rust", "cargo", "doc", "-q", "--no-deps", cwd=own, env=environment)


def python_tests(trial):
    trial.need("the tests in Python", *python("-m", "unittest", "discover", f"{PYTHON}/tests"))


def type_hints(trial):
    """Those of the package, strictly, and the examples by them."""
    words = ["mypy", "--cache-dir", trial.path("mypy")]
    trial.need("the type hints", *words, "--strict", "pst", "make_wheel.py", cwd=PYTHON)
    environment = dict(trial.environment, MYPYPATH=PYTHON)
    for path in sorted(glob.glob(f"{ROOT}/examples/python/*.py")):
        trial.need(f"the type hints used by {path}", *words, "--check-untyped-defs", path, env=environment)


def wheel(trial):
    """The wheel is made without network, and answers in an environment of its own."""
    folder, own = trial.path("wheel"), trial.path("own")
    os.mkdir(folder)
    trial.need("the wheel is made", *python(f"{PYTHON}/make_wheel.py", folder))
    made = glob.glob(f"{folder}/*.whl")
    with open(os.path.join(trial.library, "libpst.so.0"), "rb") as file:
        wanted = [int(it) for it in re.findall(rb"GLIBC_2\.(\d+)", file.read())]
    told = re.findall(r"manylinux_2_(\d+)_", "".join(made))
    trial.tally.note("the wheel's tag tells the C library", told and max(wanted) <= int(told[0]), f"{wanted} {told}")
    environment = {key: trial.environment[key] for key in trial.environment if key not in ("PST_LIBRARY", "PYTHONPATH")}
    ran = trial.run(*python("-m", "venv", own), env=environment)
    if ran.returncode:
        trial.tally.pass_over("the wheel in an environment of its own", "python3 -m venv does not work")
        return
    install = [f"{own}/bin/python", "-m", "pip", "install", "-q", "--no-index", "--no-deps", "--disable-pip-version-check"]
    trial.need("the wheel is installed", *install, *made, env=environment)
    code = "import pst, sys; sys.stdout.buffer.write(pst.open(sys.argv[1]).answer('check', '-'))"
    mail = sample("mail.pst")
    ran = trial.run(f"{own}/bin/python", "-c", code, mail, env=environment, cwd=folder)
    trial.same("the wheel's answer", ran, trial.show(mail, "check", "-"))
    made_by_pip = trial.path("made-by-pip")
    make = [f"{own}/bin/python", "-m", "pip", "wheel", "-q", "--no-index", "--no-deps", "-w", made_by_pip, PYTHON]
    trial.need("pip makes the wheel", *make, env=dict(environment, PST_LIBRARY=trial.environment["PST_LIBRARY"]))


# ---- what is installed

TOOLS = {"c": ("cc", "pkg-config"), "python": ("python3",)}
PAGE = os.path.join(ROOT, "docs", "LIBRARY.md")
SCREEN = "## From nothing to an answer\n"


def programs():
    """The programs of the page's first screen: the language, the file, its text, and the commands that build and run it."""
    with open(PAGE, encoding="utf-8") as file:
        screen = file.read().partition(SCREEN)[2].partition("\n## ")[0]
    blocks = re.findall(r"```(\w+)\n(.*?)```", screen, flags=re.DOTALL)
    for (language, text), (_, commands) in zip(blocks, blocks[1:]):
        if language != "sh":
            yield language, re.search(r"[\w/]+\.\w+", text)[0], text, commands


def installed(trial, below):
    """Whether ./install works, for the library that is tried: that of built/ or the one that was made here."""
    ran = trial.run(f"{ROOT}/install", below)
    is_good = ran.returncode == 0
    trial.tally.note("./install", is_good, (ran.stdout + ran.stderr).decode())
    return is_good


def newcomers(trial):
    """The page's first programs, over what is installed, each in a folder with a store alone."""
    below = trial.path("below")
    if not all(trial.run(f"{ROOT}/tools/keep", word).returncode == 0 for word in ("--program", "--library")):
        trial.tally.pass_over("./install, and a newcomer's programs", "nothing is there to install that is of the sources")
        return
    if not installed(trial, below):
        return
    found = list(programs())
    trial.tally.note("the page's first screen", [it[0] for it in found] == ["c", "rust", "python"], str(found))
    environment = {key: it for key, it in trial.environment.items() if not key.startswith(("PST_", "PYTHONPATH"))}
    for language, file, text, commands in found:
        what = f"a newcomer's program in {language}"
        if trial.lacks_rust(what) if language == "rust" else trial.lacks(what, *TOOLS[language]):
            continue
        folder = trial.path(f"newcomer-{language}")
        os.makedirs(os.path.dirname(os.path.join(folder, file)))
        shutil.copy(sample("mail.pst"), folder)
        with open(os.path.join(folder, file), "w", encoding="utf-8") as out:
            out.write(text)
        ran = trial.run("sh", "-ec", commands.replace("~/.local", below), cwd=folder, env=environment)
        wanted = trial.show(sample("mail.pst"), "check", "-").stdout
        if language != "c":
            wanted = f"{json.loads(wanted)['messages']}\n".encode()
        got = (ran.returncode, ran.stdout)
        trial.tally.note(what, got == (0, wanted), f"{got}\n{ran.stderr.decode()}")
    ran = trial.run(f"{ROOT}/install", "--uninstall", below)
    left = [name for _, _, names in os.walk(below) for name in names]
    trial.tally.note("./install --uninstall", (ran.returncode, left) == (0, []), str(left))
