"""What a trial of the library needs: the tools that are there, runs beside the program's, and the tally."""

import concurrent.futures
import glob
import json
import os
import shutil
import subprocess
import sys
import threading

ROOT = os.path.dirname(os.path.dirname(os.path.dirname(os.path.abspath(__file__))))
EXAMPLES = os.path.join(ROOT, "examples")
C_FLAGS = "-std=c11 -D_DEFAULT_SOURCE -D_POSIX_C_SOURCE=200809L -g -O1 -Wall -Wextra -Werror".split()
SANITIZERS = ["-fsanitize=address,undefined", "-fno-sanitize-recover=all"]
VALGRIND = ["valgrind", "-q", "--error-exitcode=99", "--leak-check=full", "--errors-for-leak-kinds=all"]
WRAP = "-Wl,--wrap=malloc,--wrap=realloc,--wrap=free"
DEBIAN = "/usr/share/cargo/registry"
# Where cargo takes crates from in a trial: Debian's, where they are there, and nothing by network.
CARGO = "[net]\noffline = true\n"
OF_DEBIAN = f'[source.crates-io]\nreplace-with = "debian"\n\n[source.debian]\ndirectory = "{DEBIAN}"\n'


def sample(name):
    return os.path.join(ROOT, "samples", name)


class Tally:
    """How many trials passed, how many did not, and what was passed over."""

    def __init__(self):
        self.passed = self.failed = 0
        self.passed_over = {}
        self.lock = threading.Lock()

    def note(self, what, holds, said=""):
        with self.lock:
            if holds:
                self.passed += 1
                return
            self.failed += 1
            print(f"FAILED: {what}")
            if said:
                print(said.rstrip(), flush=True)

    def pass_over(self, what, why):
        with self.lock:
            self.passed_over.setdefault(why, []).append(what)


class Trial:
    """The library beside the program. is_quick leaves out what takes long."""

    def __init__(self, library, program, work, is_quick, damaged):
        self.library, self.program, self.work = os.path.abspath(library), os.path.abspath(program), work
        self.is_quick, self.damaged = is_quick, damaged
        self.tally = Tally()
        self.samples = sorted(glob.glob(sample("*.pst")))
        self.environment = dict(
            os.environ,
            PST_LIBRARY=os.path.join(self.library, "libpst.so.0"),
            PYTHONPATH=os.path.join(ROOT, "bindings", "python"),
            PYTHONDONTWRITEBYTECODE="1",
            PST_LIB_DIR=self.library,
            CARGO_TARGET_DIR=os.path.join(work, "cargo"),
            LC_ALL="C.UTF-8",
        )
        self.environment.pop("MAKEFLAGS", None)
        self.is_sanitized = self.has("gcc") and self.links(SANITIZERS)
        self.rust = os.path.join(work, "rust")
        self.has_rust = self.has("cargo") and self.is_rust_ready()

    # ---- the tools

    def has(self, *tools):
        return all(shutil.which(tool) for tool in tools)

    def links(self, flags):
        """Whether gcc has what these flags want."""
        ran = subprocess.run(
            ["gcc", *flags, "-xc", "-", "-o", self.path("nothing")],
            input=b"int main(void) { return 0; }",
            capture_output=True,
        )
        return ran.returncode == 0

    def is_rust_ready(self):
        """Copies what is in Rust into a folder of its own, and tells whether the crate's one dependency can be had without network."""
        for name in ("bindings/rust", "examples/rust"):
            ignored = shutil.ignore_patterns("target", "Cargo.lock", ".cargo")
            shutil.copytree(os.path.join(ROOT, name), os.path.join(self.rust, name), ignore=ignored)
        os.symlink(os.path.join(ROOT, "samples"), os.path.join(self.rust, "samples"))
        os.mkdir(self.path(".cargo"))
        with open(self.path(".cargo/config.toml"), "w", encoding="utf-8") as file:
            file.write(CARGO + (OF_DEBIAN if glob.glob(f"{DEBIAN}/serde_json-*") else ""))
        return self.run("cargo", "fetch", "-q", cwd=f"{self.rust}/examples/rust").returncode == 0

    def lacks_rust(self, what):
        """Whether nothing in Rust can be built here, and what is passed over for that."""
        if self.has_rust or self.lacks(what, "cargo"):
            return not self.has_rust
        self.tally.pass_over(what, "serde_json is not there (Debian: librust-serde-json-dev)")
        return True

    def lacks(self, what, *tools):
        """Whether a tool is missing, and what is passed over for that."""
        missing = [tool for tool in tools if not shutil.which(tool)]
        if missing:
            self.tally.pass_over(what, f"{missing[0]} is not there")
        return bool(missing)

    # ---- runs

    def path(self, name):
        return os.path.join(self.work, name)

    def run(self, *words, **how):
        how.setdefault("env", self.environment)
        return subprocess.run(words, stdin=how.pop("stdin", subprocess.DEVNULL), capture_output=True, **how)

    def need(self, what, *words, **how):
        """Runs what has to end well."""
        ran = self.run(*words, **how)
        self.tally.note(what, ran.returncode == 0, (ran.stdout + ran.stderr).decode(errors="replace"))
        return ran

    def show(self, path, *words):
        """What the program answers over a file."""
        with open(path, "rb") as file:
            return subprocess.run([self.program, *words], stdin=file, capture_output=True)

    def told(self, path, *words):
        """The same, where that is a document; None where the file is refused."""
        ran = self.show(path, *words)
        return None if ran.returncode else json.loads(ran.stdout)

    def same(self, what, ran, wanted):
        got, want = ((it.returncode, it.stdout, it.stderr) for it in (ran, wanted))
        self.tally.note(what, got == want, f"  it says {got}\n  and not {want}")

    def build_c(self, name, sources, *flags):
        path = self.path(name)
        sources = [os.path.join(EXAMPLES, it) for it in sources]
        words = ["gcc", *C_FLAGS, *flags, f"-I{ROOT}/include", *sources, os.path.join(self.library, "libpst.a")]
        self.need(f"{name} is built", *words, "-lpthread", "-o", path)

    def by_threads(self, jobs):
        """Runs jobs, as many at once as there are processors. What one raises is a trial that failed."""
        with concurrent.futures.ThreadPoolExecutor(len(os.sched_getaffinity(0))) as pool:
            running = {pool.submit(*job): job for job in jobs}
            for done in concurrent.futures.as_completed(running):
                if done.exception() is not None:
                    words = running[done]
                    self.tally.note(f"{words[0].__qualname__} {words[1:]}", False, repr(done.exception()))


def python(*words):
    return [sys.executable, *words]
