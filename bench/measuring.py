"""Runs programs one after another on one core, and tells what they cost."""
import os
import statistics
import subprocess
import time

MEGABYTE = 1_000_000
BENCH = os.path.dirname(os.path.abspath(__file__))
OUT = os.path.join(BENCH, "out")
ROOT = os.path.dirname(BENCH)
WHICH = 'root=$1; . "$1/tools/program.sh"; need_program; printf %s "$program"'


def program():
    """The program that ./pst_show runs, which proves and builds it where it has none."""
    return subprocess.run(["sh", "-c", WHICH, "bench", ROOT], check=True, stdout=subprocess.PIPE, text=True).stdout


class Cost:
    """What the runs of one command cost: processor seconds and elapsed seconds of each, the greatest memory of
    any; and how it ended, where that was not with the status that it should have."""

    def __init__(self, status=0):
        self.seconds, self.elapsed, self.peak, self.ending, self.status = [], [], 0, "", status

    def add(self, status, nanos, elapsed, memory, refusal):
        """One run more, as run_alone tells of it, and its line of refusal."""
        self.seconds.append(nanos / 1e9)
        self.elapsed.append(elapsed / 1e9)
        self.peak = max(self.peak, memory)
        if os.WIFSIGNALED(status):
            self.ending = f"ended by signal {os.WTERMSIG(status)} after {self.seconds[-1]:.0f} s"
        elif os.WEXITSTATUS(status) != self.status:
            self.ending = f"status {os.WEXITSTATUS(status)}: {refusal}"

    @property
    def least(self):
        """The fewest processor seconds of a run."""
        return min(self.seconds)

    @property
    def median(self):
        """The processor seconds of the run in the middle."""
        return statistics.median(self.seconds)


class Bench:
    """How often and how long programs are run, where the stores are, and how many aims were met and missed. First it
    builds the programs of C."""

    def __init__(self, turns, limit, program):
        self.turns, self.limit, self.program = turns, limit, program
        self.met = self.missed = 0
        os.makedirs(OUT, exist_ok=True)
        for name in ("run_alone", "read_and_sum", "encode_store"):
            subprocess.run(["cc", "-O2", "-o", f"{OUT}/{name}", f"{BENCH}/{name}.c"], check=True)

    def store(self, name, *words, deep=False, reached=False):
        """Makes a store; a deep one has trees of as many levels as there may be, and of one that is reached the messages
        are found from its top folder."""
        path = os.path.join(OUT, "_".join((name, *map(str, words))) + ".pst")
        flags = ["--deep"] * deep + ["--reached"] * reached
        subprocess.run([f"{BENCH}/make_store", *flags, name, path, *map(str, words)], check=True)
        return path

    def encoded(self, store, method):
        """Encodes a store by the method of a bCryptMethod."""
        path = f"{store[:-4]}_encoded_{method}.pst"
        subprocess.run([f"{OUT}/encode_store", store, str(method), path], check=True)
        return path

    def knows(self, *command):
        """Whether the program has this command, here without its file."""
        words = [self.program, command[0], os.devnull, *command[1:]]
        return subprocess.run(words, capture_output=True, check=False).returncode != 2

    def costs(self, commands, turns=None, patience=None, status=0):
        """What each of these commands costs, which should end with this status; they take turns. There are fewer turns
        where they take longer than the patience."""
        made = [Cost(status) for _ in commands]
        begin = time.monotonic()
        for _ in range(turns or self.turns):
            for command, cost in zip(commands, made):
                cost.add(*self.run(command))
            if time.monotonic() - begin > (patience or self.limit) or any(cost.ending for cost in made):
                break
        return made

    def run(self, words):
        """Runs a command; answers what run_alone tells of it, and its line of refusal."""
        told = subprocess.run([f"{OUT}/run_alone", str(self.limit), *words], check=True, capture_output=True)
        return *map(int, told.stdout.split()), told.stderr.decode(errors="replace").split("\n")[0]

    @staticmethod
    def printed(words):
        """How many bytes a command writes on standard output."""
        return len(subprocess.run(words, check=False, stdout=subprocess.PIPE).stdout)

    def judge(self, cost, value, aim):
        """Says whether a value is at most what is aimed at; it is missed where a run did not end well."""
        if value <= aim and not cost.ending:
            self.met += 1
            return f"at most {aim}: met"
        self.missed += 1
        return f"at most {aim}: **missed**"


def megabytes(count):
    """A number of bytes in megabytes, to be printed."""
    return f"{count / MEGABYTE:.1f}"


def seconds(number):
    """A number of seconds, to be printed."""
    return f"{number:.3f}" if number < 10 else f"{number:.1f}"


def print_table(heads, rows):
    """Prints a table as markdown."""
    print("| " + " | ".join(heads) + " |")
    print("|" + "---|" * len(heads))
    for row in rows:
        print("| " + " | ".join(map(str, row)) + " |", flush=True)
    print(flush=True)
