"""How pst_report ends where there is no report to make, or where something fails on the way."""

import os
import stat
import subprocess

from trying.pages import REPORT, sample

PASS_ON = '#!/bin/sh\n"{program}" "$@"; status=$?\n'


def run(words, program, **how):
    """The status of a report, whether it printed anything, and its lines on standard error."""
    ran = subprocess.run([REPORT, "--program", program, *words], stdout=subprocess.PIPE, stderr=subprocess.PIPE, check=False, **how)
    return ran.returncode, len(ran.stdout), ran.stderr.decode()


def fake(room, text):
    """A program of these lines in place of pst_show."""
    path = os.path.join(room, "fake")
    with open(path, "w", encoding="utf-8") as file:
        file.write(text)
    os.chmod(path, 0o755)
    return path


def refused(status, said, got):
    """What is wrong where a report has to end with a status, nothing on standard output, and these words on standard error."""
    return [] if got[:2] == (status, 0) and said in got[2] else [f"{got} and not {status}, {said!r}"]


def copy(room, name="copy.pst"):
    """A copy of a sample."""
    path = os.path.join(room, name)
    with open(sample("mail")(room), "rb") as file, open(path, "wb") as other:
        other.write(file.read())
    return path


def words_are_refused(program, room):
    path = sample("mail")(room)
    for words in ([], [path, path], ["--frob", path], ["-"], ["-x.pst"], [os.fsdecode(b"\xff.pst")]):
        yield from refused(2, "pst_report", run(words, program))


def what_cannot_be_read_is_told(program, room):
    yield from refused(3, "cannot read the file\n  nowhere.pst: No such file", run(["nowhere.pst"], program))
    yield from refused(3, "cannot read the file", run([room], program))
    yield from refused(3, "Not a regular file", run(["/dev/null"], program))
    yield from refused(3, "line 1 is not a status", run(["--many", sample("mail")(room)], program))
    damages = os.path.join(room, "damages.tsv")
    with open(damages, "w", encoding="utf-8") as file:
        file.write('1\tx.pst\t{"blocks":[],"pages":[]}\n')
    yield from refused(3, "line 1 is none of check", run(["--many", damages], program))


def a_name_may_begin_with_a_hyphen(program, room):
    copy(room, "-x.pst")
    got = run(["--", "-x.pst"], program, cwd=room)
    return [] if got[0] == 0 and got[1] and not got[2] else [str(got)]


def a_change_meanwhile_is_seen(program, room):
    """A byte that is added, or changed, once a command has answered: there is no report."""
    for command in ("head", "check", "messages"):
        for change in ('printf x >>"$file"', "printf x | dd of=\"$file\" bs=1 seek=19550 conv=notrunc status=none"):
            path = copy(room)
            lines = PASS_ON.format(program=program) + f'for file; do :; done\n[ "$1" != {command} ] || {change}\nexit $status\n'
            got = run([path], fake(room, lines))
            if got[0] != 3 or got[1] or "changed while it was read" not in got[2]:
                yield f"{command}, {change}: {got}"


def what_stops_the_program_stops_the_report(program, room):
    path = sample("mail")(room)
    endings = (("echo 'out of memory' >&2; exit 4", 4, "out of memory"), ("kill -9 $$", 125, "ended by signal 9"),
               ("echo 'cannot read the file' >&2; exit 3", 3, "cannot read the file"), ("exit 77", 125, "status 77"))
    for command in ("head", "check", "folders", "messages"):
        for lines, status, said in endings:
            text = f'#!/bin/sh\n[ "$1" != {command} ] || {{ {lines}; }}\n"{program}" "$@"\n'
            yield from refused(status, said, run([path], fake(room, text)))


def what_is_whole_of_a_damaged_store_is_shown(program, room):
    """By a program that has --whole; here it says of two folders, of one of which the messages are not known."""
    lines = {"folders": '{"folders":[{"associated":0,"messages":null,"name":"A folder","nid":"0x122","path":["0x122"],"subfolders":[]},'
                        '{"associated":0,"messages":1,"name":"Another one","nid":"0x8022","path":null,"subfolders":[]}]}',
             "messages": '{"attachments":0,"class":null,"folders":["0x8022"],"nid":"0x400024","received":null,"recipients":0,"sender":null,'
                         '"sent":null,"size":77,"subject":"What is left"}'}
    cases = "".join(f"    '{command} --help') echo '      --whole  Reads what is whole';;\n    '{command} --whole') echo '{line}';;\n"
                    for command, line in lines.items())
    text = f'#!/bin/sh\ncase "$1 $2" in\n{cases}    *) exec "{program}" "$@";;\nesac\n'
    status, length, said = run([sample("outlook_pages")(room)], program)
    words = [REPORT, "--program", fake(room, text), sample("outlook_pages")(room)]
    ran = subprocess.run(words, capture_output=True, text=True, check=False)
    wanted = ("Only what is whole is shown here", "A folder", "Another one", "What is left", "messages --whole")
    if (status, ran.returncode, ran.stderr) != (1, 1, "") or not all(it in ran.stdout for it in wanted):
        yield f"{status} {length} {said}, {ran.returncode}, {ran.stderr}, {[it for it in wanted if it not in ran.stdout]}"


def no_program_is_told(program, room):
    yield from refused(3, "cannot read the file", run([sample("mail")(room)], os.path.join(room, "nowhere")))
    plain = fake(room, "no program\n")
    os.chmod(plain, stat.S_IRUSR)
    yield from refused(125, "cannot run", run([sample("mail")(room)], plain))


def what_cannot_be_written_is_told(program, room):
    words = [REPORT, "--program", program, sample("mail")(room)]
    with open("/dev/full", "wb") as full:
        ran = subprocess.run(words, stdout=full, stderr=subprocess.PIPE, text=True, check=False)
    if (ran.returncode, ran.stderr) != (3, "cannot write\n"):
        yield f"/dev/full: {ran.returncode}, {ran.stderr}"
    with subprocess.Popen(words, stdout=subprocess.PIPE, stderr=subprocess.PIPE, text=True) as ran:
        ran.stdout.close()
        said = ran.stderr.read()
    if (ran.returncode, said) != (3, ""):
        yield f"a closed pipe: {ran.returncode}, {said}"


def the_same_file_has_the_same_page(program, room):
    """Byte for byte, where the date is the same; whatever order the machine's sets have."""
    pages = set()
    for seed in ("1", "2"):
        environment = dict(os.environ, SOURCE_DATE_EPOCH="1700000000", PYTHONHASHSEED=seed)
        words = [REPORT, "--program", program, sample("mail")(room)]
        pages.add(subprocess.run(words, env=environment, capture_output=True, check=True).stdout)
    return [] if len(pages) == 1 and b"14 November 2023, 22:13 UTC" in pages.pop() else ["two pages of one file"]


def help_and_version_are_told(program, room):
    told = subprocess.run([REPORT, "--help"], capture_output=True, text=True, check=False)
    return [] if told.returncode == 0 and "pst_report FILE >report.html" in told.stdout and not told.stderr else [str(told)]


def what_is_kept_of_d3_is_that_of_its_list(program, room):
    """The files of d3, beside their SHA-256."""
    folder = os.path.join(os.path.dirname(REPORT), "d3")
    words = ["sha256sum", "--check", "--strict", "--quiet", "SHA256SUMS"]
    ran = subprocess.run(words, cwd=folder, capture_output=True, text=True, check=False)
    listed = {line.split()[1] for line in open(os.path.join(folder, "SHA256SUMS"), encoding="utf-8")}
    there = {it for it in os.listdir(folder) if it.endswith(".js")}
    return [] if ran.returncode == 0 and listed == there else [ran.stdout + ran.stderr, str(listed ^ there)]


TRIALS = (words_are_refused, what_cannot_be_read_is_told, a_name_may_begin_with_a_hyphen, a_change_meanwhile_is_seen,
          what_stops_the_program_stops_the_report, what_is_whole_of_a_damaged_store_is_shown, no_program_is_told,
          what_cannot_be_written_is_told, the_same_file_has_the_same_page, help_and_version_are_told,
          what_is_kept_of_d3_is_that_of_its_list)


def tried(program, room):
    """The name of each trial, and what is wrong."""
    for trial in TRIALS:
        yield trial.__name__.replace("_", " "), list(trial(program, room))
