"""Tries the must-fail edits of a crate several at a time, each by a check of the functions that it changes.

A function is proved by its own body and by the contracts of what it calls. So edits that change nothing but the bodies of
different functions do not meet: what the prover says of one of these functions is the same whether or not the others are edited, and
nothing else of the crate need be looked at. An edit is refused here where the prover tells, of a place in the function that this edit
alone has changed, or of the answers that are written for it, that something is not proved there; of a function that is not proved
only because it calls one that is not, no such place is told. Those of which nothing is told, as of a function that calls one without
a proof, are tried together again, without the others. The only edit of a crate, for which rt makes no folder to begin with, is tried
by a check of the module that it changes and of what that calls, in place of one of the whole crate from nothing. All else (an edit
that changes more than a body, one of which nothing is told when no other is tried beside it, or that a proof names what it took away,
a check that comes to no verdict) is tried as rt does, alone and by a check of the whole crate.
"""
import contextlib
import os
import re
import shutil
import tempfile
import threading

# How many edits are tried in one check at most: a check has one processor, and others want work, too.
MOST = 16
ROOTS = ("src/lib.rt", "src/main.rt")
BEGIN = re.compile(r"( *)(pub(\([a-z]+\))? )?(const )?fn (?P<name>\w+)")
ARGUMENTS = re.compile(r"<[^<>]*>")
IMPL = re.compile(r"impl ((\w+::)*(?P<of>\w+) for )?(?P<type>\w+)( \{| where|$)")
PLACE = re.compile(r"note: (?:\./)?(?P<file>src/\S+?\.rt):(?P<line>\d+):\d+: (?:it is not proved|`search` found no proof) ")
ANSWER = re.compile(r"(?:\./)?proofs/(?P<of>\S+)/Answers\.antt:\d+:\d+: error: (?!.*(has no field|is not in scope|has no `|was not admitted))")


class Function:
    """A function of a source: its file and name, the type and the trait whose it is, empty where it is of none, and the numbers of its
    first line, which is that of its first attribute where it has any, of that with the brace before its body, and of the last, from 1
    on; and whether another function of its file has its type and its name."""

    def __init__(self, file, name, lines, first, opens, last):
        self.file, self.name, self.first, self.opens, self.last = file, name, first, opens, last
        self.key, self.has_twin = (file, first), False
        self.module = [] if file in ROOTS else file[len("src/") : -len(".rt")].split("/")
        self.type, self.trait = type_of(lines[:first]) if lines[first - 1].startswith(" ") else ("", "")

    def path(self):
        """Its path below the crate, as rattle takes it, or that of its module where it has a twin."""
        own = [] if self.has_twin or self.type is None else [it for it in (self.type + self.trait, self.name) if it]
        return "::".join([*self.module, *own])

    def is_told(self, line):
        """Whether a line of what the prover says tells that something of it is not proved: of a place in it, or of its answers."""
        place, answer = PLACE.match(line), ANSWER.match(line)
        if place:
            return place["file"] == self.file and self.first <= int(place["line"]) <= self.last
        return bool(answer) and self.is_answered_by(answer["of"].split("/"))

    def is_answered_by(self, folders):
        """Whether its answers stand in these folders: those of its module, of its type where it has one, and of its name, which has a
        plus before it where the function calls itself."""
        *of, name = folders
        return not self.has_twin and "::".join([*of, name.removeprefix("+")]) == self.path()


def functions_of(file, text):
    """The functions of a source."""
    lines, found = text.split("\n"), []
    for at, line in enumerate(lines, 1):
        begins = BEGIN.match(line)
        if not begins or line.rstrip().endswith((";", "}")):
            continue
        margin = begins[1]
        first = at
        while first > 1 and lines[first - 2].startswith(margin + "#["):
            first -= 1
        opens = next((i for i, it in enumerate(lines[at - 1 :], at) if it == margin + "{}" or opens_body(it, margin, i == at)), None)
        ends = next((i for i, it in enumerate(lines[at:], at + 1) if it == margin + "}"), None)
        if opens and ends and opens < ends and lines[opens - 1] != margin + "{}":
            found.append(Function(file, begins["name"], lines, first, opens, ends))
    names = [(it.type, it.name) for it in found]
    for it in found:
        it.has_twin = names.count((it.type, it.name)) > 1
    return found


def type_of(lines):
    """The type of the last `impl` of these lines, and the trait, empty where it is of none; no type where it is of one that has
    others as its arguments."""
    begin = next((it for it in reversed(lines) if it.startswith("impl")), "")
    bare = begin
    while ARGUMENTS.search(bare):
        bare = ARGUMENTS.sub("", bare)
    told = IMPL.match(bare)
    if not told or re.search(rf"\b{told['type']}<[^']", begin):
        return None, ""
    return told["type"], told["of"] or ""


def opens_body(line, margin, is_first):
    """Whether a line of a function ends with the brace before its body, as the layout has it: alone, or behind the answer's type."""
    return line == margin + "{" or line.endswith(" {") and (is_first or line.startswith((margin + ")", margin + "where ")))


class Edit:
    """An edit: its file's path, and what it changes."""

    def __init__(self, path):
        self.path, self.changes = path, []
        file = old = None
        with open(path, encoding="utf-8") as lines:
            for line in lines.read().split("\n"):
                if line.startswith("file: "):
                    file = line[len("file: ") :].strip()
                elif line.startswith("old: "):
                    old = line[len("old: ") :]
                elif line.startswith("new:"):
                    self.changes.append((file, old, line[len("new:") :].removeprefix(" ")))

    def applied(self, texts):
        """The texts with its changes, or None where one of these does not stand there once, as rt has it."""
        texts = dict(texts)
        for file, old, new in self.changes:
            if not old or texts.get(file, "").count(old) != 1:
                return None
            texts[file] = texts[file].replace(old, new)
        return texts

    def functions(self, texts):
        """The functions whose bodies it changes, or by which tactics they are proved; nothing where it changes more than that."""
        found = {}
        for file, old, _ in self.changes:
            text = texts.get(file, "")
            if not old or text.count(old) != 1:
                return None
            line, is_tactic = text.count("\n", 0, text.index(old)) + 1, old.strip().startswith("#[tactic(")
            of = [it for it in functions_of(file, text) if (it.first if is_tactic else it.opens + 1) <= line < it.last]
            if len(of) != 1:
                return None
            found[of[0].key] = of[0]
        return found


class Group:
    """Edits of a crate that change different functions, each with those that it changes."""

    def __init__(self):
        self.edits, self.came, self.trying = [], None, threading.Lock()

    def takes(self, functions):
        """Whether there is room for another one, which changes these functions."""
        mine = {it.key for _, them in self.edits for it in them}
        return len(self.edits) < MOST and mine.isdisjoint(it.key for it in functions)


class Together:
    """Which edits are tried in one check, by their paths, and which are the only ones of their crates."""

    def __init__(self, rt):
        self.rt, self.of, self.only = rt, {}, set()
        # Of each crate the groups; the folder over which the functions that its edits change are proved as they stand; and whether an
        # edit was tried over it by a check of the whole crate.
        self.groups_of, self.proved, self.whole = {}, {}, set()

    def groups(self, crate, paths):
        """The edits of a crate that are tried in one check each: groups that have one at least. An only one is noted."""
        texts, groups = sources(crate.folder), []
        self.only.update(paths if len(paths) == 1 else ())
        for edit in map(Edit, paths):
            functions = list((edit.functions(texts) or {}).values())
            if functions:
                fitting = next((it for it in groups if it.takes(functions)), None)
                if not fitting:
                    fitting = Group()
                    groups.append(fitting)
                fitting.edits.append((edit, functions))
        return groups

    def in_turn(self, crate, paths, flags, kept):
        """Those edits of a crate that are refused, by their paths, over what was proved of it: none where the functions that they
        change are not proved there as they stand."""
        groups = self.groups(crate, paths)
        edits = [it for group in groups for it in group.edits]
        if not edits or self.rt.checked(crate, {}, [*flags, *only(edits)], kept).returncode:
            return {}
        return {path: it for group in groups for path, it in self.refused(crate, group.edits, flags, kept).items()}

    def as_tasks(self, crate, paths):
        """The paths of the edits of a crate that are tried in one check each, the first of them that is asked for with all others."""
        groups = self.groups(crate, paths)
        self.groups_of[crate.name] = groups
        self.of.update((edit.path, group) for group in groups for edit, _ in group.edits)
        return [[edit.path for edit, _ in group.edits] for group in groups]

    def begin(self, crate, flags, kept):
        """Checks the functions that a crate's edits change, as they stand, over the folder that its edits begin with: what such a check
        leaves there spares each of those behind it as much. Where they are not proved there, no edit is tried with others."""
        edits = [it for group in self.groups_of.get(crate.name, ()) for it in group.edits]
        if edits and not self.rt.checked(crate, {}, [*flags, *only(edits)], kept).returncode:
            self.proved[crate.name] = kept
        else:
            self.of = {path: group for path, group in self.of.items() if path not in {edit.path for edit, _ in edits}}

    def stands(self, crate, kept):
        """Whether what a crate's edits were tried by is proved as it stands, over the folder that they began with."""
        return self.proved.get(crate.name) == kept and crate.name not in self.whole

    def must_fail(self, made):
        """How an edit is tried: as one of a group where it is in one, the only one of a crate by its module, else as rt does."""

        def must_fail(crate, path, flags, kept=None):
            group = self.of.get(path)
            if path in self.only and not kept:
                return self.refused_in_module(crate, path, flags) or made(crate, path, flags, kept)
            if not kept or not group:
                self.whole.update([crate.name] if kept else ())
                return made(crate, path, flags, kept)
            with group.trying:
                if group.came is None:
                    group.came = self.refused(crate, group.edits, flags, kept)
            if path not in group.came:
                self.whole.add(crate.name)
            return group.came.get(path) or made(crate, path, flags, kept)

        return must_fail

    def refused(self, crate, edits, flags, kept):
        """Tries edits with those functions that they change, and those again of which nothing is told, as long as there are fewer of
        them; gives those that are refused."""
        found = self.refused_together(crate, edits, flags, kept)
        left = [it for it in edits if it[0].path not in found]
        return {**found, **self.refused(crate, left, flags, kept)} if found and left else found

    def refused_together(self, crate, edits, flags, kept):
        """Tries edits in one check of the functions that they change, over a copy of what was proved, and gives those that are
        refused, as rt tells it of one."""
        texts = sources(crate.folder)
        for edit, _ in edits:
            # (one whose words another has written, too, is left out, so that nothing is told of it)
            texts = edit.applied(texts) or texts
        changed = {file: texts[file] for edit, _ in edits for file, _, _ in edit.changes}
        try:
            with copied(self.rt, kept) as over:
                ran = self.rt.checked(crate, changed, [*flags, *only(edits)], over)
        except (OSError, shutil.Error):
            return {}
        lines = ran.stdout.rstrip("\n").split("\n")
        if ran.returncode != 1 or not lines[-1].startswith("only="):
            return {}
        came = {edit.path: self.told_of(crate, edit, functions, lines) for edit, functions in edits}
        return {path: it for path, it in came.items() if it}

    def refused_in_module(self, crate, path, flags):
        """Tries the only edit of a crate, where it changes bodies of one module below the root, by a check of that module alone."""
        texts, edit = sources(crate.folder), Edit(path)
        functions = (edit.functions(texts) or {}).values()
        files = {it.file for it in functions}
        if len(files) != 1 or files <= {*ROOTS}:
            return None
        [file] = files
        changed = edit.applied(texts)
        if not changed:
            return None
        module = file[len("src/") : -len(".rt")].replace("/", "::")
        ran = self.rt.checked(crate, {file: changed[file]}, [*flags, "--only", module], None)
        lines = ran.stdout.rstrip("\n").split("\n")
        if ran.returncode != 1 or not lines[-1].startswith("only="):
            return None
        return self.told_of(crate, edit, functions, lines)

    def told_of(self, crate, edit, functions, lines):
        """That an edit is refused, as rt tells it of one, where the prover tells it of one of these functions."""
        told = next((line for line in lines if any(it.is_told(line) for it in functions)), None)
        if not told:
            return None
        label = f"must-fail {crate.name}/{os.path.basename(edit.path)}"
        return getattr(self.rt, "REFUSED", True), f"{label}: refused, as it must be: {told[:160]}"


def only(edits):
    """The words by which rattle checks the functions of these edits, and those that they call, and no others."""
    paths = {it.path() for _, functions in edits for it in functions}
    return [word for path in sorted(paths) for word in ("--only", path)]


@contextlib.contextmanager
def copied(rt, kept):
    """A copy of a folder of kept work, which is gone afterwards."""
    with tempfile.TemporaryDirectory(prefix=f"{os.path.basename(kept)}-", dir=os.path.dirname(kept)) as room:
        over = os.path.join(room, "kept")
        getattr(rt, "linked", shutil.copytree)(kept, over)
        yield over


def sources(folder):
    """The sources of a crate, by their paths in it."""
    found = {}
    for at, _, names in os.walk(f"{folder}/src"):
        for name in names:
            if name.endswith(".rt"):
                with open(f"{at}/{name}", encoding="utf-8") as file:
                    found[os.path.relpath(f"{at}/{name}", folder)] = file.read()
    return found
