# Which pst_show runs: the one that was proved and built here, or the one that is kept in built/; else one is proved and
# built now. For ./pst_show, ./install, ./check and tools/keep, which set `root` to this repository and read this file.
# It needs a POSIX shell and awk, cmp, find, sed, sha256sum, sort, uname and xargs; `rt` only to prove and build.

crates=$root/crates
out=$crates/pst_show/out
log=$out/build.log
lock=$out/building

proved=$out/pst_show
proved_note=$out/built

kept=$root/built/pst_show
kept_text=$root/built/pst_show.txt
kept_note=$out/kept

# What is said, and the status of a failure of the script itself; `teller` and `failure` are ./install's.
say() { printf '%s: %s\n' "${teller:-pst_show}" "$1" >&2; }

fail() {
    say "$1"
    exit "${failure:-125}"
}

# The crates that a crate stands on and itself, one a line, those below first, by crates.txt.
names() {
    awk -v top="$1" '
        function visit(name, parts, i, n) {
            if (!(name in below) || name in seen) return
            seen[name] = 1
            n = split(below[name], parts, " ")
            for (i = 1; i <= n; i++) visit(parts[i])
            print name
        }
        { sub(/#.*/, ""); colon = index($0, ":") }
        colon { split(substr($0, 1, colon - 1), words, " "); below[words[1]] = substr($0, colon + 1) }
        END { visit(top) }
    ' "$root/crates.txt"
}

# The lines of crates.txt that say of these crates what they stand on, without comments, one blank between words.
lines() {
    names "$1" | awk '
        NR == FNR { wanted[$1] = 1; next }
        { sub(/#.*/, ""); $1 = $1; name = $1; sub(/:.*/, "", name) }
        name in wanted
    ' - "$root/crates.txt" | LC_ALL=C sort
}

# The folders of the sources of these crates, one a line, from the top of the repository.
folders() {
    names "$1" | while IFS= read -r name; do
        for part in src specs proofs; do
            [ ! -d "$crates/$name/$part" ] || echo "crates/$name/$part"
        done
    done
}

digest() { sha256sum | sed 's/ .*//'; }

# One number for all that a crate is made from: the sources and proofs of it and of the crates that it stands on, their lines of
# crates.txt, HANDLES, and the files that are named behind it. Of pst_show it is the number of the program.
sources() {
    {
        lines "$1"
        cat "$root/HANDLES"
        (cd "$root" && { folders "$1" | xargs sh -c 'find "$@" -type f' sh; shift; [ $# -eq 0 ] || printf '%s\n' "$@"; } |
            LC_ALL=C sort | xargs sha256sum)
    } | digest
}

# Whether some source of the program, or one of these files, has changed since the note was written. A `find` that doesn't
# know -cnewer is taken to say yes: then the sources are looked at each time.
is_changed_since() {
    note=$1
    shift
    [ -n "$({ folders pst_show | sed "s|^|$root/|"; printf '%s\n' "$root/crates.txt" "$root/HANDLES" "$@"; } | tr '\n' '\0' |
        xargs -0 sh -c 'note=$1; shift; find "$@" -cnewer "$note" 2>&1' sh "$note" | head -n 1)" ]
}

# What a note or the text beside the kept program has behind a word.
told() { sed -n "s/^$1: //p" "$2" 2>/dev/null; }

# Writes a note from standard input beside its place. It has the time of this moment, which `keep_note` does not change: so
# what changes while the sources are looked at is newer than the note. Where nothing can be written there is none.
begin_note() { { mkdir -p "$out" && cat >"$1.$$"; } 2>/dev/null || :; }
keep_note() { mv -f "$1.$$" "$1" 2>/dev/null || :; }
drop_note() { rm -f "$1.$$" 2>/dev/null || :; }

machine() { uname -sm; }

# Whether the program that was proved and built here is of the sources as they stand.
is_proved() {
    [ -x "$proved" ] && [ -f "$proved_note" ] || return 1
    is_changed_since "$proved_note" "$proved" || return 0
    begin_note "$proved_note" <"$proved_note"
    if [ "$(told sources "$proved_note")" = "$(sources pst_show)" ] && [ "$(told program "$proved_note")" = "$(digest <"$proved")" ]; then
        keep_note "$proved_note"
    else
        drop_note "$proved_note"
        return 1
    fi
}

# Whether the kept program is the one of its text, of the sources as they stand, and runs here; else `why` says what not.
is_kept_anew() {
    why='built/pst_show is not the program of which built/pst_show.txt tells'
    [ "$(digest <"$kept")" = "$(told program "$kept_text")" ] || return 1
    why='the program in built/ is of other sources than those that are here'
    [ "$(sources pst_show)" = "$(told sources "$kept_text")" ] || return 1
    why="the program in built/ does not run here; it wants $(told system "$kept_text")"
    [ "$("$kept" --version 2>/dev/null)" = "$(told version "$kept_text")" ]
}

# The same, by a note of the last look where no file has changed since. Where no note can be written, each run looks.
is_kept() {
    why='built/ has no program'
    [ -f "$kept" ] && [ -f "$kept_text" ] || return 1
    why="the program in built/ is for $(told machine "$kept_text"), and this is $(machine)"
    [ "$(machine)" = "$(told machine "$kept_text")" ] || return 1
    why='there is no sha256sum to look at the program in built/'
    command -v sha256sum >/dev/null 2>&1 || return 1
    [ ! -f "$kept_note" ] || [ "$(cat "$kept_note")" != "$(uname -a)" ] ||
        is_changed_since "$kept_note" "$kept" "$kept_text" || return 0
    uname -a | begin_note "$kept_note"
    if is_kept_anew; then
        keep_note "$kept_note"
    else
        drop_note "$kept_note"
        return 1
    fi
}

# How many processors this process may use.
processors() { nproc 2>/dev/null || getconf _NPROCESSORS_ONLN 2>/dev/null || echo 2; }

# One build at a time: a second run waits for the first. The lock is a folder with the builder's process number.
take_lock() {
    mkdir -p "$out" 2>/dev/null
    [ -w "$out" ] || fail "cannot be built: $out cannot be written to"
    is_told=
    until mkdir "$lock" 2>/dev/null; do
        builder=$(cat "$lock/pid" 2>/dev/null)
        if [ -n "$builder" ] && ! kill -0 "$builder" 2>/dev/null; then
            rm -rf "$lock"
            continue
        fi
        [ -n "$is_told" ] || say "waits for another run, which is building the program"
        is_told=yes
        sleep 1
    done
    echo $$ >"$lock/pid"
    trap 'rm -rf "$lock"' EXIT
    trap 'exit 130' INT
    trap 'exit 143' TERM
}

leave_lock() {
    rm -rf "$lock"
    trap - EXIT INT TERM
}

# How many crates are proved by the log, which tells of a crate anew wherever another one stands on it.
count_proved() {
    awk '/^crate / { name = $2 } /^logic=proved/ { proved[name] } END { for (name in proved) n++; print n + 0 }' "$log"
}

# Says how far the build is: on a terminal in one line that changes, elsewhere once in half a minute.
watch() {
    count=$(names "$2" | grep -c .)
    seconds=0
    while kill -0 "$1" 2>/dev/null; do
        done_now=$(count_proved)
        line="$done_now of $count crates are proved, $((seconds / 60)) min $((seconds % 60)) s"
        if [ -t 2 ]; then
            printf '\rpst_show: %s ' "$line" >&2
        elif [ $((seconds % 30)) -eq 0 ] && [ $seconds -gt 0 ]; then
            say "$line"
        fi
        sleep 1
        seconds=$((seconds + 1))
    done
    [ ! -t 2 ] || printf '\n' >&2
}

# The kit's rt, which is a program in Python, as tools/rt.py runs it.
run_rt() {
    if command -v python3 >/dev/null 2>&1; then python3 "$root/tools/rt.py" "$@"; else rt "$@"; fi
}

# Proves the crates, those below first, each with all processors, and then builds the program: only a proved program is
# built. Most crates stand on the one before, so one with all processors is sooner done than several with one each.
make_program() {
    names pst_show | while IFS= read -r name; do
        (cd "$crates/$name" && run_rt check --jobs "$(processors)" </dev/null) || exit 1
    done && (cd "$crates/pst_show" && run_rt run -- --version </dev/null)
}

changed_meanwhile='a source was changed while it was proved: try again'

# Notes that the program in out/ was proved and built from the sources of this number, if these have it still.
note_proved() {
    printf 'sources: %s\nprogram: %s\nkit: %s\n' "$1" "$(digest <"$proved")" "$(rt version)" | begin_note "$proved_note"
    if [ "$(sources pst_show)" = "$1" ]; then
        keep_note "$proved_note"
    else
        drop_note "$proved_note"
        return 1
    fi
}

# Proves a crate and makes what is wanted of it, by a command, and says how far that is. `$1` names what is wanted in what is said.
build() {
    command -v rt >/dev/null 2>&1 ||
        fail "$1 has to be proved and built, and the command rt of the Rattle kit is not on the PATH (docs/INSTALL.md)"
    say "$1 is proved and built first, which takes one to two hours, by the machine; $log tells of it"
    : >"$log"
    "$3" >"$log" 2>&1 &
    builder=$!
    watch $builder "$2"
    wait $builder || {
        tail -n 5 "$log" >&2
        fail "$1 was not built; $log says why"
    }
}

# Proves and builds the program where it is not yet, or where its sources have changed.
need_proved() {
    is_proved && return
    take_lock
    is_proved || {
        of_now=$(sources pst_show)
        build it pst_show make_program
        note_proved "$of_now" || fail "$changed_meanwhile"
    }
    leave_lock
}

# Leaves in `program` the one to run, and in `about` the file that tells its digest and the number of its sources: what was
# proved here comes first, then what is kept; else it is proved and built.
need_program() {
    program=$proved about=$proved_note
    is_proved && return
    program=$kept about=$kept_text
    is_kept && return
    program=$proved about=$proved_note
    say "$why"
    need_proved
}

# Says whether the program that was proved here has the bytes of the kept one; 1 where it has not.
tell_whether_kept() {
    if cmp -s "$proved" "$kept"; then
        say 'the program that was proved and built here has the bytes of the one in built/'
        return 0
    fi
    say "the program that was proved and built here, $proved, has other bytes than the one in built/"
    [ "$(told sources "$kept_text")" = "$(sources pst_show)" ] || say 'that one is of other sources'
    [ "$(told kit "$kept_text")" = "$(rt version 2>/dev/null)" ] ||
        say "that one was built with another kit, $(told kit "$kept_text"); here is $(rt version 2>/dev/null)"
    return 1
}
