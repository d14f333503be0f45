# Which library is used: the one that was proved and made here, or the one that is kept in built/; else it is proved and made now.
# For ./install, ./check and tools/keep, which read tools/program.sh before. It is libpst.a and libpst.so.0, in one folder.

libraries='libpst.a libpst.so.0'

made=$crates/pst_c/out/library
made_note=$made/libpst.txt
archive=$crates/pst_c/out/libpst_c.a

kept_library=$root/built
kept_library_text=$kept_library/libpst.txt

# One number for all that the library is made from: the crates, the C around their calls, its header, and how both are put together.
library_sources() { sources pst_c bindings/c/build bindings/c/shell.c include/pst.h; }

# Whether the libraries of a folder are those of a text, of the sources as they stand; else `why` says what not.
is_library_of() {
    why="$1 has no library"
    for name in $libraries; do
        [ -f "$1/$name" ] && [ -f "$2" ] || return 1
    done
    for name in $libraries; do
        why="$1/$name is not the one of which $2 tells"
        [ "$(digest <"$1/$name")" = "$(told "$name" "$2")" ] || return 1
    done
    why="the library in $1 is of other sources than those that are here"
    [ "$(library_sources)" = "$(told sources "$2")" ]
}

is_library_made() { is_library_of "$made" "$made_note"; }

# Of the kept one also whether it is for this machine.
is_library_kept() {
    why="the library in built/ is for $(told machine "$kept_library_text"), and this is $(machine)"
    [ ! -f "$kept_library_text" ] || [ "$(machine)" = "$(told machine "$kept_library_text")" ] || return 1
    is_library_of "$kept_library" "$kept_library_text"
}

# The newest version of the C library that a file asks for.
c_library() { LC_ALL=C grep -aoE 'GLIBC_[0-9.]+' "$1" | sort -t. -k 1,1 -k 2,2n -u | tail -n 1 | sed 's/_/ /; s/GLIBC/glibc/'; }

# What the library of a folder is, and what it was made from; the sources have this number.
tell_library() {
    for name in $libraries; do
        echo "$name: $(digest <"$1/$name")"
    done
    echo "sources: $2"
    echo "proved: $(digest <"$archive")"
    echo "kit: $(rt version)"
    echo "compiler of shell.c: $("$root/bindings/c/build" --compiler)"
    echo "machine: $(machine)"
    echo "system: Linux on x86-64, $(c_library "$1/libpst.so.0") or newer"
    echo "version: $(sed -n 's/^#define PST_VERSION "\(.*\)"$/\1/p' "$root/include/pst.h")"
}

# Proves crates/pst_c, and the crates below it where they are not proved yet, and makes the archive of it.
make_archive() { (cd "$crates/pst_c" && run_rt lib --jobs "$(processors)" </dev/null); }

# The same behind `rt ci`, over what that proved and left.
make_archive_of_ci() {
    python3 "$root/tools/make_archive.py" && return
    [ $? -eq 3 ] && make_archive
}

# Makes the library of the archive that the command makes: only what is proved is built.
make_library_by() { "$1" && "$root/bindings/c/build" "$made" "$archive"; }
make_library() { make_library_by make_archive; }

# Notes that the library was made from the sources of this number, if these have it still.
note_library() {
    [ "$(library_sources)" = "$1" ] || return 1
    tell_library "$made" "$1" >"$made_note.new" && mv -f "$made_note.new" "$made_note"
}

# Proves and makes the library where it is not yet, or where its sources have changed.
need_library_made() {
    is_library_made && return
    take_lock
    is_library_made || {
        of_now=$(library_sources)
        build 'the library' pst_c make_library
        note_library "$of_now" || fail "$changed_meanwhile"
    }
    leave_lock
}

# Leaves in `library` the folder of the one to use, and in `about_library` the file that tells of it.
need_library() {
    library=$made about_library=$made_note
    is_library_made && return
    library=$kept_library about_library=$kept_library_text
    is_library_kept && return
    library=$made about_library=$made_note
    say "$why"
    need_library_made
}

# Says whether the library that was made here has the bytes of the kept one; 1 where it has not.
tell_whether_library_kept() {
    for name in $libraries; do
        cmp -s "$made/$name" "$kept_library/$name" && continue
        say "$made/$name, which was proved and built here, has other bytes than built/$name"
        for word in sources proved kit 'compiler of shell.c'; do
            [ "$(told "$word" "$kept_library_text")" = "$(told "$word" "$made_note")" ] ||
                say "  $word: there $(told "$word" "$kept_library_text"), here $(told "$word" "$made_note")"
        done
        return 1
    done
    say 'the library that was proved and built here has the bytes of the one in built/'
}
