#!/usr/bin/env python3
"""Writes the completions, and the synopsis and the commands of the manual page, from the program's own help.

What the program takes stands once, in the list of its commands (crates/pst_ask/src/verb.rt) and in their help. This asks
the built program for its help and for that of each command, and `explain` for the kinds of fault, and writes completions/ and, of
man/pst_show.1, the synopsis and the commands. The completions of report/pst_report have the options that its own help names.
With --compare it writes nothing, and says which file is another one; the status is 1 then. --program names the program in place
of ./pst_show.
"""
import argparse
import os
import re
import subprocess
import sys
from typing import NamedTuple

ROOT = os.path.dirname(os.path.dirname(os.path.abspath(__file__)))
STORE = "*.(#i)pst(-.)"
# What is completed of the options of pst_report: what each does, and what stands behind it.
REPORT = {"--program": ("Asks this program", "program"), "--many": ("Writes a page over many stores", "table"),
          "--version": ("Shows the version", "")}


class Word(NamedTuple):
    """A word behind the name of a command: its name, its help, whether there may be several, and whether there may be none."""
    name: str
    text: str
    is_many: bool
    is_optional: bool


class Command(NamedTuple):
    """A command: its name, what it is for, its flags, each with its help, its words, and what it does, in lines."""
    name: str
    about: str
    flags: list
    words: list
    does: list

    def takes_file(self):
        return any(word.name == "FILE" for word in self.words)


def help_of(program, *words):
    """The lines of what `--help` shows."""
    return subprocess.run([program, *words, "--help"], capture_output=True, text=True, check=True).stdout.splitlines()


def rows(lines, title):
    """The pairs of columns below a title, up to an empty line."""
    if title not in lines:
        return []
    below = lines[lines.index(title) + 1:]
    end = below.index("") if "" in below else len(below)
    return [re.split(r"\s{2,}", line.strip(), maxsplit=1) for line in below[:end]]


def command_of(program, name, about):
    """A command by its own help. The flags that every command has, as --help, are left out."""
    if name == "help":
        return Command(name, "Shows help", [], [], ["Shows help, or that of a command."])
    lines = help_of(program, name)
    flags = [(flag.split()[-1], text) for flag, text in rows(lines, "Options:") if "--help" not in flag]
    words = [
        Word(word.strip("<>[]."), text, word.endswith("..."), word.startswith("["))
        for word, text in rows(lines, "Arguments:")
    ]
    end = lines.index("Exit status:")
    start = max(index for index in range(end - 1) if lines[index] == "") + 1
    return Command(name, about, flags, words, lines[start:end - 1])


def commands_of(program):
    return [command_of(program, *row) for row in rows(help_of(program), "Commands:")]


def kinds_of(program):
    """The kinds of fault: of each its number, its name and what it says."""
    lines = subprocess.run([program, "explain"], capture_output=True, text=True, check=True).stdout.splitlines()
    return [re.fullmatch(r"(\d+) (\w+): (.*)", line).groups() for line in lines]


def quoted(text):
    """A text in the quotes of a shell."""
    return "'" + text.replace("'", "'\\''") + "'"


def report_options():
    """The options of pst_report by its help, each with what it does and what stands behind it."""
    lines = [line for line in help_of(f"{ROOT}/report/pst_report") if line.startswith("    pst_report ")]
    return {option: REPORT[option] for line in lines for option in re.findall(r"--\w+", line)}


def own(commands):
    """The commands but for `help`, which clap adds."""
    return [command for command in commands if command.name != "help"]


# ---- bash

BASH = """\
# Completion of pst_show for bash.

_pst_show() {{
    local word=${{COMP_WORDS[COMP_CWORD]}} command='' index files=0
    local commands='{names}'
    COMPREPLY=()
    for ((index = 1; index < COMP_CWORD; index++)); do
        case ${{COMP_WORDS[index]}} in
            -*) ;;
            *)
                if [[ -z $command ]]; then
                    command=${{COMP_WORDS[index]}}
                else
                    ((files++))
                fi
                ;;
        esac
    done
    if [[ -z $command ]]; then
        [[ $word == -* ]] && commands='--help --version'
        mapfile -t COMPREPLY < <(compgen -W "$commands" -- "$word")
        return
    fi
    if [[ $word == -* ]]; then
        local options='--help'
        case $command in
{options}
        esac
        mapfile -t COMPREPLY < <(compgen -W "$options" -- "$word")
        return
    fi
    ((files == 0)) || return
    case $command in
        help) mapfile -t COMPREPLY < <(compgen -W "$commands" -- "$word") ;;
        explain) mapfile -t COMPREPLY < <(compgen -W '{kinds}' -- "$word") ;;
        {files})
            compopt -o filenames 2>/dev/null
            mapfile -t COMPREPLY < <(compgen -d -- "$word"; compgen -f -X '!*.[pP][sS][tT]' -- "$word")
            ;;
    esac
}}

complete -F _pst_show pst_show
"""


def bash(commands, kinds):
    options = [
        f"            {command.name}) options='--help {' '.join(flag for flag, _ in command.flags)}' ;;"
        for command in commands
        if command.flags
    ]
    return BASH.format(
        names=" ".join(command.name for command in commands),
        options="\n".join(options),
        files=" | ".join(command.name for command in commands if command.takes_file()),
        kinds=" ".join(word for number, name, _ in kinds for word in (number, name)),
    )


BASH_REPORT = """\
# Completion of pst_report for bash.

_pst_report() {{
    local word=${{COMP_WORDS[COMP_CWORD]}}
    COMPREPLY=()
    if [[ $word == -* ]]; then
        mapfile -t COMPREPLY < <(compgen -W '--help {options}' -- "$word")
        return
    fi
    compopt -o filenames 2>/dev/null
    case ${{COMP_WORDS[COMP_CWORD - 1]}} in
        {files}) mapfile -t COMPREPLY < <(compgen -f -- "$word") ;;
        *) mapfile -t COMPREPLY < <(compgen -d -- "$word"; compgen -f -X '!*.[pP][sS][tT]' -- "$word") ;;
    esac
}}

complete -F _pst_report pst_report
"""


def bash_report(options):
    return BASH_REPORT.format(options=" ".join(options), files=" | ".join(name for name, (_, file) in options.items() if file))


# ---- zsh

ZSH = """\
#compdef pst_show
# Completion of pst_show for zsh.

_pst_show() {{
    local -a commands kinds
    local kind
    commands=(
{names}
    )
    if ((CURRENT == 2)); then
        if [[ $PREFIX == -* ]]; then
            _arguments '(- *)'{{-h,--help}}'[show help]' '(- *)'{{-V,--version}}'[show the version]'
        else
            _describe -t commands command commands
        fi
        return
    fi
    local command=$words[2]
    shift words
    ((CURRENT--))
    case $command in
{cases}
        explain)
            for kind in \\
{kinds}; do
                kinds+=("${{kind%% *}}:${{kind#*:}}" "${{kind#* }}")
            done
            _arguments '(- *)'{{-h,--help}}'[show help]' '1:kind:{{_describe kind kinds}}'
            ;;
        help)
            ((CURRENT == 2)) && _describe -t commands command commands
            ;;
    esac
}}

_pst_show "$@"
"""


def zsh_word(place, word):
    """What stands at a place, or from there on: a store, or a word of which only the help is shown."""
    if word.name == "FILE":
        return f"'{place}:store:_files -g \"{STORE}\"'"
    where = "*" if word.is_many else place
    return f"'{where}:{':' if word.is_optional else ''}{word.text}: '"


def zsh_case(command):
    given = ["'(- *)'{-h,--help}'[show help]'"]
    given += [f"'{flag}[{text}]'" for flag, text in command.flags]
    given += [zsh_word(place, word) for place, word in enumerate(command.words, 1)]
    arguments = " \\\n                ".join(given)
    return f"        {command.name})\n            _arguments {arguments}\n            ;;"


def zsh(commands, kinds):
    return ZSH.format(
        names="\n".join(f"        '{command.name}:{command.about}'" for command in commands),
        cases="\n".join(zsh_case(command) for command in own(commands) if command.name != "explain"),
        kinds=" \\\n".join(f"                {quoted(f'{number} {name}:{text}')}" for number, name, text in kinds),
    )


def zsh_report(options):
    given = ["'(- *)'{-h,--help}'[show help]'"]
    given += [f"'{name}[{text}]{f':{file}:_files' if file else ''}'" for name, (text, file) in options.items()]
    arguments = " \\\n    ".join([*given, zsh_word(1, Word("FILE", "", False, False))])
    return f"#compdef pst_report\n# Completion of pst_report for zsh.\n\n_arguments {arguments}\n"


# ---- fish

def fish(commands, kinds):
    names = " ".join(command.name for command in commands)
    helped = " ".join(command.name for command in own(commands))
    files = " ".join(command.name for command in commands if command.takes_file())
    none = 'complete -c pst_show -n "not __fish_seen_subcommand_from $commands"'
    lines = ["# Completion of pst_show for fish.", "", f"set -l commands {names}", "", "complete -c pst_show -f"]
    lines += [f"{none} -s h -l help -d 'Show help'", f"{none} -s V -l version -d 'Show the version'"]
    lines += [f"{none} -a {command.name} -d '{command.about}'" for command in commands]
    for command in commands:
        seen = f'complete -c pst_show -n "__fish_seen_subcommand_from {command.name}"'
        lines += [f"{seen} -l {flag.lstrip('-')} -d '{text}'" for flag, text in command.flags]
    lines += [
        f'complete -c pst_show -n "__fish_seen_subcommand_from explain" -a "{number} {name}" -d {quoted(text)}'
        for number, name, text in kinds
    ]
    lines += [
        f"complete -c pst_show -n \"__fish_seen_subcommand_from {helped}\" -s h -l help -d 'Show help'",
        f'complete -c pst_show -n "__fish_seen_subcommand_from {files}" \\',
        '    -k -a "(__fish_complete_suffix .pst)"',
        'complete -c pst_show -n "__fish_seen_subcommand_from help" -a "$commands"',
    ]
    return "\n".join(lines) + "\n"


def fish_report(options):
    lines = ["# Completion of pst_report for fish.", "", "complete -c pst_report -f", "complete -c pst_report -s h -l help -d 'Show help'"]
    lines += [
        f"complete -c pst_report -l {name.lstrip('-')}{' -r -F' if file else ''} -d '{text}'" for name, (text, file) in options.items()
    ]
    return "\n".join([*lines, 'complete -c pst_report -k -a "(__fish_complete_suffix .pst)"']) + "\n"


# ---- the manual page

def usage(command):
    lines = [f".B pst_show {command.name}"]
    lines += [f".RB [ {flag} ]".replace("-", "\\-") for flag, _ in command.flags]
    words = [f"{word.name} ..." if word.is_many else word.name for word in command.words if not word.is_optional]
    lines += [".I " + " ".join(words)] if words else []
    lines += [f".RI [ {word.name} ]" for word in command.words if word.is_optional]
    return "\n".join(lines)


def shared_flags(commands):
    """The flags of every command that takes a file, which stand below the page's options."""
    return set.intersection(*(set(flag for flag, _ in command.flags) for command in commands if command.takes_file()))


def described(command, shared):
    """What a command does, and its own flags."""
    lines = [".TP", f".B {command.name}", *command.does]
    for flag, text in command.flags:
        if flag not in shared:
            lines += [".br", f".BR {flag} :", f"{text}."]
    return "\n".join(lines).replace("-", "\\-")


def with_section(page, title, text):
    """The page with what stands below a title written anew."""
    front, rest = page.split(f".SH {title}\n", maxsplit=1)
    return f"{front}.SH {title}\n{text}\n{rest[rest.index('.SH '):]}"


def manual(commands, page):
    """The page with its synopsis and its commands written anew."""
    synopsis = "\n.br\n".join(usage(command) for command in own(commands))
    shared = shared_flags(commands)
    page = with_section(page, "SYNOPSIS", synopsis)
    return with_section(page, "COMMANDS", "\n".join(described(command, shared) for command in commands))


# ---- all of them

def text_of(path):
    if not os.path.isfile(os.path.join(ROOT, path)):
        return ""
    with open(os.path.join(ROOT, path), encoding="utf-8") as file:
        return file.read()


def written(commands, kinds, options):
    """The files with what they have to hold."""
    page = "man/pst_show.1"
    return {
        "completions/pst_show.bash": bash(commands, kinds),
        "completions/_pst_show": zsh(commands, kinds),
        "completions/pst_show.fish": fish(commands, kinds),
        "completions/pst_report.bash": bash_report(options),
        "completions/_pst_report": zsh_report(options),
        "completions/pst_report.fish": fish_report(options),
        page: manual(commands, text_of(page)),
    }


def main():
    parser = argparse.ArgumentParser(description="Writes completions and parts of the manual page.")
    parser.add_argument("--program", default=f"{ROOT}/pst_show", help="the program, in place of ./pst_show")
    parser.add_argument("--compare", action="store_true", help="writes nothing, and says which files are others")
    given = parser.parse_args()
    program = os.path.abspath(given.program)
    files = written(commands_of(program), kinds_of(program), report_options())
    others = [path for path, text in files.items() if text_of(path) != text]
    if given.compare:
        for path in others:
            print(f"{path} is not what tools/write_words.py writes")
        return 1 if others else 0
    for path in others:
        with open(os.path.join(ROOT, path), "w", encoding="utf-8") as file:
            file.write(files[path])
        print(f"{path} is written anew")
    return 0


if __name__ == "__main__":
    sys.exit(main())
