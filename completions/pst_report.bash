# Completion of pst_report for bash.

_pst_report() {
    local word=${COMP_WORDS[COMP_CWORD]}
    COMPREPLY=()
    if [[ $word == -* ]]; then
        mapfile -t COMPREPLY < <(compgen -W '--help --program --many --version' -- "$word")
        return
    fi
    compopt -o filenames 2>/dev/null
    case ${COMP_WORDS[COMP_CWORD - 1]} in
        --program | --many) mapfile -t COMPREPLY < <(compgen -f -- "$word") ;;
        *) mapfile -t COMPREPLY < <(compgen -d -- "$word"; compgen -f -X '!*.[pP][sS][tT]' -- "$word") ;;
    esac
}

complete -F _pst_report pst_report
