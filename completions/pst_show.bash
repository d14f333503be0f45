# Completion of pst_show for bash.

_pst_show() {
    local word=${COMP_WORDS[COMP_CWORD]} command='' index files=0
    local commands='check damage head nodes folders contents messages props value export explain help'
    COMPREPLY=()
    for ((index = 1; index < COMP_CWORD; index++)); do
        case ${COMP_WORDS[index]} in
            -*) ;;
            *)
                if [[ -z $command ]]; then
                    command=${COMP_WORDS[index]}
                else
                    ((files++))
                fi
                ;;
        esac
    done
    if [[ -z $command ]]; then
        [[ $word == -* ]] && commands='--help --version'
        mapfile -t COMPREPLY < <(compgen -W "$commands" -- "$word")
        return
    fi
    if [[ $word == -* ]]; then
        local options='--help'
        case $command in
            check) options='--help --strict --digest --decode' ;;
            damage) options='--help --digest --decode' ;;
            head) options='--help --decode' ;;
            nodes) options='--help --decode' ;;
            folders) options='--help --whole --decode' ;;
            contents) options='--help --whole --decode' ;;
            messages) options='--help --whole --decode' ;;
            props) options='--help --places --whole --decode' ;;
            value) options='--help --text --whole --decode' ;;
            export) options='--help --whole --decode' ;;
        esac
        mapfile -t COMPREPLY < <(compgen -W "$options" -- "$word")
        return
    fi
    ((files == 0)) || return
    case $command in
        help) mapfile -t COMPREPLY < <(compgen -W "$commands" -- "$word") ;;
        explain) mapfile -t COMPREPLY < <(compgen -W '1 Short 2 Magic 3 Version 4 Encoded 5 HeaderCheck 6 Root 7 MapsInvalid 8 PagePlace 9 PageTrailer 10 PageShape 11 KeyOrder 12 Overlap 13 BlockPlace 14 BlockTrailer 15 BlockMissing 16 DataTree 17 Subnode 18 Nesting 19 MapPage 20 MapMissing 21 Heap 22 HeapId 23 Bth 24 Property 25 Table 26 NodeMissing 27 NodeKind 28 NoMemory' -- "$word") ;;
        check | damage | head | nodes | folders | contents | messages | props | value | export)
            compopt -o filenames 2>/dev/null
            mapfile -t COMPREPLY < <(compgen -d -- "$word"; compgen -f -X '!*.[pP][sS][tT]' -- "$word")
            ;;
    esac
}

complete -F _pst_show pst_show
