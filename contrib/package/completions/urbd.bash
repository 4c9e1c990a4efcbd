# Completion of urbd for bash.
_urbd() {
    local word=${COMP_WORDS[COMP_CWORD]} last=${COMP_WORDS[COMP_CWORD - 1]} options
    case $last in
        --dir | --socket-dir) mapfile -t COMPREPLY < <(compgen -d -- "$word"); return ;;
        --socket) mapfile -t COMPREPLY < <(compgen -f -- "$word"); return ;;
        --nodes) mapfile -t COMPREPLY < <(compgen -W '1 2 3 4 5 6 7' -- "$word"); return ;;
        --format) mapfile -t COMPREPLY < <(compgen -W 'text hex json' -- "$word"); return ;;
        --*) [[ $last == --version || $last == --help || $last == --no-crash || $last == --no-tcp ]] || return ;;
    esac
    if ((COMP_CWORD == 1)); then
        options='serve status submit read publish follow replay help --version --help'
    else
        case ${COMP_WORDS[1]} in
            serve)
                options='--nodes --cap --dir --base-port --tick-ms --connections --idle-minutes --no-crash'
                options+=' --socket-dir --socket-mode --no-tcp --help'
                ;;
            status) options='--port --socket --base-port --nodes --help' ;;
            submit) options='--port --socket --client --number --help' ;;
            read) options='--port --socket --from --max --help' ;;
            publish) options='--port --socket --client --help' ;;
            follow) options='--port --socket --from --format --help' ;;
            *) options='--help' ;;
        esac
    fi
    mapfile -t COMPREPLY < <(compgen -W "$options" -- "$word")
}
complete -F _urbd urbd
