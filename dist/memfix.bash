# Completions of memfix for bash.
_memfix() {
    local word=${COMP_WORDS[COMP_CWORD]} before=${COMP_WORDS[COMP_CWORD - 1]}
    COMPREPLY=()
    if [ "$COMP_CWORD" -eq 1 ]; then
        COMPREPLY=($(compgen -W "repair replay" -- "$word"))
    elif [ "${COMP_WORDS[1]}" = replay ]; then
        case $before in
            replay) COMPREPLY=($(compgen -W "--steps" -- "$word")) ;;
            --steps | --fails | --input) ;;
            *)
                # The options come in one order, each once.
                case " ${COMP_WORDS[*]:0:COMP_CWORD} " in
                    *" --input "*) ;;
                    *" --fails "*) COMPREPLY=($(compgen -W "--input" -- "$word")) ;;
                    *) COMPREPLY=($(compgen -W "--fails --input" -- "$word")) ;;
                esac
                ;;
        esac
    fi
}
complete -o default -F _memfix memfix
