# Completion of cpe for bash: its words, what stands after bind, and how many records make and drill take.

_cpe() {
    local words=
    COMPREPLY=()
    case ${COMP_WORDS[COMP_CWORD - 1]} in
        *[\<\>]*)
            # (files stand after these alone)
            compopt -o default
            return ;;
    esac
    case $COMP_CWORD in
        1) words='unbind bind compare resolve evaluate watch convert explain check advise save load cover make drill' ;;
        2)
            case ${COMP_WORDS[1]} in
                bind) words='fs uri' ;;
                make | drill) words='1 10 100 1000 10000 100000 800000' ;;
            esac ;;
    esac
    COMPREPLY=($(compgen -W "$words" -- "${COMP_WORDS[COMP_CWORD]}"))
}

complete -F _cpe cpe
